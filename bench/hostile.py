#!/usr/bin/env python3
"""Prints how the built program takes hostile books: processor time and memory, and their growth over four times the input.

With a second word, the path of another program of the same command line, the same of that one stands beside it. A run ends after
120 seconds or at 8 GB; a shape whose quarter ends so is not tried whole.

    bench/hostile.py [PROGRAM [OTHER [WORD ..]]]       only the shapes whose names have one of these words"""
import os
import resource
import signal
import sys
import tempfile

TOP = os.path.dirname(os.path.dirname(os.path.abspath(__file__)))
PROGRAM = sys.argv[1] if len(sys.argv) > 1 else f"{TOP}/crates/bookfmt/out/bookfmt"
OTHER = sys.argv[2] if len(sys.argv) > 2 else None
WORDS = sys.argv[3:]
METRICS = "bookmetrics 1\nface test normal 400 16 12 4 8\n"
SECONDS, BYTES = 120, 8 << 30
NOTE = ".n{float:footnote}"
PAGE = "@page{size:100px 100px;margin:0}p{margin:0;break-before:page}"
BOXES = [f"@{side}{at}" for side in ("top-", "bottom-") for at in ("left-corner", "left", "center", "right", "right-corner")]
BOXES += [f"@{side}{at}" for side in ("left-", "right-") for at in ("top", "middle", "bottom")]


def names(n, begin="a"):
    return (f"{begin}{k}" for k in range(n))


# Each shape: the number of its greatest run, and what makes HTML and sheet of a number.
SHAPES = {
    "short notes on one line": (90_000, lambda n: ("<p>" + "<span class=n>x</span>" * n, NOTE)),
    "lines, each with a note and a reference": (50_000, lambda n: (
        "".join(f"<p id=t{k}>a<span class=n>x</span><a href='#t{k}'></a>" for k in range(n)),
        NOTE + "a::after{content:target-counter(attr(href),page)}")),
    "universal rules x nodes": (20_000, lambda n: ("<p>" + "<b></b>" * (n // 2), "*{}" * n)),
    "equal rules for each element": (20_000, lambda n: ("<p>" + "<b></b>" * (n // 2), "*{color:red}" * n)),
    "equal rules for elements of a type": (20_000, lambda n: ("<p>" + "<b></b>" * n, "b{color:red}" * n)),
    "a list of universal selectors x nodes": (100_000, lambda n: ("<p>" + "<b></b>" * (n // 12), ",".join("*" for _ in range(n)) + "{color:red}")),
    "a list of named strings x elements": (6_000, lambda n: ("<p>" + "<b></b>" * n, "b{string-set:" + ",".join(f"{x} 'x'" for x in names(n)) + "}")),
    "generated text past the limit": (390_000, lambda n: ("<p>" + "<b></b>" * n, "b::before{content:'" + "x" * 16_000 + "'}")),
    "generated spaces that collapse": (100_000, lambda n: ("<p>" + "<b></b>" * n, "b::before{content:'" + " " * 16_000 + "'}")),
    "named strings of all text, one in another": (14_000_000, lambda n: ("<div>" * 190 + "a" * n, "div{string-set:s content()}")),
    "one counter many times x elements": (5_000, lambda n: ("<p>" + "<b></b>" * n, "b::before{content:" + "counter(c)" * n + "}")),
    "resets of 64 counters": (350_000, lambda n: ("<p>" + "<b></b>" * n, "b{counter-reset:" + " ".join(names(64)) + "}i::before{content:counter(a1)}")),
    "long names of counters": (100_000, lambda n: ("<p>" + "<b></b>" * (n // 20), "b{counter-increment:" + "a" * n + "}b::before{content:counter(" + "a" * n + ")}")),
    "page names x page rules": (12_500, lambda n: (
        "<p>" + "".join(f"<b style='page:{x}'>a</b>" for x in names(n)), "".join("@page %s{margin:1px}" % x for x in names(n // 10)))),
    "page names x rules with margin boxes": (25_000, lambda n: (
        "<p>" + "".join(f"<b style='page:{x}'>a</b>" for x in names(n)),
        "".join("@page %s{@top-left{content:'a'}}" % x for x in names(n // 10)))),
    "page names that are used x page rules": (19_500, lambda n: (
        "".join(f"<p style='page:{x}'>a</p>" for x in names(n)), "".join("@page %s{margin:1px}" % x for x in names(n)))),
    "page names of one rule": (10_000, lambda n: (
        "".join(f"<p style='page:{x}'>a</p>" for x in names(n)), "@page " + ",".join(names(n)) + "{margin:1px}")),
    "page rules without a name x names that are asked for": (4_000, lambda n: (
        "".join(f"<p style='page:{x}'>a</p>" for x in names(n)),
        "@page{margin:2px}" * n + "".join("@page %s{margin:1px}" % x for x in names(n)))),
    "a list of families x elements": (62_500, lambda n: ("<p>" + "<b>a</b>" * (n // 5), "b{font-family:" + ",".join(names(n)) + "}")),
    "a list of families in margin boxes": (4_000, lambda n: (
        "<p>a</p>" * n, PAGE + "@page{font-family:" + ",".join(names(n)) + ";" + "".join(f"{box}{{content:'a'}}" for box in BOXES) + "}")),
    "widows of 1,000 lines": (60_000, lambda n: ("<p>" + "a<br>" * n, "@page{size:100px 20px;margin:0}p{widows:1000;margin:0}")),
    "painted boxes over many pages": (100_000, lambda n: (
        "<div>" * 190 + "<p>a</p>" * n, PAGE + "div{background-color:red;margin:0;padding:0}")),
    "page names with all margin boxes": (200_000, lambda n: (
        "".join(f"<p style='page:{x}'>a</p>" for x in names(n)),
        "@page{" + "".join(f"{box}{{content:'a'}}" for box in BOXES) + "}")),
}


def bounded():
    resource.setrlimit(resource.RLIMIT_AS, (BYTES, BYTES))
    resource.setrlimit(resource.RLIMIT_CPU, (SECONDS, SECONDS))


def run(program, work):
    """The processor time of a run in seconds, its memory in megabytes, and its status; a signal has a negative one."""
    words = [program, "format", f"{work}/metrics", f"{work}/html", f"{work}/sheet"]
    child = os.fork()
    if not child:
        null = os.open(os.devnull, os.O_WRONLY)
        os.dup2(null, 1)
        os.dup2(null, 2)
        bounded()
        os.execv(program, words)
    _, status, used = os.wait4(child, 0)
    return used.ru_utime + used.ru_stime, used.ru_maxrss / 1024, os.waitstatus_to_exitcode(status)


def told(status):
    return {0: "", 9: ", no memory", -signal.SIGXCPU: f", ended at {SECONDS} s", -signal.SIGKILL: f", ended at {SECONDS} s"}.get(status, f", status {status}")


def measure(program, shape, most, work):
    """A line on a program over a quarter of a shape and over the whole."""
    seen = []
    for n in (most // 4, most):
        html, sheet = shape(n)
        for name, text in (("metrics", METRICS), ("html", html), ("sheet", sheet)):
            with open(f"{work}/{name}", "w", encoding="utf-8") as it:
                it.write(text)
        seen.append(run(program, work))
        if seen[-1][2] < 0:
            break
    (less, _, _), (more, memory, status) = seen[0], seen[-1]
    growth = f", {more / max(less, 0.001):.1f} times those of a quarter" if len(seen) > 1 else " for a quarter"
    return f"{more:.2f} s{growth}, {memory:.0f} MB{told(status)}"


def main():
    with tempfile.TemporaryDirectory() as work:
        for name, (most, shape) in SHAPES.items():
            if WORDS and not any(word in name for word in WORDS):
                continue
            line = f"{name} ({most:,}): {measure(PROGRAM, shape, most, work)}"
            if OTHER:
                line += f"; the other program {measure(OTHER, shape, most, work)}"
            print(line, flush=True)


if __name__ == "__main__":
    main()
