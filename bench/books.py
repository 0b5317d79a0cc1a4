#!/usr/bin/env python3
"""Prints how the built program lays whole books out: processor time, its growth over ten times the input, and memory.

With a second word, the path of another program of the same command line, it prints the ratios of time and memory to that one too.

    bench/books.py crates/bookfmt/out/bookfmt [OTHER]"""
import os
import sys
import tempfile

TOP = os.path.dirname(os.path.dirname(os.path.abspath(__file__)))
PROGRAM = sys.argv[1] if len(sys.argv) > 1 else f"{TOP}/crates/bookfmt/out/bookfmt"
OTHER = sys.argv[2] if len(sys.argv) > 2 else None
RUNS = 5
LINE = "The printing house stood at the corner of the square, and nobody had set a clock by anything else. "
ITEM = "<h2>One &amp; two</h2><p>" + LINE * 5 + "<b>Bold</b> and <em>slanted</em>.</p><ul><li>one<li>two <code>x = 1</code></ul>\n"
SHEET = "h2{margin:1em 0 .5em}p{margin:0;text-align:justify;text-indent:1em}h2+p{text-indent:0}li{margin:.2em 0}code{font-size:90%}"


NOTES = ".n{float:footnote}"


def manual(size):
    return ITEM * (size // len(ITEM) + 1)


BOOKS = {
    "a manual": (manual, SHEET),
    "a manual without a sheet": (manual, ""),
    "prose": (lambda size: ("<p>" + LINE * 7) * (size // (7 * len(LINE))), "p{text-align:justify}"),
    "one paragraph of words": (lambda size: "<p>" + LINE * (size // len(LINE)), ""),
    "one paragraph of letters": (lambda size: "<p>" + "a" * size, ""),
    "letters that break anywhere": (lambda size: "<p>" + "a" * size, "p{overflow-wrap:anywhere}"),
    "line breaks": (lambda size: "<p>" + "<br>" * (size // 12), ""),
    "inline elements one after another": (lambda size: "<p>" + "<b>a</b> " * (size // 24), ""),
    "inline elements in one another": (lambda size: "<p>" + ("<b>" * 150 + "a " + "</b>" * 150) * (size // 1200), ""),
    "blocks in one another": (lambda size: ("<div>" * 150 + "a" + "</div>" * 150) * (size // 1651), ""),
    "soft hyphens": (lambda size: "<p>" + "ab\u00ad" * (size // 4), ""),
    "spaces that are kept": (lambda size: "<pre>" + "a " * (size // 2), "pre{white-space:pre-wrap}"),
    "counters": (lambda size: "<ol>" + "<li>a" * (size // 20), "li{counter-increment:x 2 y}li::before{content:counter(x)\":\"counters(y,\".\")\" \"}"),
    "forced breaks": (lambda size: "<p>a" * min(99_000, size // 40), "p{break-before:page}"),
    "a manual with notes": (lambda size: ("<h2>One</h2><p>" + LINE * 4 + "<span class=n>" + LINE + "</span> " + LINE * 3) * (size // 900), SHEET + NOTES),
    "a paragraph of calls": (lambda size: "<p>" + "a<span class=n>x</span> " * (size // 300), NOTES),
    "a note of lines": (lambda size: "<p>a<span class=n>" + "a<br>" * (size // 30) + "</span>", NOTES),
    "notes of one line": (lambda size: "<p>a<span class=n>x</span>" * (size // 32), NOTES),
    "kept together": (lambda size: ("<div><p>" + LINE + "<p>" + LINE + "</div>") * (size // 220), "div{break-inside:avoid}"),
}


def least(program, work):
    """The least processor time of some runs, in seconds, and the most memory, in megabytes."""
    words = [program, "format", f"{TOP}/examples/manual/metrics.txt", f"{work}/html", f"{work}/sheet"]
    best, memory = None, 0
    for _ in range(RUNS):
        child = os.posix_spawn(program, words, os.environ, file_actions=[
            (os.POSIX_SPAWN_OPEN, 1, os.devnull, os.O_WRONLY, 0), (os.POSIX_SPAWN_OPEN, 2, os.devnull, os.O_WRONLY, 0)])
        _, status, used = os.wait4(child, 0)
        if status:
            return None, os.waitstatus_to_exitcode(status)
        spent = used.ru_utime + used.ru_stime
        best = spent if best is None else min(best, spent)
        memory = max(memory, used.ru_maxrss / 1024)
    return best, memory


with tempfile.TemporaryDirectory() as work:
    for name, (text, sheet) in BOOKS.items():
        with open(f"{work}/sheet", "w", encoding="utf-8") as it:
            it.write(sheet)
        spent = []
        for size in (300_000, 3_000_000):
            with open(f"{work}/html", "w", encoding="utf-8") as it:
                it.write(text(size))
            spent.append(least(PROGRAM, work))
        (less, _), (more, memory) = spent
        if less is None or more is None:
            print(f"{name}: status {memory}")
            continue
        line = f"{name}: {1000 * more:.0f} ms, {more / less:.1f} times those of a tenth, {memory:.0f} MB"
        if OTHER:
            time, most = least(OTHER, work)
            line += f"; {more / time:.2f} and {memory / most:.2f} times the other program" if time else "; refused by the other program"
        print(line, flush=True)
