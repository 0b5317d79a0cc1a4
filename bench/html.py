#!/usr/bin/env python3
"""Prints how the built program reads HTML texts: growth over ten times the input, and milliseconds a megabyte.

Each text begins with an element that isn't built, so that it is refused once it is read, and reading is what is measured. With a second word, the path of
another program of the same command line, it prints the ratio of the two times as well. HTML files that are named after it are
read too.

    bench/html.py crates/bookfmt/out/bookfmt [OTHER [FILE..]]"""
import os
import subprocess
import sys
import tempfile
import time

TOP = os.path.dirname(os.path.dirname(os.path.abspath(__file__)))
PROGRAM = sys.argv[1] if len(sys.argv) > 1 else f"{TOP}/crates/bookfmt/out/bookfmt"
OTHER = sys.argv[2] if len(sys.argv) > 2 else None
FILES = sys.argv[3:]
SIZE = 400_000
LINE = "The printing house stood at the corner of the square. "
ITEM = "<div class=a id='b{}'><h2>One &amp; two</h2><p>" + LINE * 6 + "<b>bold</b><ul><li>one<li>two</ul></div>\n"


def filled(part):
    return lambda size: (part * (size // len(part) + 1))[:size].encode()


def manual(size):
    return "".join(ITEM.format(n) for n in range(size // len(ITEM) + 1)).encode()


TEXTS = {
    "a manual": manual,
    "prose": filled("<x>" + LINE * 400),
    "190 open elements": lambda size: ("<div>" * 190 + "<div></div>" * (size // 11)).encode(),
    "190 open elements below a p": lambda size: ("<p><button>" + "<div>" * 188 + "<div></div>" * (size // 11)).encode(),
    "end tags": filled("</p>"),
    "less-than signs": filled("<"),
    "ampersands": filled("&"),
    "references": filled("&amp;&trade;"),
    "words of references": filled("&a;"),
    "comments": filled("<!--"),
    "text with comments": filled("a<!-- b -->"),
    "cut tags": filled("<a "),
    "quotes": filled('"'),
    "attributes of one element": lambda size: ("<p " + " ".join(f"a{n}" for n in range(size // 8)) + ">").encode(),
    "a long tag": lambda size: b"<a" + b"a" * size + b">",
}


def seconds(program, text, work):
    with open(f"{work}/html", "wb") as it:
        it.write(b"<hr>" + text)
    words = [program, "format", f"{TOP}/examples/plain/metrics.txt", f"{work}/html", f"{work}/sheet"]
    best = None
    for _ in range(3):
        begun = time.perf_counter()
        subprocess.run(words, stdout=subprocess.DEVNULL, stderr=subprocess.DEVNULL)
        spent = time.perf_counter() - begun
        best = spent if best is None else min(best, spent)
    return best


with tempfile.TemporaryDirectory() as work:
    open(f"{work}/sheet", "w").close()
    for name, text in TEXTS.items():
        large = text(10 * SIZE)
        less = seconds(PROGRAM, text(SIZE), work)
        more = seconds(PROGRAM, large, work)
        line = f"{name}: {more / less:.1f} times for ten times the text, {1e9 * more / len(large):.1f} ms a megabyte"
        if OTHER:
            line += f", {more / seconds(OTHER, large, work):.1f} times the other program"
        print(line, flush=True)
    for name in FILES:
        with open(name, "rb") as it:
            text = it.read()
        own = seconds(PROGRAM, text, work)
        line = f"{name}: {len(text) / 1e6:.1f} megabytes, {1e9 * own / len(text):.1f} ms a megabyte"
        print(f"{line}, {own / seconds(OTHER, text, work):.1f} times the other program", flush=True)
