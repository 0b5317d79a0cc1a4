#!/usr/bin/env python3
"""Prints how long the built `style_rows` takes for a question of the styles of a document by its sheet, the reading of both among it:
milliseconds, and how many times those of a tenth of the input."""
import os
import subprocess
import sys
import tempfile
import time

TOP = os.path.dirname(os.path.dirname(os.path.abspath(__file__)))
ROWS = f"{TOP}/crates/style_rows/out/style_rows"


def paragraphs(count, inside=""):
    return "<div>" + "".join(f"<p class='a{n % 1000}{f' b{n % 777}' if n % 2 else ''}'{inside}></p>" for n in range(count)) + "</div>"


def nested(count):
    return ("<div>" * 190 + "<b></b>" * 10 + "</div>" * 190) * (count // 200)


def rules(count, block="color:#123456;margin-left:1em"):
    return "".join(f".a{n}{{{block}}} " for n in range(count))


COLORS = "color:#123456;"

# a document and a sheet of so many parts, and how many in the larger one
INPUTS = {
    "1,000 rules of a class, one or two classes an element": (lambda n: (paragraphs(n), rules(1000)), 100_000),
    "the same with generated text": (lambda n: (paragraphs(n), rules(1000) + "p::before{content:'x'}"), 100_000),
    "no rule of the author's": (lambda n: (paragraphs(n), ""), 100_000),
    "three shorthands for all": (lambda n: (paragraphs(n), "p{margin:1em;padding:1px;border:1px solid}"), 100_000),
    "a style attribute an element": (lambda n: (paragraphs(n, " style='color:#123456;margin-left:1em'"), ""), 100_000),
    "190 open elements": (lambda n: (nested(n), "div{font-size:99%}b{color:#123456}"), 100_000),
    "a long style attribute": (lambda n: (f"<p style='{COLORS * n}'>", ""), 200_000),
    "many declarations in a rule": (lambda n: ("<p>", f"p{{{COLORS * n}}}"), 200_000),
    "many rules for an element": (lambda n: ("<p class=a>", f".a{{{COLORS}}}" * n), 20_000),
    "many selectors for an element": (lambda n: ("<p class=a>", ",".join([".a"] * n) + f"{{{COLORS}}}"), 200_000),
    "many classes at an element": (lambda n: ("<p class='" + " ".join(f"a{k}" for k in range(n)) + "'>", rules(1000)), 100_000),
}


def spent(work, html, sheet):
    path = f"{work}/rows"
    with open(path, "w") as it:
        it.write(f"computed|{html}|{sheet}|1|font-size => 0\n")
    best = None
    for _ in range(3):
        with open(path, "rb") as it:
            begun = time.perf_counter()
            subprocess.run([ROWS], stdin=it, stdout=subprocess.DEVNULL, check=True)
            took = time.perf_counter() - begun
        best = took if best is None else min(best, took)
    return best


with tempfile.TemporaryDirectory() as work:
    for name, (form, count) in INPUTS.items():
        if not all(word in name for word in sys.argv[1:]):
            continue
        less, more = spent(work, *form(count // 10)), spent(work, *form(count))
        print(f"{name}: {1000 * more:.1f} ms, {more / less:.1f} times those of a tenth", flush=True)
