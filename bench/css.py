#!/usr/bin/env python3
"""Prints how long the built program takes to read style sheets and selectors, per megabyte and as a ratio to a plain scan for
one byte, and to match selectors: milliseconds, and how many times those of a tenth of the document.

Words: further sheets to read. Sheets, and selectors as those of rules without declarations, are read by `bookfmt` with an empty
document. Matching is the time of a whole run with such rules, less that of a run without them. Where the environment names a program of
the same command line as `OTHER`, which prints how long its styles take, matching is compared with it (`BOOKFMT_TIMES=1` asks for the
times)."""
import os
import re
import subprocess
import sys
import tempfile
import time

TOP = os.path.dirname(os.path.dirname(os.path.abspath(__file__)))
BOOKFMT = f"{TOP}/crates/bookfmt/out/bookfmt"
OTHER = os.environ.get("OTHER")
SIZE = 4_000_000


def filled(part):
    return (part * (SIZE // len(part) + 1))[:SIZE].encode()


SHEETS = {
    "rules": filled("p.note>a:hover{color:#123456;margin:0 auto!important}\n")[: 20_000 * 50],
    "20,000 rules": b"p{}" * 20_000,
    "comments": filled("/* a */"),
    "open brackets": filled("("),
    "open blocks": filled("{"),
    "closed blocks": filled("}"),
    "open comments": filled("/*"),
    "quotes": filled('"'),
    "backslashes": filled("\\"),
    "addresses": filled("url("),
    "a selector of 16 MB": b"a" * 16_000_000 + b"{}",
    "a million commas": b"a," * 1_000_000 + b"{}",
    "a value of 16 MB": b"p{a:" + b"b " * 8_000_000 + b"}",
    "media lists": filled("@media a,b,c,print{@x;}"),
    "a deep media list": b"@media " + filled("(") + b",print{p{}}",
    "important in open brackets": filled("p{a:f(b!important;"),
    "margin boxes with preludes": filled("@page{@top-left x{a:b}}"),
}

SELECTORS = {
    "lists of selectors": [b"div p.note > a:not(.b)[c=d], #e li:nth-child(2n+1)::before"] * 20_000,
    "a name of 16 MB": [b"a" * 16_000_000],
    "a million commas": [b"a," * 1_000_000 + b"a"],
    "a million compounds": [b"a " * 1_000_000],
    "a million brackets": [b"[" * 500_000 + b"]" * 500_000],
    "a million pseudo-classes": [b"a" + b":root" * 1_000_000],
}

def items(count):
    return "<div>" * 100 + "<ul>" + "".join(f"<li class=c{n % 7}><b></b>" for n in range(count // 2))


def classes(count):
    return "".join(f"<p class='a{n % 2000} b{n % 500}'></p>" for n in range(count))


def many_classes(count):
    return "".join("<p class='x " + " ".join(f"c{(7 * n + k) % 100}" for k in range(19)) + "'></p>" for n in range(count))


def types(count):
    return "<div>" + "".join(f"<x{n}></x{n}>" for n in range(count)) + "</div>"


def siblings(count):
    return "<div>" + "<b></b>" * count + "</div>"


def forms(form, count):
    return [form.format(n=n % 7) for n in range(count)]


# documents of so many nodes, how many in the larger one, and the selectors that are matched
MATCHES = {
    "1,000 classes": (classes, 100_000, [f".a{n}" for n in range(1000)]),
    "1,000 classes below others": (classes, 100_000, [f"body > .a{n}.b{n % 500}" for n in range(1000)]),
    "a class of all and one of some": (many_classes, 100_000, [f".x.c{n}" for n in range(100)]),
    "first and last of 30,000 types": (types, 30_000, [":first-of-type", ":last-of-type"]),
    "later than 30,000 siblings": (siblings, 30_000, ["b ~ b", "p ~ b"]),
    "inside": (items, 100_000, forms("div div div li.c{n}", 100)),
    "inside, never": (items, 100_000, forms("p div div div li.c{n}", 100)),
    "children": (items, 100_000, forms("div > ul > li > b", 100)),
    "next": (items, 100_000, forms("ul > li + .c{n}", 100)),
    "later": (items, 100_000, forms(".c{n} ~ li b", 100)),
    "places": (items, 100_000, forms("li:nth-child({n}n+1)", 100)),
    "types": (items, 100_000, forms("li:not(.c{n}):first-of-type > b", 100)),
    "parts of a value": (lambda n: "<p title='" + "a" * n + "'>", 1_000_000, lambda n: ["[title*=" + "a" * (n // 2) + "b]"]),
    "a list of classes": (lambda n: "<p class='" + "x " * (n // 2) + "y'>", 1_000_000, [".y"] * 100),
}


def seconds(run, turns=3):
    best = None
    for _ in range(turns):
        begun = time.perf_counter()
        run()
        spent = time.perf_counter() - begun
        best = spent if best is None else min(best, spent)
    return best


def told(name, text, run):
    megabytes = len(text) / 1_000_000
    read = seconds(run)
    scan = seconds(lambda: text.count(b"\x01"))
    print(f"{name}: {1000 * read / megabytes:.1f} ms a megabyte, {read / scan:.0f} times a scan")


with tempfile.TemporaryDirectory() as work:
    open(f"{work}/html", "w").close()

    def run():
        words = [BOOKFMT, "format", f"{TOP}/examples/plain/metrics.txt", f"{work}/html", f"{work}/sheet"]
        subprocess.run(words, stdout=subprocess.DEVNULL, stderr=subprocess.DEVNULL)

    sheets = dict(SHEETS)
    for path in sys.argv[1:]:
        with open(path, "rb") as it:
            text = it.read()
        sheets[os.path.basename(path)] = text * (1_000_000 // len(text) + 1)
    for name, text in sheets.items():
        with open(f"{work}/sheet", "wb") as it:
            it.write(text)
        told(name, text, run)

    def ruled(html, selectors):
        with open(f"{work}/html", "w") as it:
            it.write(html)
        sheet = b"".join(one + b"{}\n" for one in selectors)
        with open(f"{work}/sheet", "wb") as it:
            it.write(sheet)
        return sheet

    for name, selectors in SELECTORS.items():
        told(name, ruled("", selectors), run)

    def spent(form, count, selectors):
        html, lines = form(count), [one.encode() for one in (selectors(count) if callable(selectors) else selectors)]
        ruled(html, lines)
        matched = seconds(run)
        ruled(html, [])
        return matched - seconds(run)

    def styles_of_other(html, selectors):
        with open(f"{work}/html", "w") as it:
            it.write(html)
        with open(f"{work}/sheet", "w") as it:
            it.write("".join(f"{one}{{color:#123456}}\n" for one in selectors))
        words = [OTHER, "format", f"{TOP}/examples/plain/metrics.txt", f"{work}/html", f"{work}/sheet"]
        told = subprocess.run(words, stdout=subprocess.DEVNULL, stderr=subprocess.PIPE, env={**os.environ, "BOOKFMT_TIMES": "1"})
        found = re.search(rb"styles:\s*([0-9.]+) ms", told.stderr)
        return float(found[1]) / 1000 if found else None

    for name, (form, count, selectors) in MATCHES.items():
        less, more = spent(form, count // 10, selectors), spent(form, count, selectors)
        line = f"{name}: {1000 * more:.0f} ms, {more / less:.1f} times those of a tenth"
        other = styles_of_other(form(count), selectors) if OTHER and not callable(selectors) else None
        if other:
            line += f", {more / other:.2f} times the styles of the other program"
        print(line, flush=True)
