#!/usr/bin/env python3
"""Prints what kerning pairs cost: the time of books whose face has 1,000 pairs over that of the same books without.

    bench/pairs.py crates/bookfmt/out/bookfmt"""
import os
import resource
import subprocess
import sys
import tempfile

TOP = os.path.dirname(os.path.dirname(os.path.abspath(__file__)))
PROGRAM = os.path.abspath(sys.argv[1] if len(sys.argv) > 1 else f"{TOP}/crates/bookfmt/out/bookfmt")
RUNS = 7
LETTERS = "abcdefghijklmnopqrstuvwxyzABCDEF"
FACE = "face serif normal 400 1000 750 250 500\n"
PAIRS = [f"pair {ord(a):04X} {ord(b):04X} {(ord(a) * 7 + ord(b)) % 91 - 60}\n" for a in sorted(LETTERS) for b in sorted(LETTERS)][:1000]
LINE = "The printing house stood at the corner of the square, and nobody had set a clock by anything else. "
BOOKS = {
    "prose": "<p>" + LINE * 7,
    "prose with accents": "<p>" + LINE.replace("e", "\u00e9") * 7,
    "soft hyphens": "<p>" + "ab\u00adcd\u00adef " * 90,
}
SHEET = "p{text-align:justify;font-family:serif}"


def seconds(folder, metrics):
    """The least processor time of some runs."""
    least = None
    for _ in range(RUNS):
        before = resource.getrusage(resource.RUSAGE_CHILDREN)
        subprocess.run([PROGRAM, "format", metrics, "h", "s"], cwd=folder, check=True, stdout=subprocess.DEVNULL, stderr=subprocess.DEVNULL)
        after = resource.getrusage(resource.RUSAGE_CHILDREN)
        took = after.ru_utime + after.ru_stime - before.ru_utime - before.ru_stime
        least = took if least is None else min(least, took)
    return least


def main():
    with tempfile.TemporaryDirectory() as folder:
        def write(name, text):
            with open(f"{folder}/{name}", "w", encoding="utf-8") as file:
                file.write(text)

        write("one", "bookmetrics 1\n" + FACE)
        write("two", "bookmetrics 2\n" + FACE + "".join(PAIRS))
        write("s", SHEET)
        for title, paragraph in BOOKS.items():
            write("h", paragraph * (2_000_000 // len(paragraph)))
            plain, paired = seconds(folder, "one"), seconds(folder, "two")
            print(f"{title}: {plain:.3f} s without pairs, {paired:.3f} s with them, ratio {paired / plain:.2f}")


if __name__ == "__main__":
    main()
