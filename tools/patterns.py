#!/usr/bin/env python3
"""Writes a patterns text from the hyphenation patterns of TeX or LibreOffice.

    tools/patterns.py [--no-exceptions] FILE > patterns.txt

FILE is a pattern file of TeX (hyph-en-us.tex) or one of LibreOffice (hyph_en_US.dic). Its comments at the head, with
its licence, go along as comments. A word of its exceptions becomes a pattern of the whole word, which wins over all
others. What docs/PATTERNS.md has no form for is left out, and told on standard error: patterns for ends of lines with
a change of letters, and those of more than 32 letters.

  --no-exceptions     without the exceptions

Status 0, or 2 with one line that says what is wrong."""
import re
import sys

from bookpages import faults
from bookpages.faults import Fault, Words

MOST_LETTERS = 32
# docs/PATTERNS.md's grammar of a pattern; a letter is no white space, no digit and no dot
PATTERN = re.compile(r"\.?(?:[0-9]?[^ \t\n\f\r0-9.])+[0-9]?\.?")
# words of a `.dic` file that are no patterns, with a number after them
SETTINGS = ("LEFTHYPHENMIN", "RIGHTHYPHENMIN", "COMPOUNDLEFTHYPHENMIN", "COMPOUNDRIGHTHYPHENMIN", "NOHYPHEN")
# letters that a pattern file may write by TeX's commands
TEX_LETTERS = {r"\ss": "ß", r"\ae": "æ", r"\oe": "œ", r"\o": "ø", r"\aa": "å", r"\l": "ł", r"\i": "ı"}


def words_of(arguments):
    parser = Words(__doc__)
    parser.add_argument("--no-exceptions", action="store_true")
    parser.add_argument("file", metavar="FILE")
    return parser.parse_args(arguments)


def read_text(path):
    """The text of a pattern file: UTF-8, or the encoding that the first line of a `.dic` file names."""
    try:
        with open(path, "rb") as file:
            data = file.read()
    except OSError as why:
        raise Fault(f"{path}: {why.strerror or why}") from None
    name = re.match(rb"(ISO8859-\d+|KOI8-[RU]|microsoft-cp(\d+))[ \t]*\r?\n", data)
    encoding = "utf-8"
    if name:
        encoding = "cp" + name[2].decode() if name[2] else name[1].decode()
    try:
        return data.decode(encoding).removeprefix("\ufeff")
    except UnicodeDecodeError as why:
        raise Fault(f"{path}: not {encoding.upper()} at byte {why.start}") from None


def is_setting(line):
    """Whether a line says how a `.dic` file is to be used."""
    return line.strip() == "NEXTLEVEL" or line.split()[:1] and line.split()[0] in SETTINGS


def head_of(lines):
    """The comments before the first line of another kind, without their sign."""
    head = []
    for line in lines:
        if line[:1] in ("%", "#"):
            head.append(line.lstrip("%#").strip())
        elif line.strip() and not is_setting(line):
            break
    return head


def argument_of(text, command):
    """What stands in the braces of a command of TeX, or nothing."""
    start = re.search(re.escape(command) + r"[ \t\n]*\{", text)
    if not start:
        return ""
    depth = 1
    for at in range(start.end(), len(text)):
        depth += {"{": 1, "}": -1}.get(text[at], 0)
        if depth == 0:
            return text[start.end() : at]
    raise Fault(f"the brace after {command} isn't closed")


def of_tex(text):
    """The patterns and the exceptions of a file of TeX."""
    plain = re.sub(r"(?<!\\)%[^\n]*", "", text)
    patterns = argument_of(plain, r"\patterns")
    exceptions = argument_of(plain, r"\hyphenation")
    for command, letter in TEX_LETTERS.items():
        patterns = re.sub(re.escape(command) + r"(?![a-zA-Z])[ ]?", letter, patterns)
    return patterns.split(), exceptions.split()


def of_dic(lines):
    """The patterns of a file of LibreOffice; after NEXTLEVEL stand those for parts of compounds, with the others."""
    patterns = []
    for line in lines[1:]:
        line = line.strip()
        if line and line[0] not in "%#" and not is_setting(line):
            patterns.append(line)
    return patterns, []


def exception_of(word):
    """The pattern of a whole word that is hyphenated just so: 9 at its hyphens, 8 at its other places."""
    letters = [part for part in word.lower().split("-") if part]
    marked = "9".join("8".join(part) for part in letters)
    return f".{marked}." if marked else None


def reading_of(pattern):
    """Whether docs/PATTERNS.md has a form for a pattern; after a `/` stands a change of letters."""
    return "/" not in pattern and PATTERN.fullmatch(pattern) and len(re.sub(r"[0-9.]", "", pattern)) <= MOST_LETTERS


def main(arguments):
    words = words_of(arguments)
    text = read_text(words.file).replace("\r\n", "\n")
    lines = text.split("\n")
    is_tex = r"\patterns" in text
    patterns, exceptions = of_tex(text) if is_tex else of_dic(lines)
    if not words.no_exceptions:
        patterns += [pattern for pattern in map(exception_of, exceptions) if pattern]
    if not patterns:
        raise Fault(f"{words.file}: no patterns")
    read = [pattern for pattern in patterns if reading_of(pattern)]
    if not read:
        raise Fault(f"{words.file}: no pattern that has a form, as `{patterns[0]}`")
    left = [pattern for pattern in patterns if not reading_of(pattern)]
    if left:
        print(f"patterns: {len(left)} left out, as `{left[0]}`", file=sys.stderr)
    head = head_of(lines if is_tex else lines[1:])
    sys.stdout.reconfigure(encoding="utf-8", newline="\n")
    print("\n".join([f"% {line}".rstrip() for line in head] + read))
    return 0


if __name__ == "__main__":
    faults.run("patterns", main)
