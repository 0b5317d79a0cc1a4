"""Listings: numbered pages with their items at their places, in units of 1/64 px (docs/LISTING.md)."""
import re
from collections import namedtuple

from .faults import Fault, read_text

UNITS_A_PIXEL = 64

Page = namedtuple("Page", "index number side kind name width height items")
Rect = namedtuple("Rect", "x y width height color")
Edge = namedtuple("Edge", "which x y width height")
Line = namedtuple("Line", "x y width height")
# `before` is the character before a text in its span and line, where pages tell it (places.join_texts)
Text = namedtuple("Text", "x y face size color string hyphen before", defaults=[None])

NUMBER = r"(-?[0-9]+)"
STRING = r'"((?:[^"\\\x00-\x1f\x7f]|\\["\\n]|\\x[0-9a-f]{2})*)"'
PLACE = rf"{NUMBER} {NUMBER} {NUMBER} {NUMBER}"
COLOR = "(#[0-9a-f]{6})"
FACE = "([a-z0-9-]{1,32}/(?:normal|italic)/[1-9]00)"
FORMS = {
    "book": re.compile(r"book ([0-9]+) ([0-9]+)\Z"),
    "page": re.compile(rf"page ([0-9]+) {NUMBER} (left|right) (flow|blank|notes) {STRING} ([0-9]+) ([0-9]+)\Z"),
    "rect": re.compile(rf"rect {PLACE} {COLOR}\Z"),
    "edge": re.compile(rf"edge (open|close) {PLACE}\Z"),
    "line": re.compile(rf"line {PLACE}\Z"),
    "text": re.compile(rf"text {NUMBER} {NUMBER} {FACE} ([0-9]+) {COLOR} {STRING}\Z"),
    "hyphen": re.compile(rf'hyphen {NUMBER} {NUMBER} {FACE} ([0-9]+) {COLOR} "(-)"\Z'),
    "end": re.compile(r"end\Z"),
}
ESCAPE = re.compile(r"\\(?:x([0-9a-f]{2})|(.))")


def plain(string):
    """A string of a listing with its escapes undone."""
    if "\\" not in string:
        return string
    return ESCAPE.sub(lambda it: chr(int(it[1], 16)) if it[1] else "\n" if it[2] == "n" else it[2], string)


def item_of(kind, fields):
    if kind == "rect":
        return Rect(*map(int, fields[:4]), fields[4])
    if kind == "edge":
        return Edge(fields[0], *map(int, fields[1:]))
    if kind == "line":
        return Line(*map(int, fields))
    x, y, face, size, color, string = fields
    return Text(int(x), int(y), face, int(size), color, plain(string), kind == "hyphen")


def page_of(fields, fault, count):
    index, number, side, kind, name, width, height = fields
    if int(index) != count + 1:
        raise fault(f"page {index} follows page {count}")
    if (side == "right") != (count % 2 == 0):
        raise fault(f"page {index} is a {side} page")
    return Page(int(index), int(number), side, kind, plain(name), int(width), int(height), [])


def read_listing(path):
    """The pages of a listing and the number of passes; a fault names the line of a text that is no whole listing."""
    lines = read_text(path).split("\n")
    whole = lines.pop() == ""
    pages, passes, promised, ended = [], None, None, False
    for at, line in enumerate(lines, 1):

        def fault(what):
            return Fault(f"{path} line {at}: {what}")

        kind = line.split(" ", 1)[0]
        form = FORMS.get(kind)
        fields = form and form.match(line)
        if promised is None and kind != "book":
            raise fault("a listing begins with `book PAGES PASSES`")
        if ended:
            raise fault("nothing follows `end`")
        if not fields:
            raise fault(f"no {kind} record" if form else "no record of a listing")
        fields = fields.groups()
        if kind == "book":
            if promised is not None:
                raise fault("a second `book` record")
            promised, passes = int(fields[0]), int(fields[1])
        elif kind == "page":
            pages.append(page_of(fields, fault, len(pages)))
        elif kind == "end":
            ended = True
        elif not pages:
            raise fault(f"a {kind} record before the first page")
        else:
            pages[-1].items.append(item_of(kind, fields))
    if not ended or not whole:
        raise Fault(
            f"{path}: the listing is cut off after line {len(lines)}, in page {len(pages)}"
            f" of {'?' if promised is None else promised}"
        )
    if len(pages) != promised:
        raise Fault(f"{path}: {len(pages)} pages stand where `book` says {promised}")
    return pages, passes
