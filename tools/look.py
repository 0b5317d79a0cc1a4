#!/usr/bin/env python3
"""Looks over a listing for what a printer would ask about.

    tools/look.py [--loose N] [--most N] METRICS LISTING

METRICS is the metrics text that the listing was made with. It tells

  overfull lines, whose texts end right of the line, with the page, how far, and the text's end;
  loose lines, with a gap between two words of more than N spaces (--loose N, 4 where nothing is said, 0 for none);
  texts that stand outside of their page;
  characters for which the metrics text has no advance, with their face: they are set as wide as the face's default.

--most N tells at most N of each kind, 20 where nothing is said. The last line counts all.
Status 0 where nothing was found, 1 where something was, 2 with one line where a file is no metrics text or no whole
listing."""
import sys
from collections import Counter

from bookpages import faults
from bookpages.faults import Fault, Words
from bookpages.listing import UNITS_A_PIXEL, Text, read_listing
from bookpages.metrics import WITHOUT_ADVANCE, read_metrics
from bookpages.places import end_of, face_of, join_texts, lines_of

LONGEST = 48
LOOSE, MOST = 4, 20


def pixels(units):
    return f"{units / UNITS_A_PIXEL:.2f}".rstrip("0").rstrip(".")


def quoted(string):
    """The end of a string, in quotes."""
    string = " ".join(string.replace("\u00ad", "").split())
    return f'"{string}"' if len(string) <= LONGEST else f'".. {string[-LONGEST:]}"'


class Look:
    """What was found, kind by kind, as lines of the report."""

    def __init__(self, faces, listing, loose):
        self.faces, self.loose_spaces = faces, loose
        self.fault = lambda what: Fault(f"{listing}: {what}")
        self.overfull, self.loose, self.outside, self.missing = [], [], [], {}
        self.counts = Counter()

    def page(self, page):
        lines, _ = lines_of(page)
        for item in page.items:
            if isinstance(item, Text):
                self.text(page, item)
        for line, texts in lines:
            self.line(page, line, texts)

    def text(self, page, text):
        """Whether a text stands on its page, and whether its characters have glyphs."""
        face = face_of(text, self.faces, self.fault)
        top = text.y - face.ascent * text.size // face.units
        bottom = text.y + face.descent * text.size // face.units
        if text.string.strip() and (text.x < 0 or end_of(text, face) > page.width or top < 0 or bottom > page.height):
            self.outside.append(f"page {page.index}: outside the page: {quoted(text.string)}")
        for character in set(text.string):
            if character not in WITHOUT_ADVANCE and not face.has(character):
                count, first = self.missing.get((character, text.face), (0, page.index))
                self.missing[character, text.face] = count + text.string.count(character), first

    def line(self, page, line, texts):
        if not texts:
            return
        ends = [end_of(text, self.faces[text.face]) for text in texts]
        string = "".join(text.string for text in texts)
        over = max(ends) - line.x - line.width
        if over > 0:
            self.overfull.append(f"page {page.index}: overfull by {pixels(over)} px: {quoted(string)}")
        widest = 0
        for text, end, after in zip(texts, ends, texts[1:]):
            space = self.faces[text.face].widths(text.size)[" "]
            if text.string.endswith(" ") and text.x >= line.x and space and after.x - end > self.loose_spaces * space:
                widest = max(widest, after.x - end)
        if self.loose_spaces and widest:
            self.loose.append(f"page {page.index}: loose, a gap of {pixels(widest)} px: {quoted(string)}")

    def missing_lines(self):
        for (character, face), (count, first) in sorted(self.missing.items(), key=lambda it: -it[1][0]):
            times = "once" if count == 1 else f"{count} times"
            yield f"U+{ord(character):04X} has no advance in {face}: {times}, first on page {first}"


def words_of(arguments):
    parser = Words(__doc__)
    parser.add_argument("--loose", type=float, default=LOOSE, metavar="N")
    parser.add_argument("--most", type=int, default=MOST, metavar="N")
    parser.add_argument("metrics", metavar="METRICS")
    parser.add_argument("listing", metavar="LISTING")
    return parser.parse_args(arguments)


def report(faces, pages, listing, loose=LOOSE, most=MOST):
    """The lines of the report, and whether anything was found; `listing` is the name for faults."""
    look = Look(faces, listing, loose)
    join_texts(pages, faces)
    for page in pages:
        look.page(page)
    found = look.overfull, look.loose, look.outside, list(look.missing_lines())
    told = [line for kind in found for line in kind[: max(most, 0)]]
    lines = sum(len(lines_of(page)[0]) for page in pages)
    counts = [len(kind) for kind in found]
    told.append(
        f"{len(pages)} pages, {lines} lines: {counts[0]} overfull, {counts[1]} loose, "
        f"{counts[2]} texts outside the page, "
        f"{counts[3]} characters without an advance"
    )
    return told, any(found)


def main(arguments):
    words = words_of(arguments)
    faces = read_metrics(words.metrics)
    pages, _ = read_listing(words.listing)
    lines, found = report(faces, pages, words.listing, words.loose, words.most)
    sys.stdout.reconfigure(encoding="utf-8", errors="backslashreplace")
    print("\n".join(lines))
    return 1 if found else 0


if __name__ == "__main__":
    faults.run("look", main)
