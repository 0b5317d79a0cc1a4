#!/usr/bin/env python3
"""Makes a PDF of a listing, with the fonts embedded.

    tools/pdf.py [--title TEXT] [--headings SIZES] [--fonts FOLDER].. METRICS LISTING OUT.pdf [FACE=FONT..]

METRICS is the metrics text that the listing was made with. Each face that the listing uses takes the font that a word
FACE=FONT names, as serif/italic/400=Serif-Italic.ttf; without one the file that METRICS names in a comment is sought
below the folders named and those in which systems keep their fonts.

  --fonts FOLDER    seek fonts below this folder first; may stand several times
  --title TEXT      the document's title
  --headings SIZES  the sizes in px of the headings of the outline, as 22,16, or none; without it all lines that are
                    larger than most of the text

Characters without a glyph in their font are told on standard error. Status 0, or 2 with one line that says what is
wrong."""
import argparse
import io
import sys
from collections import Counter

from bookpages import faults
from bookpages.embedded import EmbeddedFont
from bookpages.faults import Fault, Words, need
from bookpages.fonts import fonts_of
from bookpages.headings import headings_of
from bookpages.listing import UNITS_A_PIXEL, Rect, Text, read_listing
from bookpages.metrics import read_metrics
from bookpages.places import face_of, join_texts, words_of

POINTS_A_UNIT = 0.75 / UNITS_A_PIXEL
MOST_TOLD = 10
# the widest a page of a PDF may be, in points
WIDEST = 14400
SOFT_HYPHEN = "FEFF00AD"


def points(units):
    """A length in points, without zeros at its end."""
    return f"{units * POINTS_A_UNIT:.4f}".rstrip("0").rstrip(".")


def color_of(color):
    return " ".join(f"{int(color[k:k + 2], 16) / 255:.3f}".rstrip("0").rstrip(".") for k in (1, 3, 5))


class PageWriter:
    """Writes the content of one page; colours and fonts are set where they change."""

    def __init__(self, book, page):
        self.book, self.page, self.lines, self.color, self.font = book, page, [], None, None

    def content(self):
        for item in self.page.items:
            if isinstance(item, Rect):
                self.rect(item)
            elif isinstance(item, Text):
                self.text(item)
        return "\n".join(self.lines).encode("ascii")

    def paint(self, color):
        if color != self.color:
            self.color = color
            self.lines.append(f"{color_of(color)} rg")

    def rect(self, rect):
        if rect.width > 0 and rect.height > 0:
            self.paint(rect.color)
            bottom = self.page.height - rect.y - rect.height
            self.lines.append(f"{points(rect.x)} {points(bottom)} {points(rect.width)} {points(rect.height)} re f")

    def text(self, text):
        """The words of a text at their places; the space after a word goes with it, so that it is copied with it."""
        face = self.book.faces[text.face]
        words = list(words_of(text, face))
        if not words:
            return
        self.paint(text.color)
        lines = ["BT"]
        if (text.face, text.size) != self.font:
            self.font = text.face, text.size
            lines.append(f"/{self.book.names[text.face]} {points(text.size)} Tf")
        before = 0, 0
        here = self.page.height - text.y
        for x, word, spaced in words:
            shown = self.book.shown(text.face, f"{word} " if spaced else word)
            lines.append(f"{points(x - before[0])} {points(here - before[1])} Td {shown}")
            before = x, here
        lines.append("ET")
        if text.hyphen:
            lines = [f"/Span <</ActualText <{SOFT_HYPHEN}>>> BDC", *lines, "EMC"]
        self.lines.append(" ".join(lines))


class Book:
    """The faces of a listing with their fonts, as the pages use them."""

    def __init__(self, faces, pages, words, folders, listing):
        self.faces, self.pages = faces, pages
        join_texts(pages, faces)
        used = {}
        for page in pages:
            for item in page.items:
                if isinstance(item, Text):
                    face_of(item, faces, lambda what: Fault(f"{listing}: {what}"))
                    used.setdefault(item.face, set()).update(item.string)
        fonts = fonts_of(used, faces, words, folders)
        self.fonts = {label: EmbeddedFont(font, used[label] | {" "}) for label, font in fonts.items()}
        self.names = {label: f"F{k}" for k, label in enumerate(self.fonts, 1)}
        self.missing = Counter()
        self.moves = {label: self.differences(label) for label in self.fonts}
        self.kept = {}

    def differences(self, label):
        """By how many thousandths of an em the metrics text's advances are narrower than the font's, where they
        differ."""
        font, face = self.fonts[label].font, self.faces[label]
        moves = {}
        for character in self.fonts[label].characters:
            move = font.advance(character) * 1000 / font.units - face.advance(character) * 1000 / face.units
            if abs(move) > 0.5:
                moves[character] = move
        return moves

    def shown(self, label, word):
        """The operator that shows a word; it is kept, since words come again."""
        if (label, word) not in self.kept:
            font = self.fonts[label]
            missing = [character for character in word if character not in font.glyphs]
            parts = [f"<{font.hexadecimal(part)}>{move}" for part, move in self.parts_of(label, word)]
            single = len(parts) == 1 and parts[0].endswith(">")
            operator = f"{parts[0]} Tj" if single else f"[{' '.join(parts)}] TJ"
            self.kept[label, word] = operator, missing
        operator, missing = self.kept[label, word]
        for character in missing:
            self.missing[character, label] += 1
        return operator

    def parts_of(self, label, word):
        """The parts of a word whose glyphs follow one another by the font's advances, each with the number that moves
        the next part to the left, in thousandths of an em."""
        face, moves = self.faces[label], self.moves[label]
        part = ""
        for character, after in zip(word, [*word[1:], ""]):
            part += character
            change = face.pairs.get(character + after, 0) * 1000 / face.units
            move = f"{moves.get(character, 0) - change:.1f}".removesuffix(".0")
            if move not in ("0", "-0"):
                yield part, f" {move}"
                part = ""
        if part:
            yield part, ""

    def remarks(self):
        """What a user should know of the fonts."""
        for label, moves in self.moves.items():
            if moves:
                some = "".join(sorted(moves))[:MOST_TOLD]
                yield (
                    f"{label}: the advances of {len(moves)} characters ({some!r} ..) in the metrics text "
                    "aren't those of "
                    f"{self.fonts[label].font.path}"
                )
        for (character, label), count in self.missing.most_common(MOST_TOLD):
            yield (
                f"no glyph for U+{ord(character):04X} in {self.fonts[label].font.path}, which is {label}: "
                f"{count} {'time' if count == 1 else 'times'}"
            )
        if len(self.missing) > MOST_TOLD:
            yield f"and {len(self.missing) - MOST_TOLD} more characters without a glyph"


def outline(pdf, headings, heights):
    """Writes the headings as the PDF's outline, each below the last one of a higher level."""
    pikepdf = need("pikepdf")
    with pdf.open_outline() as written:
        open_items = []
        for heading in headings:
            top = (heights[heading.page - 1] - heading.y) * POINTS_A_UNIT
            item = pikepdf.OutlineItem(heading.text, heading.page - 1, "XYZ", left=heading.x * POINTS_A_UNIT, top=top)
            while open_items and open_items[-1][0] >= heading.level:
                open_items.pop()
            (open_items[-1][1].children if open_items else written.root).append(item)
            open_items.append((heading.level, item))


def page_labels(pages):
    """The numbers of the pages where these aren't their indexes, as the array of a number tree; None where they are."""
    array = []
    for k, page in enumerate(pages):
        if k == 0 or page.number != pages[k - 1].number + 1:
            array += [k, {"/S": "/D", "/St": page.number} if page.number > 0 else {"/P": str(page.number)}]
    return array if any(page.number != page.index for page in pages) else None


def labels_in(pikepdf, array):
    labels = []
    for entry in array:
        if isinstance(entry, dict):
            entry = pikepdf.Dictionary(
                {key: pikepdf.Name(value) if key == "/S" else value for key, value in entry.items()}
            )
        labels.append(entry)
    return pikepdf.Dictionary(Nums=labels)


def pdf_of(book, title, headings):
    """The bytes of the PDF."""
    pikepdf = need("pikepdf")
    pdf = pikepdf.Pdf.new()
    fonts = pikepdf.Dictionary({f"/{book.names[label]}": font.dictionary(pdf) for label, font in book.fonts.items()})
    resources = pdf.make_indirect(pikepdf.Dictionary(Font=fonts))
    for page in book.pages:
        content = pikepdf.Stream(pdf, PageWriter(book, page).content())
        box = [0, 0, round(page.width * POINTS_A_UNIT, 4), round(page.height * POINTS_A_UNIT, 4)]
        pdf.pages.append(
            pikepdf.Page(
                pdf.make_indirect(
                    pikepdf.Dictionary(Type=pikepdf.Name.Page, MediaBox=box, Resources=resources, Contents=content)
                )
            )
        )
    if headings:
        outline(pdf, headings, [page.height for page in book.pages])
    labels = page_labels(book.pages)
    if labels:
        pdf.Root.PageLabels = labels_in(pikepdf, labels)
    if title:
        pdf.docinfo["/Title"] = title
        pdf.Root.ViewerPreferences = pikepdf.Dictionary(DisplayDocTitle=True)
    pdf.docinfo["/Producer"] = "bookfmt, tools/pdf.py"
    written = io.BytesIO()
    words = {"object_stream_mode": pikepdf.ObjectStreamMode.generate}
    try:
        pdf.save(written, deterministic_id=True, **words)
    except TypeError:
        # a pikepdf of before 7.0 knows no such word, and takes the time into the PDF's id
        pdf.save(written, **words)
    return written.getvalue()


def sizes_of(word):
    """The sizes of headings in units, by their levels; an empty list where there are to be none."""
    if word == "none":
        return []
    try:
        return [round(float(size) * UNITS_A_PIXEL) for size in word.split(",")]
    except (ValueError, OverflowError):
        raise argparse.ArgumentTypeError(f"`{word}` is no list of sizes such as 22,16") from None


def add_options(parser):
    """The options that `tools/book` takes too."""
    parser.add_argument("--fonts", action="append", default=[], metavar="FOLDER")
    parser.add_argument("--title")
    parser.add_argument("--headings", type=sizes_of, metavar="SIZES")


def words_of_command(arguments):
    parser = Words(__doc__)
    add_options(parser)
    for name in ("metrics", "listing", "out"):
        parser.add_argument(name, metavar=name.upper())
    parser.add_argument("given", nargs="*", default=[], metavar="FACE=FONT")
    return parser.parse_args(arguments)


def make(faces, pages, words):
    """Writes the PDF as the words say, and gives what a user should know of its fonts."""
    need("pikepdf")
    for page in pages:
        if not 0 < max(page.width, page.height) * POINTS_A_UNIT <= WIDEST:
            raise Fault(f"page {page.index} has a size that no PDF takes: at most {WIDEST} points, and more than 0")
    book = Book(faces, pages, words.given, words.fonts, words.listing)
    headings = [] if words.headings == [] else headings_of(pages, words.headings)
    faults.write_bytes(words.out, pdf_of(book, words.title, headings))
    return list(book.remarks())


def main(arguments):
    words = words_of_command(arguments)
    need("fontTools")
    need("pikepdf")
    faces = read_metrics(words.metrics)
    pages, _ = read_listing(words.listing)
    for remark in make(faces, pages, words):
        print(f"pdf: {remark}", file=sys.stderr)
    return 0


if __name__ == "__main__":
    faults.run("pdf", main, ("fontTools", "pikepdf"))
