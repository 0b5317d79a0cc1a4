#!/usr/bin/env python3
"""Draws pages of a listing side by side, for a quick look.

    tools/preview.py [--pages FIRST-LAST] [--across N] [--zoom N] [--lines] [--fonts FOLDER].. METRICS LISTING OUT
    [FACE=FONT..]

OUT is a name that ends in .svg or .png; a PNG is made of the SVG by the program `rsvg-convert`. Letters are drawn by
the outlines of the fonts, which are found as tools/pdf.py finds them: by words FACE=FONT, or by the comments of
METRICS. Where there is no font for a face its texts are left to the viewer's own fonts, word by word at their places.

  --pages FIRST-LAST  the pages from FIRST to LAST, counted from 1; else the first twelve
  --across N          N pages side by side, 4 where nothing is said
  --zoom N            N times as large
  --lines             shows the boxes of lines too

Status 0, or 2 with one line that says what is wrong."""
import re
import shutil
import subprocess
import sys
from xml.sax.saxutils import escape

from bookpages import faults
from bookpages.faults import Fault, Words, need
from bookpages.fonts import fonts_of
from bookpages.listing import UNITS_A_PIXEL, Line, Rect, Text, read_listing
from bookpages.metrics import read_metrics
from bookpages.places import face_of, join_texts, words_of

MOST_PAGES = 12
GAP = 16
GROUND, PAPER, GUIDE = "#d8d8d8", "#ffffff", "#b9d2f5"


def pixels(units):
    return f"{units / UNITS_A_PIXEL:.3f}".rstrip("0").rstrip(".")


class Drawing:
    """The pages as SVG; each used glyph is drawn once, and words refer to it."""

    def __init__(self, faces, fonts, guides):
        self.faces, self.fonts, self.guides = faces, fonts, guides
        self.outlines, self.lines = {}, []
        self.glyphs = {label: font.tables.getGlyphSet() for label, font in fonts.items()}

    def page(self, page):
        for item in page.items:
            if isinstance(item, Rect):
                self.rect(item, f'fill="{item.color}"')
            elif isinstance(item, Line) and self.guides:
                self.rect(item, f'fill="none" stroke="{GUIDE}" stroke-width="0.4"')
            elif isinstance(item, Text):
                for x, word, _ in words_of(item, self.faces[item.face]):
                    draw = self.outlined if item.face in self.fonts else self.lettered
                    draw(item, x, word)

    def rect(self, box, look):
        width, height = pixels(max(box.width, 0)), pixels(max(box.height, 0))
        self.lines.append(f'<rect x="{pixels(box.x)}" y="{pixels(box.y)}" width="{width}" height="{height}" {look}/>')

    def lettered(self, text, x, word):
        """A word in the viewer's own font of the kind that the face's name tells."""
        name, style, weight = text.face.rsplit("/", 2)
        family = "monospace" if "mono" in name else "sans-serif" if "sans" in name else "serif"
        look = f'font-family="{family}" font-style="{style}" font-weight="{weight}" font-size="{pixels(text.size)}"'
        self.lines.append(
            f'<text x="{pixels(x)}" y="{pixels(text.y)}" {look} fill="{text.color}">{escape(word)}</text>'
        )

    def outlined(self, text, x, word):
        """A word by the outlines of its glyphs, each as far right as the metrics text's advances and pairs say."""
        font = self.fonts[text.face]
        scale = text.size / UNITS_A_PIXEL / font.units
        uses = []
        for character, left, _ in self.faces[text.face].rooms(word, text.size):
            outline = self.outline(text.face, font.characters.get(ord(character), font.order[0]))
            if outline and scale:
                uses.append(f'<use xlink:href="#{outline}" x="{left / UNITS_A_PIXEL / scale:.1f}"/>')
        if uses:
            place = f"translate({pixels(x)} {pixels(text.y)}) scale({scale:.6f} {-scale:.6f})"
            self.lines.append(f'<g transform="{place}" fill="{text.color}">{"".join(uses)}</g>')

    def outline(self, label, glyph):
        """The name of a glyph's outline, or None where it has none."""
        if (label, glyph) not in self.outlines:
            pen = need("fontTools.pens.svgPathPen").SVGPathPen(self.glyphs[label], ntos=lambda number: f"{number:.0f}")
            self.glyphs[label][glyph].draw(pen)
            commands = pen.getCommands()
            self.outlines[label, glyph] = (f"g{len(self.outlines)}", commands) if commands else (None, "")
        return self.outlines[label, glyph][0]

    def sheet(self, pages, across):
        """All pages as one SVG."""
        widest, y = 0, GAP
        for first in range(0, len(pages), across):
            row, x = pages[first : first + across], GAP
            for page in row:
                self.lines.append(
                    f'<g transform="translate({x} {y})"><rect width="{pixels(page.width)}" '
                    f'height="{pixels(page.height)}" fill="{PAPER}"/>'
                )
                self.page(page)
                self.lines.append("</g>")
                x += page.width // UNITS_A_PIXEL + 1 + GAP
            widest = max(widest, x)
            y += max(page.height for page in row) // UNITS_A_PIXEL + 1 + GAP
        whole = widest, y
        paths = [f'<path id="{name}" d="{path}"/>' for name, path in self.outlines.values() if name]
        return "\n".join(
            [
                '<svg xmlns="http://www.w3.org/2000/svg" xmlns:xlink="http://www.w3.org/1999/xlink" '
                f'width="{whole[0]}" height="{whole[1]}" viewBox="0 0 {whole[0]} {whole[1]}">',
                "<defs>",
                *paths,
                "</defs>",
                f'<rect width="100%" height="100%" fill="{GROUND}"/>',
                *self.lines,
                "</svg>",
                "",
            ]
        )


def fonts_found(used, faces, words, folders):
    """The fonts of the faces for which there are any; what is wrong with the others is told."""
    found = {}
    for label in used:
        try:
            found.update(fonts_of([label], faces, words, folders))
        except Fault as fault:
            if any(word.startswith(f"{label}=") for word in words):
                raise
            print(f"preview: {fault}", file=sys.stderr)
    return found


def chosen(pages, word):
    if word is None:
        return pages[:MOST_PAGES]
    ends = re.fullmatch("([0-9]{1,6})(?:-([0-9]{1,6}))?", word)
    if not ends:
        raise Fault(f"`{word}` is no FIRST-LAST")
    some = pages[max(int(ends[1]), 1) - 1 : int(ends[2] or ends[1])]
    if not some:
        raise Fault(f"there are no pages {word}; the listing has {len(pages)}")
    return some


def png_of(svg, zoom):
    """The SVG as a PNG, by rsvg-convert."""
    if not shutil.which("rsvg-convert"):
        raise Fault("the program rsvg-convert is missing: on Debian `apt-get install librsvg2-bin`; or ask for an .svg")
    made = subprocess.run(
        ["rsvg-convert", "--zoom", str(zoom)], input=svg.encode(), stdout=subprocess.PIPE, check=False
    )
    if made.returncode:
        raise Fault(f"rsvg-convert ended with status {made.returncode}")
    return made.stdout


def words_of_command(arguments):
    parser = Words(__doc__)
    parser.add_argument("--pages", metavar="FIRST-LAST")
    parser.add_argument("--across", type=int, default=4, metavar="N")
    parser.add_argument("--zoom", type=float, default=1, metavar="N")
    parser.add_argument("--lines", action="store_true")
    parser.add_argument("--fonts", action="append", default=[])
    for name in ("metrics", "listing", "out"):
        parser.add_argument(name, metavar=name.upper())
    parser.add_argument("given", nargs="*", default=[], metavar="FACE=FONT")
    return parser.parse_args(arguments)


def main(arguments):
    words = words_of_command(arguments)
    if not words.out.endswith((".svg", ".png")):
        raise Fault(f"{words.out}: the name of a drawing ends in .svg or .png")
    if words.across < 1 or not words.zoom > 0:
        raise Fault("--across and --zoom take numbers above 0")
    need("fontTools")
    faces = read_metrics(words.metrics)
    pages = chosen(read_listing(words.listing)[0], words.pages)
    used = {}
    for page in pages:
        for item in page.items:
            if isinstance(item, Text):
                used[item.face] = face_of(item, faces, lambda what: Fault(f"{words.listing}: {what}"))
    join_texts(pages, faces)
    svg = Drawing(faces, fonts_found(used, faces, words.given, words.fonts), words.lines).sheet(pages, words.across)
    faults.write_bytes(words.out, png_of(svg, words.zoom) if words.out.endswith(".png") else svg.encode())
    return 0


if __name__ == "__main__":
    faults.run("preview", main, ("fontTools",))
