#!/usr/bin/env python3
"""Writes a metrics text from fonts, for `bookfmt format`.

    tools/metrics.py [--all] [--range FIRST-LAST].. [--kern] [--kern-range FIRST-LAST]..
    [FAMILY[/STYLE/WEIGHT]=]FONT.. > metrics.txt

FONT is a TrueType or OpenType file; FILE.ttc#1 is the second font of a collection. The family, the style and the
weight are those of the font's own tables, or as told: serif=FONT, or serif/italic/700=FONT.

  --all               every character that a font has, in place of those of books in European scripts
  --range FIRST-LAST  these characters alone, by their Unicode numbers in hexadecimal; may stand several times
  --kern              a text of version 2, with the kerning pairs of Western and Central European letters and of
                      punctuation
  --kern-range FIRST-LAST
                      the same with the pairs of these characters alone; may stand several times

Status 0, or 2 with one line that says what is wrong."""
import argparse
import re
import sys

from bookpages import faults
from bookpages.faults import Fault, Words
from bookpages.fonts import FULL, LICENCE, LICENCE_PLACE, VERSION, Font
from bookpages.kerning import kerning_of
from bookpages.metrics import (
    FONT_COMMENT,
    LAST_CHARACTER,
    MOST,
    MOST_FACES,
    NAME,
    STYLES,
    WEIGHTS,
    WITHOUT_ADVANCE,
)

# Latin, marks, Greek and Cyrillic; punctuation, signs and arrows; box drawing, blocks and shapes; ligatures
USUAL = [
    (0x20, 0x7E),
    (0xA0, 0x52F),
    (0x1E00, 0x1FFF),
    (0x2000, 0x206F),
    (0x2070, 0x209F),
    (0x20A0, 0x20CF),
    (0x2100, 0x22FF),
    (0x2300, 0x23FF),
    (0x2500, 0x25FF),
    (0x2600, 0x27BF),
    (0xFB00, 0xFB06),
    (0xFFFD, 0xFFFD),
]
# the characters whose pairs are written: Latin of Western and Central Europe, dashes, quotation marks and dots
KERNED = [(0x20, 0x7E), (0xA0, 0x17F), (0x2010, 0x2026)]
LONGEST_COMMENT = 120


def words_of(arguments):
    parser = Words(__doc__)
    parser.add_argument("--all", action="store_true")
    parser.add_argument("--range", action="append", type=range_of, metavar="FIRST-LAST")
    parser.add_argument("--kern", action="store_true")
    parser.add_argument("--kern-range", action="append", type=range_of, metavar="FIRST-LAST")
    parser.add_argument("fonts", nargs="+", metavar="FONT")
    return parser.parse_args(arguments)


def range_of(word):
    ends = re.fullmatch("([0-9A-Fa-f]{1,6})(?:-([0-9A-Fa-f]{1,6}))?", word)
    if not ends:
        raise argparse.ArgumentTypeError(f"`{word}` is no FIRST-LAST in hexadecimal")
    first, last = int(ends[1], 16), int(ends[2] or ends[1], 16)
    if first > last or last > LAST_CHARACTER:
        raise argparse.ArgumentTypeError(f"`{word}`: FIRST is at most LAST, and LAST at most 10FFFF")
    return first, last


def label_of(word):
    """The label NAME/STYLE/WEIGHT and the font of a word of the command line."""
    told, equals, path = word.partition("=")
    if not equals:
        told, path = "", word
    font = Font(path)
    parts = told.split("/") if told else [font.family()]
    if len(parts) == 1:
        parts += [font.style(), str(font.weight())]
    if len(parts) != 3 or not NAME.match(parts[0]) or parts[1] not in STYLES or parts[2] not in WEIGHTS:
        raise Fault(
            f"`{told}` is no FAMILY or FAMILY/STYLE/WEIGHT: a family has 1 to 32 of a-z, 0-9 and -, a style is "
            "normal or italic, a weight 100, 200, up to 900"
        )
    return "/".join(parts), font


def held(number):
    """A number as a metrics text takes it."""
    return max(0, min(MOST, number))


def codes_of(font, *choices):
    """The characters that the font has and that are in the ranges of each choice, ascending."""
    return [
        code
        for code in sorted(font.characters)
        if not 0xD800 <= code <= 0xDFFF
        and all(any(first <= code <= last for first, last in chosen) for chosen in choices)
    ]


def ranges_of(font, chosen):
    """Ranges of characters that the font has and that have one advance, as FIRST, LAST and ADVANCE."""
    ranges = []
    for code in codes_of(font, chosen):
        advance = held(font.advance(chr(code)))
        if ranges and ranges[-1][1] == code - 1 and ranges[-1][2] == advance:
            ranges[-1][1] = code
        else:
            ranges.append([code, code, advance])
    return ranges


def pairs_of(font, codes):
    """The pairs of these characters as FIRST, SECOND and CHANGE, ascending, and what a comment tells of them.

    A font changes the advance of the first glyph, so that the second one and all that follow begin elsewhere. A metrics
    text tells the same change as one of the second character. All ends behind the pair are the same by both; but a
    line that ends after the first character has its plain width, as it should, since no second one follows there. So
    the change counts in the width of a line from the second character on."""
    glyphs = {}
    for code in codes:
        if chr(code) not in WITHOUT_ADVANCE:
            glyphs.setdefault(font.characters[code], []).append(code)
    kerning = kerning_of(font, set(glyphs))
    pairs, cut = [], 0
    for (first, second), change in kerning.changes.items():
        advance = held(font.horizontal[second][0])
        taken = held(advance + change) - advance
        found = [(one, other, taken) for one in glyphs[first] for other in glyphs[second]]
        cut += len(found) if taken != change else 0
        pairs += found if taken else []
    return sorted(pairs), comment_of(kerning, len(pairs), cut)


def comment_of(kerning, count, cut):
    """What a comment tells of a face's pairs."""
    parts = [f"{count} pairs of the font's table {kerning.table}" if kerning.table else "the font has no pairs"]
    if cut:
        parts.append(f"{cut} cut short where the second character would have less room than none or too much")
    if kerning.passed:
        parts.append(f"{kerning.passed} passed over, which change more than one advance")
    return "# " + "; ".join(parts)


def short(text):
    return text if len(text) <= LONGEST_COMMENT else f"{text[:LONGEST_COMMENT].rstrip()} .."


def licence_of(font):
    """What a font says of its licence: its beginning where it is long, and where to read it."""
    said, place = font.name(LICENCE), font.name(LICENCE_PLACE)
    return (
        ", see ".join(part for part in (short(said), place if place not in said else "") if part)
        or "the font states none"
    )


def face_lines(label, font, chosen, kerned):
    """The lines of one face: comments on where it comes from, the face, its ranges, and its pairs where some are
    asked for."""
    ascent, descent = font.ascent_and_descent()
    file = font.path.replace("\\", "/").rsplit("/", 1)[-1]
    yield f"# {short(font.name(FULL) or file)}: {short(font.name(VERSION) or 'no version')}"
    yield f"# Licence: {licence_of(font)}"
    yield f"{FONT_COMMENT}{file}"
    numbers = font.units, held(ascent), held(descent), held(font.horizontal[font.order[0]][0])
    yield " ".join(map(str, ("face", *label.split("/"), *numbers)))
    for first, last, advance in ranges_of(font, chosen):
        yield f"glyph {first:04X} {last:04X} {advance}"
    if kerned:
        pairs, comment = pairs_of(font, codes_of(font, chosen, kerned))
        yield comment
        for first, second, change in pairs:
            yield f"pair {first:04X} {second:04X} {change}"


def main(arguments):
    words = words_of(arguments)
    chosen = [(0, LAST_CHARACTER)] if words.all else words.range or USUAL
    faces = {}
    for word in words.fonts:
        label, font = label_of(word)
        if label in faces:
            raise Fault(
                f"{font.path}: {label} is the face of {faces[label].path} already; say FAMILY/STYLE/WEIGHT=FONT"
            )
        faces[label] = font
    if len(faces) > MOST_FACES:
        raise Fault(f"{len(faces)} faces: a metrics text has at most {MOST_FACES}")
    kerned = words.kern_range or (KERNED if words.kern else None)
    lines = ["bookmetrics 2" if kerned else "bookmetrics 1"]
    for label, font in faces.items():
        lines += face_lines(label, font, chosen, kerned)
    sys.stdout.reconfigure(encoding="utf-8", newline="\n")
    print("\n".join(lines))
    return 0


if __name__ == "__main__":
    faults.run("metrics", main, ("fontTools",))
