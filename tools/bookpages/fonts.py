"""Font files, read by fontTools: names, licences, advances, glyphs."""
import logging
import os
import re

from .faults import Fault, need

MOST = 16384
WIDTHS = {
    1: "ultra-condensed",
    2: "extra-condensed",
    3: "condensed",
    4: "semi-condensed",
    6: "semi-expanded",
    7: "expanded",
    8: "extra-expanded",
    9: "ultra-expanded",
}
FAMILY, FULL, VERSION, POSTSCRIPT, LICENCE, LICENCE_PLACE, TYPOGRAPHIC = 1, 4, 5, 6, 13, 14, 16
# the folders in which the fonts of a metrics text's comments are sought
FOLDERS = (
    "/usr/share/fonts",
    "/usr/local/share/fonts",
    "~/.local/share/fonts",
    "~/.fonts",
    "/Library/Fonts",
    "~/Library/Fonts",
    "/System/Library/Fonts",
)


def parted(path):
    """The file of a font, and its number in a collection."""
    found = re.fullmatch("(.*[.](?:ttc|otc))#([0-9]{1,3})", path, re.IGNORECASE)
    return (found[1], int(found[2])) if found else (path, 0)


class Font:
    """One font of a file; `FILE.ttc#2` is the third font of a collection."""

    def __init__(self, path):
        self.path = path
        self.file, self.number = parted(path)
        ttlib = need("fontTools.ttLib")
        # its warnings are of what no tool here asks a font for
        logging.getLogger("fontTools").setLevel(logging.ERROR)
        if not os.path.isfile(self.file):
            raise Fault(f"{self.file}: no such file")
        try:
            self.tables = ttlib.TTFont(self.file, fontNumber=self.number, lazy=False)
            self.read()
        except Fault:
            raise
        except Exception as why:
            what = str(why).split("\n")[0] or type(why).__name__
            raise Fault(f"{path}: not a font that can be read: {what}") from None

    def read(self):
        """Reads all that the tools ask of a font, so that a fault in any of it comes at once."""
        font = self.tables
        for table in ("head", "hhea", "hmtx", "maxp", "cmap"):
            if table not in font:
                raise Fault(f"{self.path}: not a font that can be read: the table {table} is missing")
        self.is_truetype = "glyf" in font
        if not self.is_truetype and "CFF " not in font:
            raise Fault(f"{self.path}: only TrueType and OpenType outlines can be used, and it has neither")
        if "fvar" in font:
            raise Fault(
                f"{self.path}: a variable font; make one face of it first, as "
                "`fonttools varLib.instancer FONT wght=400` does"
            )
        self.units = font["head"].unitsPerEm
        if not 1 <= self.units <= MOST:
            raise Fault(f"{self.path}: an em has {self.units} units; a metrics text takes 1 to {MOST}")
        self.characters = font.getBestCmap()
        if not self.characters:
            raise Fault(f"{self.path}: it has no table of Unicode characters")
        self.horizontal = font["hmtx"].metrics
        self.order = font.getGlyphOrder()
        for glyph in self.characters.values():
            self.horizontal[glyph]

    def name(self, number):
        """The text of a name record on one line, or an empty one."""
        names = self.tables["name"] if "name" in self.tables else None
        text = names and names.getDebugName(number) or ""
        return " ".join(text.split())

    def family(self):
        """The family name as a metrics text writes it; a narrow or wide face has its width in it."""
        plain = (self.name(TYPOGRAPHIC) or self.name(FAMILY)).lower()
        name = re.sub("[^a-z0-9-]", "", re.sub(" +", "-", plain))
        width = WIDTHS.get(self.tables["OS/2"].usWidthClass) if "OS/2" in self.tables else None
        if width and not name.endswith(width):
            name = f"{name}-{width}"
        if not 1 <= len(name) <= 32:
            raise Fault(
                f"{self.path}: its family name `{plain}` gives no name of 1 to 32 letters, digits and hyphens: "
                "name it as NAME=FONT"
            )
        return name

    def style(self):
        italic = self.tables["head"].macStyle & 2 or "OS/2" in self.tables and self.tables["OS/2"].fsSelection & 1
        return "italic" if italic else "normal"

    def weight(self):
        """The weight as one of the hundreds from 100 to 900."""
        weight = self.tables["OS/2"].usWeightClass if "OS/2" in self.tables else 0
        if weight < 50:
            return 700 if self.tables["head"].macStyle & 1 else 400
        return max(100, min(900, (weight + 50) // 100 * 100))

    def ascent_and_descent(self):
        """How far the font rises above and falls below its baseline, by the table that browsers take too."""
        hhea, os2 = self.tables["hhea"], self.tables["OS/2"] if "OS/2" in self.tables else None
        if os2 and os2.fsSelection & 1 << 7:
            return os2.sTypoAscender, -os2.sTypoDescender
        if os2 and not hhea.ascent and not hhea.descent:
            return os2.usWinAscent, os2.usWinDescent
        return hhea.ascent, -hhea.descent

    def advance(self, character):
        """The advance of a character's glyph, or of the glyph for missing ones."""
        return self.horizontal[self.characters.get(ord(character), self.order[0])][0]


def sought(folders):
    """The font files below the folders, by their file names; the first of a name counts."""
    found = {}
    for folder in folders:
        for place, inside, files in os.walk(os.path.expanduser(folder)):
            inside.sort()
            for file in sorted(files):
                found.setdefault(file, os.path.join(place, file))
    return found


def given_fonts(words, faces):
    """The fonts that the words FACE=FONT name, by the labels of faces."""
    given = {}
    for word in words:
        label, equals, path = word.partition("=")
        if not equals or not path:
            raise Fault(f"`{word}` is no FACE=FONT such as serif/normal/400=Serif.ttf")
        if label not in faces:
            raise Fault(f"the metrics text has no face {label}; it has {', '.join(faces)}")
        given[label] = path
    return given


def fonts_of(used, faces, words, folders):
    """The font of each used face: the one that the words name, else the file that the metrics text's comment names."""
    paths = given_fonts(words, faces)
    missing = [label for label in used if label not in paths]
    found = sought([*folders, *FOLDERS]) if any(faces[label].font for label in missing) else {}
    for label in missing:
        file = faces[label].font
        if file is None:
            raise Fault(f"no font for the face {label}: say {label}=FONT")
        name, _ = parted(file)
        if name not in found:
            raise Fault(f"no font for the face {label}: {name} was not found; say {label}=FONT or --fonts FOLDER")
        paths[label] = found[name] + file.removeprefix(name)
    return {label: Font(paths[label]) for label in used}
