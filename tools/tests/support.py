"""What the tests share: small fonts with known tables, texts in a folder of their own, and a run of a tool."""
import importlib.util
import os
import subprocess
import sys
import tempfile
import unittest

HERE = os.path.dirname(os.path.abspath(__file__))
TOOLS = os.path.dirname(HERE)
TOP = os.path.dirname(TOOLS)
sys.path.insert(0, TOOLS)

HAS_FONT_TOOLS = importlib.util.find_spec("fontTools") is not None
HAS_PIKEPDF = importlib.util.find_spec("pikepdf") is not None
needs_fonts = unittest.skipUnless(HAS_FONT_TOOLS, "the Python package fonttools is missing")
needs_pdf = unittest.skipUnless(HAS_FONT_TOOLS and HAS_PIKEPDF, "the Python package fonttools or pikepdf is missing")

# glyph: character, advance in thousandths of an em, and the box that it is drawn as
GLYPHS = {
    ".notdef": (None, 700, (50, 0, 650, 700)),
    "space": (0x20, 250, None),
    "hyphen": (0x2D, 300, (50, 200, 250, 260)),
    "a": (0x61, 500, (50, 0, 450, 400)),
    "b": (0x62, 500, (50, 0, 450, 700)),
    "c": (0x63, 400, (50, 0, 350, 400)),
    "acutecomb": (0x301, 0, (-300, 500, -200, 700)),
    "bullet": (0x2022, 350, (50, 200, 300, 450)),
    "fi": (0xFB01, 600, (50, 0, 550, 700)),
}


def box(pen, corners):
    left, bottom, right, top = corners
    pen.moveTo((left, bottom))
    pen.lineTo((left, top))
    pen.lineTo((right, top))
    pen.lineTo((right, bottom))
    pen.closePath()


def drawn(pen, corners):
    if corners:
        box(pen, corners)
    return pen


def make_font(path, truetype=True, family="Test Serif", style="Regular", weight=400, italic=False, features=""):
    """Writes a font with the glyphs above: an em of 1000 units, an ascent of 750 and a descent of 250; `features` are
    its lookups in the language of feature files."""
    from fontTools.fontBuilder import FontBuilder
    from fontTools.pens.t2CharStringPen import T2CharStringPen
    from fontTools.pens.ttGlyphPen import TTGlyphPen

    builder = FontBuilder(1000, isTTF=truetype)
    builder.setupGlyphOrder(list(GLYPHS))
    builder.setupCharacterMap({code: name for name, (code, _, _) in GLYPHS.items() if code})
    if truetype:
        builder.setupGlyf({name: drawn(TTGlyphPen(None), corners).glyph() for name, (_, _, corners) in GLYPHS.items()})
    else:
        strings = {
            name: drawn(T2CharStringPen(width, None), corners).getCharString()
            for name, (_, width, corners) in GLYPHS.items()
        }
        builder.setupCFF("Test-" + style, {"FullName": f"{family} {style}"}, strings, {})
    builder.setupHorizontalMetrics(
        {name: (width, corners[0] if corners else 0) for name, (_, width, corners) in GLYPHS.items()}
    )
    builder.setupHorizontalHeader(ascent=750, descent=-250)
    builder.setupNameTable(
        {
            "familyName": family,
            "styleName": style,
            "fullName": f"{family} {style}",
            "psName": f"Test-{style}",
            "version": "Version 1.5",
            "licenseDescription": "Free to\nuse",
        }
    )
    builder.setupOS2(sTypoAscender=800, sTypoDescender=-200, usWeightClass=weight, fsSelection=1 if italic else 0x40)
    builder.setupPost(isFixedPitch=0)
    builder.font["head"].macStyle = 2 if italic else 0
    if features:
        builder.addOpenTypeFeatures(features)
    builder.save(path)
    return path


# the metrics text of the font above, by the grammar of docs/METRICS.md
METRICS = """bookmetrics 1
# font Serif.ttf
face serif normal 400 1000 750 250 700
glyph 0020 0020 250
glyph 002D 002D 300
glyph 0061 0062 500
glyph 0063 0063 400
glyph 0301 0301 0
glyph 2022 2022 350
glyph FB01 FB01 600
"""
# the same with a space that closes up to a c, and an a to a b
PAIRED = METRICS.replace("bookmetrics 1", "bookmetrics 2") + "pair 0020 0063 -100\npair 0061 0062 -50\n"
F = "serif/normal/400 1024 #000000"


class Folder(unittest.TestCase):
    """A test with a folder of its own."""

    def setUp(self):
        made = tempfile.TemporaryDirectory()
        self.addCleanup(made.cleanup)
        self.folder = made.name

    def path(self, name):
        return os.path.join(self.folder, name)

    def write(self, name, text):
        with open(self.path(name), "wb") as file:
            file.write(text if isinstance(text, bytes) else text.encode())
        return self.path(name)

    def read(self, name):
        with open(self.path(name), encoding="utf-8") as file:
            return file.read()

    def run_tool(self, name, *words, **environment):
        """The status, the output and the error output of a tool."""
        ran = subprocess.run(
            [sys.executable, os.path.join(TOOLS, name), *words],
            capture_output=True,
            cwd=self.folder,
            env={**os.environ, "PYTHONDONTWRITEBYTECODE": "1", **environment},
            timeout=600,
            check=False,
        )
        return ran.returncode, ran.stdout.decode(), ran.stderr.decode()

    def refused(self, name, *words, **environment):
        """The one line with which a tool refuses; nothing else is written, and the status is 2."""
        status, out, err = self.run_tool(name, *words, **environment)
        self.assertEqual((status, out), (2, ""), err)
        self.assertEqual(err.count("\n"), 1, err)
        return err.removesuffix("\n")
