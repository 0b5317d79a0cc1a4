"""Fonts as a PDF embeds them: the glyphs that are used, their widths, and the characters that they stand for."""
import hashlib
import io

from .faults import need

MOST_IN_A_BLOCK = 100
SYMBOLIC, ITALIC, FIXED = 1 << 2, 1 << 6, 1


class EmbeddedFont:
    """A subset of a font under a name of the PDF's; `glyphs` has the four hexadecimal digits of each used character."""

    def __init__(self, font, characters):
        self.font = font
        self.characters = sorted(character for character in characters if ord(character) in font.characters)
        self.program, self.numbers = self.subset()
        self.glyphs = {character: f"{number:04X}" for character, number in self.numbers.items()}

    def subset(self):
        """The font file with the used glyphs alone, and the number of each character's glyph in it."""
        subset, ttlib = need("fontTools.subset"), need("fontTools.ttLib")
        options = subset.Options(
            layout_features=[],
            hinting=False,
            notdef_outline=True,
            name_IDs=[],
            glyph_names=False,
            recalc_timestamp=False,
            ignore_missing_unicodes=True,
        )
        options.drop_tables += ["FFTM", "DSIG", "GSUB", "GPOS", "GDEF", "kern", "BASE", "JSTF", "PfEd", "TeX ", "BDF "]
        tables = ttlib.TTFont(self.font.file, fontNumber=self.font.number, recalcTimestamp=False)
        subsetter = subset.Subsetter(options)
        subsetter.populate(unicodes=map(ord, self.characters))
        subsetter.subset(tables)
        written = io.BytesIO()
        tables.save(written)
        whole = ttlib.TTFont(io.BytesIO(written.getvalue()))
        names = whole.getBestCmap() or {}
        numbers = {character: whole.getGlyphID(names[ord(character)]) for character in self.characters}
        if self.font.is_truetype:
            return written.getvalue(), numbers
        if hasattr(whole["CFF "].cff.topDictIndex[0], "ROS"):
            # in a PDF such a font's glyphs go by the numbers that their names tell, as cid00034
            numbers = {character: int(names[ord(character)].removeprefix("cid")) for character in self.characters}
        return whole.reader["CFF "], numbers

    def hexadecimal(self, word):
        """The glyphs of a word; those of characters that the font lacks are the glyph for missing ones."""
        return "".join([self.glyphs.get(character, "0000") for character in word])

    def scaled(self, number):
        """A number of the font's units in thousandths of an em."""
        return round(number * 1000 / self.font.units, 3)

    def name(self):
        tag = hashlib.sha256(self.program).digest()
        letters = "".join(chr(ord("A") + byte % 26) for byte in tag[:6])
        plain = "".join(c for c in self.font.name(6) or self.font.family() if c.isalnum() or c == "-")
        return f"{letters}+{plain or 'Font'}"

    def widths(self):
        """The widths of the glyphs, as the array W of a font dictionary."""
        widths = {0: self.font.horizontal[self.font.order[0]][0]}
        widths.update((number, self.font.advance(character)) for character, number in self.numbers.items())
        array = []
        for number, width in sorted(widths.items()):
            array += [number, [self.scaled(width)]]
        return array

    def unicode_map(self):
        """The map from glyphs to characters, by which texts are searched and copied."""
        first = {}
        for character, number in self.numbers.items():
            first.setdefault(number, character)
        rows = [
            f"<{number:04X}> <{character.encode('utf-16-be').hex().upper()}>"
            for number, character in sorted(first.items())
        ]
        lines = [
            "/CIDInit /ProcSet findresource begin",
            "12 dict begin",
            "begincmap",
            "/CIDSystemInfo << /Registry (Adobe) /Ordering (UCS) /Supplement 0 >> def",
            "/CMapName /Adobe-Identity-UCS def",
            "/CMapType 2 def",
            "1 begincodespacerange",
            "<0000> <FFFF>",
            "endcodespacerange",
        ]
        for k in range(0, len(rows), MOST_IN_A_BLOCK):
            block = rows[k : k + MOST_IN_A_BLOCK]
            lines += [f"{len(block)} beginbfchar", *block, "endbfchar"]
        lines += ["endcmap", "CMapName currentdict /CMap defineresource pop", "end", "end"]
        return "\n".join(lines).encode("ascii")

    def dictionary(self, pdf):
        """The font's dictionary in the PDF."""
        pikepdf = need("pikepdf")
        name = pikepdf.Name("/" + self.name())
        head = self.font.tables["head"]
        ascent, descent = self.font.ascent_and_descent()
        post = self.font.tables["post"] if "post" in self.font.tables else None
        fixed = FIXED if post and post.isFixedPitch else 0
        descriptor = pikepdf.Dictionary(
            Type=pikepdf.Name.FontDescriptor,
            FontName=name,
            ItalicAngle=round(post.italicAngle, 3) if post else 0,
            Flags=SYMBOLIC | fixed | (ITALIC if self.font.style() == "italic" else 0),
            FontBBox=[self.scaled(v) for v in (head.xMin, head.yMin, head.xMax, head.yMax)],
            Ascent=self.scaled(ascent),
            Descent=self.scaled(-descent),
            CapHeight=self.scaled(ascent),
            StemV=120 if self.font.weight() >= 600 else 80,
        )
        stream = pikepdf.Stream(pdf, self.program)
        if self.font.is_truetype:
            stream.Length1 = len(self.program)
            descriptor.FontFile2 = stream
        else:
            stream.Subtype = pikepdf.Name.CIDFontType0C
            descriptor.FontFile3 = stream
        kind = "/CIDFontType2" if self.font.is_truetype else "/CIDFontType0"
        below = pikepdf.Dictionary(
            Type=pikepdf.Name.Font,
            Subtype=pikepdf.Name(kind),
            BaseFont=name,
            CIDSystemInfo=pikepdf.Dictionary(
                Registry=pikepdf.String("Adobe"), Ordering=pikepdf.String("Identity"), Supplement=0
            ),
            FontDescriptor=pdf.make_indirect(descriptor),
            W=self.widths(),
        )
        if self.font.is_truetype:
            below.CIDToGIDMap = pikepdf.Name.Identity
        return pdf.make_indirect(
            pikepdf.Dictionary(
                Type=pikepdf.Name.Font,
                Subtype=pikepdf.Name.Type0,
                BaseFont=name,
                Encoding=pikepdf.Name("/Identity-H"),
                DescendantFonts=[pdf.make_indirect(below)],
                ToUnicode=pikepdf.Stream(pdf, self.unicode_map()),
            )
        )
