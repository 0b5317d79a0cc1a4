"""tools/pdf.py over listings and fonts with known places and widths: what the PDF's own objects say."""
import re
import subprocess
import unittest
from shutil import which

from support import METRICS, PAIRED, F, Folder, make_font, needs_pdf

# pages of 80 by 60 px and of 60 by 80 px, in points 60 by 45 and 45 by 60
TWO_PAGES = (
    'book 2 1\npage 1 1 right flow "" 5120 3840\nrect 64 128 1024 64 #ff0000\n'
    f'line 0 0 5120 1280\ntext 0 896 {F} "ab c "\nline 0 1280 5120 1280\ntext 64 2176 {F} "b\u00adc\u00ad"\n'
    f'hyphen 1024 2176 {F} "-"\n'
    f'page 2 2 left flow "x" 3840 5120\nline 0 0 3840 1280\ntext 0 896 {F} "a"\nend\n'
)
CHAPTERS = (
    'book 2 1\npage 1 8 right flow "" 5120 7680\nline 0 0 5120 2560\n'
    'text 0 1792 serif/normal/400 2048 #000000 "a b "\nline 0 2560 5120 2560\n'
    'text 0 4352 serif/normal/400 2048 #000000 "c"\nline 0 5120 5120 1280\n'
    f'text 0 6016 {F} "abababababababab"\n'
    'page 2 9 left flow "" 5120 7680\nline 0 0 5120 1600\ntext 0 1100 serif/normal/400 1536 #000000 "b"\n'
    'line 0 1600 5120 2560\ntext 0 3392 serif/normal/400 2048 #000000 "a"\nend\n'
)


@needs_pdf
class Pdf(Folder):
    def made(self, listing, *words, truetype=True, metrics=METRICS):
        """The PDF of a listing as pikepdf reads it, and what was told."""
        import pikepdf

        font = make_font(self.path("Serif.ttf"), truetype=truetype)
        self.write("m.txt", metrics)
        self.write("l", listing)
        status, out, err = self.run_tool("pdf.py", "m.txt", "l", "out.pdf", f"serif/normal/400={font}", *words)
        self.assertEqual((status, out), (0, ""), err)
        pdf = pikepdf.open(self.path("out.pdf"))
        self.addCleanup(pdf.close)
        return pdf, err

    def content(self, page):
        return page.Contents.read_bytes().decode().split("\n")

    def glyphs(self, pdf):
        """The hexadecimal digits of each character by the font's map to Unicode."""
        map_ = pdf.pages[0].Resources.Font.F1.ToUnicode.read_bytes().decode()
        rows = map_.split("beginbfchar")[1]
        return {chr(int(code, 16)): glyph for glyph, code in re.findall("<([0-9A-F]{4})> <([0-9A-F]{4})>\n", rows)}

    def test_words_and_rectangles_stand_at_their_places(self):
        pdf, err = self.made(TWO_PAGES)
        self.assertEqual(err, "")
        self.assertEqual([[float(v) for v in page.MediaBox] for page in pdf.pages], [[0, 0, 60, 45], [0, 0, 45, 60]])
        glyph = self.glyphs(pdf)
        self.assertEqual(set(glyph), set("abc -"))
        word = lambda text: "".join(glyph[c] for c in text)
        # the first baseline is 896 units, 10.5 points, below the top; the word c begins 1280 units, 15 points, right of
        # ab
        self.assertEqual(
            self.content(pdf.pages[0]),
            [
                "1 0 0 rg",
                "0.75 42.75 12 0.75 re f",
                "0 0 0 rg",
                f"BT /F1 12 Tf 0 34.5 Td <{word('ab ')}> Tj 15 0 Td <{word('c ')}> Tj ET",
                f"BT 0.75 19.5 Td <{word('bc')}> Tj ET",
                f"/Span <</ActualText <FEFF00AD>>> BDC BT 12 19.5 Td <{word('-')}> Tj ET EMC",
            ],
        )
        self.assertEqual(self.content(pdf.pages[1]), ["0 0 0 rg", f"BT /F1 12 Tf 0 49.5 Td <{word('a')}> Tj ET"])

    def test_a_truetype_font_is_embedded_as_a_subset(self):
        import io
        from fontTools.ttLib import TTFont

        pdf, _ = self.made(TWO_PAGES)
        font = pdf.pages[0].Resources.Font.F1
        below = font.DescendantFonts[0]
        self.assertEqual(
            (str(font.Subtype), str(font.Encoding), str(below.Subtype)), ("/Type0", "/Identity-H", "/CIDFontType2")
        )
        self.assertRegex(str(font.BaseFont), "^/[A-Z]{6}[+]Test-Regular$")
        program = below.FontDescriptor.FontFile2.read_bytes()
        self.assertEqual(int(below.FontDescriptor.FontFile2.Length1), len(program))
        embedded = TTFont(io.BytesIO(program))
        self.assertEqual(len(embedded.getGlyphOrder()), 1 + len("abc -"))
        self.widths_are_right(pdf, embedded.getBestCmap(), embedded)

    def widths_are_right(self, pdf, names, embedded):
        array = list(pdf.pages[0].Resources.Font.F1.DescendantFonts[0].W)
        widths = {int(array[k]): float(array[k + 1][0]) for k in range(0, len(array), 2)}
        wanted = {" ": 250, "-": 300, "a": 500, "b": 500, "c": 400}
        for character, width in wanted.items():
            self.assertEqual(widths[embedded.getGlyphID(names[ord(character)])], width)
        self.assertEqual(widths[0], 700)

    def test_an_opentype_font_is_embedded_as_its_outlines(self):
        from fontTools.cffLib import CFFFontSet
        import io

        pdf, _ = self.made(TWO_PAGES, truetype=False)
        below = pdf.pages[0].Resources.Font.F1.DescendantFonts[0]
        self.assertEqual(
            (str(below.Subtype), str(below.FontDescriptor.FontFile3.Subtype)), ("/CIDFontType0", "/CIDFontType0C")
        )
        outlines = CFFFontSet()
        outlines.decompile(io.BytesIO(below.FontDescriptor.FontFile3.read_bytes()), None)
        self.assertEqual(len(outlines[0].CharStrings), 1 + len("abc -"))

    def test_other_advances_than_the_fonts_move_its_glyphs(self):
        pdf, err = self.made(TWO_PAGES, metrics=METRICS.replace("0061 0062 500", "0061 0062 450"))
        self.assertIn("the advances of 2 characters ('ab' ..) in the metrics text aren't those of", err)
        glyph = self.glyphs(pdf)
        self.assertIn(f"[<{glyph['a']}> 50 <{glyph['b']}> 50 <{glyph[' ']}>] TJ", self.content(pdf.pages[0])[3])

    def test_pairs_move_glyphs(self):
        pdf, err = self.made(TWO_PAGES, metrics=PAIRED)
        self.assertEqual(err, "")
        glyph = self.glyphs(pdf)
        # ab is 512 + floor(1024 * 450 / 1000) = 972 units wide and the space 256; the glyph of the c begins at
        # 1228 + floor(307.2) - floor(409.6) = 1126, 13.1953 points
        self.assertEqual(
            self.content(pdf.pages[0])[3],
            f"BT /F1 12 Tf 0 34.5 Td [<{glyph['a']}> 50 <{glyph['b']}{glyph[' ']}>] TJ "
            f"13.1953 0 Td <{glyph['c']}{glyph[' ']}> Tj ET",
        )

    def test_pairs_reach_over_soft_hyphens_and_not_to_shown_ones(self):
        pairs = PAIRED + "pair 0062 002D -90\n"
        pdf, _ = self.made(TWO_PAGES.replace('"b\u00adc\u00ad"', '"a\u00adb\u00ad"'), metrics=pairs)
        glyph = self.glyphs(pdf)
        second, hyphen = self.content(pdf.pages[0])[4:]
        self.assertIn(f"[<{glyph['a']}> 50 <{glyph['b']}>] TJ", second)
        self.assertIn(f"12 19.5 Td <{glyph['-']}> Tj", hyphen)

    def test_pairs_and_other_advances_add_up(self):
        pdf, _ = self.made(TWO_PAGES, metrics=PAIRED.replace("0061 0062 500", "0061 0062 450"))
        glyph = self.glyphs(pdf)
        self.assertIn(f"[<{glyph['a']}> 100 <{glyph['b']}> 50 <{glyph[' ']}>] TJ", self.content(pdf.pages[0])[3])

    def test_words_are_as_wide_as_in_the_listing(self):
        from bookpages.metrics import read_metrics

        pairs = METRICS.replace("bookmetrics 1", "bookmetrics 2") + (
            "pair 0061 0061 -37\npair 0061 0062 -50\npair 0061 0063 11\npair 0062 0061 9\npair 0063 0062 -120\n"
        )
        word = "abacabbcbaacb"
        pdf, _ = self.made(TWO_PAGES.replace('"ab c "', f'"{word}"'), metrics=pairs)
        array = list(pdf.pages[0].Resources.Font.F1.DescendantFonts[0].W)
        widths = {f"{int(array[k]):04X}": float(array[k + 1][0]) for k in range(0, len(array), 2)}
        shown = re.search(r"Td \[(.*?)\] TJ", self.content(pdf.pages[0])[3])[1]
        glyphs = "".join(re.findall("<([0-9A-F]+)>", shown))
        thousandths = sum(widths[glyphs[k : k + 4]] for k in range(0, len(glyphs), 4))
        thousandths -= sum(map(float, re.findall(r"> (-?[0-9.]+)", shown)))
        # each character of the listing is rounded down to a unit
        lost = thousandths * 1024 / 1000 - read_metrics(self.path("m.txt"))["serif/normal/400"].width(word, 1024)
        self.assertTrue(0 <= lost < len(word), lost)
        # five a, five b and three c; twice ab, ba, ac and cb, once aa
        self.assertEqual(thousandths, 5 * 500 + 5 * 500 + 3 * 400 + 2 * (-50 + 9 + 11 - 120) - 37)

    def test_texts_of_a_justified_line_go_on(self):
        listing = (
            f'book 1 1\npage 1 1 right flow "" 5120 3840\nline 0 0 1024 1280\ntext 0 896 {F} "c "\n'
            f'text 717 896 {F} "c"\nend\n'
        )
        # c and the space are 409 and 256 wide, and the second c 307 behind a space: a slack of 52 goes to the space
        for metrics, x in ((METRICS, "8.4023"), (PAIRED, "7.207")):
            pdf, _ = self.made(listing, metrics=metrics)
            glyph = self.glyphs(pdf)["c"]
            self.assertIn(f"BT {x} 34.5 Td <{glyph}> Tj ET", self.content(pdf.pages[0]))

    def test_missing_glyphs_are_told(self):
        _, err = self.made(TWO_PAGES.replace('"a"', '"zaz\U0001f600"'))
        self.assertIn("no glyph for U+007A in", err)
        self.assertRegex(err, "U[+]1F600 in .*: 1 time\n")
        self.assertRegex(err, "U[+]007A in .*: 2 times\n")

    def test_outline_by_sizes(self):
        pdf, _ = self.made(CHAPTERS)
        with pdf.open_outline() as outline:
            found = [(item.title, [child.title for child in item.children]) for item in outline.root]
        self.assertEqual(found, [("a b c", ["b"]), ("a", [])])

    def test_outline_as_told(self):
        for sizes, wanted in (("none", []), ("24", ["b"]), ("24,32", ["a b c", "b"])):
            pdf, _ = self.made(CHAPTERS, "--headings", sizes)
            with pdf.open_outline() as outline:
                self.assertEqual([item.title for item in outline.root], wanted)

    def test_page_labels_are_the_numbers(self):
        pdf, _ = self.made(CHAPTERS)
        labels = list(pdf.Root.PageLabels.Nums)
        self.assertEqual((int(labels[0]), str(labels[1].S), int(labels[1].St), len(labels)), (0, "/D", 8, 2))
        self.assertNotIn("/PageLabels", self.made(TWO_PAGES)[0].Root)

    def test_title(self):
        self.assertEqual(str(self.made(TWO_PAGES, "--title", "Ünder")[0].docinfo["/Title"]), "Ünder")

    def test_a_font_is_found_by_the_comment(self):
        make_font(self.path("Serif.ttf"))
        self.write("m.txt", METRICS)
        self.write("l", TWO_PAGES)
        self.assertEqual(self.run_tool("pdf.py", "--fonts", self.folder, "m.txt", "l", "out.pdf")[0], 0)

    @unittest.skipUnless(which("pdftotext"), "the program pdftotext is missing")
    def test_text_is_found(self):
        self.made(TWO_PAGES)
        shown = subprocess.run(
            ["pdftotext", "-layout", "out.pdf", "-"], cwd=self.folder, capture_output=True, check=True
        ).stdout.decode()
        self.assertEqual(shown.split(), ["ab", "c", "bc\u00ad", "a"])

    def test_refusals(self):
        font = make_font(self.path("Serif.ttf"))
        face = f"serif/normal/400={font}"
        self.write("m.txt", METRICS)
        self.write("l", TWO_PAGES)
        with open(font, "rb") as file:
            self.write("cut.ttf", file.read()[:300])
        self.assertIn(
            "the listing is cut off after line 4",
            self.refused("pdf.py", "m.txt", self.write("cut", TWO_PAGES[:120]), "o", face),
        )
        self.assertIn(
            "cut.ttf: not a font that can be read",
            self.refused("pdf.py", "m.txt", "l", "o", "serif/normal/400=cut.ttf"),
        )
        self.assertIn(
            "has no face sans/normal/400", self.refused("pdf.py", "m.txt", "l", "o", f"sans/normal/400={font}")
        )
        self.assertIn("is no FACE=FONT", self.refused("pdf.py", "m.txt", "l", "o", "Serif.ttf"))
        self.assertIn("is no list of sizes", self.refused("pdf.py", "--headings", "big", "m.txt", "l", "o", face))
        self.assertIn("nosuch/o.pdf: No such file", self.refused("pdf.py", "m.txt", "l", "nosuch/o.pdf", face))
        self.assertIn("usage: tools/pdf.py", self.refused("pdf.py", "m.txt", "l"))
        self.write("m.txt", METRICS.replace("# font Serif.ttf\n", ""))
        self.assertIn("no font for the face serif/normal/400", self.refused("pdf.py", "m.txt", "l", "o"))
        self.write("m.txt", METRICS.replace("Serif.ttf", "No Such Font.ttf"))
        self.assertIn("No Such Font.ttf was not found", self.refused("pdf.py", "m.txt", "l", "o"))


if __name__ == "__main__":
    unittest.main()
