"""tools/preview.py over listings and fonts with known places."""
import unittest
from shutil import which
from xml.etree import ElementTree

from support import METRICS, PAIRED, F, Folder, make_font, needs_fonts

LISTING = (
    'book 2 1\npage 1 1 right flow "" 5120 3840\nrect 64 128 1024 64 #ff0000\nline 0 0 5120 1280\n'
    f'text 0 896 {F} "ab a"\npage 2 2 left flow "" 3840 5120\nend\n'
)
SVG = "{http://www.w3.org/2000/svg}"
HREF = "{http://www.w3.org/1999/xlink}href"


@needs_fonts
class Preview(Folder):
    def drawn(self, *words, metrics=METRICS):
        self.write("m.txt", metrics)
        self.write("l", LISTING)
        status, _, err = self.run_tool("preview.py", "m.txt", "l", "out.svg", *words)
        self.assertEqual(status, 0, err)
        return ElementTree.parse(self.path("out.svg")).getroot(), err

    def test_outlines_stand_at_the_places_of_the_listing(self):
        font = make_font(self.path("Serif.ttf"))
        root, err = self.drawn(f"serif/normal/400={font}")
        self.assertEqual(err, "")
        pages = root.findall(f"{SVG}g")
        self.assertEqual([page.get("transform") for page in pages], ["translate(16 16)", "translate(113 16)"])
        self.assertEqual([page[0].get("width") for page in pages], ["80", "60"])
        self.assertEqual((root.get("width"), root.get("height")), ("190", "113"))
        red, first, second = pages[0][1:]
        self.assertEqual(
            [red.get(name) for name in ("x", "y", "width", "height", "fill")], ["1", "2", "16", "1", "#ff0000"]
        )
        # the words begin at 0 and at 1280 units, 20 px; an em is 16 px, 1000 units of the font
        self.assertEqual(first.get("transform"), "translate(0 14) scale(0.016000 -0.016000)")
        self.assertEqual(second.get("transform"), "translate(20 14) scale(0.016000 -0.016000)")
        self.assertEqual([use.get("x") for use in first], ["0.0", "500.0"])
        self.assertEqual([use.get(HREF) for use in (*first, *second)], ["#g0", "#g1", "#g0"])
        paths = {path.get("id"): path.get("d") for path in root.iter(f"{SVG}path")}
        self.assertEqual(paths, {"g0": "M50 0V400H450V0Z", "g1": "M50 0V700H450V0Z"})

    def test_pairs_move_outlines(self):
        font = make_font(self.path("Serif.ttf"))
        root, _ = self.drawn(f"serif/normal/400={font}", metrics=PAIRED)
        first, second = root.findall(f"{SVG}g")[0][2:]
        # the b begins at 972 - 512 = 460 units, and the second word at 972 + 256 = 1228 units, 19.1875 px
        self.assertEqual([use.get("x") for use in first], ["0.0", "449.2"])
        self.assertEqual(second.get("transform"), "translate(19.188 14) scale(0.016000 -0.016000)")

    def test_without_fonts_words_are_texts(self):
        root, err = self.drawn("--lines", metrics=METRICS.replace("# font Serif.ttf\n", ""))
        self.assertIn("no font for the face serif/normal/400", err)
        self.assertEqual(
            [(text.get("x"), text.get("y"), text.text) for text in root.iter(f"{SVG}text")],
            [("0", "14", "ab"), ("20", "14", "a")],
        )
        self.assertEqual(sum(rect.get("stroke") is not None for rect in root.iter(f"{SVG}rect")), 1)

    def test_chosen_pages(self):
        root, _ = self.drawn("--pages", "2-7")
        self.assertEqual(len(root.findall(f"{SVG}g")), 1)

    @unittest.skipUnless(which("rsvg-convert"), "the program rsvg-convert is missing")
    def test_png(self):
        font = make_font(self.path("Serif.ttf"))
        self.drawn()
        status, _, err = self.run_tool("preview.py", "--zoom", "2", "m.txt", "l", "out.png", f"serif/normal/400={font}")
        self.assertEqual((status, err), (0, ""))
        with open(self.path("out.png"), "rb") as file:
            head = file.read(24)
        self.assertEqual(
            (head[:4], int.from_bytes(head[16:20], "big"), int.from_bytes(head[20:24], "big")), (b"\x89PNG", 380, 226)
        )

    def test_refusals(self):
        self.write("m.txt", METRICS)
        self.write("l", LISTING)
        self.assertIn("ends in .svg or .png", self.refused("preview.py", "m.txt", "l", "out.pdf"))
        self.assertIn("there are no pages 3-4", self.refused("preview.py", "--pages", "3-4", "m.txt", "l", "o.svg"))
        self.assertIn("`x` is no FIRST-LAST", self.refused("preview.py", "--pages", "x", "m.txt", "l", "o.svg"))
        self.assertIn("cut off", self.refused("preview.py", "m.txt", self.write("cut", LISTING[:90]), "o.svg"))
        self.assertIn(
            "nosuch.ttf: no such file", self.refused("preview.py", "m.txt", "l", "o.svg", "serif/normal/400=nosuch.ttf")
        )
        self.assertIn("usage: tools/preview.py", self.refused("preview.py"))


if __name__ == "__main__":
    unittest.main()
