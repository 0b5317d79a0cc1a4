"""tools/metrics.py over fonts with known tables, and the reader of metrics texts."""
import os
import unittest

from support import GLYPHS, METRICS, PAIRED, TOP, Folder, make_font, needs_fonts

from bookpages.faults import Fault
from bookpages.metrics import read_metrics

RANGES = "".join(METRICS.splitlines(keepends=True)[3:])
HEAD = """bookmetrics 1
# Test Serif Regular: Version 1.5
# Licence: Free to use
# font Serif.ttf
"""


@needs_fonts
class Written(Folder):
    def test_text_of_a_truetype_font(self):
        make_font(self.path("Serif.ttf"))
        status, out, err = self.run_tool("metrics.py", self.path("Serif.ttf"))
        self.assertEqual((status, err), (0, ""))
        self.assertEqual(out, HEAD + "face test-serif normal 400 1000 750 250 700\n" + RANGES)

    def test_text_of_an_opentype_font(self):
        make_font(self.path("Serif.otf"), truetype=False)
        _, out, _ = self.run_tool("metrics.py", "serif=" + self.path("Serif.otf"))
        self.assertEqual(out, HEAD.replace("ttf", "otf") + "face serif normal 400 1000 750 250 700\n" + RANGES)

    def test_style_and_weight_are_those_of_the_tables_or_as_told(self):
        font = make_font(self.path("I.ttf"), style="Italic", weight=640, italic=True)
        _, out, _ = self.run_tool("metrics.py", font, f"other={font}", f"third/normal/900={font}")
        faces = [line for line in out.splitlines() if line.startswith("face")]
        self.assertEqual(
            [line.split()[1:4] for line in faces],
            [["test-serif", "italic", "600"], ["other", "italic", "600"], ["third", "normal", "900"]],
        )

    def test_typographic_lines_count_where_the_font_asks_for_them(self):
        from fontTools.ttLib import TTFont

        font = TTFont(make_font(self.path("Serif.ttf")))
        font["OS/2"].version = 4
        font["OS/2"].fsSelection |= 1 << 7
        font.save(self.path("Serif.ttf"))
        _, out, _ = self.run_tool("metrics.py", self.path("Serif.ttf"))
        self.assertIn("face test-serif normal 400 1000 800 200 700\n", out)

    def test_a_font_of_a_collection(self):
        from fontTools.ttLib import TTCollection, TTFont

        collection = TTCollection()
        for name, weight in (("a.ttf", 300), ("b.ttf", 800)):
            collection.fonts.append(TTFont(make_font(self.path(name), weight=weight)))
        collection.save(self.path("both.ttc"))
        for number, weight in (("", "300"), ("#0", "300"), ("#1", "800")):
            _, out, _ = self.run_tool("metrics.py", f"both.ttc{number}")
            self.assertIn(f"# font both.ttc{number}\nface test-serif normal {weight} 1000", out)
        self.assertIn("both.ttc#2: not a font that can be read", self.refused("metrics.py", "both.ttc#2"))

    def test_chosen_ranges(self):
        font = make_font(self.path("Serif.ttf"))
        _, out, _ = self.run_tool("metrics.py", "--range", "61", "--range", "2000-2FFF", font)
        self.assertEqual(
            [line for line in out.splitlines() if line.startswith("glyph")],
            ["glyph 0061 0061 500", "glyph 2022 2022 350"],
        )

    def test_the_text_is_read_again(self):
        font = make_font(self.path("Serif.ttf"))
        _, out, _ = self.run_tool("metrics.py", font)
        face = read_metrics(self.write("m.txt", out))["test-serif/normal/400"]
        self.assertEqual((face.units, face.ascent, face.descent, face.font), (1000, 750, 250, "Serif.ttf"))
        for code, advance, _ in GLYPHS.values():
            self.assertTrue(code is None or face.advance(chr(code)) == advance)

    def test_refusals(self):
        font = make_font(self.path("Serif.ttf"))
        with open(font, "rb") as file:
            data = file.read()
        cases = {
            "cut.ttf": data[: len(data) // 2],
            "text.ttf": b"no font at all",
            "empty.ttf": b"",
            "wrong.ttf": data[:200] + bytes(400) + data[600:],
        }
        for name, bad in cases.items():
            line = self.refused("metrics.py", self.write(name, bad))
            self.assertRegex(line, f"{name}: (not a font that can be read: .|it has no table of Unicode characters)")
        self.assertIn("nosuch.ttf: no such file", self.refused("metrics.py", "nosuch.ttf"))
        self.assertIn("is no FAMILY or FAMILY/STYLE/WEIGHT", self.refused("metrics.py", f"serif/oblique/400={font}"))
        self.assertIn("is no FAMILY or FAMILY/STYLE/WEIGHT", self.refused("metrics.py", f"Serif={font}"))
        self.assertIn("is the face of", self.refused("metrics.py", font, font))
        self.assertIn("is no FIRST-LAST", self.refused("metrics.py", "--range", "xyz", font))
        self.assertIn("usage: tools/metrics.py", self.refused("metrics.py"))


class Read(Folder):
    def fault(self, text):
        with self.assertRaises(Fault) as caught:
            read_metrics(self.write("m.txt", text))
        return str(caught.exception).removeprefix(self.path("m.txt"))

    def test_advances_are_rounded_down(self):
        face = read_metrics(self.write("m.txt", METRICS))["serif/normal/400"]
        widths = face.widths(1023)
        self.assertEqual([widths[c] for c in "a c\u00ad\n\u200bz"], [511, 255, 409, 0, 0, 0, 716])

    def test_a_pair_changes_the_room_of_its_second_character(self):
        face = read_metrics(self.write("m.txt", PAIRED))["serif/normal/400"]
        # at 1023 an a and a b are 511 wide, a c is 409; a b behind an a is floor(1023 * 450 / 1000) = 460, and a c
        # behind a space floor(1023 * 300 / 1000) = 306; the glyph of that b begins 51 left of its room
        self.assertEqual(list(face.rooms("abb", 1023)), [("a", 0, 511), ("b", 460, 971), ("b", 971, 1482)])
        self.assertEqual(list(face.rooms("\u200bc", 1023, " ")), [("\u200b", 0, 0), ("c", -103, 306)])
        widths = [face.width(string, 1023) for string in ("ab", "a\u00adb", "a\u200b\u00adb", "a\nb", "ba", "a c", "")]
        self.assertEqual(widths, [971, 971, 971, 1022, 1022, 511 + 255 + 306, 0])
        self.assertEqual([face.width("b", 1023, before) for before in (None, "b", "a")], [511, 511, 460])

    def test_pairs_of_characters_without_a_room(self):
        pairs = "pair 000A 0061 -100\npair 0061 00AD 30\npair 0061 0301 30\npair 0061 10FFFF -700\n"
        text = METRICS.replace("bookmetrics 1", "bookmetrics 2") + pairs
        face = read_metrics(self.write("m.txt", text))["serif/normal/400"]
        strings = ("\na", "a\u00ad", "a\u0301", "a\U0010ffff", "a\u0301\u0301")
        self.assertEqual([face.width(string, 1000) for string in strings], [400, 500, 530, 500, 530])

    def test_forms_that_are_taken(self):
        text = "\ufeffbookmetrics 1\r\n# c\r\n\t \r\nface\tserif normal 400  16 12 4 8\r\nglyph 0300 036f 0"
        face = read_metrics(self.write("m.txt", text))["serif/normal/400"]
        self.assertEqual((face.advance("\u0300"), face.advance("a")), (0, 8))

    def test_refused_pairs(self):
        face = "bookmetrics 2\nface serif normal 400 16 12 4 8\nglyph 0061 0061 6\n"
        read_metrics(self.write("m.txt", face + "pair 0061 0061 -6\npair 0061 0062 16376\npair 0062 0061 -0\n"))
        for line, what in (
            ("pair 0061 0061", "a pair is"),
            ("pair 61 0061 1", "hexadecimal"),
            ("pair 0061 0061 +1", "is no number"),
            ("pair 0061 0061 -", "is no number"),
            ("pair 0061 0061 1.5", "is no number"),
            ("pair 0061 110000 1", "at most 10FFFF"),
            ("pair 0061 0061 -16385", "from -16384"),
            ("pair 0061 0061 -7", "from 0 to 16384"),
            ("pair 0061 0062 16377", "from 0 to 16384"),
        ):
            self.assertRegex(self.fault(f"{face}{line}\n"), f"^ line 4: .*{what}")
        self.assertIn(" line 2: pairs follow", self.fault("bookmetrics 2\npair 0061 0061 1\n"))
        self.assertIn(" line 5: pairs follow", self.fault(face + "pair 0061 0061 1\npair 0061 0061 1\n"))
        self.assertIn(" line 5: pairs follow", self.fault(face + "pair 0062 0061 1\npair 0061 0062 1\n"))
        self.assertIn(" line 5: ranges follow", self.fault(face + "pair 0061 0061 0\nglyph 0062 0062 1\n"))
        line = "`pair` is neither `face` nor `glyph`"
        self.assertIn(line, self.fault(face.replace("bookmetrics 2", "bookmetrics 1") + "pair 0061 0061 1\n"))
        self.assertIn("`kern` is neither `face`, `glyph` nor `pair`", self.fault(face + "kern 0061 0061 1\n"))
        self.assertIn(" line 1: ", self.fault(face.replace("bookmetrics 2", "bookmetrics 3")))

    def test_refusals(self):
        face = "bookmetrics 1\nface serif normal 400 16 12 4 8\n"
        self.assertIn(" line 1: ", self.fault(""))
        self.assertIn(" line 2: there is no face", self.fault("bookmetrics 1\n"))
        self.assertIn(" line 2: ", self.fault("bookmetrics 1\nface serif normal 450 16 12 4 8\n"))
        self.assertIn(" line 2: ", self.fault("bookmetrics 1\nface serif normal 400 0 12 4 8\n"))
        self.assertIn(" line 3: ", self.fault(face + "face serif normal 400 16 12 4 8\n"))
        self.assertIn(" line 3: ", self.fault(face + "glyph 41 0041 8\n"))
        self.assertIn(" line 4: ", self.fault(face + "glyph 0041 0042 8\nglyph 0042 0043 8\n"))
        self.assertIn(" line 3: ", self.fault(face + "kern 0041 0042 8\n"))
        self.assertIn(": not UTF-8 at byte 14", self.fault(b"bookmetrics 1\n\xff"))


class Shipped(unittest.TestCase):
    """The metrics texts of the repository have all that the program prints by itself."""

    def test_all_have_a_reading(self):
        for name in sorted(os.listdir(os.path.join(TOP, "metrics"))):
            if name.endswith(".txt"):
                faces = read_metrics(os.path.join(TOP, "metrics", name))
                self.assertLessEqual(
                    {
                        "serif/normal/400",
                        "serif/italic/400",
                        "serif/normal/700",
                        "sans-serif/normal/400",
                        "monospace/normal/400",
                    },
                    set(faces),
                    name,
                )
                for label, face in faces.items():
                    self.assertTrue(face.font, label)
                    self.assertTrue(all(map(face.has, "-09azAZ\u2022\u2013\u2014\u201c")), label)


if __name__ == "__main__":
    unittest.main()
