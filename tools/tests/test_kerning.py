"""tools/metrics.py --kern over fonts with known pairs."""
import unittest

from support import Folder, make_font, needs_fonts

from bookpages.metrics import read_metrics

ONE_PAIR = "feature kern { pos a b -50; } kern;"
CUT = "where the second character would have less room than none or too much"


@needs_fonts
class Kerning(Folder):
    def font(self, features=""):
        return make_font(self.path("Serif.ttf"), features=features)

    def opened(self, features=""):
        from fontTools.ttLib import TTFont

        return TTFont(self.font(features))

    def lines(self, *words):
        """The comment on the pairs and the pairs, as the tool writes them; all lines of before are those of a text
        without pairs."""
        status, out, err = self.run_tool("metrics.py", *(words or ("--kern",)), "Serif.ttf")
        self.assertEqual((status, err), (0, ""))
        lines = out.splitlines()
        self.assertEqual(lines[0], "bookmetrics 2")
        behind = 1 + max(k for k, line in enumerate(lines) if line.startswith("glyph"))
        read_metrics(self.write("m.txt", out))
        return lines[behind:]

    def pairs(self, features, *words):
        self.font(features)
        return self.lines(*words)[1:]

    def test_without_the_option_the_text_is_of_version_1(self):
        plain = self.run_tool("metrics.py", self.font())
        self.assertEqual(self.run_tool("metrics.py", self.font(ONE_PAIR)), plain)
        self.assertTrue(plain[1].startswith("bookmetrics 1\n"))
        self.assertNotIn("pair", plain[1])
        self.font(ONE_PAIR)
        kerned = self.run_tool("metrics.py", "--kern", "Serif.ttf")[1]
        self.assertEqual(
            kerned,
            plain[1].replace("bookmetrics 1", "bookmetrics 2")
            + "# 1 pairs of the font's table GPOS\npair 0061 0062 -50\n",
        )

    def test_single_pairs_ascend(self):
        self.font("feature kern { pos b a 20; pos a b -50; pos a hyphen -10; pos c c 0; } kern;")
        self.assertEqual(
            self.lines(),
            [
                "# 3 pairs of the font's table GPOS",
                "pair 0061 002D -10",
                "pair 0061 0062 -50",
                "pair 0062 0061 20",
            ],
        )

    def test_the_first_subtable_that_applies_decides(self):
        # single pairs stand before classes, also one of 0; a is covered by the first subtable of classes, where a
        # hyphen is in class 0 and its change is 0, so that -90 is never reached
        font = self.opened(
            "feature kern { pos a c -5; pos b c 0; pos [a b] [b c] -40; subtable; "
            "pos [a] [hyphen] -90; pos [c] [hyphen] -70; } kern;"
        )
        formats = [table.Format for table in font["GPOS"].table.LookupList.Lookup[0].SubTable]
        self.assertEqual(formats, [1, 2, 2])
        self.assertEqual(
            self.lines()[1:],
            ["pair 0061 0062 -40", "pair 0061 0063 -5", "pair 0062 0062 -40", "pair 0063 002D -70"],
        )

    def test_class_0_has_all_other_characters(self):
        font = self.opened("feature kern { pos [a b] [c] -40; } kern;")
        table = font["GPOS"].table.LookupList.Lookup[0].SubTable[0]
        self.assertEqual(table.Format, 2)
        table.Class1Record[table.ClassDef1.classDefs.get("a", 0)].Class2Record[0].Value1.XAdvance = -7
        font.save(self.path("Serif.ttf"))
        wanted = [
            f"pair 00{first} {second} {-40 if second == '0063' else -7}"
            for first in ("61", "62")
            for second in ("0020", "002D", "0061", "0062", "0063", "2022")
        ]
        self.assertEqual(self.lines()[1:], wanted)

    def test_extension_lookups_are_followed(self):
        from fontTools.ttLib import TTFont
        from fontTools.ttLib.tables.otTables import ExtensionPos

        font = self.opened(
            "lookup one { pos a b -50; } one; lookup two { pos [a] [c] -30; } two; "
            "feature kern { lookup one; lookup two; } kern;"
        )
        for lookup in font["GPOS"].table.LookupList.Lookup:
            extension = ExtensionPos()
            extension.Format, extension.ExtensionLookupType, extension.ExtSubTable = 1, 2, lookup.SubTable[0]
            lookup.LookupType, lookup.SubTable = 9, [extension]
        font.save(self.path("Serif.ttf"))
        lookups = TTFont(self.path("Serif.ttf"))["GPOS"].table.LookupList.Lookup
        self.assertEqual([it.SubTable[0].ExtSubTable.Format for it in lookups], [1, 2])
        self.assertEqual(self.lines()[1:], ["pair 0061 0062 -50", "pair 0061 0063 -30"])

    def test_lookups_add_up(self):
        features = (
            "lookup one { pos a b -50; pos b c 9; } one; lookup two { pos a b -7; pos b c -9; } two; "
            "feature kern { lookup one; lookup two; } kern;"
        )
        self.assertEqual(self.pairs(features), ["pair 0061 0062 -57"])

    def test_scripts(self):
        other = "feature liga { sub a b by fi; } liga;"
        latin = "languagesystem latn dflt; feature kern { pos a b -50; } kern;"
        self.assertEqual(self.pairs(latin), ["pair 0061 0062 -50"])
        turkish = "feature kern { script latn; language TRK exclude_dflt; pos a b -50; } kern;"
        both = "feature kern { pos a c -5; script latn; pos a b -50; } kern;"
        self.assertEqual(self.pairs(turkish), [])
        self.assertEqual(self.pairs(both), ["pair 0061 0063 -5"])
        self.assertEqual(self.pairs(other), [])
        # pairs of characters that aren't asked for don't keep the other script's away
        rare = "feature kern { pos acutecomb acutecomb 5; script latn; pos a b -50; } kern;"
        self.assertEqual(self.pairs(rare), ["pair 0061 0062 -50"])
        self.assertEqual(self.pairs(rare, "--kern-range", "0-FFFF"), ["pair 0301 0301 5"])

    def test_pairs_that_change_something_else_are_passed_over(self):
        self.font(
            "feature kern { pos a b <10 0 -20 0>; pos b a <0 0 -20 0>; pos a <0 0 -20 0> c <0 0 -5 0>; "
            "pos [a] [b] -90; } kern;"
        )
        self.assertEqual(
            self.lines(),
            [
                "# 1 pairs of the font's table GPOS; 2 passed over, which change more than one advance",
                "pair 0062 0061 -20",
            ],
        )

    def test_glyphs_that_a_lookup_ignores_are_in_no_pair(self):
        features = (
            "table GDEF { GlyphClassDef [a b], , [acutecomb], ; } GDEF; "
            "feature kern { lookupflag %s; pos a b -50; pos a acutecomb 30; pos acutecomb a 30; } kern;"
        )
        self.assertEqual(
            self.pairs(features % "IgnoreMarks", "--kern-range", "0-FFFF"), ["pair 0061 0062 -50"]
        )
        self.assertEqual(len(self.pairs(features % "RightToLeft", "--kern-range", "0-FFFF")), 3)

    def test_the_room_of_a_character_stays_in_its_limits(self):
        self.font("feature kern { pos a c -450; pos a b 32000; pos a acutecomb -30; pos c acutecomb 30; } kern;")
        self.assertEqual(
            self.lines("--kern-range", "61-63", "--kern-range", "301"),
            [
                f"# 3 pairs of the font's table GPOS; 3 cut short {CUT}",
                "pair 0061 0062 15884",
                "pair 0061 0063 -400",
                "pair 0063 0301 30",
            ],
        )

    def test_characters_of_pairs(self):
        features = "feature kern { pos a b -50; pos a c -40; pos a bullet -30; pos fi a -20; } kern;"
        self.assertEqual(
            self.pairs(features), ["pair 0061 0062 -50", "pair 0061 0063 -40", "pair 0061 2022 -30"]
        )
        self.assertEqual(self.pairs(features, "--kern-range", "FB01", "--kern-range", "61"), ["pair FB01 0061 -20"])
        self.assertEqual(self.pairs(features, "--kern", "--range", "61-62"), ["pair 0061 0062 -50"])

    def test_all_characters_of_a_glyph_are_in_its_pairs(self):
        font = self.opened("feature kern { pos a space -50; pos space hyphen -9; } kern;")
        for table in font["cmap"].tables:
            # a soft hyphen stands in no pair
            table.cmap.update({0xA0: "space", 0xAD: "hyphen"})
        font.save(self.path("Serif.ttf"))
        self.assertEqual(
            self.lines()[1:],
            ["pair 0020 002D -9", "pair 0061 0020 -50", "pair 0061 00A0 -50", "pair 00A0 002D -9"],
        )

    def kern_table(self, *subtables, features="", apple=False):
        """A font with a table `kern` of these subtables, each its flags and its pairs."""
        from fontTools.ttLib import newTable
        from fontTools.ttLib.tables._k_e_r_n import KernTable_format_0

        font = self.opened(features)
        table = font["kern"] = newTable("kern")
        table.version, table.kernTables = 1.0 if apple else 0, []
        for flags, pairs in subtables:
            subtable = KernTable_format_0(apple)
            subtable.coverage, subtable.tupleIndex, subtable.kernTable = flags, 0 if apple else None, pairs
            table.kernTables.append(subtable)
        font.save(self.path("Serif.ttf"))

    def test_the_table_kern(self):
        along, least, across, instead = 1, 3, 5, 9
        self.kern_table(
            (along, {("b", "a"): 20, ("a", "b"): -50, ("c", "c"): -8}),
            (along, {("a", "b"): -7, ("c", "c"): 8}),
            (least, {("a", "c"): -1}),
            (across, {("a", "c"): -2}),
            (0, {("a", "c"): -3}),
            (instead, {("b", "a"): 5}),
        )
        self.assertEqual(
            self.lines(), ["# 2 pairs of the font's table kern", "pair 0061 0062 -57", "pair 0062 0061 5"]
        )

    def test_the_table_kern_of_apple(self):
        self.kern_table((0, {("a", "b"): -50}), (0x80, {("a", "c"): -3}), apple=True)
        self.assertEqual(self.lines()[1:], ["pair 0061 0062 -50"])

    def test_gpos_goes_before_the_table_kern(self):
        self.kern_table((1, {("a", "b"): -50}), features="feature kern { pos a c -5; } kern;")
        self.assertEqual(self.lines()[1:], ["pair 0061 0063 -5"])
        self.kern_table((1, {("a", "b"): -50}), features="feature kern { pos a' 5 c b; } kern;")
        self.assertEqual(self.lines(), ["# 1 pairs of the font's table kern", "pair 0061 0062 -50"])

    def test_a_font_without_pairs(self):
        self.font()
        self.assertEqual(self.lines(), ["# the font has no pairs"])

    def test_pairs_stand_behind_the_ranges_of_their_face(self):
        self.font(ONE_PAIR)
        out = self.run_tool("metrics.py", "--kern", "one=Serif.ttf", "two=Serif.ttf")[1]
        faces = read_metrics(self.write("m.txt", out))
        self.assertEqual([face.pairs for face in faces.values()], [{"ab": -50}] * 2)

    def test_refusals(self):
        font = self.opened(ONE_PAIR)
        data = bytearray(font.reader["GPOS"])
        data[4:10] = b"\xff" * 6
        from fontTools.ttLib.tables.DefaultTable import DefaultTable

        broken = DefaultTable("GPOS")
        broken.data = bytes(data)
        font["GPOS"] = broken
        font.save(self.path("Broken.ttf"))
        self.assertIn("Broken.ttf: its kerning can't be read: ", self.refused("metrics.py", "--kern", "Broken.ttf"))
        self.assertIn("is no FIRST-LAST", self.refused("metrics.py", "--kern-range", "xyz", "Serif.ttf"))


if __name__ == "__main__":
    unittest.main()
