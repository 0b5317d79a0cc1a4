"""The reader of listings, the places of words, and tools/look.py."""
import unittest

from support import METRICS, PAIRED, F, Folder

from bookpages.faults import Fault
from bookpages.listing import Edge, Line, Rect, Text, read_listing
from bookpages.metrics import read_metrics
from bookpages.places import end_of, join_texts, lines_of, words_of

HEAD = 'book 1 1\npage 1 1 right flow "" 5120 3840\n'


class Read(Folder):
    def fault(self, text):
        with self.assertRaises(Fault) as caught:
            read_listing(self.write("l", text))
        return str(caught.exception).removeprefix(self.path("l"))

    def test_each_record(self):
        text = (
            'book 2 3\npage 1 8 right notes "a\\"\\\\\\n\\x1f" 5120 3840\n'
            'rect -64 0 64 1536 #00ff00\nedge open 0 0 5120 128\n'
            f'edge close 0 1 2 3\nline 64 128 4992 1280\ntext 64 1024 {F} "a b\\n"\nhyphen 512 896 {F} "-"\n'
            'page 2 -1 left blank "" 5120 3840\nend\n'
        )
        pages, passes = read_listing(self.write("l", text))
        self.assertEqual((len(pages), passes), (2, 3))
        self.assertEqual(pages[0][:7], (1, 8, "right", "notes", 'a"\\\n\x1f', 5120, 3840))
        self.assertEqual(
            pages[0].items,
            [
                Rect(-64, 0, 64, 1536, "#00ff00"),
                Edge("open", 0, 0, 5120, 128),
                Edge("close", 0, 1, 2, 3),
                Line(64, 128, 4992, 1280),
                Text(64, 1024, "serif/normal/400", 1024, "#000000", "a b\n", False),
                Text(512, 896, "serif/normal/400", 1024, "#000000", "-", True),
            ],
        )
        self.assertEqual((pages[1].number, pages[1].kind, pages[1].items), (-1, "blank", []))

    def test_a_listing_that_is_cut_off(self):
        whole = HEAD + f'line 0 0 5120 1280\ntext 0 896 {F} "a"\nend\n'
        read_listing(self.write("l", whole))
        for length in range(len(whole)):
            self.fault(whole[:length])
        self.assertEqual(self.fault(whole[:-4]), ": the listing is cut off after line 4, in page 1 of 1")

    def test_refusals(self):
        self.assertIn(" line 1: a listing begins with", self.fault("page 1\n"))
        self.assertIn(" line 3: no record of a listing", self.fault(HEAD + "word\nend\n"))
        self.assertIn(" line 3: no text record", self.fault(HEAD + f'text 0 896 {F} "a\nend\n'))
        self.assertIn(" line 3: no text record", self.fault(HEAD + f'text 0 896 {F} "\\q"\nend\n'))
        self.assertIn(" line 4: nothing follows", self.fault(HEAD + "end\nend\n"))
        self.assertIn(" line 3: page 3 follows page 1", self.fault(HEAD + 'page 3 1 left flow "" 1 1\nend\n'))
        self.assertIn(" line 3: page 2 is a right page", self.fault(HEAD + 'page 2 1 right flow "" 1 1\nend\n'))
        self.assertIn(": 1 pages stand where `book` says 2", self.fault(HEAD.replace("book 1", "book 2") + "end\n"))


class Placed(Folder):
    def setUp(self):
        super().setUp()
        self.faces = read_metrics(self.write("m.txt", METRICS))

    def words(self, string, x=0):
        text = Text(x, 896, "serif/normal/400", 1000, "#000000", string, False)
        return list(words_of(text, self.faces["serif/normal/400"]))

    def test_each_word_stands_where_the_advances_before_it_end(self):
        self.assertEqual(self.words("ab c  a", 64), [(64, "ab", True), (64 + 1250, "c", True), (64 + 2150, "a", False)])
        self.assertEqual(self.words(" a\u00a0b "), [(250, "a", True), (1000 + 0 + 700 - 250, "b", True)])
        self.assertEqual(self.words("a\u00adb\n"), [(0, "ab", True)])
        self.assertEqual(self.words("  \u00ad"), [])

    def test_lines_take_the_texts_on_them(self):
        text = (
            HEAD + f'line 1536 0 3584 1280\ntext 0 896 {F} "1. "\ntext 1536 896 {F} "a"\nline 0 1280 5120 1280\n'
            f'text 0 2176 {F} "b"\ntext 100 3700 {F} "foot"\ntext 300 3700 {F} "foot"\nend\n'
        )
        lines, loose = lines_of(read_listing(self.write("l", text))[0][0])
        self.assertEqual([[it.string for it in texts] for _, texts in lines], [["1. ", "a"], ["b"]])
        self.assertEqual([it.string for it in loose], ["foot", "foot"])


class Paired(Folder):
    """The texts of the listing's lines under a face in which a c closes up to a space, and a b to an a."""

    def setUp(self):
        super().setUp()
        self.faces = read_metrics(self.write("m.txt", PAIRED))

    def ends(self, records):
        pages, _ = read_listing(self.write("l", HEAD + records + "end\n"))
        join_texts(pages, self.faces)
        return [end_of(item, self.faces[item.face]) for item in pages[0].items if isinstance(item, Text)]

    def test_words_begin_where_their_glyphs_do(self):
        text = Text(64, 896, "serif/normal/400", 1000, "#000000", "ab c ab\u00adb", False)
        words = list(words_of(text, self.faces["serif/normal/400"]))
        # ab is 950 wide and the spaces 250; the c is 300 wide and its glyph begins 100 left of its room
        self.assertEqual(words, [(64, "ab", True), (64 + 1100, "c", True), (64 + 1750, "abb", False)])
        goes_on = text._replace(string="c", before=" ")
        self.assertEqual(list(words_of(goes_on, self.faces["serif/normal/400"])), [(-36, "c", False)])
        self.assertEqual(end_of(goes_on, self.faces["serif/normal/400"]), 364)

    def test_a_pair_reaches_over_the_cut_of_a_justified_line(self):
        # c is 409 wide, a space 256, and a c behind a space 307; the first space has a share of 3, the second of 0
        line = f'line 0 0 1500 1280\ntext 0 896 {F} "c "\ntext 668 896 {F} "c "\ntext 1231 896 {F} "c"\n'
        self.assertEqual(self.ends(line), [409, 668 + 307, 1231 + 307])

    def test_other_texts_begin_anew(self):
        first, second = f'text 0 896 {F} "c "\n', f'text 700 896 {F} "c"\n'
        line = "line 0 0 1500 1280\n"
        self.assertEqual(self.ends(line + first + second)[1], 700 + 307)
        # with a hanging indent
        self.assertEqual(self.ends(line.replace("line 0", "line 600") + first + second)[1], 700 + 307)
        for records in (
            line + first + second.replace("700", "665"),
            line + first + second.replace("#000000", "#ff0000"),
            line + first.replace('c "', 'c"') + second,
            line.replace("line 0", "line 700") + first + second,
            line.replace("line 0 0", "line 0 1000") + first + second,
        ):
            self.assertEqual(self.ends(records)[1] - (665 if " 665 " in records else 700), 409, records)


class Look(Folder):
    def look(self, listing, *options, metrics=METRICS):
        self.write("m.txt", metrics)
        self.write("l", listing)
        return self.run_tool("look.py", *options, "m.txt", "l")

    def test_a_book_in_order(self):
        status, out, _ = self.look(HEAD + f'line 0 0 5120 1280\ntext 0 896 {F} "ab "\nend\n')
        self.assertEqual(
            (status, out),
            (
                0,
                "1 pages, 1 lines: 0 overfull, 0 loose, 0 texts outside the page, 0 characters without " "an advance\n",
            ),
        )

    def test_what_is_found(self):
        # an em is 1024 units: a and b are 512 wide, a space 256; six letters are 3072 wide
        status, out, _ = self.look(
            HEAD + f'line 0 0 3008 1280\ntext 0 896 {F} "abababab"\nline 0 1280 5120 1280\ntext 0 2176 {F} "a "\n'
            f'text 3584 2176 {F} "bz "\nline 0 2560 5120 1280\ntext 4608 3456 {F} "abc"\nend\n'
        )
        self.assertEqual(status, 1)
        self.assertEqual(
            out.splitlines(),
            [
                'page 1: overfull by 17 px: "abababab"',
                'page 1: overfull by 14.39 px: "abc"',
                'page 1: loose, a gap of 48 px: "a bz"',
                'page 1: outside the page: "abc"',
                "U+007A has no advance in serif/normal/400: once, first on page 1",
                "1 pages, 3 lines: 2 overfull, 1 loose, 1 texts outside the page, 1 characters without an advance",
            ],
        )

    def test_a_justified_line_with_pairs_is_as_wide_as_its_measure(self):
        listing = HEAD + f'line 0 0 1007 1280\ntext 0 896 {F} "c "\ntext 700 896 {F} "c"\nend\n'
        self.assertEqual(self.look(listing, metrics=PAIRED)[0], 0)
        self.assertIn('page 1: overfull by 1.59 px: "c c"', self.look(listing)[1])

    def test_options(self):
        listing = HEAD + f'line 0 0 5120 1280\ntext 0 896 {F} "a "\ntext 3584 896 {F} "b"\nend\n'
        self.assertEqual(self.look(listing, "--loose", "13")[0], 0)
        self.assertEqual(self.look(listing, "--loose", "0")[0], 0)
        status, out, _ = self.look(listing, "--most", "0")
        self.assertEqual((status, out.count("\n")), (1, 1))

    def test_refusals(self):
        self.write("m.txt", METRICS)
        self.write("l", HEAD)
        self.assertEqual(
            self.refused("look.py", "m.txt", "l"), "look: l: the listing is cut off after line 2, in page 1 of 1"
        )
        self.assertIn("look: l line 1: a metrics text begins with", self.refused("look.py", "l", "m.txt"))
        self.assertIn("look: nosuch: No such file", self.refused("look.py", "m.txt", "nosuch"))
        self.assertIn("usage: tools/look.py", self.refused("look.py", "m.txt"))
        self.write("l", HEAD + 'text 0 896 other/normal/400 1024 #000000 "a"\nend\n')
        self.assertIn("the metrics text has no such face", self.refused("look.py", "m.txt", "l"))


if __name__ == "__main__":
    unittest.main()
