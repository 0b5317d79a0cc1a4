"""tools/book with a program that gives a stored answer in the place of bookfmt."""
import os

from support import METRICS, F, Folder, make_font, needs_pdf

LISTING = 'book 1 1\npage 1 1 right flow "" 5120 3840\nline 0 0 5120 1280\n' f'text 0 896 {F} "ab "\nend\n'
PROGRAM = """#!/bin/sh
echo "$*" >"{folder}/words"
cat "{folder}/said" >&2
cat "{folder}/listing"
exit $(cat "{folder}/status")
"""


@needs_pdf
class Book(Folder):
    def setUp(self):
        super().setUp()
        self.write("program", PROGRAM.format(folder=self.folder))
        os.chmod(self.path("program"), 0o755)
        self.answer(0, "1 pages, 1 passes", LISTING)
        self.write("m.txt", METRICS)
        self.write("b.html", "<title>A &amp;\nB</title><p>ab</p>")
        self.write("a.css", "p { margin: 0 }")
        self.write("b.css", "/* nothing */")
        self.font = make_font(self.path("Serif.ttf"))

    def answer(self, status, line, listing=""):
        self.write("status", str(status))
        self.write("said", f"bookfmt: {line}\n")
        self.write("listing", listing)

    def book(self, *words):
        return self.run_tool("book", *words, BOOKFMT=self.path("program"))

    def test_a_book(self):
        import pikepdf

        status, out, err = self.book("--fonts", ".", "m.txt", "b.html", "a.css", "b.css")
        self.assertEqual((status, out), (0, ""), err)
        self.assertEqual(self.read("words"), "format -- m.txt b.html a.css b.css\n")
        self.assertEqual(
            err.splitlines(),
            [
                "bookfmt: 1 pages, 1 passes",
                "book: 1 pages, 1 lines: 0 overfull, 0 loose, 0 texts outside the page, "
                "0 characters without an advance",
                "book: b.pdf is made",
            ],
        )
        with pikepdf.open(self.path("b.pdf")) as pdf:
            self.assertEqual((len(pdf.pages), str(pdf.docinfo["/Title"])), (1, "A & B"))

    def test_unread(self):
        told = "sheet 2:3: declaration not read: colr: red\\nhtml: table is set as blocks: t\\n"
        asked = f"if [ \"$1\" = --unread ]; then\n  echo \"$*\" >'{self.folder}/asked'; printf '{told}'; exit 1\nfi\n"
        program = PROGRAM.format(folder=self.folder)
        self.write("program", program.replace("\n", f"\n{asked}", 1))
        status, _, err = self.book("--unread", "--fonts", ".", "m.txt", "b.html", "a.css", "b.css")
        self.assertEqual(status, 0, err)
        self.assertEqual(self.read("asked"), "--unread format -- m.txt b.html a.css b.css\n")
        self.assertEqual(
            err.splitlines()[:2],
            ["unread: b.css:3: declaration not read: colr: red", "unread: html: table is set as blocks: t"],
        )
        self.assertEqual(self.book("--unread", "--strict", "--fonts", ".", "m.txt", "b.html", "a.css", "b.css")[0], 1)

    def test_options(self):
        status, _, err = self.book(
            "m.txt",
            "b.html",
            "a.css",
            f"serif/normal/400={self.font}",
            "--passes",
            "3",
            "--gap",
            "20",
            "--columns",
            "2",
            "--unproved",
            "-o",
            "c.pdf",
            "--listing",
            "kept",
            "--title",
            "T",
        )
        self.assertEqual(status, 0, err)
        self.assertEqual(self.read("words"), "--unproved format --passes 3 --columns 2 --gap 20 -- m.txt b.html a.css\n")
        self.assertEqual(self.read("kept"), LISTING)
        self.assertTrue(os.path.exists(self.path("c.pdf")))

    def test_what_is_found_is_told(self):
        self.answer(0, "1 pages, 1 passes", LISTING.replace("line 0 0 5120", "line 0 0 512"))
        words = "--fonts", ".", "m.txt", "b.html"
        status, _, err = self.book(*words)
        self.assertEqual(status, 0)
        self.assertIn('book: page 1: overfull by 8 px: "ab"\n', err)
        self.assertEqual(self.book("--strict", *words)[0], 1)

    def test_refusals_of_the_program_name_the_file(self):
        for line, name in (
            ("html is not UTF-8 at 3", " (html is b.html)"),
            ("cannot read sheet 2", " (sheet 2 is b.css)"),
            ("metrics line 3: range", " (metrics is m.txt)"),
            ("limit: text", ""),
        ):
            self.answer(4, line)
            status, _, err = self.book("m.txt", "b.html", "a.css", "b.css", "--listing", "kept")
            self.assertEqual((status, err), (4, f"bookfmt: {line}{name}\n"))
            self.assertFalse(os.path.exists(self.path("kept")))

    def refusal(self, *words):
        return self.refused("book", *words, BOOKFMT=self.path("program"))

    def test_files_in_another_order(self):
        order = "; the files come in the order METRICS HTML CSS.."
        self.assertEqual(
            self.refusal("b.html", "m.txt"),
            f"book: b.html is no metrics text, it doesn't begin with `bookmetrics`{order}",
        )
        self.assertEqual(self.refusal("m.txt", "a.css", "b.html"), f"book: a.css is no HTML, it has no tag{order}")
        self.assertEqual(
            self.refusal("m.txt", "b.html", "m.txt"), f"book: m.txt is no style sheet, but a metrics text{order}"
        )
        self.assertEqual(
            self.refusal("m.txt", "b.html", "a.css", "b.html"), f"book: b.html is no style sheet, but HTML{order}"
        )
        self.assertFalse(os.path.exists(self.path("words")))

    def test_refusals(self):
        self.assertIn("usage: tools/book", self.refusal("m.txt"))
        self.assertEqual(
            self.refused("book", "m.txt", "b.html", BOOKFMT=self.path("nosuch")),
            f"book: {self.path('nosuch')}: No such file or directory",
        )
        self.answer(0, "1 pages, 1 passes", LISTING[:40])
        self.assertEqual(self.book("m.txt", "b.html")[0], 2)


if __name__ == "__main__":
    import unittest

    unittest.main()
