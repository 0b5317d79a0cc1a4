"""The examples: their listings are whole, fit their metrics texts, and have nothing that a printer would ask about."""
import os
import unittest

from support import TOP, needs_fonts

import look
from bookpages.listing import read_listing
from bookpages.metrics import read_metrics

EXAMPLES = ("manual", "glossary", "handbook")


class Examples(unittest.TestCase):
    def test_listings(self):
        for name in EXAMPLES:
            listing = os.path.join(TOP, "examples", name, "expected.listing")
            pages, _ = read_listing(listing)
            lines, found = look.report(read_metrics(os.path.join(TOP, "examples", name, "metrics.txt")), pages, listing)
            self.assertFalse(found, lines)

    def test_books_of_the_gate_are_the_examples(self):
        for name in EXAMPLES:
            folder = os.path.join(TOP, "examples", name)
            with open(os.path.join(TOP, "crates", "book_rows", "data", f"{name}.books"), encoding="utf-8") as file:
                books = file.read()
            for heading, example in (
                ("file metrics.txt", "metrics.txt"),
                ("file book.html", "book.html"),
                ("file style.css", "style.css"),
                ("listing", "expected.listing"),
            ):
                with open(os.path.join(folder, example), encoding="utf-8") as file:
                    self.assertIn(f"\n== {heading}\n{file.read()}\n== ", books, f"{name}: {example}")

    @needs_fonts
    def test_metrics_are_those_of_installed_fonts(self):
        from bookpages.fonts import FOLDERS, Font, sought

        found = sought(FOLDERS)
        compared = 0
        for name in ("liberation", "dejavu", "libertine"):
            for label, face in read_metrics(os.path.join(TOP, "metrics", f"{name}.txt")).items():
                if face.font in found:
                    font = Font(found[face.font])
                    compared += 1
                    for first, last, advance in zip(face.firsts, face.lasts, face.advances):
                        self.assertEqual({font.advance(chr(code)) for code in range(first, last + 1)}, {advance}, label)
        if not compared:
            self.skipTest("none of the fonts is installed")


if __name__ == "__main__":
    unittest.main()
