"""The index of rules in docs/ARCHITECTURE.md leads to definitions and functions that are there, and from each function
to a definition of its row."""

import re
import unittest

from contracts import CRATES, called, clauses, closure, definitions, remarks

PAGE = CRATES.parent / "docs/ARCHITECTURE.md"
STANDARD = re.compile(r"CSS 2\.1|CSS Text|\bcss-[a-z]|Selectors 3|UAX|\(Unicode|HTML, \d|DOM, \d")
PLACE = re.compile(r"((?:`[^`]+`(?:, )?)+) in `([^`]+)`")


def index():
    """The text of the index."""
    return PAGE.read_text(encoding="utf-8").split("## Index of rules", 1)[1].split("\n## ", 1)[0]


def rows():
    """The rows of the index: a rule, where its definitions stand, and where its functions stand."""
    for line in index().splitlines():
        cells = [cell.strip() for cell in line.strip().strip("|").split(" | ")]
        if line.startswith("|") and len(cells) == 3 and cells[0] != "Rule":
            yield cells


def offered():
    """The functions that the head of the index names as offered to other programs, which no run calls."""
    head = index().split("\n### ", 1)[0].split("For other programs", 1)[1]
    return set(re.findall(r"`(?:\w+::)+(\w+)`", head))


def missing(cell, ending, pattern):
    """The names of a cell that its files don't have, and its files that aren't there."""
    places = PLACE.findall(cell)
    if not places:
        yield cell
    for names, path in places:
        file = CRATES / path
        if not path.endswith(ending) or not file.exists():
            yield path
            continue
        text = file.read_text(encoding="utf-8")
        for name in re.findall("`([^`]+)`", names):
            if not re.search(pattern.format(re.escape(name)), text, re.MULTILINE):
                yield f"{name} in {path}"


def entries(cell):
    """The names of a cell, each with its file, and whether it is a law's."""
    for part in cell.split("; "):
        for names, path in PLACE.findall(part):
            for name in re.findall("`([^`]+)`", names):
                yield name, path, part.startswith("law")


def defined(cell):
    """The definitions of a cell, each by its file and its name."""
    for name, path, _ in entries(cell):
        crate, _, file = path.split("/")
        yield f"{crate}.specs.{file.removesuffix('.antt')}", name


def parts(one):
    """What a definition is made of, as far as its own file has it."""
    return {other for other in definitions().get(one, ()) if other[0] == one[0]}


def leads(wanted, named, law):
    """Whether clauses lead to one of some definitions: they name it, or what is made of it, or a part of it; or they
    name what a law of the row speaks of."""
    if any(one in closure(named) or parts(one) & named for one in wanted):
        return True
    return any(one in closure(law) or parts(one) & closure(law) for one in named)


class Rules(unittest.TestCase):
    def test_the_index_has_rows(self):
        self.assertGreater(len(list(rows())), 100)

    def test_definitions_are_there(self):
        for rule, cell, _ in rows():
            with self.subTest(rule):
                self.assertEqual(list(missing(cell, ".antt", r"^(?:[a-z]+ )*{}\b")), [])

    def test_functions_are_there(self):
        for rule, _, cell in rows():
            with self.subTest(rule):
                self.assertEqual(list(missing(cell, ".rt", r"\bfn {}\b")), [])

    def test_functions_lead_to_definitions(self):
        for rule, cell, functions in rows():
            wanted, law = set(defined(cell)), set()
            for name, path, is_law in entries(functions):
                law |= clauses(path).get(name, set()) if is_law else set()
            for name, path, is_law in entries(functions):
                with self.subTest(rule, function=name):
                    named = clauses(path).get(name, set())
                    self.assertTrue(leads(wanted, named, set() if is_law else law))

    def test_definitions_are_met(self):
        for rule, cell, functions in rows():
            named = set().union(*(clauses(path).get(name, ()) for name, path, _ in entries(functions)))
            for one in defined(cell):
                with self.subTest(rule, definition=one[1]):
                    self.assertTrue(leads({one}, named, set()))

    def test_rules_of_standards_have_rows(self):
        listed = {one for _, cell, _ in rows() for one in defined(cell)}
        for path in sorted(CRATES.glob("*/specs/*.antt")):
            for one, said in remarks(path):
                if one in definitions() and STANDARD.search(said):
                    with self.subTest(one):
                        self.assertIn(one, listed)

    def test_functions_are_called_outside_of_rows(self):
        known = offered()
        for rule, _, cell in rows():
            for name, _, is_law in entries(cell):
                with self.subTest(rule, function=name):
                    self.assertTrue(is_law or name in called() or name in known)


if __name__ == "__main__":
    unittest.main()
