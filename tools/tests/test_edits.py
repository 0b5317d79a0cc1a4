"""Each wrong body that the proofs have to refuse fits the file that it changes, those among them that the gate leaves
out."""
import glob
import os
import re
import shutil
import subprocess
import sys
import tempfile
import unittest

from support import TOOLS, TOP

EDITS = sorted(glob.glob(f"{TOP}/crates/*/must-fail/*.edit") + glob.glob(f"{TOP}/crates/*/wrong-bodies/*.edit"))


def read(path):
    with open(path, encoding="utf-8") as it:
        return it.read()


class Edits(unittest.TestCase):
    def test_there_are_some(self):
        self.assertGreater(len(EDITS), 200)

    def test_each_says_what_it_means(self):
        for edit in EDITS:
            with self.subTest(edit):
                self.assertTrue(read(edit).startswith("# "))

    def test_each_fits_its_file(self):
        for edit in EDITS:
            said = read(edit)
            file = re.search(r"^file: (.*)$", said, re.MULTILINE).group(1)
            text = read(os.path.join(os.path.dirname(os.path.dirname(edit)), file))
            pairs = re.findall(r"^old: (.*)\nnew: (.*)$", said, re.MULTILINE)
            with self.subTest(edit):
                self.assertTrue(pairs)
                for old, new in pairs:
                    self.assertEqual(text.count(old), 1, old)
                    self.assertNotEqual(old, new)

    def test_no_name_stands_twice(self):
        names = [(edit.split(os.sep)[-3], os.path.basename(edit)) for edit in EDITS]
        self.assertEqual(len(names), len(set(names)))

    def test_they_are_tried_among_the_edits(self):
        with tempfile.TemporaryDirectory() as top:
            for folder in ("bin", "tools", "crates/a/wrong-bodies", "crates/b/wrong-bodies", "crates/b/must-fail"):
                os.makedirs(f"{top}/{folder}")
            for edit in ("a/wrong-bodies/x.edit", "b/wrong-bodies/y.edit", "b/must-fail/z.edit"):
                open(f"{top}/crates/{edit}", "w").close()
            with open(f"{top}/bin/rt", "w") as it:
                it.write("#!/bin/sh\necho $@ crates/*/must-fail/*\nexit 3\n")
            os.chmod(f"{top}/bin/rt", 0o755)
            tool = shutil.copy(f"{TOOLS}/wrong_bodies.py", f"{top}/tools")
            path = {**os.environ, "PATH": f"{top}/bin:{os.environ['PATH']}"}
            ran = subprocess.run([sys.executable, tool, "a", "b"], capture_output=True, text=True, env=path)
            said = "must-fail a b crates/a/must-fail/x.edit crates/b/must-fail/y.edit crates/b/must-fail/z.edit\n"
            self.assertEqual((ran.returncode, ran.stdout), (3, said))
            left = [os.path.relpath(it, top) for it in glob.glob(f"{top}/crates/*/must-fail*/*")]
            self.assertEqual(left, ["crates/b/must-fail/z.edit"])
            self.assertFalse(os.path.exists(f"{top}/crates/a/must-fail"))

    def test_a_crate_without_any_is_refused(self):
        words = [sys.executable, f"{TOOLS}/wrong_bodies.py", "margins"]
        ran = subprocess.run(words, capture_output=True, text=True)
        self.assertEqual((ran.returncode, ran.stderr), (2, "no wrong bodies: margins\n"))


if __name__ == "__main__":
    unittest.main()
