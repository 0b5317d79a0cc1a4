"""tools/patterns.py over small pattern files."""
from support import Folder

TEX = r"""% title: Some patterns
% licence: free to use
% =====
\message{Some}
\patterns{ % the patterns
.ach4 hy3ph % two of a line
1na
a1b\ss 2c
}
\hyphenation{
as-so-ciate
ta-ble
project
}
"""
DIC = """UTF-8
LEFTHYPHENMIN 2
RIGHTHYPHENMIN 3
% licence: free to use
.ach4
hy3ph
b1é
NEXTLEVEL
1na
"""


class Written(Folder):
    def test_patterns_of_tex(self):
        status, out, err = self.run_tool("patterns.py", "--no-exceptions", self.write("hyph.tex", TEX))
        self.assertEqual((status, err), (0, ""))
        self.assertEqual(
            out, "% title: Some patterns\n% licence: free to use\n% =====\n.ach4\nhy3ph\n1na\na1bß2c\n"
        )

    def test_exceptions_are_patterns_of_whole_words(self):
        _, out, _ = self.run_tool("patterns.py", self.write("hyph.tex", TEX))
        self.assertEqual(
            out.splitlines()[-3:], [".a8s9s8o9c8i8a8t8e.", ".t8a9b8l8e.", ".p8r8o8j8e8c8t."]
        )

    def test_patterns_of_libreoffice(self):
        status, out, err = self.run_tool("patterns.py", self.write("hyph.dic", DIC))
        self.assertEqual((status, err), (0, ""))
        self.assertEqual(out, "% licence: free to use\n.ach4\nhy3ph\nb1é\n1na\n")

    def test_a_file_of_another_encoding(self):
        text = DIC.replace("UTF-8", "ISO8859-1").replace("\n", "\r\n").encode("latin-1")
        _, out, _ = self.run_tool("patterns.py", self.write("hyph.dic", text))
        self.assertIn("\nb1é\n", out)

    def test_what_has_no_form_is_left_out_and_told(self):
        text = DIC + "a11b\n1a\n" + "x" * 33 + "\ne1en/e=,1,1\n"
        status, out, err = self.run_tool("patterns.py", self.write("hyph.dic", text))
        self.assertEqual(status, 0)
        self.assertEqual(err, "patterns: 3 left out, as `a11b`\n")
        self.assertEqual(out.splitlines()[-2:], ["1na", "1a"])

    def test_refusals(self):
        self.assertIn("no patterns", self.refused("patterns.py", self.write("a.dic", "UTF-8\n")))
        self.assertIn("isn't closed", self.refused("patterns.py", self.write("a.tex", r"\patterns{a1b")))
        self.assertIn("not UTF-8 at byte 6", self.refused("patterns.py", self.write("b.dic", b"UTF-8\n\xff\n")))
        self.assertIn("No such file", self.refused("patterns.py", "missing.tex"))
        self.assertIn("usage: tools/patterns.py", self.refused("patterns.py"))
