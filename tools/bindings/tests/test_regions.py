"""The comments around written parts."""

from __future__ import annotations

import unittest

from ..errors import Difference
from ..regions import find, marks, replaced
from .test_lists import HEADER, PAGE
from .tree import TreeTest

TEXT = "a\n// written by tools/bindings: rules\nb\n// end of rules\nc\n"


class Parts(unittest.TestCase):
    def test_where_a_part_stands(self) -> None:
        self.assertEqual(find("file", TEXT, "rules"), (2, 3))

    def test_another_part(self) -> None:
        self.assertEqual(replaced("file", TEXT, {"rules": ["d", "e"]}), TEXT.replace("\nb\n", "\nd\ne\n"))
        self.assertEqual(replaced("file", TEXT, {"rules": []}), TEXT.replace("\nb\n", "\n"))

    def test_the_comments_of_each_language(self) -> None:
        for begin, end in (("/* ", " */"), ("// ", ""), ("    // ", ""), ("\t// ", ""), ("# ", ""), ("<!-- ", " -->")):
            text = f"{begin}written by tools/bindings: next calls{end}\n{begin}end of next calls{end}\n"
            self.assertEqual(marks(text), [(0, True, "next calls"), (1, False, "next calls")])

    def test_text_that_is_no_such_comment(self) -> None:
        self.assertEqual(marks('x = "# written by tools/bindings: rules"\nthe end of rules\n'), [])

    def test_comments_that_do_not_fit(self) -> None:
        begin, end = "// written by tools/bindings: rules\n", "// end of rules\n"
        for text, line, problem in [
            ("", 1, "the comments around 'rules' stand 0 and 0 times"),
            (f"\n{begin}", 2, "the comments around 'rules' stand 1 and 0 times"),
            (f"\n{end}", 2, "the comments around 'rules' stand 0 and 1 times"),
            (begin + end + begin + end, 3, "the comments around 'rules' stand 2 and 2 times"),
            (end + begin, 1, "'rules' ends before it begins"),
        ]:
            self.assertEqual(find("file", text, "rules"), Difference("file", line, problem))
            self.assertEqual(replaced("file", text, {"rules": []}), Difference("file", line, problem))


class Files(TreeTest):
    def test_a_comment_that_is_gone(self) -> None:
        line = self.change(PAGE, "<!-- end of rules of lists -->\n", "")
        begin = self.text(PAGE).split("<!-- written by tools/bindings: rules of lists")[0].count("\n") + 1
        self.assertLess(begin, line)
        problem = f"{PAGE}:{begin}: the comments around 'rules of lists' stand 1 and 0 times"
        self.assertEqual(self.run_tool("--check"), (1, [problem]))
        before = self.text(PAGE)
        self.assertEqual(self.run_tool(), (1, [problem]))
        self.assertEqual(self.text(PAGE), before)

    def test_a_part_that_nothing_writes(self) -> None:
        self.change(HEADER, "/* written by tools/bindings: rules */\n", "/* written by tools/bindings: faults */\n/* end of faults */\n"
                    "/* written by tools/bindings: rules */\n")
        line = self.text(HEADER).split("/* written by tools/bindings: faults")[0].count("\n") + 1
        self.assertEqual(self.run_tool("--check"), (1, [f"{HEADER}:{line}: nothing writes 'faults'"]))

    def test_a_file_that_is_not_there(self) -> None:
        (self.root / HEADER).unlink()
        self.assertEqual(self.run_tool("--check"), (1, [f"{self.root / HEADER}: No such file or directory"]))
