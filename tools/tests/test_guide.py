"""How the steps of docs/GUIDE.md are taken, and whether its edits fit one another; nothing is run."""
import contextlib
import io
import os
import unittest

import tools

guide = tools.tool("guide")


class Steps(unittest.TestCase):
    def setUp(self):
        self.walk = guide.Walk(tools.scratch(self), False)
        os.makedirs(f"{self.walk.folder}/src")

    def text(self, path):
        with open(f"{self.walk.folder}/{path}", encoding="utf-8") as file:
            return file.read()

    def test_edits(self):
        for how, where, text in (("write", None, "a\nb (\n  c\n)\nd\n"), ("replace", "b", "B\n"), ("after", "a", "below\n"), ("append", None, "end\n")):
            self.walk.edit("src/lib.rt", how, where, text)
        self.assertEqual((self.text("src/lib.rt"), self.walk.failed), ("a\nbelow\nB\nd\n\nend\n", 0))
        with contextlib.redirect_stdout(io.StringIO()):
            self.walk.edit("src/lib.rt", "replace", "nothing of this", "x\n")
        self.assertEqual(self.walk.failed, 1)

    def test_printed_lines_in_their_order(self):
        self.walk.printed = "one\n  two\nthree\n"
        self.walk.compare("one\nthree\n")
        self.assertEqual((self.walk.passed, self.walk.failed), (1, 0))
        with contextlib.redirect_stdout(io.StringIO()):
            self.walk.compare("three\none\n")
        self.assertEqual((self.walk.passed, self.walk.failed), (1, 1))

    def test_each_edit_of_the_page_finds_its_place(self):
        with contextlib.redirect_stdout(io.StringIO()) as said:
            for language, words, text in guide.blocks():
                if language == "rust" and len(words) >= 2:
                    self.walk.edit(words[0], words[1], words[2].strip() if len(words) > 2 else None, text)
        self.assertEqual((said.getvalue(), self.walk.failed), ("", 0))
        main = self.text("src/main.rt")
        modules = {name.removesuffix(".rt") for name in os.listdir(f"{self.walk.folder}/src")} - {"main"}
        for module in modules:
            with self.subTest(module):
                self.assertEqual(main.count(f"mod {module};\n"), 1)


if __name__ == "__main__":
    unittest.main()
