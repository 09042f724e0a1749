"""Edits: how their lines are read, how they change a file, and what is wrong with them."""
import unittest

import tools
import edits

LINES = "A text that says nothing.\nfunction: low::Table::len\nnamed: yes\nfile: src/lib.rt\nold: a + 1\nnew: a - 1\nold: let gone = f();\nnew:\nfile: src/other.rt\nold: true\nnew: false\n"
SOURCE = "fn len(a: usize) {\n    let gone = f();\n    a + 1\n}\n"


class Edits(unittest.TestCase):
    def setUp(self):
        self.top = tools.scratch(self, {"crates/low/src/lib.rt": SOURCE, "crates/low/src/other.rt": "true\n", "slips/low/shorter.edit": LINES})
        tools.stand_in(self, edits, TOP=self.top)

    def edit(self, *changes, function="low::Table::len"):
        """An edit with these lines."""
        return edits.Edit("low", "one", [f"function: {function}", *changes])

    def wrong(self, *changes, **how):
        return edits.wrong_with(self.edit(*changes, **how))

    def test_reads_an_edit(self):
        (edit,) = edits.edits_of({"low": []})
        self.assertEqual((edit.label, edit.function, edit.is_named), ("low/shorter", "low::Table::len", True))
        self.assertEqual(edit.changes(), [("src/lib.rt", "a + 1", "a - 1"), ("src/lib.rt", "let gone = f();", ""), ("src/other.rt", "true", "false")])
        self.assertEqual(edits.wrong_with(edit), "")

    def test_edits_a_text(self):
        (edit,) = edits.edits_of({"low": []})
        texts, wrong = edits.edited(edit, f"{self.top}/crates/low")
        self.assertEqual((texts, wrong), ({"src/lib.rt": "fn len(a: usize) {\n    \n    a - 1\n}\n", "src/other.rt": "false\n"}, ""))

    def test_reads_edits_of_the_gate_first_and_of_a_folder_alone(self):
        tools.write(self.top, {"crates/low/must-fail/gated.edit": LINES, "planted/low/planted.edit": LINES})
        self.assertEqual([edit.name for edit in edits.edits_of({"low": []})], ["gated", "shorter"])
        self.assertEqual([edit.name for edit in edits.edits_of({"low": []}, f"{self.top}/planted")], ["planted"])

    def test_what_is_wrong(self):
        lines = ["file: src/lib.rt", "old: a + 1", "new: a"]
        self.assertEqual(self.wrong(*lines), "")
        self.assertIn("one line function:", self.wrong(*lines, function="high::len"))
        self.assertIn("one line function:", self.wrong("function: low::len", *lines))
        self.assertIn("else than yes", self.wrong("named: no", *lines))
        self.assertIn("changes nothing", self.wrong())
        self.assertIn("names no file below", self.wrong("file: ../lib.rt", "old: a", "new: b"))
        self.assertIn("names no file below", self.wrong("file: src/../src/lib.rt", "old: a + 1", "new: b"))
        self.assertIn("names no file below", self.wrong("old: a", "new: b"))
        self.assertIn("there is no file src/gone.rt", self.wrong("file: src/gone.rt", "old: a", "new: b"))
        self.assertIn("follows no line old:", self.wrong("file: src/lib.rt", "new: b"))
        self.assertIn("stands 0 times", self.wrong("file: src/lib.rt", "old: a + 2", "new: b"))
        self.assertIn("stands 2 times", self.wrong("file: src/lib.rt", "old: f", "new: b"))

    def test_an_edit_names_a_function_or_a_test(self):
        lines = ["file: src/lib.rt", "old: a + 1", "new: a"]
        one = edits.Edit("low", "one", ["test: high adds_one", *lines])
        self.assertEqual((one.test, one.function, edits.wrong_with(one)), (("high", "adds_one"), "", ""))
        for wrong in (["test: high"], ["test: high adds_one", "test: high adds_two"], ["test: high adds_one", "function: low::len"]):
            self.assertIn("one line test:", edits.wrong_with(edits.Edit("low", "one", [*wrong, *lines])))

    def test_strangers(self):
        self.assertEqual(list(edits.strangers({"low": []})), [])
        tools.write(self.top, {"slips/gone/one.edit": LINES, "slips/low/README.md": "", "crates/low/must-fail/one.txt": ""})
        found = list(edits.strangers({"low": []}))
        self.assertEqual(len(found), 3)
        self.assertIn("slips/gone: crates.txt has no such crate", found)


if __name__ == "__main__":
    unittest.main()
