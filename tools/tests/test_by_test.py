"""Edits whose judge is a test: which tests they may name, and what a run says of them. The runs are made up."""
import unittest
from unittest import mock

import tools
import by_test
import edits
import refusals

CRATES = {"low": [], "high": ["low"], "alone": []}
TESTS = "fn helper() {}\n\n#[test]\nfn adds_one(rt: HostRuntime) {\n    helper();\n}\n"
EDIT = ["test: high adds_one", "file: src/lib.rt", "old: a + 1", "new: a"]


class ByTest(unittest.TestCase):
    def setUp(self):
        folder = tools.scratch(self)
        self.top = f"{folder}/repository"
        self.copy = f"{folder}/copy"
        tools.write(self.top, {"crates.txt": "low:\nhigh: low\nalone:\n", "HANDLES": "none\n", "crates/low/src/lib.rt": "a + 1\n", "crates/high/src/lib.rt": TESTS, "crates/high/out/rlib": "", "crates/alone/src/lib.rt": TESTS})
        tools.stand_in(self, by_test, TOP=self.top)

    def wrong(self, test):
        return by_test.wrong_with(edits.Edit("low", "one", [f"test: {test}", *EDIT[1:]]), CRATES)

    def test_names_a_test_of_a_crate_above(self):
        self.assertEqual(self.wrong("high adds_one"), "")
        self.assertIn("no crate above", self.wrong("alone adds_one"))
        self.assertIn("no crate above", self.wrong("gone adds_one"))
        for name in ("helper", "adds", "adds_two"):
            self.assertIn("has no test", self.wrong(f"high {name}"))

    def test_reads_what_a_run_says(self):
        said = "test sums::adds_one ... FAILED\ntest sums::adds_one_more ... ok\n"
        self.assertEqual(by_test.verdict_of(said, "high", "adds_one").kind, refusals.REFUSED)
        self.assertEqual(by_test.verdict_of(said, "high", "adds_one_more").kind, refusals.NOT_REFUSED)
        late = by_test.verdict_of("test sums::adds_one ... FAILED\n    checked: no-answer: the time limit\ntest sums::adds_two ... ok\n", "high", "adds_one")
        self.assertEqual((late.is_refused, late.words), (True, "the test adds_one of high, which doesn't end in time"))
        found = by_test.verdict_of("note: a\nsrc/lib.rt:1:1: error[syntax]: no\nrun=none proved=no\n", "high", "adds_one")
        self.assertEqual((found.kind, found.words), (refusals.BAD, "src/lib.rt:1:1: error[syntax]: no"))
        self.assertEqual(by_test.verdict_of("", "high", "adds_one").kind, refusals.BAD)

    def test_tries_in_a_copy_of_the_sources(self):
        def run(root, crate, name=""):
            with open(f"{root}/crates/low/src/lib.rt", encoding="utf-8") as file:
                is_right = file.read() == "a + 1\n"
            self.assertFalse(by_test.os.path.exists(f"{root}/crates/high/out"))
            self.assertFalse(by_test.os.path.exists(f"{root}/crates/alone"))
            return f"test adds_one ... {'ok' if is_right else 'FAILED'}\ntest adds_two ... ok\n"

        one = edits.Edit("low", "one", EDIT)
        other = edits.Edit("low", "other", ["test: high adds_two", *EDIT[1:]])
        with mock.patch.object(by_test, "run", run), mock.patch("builtins.print"):
            self.assertEqual(by_test.try_all(self.copy, [one, other], CRATES, 2, lambda edit, said: None), ["low/other"])

    def test_a_test_that_fails_anyway_shows_nothing(self):
        with mock.patch.object(by_test, "run", lambda root, crate, name="": "test adds_one ... FAILED\n"), mock.patch("builtins.print"):
            self.assertEqual(by_test.try_all(self.copy, [edits.Edit("low", "one", EDIT)], CRATES, 1, lambda edit, said: None), ["low/one"])


if __name__ == "__main__":
    unittest.main()
