"""What the tools share: the crates, their files, their tests and the longest chain."""
import contextlib
import io
import unittest

import tools
import repository

CRATES = """# A comment with a colon: nothing.
top may_wait=3: left right std_alloc
left: low
right: low
low:

alone tests_may=Threads+Wait: thiserror
"""


class OfSmallRepository(unittest.TestCase):
    def setUp(self):
        self.top = tools.scratch(self, {"crates.txt": CRATES})

    def test_lines_and_graph(self):
        lines = repository.listed(self.top)
        self.assertEqual(list(lines), ["top", "left", "right", "low", "alone"])
        self.assertEqual(lines["top"], "top may_wait=3: left right std_alloc")
        self.assertEqual(repository.uses(lines["top"]), ["left", "right", "std_alloc"])
        self.assertEqual(repository.graph(self.top), {"top": ["left", "right"], "left": ["low"], "right": ["low"], "low": [], "alone": []})
        self.assertEqual(repository.listed(f"{self.top}/nothing"), {})

    def test_below(self):
        self.assertEqual(list(repository.below("left", self.top)), ["left", "low"])
        self.assertEqual(list(repository.below("top", self.top)), ["top", "left", "right", "low"])
        self.assertEqual(repository.below("nothing", self.top), {})
        self.assertEqual(repository.with_all_below(repository.graph(self.top), ["alone", "right"]), ["right", "low", "alone"])

    def test_longest_chain(self):
        crates = repository.graph(self.top)
        self.assertEqual(repository.longest_chain(crates, {"low": 1, "left": 2, "right": 5, "top": 4, "alone": 9}), (["low", "right", "top"], 10))
        self.assertEqual(repository.longest_chain(crates, {"low": 1, "alone": 9}), (["alone"], 9))
        self.assertEqual(repository.longest_chain({}, {}), ([], 0))

    def test_files_and_tests(self):
        tools.write(f"{self.top}/crates/low", {"src/lib.rt": "fn f() {}\n// #[test] in a comment\n", "src/b/deep.rt": "", "src/notes.txt": "#[test]\n", "specs/Low.antt": "", "proofs/f/Answers.antt": "", "out/built": "#[test]\n"})
        tools.write(f"{self.top}/crates/left", {"src/lib.rt": "    #[test]\n    fn holds() {}\n"})
        self.assertEqual(repository.files_of("low", top=self.top), ["src/lib.rt", "src/notes.txt", "src/b/deep.rt", "specs/Low.antt", "proofs/f/Answers.antt"])
        self.assertEqual(list(repository.sources_of("low", self.top)), ["src/lib.rt", "src/b/deep.rt"])
        self.assertEqual([repository.has_tests(crate, self.top) for crate in ("low", "left", "right")], [False, True, False])


class OfWords(unittest.TestCase):
    def test_help_and_wrong_words(self):
        parser = repository.parser_of('"Says 100% of it.\n\nusage: say WORD\n       say --all\n\nMore of it.\n')
        self.assertIn("usage: say WORD\n       say --all", parser.format_help())
        self.assertIn("100% of it", parser.format_help())
        self.assertIn("More of it.", parser.format_help())
        with self.assertRaises(SystemExit) as ended, contextlib.redirect_stderr(io.StringIO()):
            parser.parse_args(["--nothing"])
        self.assertEqual(ended.exception.code, 2)


if __name__ == "__main__":
    unittest.main()
