"""A line of crates.txt names what the files of its crate name, no more and no less."""
import unittest
from unittest import mock

import tools

layout = tools.tool("layout")


class Lines(unittest.TestCase):
    def wrong(self, line, text):
        files = {"high": {"src/lib.rt": f"#![tactic(auto)]\n{text}\n"}, "low": {"proofs/Lib.antt": "mod Hidden\npub mod Shared\n"}}
        with mock.patch.object(layout, "texts_of", side_effect=files.get), mock.patch.object(layout, "listed", return_value={"low": "low:", "high": line}):
            return layout.wrong_in("high", line)

    def test_a_line_that_fits(self):
        self.assertEqual(self.wrong("high: low", "use low::Entry;"), [])
        self.assertEqual(self.wrong("high:", "use std::mem;\n// use low::Entry;"), [])

    def test_a_crate_that_the_line_lacks(self):
        for text in ("use low::Entry;", "pub use low::{Entry, Key};", "ghost use Rattle.low.specs.Pairs.{find};"):
            with self.subTest(text):
                self.assertEqual(self.wrong("high:", text), ["high: its files name low, and its line in crates.txt doesn't"])

    def test_a_crate_that_no_file_names(self):
        self.assertEqual(self.wrong("high: low", "use std::mem;"), ["high: its line in crates.txt names low, and no file of it does"])

    def test_a_file_that_a_crate_keeps_to_itself(self):
        self.assertEqual(self.wrong("high: low", "use Rattle.low.proofs.Shared.{lemma}"), [])
        self.assertEqual(self.wrong("high: low", "use Rattle.low.proofs.Hidden.{lemma}"), ["high: its files name low/proofs/Hidden, which isn't pub there"])


if __name__ == "__main__":
    unittest.main()
