"""How edits are chosen and copies are made; nothing is proved."""
import contextlib
import io
import os
import unittest
from unittest import mock

import tools
import edits

slips = tools.tool("slips")
CRATES = {"low": [], "high": ["low"], "alone": []}


def edit(crate, name, *lines):
    return edits.Edit(crate, name, list(lines))


class Chosen(unittest.TestCase):
    def chosen(self, *words):
        found = [edit("low", "a"), edit("low", "b", "named: yes"), edit("high", "c", "test: high c")]
        with mock.patch.object(edits, "edits_of", lambda crates, folder: found):
            return [one.name for one in slips.chosen(list(words), None, CRATES)]

    def test_all_named_tested_or_of_crates(self):
        self.assertEqual(self.chosen(), ["a", "b", "c"])
        self.assertEqual(self.chosen("named"), ["b"])
        self.assertEqual(self.chosen("tested"), ["c"])
        self.assertEqual(self.chosen("low"), ["a", "b"])
        self.assertEqual(self.chosen("high", "low"), ["a", "b", "c"])

    def test_wrong_words(self):
        self.assertRaises(slips.WrongWords, self.chosen, "alone")
        for words in (["--jobs", "0"], ["--jobs"], ["--check", "low"], ["--nothing"]):
            with self.subTest(words), contextlib.redirect_stderr(io.StringIO()), self.assertRaises(SystemExit) as ended:
                slips.main(words)
            self.assertEqual(ended.exception.code, 2)


class Copies(unittest.TestCase):
    def setUp(self):
        self.top = tools.scratch(self)

    def test_a_copy_is_brought_up_to_date_and_keeps_what_was_built(self):
        tools.write(self.top, {"here/src/lib.rt": "new", "here/src/b/one.rt": "", "here/out/rlib/a": "of here"})
        tools.write(self.top, {"there/src/lib.rt": "old", "there/src/gone.rt": "", "there/src/b.rt": "", "there/out/rlib/a": "of there"})
        slips.bring_up_to_date(f"{self.top}/here", f"{self.top}/there", ("out",))
        found = {path: open(f"{self.top}/there/{path}", encoding="utf-8").read() for path in ("src/lib.rt", "src/b/one.rt", "out/rlib/a")}
        self.assertEqual(found, {"src/lib.rt": "new", "src/b/one.rt": "", "out/rlib/a": "of there"})
        self.assertEqual(sorted(os.listdir(f"{self.top}/there/src")), ["b", "lib.rt"])

    def test_a_copy_is_an_empty_folder_or_one_that_nobody_uses(self):
        tools.write(self.top, {"full/file": ""})
        self.assertRaises(slips.WrongWords, slips.open_copy, f"{self.top}/full")
        self.assertRaises(slips.WrongWords, slips.open_copy, f"{slips.TOP}/out")
        copy, lock = slips.open_copy(f"{self.top}/copy")
        with lock:
            self.assertRaises(slips.WrongWords, slips.open_copy, copy)
        slips.open_copy(copy)[1].close()

    def test_a_worker_has_the_edited_crate_and_those_below(self):
        tools.write(self.top, {"crates.txt": "# of all\nlow:\nhigh may_wait=1: low std_alloc\nalone:\n", "HANDLES": "none\n"})
        tools.write(f"{self.top}/crates", {"low/src/lib.rt": "", "low/out/rlib/a": "", "low/out/incremental/b": "", "high/src/lib.rt": "", "high/out/rlib/a": "", "high/out/incremental/b": "", "alone/src/lib.rt": ""})
        worker = slips.Worker(self.top, 0, CRATES)
        worker.turn_to("high")
        with open(f"{worker.root}/crates.txt", encoding="utf-8") as file:
            self.assertEqual(file.read(), "low:\nhigh may_wait=1: low std_alloc\n")
        self.assertEqual(sorted(os.listdir(f"{worker.root}/crates")), ["high", "low"])
        self.assertEqual(os.listdir(f"{worker.root}/crates/high/out"), ["incremental"])
        self.assertEqual(os.listdir(f"{worker.root}/crates/low/out"), ["rlib"])
        self.assertEqual(worker.built_below(), [])
        tools.write(worker.root, {"crates/low/out/incremental/c": ""})
        self.assertEqual(worker.built_below(), ["low"])

    def test_a_crate_may_be_listed_before_those_below(self):
        tools.write(self.top, {"crates.txt": "high: low\nlow:\n", "HANDLES": "none\n"})
        tools.write(f"{self.top}/crates", {"low/src/lib.rt": "", "low/out/rlib/a": "", "high/src/lib.rt": "", "high/out/incremental/b": ""})
        worker = slips.Worker(self.top, 0, {"high": ["low"], "low": []})
        worker.turn_to("high")
        self.assertEqual(worker.built_below(), [])
        tools.write(worker.root, {"crates/low/out/incremental/c": ""})
        self.assertEqual(worker.built_below(), ["low"])


if __name__ == "__main__":
    unittest.main()
