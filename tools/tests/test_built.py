"""Whether a program stands for its sources: the sum, the note, and what makes either another."""
import contextlib
import io
import os
import unittest

import tools
import repository

built = tools.tool("built")


class Built(unittest.TestCase):
    def setUp(self):
        self.top = tools.scratch(self, {"crates.txt": "app: low\nlow:\nother:\n", "rt": "#!/bin/sh\necho kit 1\n"})
        tools.write(f"{self.top}/crates", {"app/src/main.rt": "fn main() {}\n", "app/out/app": "program", "low/src/lib.rt": "", "other/src/lib.rt": ""})
        top, lines = self.top, repository.below
        tools.stand_in(self, built, TOP=top, RT=f"{top}/rt", below=lambda crate: lines(crate, top), files_of=lambda crate: repository.files_of(crate, top=top), listed=lambda: repository.listed(top))

    def call(self, *words):
        """The status, and what is printed."""
        said = io.StringIO()
        with contextlib.redirect_stdout(said), contextlib.redirect_stderr(io.StringIO()):
            try:
                status = built.main(list(words))
            except SystemExit as ended:
                status = ended.code
        return status, said.getvalue().strip()

    def mark(self, *more):
        return self.call("--mark", "app", self.call("--sum", "app")[1], *more)[0]

    def test_stands_once_it_is_marked(self):
        self.assertEqual(self.call("app"), (1, ""))
        self.assertEqual(self.mark(), 0)
        self.assertEqual(self.call("app"), (0, ""))

    def test_stands_no_more_after_a_change(self):
        changes = {"crates/app/src/main.rt": "fn main() { }\n", "crates/low/proofs/f/Answers.antt": "", "crates.txt": "app may_wait=1: low\nlow:\nother:\n", "crates/app/out/app": "another", "rt": "#!/bin/sh\necho kit 2\n"}
        for path, text in changes.items():
            with self.subTest(path):
                self.setUp()
                self.assertEqual(self.mark(), 0)
                tools.write(self.top, {path: text})
                self.assertEqual(self.call("app")[0], 1)

    def test_stands_after_a_change_elsewhere(self):
        self.assertEqual(self.mark(), 0)
        tools.write(self.top, {"crates/other/src/lib.rt": "// another\n", "crates/low/README.md": "of it"})
        self.assertEqual(self.call("app")[0], 0)

    def test_marks_no_other_sources_no_missing_and_no_older_program(self):
        self.assertEqual(self.call("--mark", "app", "0" * 64)[0], 1)
        tools.write(self.top, {"since": ""})
        os.utime(f"{self.top}/crates/app/out/app", (1, 1))
        self.assertEqual(self.mark(f"{self.top}/since"), 1)
        os.remove(f"{self.top}/crates/app/out/app")
        self.assertEqual(self.mark(), 1)
        self.assertEqual(self.call("app")[0], 1)

    def test_wrong_words(self):
        for words in ([], ["nothing"], ["app", "low"], ["--mark", "app"], ["--sum"], ["--sum", "--mark", "app", "0"], ["--all"]):
            with self.subTest(words):
                self.assertEqual(self.call(*words)[0], 2)


if __name__ == "__main__":
    unittest.main()
