"""How tools/quick counts tests, and what it takes of a program, beside an rt that builds nothing."""
import unittest
from unittest import mock

import tools

quick = tools.tool("quick")


class Quick(unittest.TestCase):
    def setUp(self):
        self.top = tools.scratch(self, {"crates/program/stdout": "said\n", "crates/program/status": "3\n", "crates/tests/src/lib.rt": ""})
        tools.stand_in(self, quick, TOP=self.top)

    def ran(self, what, crate, script):
        """What a function of the tool answers if rt does what a script says."""
        tools.write(self.top, {"rt": f"#!/bin/sh\n{script}\n"})
        with mock.patch.object(quick, "RT", f"{self.top}/rt"):
            return what(crate)[0]

    def test_tests(self):
        self.assertEqual(self.ran(quick.run_tests, "tests", "echo 'test result: ok. 12 passed'"), 12)
        self.assertIsNone(self.ran(quick.run_tests, "tests", "echo 'test result: FAILED. 11 passed'; exit 1"))
        self.assertIsNone(self.ran(quick.run_tests, "tests", "echo 'no test'"))

    def test_programs(self):
        ended = "echo 'run=ended status=3 runners=1' >&2; exit 3"
        self.assertEqual(self.ran(quick.run_program, "program", f"echo said; {ended}"), 1)
        self.assertIsNone(self.ran(quick.run_program, "program", f"echo other; {ended}"))
        self.assertIsNone(self.ran(quick.run_program, "program", "echo said; echo 'run=ended status=0 ' >&2"))


if __name__ == "__main__":
    unittest.main()
