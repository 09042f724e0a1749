"""What ./test does with the parts of the gate, and what its last lines say."""
import contextlib
import io
import unittest
from unittest import mock

import tools

gate = tools.tool("../test")
CHAIN = "the longest chain, 6.0 processor minutes: scc_low 5.0, scc_high 1.0"
DEAREST = "the 10 dearest crates, in processor minutes: scc_low 5.0, scc_high 1.0"
SAID = ["printf", f"{DEAREST}\n{CHAIN}\n30 passed, 0 failed\n"]


class Gate(unittest.TestCase):
    def ran(self, parts):
        """The status and the lines of a gate of these parts. Nothing is marked as built."""
        said = io.StringIO()
        with contextlib.redirect_stdout(said), mock.patch.object(gate, "PARTS", parts), mock.patch.object(gate.subprocess, "run"):
            status = gate.test_all()
        return status, said.getvalue().splitlines()

    def test_counts_all_parts_and_repeats_what_the_proofs_took(self):
        status, lines = self.ran({"names": [["true"], ["echo", "4 passed, 0 failed"]], "proofs": [SAID], "memory": [["true"]]})
        self.assertEqual((status, lines[-1]), (0, "36 passed, 0 failed"))
        self.assertEqual(lines[-4:-2], [DEAREST, CHAIN])
        self.assertTrue(lines[-2].startswith("on "))

    def test_ends_at_the_part_that_fails(self):
        status, lines = self.ran({"proofs": [SAID, ["sh", "-c", "echo 3 passed, 2 failed; exit 1"], ["echo", "never"]], "memory": [["echo", "never"]]})
        self.assertEqual((status, lines[-1]), (1, "33 passed, 2 failed"))
        self.assertEqual(lines[-4:-2], [DEAREST, CHAIN])
        self.assertNotIn("never", lines)
        self.assertIn("the parts after part 1 were not run", lines)

    def test_a_command_that_fails_without_a_count_counts_as_one(self):
        self.assertEqual(self.ran({"names": [["false"]]})[1][-1], "0 passed, 1 failed")
        self.assertEqual(self.ran({"names": [["sh", "-c", "echo 3 passed, 0 failed; exit 1"]]})[1][-1], "3 passed, 1 failed")

    def test_wrong_words(self):
        with contextlib.redirect_stderr(io.StringIO()):
            self.assertEqual(gate.main(["--nothing"]), 2)


if __name__ == "__main__":
    unittest.main()
