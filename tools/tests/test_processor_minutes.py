"""What processor_minutes counts, and what it prints of it."""
import contextlib
import io
import os
import subprocess
import sys
import unittest

import tools

minutes = tools.tool("processor_minutes")
CRATES = {"scc_low": [], "scc_high": ["scc_low"], "scc_alone": []}


def ticks(spent):
    return int(spent * 60 * minutes.TICKS)


class Minutes(unittest.TestCase):
    def test_sums_the_processes_of_a_crate(self):
        times = {1: (ticks(2), "scc_low"), 2: (ticks(1), "scc_high"), 3: (ticks(3), "scc_low"), 4: (ticks(9), "elsewhere"), 5: (ticks(4), "")}
        self.assertEqual(minutes.minutes_of(times, CRATES), {"scc_low": 5, "scc_high": 1})

    def test_prints_the_dearest_and_the_longest_chain(self):
        said = io.StringIO()
        with contextlib.redirect_stdout(said):
            minutes.print_minutes({"scc_alone": 5.5, "scc_low": 5, "scc_high": 1}, 12 * 60, CRATES)
        lines = [line.split() for line in said.getvalue().splitlines()]
        self.assertIn(["the", "rest", "0.5"], lines)
        self.assertIn(["all", "12.0"], lines)
        self.assertIn("the 10 dearest crates, in processor minutes: scc_alone 5.5, scc_low 5.0, scc_high 1.0\n", said.getvalue())
        self.assertIn("the longest chain, 6.0 processor minutes: scc_low 5.0, scc_high 1.0\n", said.getvalue())

    def test_prints_no_crate_that_took_nothing(self):
        said = io.StringIO()
        with contextlib.redirect_stdout(said):
            minutes.print_minutes({}, 0, CRATES)
        self.assertIn("the longest chain, 0.0 processor minutes: none\n", said.getvalue())

    def test_notes_what_a_run_of_the_gate_printed(self):
        said = io.StringIO()
        with contextlib.redirect_stdout(said):
            print("of a crate\nprocessor minutes:\n  scc_low                        1.0")
            minutes.print_minutes({"scc_high": 1.25, "scc_low": 5, "elsewhere": 3}, 12 * 60, CRATES)
            print("== part 2 of 4: misuses that fail passed in 1.5 minutes, of 2.5 processor minutes")
            print("on 2 processors, 90.0 minutes, of 176.3 processor minutes")
        before = {"scc_low": 7.0, "scc_alone": 7.0, "scc_gone": 7.0, "part_1": 0.3, "whole": 96.0, "cores": 4.0}
        wanted = {"scc_low": "5.0", "scc_high": "1.2", "part_1": "0.3", "whole": "90.0", "cores": "2", "part_2": "2.5", "rest": "2.8"}
        self.assertEqual(minutes.noted(said.getvalue(), CRATES, before), wanted)
        unended = said.getvalue().replace("on 2 processors", "")
        self.assertEqual(minutes.noted(unended, CRATES, before)["whole"], "96.0")
        self.assertEqual(minutes.noted("  all      12.0\n", CRATES, before), {})

    def test_finds_the_crate_of_a_process(self):
        with subprocess.Popen([sys.executable, "-c", "import time; time.sleep(60)", "--crate-name", "scc_low"]) as named:
            times = {}
            minutes.sample(os.getpid(), times)
            named.kill()
        self.assertEqual(times[named.pid][1], "scc_low")
        self.assertIsNone(minutes.look(named.pid))


class Command(unittest.TestCase):
    def ran(self, *words):
        return subprocess.run([f"{tools.TOOLS}/processor_minutes", *words], stdout=subprocess.PIPE, stderr=subprocess.DEVNULL, text=True, check=False)

    def test_has_the_status_of_the_command(self):
        ended = self.ran("sh", "-c", "echo said --it; exit 7")
        self.assertEqual(ended.returncode, 7)
        self.assertTrue(ended.stdout.startswith("said --it\nprocessor minutes:\n"), ended.stdout)

    def test_wrong_words(self):
        self.assertEqual(self.ran().returncode, 2)
        self.assertEqual(self.ran("--nothing").returncode, 2)
        self.assertEqual(self.ran("--note", os.devnull, "true").returncode, 2)
        self.assertEqual(self.ran("--note", os.devnull).returncode, 1)


if __name__ == "__main__":
    unittest.main()
