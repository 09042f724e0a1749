"""What tools/progress tells of a command, and how it ends."""
import os
import signal
import subprocess
import unittest

import tools

PROGRESS = f"{tools.TOOLS}/progress"


def started(command):
    how = {"stdin": subprocess.DEVNULL, "stdout": subprocess.PIPE, "stderr": subprocess.PIPE, "text": True, "start_new_session": True}
    return subprocess.Popen([PROGRESS, "scc_slots", "sh", "-c", command], **how)


class Tells(unittest.TestCase):
    def test_the_crate_that_a_command_is_at(self):
        ran = started("echo 'rt: chose --jobs 1 for scc_slots'; sleep 2; exit 3")
        wrote, said = ran.communicate()
        lines = said.splitlines()
        self.assertEqual((ran.returncode, wrote, lines[0]), (3, "", "proving 1 of 1: scc_slots, 0 min so far"))
        self.assertTrue(lines[-1].startswith("failed; what was printed stands in "))
        os.remove(lines[-1].split()[-1])

    def test_interrupted(self):
        ran = started("echo 'rt: chose --jobs 1 for scc_slots'; sleep 1000")
        ran.stderr.readline()
        os.killpg(ran.pid, signal.SIGINT)
        _, said = ran.communicate(timeout=30)
        self.assertEqual((ran.returncode, said), (130, "\ninterrupted; the next time goes on from here\n"))


if __name__ == "__main__":
    unittest.main()
