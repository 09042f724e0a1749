"""What ./run says and how it ends, beside an rt that builds nothing."""
import os
import signal
import subprocess
import unittest

import tools

RUN = os.path.join(os.path.dirname(tools.TOOLS), "run")
# Answers what this test asks for: the lines of the script, or no end.
RT = """#!/bin/sh
case "$1" in
version) echo test; exit 0 ;;
esac
if grep -q wait; then sleep 1000; fi
echo "worker 0"
echo "line 2: no such call" >&2
echo "$ENDED" >&2
exit 2
"""


class Runs(unittest.TestCase):
    def setUp(self):
        folder = tools.scratch(self, {"rt": RT})
        self.environment = {**os.environ, "PATH": f"{folder}:{os.environ['PATH']}", "ENDED": "run=ended status=2"}

    def started(self, *words, **more):
        how = {"stdin": subprocess.PIPE, "stdout": subprocess.PIPE, "stderr": subprocess.PIPE, "text": True, "start_new_session": True}
        return subprocess.Popen([RUN, *words], env={**self.environment, **more}, **how)

    def test_a_file_as_word(self):
        ran = self.started("a.script")
        _, said = ran.communicate("")
        self.assertEqual((ran.returncode, said.splitlines()[0]), (1, "run: a script comes on standard input, as in ./run < a.script"))
        ran = self.started("--nothing")
        _, said = ran.communicate("")
        self.assertEqual((ran.returncode, said[:5]), (1, "Plays"))

    def test_passes_on_what_the_program_says(self):
        ran = self.started()
        wrote, said = ran.communicate("map 1 1\n")
        self.assertEqual((ran.returncode, wrote), (2, "worker 0\n"))
        self.assertIn("nothing is proved of this run", said)
        self.assertTrue(said.endswith("\nline 2: no such call\n"))

    def test_a_build_that_gives_no_answer(self):
        ran = self.started(ENDED="killed")
        _, said = ran.communicate("map 1 1\n")
        self.assertEqual(ran.returncode, 1)
        self.assertIn("this build gave no answer", said)

    def test_interrupted(self):
        ran = self.started()
        ran.stdin.write("wait\n")
        ran.stdin.close()
        ran.stderr.readline()
        os.killpg(ran.pid, signal.SIGINT)
        said = ran.stderr.read()
        ran.stdout.close()
        ran.stderr.close()
        self.assertEqual((ran.wait(timeout=30), said), (130, "run: interrupted\n"))


if __name__ == "__main__":
    unittest.main()
