"""Each tool says by --help what it does, and ends with 2 for words that it doesn't know."""
import os
import subprocess
import unittest

import tools

TOP = os.path.dirname(tools.TOOLS)


def commands():
    """The commands of tools/ and the others that part 1 of ./test runs."""
    names = [name for name in sorted(os.listdir(tools.TOOLS)) if "." not in name and os.access(f"{tools.TOOLS}/{name}", os.X_OK)]
    return [f"tools/{name}" for name in names if os.path.isfile(f"{tools.TOOLS}/{name}")] + ["bench/chart", "bench/tables"]


class Words(unittest.TestCase):
    def ran(self, command, word):
        return subprocess.run([f"{TOP}/{command}", word], cwd="/", stdin=subprocess.DEVNULL, stdout=subprocess.PIPE, stderr=subprocess.PIPE, text=True, check=False)

    def test_each_tool(self):
        self.assertGreater(len(commands()), 8)
        for command in commands():
            with self.subTest(command):
                helped, wrong = self.ran(command, "--help"), self.ran(command, "--nothing-of-this-name")
                self.assertEqual((helped.returncode, helped.stdout[:7], helped.stderr), (0, "usage: ", ""))
                self.assertEqual((wrong.returncode, wrong.stdout, wrong.stderr[:7]), (2, "", "usage: "))


if __name__ == "__main__":
    unittest.main()
