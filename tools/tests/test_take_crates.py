"""What tools/take_crates copies into another repository, and how it tells that copies differ; nothing is proved."""
import os
import subprocess
import tempfile
import unittest

import tools

TAKE = f"{tools.TOOLS}/take_crates"


class Taken(unittest.TestCase):
    def test_copies_a_crate_with_its_line_and_tells_what_differs(self):
        with tempfile.TemporaryDirectory(prefix="taken-") as to:
            self.assertEqual(self.ran(to, "scc_common").returncode, 0)
            self.assertEqual(self.text(f"{to}/crates.txt"), "scc_common: thiserror\n")
            self.assertTrue(os.path.isfile(f"{to}/crates/scc_common/src/lib.rt"))
            self.assertFalse(os.path.exists(f"{to}/crates/scc_common/out"))
            self.assertIn("Handles allowed", self.text(f"{to}/HANDLES"))
            self.assertIn("scc_common", self.text(f"{to}/TAKEN.md"))
            self.assertIn("`ruvzolk/tools/take_crates", self.text(f"{to}/docs/GUIDE.md"))
            self.assertEqual(self.ran(to, "--check").returncode, 0)
            tools.write(to, {"crates/scc_common/src/lib.rt": "// Another.\n"})
            checked = self.ran(to, "--check")
            self.assertEqual(checked.returncode, 1)
            self.assertIn("scc_common differs: src/lib.rt", checked.stdout)

    def ran(self, to, *words):
        return subprocess.run([TAKE, to, *words], stdout=subprocess.PIPE, stderr=subprocess.STDOUT, text=True, check=False)

    def text(self, path):
        with open(path, encoding="utf-8") as file:
            return file.read()


if __name__ == "__main__":
    unittest.main()
