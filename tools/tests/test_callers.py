"""Which callers tools/callers takes from the pages, and the program that it makes of them; nothing is compiled."""
import os
import tempfile
import unittest

import tools

callers = tools.tool("callers")


class Callers(unittest.TestCase):
    def test_each_page_has_callers(self):
        texts, pages = callers.callers()
        self.assertEqual(set(pages.values()), set(callers.PAGES))
        self.assertEqual(texts.keys(), pages.keys())
        self.assertIn("pub fn visit", texts["readme_caller1"])

    def test_the_program(self):
        with tempfile.TemporaryDirectory(prefix="callers-test-") as root:
            callers.make_program(root, {"one_caller1": "pub fn nothing() {}\n"})
            folder = f"{root}/crates/callers/src"
            self.assertEqual(sorted(os.listdir(folder)), ["main.rt", "one_caller1.rt"])
            with open(f"{folder}/main.rt", encoding="utf-8") as file:
                self.assertIn("\nmod one_caller1;\n", file.read())
            with open(f"{root}/crates.txt", encoding="utf-8") as file:
                lines = file.read().splitlines()
            named = callers.LINE.partition(":")[2].split()
            self.assertEqual(lines[-1], callers.LINE)
            self.assertLessEqual(set(named), {line.split(":")[0].split()[0] for line in lines})


if __name__ == "__main__":
    unittest.main()
