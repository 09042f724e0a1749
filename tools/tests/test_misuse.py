"""How tools/misuse parts a text into misuse and control, and which refusals it takes; nothing is compiled."""
import unittest

import tools

misuse = tools.tool("misuse")
TEXT = ["// refused: borrow-moved", "fn f() {", "    keep(); // control", "    take(); // misuse", "}"]


class Misuse(unittest.TestCase):
    def test_versions_keep_the_numbers_of_lines(self):
        self.assertEqual(misuse.version(TEXT, "misuse"), [*TEXT[:3], "", TEXT[4]])
        self.assertEqual(misuse.version(TEXT, "control"), [*TEXT[:2], "", *TEXT[3:]])

    def test_refusals(self):
        self.assertIsNone(misuse.refused_wrongly("f", TEXT, [(4, "borrow-moved")]))
        self.assertIn("nothing", misuse.refused_wrongly("f", TEXT, []))
        self.assertIn("type-mismatch", misuse.refused_wrongly("f", TEXT, [(4, "type-mismatch")]))
        self.assertIn("names no error", misuse.refused_wrongly("f", TEXT[1:], [(3, "borrow-moved")]))
        self.assertIn("no line of its own", misuse.refused_wrongly("f", TEXT[:3], []))

    def test_each_text_has_both_versions(self):
        for name, lines in misuse.texts([]).items():
            with self.subTest(name):
                self.assertTrue(any(line.endswith("// misuse") for line in lines))
                self.assertEqual(sum(line.startswith("// refused: ") for line in lines), 1)


if __name__ == "__main__":
    unittest.main()
