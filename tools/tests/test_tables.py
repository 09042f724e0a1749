"""What bench/tables makes of the lines of a measurement."""
import contextlib
import io
import tempfile
import unittest

import tools

tables = tools.tool("../bench/tables")
RAW = """own_hit scc-owned 6.5
own_hit scc-owned 7.5
own_hit std-fold 4
hitrate_t1 worse 50
hitrate_t1 better 100
check own_hit scc-owned 5
check own_hit std-fold 5
"""


class Tables(unittest.TestCase):
    def ran(self, raw, *words):
        with tempfile.NamedTemporaryFile("w", encoding="utf-8") as file:
            file.write(raw)
            file.flush()
            said = io.StringIO()
            with contextlib.redirect_stdout(said):
                status = tables.main([word.replace("FILE", file.name) for word in words])
        return status, said.getvalue().splitlines()

    def test_all_workloads_and_peers(self):
        status, lines = self.ran(RAW, "--all", "FILE")
        self.assertEqual(status, 0)
        self.assertIn("| own_hit | scc-owned | 7.0 | 1.75 | 6.5 to 7.5 |", lines)
        self.assertIn("| hitrate_t1 | worse | 50.0 | 2.00 | 50.0 to 50.0 |", lines)

    def test_peers_that_disagree(self):
        status, lines = self.ran(RAW.replace("std-fold 5", "std-fold 6"), "--all", "FILE")
        self.assertEqual((status, lines[-1]), (1, "own_hit: scc-owned has 5, std-fold has 6"))

    def test_a_table_of_the_page(self):
        raw = "".join(f"cache_t{threads} {peer} {time}\n" for threads in (1, 2, 4) for peer, time in (("scc-shared-cache", 50), ("lru-shard16", 100), ("lru-mutex", 200)))
        status, lines = self.ran(raw, "1048576=FILE")
        self.assertEqual(status, 0)
        self.assertIn("| 2 threads | 50.0 | 100 | 0.50 | 200 | 0.25 |", lines)
        self.assertEqual(sum(line.startswith("| entries |") for line in lines), 0)

    def test_wrong_words(self):
        for words in (["FILE"], ["--all", "--write", "FILE"]):
            with self.subTest(words), self.assertRaises(SystemExit), contextlib.redirect_stderr(io.StringIO()):
                self.ran("", *words)


if __name__ == "__main__":
    unittest.main()
