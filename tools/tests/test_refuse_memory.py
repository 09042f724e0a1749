"""The driver of refused memory, on small programs in C whose requests are known."""
import contextlib
import io
import os
import shutil
import subprocess
import tempfile
import unittest
from concurrent.futures import ThreadPoolExecutor
from unittest import mock

import tools

driver = tools.tool("refuse_memory")

# Each test is a function by name. It makes requests, and says on a line what was refused.
PROGRAM = r"""
#include <fcntl.h>
#include <stdio.h>
#include <stdlib.h>
#include <string.h>
#include <unistd.h>
static void say(const char *text) { if (write(1, text, strlen(text)) < 0) _exit(9); }
static int ask(void) {
    void *volatile block = malloc(40);
    free(block);
    return block != 0;
}
/* Asks three times, and says each refusal. */
static int right(void) {
    for (int i = 0; i < 3; i++)
        if (!ask()) say("refused: the call\n");
    return 0;
}
/* Asks twice, and answers the second refusal in silence. */
static int silent(void) {
    if (!ask()) say("refused: the call\n");
    ask();
    return 0;
}
static int says_twice(void) {
    if (!ask()) say("refused: the call\nrefused: the call\n");
    return 0;
}
static int says_without_a_refusal(void) { say("refused: the call\n"); return 0; }
static int fails(void) { return ask() && ask() ? 0 : 3; }
static int dies(void) { if (!ask()) abort(); return 0; }
static int hangs(void) { if (!ask()) for (;;) pause(); return 0; }
static int never_ends(void) { for (int i = 0; i < 1000; i++) ask(); return 0; }
/* Prints the names of the tests, which stand in a file beside the program. */
static int list(const char *program) {
    char path[4096], names[4096];
    snprintf(path, sizeof path, "%s.list", program);
    ssize_t read_now = read(open(path, O_RDONLY), names, sizeof names - 1);
    names[read_now < 0 ? 0 : read_now] = 0;
    say(names);
    return 0;
}
#define TEST(name) if (!strcmp(words[1], #name)) return name();
int main(int count, char **words) {
    if (count < 2) return 9;
    if (!strcmp(words[1], "--list")) return list(words[0]);
    TEST(right) TEST(silent) TEST(says_twice) TEST(says_without_a_refusal) TEST(fails) TEST(dies) TEST(hangs) TEST(never_ends)
    return 9;
}
"""


@unittest.skipUnless(shutil.which("cc"), "no cc is here")
class Driver(unittest.TestCase):
    @classmethod
    def setUpClass(cls):
        cls.folder = tempfile.mkdtemp(prefix="refuse-memory-")
        cls.library = driver.build_object(cls.folder)
        subprocess.run(["cc", "-x", "c", "-o", f"{cls.folder}/all", "-"], input=PROGRAM, text=True, check=True)

    @classmethod
    def tearDownClass(cls):
        shutil.rmtree(cls.folder)

    def program(self, *tests):
        """A program with these tests."""
        made = f"{self.folder}/of-{'-'.join(tests)}"
        shutil.copy(f"{self.folder}/all", made)
        tools.write(self.folder, {f"{os.path.basename(made)}.list": "".join(f"{test}: test\n" for test in tests)})
        return made

    def runs(self, test, window="1"):
        return driver.runs_of(self.library, self.program(test), test, window)

    def tried(self, *tests, named=("the call",), windows=("1",), only=None):
        """The runs of all tests, whether all is well, and what is printed."""
        said = io.StringIO()
        with ThreadPoolExecutor(2) as pool, contextlib.redirect_stdout(said), mock.patch.object(driver, "names_of", lambda crate: set(named)):
            runs, is_well = driver.try_crate(pool, self.library, "test_small", self.program(*tests), windows, only)
        return runs, is_well, said.getvalue()

    def test_refuses_each_request_once(self):
        runs = self.runs("right")
        self.assertEqual([run.met for run in runs], [1, 1, 1, 0])
        self.assertEqual([run.refused() for run in runs], [["the call"]] * 3 + [[]])
        self.assertFalse(any(run.wrong() for run in runs))

    def test_refuses_windows(self):
        self.assertEqual([run.met for run in self.runs("right", "2")], [2, 2, 1, 0])
        self.assertEqual([run.met for run in self.runs("right", "20")], [3, 2, 1, 0])
        self.assertEqual([run.met for run in self.runs("right", "1+2")], [2, 1, 1, 0])

    def test_a_program_that_says_what_it_was_refused_is_right(self):
        runs, is_well, said = self.tried("right", "silent", windows=("1", "2"))
        self.assertTrue(is_well, said)
        self.assertEqual(len(runs), 4 + 3 + 4 + 3)
        self.assertIn("refused memory: test_small, window 1: 7 runs, 5 requests refused, no wrong answer\n", said)
        self.assertIn("refused memory: test_small, window 2: 7 runs, 8 requests refused, no wrong answer\n", said)

    def wrong(self, test, words):
        runs, is_well, said = self.tried("right", test)
        self.assertFalse(is_well)
        self.assertIn(words, said)
        self.assertIn("FAILED", said)
        return runs

    def test_says_more_refusals_than_there_were(self):
        self.wrong("says_twice", "where 1 from request 1 on are refused, says_twice says 2 times that it was refused, and was 1 time:\n    refused: the call\n")
        self.wrong("says_without_a_refusal", "says_without_a_refusal says 1 time that it was refused, and was 0 times")

    def test_fails(self):
        runs = self.wrong("fails", "where 1 from request 1 on are refused, fails fails with status 3")
        self.assertEqual(len(runs), 4 + 1)

    def test_is_killed(self):
        self.wrong("dies", "dies is killed by signal 6")

    def test_hangs(self):
        with mock.patch.object(driver, "SECONDS", 0.5):
            self.wrong("hangs", "hangs hangs for 0.5 seconds")

    def test_makes_too_many_requests(self):
        with mock.patch.object(driver, "LIMIT", 12):
            self.wrong("never_ends", "after 12 runs never_ends still makes requests")

    def test_what_is_never_refused(self):
        _, is_well, said = self.tried("right", named=("the call", "another call"))
        self.assertFalse(is_well)
        self.assertTrue(said.endswith("refused memory: test_small: no run refused what the sources name:\n    another call\n"), said)
        _, is_well, said = self.tried("right", named=())
        self.assertFalse(is_well)
        self.assertTrue(said.endswith("(nothing)\n"), said)

    def test_a_program_without_tests_is_wrong(self):
        self.assertFalse(self.tried(named=())[1])

    def test_takes_the_tests_of_a_module_alone(self):
        program = self.program("right")
        tools.write(self.folder, {f"{os.path.basename(program)}.list": "one::a: test\none::low::b: test\nones::c: test\n"})
        self.assertEqual(driver.tests_of(program, "test_small"), ["one::a", "one::low::b", "ones::c"])
        self.assertEqual(driver.tests_of(program, "test_small::one"), ["one::a", "one::low::b"])

    def test_tells_all_of_one_request(self):
        runs, is_well, said = self.tried("right", "silent", only=2)
        self.assertTrue(is_well)
        self.assertEqual([run.met for run in runs], [1, 1])
        self.assertIn("right meets 1 refusal\n    refused: the call\n", said)
        self.assertIn("silent meets 1 refusal in silence\n", said)


class Sources(unittest.TestCase):
    def test_names_in_sources(self):
        text = 'refusal.meet(rt, "insert_sync");\n outlast(\n rt, "try_clone", || make(), || looks());\n// meets "nothing"\n'
        with mock.patch.object(driver, "sources_of", lambda crate: {"src/lib.rt": text}):
            self.assertEqual(driver.names_of("test_small"), {"insert_sync", "try_clone"})

    def test_names_of_a_module(self):
        texts = {f"src/{name}.rt": f'refusal.meet(rt, "{name}");\n' for name in ("one", "one/low", "one/low/lowest", "ones", "two")}
        with mock.patch.object(driver, "sources_of", lambda crate: texts):
            self.assertEqual(driver.names_of("test_small::one"), {"one", "one/low", "one/low/lowest"})
            self.assertEqual(driver.names_of("test_small::one::low"), {"one/low", "one/low/lowest"})
            self.assertEqual(driver.names_of("test_small"), {"one", "one/low", "one/low/lowest", "ones", "two"})

    def test_a_program_is_of_its_sources_until_one_is_newer(self):
        with tempfile.TemporaryDirectory(prefix="refuse-memory-") as top:
            tools.write(top, {"crates/test_small/src/lib.rt": "", "crates/low/src/lib.rt": "", "program": ""})
            os.utime(f"{top}/crates/test_small/src/lib.rt", (10, 10))
            os.utime(f"{top}/program", (20, 20))
            with mock.patch.multiple(driver, TOP=top, below=lambda crate: ["test_small", "low"], files_of=lambda crate: ["src/lib.rt"]):
                for time, is_of_these in ((15, True), (25, False)):
                    os.utime(f"{top}/crates/low/src/lib.rt", (time, time))
                    self.assertEqual(driver.is_of_these_sources(f"{top}/program", "test_small"), is_of_these)
                self.assertFalse(driver.is_of_these_sources(f"{top}/gone", "test_small"))

    def test_wrong_words(self):
        for words in ([], ["nothing"], ["scc_common", "--only", "0"], ["test_memory", "--windows", "1,,2"], ["test_memory", "--all"], ["scc_vectors::nothing"], ["nothing::refused"]):
            with self.subTest(words), contextlib.redirect_stderr(io.StringIO()), self.assertRaises(SystemExit) as ended:
                driver.read_words(words)
            self.assertEqual(ended.exception.code, 2)

    def test_words(self):
        self.assertEqual(driver.read_words(["test_memory", "--windows", "2,1+8", "--only", "3"]), (["test_memory"], ["2", "1+8"], 3))
        self.assertEqual(driver.read_words(["scc_vectors::refused"])[0], ["scc_vectors::refused"])
        self.assertEqual(driver.read_words(["--only", "3", "test_memory"]), (["test_memory"], driver.WINDOWS, 3))


if __name__ == "__main__":
    unittest.main()
