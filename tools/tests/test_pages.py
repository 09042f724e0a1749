"""Which counts and which copied code on a page are wrong."""
import unittest

import tools
import costs as costs_of
from costs import costs
from page_names import Names
from repository import graph

pages = tools.tool("pages")


class Counts(unittest.TestCase):
    def wrong(self, text):
        return list(pages.wrong_counts(text))

    def test_crates_and_minutes(self):
        count, minutes, chain = costs("scc_map")
        right = f"`scc_map` ({count} crates, some {minutes} processor minutes)"
        self.assertEqual(self.wrong(right), [])
        one = right.replace(f"({count}", "(1")
        self.assertEqual(self.wrong(one), [f"{one!r} has to be {right!r}"])
        self.assertEqual(pages.with_right_counts(f"A map: {one}."), f"A map: {right}.")
        row = f"| a map | `scc_map` | {count} | {minutes} | {chain} |\n"
        self.assertEqual(self.wrong(row), [])
        self.assertEqual(len(self.wrong(f"{row}| a set | `scc_shared_set` | 1 | 1 | 1 |\n")), 1)
        unknown = "`scc_nothing` (1 crates, some 1 processor minutes)"
        self.assertEqual(self.wrong(unknown), [f"{unknown!r} names no crate of crates.txt"])
        self.assertEqual(pages.with_right_counts(unknown), unknown)
        self.assertEqual(self.wrong(f"copies {count} crates, which are `scc_map` and all below it"), [])

    def test_what_the_gate_takes(self):
        text = """| Tests, of which `nothing` 1.0 | 1 |
| `tools/misuse`: texts | 1000 |
The longest chain, to `nothing`, takes 1000 processor minutes; the one to `scc` takes 1000.
From nothing it takes some 1000 minutes on 9 cores.
`scc_owned` alone takes 1000 processor minutes to prove, and all below it 1000.
`scc_recorded` would take 1000 processor minutes with all below it, not 1000, of which 1000, not 1000, one after the other.
"""
        self.assertEqual(len(self.wrong(text)), 6)
        written = pages.with_right_counts(text)
        self.assertEqual(self.wrong(written), [])
        self.assertIn("| Tests, of which `", written)
        self.assertNotIn("1000", written)

    def test_a_crate_counts_in_one_group(self):
        for crate in graph():
            with self.subTest(crate):
                self.assertEqual(sum(has(crate) for has in pages.GROUPS.values()), 1)

    def test_wrong_bodies(self):
        self.assertEqual(len(self.wrong("tries 1000 wrong bodies that the prover has to refuse")), 1)
        self.assertEqual(len(self.wrong("The 1000 named ones are bold")), 1)


class Costs(unittest.TestCase):
    def test_a_crate_that_was_not_measured_counts_by_its_lines(self):
        before = dict(costs_of.measured())
        try:
            del costs_of.measured()["scc_table"]
            costs_of.minutes_of_line.cache_clear()
            self.assertGreater(costs_of.minutes_of_crate("scc_table"), 1)
        finally:
            costs_of.measured().update(before)
            costs_of.minutes_of_line.cache_clear()

    def test_kinds_in_one_crate_cost_their_shared_forms_too(self):
        minutes, chain = costs_of.costs_of_kinds("scc_recorded")
        self.assertGreater(minutes, costs("scc_recorded")[1])
        self.assertGreater(chain, costs("scc_recorded")[2])
        self.assertEqual(costs_of.costs_of_kinds("scc_table"), costs("scc_table")[1:])
        self.assertLessEqual({name for names in costs_of.HALVES.values() for name in names} | costs_of.HALVES.keys(), graph().keys())

    def test_a_chain_is_a_part_of_all_below(self):
        self.assertLessEqual(costs_of.chain_to("scc_map")[1], costs("scc_map")[1])
        self.assertGreaterEqual(costs_of.chain_to(None)[1], costs_of.chain_to("scc")[1])


class OfNames(unittest.TestCase):
    def setUp(self):
        self.names = Names(tools.scratch(self, {
            "crates/low/src/lib.rt": "pub struct Table; // OnlySaid\n",
            "crates/low/must-fail/wrong_body.edit": "",
            "docs/RULES.md": "NotAWord\n",
            "tools/measured_minutes.txt": "crate_gone 1.0\n",
        }))

    def test_what_is_there(self):
        self.assertEqual(self.names.missing_on("`Table` of `crates/low/src/lib.rt`, `docs/RULES.md`, `low/wrong_body`, `docs/*.md`"), {})

    def test_what_is_not_there(self):
        text = "`docs/GATE.md`, `OnlySaid`, `NotAWord`, `low::no_function`, `crate_gone`\n\n```rust\nfn f(t: MissingType) {}\n```\n"
        self.assertEqual(list(self.names.missing_on(text)), ["MissingType", "docs/GATE.md", "OnlySaid", "NotAWord", "no_function", "crate_gone"])

    def test_code_alone_is_looked_at(self):
        self.assertEqual(self.names.missing_on("MissingType, docs/GATE.md and others"), {})


class Copied(unittest.TestCase):
    PAGE = "```rust crates/scc_map/src/lib.rt\n#![tactic(auto)]\n\npub use scc_table::Reservation;\n```\n"

    def test_lines_in_their_order(self):
        self.assertEqual(list(pages.wrong_copies(self.PAGE)), [])
        lines = self.PAGE.splitlines(keepends=True)
        self.assertEqual(len(list(pages.wrong_copies("".join([lines[0], lines[3], lines[1], lines[4]])))), 1)
        self.assertEqual(len(list(pages.wrong_copies(self.PAGE.replace("scc_map", "scc_nothing")))), 1)


if __name__ == "__main__":
    unittest.main()
