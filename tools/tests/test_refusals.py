"""How a refusal is told: for each verdict the lines of a check that decide it, as `rt check --only FUNCTION` printed them."""
import unittest

import tools  # pylint: disable=unused-import
import refusals

LENGTHS = """checked scc_table::Table::relocate_some, 6 of 6
fn scc_table::Table::len: proved
"""
LAST = "crate scc_table: modules loaded=31 checked=13\nonly=2 proved={}\n"
OPEN_NOTE = "note: src/{}: it is not proved that what the function ensures holds when it returns (`{}`); `search` gave up at one of its limits\n"
NO_PROOF = "fn {}: no proof: expected answers in ./proofs/{}/Answers.antt; `search` did not prove {}\n"


def answers(*goals):
    """A file of answers to these goals, with a lemma beside them."""
    written = "".join(f"pub {goal} : goal.{goal}\n{goal} g c = c.ensures\n" for goal in goals)
    return f"sum-fits : IsSum 1\nsum-fits = refl\n{written}"


def verdict(said, status, function, text=""):
    return refusals.verdict_of(said, status, function, text)


class Refused(unittest.TestCase):
    def check(self, found, words):
        self.assertEqual((found.kind, found.words), (refusals.REFUSED, words))
        self.assertTrue(found.is_refused)

    def test_by_an_answer(self):
        function = "scc_table::Table::shrink_sparse"
        said = (
            "./proofs/Table/shrink_sparse/Answers.antt:52:5: error: `returns-in-Err-clause-due`: as printed, the two types differ only where one has `c.mark.new.self` (expected), right after `c.args.self.now`\n"
            "  and the other has `c.resize_to.new.self` (found)\n"
            "fn scc_table::Table::mark: proved\n"
            "fn scc_table::Table::shrink_sparse: not proved\n"
        ) + LAST.format(1)
        found = verdict(said, 1, function, answers("returns-in-Err-clause-due", "returns-in-Err-clause-same"))
        self.check(found, "returns-in-Err-clause-due of shrink_sparse")

    def test_by_a_goal_that_search_left_open(self):
        function = "scc_table::Table::relocate_some"
        said = LENGTHS + OPEN_NOTE.format("resize/relocate.rt:31:63", "returns-then-overflow_len-gt0") + NO_PROOF.format(function, "Table/relocate_some", "`returns-then-overflow_len-gt0`") + LAST.format(1)
        self.check(verdict(said, 1, function), "returns-then-overflow_len-gt0 of relocate_some")

    def test_by_a_goal_that_a_note_alone_names(self):
        function = "scc_table::Table::bucket_for_new"
        said = LENGTHS + OPEN_NOTE.format("resize/grow.rt:30:13", "returns-then-pending-gt0") + f"fn {function}: not proved\n" + LAST.format(1)
        self.check(verdict(said, 1, function, answers("returns")), "returns-then-pending-gt0 of bucket_for_new")

    def test_beside_a_function_that_may_wait(self):
        function = "scc_stripes::Striped::route"
        said = "fn scc_stripes::wait_to_read: proved, may wait\n" + OPEN_NOTE.format("lib.rt:30:13", "returns-clause-first") + f"fn {function}: not proved\n" + LAST.format(1)
        self.check(verdict(said, 1, function), "returns-clause-first of route")

    def test_by_what_a_call_requires_and_by_arithmetic(self):
        function = "scc_owned_cache::Owned::put_sync"
        said = NO_PROOF.format(function, "Owned/put_sync", "`overflow_add-pending`, `remove_at-requires`, `loop-stripe-preserved`") + LAST.format(1)
        self.check(verdict(said, 1, function), "what a call requires: remove_at-requires; the invariant of its loop: loop-stripe-preserved; arithmetic within its type: overflow_add-pending")

    def test_by_an_open_goal_although_an_answer_of_another_kind_is_lost(self):
        function = "scc_owned_cache::Owned::remove_if_sync"
        lost = "./proofs/Owned/remove_if_sync/Answers.antt:24:34: error: `returns-then-f-clause-step`: module `Rattle.scc_owned_cache.proofs.Owned.remove_if_sync.Goals` has no `returns-then-f-clause-step` that can be named from here\n"
        said = lost + NO_PROOF.format(function, "Owned/remove_if_sync", "`remove_at-requires`, `returns-after-first-clause-step`") + LAST.format(1)
        self.check(verdict(said, 1, function, answers("returns-then-f-clause-step")), "what a call requires: remove_at-requires")


class NameAlone(unittest.TestCase):
    def check(self, found, *words):
        self.assertEqual(found.kind, refusals.NAME_ALONE)
        self.assertFalse(found.is_refused)
        for word in words:
            self.assertIn(word, found.words)

    def test_the_name_of_a_field_is_gone(self):
        said = (
            "./proofs/Table/note/Answers.antt:13:14: error: `invariant_of-self`: record `Rattle.scc_table.proofs.Table.note.After-mark` has no field `note`\n"
            "  the fields that can be named here are `before`, `mark`, `mark-arg-1`, `self`\n"
            "fn scc_table::Table::note: not proved\n"
        ) + LAST.format(0)
        found = verdict(said, 1, "scc_table::Table::note", answers("invariant_of-self"))
        self.check(found, "has no field `note`")
        self.assertNotIn("open", found.words)

    def test_a_goal_is_open_but_maybe_for_want_of_an_answer(self):
        function = "scc_table::Table::resize_to"
        lost = "./proofs/Table/resize_to/Answers.antt:18:21: error: `returns-in-Ok`: `goal.returns-in-Ok`: module `Rattle.scc_table.proofs.Table.resize_to.Goals` has no `returns-in-Ok` that can be named from here\n"
        said = lost + NO_PROOF.format(function, "Table/resize_to", "`returns-in-Ok-install_fresh`, `returns-in-Err-install_fresh`") + LAST.format(12)
        found = verdict(said, 1, function, answers("returns-in-Ok"))
        self.check(found, "; open, but maybe for want of an answer: returns-in-Ok-install_fresh, returns-in-Err-install_fresh")

    def test_a_declaration_depends_on_one_that_is_not_admitted(self):
        said = (
            "./proofs/Owned/prepare/Answers.antt:12:50: error: module `Rattle.scc_owned_cache.proofs.Owned.prepare.Goals` has no `in-Ok` that can be named from here\n"
            "./proofs/Owned/prepare/Answers.antt:14:5: error: 1 declaration that depends on `in-Ok`, which was not admitted, was not checked: invariant_of-self\n"
            + OPEN_NOTE.format("prepare.rt:34:58", "prepare_within-requires-clause-listed")
            + "fn scc_owned_cache::Owned::prepare: not proved\n"
        ) + LAST.format(1)
        found = verdict(said, 1, "scc_owned_cache::Owned::prepare", answers("invariant_of-self"))
        self.check(found, "has no `in-Ok`", "prepare_within-requires-clause-listed")

    def test_a_lemma_beside_the_answers_is_refused(self):
        said = "./proofs/Table/note/Answers.antt:3:5: error: `sum-fits`: the two types differ\nfn scc_table::Table::note: not proved\n" + LAST.format(0)
        self.check(verdict(said, 1, "scc_table::Table::note", answers("returns")), "`sum-fits`")


class NotRefused(unittest.TestCase):
    function = "scc_owned_set::Owned::insert_all"

    def check(self, found, words):
        self.assertEqual((found.kind, found.words), (refusals.NOT_REFUSED, words))

    def test_all_is_proved(self):
        said = f"fn scc_owned_set::Owned::len: proved\nfn {self.function}: proved\n" + LAST.format(2)
        self.check(verdict(said, 0, self.function), "")

    def test_all_is_proved_where_a_function_may_wait(self):
        said = f"fn scc_stripes::wait_to_read: proved, may wait\nfn {self.function}: proved\n" + LAST.format(2)
        self.check(verdict(said, 0, self.function), "")

    def test_another_function_is_refused(self):
        said = f"fn scc_owned_set::Owned::len: no proof: expected answers in ./proofs/Owned/len/Answers.antt; `search` did not prove `returns`\nfn {self.function}: proved\n" + LAST.format(1)
        self.check(verdict(said, 1, self.function), "by its function; refused by scc_owned_set::Owned::len")

    def test_another_function_is_refused_and_this_one_may_wait(self):
        said = f"fn scc_owned_set::Owned::len: not proved\nfn {self.function}: proved, may wait\n" + LAST.format(1)
        self.check(verdict(said, 1, self.function), "by its function; refused by scc_owned_set::Owned::len")

    def test_the_check_could_not_tell(self):
        said = f"fn {self.function}: not proved\n" + LAST.format(1)
        self.check(verdict(said, 3, self.function), "by a goal, since the check could not tell")


class Bad(unittest.TestCase):
    function = "scc_owned_cache::Owned::remove_sync"

    def check(self, found, begin):
        self.assertEqual(found.kind, refusals.BAD)
        self.assertTrue(found.words.startswith(begin), found.words)

    def test_the_source_is_not_read(self):
        said = "./src/lib.rt:190:54: error[type]: `u64` is wanted here, and this is `bool`\n"
        self.check(verdict(said, 1, self.function), "./src/lib.rt:190:54: error[type]")

    def test_the_check_ended_before_its_last_line(self):
        self.check(verdict(f"fn {self.function}: proved\n", 1, self.function), "fn scc_owned_cache::Owned::remove_sync")
        self.check(verdict("", 1, self.function), "the check said nothing")

    def test_rt_judged_nothing(self):
        said = "rt: the library scc_table did not build, so nothing above it was checked\n" + LAST.format(0)
        self.check(verdict(said, 2, self.function), "rt: the library scc_table did not build")

    def test_the_borrow_checker_does_not_cover_the_function(self):
        line = f"fn {self.function}: no proof: expected `remove_sync_spec` in ./proofs/Owned/remove_sync/Proof.antt; the borrow checker does not cover this function yet: src/lib.rt:190:54: a struct with an `impl Model` is borrowed whole while a field of it is borrowed or read"
        self.check(verdict(line + "\n" + LAST.format(0), 1, self.function), line[:100])

    def test_no_line_is_on_the_function(self):
        self.check(verdict(LAST.format(0), 1, self.function), "the check has no line on the function")


if __name__ == "__main__":
    unittest.main()
