"""What docs/reference says of enums and errors: their declarations, and the paths by which callers name them."""
import unittest

import tools

reference = tools.tool("reference")
SOURCE = """/// Why a pair wasn't inserted. The pair
/// is handed back.
#[derive(Debug)]
#[error_bound(K: Debug)]
pub enum Refusal<K, V>
where
    K: Eq,
{
    /// A key is present.
    #[error("key exists")]
    Exists((K, V)),
    Memory,
}

/// No memory.
pub struct Empty;

pub struct Full {
    pub held: u64,
}

enum Hidden {
    None,
}
"""


class OfEnums(unittest.TestCase):
    def test_declarations(self):
        self.assertEqual(
            list(reference.enums_in(SOURCE.split("\n"))),
            [
                ("Refusal", "Why a pair wasn't inserted. The pair is handed back.", ["pub enum Refusal<K, V> {", "    /// A key is present.", "    Exists((K, V)),", "    Memory,", "}"]),
                ("Empty", "No memory.", ["pub struct Empty;"]),
            ],
        )

    def test_an_entry_as_callers_know_it(self):
        text = "pub enum HeldEntry<G: Guard<Inner = Owned<E, H>>, N> {\n    Occupied(HeldOccupied<G, N>),\n    Vacant(HeldVacant<G, E::Key>, E::Key),\n}"
        self.assertEqual(reference.plain(text), "pub enum Entry<..> {\n    Occupied(OccupiedEntry<..>),\n    Vacant(VacantEntry<..>, K),\n}")

    def test_paths(self):
        paths = reference.public_paths()
        self.assertLessEqual({"InsertError", "KeyError", "MakeError", "WalkError", "Verdict", "HashMap"}, paths["scc"])
        self.assertLessEqual({"Entry", "ReplaceResult", "owned"}, paths["scc::hash_map"])
        self.assertIn("Entry", paths["scc::hash_map::ruled"])
        self.assertNotIn("", paths["scc"])
        self.assertLessEqual({module for _, *parts in reference.PAGES.values() for part in parts for module in part.modules}, paths.keys())

    def test_pages(self):
        for page, wanted in {"map": "scc::hash_map::owned::Entry", "set": "scc::KeyError", "cache": "scc::Verdict", "recorded": "scc::recorded::FinishError"}.items():
            with self.subTest(page):
                self.assertIn(f"`{wanted}`", reference.text_of(page))

    def test_form_under_a_rule(self):
        for page, container in reference.RULED_AS.items():
            with self.subTest(page):
                before, _, after = reference.text_of(page).partition("\n## Under a rule\n")
                self.assertIn(f"### `{container}`", after)
                self.assertNotIn(container, before)
                self.assertNotRegex(after, r"(?m)^## ")

    def test_what_stands_under_which_heading(self):
        plain, ruled = (reference.Page.__new__(reference.Page) for _ in range(2))
        plain.name = ruled.name = "map"
        plain.is_ruled, ruled.is_ruled = False, True
        of_pairs, of_any = "impl<K: Eq + Hash, V, H> HashMap<K, V, H>", "impl<E: Keyed, H> HashContainer<E, H>"
        at_rule, of_index = "impl<K, V, R: Rule<K, V>, H> HashContainer<Ruled<K, V, R>, H>", "impl<K, V, R, H> RuledIndex<K, V, R, H>"
        for header in (of_pairs, of_any):
            self.assertTrue(plain.takes(header, False))
            self.assertFalse(ruled.takes(header, True))
        self.assertTrue(ruled.takes(at_rule, True))
        self.assertFalse(plain.takes(at_rule, False))
        self.assertFalse(ruled.takes(of_index, True))
        self.assertTrue(ruled.takes(of_any, False))

    def test_a_form_under_a_rule_that_has_no_crate_of_its_own(self):
        page = reference.Page("cache", [], ["scc_shared_cache"])
        page.read("Shared", ["impl<K, V, R: Rule<K, V>, H> HashCache<Ruled<K, V, R>, H> {", "    /// Tries.", "    pub fn try_sync(&self) -> bool {", "        true", "    }", "}"], True)
        self.assertIn("### try_sync", reference.part_text(page, False))
        self.assertEqual(page.order()[0], "RuledCache")
        self.assertNotIn("len", page.functions["RuledCache"])

    def test_a_crate_that_is_not_listed(self):
        with self.assertRaises(SystemExit):
            reference.crates_of([reference.Part(["scc_nothing"], ("scc",))])


if __name__ == "__main__":
    unittest.main()
