#!/usr/bin/env python3
"""Tests tools/audit.py: it reads each definition, and what it prints of a promise leaves nothing out."""
import pathlib
import re
import sys
import unittest

sys.path.insert(0, str(pathlib.Path(__file__).resolve().parent))
import audit

TREE = audit.Tree()
# what the text of each promise has: definitions that it speaks of, that a field's name or a receiver reaches, constants, clauses
PRINTED = {
    "search": (
        "answer_of pages query = take 50 (ranked (hits_among query pages))", "is_out events number = claims events number", "ensures hits",
        "pub record PassData", "type Pass, as contracts see it",
    ),
    "tries": (),
    "one-catalogue": (),
    "requests": ("const MAX_LINE: usize = 1_024;", "pub record ReceivesPrefix"),
    "closure": ("pub data IsReachable", "dropped opening events ="),
    "fetched": ("pub record Round", "(page ≡ page_of scope place bytes)", "pub data Leads"),
}


class Audit(unittest.TestCase):
    def test_each_promise_has_contracts_and_prints_what_it_speaks_of_without_proofs_and_bodies(self):
        self.assertEqual(list(TREE.promises), list(PRINTED))
        for name, parts in PRINTED.items():
            text = TREE.text([name])[0]
            self.assertTrue(TREE.promises[name])
            self.assertEqual([part for part in parts if part not in text], [])
            self.assertNotRegex(text, r"/proofs/|(?m:^\s*(?:let mut|return|ghost use|ghost view|use Rattle|#\[)\b)")
            told = int(re.search(r"==== (\d+) lines to read", text)[1])
            body = text.split("==== Words of the standard library")[0]
            printed = [line for line in body.splitlines() if line.strip() and not line.startswith("==== ")]
            self.assertEqual(told, len(printed))
        self.assertNotIn("ensures refused", TREE.text(["search"])[0], "a clause that isn't asked for")

    def test_every_definition_is_read(self):
        for path in audit.ROOT.glob("crates/*/specs/*.antt"):
            begun = re.findall(r"(?m)^(?:abbrev|unfoldable|  abbrev|(?:  )?pub record|record|(?:pub )?data) ", path.read_text())
            self.assertEqual(len(audit.definitions(path)), len(begun), str(path))

    def test_a_definition_in_a_module_has_its_parameters(self):
        found = {item.name: item.text for item in audit.definitions(audit.ROOT / "crates/gopher_text/specs/Watched.antt")}
        self.assertTrue(found["HasRead"].startswith("module _ {D : Type 0} (known"), found["HasRead"])
        self.assertTrue(found["WatchedData"].startswith("--"), found["WatchedData"])

    def test_every_word_of_this_repository_is_found(self):
        for item in TREE.reached(sum(TREE.promises.values(), []))[0]:
            for word in item.words():
                found = item.scope.get(word)
                if isinstance(found, tuple) and found[0] in audit.CRATES:
                    self.assertIsNotNone(TREE.meaning(item, word), f"{word} of {item.name} in {item.file}")

    def test_each_public_function_of_a_crate_has_its_contract_printed(self):
        printed = "\n".join(audit.contracts_of("gopher_item"))
        sources = "".join(path.read_text() for path in audit.ROOT.glob("crates/gopher_item/src/**/*.rt"))
        self.assertEqual(printed.count("pub fn "), len(re.findall(r"(?m)^ *pub fn ", sources)))
        self.assertIn("// Home::port\n/// Returns the port, at least 1.\npub fn port(&self) -> u16\n    ensures", printed)


if __name__ == "__main__":
    unittest.main()
