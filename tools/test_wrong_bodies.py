#!/usr/bin/env python3
"""Tests tools/wrong_bodies.py on a small repository: what it must not count, and which edits it must not accept; in a minute."""
import os
import pathlib
import subprocess
import sys
import tempfile
import unittest
from unittest import mock

TOOLS = pathlib.Path(__file__).resolve().parent
sys.path.insert(0, str(TOOLS))
import edits
import kept

ROOT = TOOLS.parent
SOURCE = """//! Functions that count on.
#![tactic(auto)]

ghost use Rattle.std.specs.Prelude.{◌≡◌, ◌+◌, ◌<◌, ◌≤◌, vec_len, IfSome};

/// The number after this one.
pub fn next(number: u32) -> u32
    requires { number < 1000 }
    ensures {
        result ≡ number + 1
    }
{
    number + 1
}

fn twice(number: u32) -> u32
    requires { number < 1000 }
    ensures { number ≤ result }
{
    number * 2
}

/// A number that was counted.
#[derive(Drop)]
pub struct Counter {
    count: u32,
}

impl Counter {
    /// Counts from this number on.
    pub fn new(count: u32) -> Counter
        ensures { result.count ≡ count }
    {
        Counter { count }
    }

    /// The number.
    pub fn count(&self) -> u32
        ensures { result ≡ self.now.count }
    {
        self.count
    }
}

/// A list of a number, or none if there is no memory.
pub fn list_of(alloc: std::alloc::Global, number: u32) -> Option<Vec<u32>>
    ensures { IfSome result (λ list. vec_len list ≡ 1) }
{
    Vec::from_array(alloc, [number]).ok()
}

/// The number two places after this one.
pub fn after_next(number: u32) -> u32
    requires { number < 100 }
    ensures { result ≡ number + 2 }
{
    next(next(number))
}
"""


def edit(name, function, old, new, *more):
    return "\n".join([f"name: {name}", f"function: {function}", f"old: {old}", f"new: {new}", *more]) + "\n"


# wrong bodies, and the beginning of what is said of each
WRONG = (
    (edit("one_too_many", "next", "    number + 1", "    number + 2", "holds: next(1) == 2"), "excluded: of the edit it fails"),
    (edit("below_another", "next", "    number + 1", "    number", "holds: after_next(1) == 3"), "excluded: of the edit it fails"),
    (edit("too_far", "next", "    number + 1", "    number - 1", "holds: next(0) == 1"), "excluded: of the edit it stops"),
    (edit("of_a_list", "next", "    number + 1", "    number + 3", "given: let two = next(1);", "given: if two == 2", "holds: next(two) == 3"), "NOT WRONG"),
    (edit("harmless", "next", "    number + 1", "    1 + number", "holds: next(1) == 2"), "NOT WRONG: of the edit it holds too"),
    (edit("turned_round", "after_next", "next(next(number))", "next(next(number + 0))", "holds: after_next(1) == 3"), "NOT WRONG"),
    (edit("not_said", "twice", "number * 2", "number * 3", "holds: twice(2) == 4"), "NOT PROVED"),
    (edit("untrue", "next", "    number + 1", "    number + 4", "holds: next(1) == 5"), "NOT TRUE"),
    (edit("never", "next", "    number + 1", "    number + 5", "given: if next(1) == 3", "holds: next(1) == 2"), "NOT TRUE"),
    (edit("no_such_name", "after_next", "next(next(number))", "before(number)", "holds: after_next(1) == 3"), "BAD EDIT: error"),
    (edit("syntax", "after_next", "next(next(number))", "next(next(number)", "holds: after_next(1) == 3"), "BAD EDIT: error"),
    (edit("text_is_gone", "next", "number + 7", "number + 2", "holds: next(1) == 2"), "BAD EDIT: its old text occurs 0 times"),
    (edit("of_a_contract", "next", "        result ≡ number + 1", "        result ≡ number + 2", "holds: next(1) == 2"), "BAD EDIT: it changes a contract"),
    (edit("of_another", "after_next", "    number + 1", "    number + 2", "holds: next(1) == 2"), "BAD EDIT: it changes next, and nothing in"),
    (edit("nothing", "next", "    number + 1", "    number  + 1", "holds: next(1) == 2"), "BAD EDIT: it changes nothing"),
    (edit("without", "next", "    number + 1", "    number + 2"), "BAD EDIT: it has no 'holds' and doesn't tell why"),
    (edit("told", "next", "    number + 1", "    number + 2", "told: nobody waits for it"), "told: nobody waits for it"),
    (
        edit("never_true", "next", "    number + 1", "    number + 8", "case: contradictory", "given: let _number = number;", "holds: next(1) == 2"),
        "NOT PROVED: what it requires can't all hold",
    ),
    (
        edit("counts_once_more", "Counter::count", "    count: u32,", "    count: u32, more: u32,", "old:         Counter { count }", "new:         Counter { count, more: 1 }", "old:         self.count", "new:         self.count + self.more", "holds: Counter::new(1).count() == 1"),
        "excluded: of the edit it fails",
    ),
    (
        edit(
            "empty_list", "list_of", "    Vec::from_array(alloc, [number]).ok()", "    Vec::from_array(alloc, [number]).ok().or(Some(Vec::new(alloc)))",
            "given: crate::refuse_memory(true);", "given: let list = list_of(alloc, 1);", "given: crate::refuse_memory(false);",
            "holds: list.is_none() || list.is_some_and(|it| it.len() == 1)",
        ),
        "excluded: of the edit it fails",
    ),
    (edit("not_yet", "next", "    number + 1", "    number + 7", "open: no proof was found", "holds: next(2) == 3"), "open: no proof was found"),
    ("name: of_must_fail\nmust-fail: kit\nfunction: next\nholds: next(1) == 2\n", "excluded: of the edit it fails"),
    ("name: row\nholds: next(41) == 42\n", "a worked row"),
)
RIGHT = edit("turned", "next", "    number + 1", "    1 + number") + "\n" + edit("no_right", "next", "    number + 1", "    number + 9")
RIGHT += "\n" + edit("of_twice", "twice", "number * 2", "2 * number")
SETUP = """== case contradictory
fn NAME(number: u32) -> Option<bool>
    requires small { number < 1 }
    requires large { 1 ≤ number }
{
HOLDS
    None
}
== call contradictory
NAME(0)
"""
# what witnesses of another crate share isn't proved
UNPROVED = """== items src/lib.rt
fn twice_the_next(number: u32) -> u32
    ensures { result ≡ 4 }
{
    next(number) * 2
}
"""
NOT_NAMED = "small/alone: BAD EDIT: no wrong body says what it breaks"


class Judge(unittest.TestCase):
    @classmethod
    def setUpClass(cls):
        cls.room = pathlib.Path(cls.enterClassContext(tempfile.TemporaryDirectory()))
        files = {
            "crates.txt": "small: std\n",
            "HANDLES": "Handles allowed: none.\n",
            "crates/small/src/lib.rt": SOURCE,
            "crates/small/wrong-bodies/lib.edit": "\n".join(text for text, _ in WRONG),
            "crates/small/wrong-bodies/setup.txt": SETUP,
            "crates/small/right-bodies/lib.edit": RIGHT,
            "crates/small/must-fail/kit.edit": "file: src/lib.rt\nold:     number + 1\nnew:     number + 6\n",
            "crates/other/src/lib.rt": SOURCE,
            "crates/other/wrong-bodies/setup.txt": UNPROVED,
            "crates/other/wrong-bodies/lib.edit": edit("shared", "next", "    number + 1", "    number + 2", "holds: twice_the_next(1) == 4"),
            "crates/small/must-fail/alone.edit": "file: src/lib.rt\nold:     number + 1\nnew:     number + 6\n",
        }
        for file, text in files.items():
            (cls.room / file).parent.mkdir(parents=True, exist_ok=True)
            (cls.room / file).write_text(text)
        (cls.room / "crates.txt").write_text("small:\nother:\n")
        how = {**os.environ, "ROOT": str(cls.room), "HOLE_GATE_CACHE": str(cls.room / "kept")}
        words = [TOOLS / "wrong_bodies.py", "--reasons"]
        cls.said = subprocess.run(words, env=how, stdout=subprocess.PIPE, stderr=subprocess.STDOUT, text=True).stdout

    def test_each_wrong_body_has_its_verdict(self):
        for text, wanted in WRONG:
            name = text.split("\n")[0].removeprefix("name: ")
            with self.subTest(name):
                self.assertIn(f"\nsmall/{name}: {wanted}", "\n" + self.said)

    def test_a_right_body_that_is_judged_wrong_fails(self):
        self.assertIn("\nsmall/turned: a right body\n", self.said)
        self.assertIn("\nsmall/no_right: A RIGHT BODY IS JUDGED WRONG by ", self.said)

    def test_a_right_body_that_nothing_tries_is_open(self):
        self.assertIn("\nsmall/of_twice: open: no wrong body of its function is excluded\n", self.said)

    def test_a_must_fail_edit_without_a_wrong_body_fails(self):
        self.assertIn(NOT_NAMED, self.said)

    def test_what_witnesses_share_has_to_be_proved(self):
        self.assertIn("\nother/shared: NOT PROVED: twice_the_next isn't proved: ", self.said)

    def test_all_are_counted(self):
        count = lambda *heads: sum(wanted.startswith(heads) for _, wanted in WRONG)
        passed, is_open, told = count("excluded", "a worked") + 1, count("open") + 1, count("told")
        failed = len(WRONG) + 5 - passed - is_open - told
        self.assertEqual(self.said.splitlines()[-2:], [f"{is_open} are open, {told} told", f"{passed} passed, {failed} failed"])


class OwnEdits(unittest.TestCase):
    """The edits of this repository."""

    def all_of(self, kind):
        crates = sorted(it.parent.name for it in ROOT.glob(f"crates/*/{kind.kind}"))
        return {crate: edits.read_edits(ROOT, crate, kind) for crate in crates}

    def test_none_is_bad(self):
        for kind in (edits.Edit, edits.RightBody):
            self.assertEqual([f"{it}: {why}" for _, bad in self.all_of(kind).values() for it, why in bad], [])

    def test_none_came_or_went_unseen(self):
        listed, found = (TOOLS / "wrong_bodies.txt").read_text().splitlines(), edits.names(ROOT)
        self.assertEqual([f"gone: {it}" for it in listed if it not in found], [], "run make documents if it should go")
        self.assertEqual([f"new: {it}" for it in found if it not in listed], [], "run make documents")

    def test_right_bodies_of_many_crates_stand_against_them(self):
        found = self.all_of(edits.RightBody)
        self.assertGreaterEqual(len([crate for crate, (right, _) in found.items() if right]), 5)
        self.assertGreaterEqual(sum(len(right) for right, _ in found.values()), 50)


class Keeping(unittest.TestCase):
    """Verdicts are kept until something that they rest on changes."""

    def setUp(self):
        self.room = pathlib.Path(self.enterContext(tempfile.TemporaryDirectory()))
        self.enterContext(mock.patch.dict(os.environ, {"HOLE_GATE_CACHE": str(self.room / "kept")}))
        self.enterContext(mock.patch.object(kept, "sum_of_kit", lambda: "kit"))
        for file in ("low/src/lib.rt", "small/src/lib.rt", "small/wrong-bodies/lib.edit", "other/src/lib.rt"):
            self.write(file, "one")
        (self.room / "crates.txt").write_text("low:\nsmall: low\nother:\n")
        (self.room / "HANDLES").write_text("Handles allowed: none.\n")

    def write(self, file, text):
        path = self.room / "crates" / file
        path.parent.mkdir(parents=True, exist_ok=True)
        path.write_text(text)

    def made(self, passes=True, is_read=True, is_whole=True):
        """How often the verdict on an edit is made."""
        made, edit = [], "small/one"
        store = kept.Kept(self.room, {"low": [], "small": ["low"], "other": []}, is_read)
        verdicts = store.or_made("small", ([edit], []), lambda *_: made.append(1) or {edit: (passes, "why")}, is_whole)
        self.assertEqual(verdicts, {edit: (passes, "why")})
        return len(made)

    def test_what_passed_is_kept_and_what_failed_is_not(self):
        self.assertEqual([self.made(passes=False), self.made(is_whole=False), self.made(), self.made(), self.made(is_read=False)], [1, 1, 1, 0, 1])

    def test_an_edit_that_changes_while_it_is_judged_is_judged_again(self):
        store = kept.Kept(self.room, {"low": [], "small": ["low"], "other": []})
        self.write("small/wrong-bodies/lib.edit", "two")
        store.or_made("small", (["small/one"], []), lambda *_: {"small/one": (True, "of the old text")})
        self.assertEqual(self.made(), 1)

    def test_all_that_it_rests_on_counts(self):
        for file in ("low/src/lib.rt", "small/src/lib.rt", "small/wrong-bodies/lib.edit", "small/proofs/Lib.antt", "small/must-fail/a.edit"):
            self.assertEqual(self.made() + self.made(), 1, file)
            self.write(file, "two")
        self.assertEqual(self.made(), 1)
        self.write("other/src/lib.rt", "two")
        self.assertEqual(self.made(), 0)
        with mock.patch.object(kept, "sum_of_kit", lambda: "another"):
            self.assertEqual(self.made(), 1)

    def test_a_proof_stands_while_its_witness_and_the_sources_do(self):
        one = edits.Edit("small", "src/lib.rt", "name: one\nholds: 1 == 1")
        store = kept.Kept(self.room, {"low": [], "small": ["low"], "other": []})
        store.keep_proofs(store.sums_of_proofs([one]), [one])
        is_kept = lambda: store.proved(store.sums_of_proofs([one])) == {one}
        self.write("small/wrong-bodies/lib.edit", "two")
        self.assertTrue(is_kept())
        self.write("small/wrong-bodies/setup.txt", "two")
        self.assertFalse(is_kept())
        (self.room / "crates/small/wrong-bodies/setup.txt").unlink()
        one.holds = ["1 == 2"]
        self.assertFalse(is_kept())
        one.holds = ["1 == 1"]
        self.assertTrue(is_kept())
        self.made(is_read=False)
        self.assertTrue(is_kept())
        self.write("low/src/lib.rt", "two")
        self.assertFalse(is_kept())

    def test_a_broken_store_counts_as_none(self):
        self.made()
        (self.room / "kept/small.json").write_text("{")
        self.assertEqual(self.made(), 1)


if __name__ == "__main__":
    unittest.main()
