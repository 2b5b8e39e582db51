#!/usr/bin/env python3
"""Tests tests/run_all.py: how it counts, that a failure hides nothing, and that no test leaves its list unseen; in a second."""
import contextlib
import io
import pathlib
import sys
import tempfile
import unittest
from unittest import mock

ROOT = pathlib.Path(__file__).resolve().parent.parent
sys.path.insert(0, str(ROOT / "tests"))
import run_all

# what a test printed, its status, and what it counts as: the last line with counts decides, but a bad status is a failure
COUNTS = (
    ("serving: 33 passed, 0 failed\nprogram: 27 passed, 2 failed\n", 1, (27, 2)),
    ("614 passed, 6 failed\n", 1, (614, 6)),
    ("Ran 9 tests in 3.120s\n\nOK\n", 0, (9, 0)),
    ("Ran 9 tests in 3.120s\n\nFAILED (failures=1, errors=2)\n", 1, (6, 3)),
    ("", 0, (1, 0)),
    ("Killed\n", 137, (0, 1)),
    ("log: 75 passed, 0 failed\n", -9, (75, 1)),
)


class Case(unittest.TestCase):
    def setUp(self):
        self.room = pathlib.Path(self.enterContext(tempfile.TemporaryDirectory()))
        self.enterContext(mock.patch.object(run_all, "ROOT", self.room))

    def script(self, name, script, **more):
        path = self.room / "tests" / f"{name}.py"
        path.parent.mkdir(exist_ok=True)
        path.write_text(f"#!/bin/sh\n{script}\n")
        path.chmod(0o755)
        return run_all.Test(f"tests/{name}.py", **more)

    def run_all(self, *tests, program=None):
        with contextlib.redirect_stdout(io.StringIO()) as said:
            self.rows = [row[:3] for row in run_all.run_all(tests, program)]
        return said.getvalue()

    def test_what_a_test_counts_as(self):
        for said, status, wanted in COUNTS:
            self.assertEqual(run_all.counted(said, status), wanted, said)

    def test_a_failure_hides_nothing(self):
        first = self.script("first", "echo one: 2 passed, 1 failed; exit 1", asks=False)
        gone = run_all.Test("tests/gone.py", asks=False)
        last = self.script("last", "echo 3 passed, 0 failed", asks=False, is_alone=True)
        said = self.run_all(first, gone, last)
        self.assertEqual(self.rows, [("first", 2, 1), ("gone", 0, 1), ("last", 3, 0)])
        self.assertIn("== tests/first.py\none: 2 passed, 1 failed\n", said)
        lines, failed = run_all.table([(*row, 1.0) for row in self.rows], ["tests/x.py: it isn't in TESTS"], 60)
        self.assertEqual((lines[-2:], failed), (["FAILED: first, gone", "5 passed, 3 failed"], 3))

    def test_the_program_is_asked_for_by_its_path(self):
        one = self.script("one", 'echo "$@"', unproved=("--slow",))
        self.assertIn("\n/room/hole --slow\n", self.run_all(one, program=lambda: ("/room/hole", False)))
        self.assertIn("\n/proved\n", self.run_all(one, program=lambda: ("/proved", True)))

    def test_those_alone_begin_when_all_others_are_over(self):
        alone = self.script("alone", f"[ -e {self.room}/over ] && echo 1 passed, 0 failed", asks=False, is_alone=True)
        slow = self.script("slow", f"sleep 0.3; touch {self.room}/over", asks=False)
        self.run_all(alone, slow)
        self.assertEqual(self.rows, [("slow", 1, 0), ("alone", 1, 0)])

    def test_a_script_that_left_the_list_or_cant_be_run_fails(self):
        one, two = self.script("one", ""), self.script("two", "")
        self.assertEqual(run_all.faults((one, two), self.room), [])
        self.assertEqual(run_all.faults((one,), self.room), ["tests/two.py: it isn't in TESTS"])
        (self.room / "tests/two.py").chmod(0o644)
        self.assertEqual(run_all.faults((one, two), self.room), ["tests/two.py: it can't be run"])


class Repository(unittest.TestCase):
    def test_each_test_is_listed_and_can_be_run(self):
        self.assertEqual(run_all.faults(), [])

    def test_no_quick_test_needs_a_proof(self):
        self.assertFalse({it.name for it in run_all.TESTS if it.is_quick} & {"refusals", "package", "listen"})


if __name__ == "__main__":
    unittest.main()
