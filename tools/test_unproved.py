#!/usr/bin/env python3
"""Tests tools/unproved.py: the program without proofs is built once for the same sources, and few are kept; in a second."""
import contextlib
import io
import os
import pathlib
import sys
import tempfile
import unittest
from unittest import mock

ROOT = pathlib.Path(__file__).resolve().parent.parent
sys.path.insert(0, str(ROOT / "tools"))
import unproved


class Kept(unittest.TestCase):
    def setUp(self):
        self.room = pathlib.Path(self.enterContext(tempfile.TemporaryDirectory()))
        self.builds, self.kit, self.source = 0, "a kit", self.room / "crates/hole/src/main.rt"
        for file in ("crates.txt", "crates/hole/src/main.rt", "crates/gopher_a/specs/A.antt", "crates/gopher_a/proofs/A.antt"):
            (self.room / file).parent.mkdir(parents=True, exist_ok=True)
            (self.room / file).write_text("first\n")
        parts = {"ROOT": self.room, "KEPT": self.room / "out/unproved", "lacks_toolchain": lambda: False, "build": self.build}
        for name, part in parts.items():
            self.enterContext(mock.patch.object(unproved, name, part))
        self.enterContext(mock.patch.object(unproved.kept, "sum_of_kit", lambda: self.kit))

    def build(self, room):
        self.builds += 1
        (room / "hole").write_text("a program\n")
        (room / "hole").chmod(0o755)
        return room / "hole"

    def program(self):
        """The program that is built or kept, without what is said."""
        with contextlib.redirect_stdout(io.StringIO()), contextlib.redirect_stderr(io.StringIO()):
            return unproved.built_or_kept()

    def test_the_same_sources_are_built_once(self):
        first = self.program()
        self.assertTrue(os.access(first, os.X_OK))
        (self.room / "crates/gopher_a/proofs/A.antt").write_text("another\n")
        self.assertEqual((self.program(), self.builds), (first, 1))

    def test_another_source_or_toolchain_is_built_anew_and_the_first_is_still_kept(self):
        first = self.program()
        for change, builds in ((lambda: self.source.write_text("second\n"), 2), (lambda: setattr(self, "kit", "another"), 3)):
            change()
            self.assertNotEqual(self.program(), first)
            self.assertEqual(self.builds, builds)
        self.source.write_text("first\n")
        self.kit = "a kit"
        self.assertEqual((self.program(), self.builds), (first, 3))

    def test_few_are_kept(self):
        made = []
        for number in range(2 * unproved.MOST_KEPT):
            self.source.write_text(f"{number}\n")
            made.append(self.program())
            os.utime(made[-1], (number, number))
        self.assertEqual({*unproved.KEPT.iterdir()}, {*made[-unproved.MOST_KEPT :]})

    def test_what_was_not_built_of_these_sources_is_not_kept(self):
        build = self.build
        with mock.patch.object(unproved, "build", lambda room: self.source.write_text("meanwhile\n") and build(room)):
            self.assertIsNone(self.program())
        with mock.patch.object(unproved, "build", lambda room: None):
            self.assertIsNone(self.program())
        self.assertFalse(unproved.KEPT.exists())


if __name__ == "__main__":
    unittest.main()
