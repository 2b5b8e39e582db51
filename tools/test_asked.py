#!/usr/bin/env python3
"""Compares what docs/ASKED.md says was asked for with the tree: libraries, worked rows, public calls and wrong bodies."""
import hashlib
import pathlib
import re
import unittest

ROOT = pathlib.Path(__file__).resolve().parent.parent
PAGE = (ROOT / "docs/ASKED.md").read_text()
CRATES = {
    name.split()[0]: words.split()
    for name, colon, words in (line.partition(":") for line in (ROOT / "crates.txt").read_text().splitlines())
    if colon and not name.startswith("#")
}
# the fewest rows of each table: one that lost its rows isn't compared with anything
FEWEST = {"Libraries": 7, "Worked rows": 60, "Public calls": 90, "Wrong bodies": 30}


def rows(title):
    """The rows of the table below a heading, each the texts of its cells without their backquotes."""
    section = re.search(rf"(?ms)^## {title}$(.*?)(?=^## |\Z)", PAGE)[1]
    lines = re.findall(r"(?m)^\|(.*)\|$", section)
    return [tuple(cell.strip().strip("`") for cell in line.split("|")) for line in lines[2:]]


def sources(crate):
    """The texts of a crate's sources."""
    return [path.read_text() for path in sorted((ROOT / "crates" / crate / "src").rglob("*.rt"))]


def hands_on(crate, name):
    """Whether the root of a crate makes a name public."""
    root = (ROOT / "crates" / crate / "src" / "lib.rt").read_text()
    return re.search(rf"(?s)\bpub use [^;]*\b{name}\b[^;]*;", root) is not None


def has_call(crate, call):
    """Whether a crate has a public function, or a method of a type or a trait."""
    owner, _, name = call.rpartition("::")
    if not owner:
        return any(re.search(rf"(?m)^pub fn {name}\b", text) for text in sources(crate))
    bodies = re.compile(rf"(?ms)^(impl\b[^\n{{]*\b{owner}\b|pub trait {owner}\b).*?^}}$")
    methods = {"impl": rf"(?m)^    pub (?:const )?fn {name}\b", "pub ": rf"(?m)^    fn {name}\b"}
    return any(re.search(methods[body[0][:4]], body[0]) for text in sources(crate) for body in bodies.finditer(text))


class Asked(unittest.TestCase):
    def each(self, title, check):
        """Checks each row of a table, by its name."""
        self.assertGreaterEqual(len(rows(title)), FEWEST[title])
        for name, *cells in rows(title):
            with self.subTest(name):
                check(name, *cells)

    def test_libraries_are_used(self):
        def check(library, _purpose, path):
            crate = pathlib.Path(path).parts[1]
            self.assertIn(library, CRATES[crate], "crates.txt")
            self.assertRegex((ROOT / path).read_text(), rf"(?m)^(?!\s*//).*\b{library}::")

        self.each("Libraries", check)

    def test_rows_are_run(self):
        def check(_row, path, name):
            text = (ROOT / path).read_text()
            form = {".rt": rf"(?m)^#\[test\]\nfn {name}\b", ".antt": rf"(?m)^{name} :", ".py": rf"(?m)^(?:def )?{name}\b|^from .*\b{name}\b"}
            self.assertRegex(text, form[pathlib.Path(path).suffix])

        self.each("Worked rows", check)

    def test_calls_are_public(self):
        def check(call, asked, crate):
            self.assertTrue(has_call(crate, call), f"{call} isn't in {crate}")
            self.assertTrue(hands_on(crate, call.partition("::")[0]), f"{crate} doesn't hand {call} on")
            self.assertTrue(hands_on(asked, call.partition("::")[0]), f"{asked} doesn't hand {call} on")

        self.each("Public calls", check)

    def test_wrong_bodies_are_as_they_were(self):
        def check(name, path, _clause, digits):
            self.assertEqual(pathlib.Path(path).stem, name)
            self.assertEqual(hashlib.sha256((ROOT / path).read_bytes()).hexdigest()[:12], digits)

        self.each("Wrong bodies", check)


if __name__ == "__main__":
    unittest.main()
