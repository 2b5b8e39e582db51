#!/usr/bin/env python3
"""Tests the manual, from which docs/SPECIFICATION.md and docs/OPERATING.md take settings, faults and messages: it has those of
the sources.
"""
import pathlib
import re
import tomllib
import unittest

ROOT = pathlib.Path(__file__).resolve().parent.parent


def manual(page):
    """The text of a page of the manual, without its escapes."""
    return (ROOT / "man" / page).read_text().replace("\\-", "-").replace("\\&", "").replace("\\ ", " ")


def entries(text):
    """The heads of a page's entries, without their fonts, each with its text on one line."""
    found = re.findall(r"(?ms)^\.TP\n\.[A-Z]+ ([^\n]*)\n(.*?)(?=^\.TP|^\.S|^\.PP|\Z)", text)
    return [(head.replace('"', ""), " ".join(re.sub(r"(?m)^\.\w+ ?", "", body).split())) for head, body in found]


def sources(*crates):
    paths = [path for crate in crates for path in sorted((ROOT / "crates" / crate / "src").glob("**/*.rt"))]
    return "\n".join(path.read_text() for path in paths)


HOLE = entries(manual("hole.1"))
# the keys of hole.toml(5), each with what it says of it
SETTINGS = {key: text for head, text in entries(manual("hole.toml.5")) for key in head.replace(",", "").split()}


class Manual(unittest.TestCase):
    def test_settings_are_those_of_the_code_in_the_order_of_their_checks(self):
        row = r'Key::\w+ => \("(\w+)", Form::(\w+)\((?:([\d_]+), (\w+))?'
        code = re.findall(row, sources("gopher_scope"))
        self.assertEqual([*SETTINGS], [key for key, _, _, _ in code])
        limits = dict(re.findall(r"const (MAX_\w+): u32 = ([\d_]+);", sources("gopher_item")))
        for key, form, absent, most in code:
            most, absent = limits.get(most, most).replace("_", ""), absent.replace("_", "")
            kinds = {"Text": "A string, required", "Tables": r"rrays? of at most 256 tables(?: each)?; empty if absent"}
            self.assertRegex(SETTINGS[key], kinds.get(form, f"An integer, 1 to {most}; {absent} if absent"), key)
            if form == "Integer":
                self.assertIn(f'Key::{key.title().replace("_", "")} => "use a number from 1 to {most}"', sources("gopher_scope"))

    def test_example_settings_have_keys_of_the_manual(self):
        for file in (*ROOT.glob("examples/*.toml"), ROOT / "packaging/debian/hole.toml"):
            for key, value in tomllib.loads(file.read_text()).items():
                for name in {name for table in value for name in table} if isinstance(value, list) else ():
                    self.assertRegex(SETTINGS[key], rf"\b{name}\b", str(file))
                self.assertIn(key, SETTINGS, str(file))

    def test_causes_and_remedies_are_those_that_a_check_prints(self):
        told = " ".join(text for _, text in HOLE)
        code = re.sub(r"(?s)fn range_remedy.*?\n}", "", sources("gopher_scope"))
        printed = {words for words in re.findall(r'(?:=>\s*[{(]?|,)\s*"([^"]+)"', code) if " " in words}
        self.assertGreater(len(printed), 30)
        self.assertEqual({words for words in printed if words not in told}, set())

    def test_each_fault_that_ends_a_program_is_in_the_manual(self):
        told = {number for head, _ in HOLE for number in re.findall(r"\b\d+\b", head) if head[0].isdigit()}
        table = (ROOT / "docs/SPECIFICATION.md").read_text().split("\n## 12. Numbers\n")[1].split("\n## ")[0]
        stated = {number for row in re.findall(r"(?m)^\| (\d[^|]*)\|", table) for number in re.findall(r"(?:^|, )(\d+) ", row)}
        answers = {"1", "2", "3", "4", "5", "6", "7", "40", "52", "53"}
        self.assertEqual(told, stated - answers)

    def test_messages_of_a_running_server_are_those_of_the_code(self):
        code = sources("gopher_hole", "gopher_server")
        printed = re.findall(r'"hole: ([a-z][^"]+)"', code)
        if "crawl {end}" in printed:
            # how a crawl ended is written by a type of its own
            printed.remove("crawl {end}")
            printed += [f"crawl {end}" for end in re.findall(r'"((?:finished|ended): [^"]+)"', code)]
        # a head up to what differs each time
        told = [re.split(r"\b[A-Z]+\b", head)[0].strip() for head, _ in HOLE if re.match("[a-z]", head)]
        self.assertEqual([words for words in printed if not words.startswith(tuple(told))], [])
        self.assertEqual([words for words in told if not any(one.startswith(words) for one in printed)], [])


if __name__ == "__main__":
    unittest.main()
