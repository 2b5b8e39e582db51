#!/usr/bin/env python3
"""Tests the documents and the words of the crates: what documents name exists, what README counts and quotes is in the tree, the
pictures are current, words that readers stumbled over stay away, and each definition of specs/ has a name of its own.

tools/check_links.py looks after links, pictures and paths.
"""
import collections
import pathlib
import re
import subprocess
import sys
import unittest

ROOT = pathlib.Path(__file__).resolve().parent.parent
sys.path[:0] = [str(ROOT / "tools"), str(ROOT / "packaging")]
import dist
import draw
import list_files
import numbers_of_code

README, PROMISES = (ROOT / "README.md").read_text(), (ROOT / "docs/PROMISES.md").read_text()
PAGES = {path.name: path.read_text() for path in [*sorted(ROOT.glob("*.md")), *sorted(ROOT.glob("docs/*.md"))]}
RECIPES = "\n".join(path.read_text() for path in [ROOT / "Makefile", *ROOT.glob("*/*.mk")])
# words of an older dialect; plain ones are: out of memory, if, as many, fails with 90
AVOIDED = re.compile(r"(?i)\b(?:want of memory|whoever|so many|answers 90|refused only where|memory is refused)\b")
COMMENT = re.compile(r"(?m)^ *(?://[/!]?|--) (.*)$")
SPECS = {path: path.read_text() for path in ROOT.glob("crates/*/specs/**/*.antt")}
DEFINITION = re.compile(r"(?m)^(?:(?:pub|abbrev|unfoldable|opaque) )*(?:(?:record|data) (\w\S*)|(\w\S*) (?::|[({][^=\n]*[)}] :))")
LEMMAS = re.compile(r"(?m)^use Rattle\.(?!std\b)\w+\.proofs\..*$")
# comments and clauses of sources; of definitions also what isn't a list of names or a text
SHORT = {"src/**/*.rt": r"(?m)^ *(?://|requires\b|ensures\b).*$", "specs/**/*.antt": r'(?m)^(?: *--.*|(?!(?:pub )?use )[^"\n]*)$'}
OFF_BY = 0.02  # a count over 1,000 moves with every commit and may differ by so much


def names(text):
    """The names that a text defines."""
    return [first or second for first, second in DEFINITION.findall(text)]


class ReadmeAndPromises(unittest.TestCase):
    def test_counts_and_version_are_those_of_the_tree(self):
        sentence, counted = numbers_of_code.MARKS.search(README)[0], numbers_of_code.counted()
        stated = {name: int(count.replace(",", "")) for count, name in re.findall(r"([\d,]*\d) ([A-Za-z ]+)", sentence)}
        self.assertEqual(list(stated), list(counted))
        for name, count in counted.items():
            self.assertAlmostEqual(stated[name], count, delta=OFF_BY * count if count > 1000 else 0, msg=f"{name}: run make documents")
        self.assertIn(f"This is version {numbers_of_code.version()}.", README)

    def test_quoted_code_is_in_the_file_that_is_named_last(self):
        for page in (README, PROMISES):
            for found in re.finditer(r"(?ms)^```(?:rust)?\n(.*?)^```", page):
                named = re.findall(r"\]\((?:\.\./)?(crates/[\w/.]+)\)", page[: found.start()])[-1]
                for line in re.findall(r"(?m)^(?!\+)-?(.+)$", found[1]):
                    self.assertIn(line.strip(), (ROOT / named).read_text(), named)

    def test_the_wrong_body_is_one_that_the_gate_tries(self):
        edit = (ROOT / re.search(r"wrong body \[`\w+`\]\((\S+)\)", README)[1]).read_text()
        for line in re.findall(r"(?m)^[-+] {4,}(.*)$", README):
            self.assertIn(line, edit)

    def test_unsafe_calls_are_those_that_are_named_and_there_is_no_axiom(self):
        unsafe = set()
        for path in (path for folder in ("src", "specs", "proofs") for path in ROOT.glob(f"crates/*/{folder}/**/*.*")):
            code = "\n".join(numbers_of_code.lines_of(path.read_text()))
            unsafe |= {str(path.relative_to(ROOT))} if re.search(r"\bunsafe\b", code) else set()
            self.assertNotRegex(code, r"(?m)^(?:pub )?axiom\b", str(path))
        named = re.search(r"(?m)^.*`unsafe`.*$", PROMISES)[0]
        self.assertEqual(sorted(unsafe), sorted(re.findall(r"`(crates/[\w/.]+)`", named)))


class Documents(unittest.TestCase):
    def test_named_make_commands_exist_and_make_alone_lists_each_with_its_comment(self):
        shown = subprocess.run(["make", "-s"], cwd=ROOT, capture_output=True, text=True, check=True).stdout
        targets = re.findall(r"(?m)^\.PHONY: (\S+)", RECIPES)
        self.assertEqual(re.findall(r"(?m)^make (\S+)\n {4}[A-Z]", shown), targets)
        for name, page in PAGES.items():
            self.assertLessEqual({*re.findall(r"`make ([a-z-]+)", page)}, {*targets}, name)

    def test_named_crates_exist(self):
        for name, page in PAGES.items():
            for crate in re.findall(r"\b((?:gopher|test|bench|example)_[a-z_]+)\b", page):
                self.assertTrue([*ROOT.glob(f"crates/{crate}"), *ROOT.glob(f"t*/{crate}*")], f"{name}: {crate}")

    def test_files_that_the_architecture_names_are_in_the_crates_that_it_names(self):
        rows = re.findall(r"(?m)^- \*\*(gopher_\w+)\*\*(.*)$", PAGES["ARCHITECTURE.md"])
        named = [(crate, file) for crate, row in rows for file in re.findall(r"`([\w/]*\w)`", row)]
        for step in re.findall(r"(?m)^(?:\d\. |With ).*$", PAGES["ARCHITECTURE.md"]):
            crate = "gopher_crew"
            for word in re.findall(r"`([\w/.]+)`", step):
                crate = word if (ROOT / "crates" / word).is_dir() else crate
                named += [(crate, word.removesuffix(".rt"))] if word.endswith(".rt") else []
        lost = [f"{crate}: {file}" for crate, file in named if not [*ROOT.glob(f"crates/{crate}/src/**/{file}.rt")]]
        self.assertEqual(lost, [] if len(named) > 100 else "names of files")

    def test_installed_documents_name_none_that_stays_here(self):
        installed = {pathlib.Path(name).name: (ROOT / name).read_text() for name in dist.DOCUMENTS}
        for name, page in installed.items():
            self.assertLessEqual({*re.findall(r"\b[\w-]+\.md\b", page)}, {*installed}, name)

    def test_avoided_words_stay_away(self):
        pages = PAGES | {path.name: path.read_text() for path in [*ROOT.glob("man/*"), *ROOT.glob("packaging/*.md")]}
        for path in [*ROOT.glob("crates/*/src/**/*.rt"), *ROOT.glob("crates/*/specs/**/*.antt")]:
            pages[path] = "\n".join(COMMENT.findall(path.read_text()))
        self.assertEqual({name: found for name, page in pages.items() if (found := AVOIDED.findall(page))}, {})

    def test_the_picture_of_the_crates_is_current_and_others_name_functions_that_exist(self):
        self.assertEqual(draw.PICTURE.read_text(), draw.picture(), "run make documents")
        for name in re.findall(r">(gopher_\w+::[\w:]+)<", "".join(path.read_text() for path in ROOT.glob("docs/*.svg"))):
            crate, *_, function = name.split("::")
            sources = "".join(path.read_text() for path in ROOT.glob(f"crates/{crate}/src/**/*.rt"))
            self.assertRegex(sources, rf"\bpub(?:\(crate\))? fn {function}\b", name)

    def test_each_folder_of_the_first_sites_has_a_menu_with_a_heading(self):
        for site in (ROOT / "examples/site", ROOT / "packaging/site"):
            for folder in [site, *(path for path in site.rglob("*") if path.is_dir())]:
                self.assertRegex((folder / ".menu").read_text(), r"\A[^\t\n]+\n\n", str(folder))

    def test_no_line_of_the_first_sites_begins_with_a_period(self):
        """Clients show the period that the protocol adds to such a line."""
        for path in (path for site in ("examples/site", "packaging/site") for path in (ROOT / site).rglob("*.txt")):
            self.assertNotRegex(path.read_text(), r"(?m)^\.", str(path))

    def test_each_file_says_what_it_holds(self):
        for path in (path for crate in numbers_of_code.crates() for path in crate.glob("src/**/*.r[ts]")):
            if path.name != "lib.rt":
                self.assertRegex(list_files.about(path.read_text()), r"^[A-Z`].*\.$", str(path))


class Definitions(unittest.TestCase):
    def test_each_name_has_one_meaning_and_cites_no_lemma(self):
        # A file that stands in two crates word for word has one meaning.
        counts = collections.Counter(name for text in {*SPECS.values()} for name in names(text))
        self.assertGreater(len(counts), 1000)
        self.assertEqual([name for name, count in counts.items() if count > 1], [])
        self.assertEqual([str(path) for path, text in SPECS.items() if LEMMAS.search(text)], [])

    def test_comments_clauses_and_definitions_are_short(self):
        for kind, pattern in SHORT.items():
            for text in numbers_of_code.texts(kind):
                self.assertEqual([line for line in re.findall(pattern, text) if len(line) > 100], [])


if __name__ == "__main__":
    unittest.main()
