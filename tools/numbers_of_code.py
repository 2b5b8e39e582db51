#!/usr/bin/env python3
"""Counts what README.md says of the size of the code and of its proofs.

    tools/numbers_of_code.py            prints the counts
    tools/numbers_of_code.py --write    puts them and the version into README.md

The product is the program and the libraries below it: crates of tests and examples don't count. A line counts unless it is empty,
a comment or an import; counts over 1,000 are rounded. A function has a contract if there is a clause between its signature and its
body.
"""
import pathlib
import re
import sys

import audit
import edits

ROOT = pathlib.Path(__file__).resolve().parent.parent
PAGE = ROOT / "README.md"
MARKS = re.compile(r"(?s)(<!-- numbers: tools/numbers_of_code.py -->\n).*?(\n<!-- end -->)")
VERSION = re.compile(r"This is version [\d.]*\d")
# a function up to the brace that opens its body
HEAD = re.compile(r"(?ms)^( *)(?:pub(?:\(\w+\))? )?(?:const )?fn \w.*?(?:^\1\{$|\{\}?$|;$|\}$)")
CLAUSE = re.compile(r"\s*(?:requires|ensures|ghost|#\[tactic)\b")
# an import, which may take several lines
IMPORT = re.compile(r"(?ms)^ *(?:pub )?(?:ghost )?use [^;{\n]*(?:\{[^}]*\})?;?$|^(?:pub )?mod \w+;?$")


def crates():
    """The crates of the product."""
    return sorted(path.parent for path in ROOT.glob("crates/*/src") if not path.parent.name.startswith(("test_", "example_")))


def texts(pattern):
    """The texts of files below the crates of the product."""
    return [path.read_text() for crate in crates() for path in sorted(crate.glob(pattern))]


def lines_of(text):
    return [line for line in IMPORT.sub("", text).splitlines() if line.strip() and not line.strip().startswith(("//", "--"))]


def wrong_bodies():
    """How many edits the judge excludes: those that have a `holds`."""
    judged = lambda crate: [it for it in edits.read_edits(ROOT, crate)[0] if it.holds and not it.open and not it.is_row]
    return sum(len(judged(crate.name)) for crate in crates())


def plain_lines(text):
    """The lines of a source file that a compiler of plain Rust would read: no clause, and no import for clauses."""
    kept, open_braces = 0, 0
    for line in lines_of(text):
        if open_braces or CLAUSE.match(line):
            open_braces += line.count("{") - line.count("}")
        else:
            kept += 1
    return kept


def counted():
    """The counts, by name."""
    sources, tree = texts("src/**/*.rt"), audit.Tree()
    heads = [head[0] for text in sources for head in HEAD.finditer(text)]
    lines = lambda pattern: sum(len(lines_of(text)) for text in texts(pattern))
    plain = sum(map(plain_lines, sources))
    return {
        "crates": len(crates()),
        "functions": len(heads),
        "of them with a contract": sum(bool(re.search(r"(?m)^\s*(?:requires|ensures)\b", head)) for head in heads),
        "lines of Rust": plain,
        "lines of contracts": lines("src/**/*.rt") - plain,
        "lines of definitions": lines("specs/**/*.antt"),
        "lines of proofs": lines("proofs/**/*.antt"),
        "lines to read for all promises": tree.text(tree.promises)[1],
        "wrong bodies": wrong_bodies(),
    }


def version():
    """The version of the program, from its sources."""
    return re.search(r'const VERSION: &str = "([\d.]+)";', (ROOT / "crates/gopher_hole/src/arguments.rt").read_text())[1]


def written(page):
    """The README with the counts and the version as they are."""
    rounded = {name: count if count < 1000 else round(count, -2 if count > 3000 else -1) for name, count in counted().items()}
    sentence = ", ".join(f"{count:,} {name}" for name, count in rounded.items())
    return VERSION.sub(f"This is version {version()}", MARKS.sub(rf"\g<1>{sentence}.\g<2>", page))


if __name__ == "__main__":
    if sys.argv[1:] == ["--write"]:
        PAGE.write_text(written(PAGE.read_text()))
    else:
        print(*(f"{count:7,} {name}" for name, count in counted().items()), sep="\n")
