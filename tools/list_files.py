#!/usr/bin/env python3
"""Prints what each source file of the product holds: the first paragraph of its `//!` lines.

    tools/list_files.py [CRATE ..]    the files of these crates, or of all in the order of crates.txt
"""
import re
import sys

import numbers_of_code


def about(text):
    """What a file holds: its first paragraph of `//!` lines."""
    lines = re.match(r"(?://! ?.+\n)*", text)[0].splitlines()
    return " ".join(line.removeprefix("//!").strip() for line in lines)


def main(words):
    named = re.findall(r"(?m)^(\w+)", (numbers_of_code.ROOT / "crates.txt").read_text())
    crates = sorted(numbers_of_code.crates(), key=lambda crate: named.index(crate.name))
    if unknown := {*words} - {crate.name for crate in crates}:
        raise SystemExit(f"no crate is named {', '.join(sorted(unknown))}")
    for crate in crates:
        if crate.name in words or not words:
            print(f"{crate.name}\n  {about((crate / 'src/lib.rt').read_text())}" if (crate / "src/lib.rt").exists() else crate.name)
            for path in sorted(path for path in (crate / "src").rglob("*.r[ts]") if path.name != "lib.rt"):
                print(f"  {path.relative_to(crate / 'src')}\n    {about(path.read_text())}")
            print()


if __name__ == "__main__":
    main(sys.argv[1:])
