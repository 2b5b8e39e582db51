#!/usr/bin/env python3
"""Tests tools/check_links.py: which links, pictures and paths it finds, and which of them it must not accept."""
import contextlib
import io
import pathlib
import sys
import tempfile
import unittest

sys.path.insert(0, str(pathlib.Path(__file__).resolve().parent))
import check_links

GUIDE = "# The guide\n\n## What it *does*, and `how`\n\n## Twice\n\n## Twice\n"
# words of a README, and what is wrong with each link or path that they name, or None
ROWS = (
    ("[a](docs/GUIDE.md) [b](docs/GUIDE.md#what-it-does-and-how) ![way](docs/way.svg)", [None, None, None]),
    ("[c](#head) [d](https://x.example/y) [e](docs/GUIDE.md#twice-1) [f](docs/)\n\n# Head", [None, None, None, None]),
    ("`tools/run.py` `tools/run.py --all` `crates/*/must-fail/` `crates/CRATE/must-fail/NAME.edit`", [None, None, None, None]),
    ("`crates/low/out/low`", [None]),
    ("[a](docs/GONE.md)", ["docs/GONE.md leads to no file"]),
    ("- one\n\n- two\n  ![a](docs/gone.svg)", ["docs/gone.svg leads to no file"]),
    ("[a](docs/GUIDE.md#thrice)", ["docs/GUIDE.md#thrice leads to no heading"]),
    ("[a](docs/GUIDE.md#twice-2)", ["docs/GUIDE.md#twice-2 leads to no heading"]),
    ("[a](#nowhere)", ["#nowhere leads to no heading"]),
    ("As `tools/gone.py` does.", ["`tools/gone.py` isn't there"]),
    ("[a]\n\n[a]: docs/GUIDE.md", ["[a]: docs/GUIDE.md isn't written [text](target)"]),
    ('<img src="docs/way.svg">', ['<img src="docs/way.svg"> isn\'t written [text](target)']),
    ("```\n[a](docs/GONE.md)\n```\n\n    [b](docs/GONE.md) `tools/gone.py`\n\nand `[c](docs/GONE.md)`.", []),
)


class Links(unittest.TestCase):
    def test_what_is_there_passes_and_what_is_missing_fails(self):
        with tempfile.TemporaryDirectory() as room:
            root = pathlib.Path(room)
            for file in ("docs/GUIDE.md", "docs/way.svg", "tools/run.py", "crates/low/must-fail/one.edit"):
                (root / file).parent.mkdir(parents=True, exist_ok=True)
                (root / file).write_text(GUIDE)
            for words, faults in ROWS:
                (root / "README.md").write_text(f"{words}\n")
                self.assertEqual(check_links.faults_of(root, root / "README.md"), faults, words)
                with contextlib.redirect_stdout(io.StringIO()) as said:
                    self.assertEqual(check_links.main([room]), int(any(faults)))
                failed = len(faults) - faults.count(None)
                self.assertTrue(said.getvalue().endswith(f"links: {faults.count(None)} passed, {failed} failed\n"))


if __name__ == "__main__":
    unittest.main()
