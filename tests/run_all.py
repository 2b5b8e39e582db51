#!/usr/bin/env python3
"""Runs the tests that aren't proofs: those of the program, and those of scripts and documents. Ends with one table.

    tests/run_all.py [--quick] [NAME ..]

`make test` runs it once `rt ci` has proved and built the program. With --quick, as in `make quick`, the tests that need no proof
run, on the program that `make build` left if no source is younger, and else on one that is built without its proofs. NAME names
single tests.

TESTS lists all of them: a file of tests/, or a test_*.py of tools/, that isn't listed fails, and so does one that can't be run. Two
tests run beside each other. Those that measure time or memory, or whose waits are short, run after all others, two at once if
there are four processors. A failure doesn't hide others. The counts of a test are those that it prints last; a test that prints
none counts as one. The last line is 'N passed, M failed'.
"""
import argparse
import os
import pathlib
import re
import subprocess
import sys
import tempfile
import time
from concurrent.futures import ThreadPoolExecutor
from dataclasses import dataclass

ROOT = pathlib.Path(__file__).resolve().parent.parent
sys.path.insert(0, str(ROOT / "tools"))
import unproved

COUNTS = re.compile(r"(?m)^(?:.*: )?(\d+) passed, (\d+) failed$")
OF_UNITTEST = re.compile(r"(?m)^Ran (\d+) tests? in [\d.]+s$")
FAILED_OF_UNITTEST = re.compile(r"(?m)^FAILED \((.*)\)$")
AT_ONCE, PROCESSORS_ALONE = 2, 2
# files of tests/ that are no tests of the gate: this one, one that wants clients that a machine may lack, and one of an hour
BY_HAND = ("run_all", "clients", "soak")
# tools that are tests too
CHECKS = ("check_links", "clauses")


@dataclass(frozen=True)
class Test:
    """A script; whether it asks the program, runs without proofs, and has processors for itself."""

    file: str
    asks: bool = True
    is_quick: bool = False
    is_alone: bool = False
    # more words if the program was built without its proofs
    unproved: tuple = ()

    @property
    def name(self):
        return pathlib.PurePath(self.file).stem


TESTS = (
    Test("tools/check_links.py", asks=False, is_quick=True),
    Test("tools/clauses.py", asks=False, is_quick=True),
    Test("tools/test_asked.py", asks=False, is_quick=True),
    Test("tools/test_audit.py", asks=False, is_quick=True),
    Test("tools/test_check_links.py", asks=False, is_quick=True),
    Test("tools/test_documents.py", asks=False, is_quick=True),
    Test("tools/test_gophermap_to_menu.py", asks=False, is_quick=True),
    Test("tools/test_run_all.py", asks=False, is_quick=True),
    Test("tools/test_specification.py", asks=False, is_quick=True),
    Test("tools/test_unproved.py", asks=False, is_quick=True),
    Test("tools/test_wrong_bodies.py", asks=False, is_quick=True),
    Test("tests/aliases.py", is_quick=True),
    Test("tests/check.py", is_quick=True),
    Test("tests/program.py", is_quick=True),
    Test("tests/replays.py", is_quick=True, unproved=("--scripts", "200", "--pages", "257")),
    Test("tests/requests.py", is_quick=True),
    Test("tests/survey.py", is_quick=True),
    Test("tests/cutting.py"),
    Test("tests/limits.py", is_alone=True),
    Test("tests/listen.py"),
    Test("tests/package.py"),
    Test("tests/refusals.py"),
    Test("tests/attack.py", is_quick=True, is_alone=True, unproved=("--memory", "100000")),
    Test("tests/crawl_memory.py", is_alone=True),
    Test("tests/crawling.py", is_alone=True),
    Test("tests/hosts.py", is_alone=True),
    Test("tests/log.py", is_quick=True, is_alone=True),
)


def faults(tests=TESTS, root=ROOT):
    """What is wrong with the list: a file that isn't in it, or one that can't be run."""
    files = [*(root / "tests").glob("*.py"), *(root / "tools").glob("test_*.py")]
    files += [it for it in (root / "tools").glob("*.py") if it.stem in CHECKS]
    listed = {root / it.file for it in tests}
    missing = [it for it in files if it not in listed and it.stem not in BY_HAND]
    broken = [it for it in listed if not os.access(it, os.X_OK)]
    return [f"{it.relative_to(root)}: it isn't in TESTS" for it in sorted(missing)] + [f"{it.relative_to(root)}: it can't be run" for it in sorted(broken)]


def counted(said, status):
    """How many of what a test tried passed and failed, from what it printed."""
    if found := COUNTS.findall(said):
        passed, failed = map(int, found[-1])
    elif ran := OF_UNITTEST.findall(said):
        failed = sum(map(int, re.findall(r"\d+", "".join(FAILED_OF_UNITTEST.findall(said)))))
        passed = int(ran[-1]) - failed
    else:
        passed, failed = int(not status), 0
    return passed, max(failed, int(status != 0))


def run(test, program):
    """Runs a test, prints what it said, and gives its row: name, passed, failed, seconds."""
    began, words = time.monotonic(), [str(ROOT / test.file)]
    try:
        if test.asks:
            path, is_proved = program()
            words += [str(path), *(() if is_proved else test.unproved)]
        ran = subprocess.run(words, cwd=ROOT, stdin=subprocess.DEVNULL, stdout=subprocess.PIPE, stderr=subprocess.STDOUT, text=True, errors="replace")
        said, status = ran.stdout, ran.returncode
    except Exception as error:
        said, status = f"{error}\n", 1
    print(f"== {' '.join([test.file, *words[1:]])}\n{said}", end="", flush=True)
    return (test.name, *counted(said, status), time.monotonic() - began)


def run_all(tests, program, at_once=AT_ONCE):
    """Runs tests beside each other, then those that run alone. `program()` gives the program, and whether it is proved."""
    alone = max(min(at_once, len(os.sched_getaffinity(0)) // PROCESSORS_ALONE), 1)
    with ThreadPoolExecutor(at_once) as pool, ThreadPoolExecutor(alone) as last:
        rows = [*pool.map(lambda it: run(it, program), [it for it in tests if not it.is_alone])]
        return rows + [*last.map(lambda it: run(it, program), [it for it in tests if it.is_alone])]


def table(rows, wrong, clock):
    """The rows as lines, what is wrong with the list, and the closing line over all."""
    passed, failed = sum(row[1] for row in rows), sum(row[2] for row in rows) + len(wrong)
    lines = [f"{'':<24}{'passed':>8}{'failed':>8}{'seconds':>9}"]
    lines += [f"{name:<24}{good:>8}{bad:>8}{seconds:>9.0f}" for name, good, bad, seconds in rows]
    names = [name for name, _, bad, _ in rows if bad]
    lines += [*wrong, f"{clock / 60:.1f} minutes", *([f"FAILED: {', '.join(names)}"] if names else [])]
    return [*lines, f"{passed} passed, {failed} failed"], failed


def main(words):
    options = argparse.ArgumentParser(description=__doc__, formatter_class=argparse.RawDescriptionHelpFormatter)
    options.add_argument("--quick", action="store_true")
    options.add_argument("names", nargs="*", metavar="NAME")
    given = options.parse_args(words)
    if unknown := {*given.names} - {it.name for it in TESTS}:
        options.error(f"no test is named {', '.join(sorted(unknown))}")
    chosen = [it for it in TESTS if it.name in given.names or not given.names and (it.is_quick or not given.quick)]
    began = time.monotonic()
    with tempfile.TemporaryDirectory(prefix="tests-") as room, ThreadPoolExecutor(1) as builder:
        program = lambda: (unproved.PROVED, True)
        if given.quick and any(it.asks for it in chosen):
            program = builder.submit(unproved.program, pathlib.Path(room)).result
        rows = run_all(chosen, program, 1 if given.names else AT_ONCE)
    lines, failed = table(rows, [] if given.names else faults(), time.monotonic() - began)
    print(*lines, sep="\n")
    return 1 if failed else 0


if __name__ == "__main__":
    sys.exit(main(sys.argv[1:]))
