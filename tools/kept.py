"""What was judged and stands, kept on this machine: what tools/wrong_bodies.py need not judge again.

It lies in the folder that HOLE_GATE_CACHE names, or else in hole-gate among the user's caches: a file for each crate, with sums of
all that its check and its program read. A file that can't be read or has other sums counts as none.
"""
import contextlib
import hashlib
import json
import os
import pathlib
import re

from toolchain import kit

TOOLS = pathlib.Path(__file__).resolve().parent
JUDGE = [TOOLS / f"{name}.py" for name in ("wrong_bodies", "edits", "functions", "kept", "toolchain")]
# a store that can't be used, or no home for it
BROKEN = (OSError, ValueError, RuntimeError, KeyError)
NOTHING = {"sum": "", "verdicts": {}, "proofs": {}}
# the parts of the toolchain that a check or a program is made of
PARTS_OF_KIT = ("bin", "toolchain", "logic_built", "c", "rlibs", "rattle/core", "rattle/logic", "rattle/antt")


def place():
    """The folder of what is kept."""
    caches = os.environ.get("XDG_CACHE_HOME") or pathlib.Path.home() / ".cache"
    return pathlib.Path(os.environ.get("HOLE_GATE_CACHE") or pathlib.Path(caches) / "hole-gate")


def sum_of(*parts):
    return hashlib.sha256(repr(parts).encode()).hexdigest()


def sum_of_kit():
    """A sum of the toolchain: its identity, and the size and time of each file that a check or a program reads."""
    folder = kit()
    paths = sorted(f"{at}/{name}" for part in PARTS_OF_KIT for at, _, names in os.walk(folder / part) for name in names)
    seen = [(path, os.lstat(path).st_size, os.lstat(path).st_mtime_ns) for path in paths if "__pycache__" not in path]
    return sum_of((folder / "KIT-ID").read_text(), seen)


class Kept:
    """The verdicts of a repository's crates and the proofs of their witnesses, with the crates below each. A proof stands while its
    witness, the sources and what witnesses of its crate share stay the same; the verdicts of a crate while nothing of it changes.
    It is made before edits are read, so that their sums are those of what is judged, or older."""

    def __init__(self, root, below, is_read=True):
        self.root, self.below, self.is_read, self.kit = root, below, is_read, sum_of_kit()
        self.at_first = {crate: self.sum(crate) for crate in below}

    def sum(self, crate, parts=("wrong-bodies", "right-bodies", "must-fail")):
        """The sum of the judge and the toolchain, of the sources of a crate and of those below it, and of these parts of it."""
        crates, files = [*self.below[crate], crate], [self.root / "HANDLES", *JUDGE]
        for name in crates:
            for part in ("src", "specs", "proofs"):
                files += sorted((self.root / "crates" / name / part).rglob("*"))
        for part in parts:
            found = self.root / "crates" / crate / part
            files += [found] if found.is_file() else sorted(found.rglob("*"))
        read = [(str(file), sum_of(file.read_bytes())) for file in files if file.is_file()]
        read = [(file.removeprefix(str(self.root)).removeprefix(str(TOOLS)), it) for file, it in read]
        lines = [line for line in (self.root / "crates.txt").read_text().splitlines() if re.match(r"\w*", line)[0] in crates]
        return sum_of(self.kit, crate, lines, read)

    def sums_of_proofs(self, edits):
        """The sum of each proof of a crate's witnesses, by edit."""
        shared = self.sum(edits[0].crate, ["wrong-bodies/setup.txt"]) if edits else ""
        return {edit: sum_of(shared, edit.name, edit.file, edit.case, edit.given, edit.holds) for edit in edits}

    def read(self, crate):
        """What is kept of a crate, and is to be used."""
        return self.stored(crate) if self.is_read else NOTHING

    def stored(self, crate):
        """What is kept of a crate."""
        with contextlib.suppress(*BROKEN):
            kept = json.loads((place() / f"{crate}.json").read_text())
            return kept if kept.keys() == NOTHING.keys() else NOTHING
        return NOTHING

    def write(self, crate, **parts):
        with contextlib.suppress(*BROKEN):
            place().mkdir(parents=True, exist_ok=True)
            new = place() / f".{crate}.{os.getpid()}"
            new.write_text(json.dumps({**self.stored(crate), **parts}))
            new.replace(place() / f"{crate}.json")

    def proved(self, sums):
        """The edits of a crate whose proofs are kept."""
        known = self.read(next(iter(sums)).crate)["proofs"] if sums else {}
        return {edit for edit, of_proof in sums.items() if of_proof in known}

    def keep_proofs(self, sums, edits):
        """Keeps proofs, unless a source has changed since their sums were made."""
        if edits and self.sums_of_proofs(edits) == {edit: sums[edit] for edit in edits}:
            crate = edits[0].crate
            self.write(crate, proofs={**self.stored(crate)["proofs"], **{sums[edit]: edit.name for edit in edits}})

    def or_made(self, crate, those, make, is_whole=True):
        """The verdicts on a crate's edits that are kept, or else those that are made, which are kept if none failed and they are all."""
        known, before = {str(it): it for part in those for it in part}, self.at_first[crate]
        kept, names = self.read(crate), sum_of(before, sorted(known))
        if kept["sum"] == names:
            return {known[name]: tuple(verdict) for name, verdict in kept["verdicts"].items()}
        verdicts = make(*those)
        if is_whole and all(is_passed is not False for is_passed, _ in verdicts.values()) and self.sum(crate) == before:
            self.write(crate, sum=names, verdicts={str(it): verdict for it, verdict in verdicts.items()})
        return verdicts
