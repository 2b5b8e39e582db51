#!/usr/bin/env python3
"""Lists the clauses of public functions that no wrong body breaks.

    tools/clauses.py [--all] [CRATE ..]

A wrong body names what it breaks: a line `breaks: FUNCTION CLAUSE` of crates/CRATE/wrong-bodies. A clause that none can break stands
in crates/CRATE/wrong-bodies/unbroken.txt, on a line `FUNCTION CLAUSE: reason`. FUNCTION ends in `Type::method` or
`module::function`, CLAUSE is the name behind `ensures`, and `ensures` if it has none. The public functions of a crate are those
that its src/lib.rt hands on: by name, by their type, or in a public module. If none of these has a clause, as in gopher_server,
all that are `pub` count.

Clauses with neither are printed, and fail; so do lines that name no clause. With --all the reasons are printed too. The line before
the last counts the clauses that only wrong bodies with a line `open:` break; the last line is 'N passed, M failed'.
"""
import pathlib
import re
import sys

from edits import head_and_body
from functions import module_of, names_in, pieces

ROOT = pathlib.Path(__file__).resolve().parent.parent
IMPL = re.compile(r"(?m)^(?:impl|pub trait|trait)\b[^{}]*\{$")
GENERICS = r"<(?:[^<>]|<[^<>]*>)*>"
CLAUSE = re.compile(r"(?m)^ *ensures\*? *(\w*) *\{")
LINE = re.compile(r"(?m)^(\S+) (\w+): (\S.*)$")
BREAKS = re.compile(r"(?m)^breaks: (\S+) (\w+)")


def short(path):
    """The end of a function's path: its type or module, and its name."""
    return "::".join(path.split("::")[-2:])


def handed_on(folder):
    """The names that a crate's root hands on, and its public modules."""
    text = (folder / "src" / "lib.rt").read_text()
    used = re.findall(r"(?ms)^pub use ([^;]*);", text)
    return {word for names in used for word in re.findall(r"\w+", names)} | set(re.findall(r"(?m)^pub mod (\w+)", text))


def clauses_of(crate):
    """The clauses of the public functions of a crate, as (function, clause)."""
    folder, found, others = ROOT / "crates" / crate, [], []
    names = handed_on(folder)
    for path in sorted((folder / "src").rglob("*.rt")):
        module, parts = module_of(path.relative_to(folder)) or ["lib"], pieces(path.read_text())
        for at in range(1, len(parts), 2):
            if not parts[at].lstrip().startswith("pub fn "):
                continue
            owner = module[-1]
            if parts[at].startswith(" "):
                head = " ".join(IMPL.findall("".join(parts[:at]))[-1].split())
                owner = re.match(rf"(?:impl(?:{GENERICS})?|pub trait|trait) (?:.* for )?(\w+)", head)[1]
            function = names_in(parts[at])[0]
            clauses = [(f"{owner}::{function}", clause or "ensures") for clause in CLAUSE.findall(head_and_body(parts[at])[0])]
            (found if {owner, function} & names else others).extend(clauses)
    return found or others


def judged(crate):
    """For a crate its clauses, those that nothing breaks, lines that name no clause, the reasons that are told, and what only open
    wrong bodies break."""
    folder = ROOT / "crates" / crate / "wrong-bodies"
    known, broken, excluded, reasons, told = clauses_of(crate), set(), set(), {}, folder / "unbroken.txt"
    for path in folder.rglob("*.edit"):
        for entry in path.read_text().split("\n\n"):
            named = {(short(function), clause) for function, clause in BREAKS.findall(entry)}
            broken |= named if re.search(r"(?m)^holds: ", entry) else set()
            excluded |= named if re.search(r"(?m)^holds: ", entry) and not re.search(r"(?m)^open: ", entry) else set()
    if told.is_file():
        reasons = {(short(function), clause): why for function, clause, why in LINE.findall(told.read_text())}
    lost = [f"{crate}: {function} {clause}: no public function has this clause" for function, clause in sorted((broken | reasons.keys()) - {*known})]
    lost += [f"{crate}: {function} {clause}: a wrong body breaks it, and unbroken.txt says why none can" for function, clause in sorted(broken & reasons.keys())]
    return known, [it for it in known if it not in broken and it not in reasons], lost, reasons, broken - excluded


def main(words):
    crates = [it for it in words if it != "--all"] or sorted(it.parent.parent.name for it in ROOT.glob("crates/gopher_*/src/lib.rt"))
    passed = failed = is_open = 0
    for crate in crates:
        known, unbroken, lost, reasons, rests = judged(crate)
        print(*[f"{crate}: {function} {clause}" for function, clause in unbroken], *lost, sep="\n", end="\n" if unbroken or lost else "")
        if "--all" in words:
            print(*[f"{crate}: {function} {clause}: {why}" for (function, clause), why in reasons.items()], sep="\n")
        passed, failed, is_open = passed + len(known) - len(unbroken), failed + len(unbroken) + len(lost), is_open + len(rests)
    print(f"{is_open} rest on wrong bodies that are open")
    print(f"{passed} passed, {failed} failed")
    return 1 if failed else 0


if __name__ == "__main__":
    sys.exit(main(sys.argv[1:]))
