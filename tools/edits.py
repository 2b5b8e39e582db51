#!/usr/bin/env python3
"""Wrong bodies as their files have them, and sources with them: what tools/wrong_bodies.py judges.

crates/CRATE/wrong-bodies/FILE.edit has the wrong bodies of src/FILE.rt, one paragraph each, with empty lines between them, of lines
'word: text':

    name: skips_empty_lines
    function: line::lines
    old: found.push(line)?;
    new: if !line.is_empty() { found.push(line)?; }
    given: if let Ok(found) = lines(alloc, b"a\\n\\nb")
    holds: found.len() == 3

- `function` is 'module::name' or 'module::Type::name'. `old` and `new` come in pairs, one line each. An old text occurs exactly once
  in the file, or is one whole line of it. In place of them `must-fail: NAME` takes the edit of crates/CRATE/must-fail/NAME.edit,
  which `rt ci` tries too.
- `holds` is what every body that meets the contract makes true. Several such lines must hold together. `given` lines come before it:
  statements, or the heads of `if`s inside of which it stands. They see what the file sees, and `alloc: Global`. In
  crates/CRATE/wrong-bodies/setup.txt stand what they share (under `== items FILE`), lemmas that a function may name as
  `#[tactic(auto, using(crate::proofs::FILE::LEMMA))]` (under `== proofs proofs/FILE.antt`), and for a line `case: NAME` other
  arguments: the head of the function (`== case NAME`), and how the program calls it (`== call NAME`).
- `told` says in place of `holds` why none can be had. `open` stands beside `holds` and says what is missing. Neither edit is judged,
  nor counts. `breaks` is for the reader: the clause that the body breaks.
- A paragraph without an edit is a worked row: its `holds` is proved and run.
- `crate::refuse_memory(true);` in a `given` refuses all memory from there on, until `crate::refuse_memory(false);`.
- An edit may add fields to a struct. Then it has a program of its own.

crates/CRATE/right-bodies/FILE.edit has edits that change no meaning, in the same form without `holds`: none of them may be judged
to be wrong by what the wrong bodies of its function hold.

    tools/edits.py    prints the names of all of them, which tools/wrong_bodies.txt lists, so that none goes unseen
"""
import pathlib
import re

from functions import module_of, names_in, pieces

WORDS = ("name", "function", "old", "new", "must-fail", "case", "given", "holds", "told", "open", "breaks")
DEFAULT_CASE = ("fn NAME(alloc: std::alloc::Global) -> Option<bool> {\nHOLDS\n    None\n}", "NAME(rt.alloc())")
STRUCT = re.compile(r"(?ms)^(?:pub(?:\(\w+\))? )?struct \w[^;{]*\{\n.*?^\}\n")
SECTION = re.compile(r"(?m)^== (items|proofs|case|call) (\S+)\n")


class BadEdit(Exception):
    """Why an edit shows nothing."""


def replaced(source, old, new):
    """A source with a text that occurs once, or else is one whole line, in place of which another stands."""
    if old and source.count(old) == 1:
        return source.replace(old, new)
    lines = source.split("\n")
    if lines.count(old) != 1:
        raise BadEdit(f"its old text occurs {source.count(old)} times, not once: {old}")
    return "\n".join(new if line == old else line for line in lines)


def head_and_body(function):
    """A function cut behind the brace that opens its body, and its body, without the brace that closes it."""
    indent = re.match(" *", function)[0]
    opened = re.search(rf"(?m)^{indent}\{{\n", function) or re.search(r"(?m) \{\n", function)
    return function[: opened.end()], function[opened.end() : function.rindex("}")].rstrip(" ")


class Edit:
    """A wrong body, a right one, or a worked row."""

    def __init__(self, crate, file, paragraph):
        self.crate, self.file, self.number = crate, file, 0
        lines = [line.partition(": ") for line in paragraph.splitlines()]
        said = lambda word: [text for key, _, text in lines if key.removesuffix(":") == word]
        one = lambda word: (said(word) or [""])[0]
        self.name, self.function, self.case, self.told = one("name"), one("function"), one("case"), one("told")
        self.given, self.holds, self.must_fail, self.open = said("given"), said("holds"), one("must-fail"), one("open")
        self.pairs, self.text, self.bodies, self.whole = [*zip(said("old"), said("new"))], paragraph, {}, ""
        if odd := [key for key, _, _ in lines if key.removesuffix(":") not in WORDS]:
            self.fault = f"'{odd[0]}' is no word of an edit"
        elif len(said("old")) != len(said("new")) or not self.name:
            self.fault = "it has no name, or an old text without a new one"
        elif bool(self.holds) == bool(self.told) and self.kind != "right-bodies":
            self.fault = "it has no 'holds' and doesn't tell why"
        else:
            self.fault = ""

    kind = "wrong-bodies"

    def __str__(self):
        return f"{self.crate}/{self.name}"

    @property
    def is_row(self):
        return not self.pairs and not self.must_fail

    def read(self, root):
        """Reads what the edit changes: the new body of each function, by the index of its piece of the source."""
        source = (root / "crates" / self.crate / self.file).read_text()
        if self.must_fail:
            text = (root / "crates" / self.crate / "must-fail" / f"{self.must_fail}.edit").read_text()
            lines = [line.partition(": ") for line in text.splitlines()]
            said = lambda word: [text for key, _, text in lines if key.removesuffix(":") == word]
            if said("file") != [self.file]:
                raise BadEdit(f"must-fail/{self.must_fail}.edit is of {said('file')}")
            self.pairs = [*zip(said("old"), said("new"))]
        edited = source
        for old, new in self.pairs:
            edited = replaced(edited, old, new)
        before, after = pieces(source), pieces(edited)
        if len(before) != len(after) or STRUCT.sub("", "".join(before[::2])) != STRUCT.sub("", "".join(after[::2])):
            raise BadEdit("it changes something outside of functions")
        if before[::2] != after[::2]:
            self.whole = edited
        for at in range(1, len(before), 2):
            (head, body), (new_head, new_body) = head_and_body(before[at]), head_and_body(after[at])
            if head != new_head:
                raise BadEdit("it changes a contract or a signature")
            if re.sub(r"\s+", " ", body) != re.sub(r"\s+", " ", new_body):
                self.bodies[at] = new_body
        if not self.bodies:
            raise BadEdit("it changes nothing")
        changed = [name for at in self.bodies for name in names_in(before[at])]
        if self.function.split("::")[-1] not in changed:
            raise BadEdit(f"it changes {', '.join(changed)}, and nothing in {self.function}")

    def witness(self, asserted, cases):
        """The function of its `holds`, in which `asserted` says what is done with each."""
        opened = [line for line in self.given if line.startswith("if ")]
        body = [f"{line} {{" if line in opened else line for line in self.given]
        body += asserted(self.holds) + ["}"] * len(opened)
        return cases[self.case][0].replace("NAME", f"witness_{self.name}").replace("HOLDS", "\n".join(f"    {it}" for it in body))

    def path(self):
        return "::".join([*module_of(self.file), f"witness_{self.name}"])


class RightBody(Edit):
    kind = "right-bodies"


def read_edits(root, crate, kind=Edit):
    """The edits of a crate, and for those that show nothing why, by name."""
    found, bad, folder = [], [], root / "crates" / crate / kind.kind
    for path in sorted(folder.rglob("*.edit")):
        file = pathlib.Path("src", path.relative_to(folder)).with_suffix(".rt")
        for paragraph in filter(None, re.split(r"\n\n+", path.read_text().strip())):
            edit = kind(crate, str(file), paragraph)
            try:
                if edit.fault:
                    raise BadEdit(edit.fault)
                if not edit.is_row:
                    edit.read(root)
                found.append(edit)
            except (BadEdit, OSError) as why:
                bad.append((edit, f"BAD EDIT: {why}"))
    names = [edit.name for edit in found]
    bad += [(edit, "BAD EDIT: another one has its name") for edit in found if names.count(edit.name) > 1]
    if kind is Edit:
        bad += without_entry(root, crate, found)
    return [edit for edit in found if names.count(edit.name) == 1], bad


def without_entry(root, crate, found):
    """The must-fail edits of a crate that no wrong body takes."""
    files = sorted((root / "crates" / crate / "must-fail").glob("*.edit"))
    missing = {path.stem for path in files} - {edit.must_fail for edit in found}
    return [(f"{crate}/{name}", "BAD EDIT: no wrong body says what it breaks") for name in sorted(missing)]


def setup_of(root, crate):
    """The items that witnesses of a crate use, by file, and its cases: a function, and how a test calls it."""
    items, functions, calls = {}, {}, {}
    path = root / "crates" / crate / "wrong-bodies" / "setup.txt"
    parts = SECTION.split(path.read_text())[1:] if path.is_file() else []
    for kind, name, text in zip(parts[::3], parts[1::3], parts[2::3]):
        {"items": items, "proofs": items, "case": functions, "call": calls}[kind][name] = text.strip()
    return items, {"": DEFAULT_CASE, **{name: (text, calls[name]) for name, text in functions.items()}}


def names(root):
    """The names of all wrong bodies, worked rows and right bodies of a repository."""
    found = [(kind.kind, *read_edits(root, crate.name, kind)) for crate in sorted((root / "crates").iterdir()) for kind in (Edit, RightBody)]
    return sorted(f"{kind} {it}" for kind, good, bad in found for it in [*good, *(it for it, _ in bad)])


if __name__ == "__main__":
    print(*names(pathlib.Path(__file__).resolve().parent.parent), sep="\n")
