#!/usr/bin/env python3
"""Judges the wrong bodies. A wrong body is an edit that changes what a function does: the contracts have to exclude it.

    tools/wrong_bodies.py [--reasons] [--from-nothing] [CRATE|CRATE/NAME ..]

judges those of these crates, or these, or all. tools/edits.py has their form. Each has a line `holds: EXPR`, and is excluded if a
proof and a run both succeed:

- The proof: `fn witness(alloc: Global) { let holds = EXPR; prove!(holds); }` is proved from the contracts of the functions that EXPR
  calls, and from none of their bodies. So EXPR is true, whatever bodies they have, as long as these meet their contracts.
- The run: EXPR is true with the function as it is. With the wrong body it is false, or the program stops at a fault there.

So with the wrong body, a function that EXPR calls, or one that this calls, breaks its contract. The prover doesn't see wrong bodies:
it could refuse a right one, because its proof was written for another body.

Each crate takes one check, of a copy with all witnesses. In the copy a hole stands for the proof of each function of the crate: `rt
ci` proves them, and a check that did so again would take most of its time for it. A witness is proved if it rests on such holes
alone. Functions that witnesses share, in setup.txt, are proved in the same check: if one isn't, no witness that calls it is. Nor is
one if what its case requires can't all hold: then a function that requires the same and says `false` is proved too.

Each crate also takes one program, built without proofs, in which each function has its own body and all wrong ones, and a function
in C says which of them runs. Also judged are:

- Worked rows, which are an EXPR without an edit: proved and run.
- Right bodies, which are edits that change no meaning: each EXPR of their function has to stay true.
- Bad edits, which fail: the text that they replace isn't there once, they change nothing or a contract, they don't compile.

What is `told` in place of an EXPR, and edits that are `open`, because no proof was found yet, are neither proved nor run: they don't
count as passed. A right body is open if no wrong body of its function is excluded.

With --reasons each verdict is printed, else what failed and what is told. Each proof is kept until the sources of its crate or of
one below it, its EXPR, the judge or the toolchain change, and the verdicts of a crate without a failure until that or an edit does.
--from-nothing judges all the same. Libraries below a crate are those that `rt ci` or `rt lib` left in out/; they are built by `rt
lib` if one is missing or older than its sources. The line before the last counts what is open and told; the last line is 'N passed,
M failed'.
"""
import argparse
import os
import pathlib
import re
import shutil
import subprocess
import sys
import tempfile
from concurrent.futures import ThreadPoolExecutor

from edits import RightBody, head_and_body, read_edits, setup_of
from functions import module_of, names_in, pieces
from kept import Kept
from toolchain import is_up_to_date, words_of_check

ROOT = pathlib.Path(os.environ.get("ROOT") or pathlib.Path(__file__).resolve().parent.parent)
MEMORY_OF_A_CHECK = 5 << 30
# What no function can prove that can be called.
NEVER = "    let holds = false; prove!(holds);"
TYPE = re.compile(r"(?m)^(?:pub(?:\(\w+\))? )?(?:struct|enum) (\w+)")
TRAIT = re.compile(r"(?:pub(?:\(\w+\))? )?trait ")
IMPL = re.compile(r"impl(?P<generics><(?:[^<>]|<[^<>]*>)*>)? (?:(?P<of_trait>.*) for )?(?P<of_type>\w+)")
SWITCH = """
unsafe extern "C" {
    safe fn wrong_body_begin(number: u32);
    safe fn wrong_body_is(number: u32) -> bool;
    safe fn wrong_body_refuse(is_refused: bool);
}

pub fn is_tried(number: u32) -> bool {
    wrong_body_is(number)
}

pub fn refuse_memory(is_refused: bool) {
    wrong_body_refuse(is_refused)
}

#[cfg(test)]
pub fn try_body(number: u32) {
    wrong_body_begin(number)
}
"""
# In proofs memory may be refused at any time.
MEMORY = "\npub fn refuse_memory(_is_refused: bool) {}\n"
SWITCH_IN_C = """#include <stdint.h>
#include <stdlib.h>
#include <sys/resource.h>
static uint32_t tried;
static void **held;
void wrong_body_begin(uint32_t number) { tried = number; }
_Bool wrong_body_is(uint32_t number) { return tried == number; }
/* lets the stack grow as far as a test needs it */
static void touch_stack(void) {
  volatile char room[1 << 20];
  for (size_t at = 0; at < sizeof room; at += 4096) room[at] = 0;
}
static void hold(size_t size) {
  for (void **block; (block = malloc(size)); held = block) *block = held;
}
/* Lets the process map no more memory, and takes all that is free; or gives it back. */
void wrong_body_refuse(_Bool is_refused) {
  static struct rlimit usual;
  touch_stack();
  if (is_refused) getrlimit(RLIMIT_AS, &usual);
  struct rlimit none = {0, usual.rlim_max};
  setrlimit(RLIMIT_AS, is_refused ? &none : &usual);
  for (size_t size = 1 << 20; is_refused && size > 4096; size /= 2) hold(size);
  for (size_t size = 4096; is_refused && size >= 16; size -= 16) hold(size);
  while (!is_refused && held) {
    void **block = held;
    held = *block;
    free(block);
  }
}
"""
TEST = """
#[cfg(test)]
mod {module} {{
    use super::*;

    #[test]
    fn it(rt: HostRuntime) {{
        crate::try_body({number});
        let said = match {call} {{
            Some(true) => "holds",
            Some(false) => "fails",
            None => "isn't reached",
        }};
        println!(rt; "{{said}}").unwrap();
    }}
}}
"""


def run(*words, folder=ROOT, **more):
    how = {"stdin": subprocess.DEVNULL, "stdout": subprocess.PIPE, "stderr": subprocess.STDOUT, "text": True, "errors": "replace"}
    return subprocess.run(words, cwd=folder, env={**os.environ, **more}, **how).stdout


def libraries_below():
    """For each crate the crates of the repository on which it stands, lowest first."""
    lines = [line.split("#")[0].partition(":") for line in (ROOT / "crates.txt").read_text().splitlines()]
    named = {name.split()[0]: below.split() for name, _, below in lines if name.strip()}
    every = lambda name: dict.fromkeys(it for low in named[name] if low in named for it in [*every(low), low])
    return {name: list(every(name)) for name in named}


def copy_of(crate, below, room):
    """Copies the sources of a crate and of those below it, and links what is built of these."""
    for name in ("crates.txt", "HANDLES"):
        shutil.copy(ROOT / name, room / name)
    (room / ".git").mkdir()
    for name in [*below, crate]:
        shutil.copytree(ROOT / "crates" / name, room / "crates" / name, ignore=shutil.ignore_patterns("out", "*-bodies", "must-fail"))
        if name != crate and (built := ROOT / "crates" / name / "out" / "rlib").is_dir():
            shutil.copytree(built, room / "crates" / name / "out" / "rlib", copy_function=link)
    lines = (ROOT / "crates.txt").read_text().splitlines(keepends=True)
    (room / "crates.txt").write_text("".join(it for it in lines if re.match(r"\w*", it)[0] in ("", crate, *below)))
    return room / "crates" / crate


def link(source, target):
    try:
        os.link(source, target)
    except OSError:
        shutil.copy2(source, target)


class Source:
    """The sources of a copy, to which text is added at the ends of files; knows whose each line is."""

    def __init__(self, folder):
        self.folder, self.texts, self.owners = folder, {}, {}

    def text(self, file):
        return self.texts.get(file) or self.texts.setdefault(file, (self.folder / file).read_text())

    def add(self, file, text, owner=None):
        before = self.text(file)
        self.own(file, before.count("\n") + 1, text.count("\n") + 2, owner)
        self.texts[file] = f"{before}\n{text}\n"

    def own(self, file, first, count, owner):
        self.owners.update({(file, line): owner for line in range(first, first + count)})

    def write(self):
        for file, text in self.texts.items():
            (self.folder / file).write_text(text)

    def blamed(self, said):
        """The owners of lines in which errors are, with the first error of each."""
        found = {}
        for file, line, why in re.findall(r"(?m)(src/\S+?):(\d+):\d+: (error.*)$", said):
            if owner := self.owners.get((file, int(line))):
                found.setdefault(owner, why)
        return found


def unproved(crate, edits, items, cases, below):
    """Why the witnesses of some edits aren't proved, by edit. Those that the prover can't read are left out of a second check."""
    said, blamed, holes = checked(crate, edits, items, cases, below)
    left = [edit for edit in edits if edit not in blamed]
    if blamed and left:
        return {**blamed, **unproved(crate, left, items, cases, below)}
    empty = [case for case, path in controls_of(edits, cases).items() if not lacking(crate, path, said, holes)]
    blamed.update({edit: "what it requires can't all hold" for edit in left if edit.case in empty})
    return {**{edit: why for edit in left if (why := lacking(crate, edit.path(), said, holes))}, **blamed}


def add_items(source, items):
    """Adds to a copy what witnesses share: items at the ends of source files, and files of lemmas."""
    for file, text in items.items():
        if file.endswith(".antt"):
            root = source.folder / "proofs" / "Lib.antt"
            root.parent.mkdir(exist_ok=True)
            (source.folder / file).write_text(text + "\n")
            root.write_text(f"{root.read_text() if root.is_file() else ''}pub mod {pathlib.PurePath(file).stem}\n")
        else:
            source.add(file, text)


def controls_of(edits, cases):
    """For each case of these edits that requires something the path of its control: a function that requires the same and says what
    is never true. If it is proved, the case can't be."""
    with_requires = {edit.case: edit for edit in reversed(edits) if re.search(r"\brequires\b", cases[edit.case][0])}
    return {case: "::".join([*module_of(edit.file), f"control_{case}"]) for case, edit in with_requires.items()}


def leave_out_proofs(source, crate):
    """Leaves out the body of each function of a copy, and puts a hole in the place of its proof. Gives the names of the holes, which
    witnesses may rest on: they are proved from what these functions ensure, and nothing is proved anew."""
    holes = set()
    files = {str(file.relative_to(source.folder)): file.read_text() for file in sorted((source.folder / "src").rglob("*.rt"))}
    cut = {file: pieces(text) for file, text in files.items()}
    for file, at, path in bodies_of(files):
        cut[file][at] = without_body(cut[file][at])
        parts, name = path.split("::"), path.split("::")[-1]
        folder = source.folder.joinpath("proofs", *parts)
        folder.mkdir(parents=True, exist_ok=True)
        for proof in ("Invariants.antt", "Answers.antt"):
            (folder / proof).unlink(missing_ok=True)
        statement = f"Rattle.{crate}.proofs.{'.'.join(parts)}.Statement"
        (folder / "Proof.antt").write_text(f"use {statement}.{{statement}}\n\npub {name}_spec : {{M : Type 1}} → statement M\n{name}_spec = ?\n")
        holes.add(f"Rattle.{crate}.proofs.{'.'.join(parts)}.Proof.{name}_spec")
    source.texts.update({file: "".join(parts) for file, parts in cut.items()})
    return holes


def without_body(function):
    """A function without what it does, unless constants are made by it."""
    indent, (head, _body) = re.match(" *", function)[0], head_and_body(function)
    is_const = re.match(r" *(?:pub(?:\(\w+\))? )?const ", function)
    return function if is_const else f"{head}{indent}    unreachable!()\n{indent}}}\n"


def functions_of(items):
    """The paths of the functions of these sources."""
    return [path for _file, _at, path in bodies_of(items)]


def bodies_of(items):
    """The functions of these sources that have a body: the file of each, the index of its piece of this, and its path, as a check
    prints it: a method has the module of its type, and a trait's method its type and its trait. Those of tests alone, with which a
    program calls witnesses, aren't checked, those of a cycle are proved together, and how a value is dropped is always proved."""
    sources = {file: text for file, text in items.items() if file.endswith(".rt")}
    found, homes = [], {name: module_of(file) for file, text in sources.items() for name in TYPE.findall(text)}
    for file, text in sources.items():
        home, owner, parts = module_of(file), [], pieces(text + "\n")
        for at, (before, function) in enumerate(zip(parts[::2], parts[1::2])):
            # The head of an impl may take two lines, and an impl without methods ends in its line.
            for line in re.sub(r"\n +for ", " for ", before).splitlines():
                if (head := IMPL.match(line)) and not line.endswith("{}"):
                    own = re.findall(r"[<,] *(\w+)", head["generics"] or "")
                    words = [word for word in re.findall(r"(?<![\w'])\w+(?!\w*::)", head["of_trait"] or "") if word not in own]
                    home = module_of(file) if head["of_trait"] else homes.get(head["of_type"], module_of(file))
                    owner = [head["of_type"] + "".join(word[0].upper() + word[1:] for word in words)] if words != ["Drop"] else None
                elif line == "}":
                    home, owner = module_of(file), []
                elif TRAIT.match(line):
                    owner = None
            last = before.rstrip().splitlines()[-1:] or [""]
            if owner is not None and not re.search(r"#\[(cfg\(test\)|test|cycle\(\w+\))\]$", last[0]):
                found.append((file, 2 * at + 1, "::".join([*home, *owner, names_in(function)[0]])))
    return found


def checked(crate, edits, items, cases, below):
    """What a check of the witnesses of these edits says, the errors in their text, by edit, and the names of holes that stand for
    the proofs of the crate's functions."""
    with tempfile.TemporaryDirectory(prefix="wrong-bodies-") as room:
        source = Source(copy_of(crate, below, pathlib.Path(room)))
        holes = leave_out_proofs(source, crate)
        source.add(root_of(source), MEMORY)
        add_items(source, items)
        asserted = lambda parts: [f"let holds = {part}; prove!(holds);" for part in parts]
        for edit in edits:
            source.add(edit.file, edit.witness(asserted, cases), edit)
        controls, homes = controls_of(edits, cases), {edit.case: edit.file for edit in reversed(edits)}
        for case in controls:
            source.add(homes[case], cases[case][0].replace("NAME", f"control_{case}").replace("HOLDS", NEVER))
        source.write()
        shared = functions_of(items)
        said = run(*words_of_check(source.folder, [*shared, *controls.values(), *(edit.path() for edit in edits)]), folder=source.folder)
        blamed = source.blamed(said)
        for path in shared:
            if why := lacking(crate, path, said, holes):
                uses = re.compile(rf"\b({'|'.join(callers_of(path.split('::')[-1], items))})\b")
                blamed = {**{edit: f"{path} isn't proved: {why}" for edit in edits if uses.search(edit.witness(asserted, cases))}, **blamed}
        return said, blamed, holes


def callers_of(name, items):
    """The names of a shared function and of those that call it, or one that calls it."""
    found = {name}
    functions = [it for text in items.values() for it in re.split(r"(?m)^(?= *(?:pub(?:\(\w+\))? )?fn \w)", text)[1:]]
    named = {re.search(r"fn (\w+)", it)[1]: it for it in functions}
    while more := {it for it, text in named.items() if it not in found and re.search(rf"\b({'|'.join(found)})\b", text)}:
        found |= more
    return found


def lacking(crate, path, said, holes):
    """What a function lacks, as a check said; nothing if it is proved, given what the functions with these holes ensure."""
    found = re.search(rf"(?m)^fn {crate}::{re.escape(path)}: (.*?)(?:, may wait)?$", said)
    if not found:
        return f"the check said nothing of it: {said[-1500:]}"
    is_proved = found[1] == "no holes" or rests_on(f"{crate}::{path}", said, holes)
    return "" if is_proved else found[1]


def rests_on(function, said, holes):
    """Whether a check said that a function depends on some of these holes alone. It names them, or another function that depends on
    the same."""
    line = re.search(rf"(?m)^fn {re.escape(function)}: depends on a hole in (.*?)(?:, may wait)?$", said)
    if not line:
        return False
    others = re.findall(r"the same \d+ declarations as `([^`]+)`", line[1])
    named = re.findall(r"`([^`]+)`", re.sub(r"the same \d+ declarations as `[^`]+`", "", line[1]))
    return bool(named or others) and holes.issuperset(named) and all(rests_on(other, said, holes) for other in others)


def switched(source, edits):
    """Writes all bodies of each function that edits change, and asks which is tried."""
    for file in {edit.file for edit in edits}:
        parts, line = pieces(source.text(file)), 1
        for at, part in enumerate(parts):
            line += part.count("\n") if at % 2 == 0 else 0
            if at % 2:
                parts[at] = part = with_bodies(source, file, line, part, [(it, it.bodies[at]) for it in edits if it.file == file and at in it.bodies])
                line += part.count("\n")
        source.texts[file] = "".join(parts)


def with_bodies(source, file, line, function, bodies):
    head, body = head_and_body(function)
    if not bodies:
        return function
    text = head
    for number, (edit, new) in enumerate(bodies):
        text += f"{'else ' if number else ''}if crate::is_tried({edit.number}) {{\n"
        source.own(file, line + text.count("\n"), new.count("\n") + 1, edit)
        text += f"{new}}} "
    return f"{text}else {{\n{body}}}\n{re.match(' *', function)[0]}}}\n"


def tried(crate, edits, rights, items, cases, below):
    """What a program says that runs the `holds` of each edit, of the functions as they are and of the edit, and of each right body:
    a word for each (edit, body), or why there is none. An edit that changes a struct has a program of its own."""
    words, faults = tried_together(crate, edits, rights, items, cases, below)
    for edit in [it for it in edits if it.whole and it not in faults]:
        more, why = tried_together(crate, [edit], [], items, cases, below, edit.whole)
        words.update({(edit, edit): word for word in more.values()})
        faults.update(why)
    return words, faults


def tried_together(crate, edits, rights, items, cases, below, whole=""):
    """The words of one program, and what couldn't be tried. With `whole`, that is the file of the one edit."""
    edits, rights, faults = [*edits], [*rights], {}
    for number, edit in enumerate([*edits, *rights], 1):
        edit.number = number
    while edits:
        with tempfile.TemporaryDirectory(prefix="wrong-bodies-") as room:
            source = Source(copy_of(crate, below, pathlib.Path(room)))
            source.texts.update({edits[0].file: whole} if whole else {})
            tests = write_program(source, edits, rights, items, cases)
            said = run("rt", "try", "--test", "--steps", "1", "--seconds", "20", folder=source.folder, RT_ALLOW_C="1")
        words = results(said)
        if words:
            return {key: words.get(module, "isn't tried") for module, key in tests.items()}, faults
        blamed = source.blamed(said)
        if not blamed:
            return {}, {**faults, **{edit: f"NOT TRIED: {said[-1500:]}" for edit in edits}}
        faults.update({edit: f"BAD EDIT: {why}" for edit, why in blamed.items()})
        edits = [edit for edit in edits if edit not in blamed]
        rights = [edit for edit in rights if edit not in blamed]
    return {}, faults


def root_of(source):
    return "src/lib.rt" if (source.folder / "src/lib.rt").exists() else "src/main.rt"


def write_program(source, edits, rights, items, cases):
    """Writes the program of `tried`. Gives what each module of a test tries."""
    root, switches = root_of(source), lambda it: not it.is_row and not it.whole
    switched(source, [it for it in [*edits, *rights] if switches(it)])
    source.add(root, SWITCH)
    (source.folder / "c").mkdir()
    (source.folder / "c" / "wrong_body.c").write_text(SWITCH_IN_C)
    add_items(source, items)
    tests = {}
    for edit in edits:
        returned = lambda parts: [f"return Some({' && '.join(f'({it})' for it in parts)});"]
        source.add(edit.file, edit.witness(returned, cases), edit)
        others = [it for it in rights if it.file == edit.file and it.function == edit.function]
        for number, body in [(0, None), *([(edit.number, edit)] if switches(edit) else []), *((it.number, it) for it in others)]:
            module = f"try_{number}_of_{edit.name}"
            call = cases[edit.case][1].replace("NAME", f"witness_{edit.name}")
            source.add(edit.file, TEST.format(module=module, number=number, call=call), edit)
            tests[module] = (edit, body)
    source.write()
    return tests


def results(said):
    """What each test said, by its module; nothing if none ran."""
    found = {}
    for module, verdict, words in re.findall(r"(?m)^test (?:\S*::)?(try_\d+_of_\w+)::it \.\.\. (\w+)\n((?:    .*\n)*)", said):
        last = words.strip().splitlines()[-1:] if verdict == "ok" else ["stops"]
        found[module] = (last or ["says nothing"])[0].strip()
    return found


def judge(crate, edits, rights, below, kept):
    """The verdict on each edit and right body of a crate: whether it passed, and why. Proofs that are kept aren't sought again."""
    items, cases = setup_of(ROOT, crate)
    for edit in edits:
        if edit.case not in cases:
            edit.told, edit.holds = "", []
    judged = [edit for edit in edits if edit.holds and not edit.open]
    verdicts = {edit: (None, f"open: {edit.open}") for edit in edits if edit.open}
    others = [edit for edit in edits if not edit.holds and not edit.open]
    verdicts.update({edit: (None, f"told: {edit.told}") if edit.told else (False, "BAD EDIT: no such case") for edit in others})
    words, faults = tried(crate, judged, rights, items, cases, below)
    verdicts.update({edit: (False, why) for edit, why in faults.items()})
    left = [edit for edit in judged if edit not in faults]
    sums = kept.sums_of_proofs(left)
    new = [edit for edit in left if edit not in kept.proved(sums)]
    lacks = unproved(crate, new, items, cases, below) if new else {}
    kept.keep_proofs(sums, [edit for edit in new if edit not in lacks])
    for edit in left:
        true, of_edit = words.get((edit, None)), words.get((edit, edit))
        if true != "holds":
            verdicts[edit] = (False, f"NOT TRUE of the function as it is, where it {true}")
        elif not edit.is_row and of_edit not in ("fails", "stops"):
            verdicts[edit] = (False, f"NOT WRONG: of the edit it {of_edit} too")
        elif edit in lacks:
            verdicts[edit] = (False, f"NOT PROVED: {lacks[edit]}")
        else:
            verdicts[edit] = (True, "a worked row" if edit.is_row else f"excluded: of the edit it {of_edit}")
    for right in rights:
        tried_by = {edit: word for (edit, body), word in words.items() if body is right and verdicts[edit][0]}
        wrong = [str(edit) for edit, word in tried_by.items() if word != "holds"]
        verdict = (not wrong, f"A RIGHT BODY IS JUDGED WRONG by {', '.join(wrong)}" if wrong else "a right body")
        verdicts.setdefault(right, verdict if tried_by else (None, "open: no wrong body of its function is excluded"))
    return verdicts


def wanted_of(names, below):
    """The edits and right bodies to judge, by crate, and what shows nothing."""
    found, bad = {}, []
    for crate in below:
        edits, faults = read_edits(ROOT, crate)
        rights, more = read_edits(ROOT, crate, RightBody)
        is_wanted = lambda it: not names or crate in names or str(it) in names
        bad += [(it, why) for it, why in faults + more if is_wanted(it)]
        if edits := [it for it in edits if is_wanted(it)]:
            found[crate] = (edits, rights if not names or crate in names else [])
    return found, bad


def build(crates, below):
    """Builds libraries, lowest first, unless they are there. An error shows where one is needed."""
    for crate in crates:
        if not is_up_to_date(ROOT, crate, below[crate]):
            run("rt", "lib", folder=ROOT / "crates" / crate)


def at_once():
    memory = os.sysconf("SC_PHYS_PAGES") * os.sysconf("SC_PAGE_SIZE")
    return max(min(len(os.sched_getaffinity(0)), memory // MEMORY_OF_A_CHECK), 1)


def main(words):
    options = argparse.ArgumentParser(description=__doc__, formatter_class=argparse.RawDescriptionHelpFormatter)
    options.add_argument("--reasons", action="store_true")
    options.add_argument("--from-nothing", action="store_true")
    options.add_argument("wanted", nargs="*", metavar="CRATE[/NAME]")
    given = options.parse_args(words)
    below = libraries_below()
    kept = Kept(ROOT, below, not given.from_nothing)
    found, bad = wanted_of(given.wanted, below)
    build(dict.fromkeys(low for crate in found for low in below[crate]), below)
    verdicts = [(it, (False, why)) for it, why in bad]
    show(verdicts, given.reasons)
    with ThreadPoolExecutor(at_once()) as pool:
        is_whole = lambda crate: not given.wanted or crate in given.wanted
        judged = lambda crate: kept.or_made(crate, found[crate], lambda *those: judge(crate, *those, below[crate], kept), is_whole(crate))
        for result in pool.map(judged, found):
            show(result.items(), given.reasons)
            verdicts += result.items()
    count = lambda which: sum(is_passed is which for _, (is_passed, _) in verdicts)
    told = sum(why.startswith("told: ") for _, (_, why) in verdicts)
    print(f"{count(None) - told} are open, {told} told\n{count(True)} passed, {count(False)} failed")
    return 1 if count(False) or not count(True) else 0


def show(verdicts, all_of_them):
    """Prints verdicts: those of what failed or has no EXPR, or all."""
    for it, (is_passed, why) in verdicts:
        if all_of_them or not is_passed or why.startswith("told: "):
            print(f"{it}: {why}", flush=True)


if __name__ == "__main__":
    sys.exit(main(sys.argv[1:]))
