#!/usr/bin/env python3
"""Prints what has to be read to believe a promise of docs/PROMISES.md: the clauses of its contracts, and every definition
that they reach.

    tools/audit.py                  lists the promises, with the lines to read for each
    tools/audit.py PROMISE ..       prints the text of these promises, by number or name, each definition once
    tools/audit.py --crate CRATE    prints the contract of each public function of a crate

The text holds no proof, no body, no import, no attribute and no private field. Each definition follows the contract or definition
that first names it. Types of the program appear as contracts see them: the value of their model, or their public fields. Words of the
standard library and of mathlib are only listed. Each line that is printed counts unless it is empty.
"""
import pathlib
import re
import sys
import textwrap
from dataclasses import dataclass

ROOT = pathlib.Path(__file__).resolve().parent.parent
CRATES = {path.parent.name for path in ROOT.glob("crates/*/src")}
WORD = re.compile(r"(?<![\w.'])[^\W\d][\w'-]*")
HEAD = r"(?:(?:abbrev|unfoldable)(?: pub)?|(?:pub )?(?:record|data)) ([^\s:({]+)"
DEFINITION = re.compile(rf"(?ms)^(?:(?:  )?--(?! ----)[^\n]*\n)*^(?:  )?{HEAD}.*?(?=^\n|^(?:  )?--|^use |^module |\Z)")
MODULE, INSIDE = re.compile(r"(?m)^module .*"), re.compile(rf"(?m)^  {HEAD}")
USE = re.compile(r"use (Rattle|mathlib)\.([\w.]+?)(?:\.\{([^}]*)\}| as (\w+))")
RUST_USE = re.compile(r"(?m)^use ((?:\w+::)+)(\{[^}]*\}|\w+)")
TYPE = re.compile(r"(?ms)^(?:pub(?:\(crate\))? )?(struct|enum|trait) (\w+)[^\n]*?(?:;$|\{\}$|\{$.*?^\}|$.*?^\})")
CONSTANT = re.compile(r"(?m)^(?:pub(?:\(crate\))? )?const (\w+): [^=;\n]+ = [^;\n]+;$")
# a public function with its comment, up to its body, and the type of an impl
PUBLIC = re.compile(r"(?ms)^( *)((?:/// [^\n]*\n|\1///[^\n]*\n)+)(?:\1#\[[^\n]*\n)*\1(pub fn .*?)(?=^\1\{| \{$)")
IMPL = re.compile(r"(?m)^impl(?:<[^{]*?>)? (?:[^{]*? for )?(\w+)[^{]*\{$")
# how docs/PROMISES.md names the contracts of a promise, and one of them: its name, its crate, and the clauses that count
PROMISE = re.compile(r"(?m)^Contracts \(`make audit PROMISE=([\w-]+)`\): (.*)$")
CONTRACT = re.compile(r"\[`([^`]+)`\]\(\.\./crates/(\w+)/[^)]*\)(?: \(([^)]*)\))?")


@dataclass(eq=False)
class Item:
    """A definition or a contract: where it is, its text, and what words mean in it: a crate and a name there, a text for a word
    of the kit, or None for a name that it binds itself."""

    crate: str
    file: str
    name: str
    text: str
    scope: dict

    def lines(self):
        """The lines that are to be read."""
        return [line for line in self.text.splitlines() if line.strip()]

    def words(self):
        """The words of its definition, without those of comments."""
        return WORD.findall("\n".join(line for line in self.lines() if not line.strip().startswith(("--", "//"))))


def uses(text):
    """What the imports of a file say of each word. A variant stands for its type, and so does the record of a type's fields."""
    own = [(path.split("::")[0], names) for path, names in RUST_USE.findall(text) if path.split("::")[0] in {"crate", *CRATES}]
    found = {word: (crate, word) for crate, names in own for word in re.findall(r"\w+", names)}
    for top, path, names, alias in USE.findall(text):
        crate, *_, last = path.split(".")
        owner = path.split(".")[-2] if last in ("TheVariants", "TheInside") else None
        if alias:
            found[alias] = (crate, owner or last) if crate in CRATES else f"{path}.{alias}"
        for name in filter(None, (part.strip() for part in names.split(","))):
            old, _, new = (part.strip() for part in name.partition(" as "))
            found[new or old] = (crate, owner or old) if crate in CRATES else f"{'' if top == 'Rattle' else 'mathlib.'}{path}.{old}"
    return found


def definitions(path):
    """The definitions of a file of specs/, each below the head of the module that it stands in, whose parameters it has."""
    text, file = path.read_text(), path.relative_to(ROOT / "crates")
    head = lambda found: MODULE.findall(text[:found.start()])[-1:] if INSIDE.search(found[0]) else []
    shown = lambda found: "\n".join([*head(found), found[0].strip("\n")])
    return [Item(file.parts[0], str(file), found[1], shown(found), uses(text)) for found in DEFINITION.finditer(text)]


def types(path):
    """The types, traits and constants of a source file, as contracts see them."""
    text, file = path.read_text(), path.relative_to(ROOT / "crates")
    for found in TYPE.finditer(text):
        model = re.search(rf"(?ms)^impl(?:<[^{{]*?>)? Model for {found[2]}\b.*?^}}", text)
        shown, inner = found[0], found[0] if found[1] == "trait" else ""
        if model:
            kept = re.findall(r"(?ms)^    ghost Value = .*?\};$", model[0])
            shown, inner = f"type {found[2]}, as contracts see it\n" + "\n".join(kept), model[0]
        is_private = lambda line: found[1] == "struct" and re.match(r"    (?:pub\(crate\) )?\w+: ", line)
        hidden = lambda line: "ghost use" in line or line.strip().startswith("#[") or is_private(line)
        shown = "\n".join(line for line in shown.splitlines() if line.strip() and not hidden(line))
        bound = dict.fromkeys(re.findall(r"(?m)^    (?:pub )?(\w+)(?::|,$|\()", shown))
        yield Item(file.parts[0], str(file), found[2], shown, uses(text) | uses(inner) | bound)
    for found in CONSTANT.finditer(text):
        yield Item(file.parts[0], str(file), found[1], found[0], uses(text))


class Tree:
    """All definitions and types of the repository, by their names, and the contracts of docs/PROMISES.md."""

    def __init__(self):
        self.items, self.handed_on = {}, {}
        for path in sorted(ROOT.glob("crates/*/specs/*.antt")):
            crate = path.parts[-3]
            for item in definitions(path):
                cases = re.findall(r"(?m)^\s+([\w']+) :", item.text) if re.search(r"(?m)^(?:pub )?data ", item.text) else ()
                for name in (item.name, *cases):
                    self.items.setdefault((crate, name), item)
            handed_on = uses("\n".join(re.findall(r"(?m)^pub use .*", path.read_text())))
            self.handed_on |= {(crate, name): to for name, to in handed_on.items() if to[0] in CRATES and to != (crate, name)}
        for path in sorted(ROOT.glob("crates/*/src/**/*.rt")):
            for item in types(path):
                self.items.setdefault((item.crate, item.name), item)
        page = (ROOT / "docs/PROMISES.md").read_text()
        self.promises = {name: [contract(*one) for one in CONTRACT.findall(named)] for name, named in PROMISE.findall(page)}

    def item(self, crate, name):
        """What a name stands for in a crate: its own item, or else one that another crate lends it."""
        if (crate, name) in self.handed_on:
            return self.item(*self.handed_on[crate, name])
        lent = [item for (home, other), item in self.items.items() if other == name and home.startswith("gopher_")]
        return self.items.get((crate, name)) or (lent[0] if len(lent) == 1 else None)

    def meaning(self, item, word):
        """What a word of an item stands for: a definition, a text for a word of the kit, or None."""
        if word not in item.scope:
            own = self.items.get((item.crate, word))
            return own if own and own.file == item.file else None
        found = item.scope[word]
        return self.item(item.crate if found[0] == "crate" else found[0], found[1]) if isinstance(found, tuple) else found

    def reached(self, roots):
        """What contracts reach, each definition after the one that first names it; and the kit's words among them."""
        order, kit = [], set()

        def visit(item):
            if item in order:
                return
            order.append(item)
            for word in [*WORD.findall(item.name), *item.words()]:  # the name of a method has its receiver's type
                meaning = self.meaning(item, word)
                if isinstance(meaning, str):
                    kit.add(meaning)
                elif meaning:
                    visit(meaning)

        for root in roots:
            visit(root)
        return order, kit

    def text(self, names):
        """The text of some promises, and how many lines it has to read."""
        order, kit = self.reached([root for name in names for root in self.promises[name]])
        parts, total = [], sum(len(item.lines()) for item in order)
        for before, item in zip([None, *order], order):
            parts += [item.text] if before and before.file == item.file else [f"==== {item.file}", item.text]
        parts += [f"==== Words of the standard library and of mathlib: {len(kit)}", ", ".join(sorted(kit))]
        return "\n\n".join([*parts, f"==== {total} lines to read, {len(order)} contracts and definitions"]), total


def contract(path, crate, wanted):
    """A contract by its path in a crate: `name`, `Type::name`, `module::name`, or `Type: Trait` for the ghost members of an
    `impl`. If clauses are wanted, only these."""
    owner, _, name = path.replace(": ", "::").rpartition("::")
    for file in sorted((ROOT / "crates" / crate / "src").glob("**/*.rt")):
        text = file.read_text()
        if ": " in path:
            found = re.search(rf"(?ms)^impl[^\n]*\b{name}\b[^\n]* for {owner}\b[^\n]*\{{$(.*?)^\}}", text)
            shown = found and "\n".join([found[0].splitlines()[0], *re.findall(r"(?m)^    ghost \w+ = \{.*?\};$", found[1])])
        elif owner in ("", file.stem) or re.search(rf"(?m)^impl\b.*\b{owner}\b", text):
            found = re.search(rf"(?ms)^ *pub fn {name}\b.*?(?=^ *\{{)", text)
            head, *clauses = re.split(r"(?m)^(?=\s+(?:requires|ensures)\b)", found[0]) if found else ["", ""]
            shown = found and head + "".join(one for one in clauses if not wanted or f"`{one.split()[1]}`" in wanted)
        else:
            continue
        if found:
            shown = f"// {path}\n{textwrap.dedent(shown).rstrip()}"
            return Item(crate, str(file.relative_to(ROOT / "crates")), path, shown, uses(text) | uses(found[0]))
    raise SystemExit(f"There is no contract {path} in {crate}.")


def contracts_of(crate):
    """The signature and the clauses of each public function of a crate, with the first paragraph of its comment and the type of a
    method, by files."""
    folder = ROOT / "crates" / crate / "src"
    for file in sorted(folder.glob("**/*.rt")):
        text, parts = file.read_text(), []
        for found in PUBLIC.finditer(text):
            indent, comment, head = found.groups()
            paragraph = re.split(r"(?m)^ *///\n", comment)[0]
            heads = IMPL.findall(text[: found.start()])
            path = [f"// {heads[-1]}::{head.split('(')[0].split('<')[0].split()[-1]}"] if indent else []
            shown = [*path, textwrap.dedent(paragraph).rstrip(), head.rstrip().replace(f"\n{indent}", "\n")]
            parts.append("\n".join(shown))
        if parts:
            yield "\n\n".join([f"==== {crate}/src/{file.relative_to(folder)}", *parts])


def main(words):
    if words[:1] == ["--crate"] and len(words) == 2:
        return print("\n\n".join(contracts_of(words[1])))
    tree = Tree()
    names = list(tree.promises)
    numbers = {str(number): name for number, name in enumerate(names, 1)}
    asked = [numbers.get(word, word) for word in words]
    if {*asked} - {*names}:
        raise SystemExit(f"The promises are {', '.join(names)}.")
    if asked:
        return print(tree.text(asked)[0])
    for number, name in numbers.items():
        print(f"{number} {name} {tree.text([name])[1]} lines")


if __name__ == "__main__":
    main(sys.argv[1:])
