#!/usr/bin/env python3
"""Looks after the links, pictures and paths that the documents at the top and in docs/ name.

    tools/check_links.py [ROOT]

Every relative link leads to a file or a folder, and its anchor to a heading there. Every picture exists. So does every path
in backquotes that begins with docs/, tests/, tools/, crates/ or examples/: `*` stands for any name, and so do CRATE and NAME.
What a build leaves, below a folder out/, isn't looked for. Links are written `[text](target)`. The last line is
'links: N passed, M failed'; the status is 1 if any failed.
"""
import pathlib
import re
import sys
import urllib.parse

ROOT = pathlib.Path(__file__).resolve().parent.parent
CODE = re.compile(r"(?ms)^ *```.*?^ *```$|(?:\A|(?<=\n\n))(?: {4,}[^\n]*\n?|\n(?= {4}))+")
SPAN = re.compile(r"`([^`\n]+)`")
LINK = re.compile(r"!?\[(?:[^\[\]]|\[[^\[\]]*\])*\]\(([^()\s]+)\)")
OTHER_LINK = re.compile(r"(?m)^ {0,3}\[[^\]]+\]:.*$|<(?:a|img) [^>]*>")
HEADING = re.compile(r"(?m)^#+ +(.+)$")
NAMED = re.compile(r"(?:docs|tests|tools|crates|examples)/\S*")


def anchors(text):
    """What leads to the headings of a document: lower case, words joined by hyphens, a repeated one numbered."""
    found = []
    for heading in HEADING.findall(CODE.sub("\n", text)):
        shown = re.sub(r"\[([^\]]*)\]\([^)]*\)", r"\1", heading)
        slug = re.sub(r"[^\w\- ]", "", shown.lower()).replace(" ", "-")
        found.append(slug)
        found.append(f"{slug}-{found.count(slug) - 1}")
    return found


def fault_of_link(document, target):
    """Why a link of the document leads nowhere, if it does."""
    if re.match(r"[a-zA-Z][a-zA-Z0-9+.-]*:", target):
        return None
    path, _, anchor = target.partition("#")
    file = document.parent / urllib.parse.unquote(path) if path else document
    if not file.exists():
        return f"{target} leads to no file"
    if anchor and (file.suffix != ".md" or anchor not in anchors(file.read_text())):
        return f"{target} leads to no heading"
    return None


def fault_of_path(root, path):
    """Why a named path is nowhere, if it is."""
    pattern = re.sub(r"\b(?:CRATE|NAME)\b", "*", path.partition("#")[0].rstrip("/.,:;)"))
    return None if "/out/" in f"{path}/" or any(root.glob(pattern)) else f"`{path}` isn't there"


def faults_of(root, document):
    """What is wrong with each link and each path of a document, or None."""
    prose = CODE.sub("\n", document.read_text())
    words = SPAN.sub("", prose)
    paths = [found[0] for found in map(NAMED.match, SPAN.findall(prose)) if found]
    faults = [fault_of_link(document, target) for target in LINK.findall(words)]
    faults += [f"{link} isn't written [text](target)" for link in OTHER_LINK.findall(words)]
    return faults + [fault_of_path(root, path) for path in paths]


def main(words):
    root = pathlib.Path(words[0]) if words else ROOT
    passed, failed = 0, 0
    for document in [*sorted(root.glob("*.md")), *sorted((root / "docs").rglob("*.md"))]:
        faults = faults_of(root, document)
        for fault in filter(None, faults):
            print(f"links: {document.relative_to(root)}: {fault}")
        passed, failed = passed + faults.count(None), failed + len(faults) - faults.count(None)
    print(f"links: {passed} passed, {failed} failed")
    return 1 if failed else 0


if __name__ == "__main__":
    sys.exit(main(sys.argv[1:]))
