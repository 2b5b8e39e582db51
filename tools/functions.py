"""Source files cut into their functions: what the tools read of them."""
import pathlib
import re

HEAD = r"(?:pub(?:\(\w+\))? )?(?:const )?fn (?=\w)"
# A method of a trait that has no body: no line of it ends in an opening brace, and the last ends in a semicolon.
NO_BODY = r"(?:[^\n]*[^{\n]\n)*?[^\n]*;\n"
FUNCTION = re.compile(rf"(?ms)^( *){HEAD}(?!{NO_BODY}).*?^\1\}}\n")


def pieces(text):
    """A source file cut into what stands between functions (at even indexes) and functions (at odd ones)."""
    cuts = [0, *(cut for found in FUNCTION.finditer(text) for cut in found.span()), len(text)]
    return [text[start:end] for start, end in zip(cuts, cuts[1:])]


def names_in(piece):
    return re.findall(rf"(?m)^ *{HEAD}(\w+)", piece)


def module_of(file):
    """The module of a source file, as a list of names; empty for the root of its crate."""
    return [part for part in pathlib.PurePath(file).with_suffix("").parts[1:] if part not in ("lib", "main")]
