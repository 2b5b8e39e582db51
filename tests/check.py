#!/usr/bin/env python3
"""Tests `hole check` on sites without a fault, and on sites with each fault that settings or a folder can have.

It compares the report with docs/SPECIFICATION.md, appendix A, and the exit status and the line on standard error with those of
`hole serve`. Folders also have what is neither a regular file nor a folder, files of the kernel, and names that vanish while they
are read (preloads/vanishing.c).

    tests/check.py [PROGRAM]

If root runs it, the program checks unreadable files as `nobody`. The last line is 'check: N passed, M failed'.
"""
import os
import re
import shutil
import socket

from running.server import ROOT, free_port, run_test

NOBODY = 65_534
COUNTED = ("files", "menu files", "bytes")
LARGEST, MOST_BYTES, MOST_NODES, MOST_SETTINGS = 16_777_216, 67_108_864, 4_096, 1_048_576


def causes():
    """The causes and remedies of each fault, by its number, as the manual has them."""
    text = (ROOT / "man/hole.1").read_text().replace("\\&", "").replace("\\-", "-")
    entries = re.findall(r"(?ms)^\.TP\n\.BI? (\d+)[^\n]*\n(.*?)(?=^\.(?:TP|SH))", text)
    rows = {int(number): " ".join(told.split()).split(" .br ") for number, told in entries}
    return {number: [tuple(row.split(". ")[0].removesuffix(".").split(": ", 1)) for row in told] for number, told in rows.items()}


CAUSES = causes()
BAD_NAME, = CAUSES[20]
RESERVED, = CAUSES[21]
LONG, = CAUSES[22]
LARGE_FILE, LARGE_SITE, MANY = CAUSES[23]
BAD_LINE, = CAUSES[24]
NOT_UTF8, DENIED, MISSING, NOT_FOLDER, LOOP, _ = CAUSES[26]
NOT_TOML, TWICE = CAUSES[30]
NO_KEY, = CAUSES[31]
WRONG_KIND, = CAUSES[32]
(OUT_OF_RANGE, _), = CAUSES[33]
UNKNOWN, = CAUSES[34]
OUTSIDE, = CAUSES[50]
NO_FILE, SHUT, FOLDER, CIRCLE, LARGE_SETTINGS, NO_TEXT, _ = CAUSES[80]
# Lines that other tests compare: of addresses, of what a search finds, and warnings but the three that stand here.
ELSEWHERE = re.compile(rb"resolves to|search reaches|not linked|not allowed|warning: (?!line \d+ of .* leads nowhere|not served|searches find)")
HINT = b"hint: ~ isn't expanded in root; write the whole path\n"
WHOLE = "whole site: files {}, folders {}, bytes {}\n"
LEFT = "warning: not served: empty folders {}, links to nothing and devices {}, hidden names {}"
NO_SEEDS = "warning: searches find nothing, because the settings have no [[seeds]]"

# The settings of a site without a fault, and their report.
WORKED = """host = "localhost"
port = 7070
root = "ROOT"
[[seeds]]
host = "localhost"
port = 7070
[[allow]]
host = "LOCALHOST"
port = 7070
[[deny]]
host = "localhost"
port = 7070
prefix = "/private"
"""
WORKED_REPORT = [
    "address: localhost 7070", "root: ROOT", "files: 0", "menu files: 0", "bytes: 0", "seed: 1 localhost 7070 ",
    "may visit: localhost 7070 ", "may not visit: localhost 7070 /private", "sound",
]

# Each key, and what seeds and rules have if nothing is stated.
STATED = """host = "LocalHost"
root = "ROOT"
places = 65536
workers = 16
threads = 8
tries = 5
seeds = [{ host = "a" }, { host = "B", type = "0", port = 65535, selector = "/a\\\\b" }]
allow = [{ host = "A" }, { host = "b", port = 65535 }]
deny = [{ host = "a", prefix = "/private" }]
"""
STATED_FILES = {".menu": b"Welcome\n", "a/.menu": b"", "a/b.txt": b"12345", "a/.hidden": b"no"}
STATED_REPORT = [
    "address: LocalHost 70", "root: ROOT", "files: 3", "menu files: 2", "bytes: 13", "seed: 1 a 70 ", "seed: 0 b 65535 /a\\\\b",
    "may visit: a 70 ", "may visit: b 65535 ", "may not visit: a 70 /private", LEFT.format(0, 0, 1), "sound",
]


def report(line, path, words, *details):
    """The report of a fault, whose line on standard error has its number first."""
    lines = [f"fault: {line.split()[0]}", f"path: {path}", *details, f"cause: {words[0]}", f"remedy: {words[1]}"]
    return "".join(line + "\n" for line in lines).encode()


class Site:
    """A new folder with these files, and settings that name it."""

    def __init__(self, test, files={}, settings=None, user=None):
        self.test, self.root, self.user = test, test.site(files), user
        self.settings = self.root.with_suffix(".toml")
        self.write(settings or f'host = "127.0.0.1"\nport = {free_port()}\nroot = "ROOT"\n')

    def write(self, text):
        """Settings of this text, in which ROOT stands for the folder."""
        text = text if isinstance(text, bytes) else text.encode()
        self.settings.write_bytes(text.replace(b"ROOT", bytes(self.root)))

    def add(self, path, content=b""):
        place = os.path.join(os.fsencode(self.root), path)
        os.makedirs(os.path.dirname(place), exist_ok=True)
        with open(place, "wb") as file:
            file.write(content)

    def check(self, *words, before=()):
        """The report, standard error and status, without the addresses of the host (tests/listen.py) and what a search finds
        (tests/survey.py)."""
        output, error, status = self.test.run("check", self.settings, *words, before=before, user=self.user)
        return b"".join(line for line in output.splitlines(True) if not ELSEWHERE.match(line)), error, status

    def lines(self, *names, before=()):
        """The lines of the report that begin with these names, standard error and status."""
        output, error, status = self.check(before=before)
        return [line for line in output.decode().splitlines() if line.split(": ")[0] in names], error, status

    def serve(self):
        """The output, standard error and status of a server that ends before the first connection."""
        return self.test.run("serve", self.settings, "--requests", "0", user=self.user)


def put(path, content=b""):
    return lambda site: site.add(path, content)


def say(text):
    return lambda site: site.write(text)


def more(text):
    return lambda site: site.write(site.settings.read_text() + text)


def put_empty(*paths):
    return lambda site: [site.add(path) for path in paths]


def remove(site):
    site.settings.unlink()


def both(first, second):
    return lambda site: [first(site), second(site)]


def put_sparse(*sizes, front=""):
    """Sparse files of these sizes in bytes, by names that begin so."""
    def lay_out(site):
        for number, size in enumerate(sizes):
            name = f"{front}{number}.gif"
            site.add(name.encode())
            os.truncate(site.root / name, size)
    return lay_out


def put_hidden(site):
    """Hidden names, a menu file in a folder, and links: to nothing, to a device and to the menu file."""
    site.add(b".hidden")
    site.add(b".git/config")
    site.add(b"z/.menu", b"hello\n")
    for name, target in (("nowhere", "gone"), ("null", "/dev/null"), ("link", "z/.menu")):
        put_link(name, target)(site)


def put_folders(count):
    def lay_out(site):
        for number in range(count):
            (site.root / f"{number:04}").mkdir()
    return lay_out


def put_link(name, target):
    return lambda site: (site.root / name).symlink_to(target)


def put_closed(path, closed, mode=0, content=b""):
    """A file, of which it or its folder has a mode by which it can't be read."""
    return lambda site: [site.add(b"open.txt"), site.add(path, content), (site.root / closed).chmod(mode)]


# How to make each fault, its line on standard error, and its report. FILE is the path of the settings, ROOT that of the folder.
HEAD = 'host = "127.0.0.1"\n'
SEED = '[[seeds]]\nhost = "a"\n'
DENIED_SEED = SEED + SEED + 'selector = "/b"\n[[allow]]\nhost = "a"\n[[deny]]\nhost = "a"\nprefix = "/b"\n'
DEEP = b"a" * 127 + b"/" + b"b" * 127
MOST_FILES = [LARGEST] * (MOST_BYTES // LARGEST)
OVER = (LARGE_SITE, f"size: {MOST_BYTES + 7}")
WORKERS = (OUT_OF_RANGE, "use a number from 1 to 16")
PORTS = (OUT_OF_RANGE, "use a number from 1 to 65535")
AT_MOST = "use at most 256 tables, with {}a host, a port from 1 to 65535, and a {} of at most 255 bytes"
SEEDS, RULES = (OUT_OF_RANGE, AT_MOST.format("type 0 or 1, ", "selector")), (OUT_OF_RANGE, AT_MOST.format("", "prefix"))
# Each key but arrays in the order of their checks, a value out of range, and the remedy.
OUT = [
    ("host", '""', "give the name or the address of the server, without spaces or control characters"), ("port", 0, PORTS[1]),
    ("root", '""', "give the path of a folder"), ("places", 0, "use a number from 1 to 65536"), ("workers", 17, WORKERS[1]),
    ("threads", 9, "use a number from 1 to 8"), ("tries", 6, "use a number from 1 to 5"),
]
FAULTS = {
    "a name with a TAB": (put(b"docs/a\tb.txt"), "20 file 0", "ROOT/docs/a\\tb.txt", BAD_NAME),
    "a name with an LF": (put(b"z\n"), "20 file 0", "ROOT/z\\n", BAD_NAME),
    "a name with a CR": (put(b"a\r/z"), "20 file 0", "ROOT/a\\r/z", BAD_NAME),
    "a name with a TAB, a backslash and an ESC": (put(b"\t\\\x1b"), "20 file 0", "ROOT/\\t\\\\\\?", BAD_NAME),
    "a folder that is named .menu": (put(b".menu/a"), "20 file 0", "ROOT/.menu/a", BAD_NAME),
    "a file search in the root": (put(b"search"), "21 file 0", "ROOT/search", RESERVED),
    "a folder search in the root": (put(b"search/a"), "21 file 0", "ROOT/search/a", RESERVED),
    "a path of 255 bytes": (put(DEEP), "22 file 0", f"ROOT/{DEEP.decode()}", LONG),
    "a folder's path of 255 bytes": (put(DEEP + b"/.hidden"), "22 file 0", f"ROOT/{DEEP.decode()}", LONG),
    "a link to its own folder": (put_link("a", "."), "22 file 0", "ROOT/" + "/".join("a" * 128), LONG),
    "a file that is too large": (put_sparse(1, LARGEST + 1), "23 file 1", "ROOT/1.gif", LARGE_FILE, f"size: {LARGEST + 1}"),
    "a file that is much too large": (put_sparse(3 * LARGEST), "23 file 0", "ROOT/0.gif", LARGE_FILE, f"size: {3 * LARGEST}"),
    "files that are too large": (
        both(put_sparse(*MOST_FILES, 7, LARGEST), put_hidden), "23 file 4",
        report("23", "ROOT/4.gif", *OVER) + WHOLE.format(8, 2, MOST_BYTES + LARGEST + 19).encode(),
    ),
    "files that are too large, and a path that is too long": (
        both(put_sparse(*MOST_FILES, 7), put(b"5/" + b"a" * 253)), "23 file 4",
        report("23", "ROOT/4.gif", *OVER) + WHOLE.format(5, 2, MOST_BYTES + 7).replace("files", "at least files").encode(),
    ),
    "too many folders": (
        put_folders(MOST_NODES + 5), "23 file 0",
        report("23", f"ROOT/{MOST_NODES - 1:04}", MANY, f"size: {MOST_NODES + 1}") + WHOLE.format(0, MOST_NODES + 6, 0).encode(),
    ),
    "too many folders behind files of the most bytes": (
        both(put_sparse(*MOST_FILES, front="!"), put_folders(MOST_NODES - len(MOST_FILES))), f"23 file {len(MOST_FILES)}",
        report("23", f"ROOT/{MOST_NODES - len(MOST_FILES) - 1:04}", MANY, f"size: {MOST_NODES + 1}")
        + WHOLE.format(len(MOST_FILES), MOST_NODES - len(MOST_FILES) + 1, MOST_BYTES).encode(),
    ),
    "a bad line": (put(b"docs/.menu", b"text\n\n1a\tb\tc\n"), "24 file 0 line 3", "ROOT/docs/.menu", BAD_LINE, "line: 3"),
    "a port that is none": (put(b".menu", b"1a\tb\tc\t70000\n"), "24 file 0 line 1", "ROOT/.menu", BAD_LINE, "line: 1"),
    "the second of three files": (put_empty(b"a", b"b\t", b"c"), "20 file 1", "ROOT/b\\t", BAD_NAME),
    "the first of two faults": (both(put(b"b/.menu", b"\t\n"), put(b"a\t")), "20 file 0", "ROOT/a\\t", BAD_NAME),
    "the fourth, behind a menu file": (put_empty(b"a/.menu", b"a/x", b"a.txt", b"b\tc"), "20 file 3", "ROOT/b\\tc", BAD_NAME),
    "a folder before a file whose path comes before its files": (
        both(put(b"a/.menu", b"Welcome\n0x\ta\tb"), put(b"a.txt")), "24 file 0 line 2", "ROOT/a/.menu", BAD_LINE, "line: 2",
    ),
    "a name that isn't UTF-8": (put(b"docs/caf\xe9.txt"), "26", "ROOT/docs", NOT_UTF8),
    "a name that isn't UTF-8 among fifty": (
        put_empty(b"docs/caf\xe9.txt", *(b"docs/%02d" % number for number in range(50))), "26", "ROOT/docs", NOT_UTF8,
    ),
    "a hidden name that isn't UTF-8": (put(b".\xff"), "26", "ROOT/", NOT_UTF8),
    "a link to itself": (put_link("a", "a"), "26", "ROOT/a", LOOP),
    "a root that isn't there": (say(HEAD + 'root = "ROOT/x"\n'), "26", "ROOT/x/", MISSING),
    "a root with a tilde": (say(HEAD + 'root = "~/x"\n'), "26", report("26", "~/x/", MISSING) + HINT),
    "a root that is a file": (both(put(b"x"), say(HEAD + 'root = "ROOT/x"\n')), "26", "ROOT/x/", NOT_FOLDER),
    "no TOML": (say(HEAD + "\nroot = ROOT\n"), "30", "FILE", NOT_TOML, "line: 3"),
    "a key twice": (more("port = 71\n"), "30", "FILE", TWICE, "line: 4", "key: port"),
    "a table twice": (more('[[allow]]\nhost = "a"\n[allow]\n'), "30", "FILE", TWICE, "line: 6", "key: [allow]"),
    "no host": (say('root = "ROOT"\n'), "31 host", "FILE", NO_KEY, "key: host"),
    "no root": (say(HEAD), "31 root", "FILE", NO_KEY, "key: root"),
    "a seed without a host": (more('[[seeds]]\nselector = "/"\n'), "31 seeds", "FILE", NO_KEY, "key: seeds[0].host"),
    "a port that is a text": (say(HEAD + 'port = "70"\nroot = "ROOT"\n'), "32 port", "FILE", WRONG_KIND, "key: port"),
    "seeds that are a table": (more('[seeds]\nhost = "a"\n'), "32 seeds", "FILE", WRONG_KIND, "key: seeds"),
    "a third seed of no type": (
        more(SEED * 3 + 'type = "2"\nport = 0\n[[seeds]]\n'), "33 seeds", "FILE", SEEDS, "key: seeds[2].type",
    ),
    "a rule that isn't a table": (more('deny = [{ host = "a" }, 7]\n'), "32 deny", "FILE", WRONG_KIND, "key: deny[1]"),
    "too many rules, one without a host": (more('[[allow]]\n' * 257), "33 allow", "FILE", RULES, "key: allow"),
    "a port out of range": (say(HEAD + 'port = 65536\nroot = "ROOT"\n'), "33 port", "FILE", PORTS, "key: port"),
    "no workers": (more("workers = 0\n"), "33 workers", "FILE", WORKERS, "key: workers"),
    "each key out of range": (
        say("".join(f"{key} = {value}\n" for key, value, _ in OUT) + 'deny = [{ host = "" }]\n'), "33 host",
        b"".join(report("33", "FILE", (OUT_OF_RANGE, remedy), f"key: {key}") for key, _, remedy in OUT[:3])
        + report("33", "FILE", RULES, "key: deny[0].host")
        + b"".join(report("33", "FILE", (OUT_OF_RANGE, remedy), f"key: {key}") for key, _, remedy in OUT[3:]),
    ),
    "a key that isn't known": (more("prot = 70\n"), "34", "FILE", UNKNOWN, "key: prot"),
    "a key without a name": (more('"" = 1\n'), "34", "FILE", UNKNOWN),
    "two keys that aren't known, one with a TAB": (
        more('zebra = 1\n"a\\tb" = 2\n[[deny]]\nhosts = 1\n'), "34",
        report("34", "FILE", UNKNOWN, "key: a\\tb") + report("34", "FILE", UNKNOWN, "key: zebra")
        + report("34", "FILE", UNKNOWN, "key: deny", "unknown: hosts") + report("31", "FILE", NO_KEY, "key: deny[0].host"),
    ),
    "a key behind a seed": (more(SEED + "threads = 1\n"), "34", "FILE", UNKNOWN, "key: seeds", "unknown: threads"),
    "a key of a rule": (more('[[deny]]\nhost = "a"\nselector = "/"\n'), "34", "FILE", UNKNOWN, "key: deny", "unknown: selector"),
    "all faults of settings": (
        say('host = "h"\nworkers = 17\nthreads = 0\nsead = 1\n[[seeds]]\nselektor = "/"\n[[allow]]\nhost = "h"\nport = "70"\n'),
        "34",
        report("34", "FILE", UNKNOWN, "key: sead") + report("34", "FILE", UNKNOWN, "key: seeds", "unknown: selektor")
        + report("31", "FILE", NO_KEY, "key: root") + report("31", "FILE", NO_KEY, "key: seeds[0].host")
        + report("32", "FILE", WRONG_KIND, "key: allow[0].port") + report("33", "FILE", WORKERS, "key: workers")
        + report("33", "FILE", (OUT_OF_RANGE, "use a number from 1 to 8"), "key: threads"),
    ),
    "a seed that isn't allowed": (more(SEED), "50 seed 0", "FILE", OUTSIDE, "seed: 0"),
    "a second seed that is denied": (more(DENIED_SEED), "50 seed 1", "FILE", OUTSIDE, "seed: 1"),
    "a folder's fault before a seed's": (both(more(SEED), put(b"search")), "21 file 0", "ROOT/search", RESERVED),
    "settings that aren't UTF-8": (say(b"host = '\xff'\n"), "80", "FILE", NO_TEXT),
    "settings that are too large": (say("#" * (MOST_SETTINGS + 1)), "80", "FILE", LARGE_SETTINGS),
    "no settings": (remove, "80", "FILE", NO_FILE),
    "settings that are a folder": (both(remove, lambda site: site.settings.mkdir()), "80", "FILE", FOLDER),
    "settings that are a link to itself": (
        both(remove, lambda site: site.settings.symlink_to(site.settings.name)), "80", "FILE", CIRCLE,
    ),
}
# Settings, and the line of their fault.
SETTINGS = {
    "host =": "30",
    "port = 70": "31 host",
    "host = 1": "32 host",
    'host = "h"\nport = 0': "33 port",
    'host = "h"\nroot = "r"\nseeds = [{ port = 70 }]': "31 seeds",
    'host = "h"\nroot = "r"\nallow = [1]': "32 allow",
    "colour = 1": "34",
    "": "31 host",
    'host = ""\nroot = 1': "33 host",
    'host = "h"\nport = 70.0': "32 port",
    'host = "h"\nport = -1': "33 port",
    'host = "h"\nroot = ""': "33 root",
    'tries = 9\n[[deny]]\nhost = "h"\nselector = ""': "34",
}
# The same after lines with a host and a root.
MORE_SETTINGS = {
    'seeds = [{ host = "h" }, { host = "h", type = "2" }]': "33 seeds",
    'seeds = [{ host = 1, type = "2" }]': "33 seeds",
    'seeds = [{ host = "h", selector = "\\t" }]': "33 seeds",
    "allow = [{ host = 1, port = 0 }]": "32 allow",
    'deny = [{ host = "h", prefix = 7 }]\nplaces = 0': "32 deny",
    "places = 0": "33 places",
    "places = 65537": "33 places",
    "threads = 9\ntries = 0": "33 threads",
    "tries = 0": "33 tries",
    "tries = 6": "33 tries",
    '[[allow]]\nhost = "h"\n' * 257: "33 allow",
}
# Invalid and valid lines of a menu file.
BAD_LINES = [
    b"0x\ta\tb", b"0x\ta\tb\t70x", b"0x\ta\tb\t65536", b"0x\ta\tb\t", b"0x\ta\tb\t70\t+", b"0x\ta\tb c\t70", b"0x\ta\t\t70",
    b"x\0", b"x\r", b"0x\ta\0", b"0x\ra\tb", b".x\ta", b" x\ta", b"\ta", b"0x\t" + b"a" * 256,
]
GOOD_LINES = [b"0x\t" + b"a" * 255, b".", b".\r\n", b"\n", b"0x\ta\t b \t 70 ", b"0x\ta\tb\t0\n"]
CLOSED = {
    "a folder that may not be listed": (put_closed(b"shut/a", "shut"), "26", "ROOT/shut", DENIED),
    "a file that may not be read": (put_closed(b"shut.txt", "shut.txt", 0, b"a\n"), "26", "ROOT/shut.txt", DENIED),
    "settings that may not be read": (lambda site: site.settings.chmod(0), "80", "FILE", SHUT),
    "a folder that may not be entered": (put_closed(b"locked/a.txt", "locked", 0o444), "26", "ROOT/locked/a.txt", DENIED),
}


def check_faults(test, faults=FAULTS, user=None):
    """Checks sites with these faults."""
    for name, (lay_out, line, *words) in faults.items():
        site = Site(test, user=user)
        lay_out(site)
        wanted = report(line, *words) if len(words) > 1 else words[0]
        wanted = wanted.replace(b"ROOT", bytes(site.root)).replace(b"FILE", bytes(site.settings))
        test.expect(f"{name}: report", site.check(), (wanted, f"hole: {line}\n".encode(), 1))
        test.expect(f"{name}: end of a server", site.serve(), (b"", f"hole: {line}\n".encode(), 1))
        for shut in site.root.rglob("*"):
            if not shut.is_symlink():
                shut.chmod(0o755)


def check_lines(test):
    """Checks settings with a fault, and lines of menu files."""
    site = Site(test)
    behind = {f'host = "h"\nroot = "ROOT"\n{text}': line for text, line in MORE_SETTINGS.items()}
    for text, line in (SETTINGS | behind).items():
        site.write(text + "\n")
        test.expect(f"{text[:80]!r}: end of a server", site.serve(), (b"", f"hole: {line}\n".encode(), 1))
    most = "".join(f'[[{key}]]\nhost = "{host}"\n' * 256 for key, host in (("seeds", "h"), ("allow", "h"), ("deny", "other")))
    site.write('host = "localhost"\nroot = "ROOT"\n' + most)
    test.expect("256 seeds, and as many rules of both kinds", site.check()[1:], (b"", 0))
    for line in [*BAD_LINES, *GOOD_LINES]:
        site.add(b".menu", line)
        wanted = (b"hole: 24 file 0 line 1\n", 1) if line in BAD_LINES else (b"", 0)
        test.expect(f"{line[:20]} in a menu file", site.check()[1:], wanted)


def check_limits(test):
    """Checks folders at their limits, and with one file more."""
    site = Site(test, {"search/.hidden": b""})
    put_folders(MOST_NODES - 2)(site)
    test.expect("the most folders, one of them named search", site.check()[1:], (b"", 0))
    site.add(b"zz")
    test.expect("the most folders and a file", site.check()[1:], (b"hole: 23 file 0\n", 1))
    site = Site(test)
    put_folders(MOST_NODES - 1)(site)
    site.add(b"%04d/a" % (MOST_NODES - 2))
    test.expect("the most folders, and a file in the last", site.check()[1:], (b"hole: 23 file 0\n", 1))
    site = Site(test)
    put_folders(MOST_NODES - 2)(site)
    last = b"%04d/" % (MOST_NODES - 3)
    site.add(last + b"a")
    test.expect("the most folders less one, and a file in the last", site.check()[1:], (b"", 0))
    site.add(last + b"b")
    test.expect("the most folders less one, and two files in the last", site.check()[1:], (b"hole: 23 file 1\n", 1))
    site = Site(test, {f"folder/{number}": b"" for number in range(MOST_NODES - 2)})
    test.expect("the most files", site.check()[1:], (b"", 0))
    site.add(b"folder/last")
    test.expect("the most files and another", site.check()[1:], (b"hole: 23 file %d\n" % (MOST_NODES - 2), 1))
    (site.root / "folder/last").rename(site.root / "search")
    test.expect("the most files and one with a reserved name", site.check()[1:], (b"hole: 21 file %d\n" % (MOST_NODES - 2), 1))
    (site.root / "search").unlink()
    site.add(b"folder/.menu", b"x\ta\tb")
    site.write(HEAD + 'root = "ROOT/"\n')
    test.expect("a root that ends with a slash", site.check()[1:], (b"hole: 24 file 0 line 1\n", 1))
    site = Site(test)
    put_sparse(*MOST_FILES, 0)(site)
    test.expect("the most bytes, and an empty file", site.check()[1:], (b"", 0))
    site = Site(test)
    put_folders(40)(site)
    for name in ("a", "b"):
        put_link(name, f"../{site.root.name}")(site)
    test.expect("two links to a wide folder", site.check()[1:], (b"hole: 23 file 0\n", 1))


def check_sound(test):
    """Checks sites without a fault."""
    empty = ["address: LocalHost 70", "root: ROOT", "files: 0", "menu files: 0", "bytes: 0", NO_SEEDS, "sound"]
    for name, site_files, text, lines in (
        ("no", {}, 'host = "LocalHost"\nroot = "ROOT"\n', empty), ("worked", {}, WORKED, WORKED_REPORT),
        ("stated", STATED_FILES, STATED, STATED_REPORT),
    ):
        site = Site(test, site_files, text)
        wanted = [f"settings: {site.settings}", *(line.replace("ROOT", str(site.root)) for line in lines)]
        ended = ("".join(line + "\n" for line in wanted).encode(), b"", 0)
        test.expect(f"{name} settings", site.check(), ended)
        test.expect(f"{name} settings again", site.check(), ended)


# A menu file of a server `LocalHost` at port 7070: each line, and the selector of its warning, if it has one.
LINKS = [
    ("Welcome", None), ("0About\t/about.txt", None), ("0Gone\t/gone.txt", "/gone.txt"), ("1Notes\t/notes/", "/notes/"),
    ("1Notes\t/notes", None), ("1Top\t", None), ("1Top\t/", None), ("9Old\tabout.txt", "about.txt"),
    ("1Menu\t/notes/.menu", "/notes/.menu"), ("hWeb\tURL:http://a.example/", None), ("hPage\t/page.html", "/page.html"),
    ("0Gone\t/gone.txt\tlocalhost\t7070", "/gone.txt"), ("0Gone\t/gone.txt\tLOCALHOST\t7070", "/gone.txt"),
    ("0Far\t/gone.txt\tlocalhost\t70", None), ("0Far\t/gone.txt\tfar.example\t7070", None), ("8Session\t/gone", None),
    ("iText\t/gone", None), ("3Error\t/gone", None), ("ITab\t/a\\b.png", "/a\\\\b.png"), ("7Search\t/find", "/find"),
]


def check_warnings(test):
    """Checks the warnings of sites without a fault."""
    menu = "\n".join(line for line, _ in LINKS) + "\n"
    files = {"about.txt": b"", "notes/a.txt": b"", "notes/.menu": menu.encode(), ".menu": b"0A\t/a"}
    site = Site(test, files, 'host = "LocalHost"\nport = 7070\nroot = "ROOT"\n')
    dead = [f"warning: line 1 of {site.root}/.menu leads nowhere: /a"]
    dead += [
        f"warning: line {number} of {site.root}/notes/.menu leads nowhere: {selector}"
        for number, (_, selector) in enumerate(LINKS, 1) if selector
    ]
    test.expect("lines that lead nowhere, and no search", site.lines("warning"), (dead, b"", 0))
    site.add(b".menu")
    for line, wanted in {
        "7Find\t/search": [NO_SEEDS], "7Find\t/search\tLOCALHOST\t7070": [NO_SEEDS], "7Find\t/search\tlocalhost\t70": [],
        "0Find\t/search": [], "Welcome": [],
    }.items():
        site.add(b"notes/.menu", b"text\n" + line.encode())
        test.expect(f"{line}, and no seeds", site.lines("warning"), (wanted, b"", 0))
    more(SEED + '[[allow]]\nhost = "a"\n')(site)
    site.add(b".menu", b"7Find\t/search")
    test.expect("a search and a seed", site.lines("warning"), ([], b"", 0))
    for folder in ("empty", "outer/inner", ".hidden/a"):
        (site.root / folder).mkdir(parents=True)
    for name, target in (("gone", "nowhere"), ("null", "/dev/null"), ("through", "about.txt/a")):
        put_link(name, target)(site)
    site.add(b"notes/.gitignore")
    test.expect("what isn't served", site.lines("warning"), ([LEFT.format(3, 3, 2)], b"", 0))


def check_left_out(test):
    """What `--leave-out` leaves out has a line each and counts as a warning. Nothing is left out if a menu file
    would be."""
    site = Site(test, {"a.txt": b"a\n"})
    site.add(b"b\tc")
    site.add(b"z/d\re")
    left = f"left out: 20 {site.root}/b\\tc\nleft out: 20 {site.root}/z/d\\re\n".encode()
    output, *ended = site.check("--leave-out")
    test.expect("two files that are left out", (left in output, *ended), (True, b"", 0))
    test.expect("the same, and --strict", site.check("--leave-out", "--strict")[1:], (b"hole: 83\n", 1))
    site.add(b"z/.menu")
    os.truncate(site.root / "z/.menu", LARGEST + 1)
    test.expect("a menu file that is too large, and --leave-out", site.check("--leave-out"), site.check())


def check_output(test):
    """Checks a sound site and a fault with an output that can't be written."""
    for files, line in ({}, b"hole: 13\n"), ({"search": b""}, b"hole: 21 file 0\n"):
        with open("/dev/full", "wb") as full:
            ended = test.run("check", Site(test, files).settings, stdout=full)
        test.expect(f"a full output with {line}", ended[1:], (line, 1))


def check_closed(test):
    """Checks unreadable files and folders; if root runs this, with a copy of the program that runs as `nobody`."""
    if os.geteuid():
        return check_faults(test, CLOSED)
    program, test.program = test.program, shutil.copy(test.program, test.folder)
    os.chmod(test.program, 0o755)
    check_faults(test, CLOSED, NOBODY)
    test.program = program


def counts(files, size):
    """What a sound site with so many files and bytes counts, standard error and status."""
    return [f"files: {files}", "menu files: 0", f"bytes: {size}"], b"", 0


def check_neither(test):
    """What is neither a regular file nor a folder is left out, and isn't opened."""
    site = Site(test, {"a.txt": b"hello\n"})
    os.mkfifo(site.root / "pipe")
    for name, target in (("to-pipe", "pipe"), ("zero", "/dev/zero"), ("terminal", "/dev/tty")):
        put_link(name, target)(site)
    with socket.socket(socket.AF_UNIX) as listener:
        listener.bind(str(site.root / "socket"))
        test.expect("pipes, devices and a socket", site.lines(*COUNTED), counts(1, 6))


def check_kernel(test):
    """A file of the kernel that says that it has no bytes is served as it says, and its reader doesn't wait."""
    for path in ("/proc/version", "/proc/kmsg"):
        if os.access(path, os.R_OK):
            site = Site(test, {"a.txt": b"hello\n"})
            put_link("linked", path)(site)
            test.expect(f"a link to {path}", site.lines(*COUNTED), counts(2, 6))
        else:
            print(f"check: skipped: {path} can't be read here")


def check_vanishing(test):
    """A file or a folder that vanishes between its listing and its opening is left out, and so is what turns into a folder."""
    gone = ["b/vanishing.txt", "b/turning.txt", "vanishing/c.txt"]
    site = Site(test, {"a.txt": b"hello\n", "b/z.txt": b"last\n", **{path: b"gone\n" for path in gone}})
    found = site.lines(*COUNTED, before=test.preload("vanishing"))
    test.expect("a file, a folder and a file that turns into a folder", found, counts(2, 11))
    moved = [(site.root / name).exists() for name in ("b/.vanishing.txt", "b/.turning.txt", ".vanishing")]
    test.expect("what was to vanish did", moved, [True] * 3)


CHECKS = (
    check_sound, check_warnings, check_faults, check_lines, check_limits, check_left_out, check_closed, check_output, check_neither,
    check_kernel, check_vanishing,
)

if __name__ == "__main__":
    run_test("check", __doc__, *CHECKS)
