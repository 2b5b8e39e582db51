#!/usr/bin/env python3
"""Has `hole check` survey sites with planted mistakes, and compares what it tells of searches, and its warnings, line for line with
what was planted.

    tests/survey.py [PROGRAM]

The last line is 'survey: N passed, M failed'.
"""
import os
import re
import time

from check import Site, more
from running.server import HOST, ROOT, free_port, run_test

TOLD = ("search reaches", "not linked", "beyond places", "not allowed", "too long to search", "found twice", "left out", "warning")
MOST_REPLY, MOST_SHOWN = 1_048_576, 20
WARNED = (b"hole: 83\n", 1)
SEED = '[[seeds]]\nhost = "{host}"\nport = {port}\n[[allow]]\nhost = "{host}"\nport = {port}\n'
DENY = '[[deny]]\nhost = "{host}"\nport = {port}\nprefix = "{prefix}"\n'


def planted(test, files, text=SEED, host=HOST):
    """A site with these files, whose settings end with this text."""
    port = free_port()
    head = f'host = "{host}"\nport = {port}\nroot = "ROOT"\n'
    return Site(test, files, head + text.format(host=host, port=port, prefix="/private/"))


def told(test, site, *words):
    """What a check tells of searches and warns of, standard error and status."""
    output, error, status = test.run("check", site.settings, *words)
    lines = [line.replace(str(site.root), "ROOT") for line in output.decode().splitlines() if line.startswith(TOLD)]
    return lines, error, status


def expect_told(test, what, site, lines, *words, ended=(b"", 0)):
    test.expect(what, told(test, site, *words), (lines, *ended))


def check_example(test):
    """The example's site is found but for the text that its rules exclude."""
    settings = test.folder / "example.toml"
    text = (ROOT / "examples/hole.toml").read_text()
    settings.write_text(re.sub(r'(?m)^root = .*$', f'root = "{ROOT}/examples/site"', text))
    output, error, status = test.run("check", settings, "--strict")
    lines = [line for line in output.decode().splitlines() if line.startswith(TOLD)]
    texts = sum(path.suffix == ".txt" for path in (ROOT / "examples/site").rglob("*"))
    wanted = [f"search reaches {texts - 1} of {texts} texts", "not allowed: /searching.txt"]
    test.expect("the example", (lines, error, status), (wanted, b"", 0))


def check_reach(test):
    """Texts that are found, not linked, not allowed, too long, and beyond the limit of places; the root under two selectors."""
    files = {
        ".menu": b"Welcome\n1Notes\t/notes\n0About\t/about.txt\n1Home\t/\n0Long\t/long.txt\n7Find\t/search\n",
        "about.txt": b"about\n", "long.txt": b"x" * MOST_REPLY, "picture.gif": b"GIF89a\0",
        "notes/.menu": b"0First\t/notes/1.txt\n0Hidden\t/private/a.txt\nhWeb\tURL:http://a.example/\n0Far\t/b.txt\tfar.example\t70\n",
        "notes/1.txt": b"one\n", "notes/2.txt": b"two\n", "drafts/a.txt": b"a\n", "drafts/b.txt": b"b\n", "private/a.txt": b"p\n",
    }
    site = planted(test, files, SEED + DENY)
    rest = ["not allowed: /private/a.txt", "too long to search: /long.txt"]
    twice = 'found twice: the root, as "" and "/": let menus link to it with an empty selector'
    short = ["search reaches 2 of 7 texts", "not linked: /drafts/a.txt (and 2 more: --all)", *rest, twice]
    expect_told(test, "what a search reaches", site, short)
    lost = [f"not linked: /{path}" for path in ("drafts/a.txt", "drafts/b.txt", "notes/2.txt")]
    expect_told(test, "with --all", site, ["search reaches 2 of 7 texts", *lost, *rest, twice], "--all")
    expect_told(test, "with --strict", site, short, "--strict", ended=WARNED)
    # the root, /notes and /about.txt are known before the others
    site.write(site.settings.read_text().replace("[[seeds]]", "places = 3\n[[seeds]]", 1))
    beyond = ["not linked: /drafts/a.txt (and 2 more: --all)", "beyond places: /long.txt (and 1 more: --all)"]
    expect_told(test, "with three places", site, ["search reaches 1 of 7 texts", *beyond, "not allowed: /private/a.txt"])
    files = {".menu": b"0About\t/about.txt\n1Private\t/private\n7Find\t/search\n", "about.txt": b"about\n", "private/a.txt": b"p\n"}
    site = planted(test, files, SEED + DENY.replace("{prefix}", "/private"))
    excluded = ["search reaches 1 of 2 texts", "not allowed: /private/a.txt"]
    expect_told(test, "texts that the rules exclude are no warning", site, excluded, "--strict")
    site.add(b"0About\t/about.txt")
    site = planted(test, {"a.txt": b"a\n", "b/c.txt": b"c\n"})
    expect_told(test, "a site of listings", site, ["search reaches 2 of 2 texts"], "--strict")
    expect_told(test, "a site without seeds", planted(test, {".menu": b"0A\t/a.txt\n", "a.txt": b"a\n"}, ""), [])


def check_menus(test):
    """Mistakes in menu files."""
    files = {
        ".menu": b"0Blanks    /a.txt\n0One blank /a.txt\nText  /a.txt\n0Tab\t/a.txt\n1Text as menu\t/a.txt\n0Menu as text\t/notes\n"
        b"7Script\t/a.txt\n7Notes\t/notes\n7Find\t/search\n0Find\t/search\n1Notes\t/notes\n0Picture\t/b.gif\ngText\t/a.txt\n"
        b"0Other\t/notes\tother.example\t70\n0Web  URL:http://a.example/\n"
        b"20 of them  /usr is full\npond  /\\_/\\ ducks\nsee  / there\n",
        "a.txt": b"a\n", "b.gif": b"GIF89a\0", "notes/.menu": b"nothing but text\n", "notes/c.txt": b"c\n",
        "marked/.menu": b"\xef\xbb\xbf0A\t/a.txt\n0A\t/a.txt\n",
    }
    site = planted(test, files)
    tab = " has blanks where a link has a TAB, so it is shown as a text: type a TAB there"
    search = " offers a search, but only the selector /search is one, and this is sent as it is: "
    lines = [
        "search reaches 1 of 2 texts", "not linked: /notes/c.txt",
        f"warning: line 1 of ROOT/.menu{tab}",
        "warning: line 5 of ROOT/.menu leads to a text, so its type has to be 0: /a.txt",
        "warning: line 6 of ROOT/.menu leads to a folder, so its type has to be 1: /notes",
        f"warning: line 7 of ROOT/.menu{search}/a.txt", f"warning: line 8 of ROOT/.menu{search}/notes",
        "warning: line 10 of ROOT/.menu leads to the search, so its type has to be 7: /search",
        "warning: line 12 of ROOT/.menu leads to a GIF image, so its type has to be g: /b.gif",
        "warning: line 13 of ROOT/.menu leads to a text, so its type has to be 0: /a.txt",
        f"warning: line 15 of ROOT/.menu{tab}",
        "warning: line 1 of ROOT/marked/.menu begins with a byte order mark, which clients show: save the file without one",
        "warning: ROOT/notes/.menu has no link; a link is a type, a text, a TAB and a selector on a line",
    ]
    expect_told(test, "mistakes in menu files", site, lines)
    expect_told(test, "with --strict", site, lines, "--strict", ended=WARNED)
    site.add(b".menu", b"0A\t/a.txt\n" + b"0Blanks  /a.txt\n" * (MOST_SHOWN + 5))
    output = told(test, site)[0]
    test.expect("many mistakes", (sum(tab in line for line in output), output[-1]), (MOST_SHOWN, "warning: and 7 more like these: --all"))
    test.expect("many mistakes, with --all", sum(tab in line for line in told(test, site, "--all")[0]), MOST_SHOWN + 5)


def check_files(test):
    """Mistakes in files."""
    files = {
        "a.txt": "ä\n".encode("latin-1"), "b.txt": "ä\n".encode(), "c.zip": b"PK without a NUL", "d.zip": b"PK\0", "gophermap": b"iHello\n",
        "e/x.gophermap": b"iHello\n", "run.cgi": b"#!/bin/sh\n", "stay.cgi": b"#!/bin/sh\n",
    }
    site = planted(test, files)
    os.chmod(site.root / "run.cgi", 0o755)
    foreign = " is a menu of another server, sent here as a text: convert it to .menu, or remove it"
    expect_told(test, "mistakes in files", site, [
        "search reaches 7 of 7 texts",
        "warning: ROOT/a.txt isn't UTF-8: convert it, for example with iconv -t UTF-8",
        "warning: ROOT/c.zip contains no NUL, so it is sent as a text and arrives damaged: pack it with tar",
        f"warning: ROOT/e/x.gophermap{foreign}", f"warning: ROOT/gophermap{foreign}",
        "warning: ROOT/run.cgi is a program, and hole runs none but sends its source: remove it, or run chmod -x",
    ])


def check_settings(test):
    """Mistakes in the settings of a crawl."""
    files = {".menu": b"0A\t/a.txt\n7Find\t/search\n", "a.txt": b"a\n", "notes/b.txt": b"b\n"}
    port = free_port()
    text = (
        '[[seeds]]\nhost = "{host}"\nport = {port}\nselector = "notes"\n[[seeds]]\nhost = "{host}"\nport = {port}\nselector = "/gone"\n'
        '[[seeds]]\nhost = "{host}"\nport = {port}\nselector = "/search"\n'
        '[[seeds]]\nhost = "nowhere.invalid"\n[[seeds]]\nhost = "nowhere.invalid"\nselector = "/twice"\n'
        '[[allow]]\nhost = "nowhere.invalid"\n[[allow]]\nhost = "{host}"\nport = {port}\nprefix = "notes"\n'
        '[[allow]]\nhost = "{host}"\nport = {port}\nprefix = "/notes/"\n[[allow]]\nhost = "{host}"\nport = {port}\nprefix = "/gone"\n'
        '[[allow]]\nhost = "{host}"\nport = {port}\nprefix = "/search"\n'
    )
    lines = told(test, planted(test, files, text))[0]
    lost = [line.split(": ")[1] for line in lines if "without an address" in line]
    test.expect("a seed at a host without an address", lost, ["seeds[3] is at a host without an address, nowhere.invalid"])
    test.expect("mistakes in seeds and rules", [line for line in lines if "without an address" not in line], [
        "search reaches 0 of 2 texts", "not linked: /notes/b.txt", "not allowed: /a.txt",
        "warning: seeds[0] isn't found here, because its selector has no slash before it: notes",
        "warning: seeds[1] isn't found here: /gone", "warning: seeds[2] is the search, which has no page: remove it",
        "warning: allow[1] covers nothing here, because its prefix has no slash before it: notes",
        "warning: allow[2] covers what is in a folder but not its menu: drop the slash at the end of /notes/",
    ])
    denied = planted(test, files, SEED + DENY.replace("{prefix}", "/"))
    expect_told(test, "all is denied", denied, [
        "search reaches 0 of 2 texts", "not allowed: /a.txt (and 1 more: --all)",
        "warning: deny[0] denies every page here, at most the root is left: write a longer prefix",
    ])
    host = "192.0.2.1"
    local = SEED.replace("{host}", "localhost").format(port=port)
    site = Site(test, files, f'host = "{host}"\nport = {port}\nroot = "ROOT"\n{local}')
    misled = f" has the host localhost, each reader's own machine: write the server's, {host}"
    output, error, status = test.run("check", site.settings)
    causes = (b"cause: no address of the host is one of this machine\n" in output, error, status)
    test.expect("only the host was changed: its end", causes, (True, b"hole: 81\n", 1))
    test.expect("only the host was changed: warnings", [line for line in told(test, site)[0] if line.startswith("warning")], [
        "warning: no seed is of this server, so searches find its pages only by links from others: add a seed with its host and port",
        f"warning: seeds[0]{misled}", f"warning: allow[0]{misled}",
    ])
    site = Site(test, files, f'host = "0.0.0.0"\nport = {port}\nroot = "ROOT"\n')
    test.expect("a host to listen at", [line for line in told(test, site)[0] if "--listen" in line], [
        "warning: host has to be the name or address that readers connect to; --listen takes the address to listen at: 0.0.0.0",
    ])


def check_time(test):
    """A check of 4,096 nodes takes at most twice as long as a server's start."""
    count = 4_000
    names = [f"{folder:02}/{number:03}.txt" for folder in range(40) for number in range(count // 40)]
    site = planted(test, {name: b"moon and mars\n" * 40 for name in names})
    took = {}
    for name, words in (("start", ("serve", site.settings, "--requests", "0")), ("check", ("check", site.settings))):
        times = []
        for _ in range(3):
            begin = time.monotonic()
            test.run(*words)
            times.append(time.monotonic() - begin)
        took[name] = min(times)
    print(f"survey: {count} texts: a start with its crawl takes {took['start']:.2f} s, a check {took['check']:.2f} s")
    test.expect("all are reached", told(test, site), ([f"search reaches {count} of {count} texts"], b"", 0))


if __name__ == "__main__":
    run_test("survey", __doc__, check_example, check_reach, check_menus, check_files, check_settings, check_time)
