#!/usr/bin/env python3
"""Serves sites with `--aliases`, and sites of which `--leave-out` leaves something out, and compares each reply with its bytes.

    tests/aliases.py [PROGRAM]

The last line is 'aliases: N passed, M failed'.
"""
import os
import select

from running.server import ask, found_at_last, run_test, searched, seeded

FILES = {"a.txt": b"moon\n", "b.txt": b"sun\n", "name with spaces.txt": b"spaces\n", "music/song.txt": b"song\n"}
A, B, NOT_FOUND = b"moon\r\n.\r\n", b"sun\r\n.\r\n", b"3Not found\t\t%s\t%d\r\n.\r\n"
MOST_BYTES, LARGE = 1_048_576, 17_000_000
LONG = b"/" + b"x" * 254
ALIASES = (
    b"# selectors of the server before this one\n"
    b"\n"
    b"#/b.txt\t/a.txt\n"
    b"/music/\t/music\r\n"
    b"1/music\t/music\n"
    b"/name#040with#040spaces.txt\t/name with spaces.txt\n"
    b"/first\t/a.txt\n"
    b"/first\t/b.txt\n"
    b"/twice\t/first\n"
    b"/again\t/again\n"
    b"/find\t/search\n"
    b"/b.txt\t/a.txt\n"
    b"\xff \t/a.txt\n"
    b"/gone\t/nowhere\n"
    b"/root\t\n"
    + LONG + b"\t/a.txt\n"
    b"/last\t/b.txt"
)
# Lines, and those that have the same reply without aliases.
SAME = (
    (b"", b""),
    (b"/", b"/"),
    (b"/a.txt", b"/a.txt"),
    (b"/music", b"/music"),
    (b"/music/", b"/music"),
    (b"1/music", b"/music"),
    (b"/name#040with#040spaces.txt", b"/name with spaces.txt"),
    (b"/first", b"/a.txt"),
    (b"/first\twords", b"/a.txt"),
    (b"/first\t+", b"/a.txt"),
    (b"/twice", b"/nowhere"),
    (b"/again", b"/nowhere"),
    (b"/b.txt", b"/a.txt"),
    (b"\xff ", b"/a.txt"),
    (b"/gone", b"/nowhere"),
    (b"/root", b""),
    (LONG, b"/a.txt"),
    (LONG + b"\t" + b"y" * 768, b"/a.txt"),
    (b"/last", b"/b.txt"),
    # a prefix, another case, comments, and what isn't a request
    (b"/firs", b"/nowhere"),
    (b"/first/", b"/nowhere"),
    (b"/first/x", b"/nowhere"),
    (b"/First", b"/nowhere"),
    (b"/name#040with", b"/nowhere"),
    (b"#/b.txt", b"/nowhere"),
    (b"# selectors of the server before this one", b"/nowhere"),
    (LONG + b"x", LONG + b"x"),
    (b"/first\r", b"/first\r"),
    (b"/first\0", b"/first\0"),
    (LONG + b"\t" + b"y" * 769, LONG + b"\t" + b"y" * 769),
    # searches
    (b"/find", b"/search"),
    (b"/find\t--", b"/search\t--"),
    (b"/search", b"/search"),
)
BAD = (
    (b"/a.txt", 1),
    (b"/old /a.txt\n", 1),
    (b"# old\n\n/old\t/a.txt\n /old\n", 4),
    (b"\r\n/old\t/a.txt\textra\n", 2),
    (b"\t\t\n", 1),
    (b"/old\t/a.txt\n/x\n/y\n", 2),
    (b"/old\t" + LONG + b"x\n", 1),
    (LONG + b"x\t/a.txt\n", 1),
    (b"/o\0ld\t/a.txt\n", 1),
    (b"/old\t/a\0.txt\n", 1),
    (b"/o\rld\t/a.txt\n", 1),
    (b"/old\t/a.txt\r\r\n", 1),
    (b"/old\t/a.txt\r", 1),
    (b" #\n", 1),
)


def aliases(test, text):
    """A file of aliases."""
    path = test.folder / "aliases"
    path.write_bytes(text)
    return ("--aliases", path)


def check_replies(test):
    """A request for an old selector gets the reply of its alias, and every other line the reply that it has without aliases."""
    root = test.site(FILES)
    with test.serving(root) as plain, test.serving(root, *aliases(test, ALIASES)) as server:
        ports = [str(each.port).encode() for each in (plain, server)]
        for line, other in SAME:
            wanted = ask(plain.port, other + b"\r\n").replace(ports[0], ports[1])
            test.expect(f"the reply to {line!r}", ask(server.port, line + b"\r\n"), wanted)
        told = [ask(server.port, line + b"\r\n") for line in (b"/first", b"/last", b"/twice")]
        test.expect("a text each", told, [A, B, NOT_FOUND % (server.host.encode(), server.port)])
        test.expect("the root lists files as before", b"0b.txt\t/b.txt\t" in ask(server.port, b"\r\n"), True)
    with test.serving(root, "--requests", 1) as server:
        wanted = NOT_FOUND % (server.host.encode(), server.port)
        test.expect("without aliases an old selector isn't found", ask(server.port, b"/first\r\n"), wanted)


def check_search(test):
    """An alias of `/search` passes the search string on."""
    root = test.site(FILES)
    with test.serving(root, *aliases(test, ALIASES), more=seeded()) as server:
        # The crawl asks this server too, so `/b.txt` has the text of its alias.
        wanted = [b"/a.txt", b"/b.txt"]
        test.expect("a search", found_at_last(server, b"moon", wanted), wanted)
        for line in (b"/find\tmoon", b"/find\tmoon\t+"):
            wanted = ask(server.port, b"/search\tmoon\r\n")
            test.expect(f"the reply to {line!r}", (ask(server.port, line + b"\r\n"), len(wanted) > 3), (wanted, True))
        test.expect("another search", searched(server, b"sun"), [])


def check_bad(test):
    """A start ends with 35 at the first bad line, with 36 if the file can't be read: after the settings' faults, before the
    folder's."""
    root, absent = test.site(FILES), test.folder / "absent"
    for text, line in BAD:
        told = test.ended(root, *aliases(test, text))
        test.expect(f"the aliases {text[-40:]!r}", told, (b"", b"hole: 35 line %d\n" % line, 1))
    largest = b"#" * (MOST_BYTES - 1) + b"\n"
    with test.serving(root, *aliases(test, largest)) as server:
        test.expect("the largest file of aliases", ask(server.port, b"/a.txt\r\n"), A)
    unreadable = ((*aliases(test, largest + b"\n"),), ("--aliases", absent), ("--aliases", root))
    for words in unreadable:
        test.expect(f"{words}", test.ended(root, *words), (b"", b"hole: 36\n", 1))
    test.expect("no folder", test.ended(absent, *aliases(test, b"/old\n")), (b"", b"hole: 35 line 1\n", 1))
    test.expect("no folder and no aliases", test.ended(absent, "--aliases", absent), (b"", b"hole: 36\n", 1))
    bad_key = test.ended(root, "--aliases", absent, more="colour = 1\n")
    test.expect("an unknown key and no aliases", bad_key, (b"", b"hole: 34\n", 1))


def odd_site(test):
    """A site with what can't be served, and what a start says that leaves it out."""
    root = test.site({"a.txt": b"moon\n", "sub/b.txt": b"sun\n", "bad\tname/x.txt": b"x\n", "bad\tname/y.txt": b"y\n"})
    (root / "tab\tname.txt").write_bytes(b"x\n")
    (root / "sub" / "my loop").symlink_to("my loop")
    with open(root / "large.bin", "wb") as file:
        file.truncate(LARGE)
    names = [each * 120 for each in "xyz"]
    (root / names[0] / names[1]).mkdir(parents=True)
    (root / names[0] / names[1] / names[2]).write_bytes(b"x\n")
    for folder in (b"", b"sub"):
        with open(os.path.join(os.fsencode(root), folder, b"caf\xe9.txt"), "wb"):
            pass
    rows = (
        (26, ""),
        (20, "/bad%09name"),
        (23, "/large.bin"),
        (26, "/sub"),
        (26, "/sub/my%20loop"),
        (20, "/tab%09name.txt"),
        (22, "/" + "/".join(names)),
    )
    return root, [f"hole: left out: {number} {root}{path}".encode() for number, path in rows]


def said_so_far(server):
    """What a server has written on standard error."""
    ready, _, _ = select.select([server.process.stderr], [], [], 0)
    return os.read(server.process.stderr.fileno(), 1 << 16) if ready else b""


def check_leave_out(test):
    """A start with `--leave-out` says what it leaves out, before it listens, and serves the rest."""
    root, told = odd_site(test)
    output, error, status = test.ended(root)
    test.expect("without the option", (output, error in (b"hole: 20 file 0\n", b"hole: 26\n"), status), (b"", True, 1))
    with test.serving(root, "--leave-out") as server:
        test.expect("what is left out", said_so_far(server).splitlines(), told)
        where = b"\t%s\t%d\r\n" % (server.host.encode(), server.port)
        wanted = b"7Search\t/search%s0a.txt\t/a.txt%s1sub\t/sub%s.\r\n" % (where, where, where)
        test.expect("the root's menu", ask(server.port, b"\r\n"), wanted)
        test.expect("a folder's menu", ask(server.port, b"/sub\r\n"), b"0b.txt\t/sub/b.txt%s.\r\n" % where)
        test.expect("a text", ask(server.port, b"/a.txt\r\n"), A)
        for line in (b"/large.bin", b"/sub/my loop", b"/bad", b"/caf\xe9.txt"):
            missing = NOT_FOUND % (server.host.encode(), server.port)
            test.expect(f"{line!r} isn't served", ask(server.port, line + b"\r\n"), missing)
    sound = test.site(FILES)
    with test.serving(sound, "--leave-out", "--requests", 1) as server:
        test.expect("a site without anything to leave out", ask(server.port, b"/a.txt\r\n"), A)
        test.expect("nothing is said of it", server.end()[1:], (b"", 0))


def check_kept_faults(test):
    """Other faults end a start with `--leave-out` too."""
    rows = (
        ({".menu": b"no\ttabs\tlike\tthis\tone\n"}, b"hole: 24 file 0 line 1\n"),
        ({"search": b"x\n"}, b"hole: 21 file 0\n"),
        # a listing would name what the menu doesn't
        ({"a.txt": b"a\n", "b/.menu": b"x" * LARGE, "b/unlisted.txt": b"u\n"}, b"hole: 23 file 1\n"),
        ({f"{number:02}": b"x" * 16_000_000 for number in range(5)}, b"hole: 23 file 4\n"),
    )
    for files, line in rows:
        test.expect(f"{[*files]}", test.ended(test.site(files), "--leave-out"), (b"", line, 1))
    test.expect("no folder", test.ended(test.folder / "absent", "--leave-out"), (b"", b"hole: 26\n", 1))


if __name__ == "__main__":
    run_test("aliases", __doc__, check_replies, check_search, check_bad, check_leave_out, check_kept_faults)
