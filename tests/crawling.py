#!/usr/bin/env python3
"""Has the built program crawl hosts of this process, one of them with more pages than a script has room for, and searches them.

    tests/crawling.py [--pages N] [PROGRAM]

The largest host has a menu of menus, of which each leads to 128 texts; each text is found. N is 10,000 unless said. Another host
counts what it is asked for: what the rules allow, once, and a place that can't be fetched as often as the settings say;
--progress names each place that failed for good, and says how the crawl ended; --list-found lists what was found. A crawl of
places where nobody listens ends. The words of a text that comes in pieces are those of its bytes. As many workers fetch at once
as the settings say. The last line is 'crawling: N passed, M failed'.
"""
import collections
import re
import threading
import time

from running.server import (
    HOST, SECONDS_FOR_ALL, Host, ask, crawling, found_at_last, free_port, run_test, searched, seeded, until_true,
)

MOST_SECONDS = 300.0
MOST_HITS = 50
TRIES = 3
MOON = b"moon\r\n.\r\n"
ABSENT = "No such file or directory (os error 2)"
# The longest reply that a crawl takes, whose last line has no end, and one of a byte more.
LONGEST = b"longest ".ljust(1_048_576, b"x")
TOO_LONG = LONGEST + b"x"
# So many failed places are printed, and the host's menu has some more that fail.
MOST_PRINTED, MORE = 1_000, 7
# The pieces of a text, sent one by one: a word is cut, and so are the end of a line and the last line.
PIECES = (b"The ti", b"tle of a text\r", b"\nalpha", b"bet moon\r\n..stuffed\r\n", b".\r", b"\nafterwards\r\n")
SECONDS_BETWEEN = 0.2
# How many workers fetch from a host that holds its replies back until as many have asked, and how many texts it has.
WORKERS = {3: 8, 16: 20}
# How long a host is watched after the last fetch that is expected of it. Fetches follow each other within milliseconds.
SECONDS_AFTER = 1.0


def without_seconds(lines):
    """These lines, with S for the seconds that a crawl took."""
    return [re.sub(r" in \d+ s$", " in S s", line) for line in lines]


def is_crawled(server, texts):
    """Whether searches come to find each of these texts, within the time."""
    until = time.monotonic() + MOST_SECONDS
    return all(until_true(lambda: searched(server, b"p%d" % text) == [b"/%d" % text], until - time.monotonic()) for text in texts)


def searches_of(pages):
    """Searches that find each of so many texts once, and the texts that they find: those whose numbers begin alike."""
    digits, found = max(len(str(pages - 1)) - 1, 1), collections.defaultdict(list)
    for number in range(pages):
        front = b"%d" % number
        found[b"p" + (front if len(front) < digits else front[:digits] + b"*")].append(b"/" + front)
    return found


def check_crawl(test):
    """Crawls a host of many texts, finds each, and searches rare and common words of them."""
    pages = test.given.pages
    names, may_end = [b"/%d" % number for number in range(pages)], threading.Event()

    def answer(line):
        if line == names[-1]:
            may_end.wait(MOST_SECONDS)
        return replies.get(line, b"")

    with Host(answer) as host:
        replies = host.menus({name: b"moon p%s\r\n.\r\n" % name[1:] for name in names})
        settings = seeded(host.port, f"places = {min(2 * pages, 65_536)}\nworkers = 16")
        with crawling(test, settings, seconds=2 * MOST_SECONDS) as server:
            found = is_crawled(server, [pages - 2, *range(0, pages, 1_000)])
            test.expect("before the crawl's end each thousandth text is found, and the last but one", found, True)
            may_end.set()
            test.expect("the last text is found", is_crawled(server, [pages - 1]), True)
            first = sorted(names)[:MOST_HITS]
            until = time.monotonic() + MOST_SECONDS
            finds = lambda text, names: until_true(lambda: searched(server, text) == names, until - time.monotonic())
            lost = {text: texts for text, texts in searches_of(pages).items() if not finds(text, texts)}
            test.expect("searches that don't find the texts whose numbers begin so", lost, {})
            test.expect("a word of all texts", found_at_last(server, b"moon", first), first)
            without = [name for name in sorted(names) if name != b"/0"][:MOST_HITS]
            test.expect("a beginning of all words but one", searched(server, b"p* not p0"), without)


def read_to_end(server):
    """The lines of the error stream up to the one that says that the crawl is over."""
    told = [""]
    while not told[-1].startswith("hole: crawl finished: ") and (line := server.process.stderr.readline()):
        told.append(line.decode().rstrip("\n"))
    return told[1:]


def check_limits(test):
    """Crawls a menu with a text, the longest that is found, texts whose fetches fail, one of them only once, and one that a rule
    denies."""
    replies = {b"/long": TOO_LONG, b"/longest": LONGEST, b"/text": MOON, b"/late": MOON}

    def answer(line):
        return None if line == b"/late" and host.asked.count(line) == 1 else replies.get(line)

    with Host(answer) as host:
        replies[b""] = host.menu(b"0", (b"/text", b"/fails", b"/late", b"/long", b"/longest", b"/private/text", b"/text"))
        denied = f'[[deny]]\nhost = "{HOST}"\nport = {host.port}\nprefix = "/private"\n'
        with crawling(test, seeded(host.port, f"tries = {TRIES}") + denied, "--progress", "--requests", 1) as server:
            told = read_to_end(server)
            time.sleep(SECONDS_AFTER)
            wanted = {b"": 1, b"/text": 1, b"/fails": TRIES, b"/late": 2, b"/long": TRIES, b"/longest": 1}
            test.expect("what a host is asked for, and how often", dict(collections.Counter(host.asked)), wanted)
            test.expect("the longest reply is found", searched(server, b"longest"), [b"/longest"])
            output, error, status = server.end()
        sizes = b"known 6 waiting 0 out 0 done 6 dropped 0"
        test.expect("the end of a crawl with failed places", (output, status), (sizes + b"\n", 0))
        failed = (("fails", "read: connection reset"), ("long", "too long"))
        lines = [f"hole: failed: gopher://{HOST}:{host.port}/0/{name}: {why}" for name, why in failed]
        told += error.decode().splitlines()
        test.expect("the places that failed for good", sorted(told[:-2]), lines)
        ended = [sizes.decode() + " failed 2", "hole: crawl finished: 4 found, 2 failed, 0 dropped in S s"]
        test.expect("how many they are", without_seconds(told[-2:]), ended)


def check_list(test):
    """The found places are listed in their order with sizes and titles, in place of an older list. A list that can't be written
    is told."""
    old, absent = test.folder / "list", test.folder / "none" / "list"
    old.write_text("what stood there\n" * 100)
    with Host(lambda line: replies[line]) as host:
        replies = {b"": host.menu(b"0", (b"/text",)), b"/text": b"The moon\r\n.\r\n"}
        for path, why in ((old, ""), (absent, f"hole: the list of found places can't be written: {absent}: {ABSENT}\n")):
            with crawling(test, seeded(host.port), "--list-found", path, "--requests", 0) as server:
                output, error, status = server.end()
            test.expect(f"the end of a crawl with the list {path.name}", (output[:8], error.decode(), status), (b"known 2 ", why, 0))
    # A page takes 512 bytes and its title, 17 bytes and twice its bytes for a word that it has once, and for a link 176 bytes and
    # twice its parts.
    menu, text = 512 + 1 + (17 + 2) + 176 + 2 * (len("/text") + len(HOST)), 512 + 8 + (17 + 6) + (17 + 8)
    where = f"gopher://{HOST}:{host.port}"
    test.expect("the list of found places", old.read_text(), f"{where}/1\t{menu}\t0\n{where}/0/text\t{text}\tThe moon\n")
    test.expect("nothing else is left of it", sorted(path.name for path in test.folder.glob("list*")), ["list"])


def check_many_failures(test):
    """Crawls a menu of places where nobody listens: the first thousand that fail are printed, and the others counted."""
    absent, count = free_port(), MOST_PRINTED + MORE
    with Host(lambda line: menu) as host:
        # What a terminal would obey isn't printed as it is.
        menu = host.menu(b"0", (b"/%d\x1b[2J %%?\xc3\xa9-._~/:@+,=Z9" % number for number in range(count)), absent)
        settings = seeded(host.port, f"places = {2 * count}", allow=[absent])
        with crawling(test, settings, "--progress", "--requests", 0) as server:
            output, error, status = server.end()
    sizes = f"known {count + 1} waiting 0 out 0 done {count + 1} dropped 0\n"
    test.expect("the end of a crawl of many failures", (output.decode(), status), (sizes, 0))
    lines = error.decode().splitlines()
    printed = {line for line in lines if line.startswith("hole: failed: ")}
    # Letters, digits and a few marks are as they are.
    escaped, kept = "%1B%5B2J%20%25%3F%C3%A9", "-._~/:@+,=Z9"
    wanted = {f"hole: failed: gopher://{HOST}:{absent}/0/{number}{escaped}{kept}: connect: connection refused" for number in range(count)}
    test.expect("how many failed places are printed", len(printed), MOST_PRINTED)
    test.expect("they are places that failed", printed <= wanted, True)
    last = [f"{sizes[:-1]} failed {count}", f"hole: failed places that aren't printed: {MORE}"]
    last.append(f"hole: crawl finished: 1 found, {count} failed, 0 dropped in S s")
    test.expect("the last lines", without_seconds(lines[-3:]), last)


def in_pieces(_line):
    """The pieces, one by one."""
    for piece in PIECES:
        yield piece
        time.sleep(SECONDS_BETWEEN)


def check_pieces(test):
    """Crawls a text that comes in pieces: its title and its words are those of all of its bytes up to the last line."""
    with Host(in_pieces) as host, crawling(test, seeded(host.port, seed='type = "0"\nselector = "/text"\n')) as server:
        found_at_last(server, b"moon", [b"/text"])
        hit = b"0The title of a text\t/text\t%s\t%d\r\n.\r\n" % (HOST.encode(), host.port)
        for word in b"the title of a text alphabet moon stuffed".split():
            test.expect(f"{word} of a text in pieces", ask(server.port, b"/search\t%s\r\n" % word), hit)
        for word in b"ti tle alpha bet afterwards".split():
            test.expect(f"{word} isn't in a text in pieces", ask(server.port, b"/search\t%s\r\n" % word), b".\r\n")


def check_workers(test):
    """As many workers as the settings say fetch at once, and no more."""
    for workers, texts in WORKERS.items():
        check_held(test, workers, sorted(b"/%d" % number for number in range(texts)))


def check_held(test, workers, names):
    """So many workers fetch at once: no text is sent before as many ask, and a while longer."""
    changed, asking, most = threading.Condition(), 0, 0

    def answer(line):
        nonlocal asking, most
        if not line:
            return host.menu(b"0", names)
        with changed:
            asking += 1
            most = max(most, asking)
            changed.notify_all()
            changed.wait_for(lambda: most >= workers, SECONDS_FOR_ALL)
        time.sleep(SECONDS_AFTER)
        with changed:
            asking -= 1
        return MOON

    with Host(answer) as host, crawling(test, seeded(host.port, f"workers = {workers}")) as server:
        test.expect("each held text is found", found_at_last(server, b"moon", names), names)
    test.expect("how many workers fetch at once", most, workers)


if __name__ == "__main__":
    checks = (check_limits, check_list, check_many_failures, check_pieces, check_workers, check_crawl)
    run_test("crawling", __doc__, *checks, pages=10_000)
