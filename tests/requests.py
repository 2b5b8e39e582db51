#!/usr/bin/env python3
"""Serves folders that were worked out by hand, the largest, and folders that are drawn; asks lines that are drawn, and compares
each reply with the plain model of models/site_model.py.

    tests/requests.py [--lines N] [--seed S] [PROGRAM]

N lines in all (500 without N, always the same without S), 50 for each folder, many at once; the server crawls itself, and is
asked once that crawl is at its end. The last line is 'requests: N passed, M failed'; the first 20 lines that fail are shown, and
no other folder is asked after that.
"""
import os
import random

from models import model
from drawn import site_drawing
from running.server import HOST, MOST_SHOWN, ask, ask_all, ask_whole, free_port, run_test, until_true
from models.site_model import Site

LINES_OF_A_SITE = 50
# How many names a folder may have beside a file in the root, since root, folders and files are at most 4,096.
MOST_NAMES = 4_093
# Folders by their files, each with lines and their replies; WHERE stands for the host and port, between TABs, and CR LF.
ROOT_MENU = b"7Search\t/searchWHERE0a.txt\t/a.txtWHERE.\r\n"
WELCOME = b"iWelcome\tWHERE0Read\t/a.txtWHERE1Far\t\tfar.example\t70\r\n.\r\n"
WORKED = [
    ({"a.txt": b"hello\n"}, [
        (b"\r\n", ROOT_MENU), (b"/\t+\r\n", ROOT_MENU), (b"/a.txt\t+\r\n", b"hello\r\n.\r\n"),
        (b"/a.txt\r\nextra", b"hello\r\n.\r\n"), (b"/b\r\n", b"3Not found\tWHERE.\r\n"),
        (b"/search\t -- \r\n", b"3No words\tWHERE.\r\n"), (b"x" * 256 + b"\r\n", b"3Bad request\tWHERE.\r\n"),
        (b"a" * 1_026, b""), (b"/search\thello\r\n", b".\r\n"),
    ]),
    ({"dots": b".\nhi", "empty.txt": b""}, [(b"/dots\r\n", b"..\r\nhi\r\n.\r\n"), (b"/empty.txt\r\n", b".\r\n")]),
    ({"a.txt": b"hello\n", "docs/b.gif": b"GIF89a\n.\n", "docs/.menu": b"Welcome\n0Read\t/a.txt\n1Far\t\tfar.example\t70\n"}, [
        (b"/\r\n", b"7Search\t/searchWHERE0a.txt\t/a.txtWHERE1docs\t/docsWHERE.\r\n"), (b"/docs\r\n", WELCOME),
        (b"/docs/b.gif\r\n", b"GIF89a\n.\n"), (b"/docs/.menu\r\n", b"3Not found\tWHERE.\r\n"),
    ]),
]


def check_worked(test):
    """Folders that were worked out by hand, on localhost."""
    for files, asked in WORKED:
        with test.serving(test.site(files), "--requests", len(asked), host="localhost") as server:
            where = f"\tlocalhost\t{server.port}\r\n".encode()
            for line, reply in asked:
                test.expect(f"worked folder: {line[:40]!r}", ask(server.port, line, "localhost"), reply.replace(b"WHERE", where))
            test.expect("the end of a worked folder", server.end()[1:], (b"", 0))


def check_most_names(test):
    """The largest folder is listed whole, and the files of it are served."""
    files = {"a.txt": b"moon\n", **{f"large/{number:04}.txt": b"%d\n" % number for number in range(MOST_NAMES)}}
    with test.serving(test.site(files), "--requests", 3) as server:
        where = f"\t{HOST}\t{server.port}\r\n".encode()
        names = [b"%04d.txt" % number for number in range(MOST_NAMES)]
        listing = b"".join(b"0%s\t/large/%s%s" % (name, name, where) for name in names) + b".\r\n"
        test.expect("the listing of the largest folder", ask(server.port, b"/large\r\n"), listing)
        for name in (names[0], names[-1]):
            test.expect("a file of the largest folder", ask(server.port, b"/large/%s\r\n" % name), b"%d\r\n.\r\n" % int(name[:4]))


def drawn_settings(draw, site):
    """More lines of settings, by which the model crawls the site."""
    host, rules, deny = site.host.decode(), model.Script(), draw.choice([[], [], [b"/docs"], [b"/a", b"/b"]])
    seeds = draw.choice([[(b"1", b"")], [(b"1", b"/")], [(b"1", b""), (b"0", b"/b.txt")], [(b"1", b"/docs"), (b"0", b"")]])
    seeds = [seed for seed in seeds if not any(seed[1].startswith(prefix) for prefix in deny)]
    workers, places = draw.choice([(4, 4096), (16, 4096), (1, 4096), (1, 5), (1, 2)])
    rows = [f"workers = {workers}", f"places = {places}", f"threads = {draw.choice([1, 2, 2, 8])}"]
    for key, prefix in [("allow", b""), *(("deny", prefix) for prefix in deny)]:
        getattr(rules, key)(site.host, b"%d" % site.port, prefix)
        rows.append(f'[[{key}]]\nhost = "{host}"\nport = PORT\nprefix = "{prefix.decode()}"')
    for kind, selector in seeds:
        rows.append(f'[[seeds]]\ntype = "{kind.decode()}"\nhost = "{host}"\nport = PORT\nselector = "{selector.decode()}"')
    places_of = [model.place_of(kind, site.host, site.port, selector) for kind, selector in seeds]
    site.finish_crawl(rules.is_allowed, places_of, places)
    return "\n".join(rows) + "\n"


def is_settled(site):
    """Whether the server's crawl of itself has come to its end, as a search shows it that finds every page that has a word."""
    firsts = sorted({min(page.counts)[:1] for page in site.crawl.pages if page.counts})
    search = b"/search\t" + b" or ".join(first + b"*" for first in firsts) + b"\r\n"
    return until_true(lambda: ask(site.port, search, site.host.decode()) == site.reply(search), pause=0.02)


def ask_lines(draw, test, name, site, count):
    """Asks so many drawn lines, several at once."""
    known = sorted(site.replies)
    words = sorted({word for page in site.crawl.pages for word in page.counts})[:200] or [b"moon"]
    lines = [site_drawing.request(draw, known, words) for _ in range(count)]
    pieces = [draw.choice([1, 1, 1, 1, 2, 5]) for _ in lines]
    by = lambda port, it: ask_whole(port, it[0], site.host.decode(), it[1])
    replies = ask_all(site.port, zip(lines, pieces), by)
    for sent, reply in zip(lines, replies):
        test.expect(f"{name}: {sent[:100]!r} of {len(sent)} bytes", reply, site.reply(sent))


def check_site(test, number, count):
    """Serves one drawn folder, and asks it."""
    name = f"site {number} of seed {test.given.seed}"
    draw = random.Random(f"{test.given.seed} {number}")
    host, port, root = draw.choice([HOST, HOST, "LocalHost"]), free_port(), test.site({}, f"site {number}/root")
    files = site_drawing.draw_files(draw, host.encode(), b"%d" % port)
    site_drawing.lay_out(draw, os.fsencode(root), os.fsencode(root.with_name("outside")), files)
    site = Site(host.encode(), port, files)
    with test.serving(root, more=drawn_settings(draw, site), port=port, host=host) as server:
        test.expect(f"{name}: the crawl comes to its end", is_settled(site), True)
        ask_lines(draw, test, name, site, count)
        test.expect(f"{name}: ends", server.terminate(), (b"", b"", -15))


def check_drawn(test):
    """Serves drawn folders until twenty lines failed."""
    for start in range(0, test.given.lines, LINES_OF_A_SITE):
        if test.failed < MOST_SHOWN:
            check_site(test, start // LINES_OF_A_SITE, min(LINES_OF_A_SITE, test.given.lines - start))


if __name__ == "__main__":
    run_test("requests", __doc__, check_worked, check_most_names, check_drawn, lines=500, seed="hole")
