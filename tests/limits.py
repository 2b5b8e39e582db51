#!/usr/bin/env python3
"""Has the built program crawl as many places as a crawl may know, and finds each of their pages; and says where each limit runs.

    tests/limits.py [PROGRAM]

A contract can't tell a call that gives up too early from one that has no memory. So each limit that docs/SPECIFICATION.md and the
manuals name, and each size that follows from one, is run twice: as it is, which works, and with one more, which is refused by its
number or leaves out what the document says. A few numbers that no call refuses are those of an exact clause. LIMITS says for each
which test does it; that the test has what it says is checked here, too. At most 1,024 hosts are noted, but at most 256 rules allow
hosts, so no crawl comes to that.
The last line is 'limits: N passed, M failed'.
"""
import re
import time

from running.server import ROOT, TEXTS_OF_A_MENU, Host, crawling, run_test, searched, seeded, until_true

MOST_SECONDS = 300.0
PLACES = 65_536
# So many texts a crawl may know beside the root and its menus.
TEXTS = 65_026
HITS = 50
SECONDS_BEFORE = 1.0

DOCUMENTS = ("docs/SPECIFICATION.md", "man/hole.1", "man/hole.toml.5")
# Each limit: the words of the documents, how one more is answered, the file of the test or of an exact clause, and what stands there.
LIMITS = (
    ("The selector has at most 255 bytes", "2", "crates/test_library/src/menus.rt", "&[b's'; 256], Err(2)"),
    ("7 if the line has over 1,024 bytes", "7", "crates/test_library/src/menus.rt", "&[b's'; 1_025], Err(7)"),
    ("at most 40; its ASCII", "no word", "tests/models/worked.py", 'b"a" * 41'),
    ("a reply of at most 1,048,576 bytes", "4", "tests/crawling.py", "LONGEST"),
    ("A query is a text of at most 1,024 bytes", "70", "tests/models/worked.py", 'b"-" * 1_025'),
    ("the first 69 bytes of the rest", "cut", "crates/gopher_page/wrong-bodies/title.edit", "first_bytes(&[b'a'; 70]).len() == 69"),
    ("a limit of places (1 to 65,536)", "51, dropped", "tests/limits.py", "TEXTS + 1"),
    ("a number of tries (1 to 5)", "54", "tests/models/worked.py", "start\\t2\\t6"),
    ("11 after 2,097,152 reads", "11", "crates/test_library/src/streams.rt", "slow_reply(rt.alloc(), 1_048_576)"),
    ("11 after 4,096 reads", "11", "crates/test_library/src/streams.rt", "4_096, (Err(11), 1, 4_096)"),
    ("was interrupted 4,096 times", "13", "tests/program.py", "interrupted=4_095"),
    ("A script is at most 1,048,576 bytes", "12", "tests/program.py", "MEBIBYTE"),
    ("1 to 10 ASCII digits of value at most 4294967295", "70", "tests/models/worked.py", "start\\t4294967296"),
    ("1 to 5 ASCII digits of value at most 65535", "70", "tests/models/worked.py", "65536"),
    ("the file has more than 16,777,216 bytes", "23", "tests/check.py", "LARGEST"),
    ("the files so far have more than 67,108,864", "23", "tests/check.py", "MOST_BYTES"),
    ("root, folders and files are more than 4,096", "23", "tests/check.py", "MOST_NODES"),
    ("80 if the file can't be read, has over 1,048,576 bytes", "80", "tests/check.py", "MOST_SETTINGS"),
    ("With `--aliases FILE`", "35", "tests/aliases.py", "MOST_BYTES"),
    ("For the first 1,000 places that failed", "counted", "tests/crawling.py", "MOST_PRINTED"),
    ("the first 50", "left out", "tests/crawling.py", "MOST_HITS"),
    ("The host has 1 to 255 bytes", "3", "tests/models/worked.py", 'b"h" * 256'),
    ("if `LISTEN_FDS` isn't a number from 0 to 64", "81", "tests/listen.py", "MOST_INHERITED + 1"),
    ("otherwise at all addresses of its host", "not served", "tests/listen.py", "MOST_OF_HOST + 1"),
    ("May be repeated, up to 1,024 times", "2", "tests/listen.py", "MOST_NAMED"),
    ("takes one from the quota (the N of `--requests`", "refused", "tests/listen.py", "of the requests after which a server ends"),
    ("connections (0 to 1000000)", "2", "tests/program.py", '"--requests", 1_000_000'),
    ("at once (1 to 1000000;", "2", "tests/program.py", '"--clients-per-address", 1_000_000'),
    ("(0 to 86400; 60 if absent)", "2", "tests/program.py", '"--fetch-timeout", 86_400'),
    ("(0 to 3600000; 0 if absent)", "2", "tests/program.py", '"--fetch-pause", 3_600_000'),
    ("is a number up to 2^64", "2", "tests/program.py", '"--crawl-memory", 2**64 - 1'),
    ("the N of `--clients-per-address`", "closed", "tests/attack.py", "an address that may hold three"),
    ("or a quarter of all places if absent", "closed", "tests/attack.py", "PLACES - PLACES // 4"),
    ("or as many as the limit of open files less a reserve", "closed", "tests/attack.py", "while there is room"),
    ("All threads together have at most 16,384 places", "closed", "crates/gopher_server/specs/Places.antt", "16_384"),
    ("at most 65,536 bytes of a reply for a client", "waits", "tests/listen.py", "[4 * 65_536] * 4"),
    ("it queues at most 262,144", "waits", "tests/listen.py", "[2 * 262_144] * 16"),
    ("but at least 8,192", "waits", "crates/gopher_server/wrong-bodies/send_buffer.edit", "send_buffer_of(16_384) == 8_192"),
    ("for 16 seconds at most", "closed", "tests/attack.py", "LINGERS"),
    ("After 64 in a row", "waits", "crates/gopher_server/wrong-bodies/decisions/accepting.edit", "failure_of(103, false, 63)"),
    ("or when it has 65,536 bytes", "handed on", "crates/gopher_server/wrong-bodies/logging/batch.edit", "written.len() >= 65_536"),
    ("At most 64 such batches wait", "dropped", "tests/log.py", "MOST_FOR_PIPE"),
    ("over 131,072 bytes together", "large", "tests/crawl_memory.py", "long_words(LARGE), long_words(LARGE + 1)"),
    ("the whole fetch after 10 T seconds", "1, 2, 3", "tests/hosts.py", "TIMES_IN_ALL * timeout"),
    ("After three time-outs in a row", "given up", "tests/hosts.py", "MOST_TIMEOUTS"),
    ("a path has over 254 bytes", "at least", "tests/check.py", "files that are too large, and a path that is too long"),
    ("At most 20 of menus", "counted", "tests/survey.py", "MOST_SHOWN"),
    ("An array of at most 256 tables", "33", "tests/check.py", "256 seeds, and as many rules of both kinds"),
    ("An integer, 1 to 65535; 70 if absent", "33", "tests/check.py", "port = 65536"),
    ("An integer, 1 to 65536; 4096 if absent", "33", "tests/check.py", "places = 65537"),
    ("An integer, 1 to 16; 4 if absent", "33", "tests/check.py", "workers = 17"),
    ("An integer, 1 to 8; 2 if absent", "33", "tests/check.py", "threads = 9"),
    ("An integer, 1 to 5; 1 if absent", "33", "tests/check.py", "tries = 6"),
)
# Sizes that follow from a limit, what their tests are called, and the file.
SIZES = (
    ("a folder of 4,093 names is listed", "tests/requests.py", "check_most_names"),
    ("two files in the last of 4,094 folders", "tests/check.py", "the most folders less one, and two files in the last"),
    ("256 seeds, and as many rules of both kinds", "tests/check.py", "256 seeds, and as many rules of both kinds"),
    ("a search of 353 different terms", "tests/drawn/sizes.py", "short_names(353)"),
    ("a text of 520,000 words", "tests/drawn/sizes.py", "crawl_of_a_long_text"),
    ("a text of 210,000 different words", "tests/drawn/sizes.py", "crawl_of_a_large_page"),
    ("a menu of 349,000 lines", "tests/drawn/sizes.py", "crawl_of_many_lines"),
    ("a word 300 times in 1,400 pages", "tests/drawn/sizes.py", '[b"l " * 300] * 1400'),
    ("the places of a word in over 2,000 pages", "tests/drawn/sizes.py", 'number < 6000 or word != b"m"'),
    ("a file in the last of 4,095 folders", "tests/check.py", "the most folders, and a file in the last"),
    ("a reserved name behind the most files", "tests/check.py", "the most files and one with a reserved name"),
    ("a text of exactly 1,048,576 bytes whose last line has no end", "tests/crawling.py", "LONGEST = b"),
    ("a word in 16,385 pages", "tests/drawn/sizes.py", "16385"),
)


def check_table(test):
    """The documents have the words of each limit, and the test what the table says of it."""
    words = " ".join(word for file in DOCUMENTS for word in (ROOT / file).read_text().split())
    for limit, _, file, shown in LIMITS:
        test.expect(f"the documents have {limit!r}", limit in words, True)
        test.expect(f"{file} has {shown!r}", shown in (ROOT / file).read_text(), True)
    for size, file, shown in SIZES:
        test.expect(f"{size}: {file} has {shown!r}", shown in (ROOT / file).read_text(), True)


def check_most_places(test):
    """Crawls a host of as many places as a crawl may know, and one more: each text but that one is found."""
    names = [b"/%d" % number for number in range(TEXTS + 1)]

    def answer(line):
        # The links of the last menu are read last.
        time.sleep(SECONDS_BEFORE if line == b"/m%d" % (TEXTS // TEXTS_OF_A_MENU) else 0)
        return replies.get(line, b"")

    with Host(answer) as host:
        replies = host.menus({name: b"moon p%s\r\n.\r\n" % name[1:] for name in names})
        settings = seeded(host.port, f"places = {PLACES}\nworkers = 16\nthreads = 2")
        with crawling(test, settings, "--progress", seconds=2 * MOST_SECONDS) as server:
            found = lambda number: searched(server, b"p%d" % number) == [names[number]]
            is_over = until_true(lambda: found(TEXTS - 1), MOST_SECONDS)
            test.expect("the last text of a crawl of the most places is found", is_over, True)
            lost = [number for number in range(0, TEXTS, 997) if not until_true(lambda: found(number), 5)]
            test.expect("texts of it that no search finds", lost, [])
            test.expect("the one text more", searched(server, b"p%d" % TEXTS), [])
            test.expect("a word of all texts", searched(server, b"moon"), sorted(names[:TEXTS])[:HITS])
            ended = next((line for line in server.process.stderr if line.startswith(b"hole: crawl ")), b"")
            wanted = b"hole: crawl finished: %d found, 0 failed, 1 dropped in S s\n" % PLACES
            test.expect("how the crawl of the most places ended", re.sub(rb"in \d+ s", b"in S s", ended), wanted)
            server.terminate()


if __name__ == "__main__":
    run_test("limits", __doc__, check_table, check_most_places)
