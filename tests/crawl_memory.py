#!/usr/bin/env python3
"""What memory crawls take, and what becomes of them without it.

    tests/crawl_memory.py [--texts N] [PROGRAM]

`hole serve SETTINGS --crawl-memory BYTES`: the program serves a folder of texts of one size and crawls itself with one worker.
The size of each page follows from the formula in docs/SPECIFICATION.md, so it is known how many texts a limit leaves room for:
a search finds exactly these. Each place is fetched and done all the same, and standard error says once that the crawl reached the
limit. Three further folders have one long text each. The page of one is large, the page of another has the most words of a page
that isn't, and the third text is one word again and again.

Refusals: the program crawls 150 texts of its own, while a library that is loaded before it (preloads/refusals.c) refuses every
allocation of at least so many bytes, or one of these. Merging 64 pages takes the largest ones, of over 100,000 bytes: without
them the crawl finds all pages, with one worker and with several. A crawl that isn't over after 30 seconds fails. Then the stacks
of its threads take all of the program's address space. It still sends every kept reply.

Large texts: the program crawls N texts (320 unless said) of 1 MiB with nothing but different words from a host of this process.
While it crawls, it may take three times the bytes of the texts; after the crawl, twice. That includes what its four workers need
to make pages, some 50 MiB, so it fails with fewer than some 200 texts. A search finds each text by a word that it alone has.

The last lines tell what large texts took, in MiB a text, and 'crawl memory: N passed, M failed'.
"""
import collections
import contextlib
import itertools
import random
import re
import string
import time

from running.server import HOST, Host, Server, ask, crawling, run_test, searched, seeded, until_true

TEXTS, WORDS = 20, 100
# As many searches as the crawl may need to its end, at half a second each. The server ends after them.
SEARCHES = 50
NAMES = [f"text{number:02}.txt" for number in range(TEXTS)]
REACHED = b"hole: the crawl reached --crawl-memory: it leaves pages out\n"
# The words of a large page have more bytes than this, and words of 65,536 bytes have longer ends.
LARGE, LONG = 131_072, 65_536
# How often a word occurs that has several postings.
FREQUENT = 600
UNITS = {"": 1, "K": 1 << 10, "M": 1 << 20, "G": 1 << 30}

# Crawls with refusals.
REFUSED_TEXTS = 150
PLACES, MOST_PLACES = 1_000, 65_536
MERGE = 100_000
SIZES_REFUSED = (8_192, 16_384, 32_768, 65_536, MERGE)
WORKERS = (1, 4)
SECONDS_OF_A_CRAWL = 30.0
# Until then the crawl's own fetches are all requests.
ALONE = 2.0
# The KiB of an address space that the program and four stacks of so many KiB fill.
SPACE, STACK = 36 << 10, 8 << 10
STARTS, ASKED = 6, 20
# Lines with the replies that are kept; WHERE stands for the host and port, between TABs, and CR LF.
KEPT = {
    b"/text0.txt\r\n": b"common word00000\r\n.\r\n", b"/docs\r\n": b"iWelcome\tWHERE.\r\n", b"/docs/b.gif\r\n": b"GIF\0.\n",
    b"nothing\r\n": b"3Not found\tWHERE.\r\n",
}
WHOLE = f"known {REFUSED_TEXTS + 1} waiting 0 out 0 done {REFUSED_TEXTS + 1} dropped 0\n"

# Large texts.
WORDS_OF_A_TEXT, WORDS_A_LINE = 171_000, 12
# Every 69th word of five letters: so many that 171,000 are left.
STEP = 69
MOST_SECONDS = 300.0
# How long memory may take to be given back after the crawl.
SECONDS_TO_GIVE_BACK = 20.0
MEBIBYTE = 1 << 20


def words_of(number, count=WORDS):
    """Words of a text: one that all have, and so many that no other text has."""
    return ["common", *(f"word{number * count + at:05}" for at in range(count))]


def site_of(test, texts):
    """A folder of texts, by their names and their words."""
    return test.site({name: " ".join(words).encode() + b"\n" for name, words in texts.items()})


def long_words(size):
    """Distinct words of a long text, one of them that all texts have, with so many bytes together."""
    words = ["common", *(f"long{number:06}" for number in range((size - 16) // 10))]
    return [*words, "x" * (size - sum(map(len, words)))]


def size_of(words, title, links=()):
    """How many bytes a page counts for: the formula of docs/SPECIFICATION.md."""
    counts = sorted(collections.Counter(words).items())
    own, count = sum(len(word) for word, _ in counts), len(counts)
    to_last = max((number for number, (_, times) in enumerate(counts, 1) if times >= 256), default=0)
    postings = sum(-(-times // 255) for _, times in counts)
    in_index = 2 * own + (18 if own >= LONG else 14) * count + 4 * to_last + 3 * postings
    of_words = own + 5 * count + 2 * to_last if own > LARGE else in_index
    return 512 + len(title) + of_words + sum(176 + 2 * (len(HOST) + len(link)) for link in links)


def size_of_menu(names):
    return size_of(["search", "txt", *(name.removesuffix(".txt") for name in names)], "Search", ["/" + name for name in names])


def size_of_text(words):
    return size_of(words, " ".join(words)[:69])


def hits(port, found):
    """How many texts a search finds at the end of the crawl: the lines of its last reply, without the period."""
    last = None
    for _ in range(SEARCHES):
        last = len(ask(port, b"/search\tcommon\r\n").splitlines()) - 1
        time.sleep(0.01 if last == found else 0.5)
    return last


def check_limit(test, texts, limit, found, told, *words):
    """A crawl of these texts, by their names, with a limit finds so many of them, and says so or doesn't."""
    given = () if limit is None else ("--crawl-memory", limit)
    root = site_of(test, texts)
    known = len(texts) + 1
    settings = seeded(more="tries = 1\nworkers = 1\nthreads = 1")
    with test.serving(root, *given, *words, "--requests", known + SEARCHES, more=settings) as server:
        test.expect(f"{limit}: texts found", hits(server.port, found), found)
        output, error, status = server.end()
        sizes = f"known {known} waiting 0 out 0 done {known} dropped 0\n"
        test.expect(f"{limit}: output and status", (output.decode(), status), (sizes, 0))
        test.expect(f"{limit}: told", error.count(REACHED), told)
        if "--progress" in words:
            left_out = re.findall(rb"hole: failed: gopher://\S+: memory\n", error)
            test.expect(f"{limit}: places whose page is left out are named", len(set(left_out)), len(texts) - found)
            test.expect(f"{limit}: they are counted", f"{sizes[:-1]} failed {len(texts) - found}\n".encode() in error, True)


def check_limits(test):
    """Limits of bytes, at the sizes of pages and beside them, with and without a unit."""
    texts = {name: words_of(number) for number, name in enumerate(NAMES)}
    menu, text = size_of_menu(NAMES), size_of_text(words_of(0))
    rows = [
        (None, TEXTS, 0), (menu + TEXTS * text, TEXTS, 0), (menu + TEXTS * text - 1, TEXTS - 1, 1), (menu + 7 * text, 7, 1),
        (menu + 7 * text, 7, 1, "--progress"), ("64M", TEXTS, 0),
    ]
    for unit, size in UNITS.items():
        room = -(-(menu + 3 * text) // size)
        found = min((room * size - menu) // text, TEXTS)
        rows.append((f"{room}{unit}", found, int(found < TEXTS)))
    for row in rows:
        check_limit(test, texts, *row)


def check_long_texts(test):
    """A long text and a short one count for their sizes."""
    for words in (long_words(LARGE), long_words(LARGE + 1), ["common"] * FREQUENT):
        texts = {"long.txt": words, "short.txt": words_of(0)}
        most = size_of_menu(texts) + sum(map(size_of_text, texts.values()))
        check_limit(test, texts, most, 2, 0)
        check_limit(test, texts, most - 1, 1, 1)


def refused_site(test, count):
    return site_of(test, {f"text{number}.txt": words_of(number, count) for number in range(REFUSED_TEXTS)})


def last_line(test, root, workers, least, refused):
    """What a server writes last that crawls itself, or that it didn't end; and how many allocations of that size it asked for."""
    counted = test.folder / "counted"
    counted.write_text("0\n")
    how = {
        "more": seeded(more=f"places = {PLACES}\ntries = 1\nworkers = {workers}\nthreads = 2"), "seconds": SECONDS_OF_A_CRAWL,
        "before": test.preload("refusals", LEAST=least, REFUSED=refused, COUNTED=counted),
    }
    with Server(test, root, "--requests", REFUSED_TEXTS + 1, **how) as server:
        begin = time.monotonic()
        while server.process.poll() is None:
            time.sleep(0.01)
            if time.monotonic() > begin + ALONE:
                # one of the requests after which the server ends, in the place of a fetch that the crawl didn't make
                with contextlib.suppress(OSError):
                    ask(server.port, b"\r\n")
        output, errors, status = server.end()
        if status < 0:
            return "didn't end", 0
        return (output + errors).decode().splitlines(keepends=True)[-1], int(counted.read_text())


def is_end(line):
    """Whether a server ended as it does when out of memory: it printed 90, or the sizes of a crawl whose workers finished it or
    stopped. Each place that it knows then waits or is done, none is dropped, and a root whose page is there has all its texts."""
    sizes = re.fullmatch(r"known (\d+) waiting (\d+) out 0 done (\d+) dropped 0\n", line)
    if sizes is None:
        return line == "hole: 90\n"
    known, waiting, done = map(int, sizes.groups())
    return known == waiting + done and known in (1, REFUSED_TEXTS + 1)


def check_refused(test):
    """Crawls that are refused all allocations of a size, those for a merge, each of these in turn, and none."""
    root = refused_site(test, WORDS)
    for workers in WORKERS:
        for least in SIZES_REFUSED:
            line, _ = last_line(test, root, workers, least, "all")
            test.expect(f"{workers} workers, {least} bytes refused: {line!r} is an end", is_end(line), True)
        line, merges = last_line(test, root, workers, MERGE, "all")
        test.expect(f"{workers} workers, no merge", line, WHOLE)
        test.expect(f"{workers} workers, a merge was refused", merges > 0, True)
        _, merges = last_line(test, root, workers, MERGE, 0)
        for number in range(merges + 2):
            line, _ = last_line(test, root, workers, MERGE, number)
            test.expect(f"{workers} workers, large allocation {number} refused", line, WHOLE)


def check_full(test):
    """Without memory, replies of a text, a menu and another file, and to a selector that names nothing, come all the same."""
    root, more = refused_site(test, 1), seeded(more=f"places = {MOST_PLACES}\ntries = 1\nworkers = 4\nthreads = 2")
    (root / "docs").mkdir()
    (root / "docs/.menu").write_bytes(b"Welcome\n")
    (root / "docs/b.gif").write_bytes(b"GIF\0.\n")
    before = ("sh", "-c", f'ulimit -s {STACK}; ulimit -v {SPACE}; exec "$@"', "sh")
    for start in range(STARTS):
        with test.serving(root, "--progress", more=more, before=before) as server:
            time.sleep(ALONE)
            where = f"\t{HOST}\t{server.port}\r\n".encode()
            for line, reply in KEPT.items():
                replies = [ask(server.port, line) for _ in range(ASKED)]
                wanted = [reply.replace(b"WHERE", where)] * ASKED
                test.expect(f"start {start}, memory is gone: {line!r}", replies, wanted)


def first_text():
    """The lines of a text of different words of five letters."""
    words = itertools.islice(itertools.product(string.ascii_lowercase, repeat=5), 0, WORDS_OF_A_TEXT * STEP, STEP)
    joined = ["".join(word) for word in words]
    return "".join(" ".join(joined[at:at + WORDS_A_LINE]) + "\r\n" for at in range(0, WORDS_OF_A_TEXT, WORDS_A_LINE)).encode()


def large_texts(count):
    """Texts with other letters in place of those of the first, so that their words differ; each begins with a word of its own."""
    draw, text = random.Random(1436), first_text()
    for number in range(count):
        letters = "".join(draw.sample(string.ascii_lowercase, 26))
        yield b"only%d\r\n%s.\r\n" % (number, text.translate(bytes.maketrans(string.ascii_lowercase.encode(), letters.encode())))


def check_memory(test):
    """Crawls the texts, finds each, and looks at the memory that the server holds."""
    count = test.given.texts
    texts = {b"/%d" % number: text for number, text in enumerate(large_texts(count))}
    size = sum(map(len, texts.values())) / MEBIBYTE
    with Host(lambda line: texts.get(line) or host.menu(b"0", texts)) as host:
        settings = seeded(host.port, f"places = {count + 1}\nworkers = 4\nthreads = 1")
        with crawling(test, settings, seconds=2 * MOST_SECONDS) as server:
            is_found = lambda number: searched(server, b"only%d" % number) == [b"/%d" % number]
            is_crawled = until_true(lambda: all(map(is_found, reversed(range(count)))), MOST_SECONDS, 0.2)
            test.expect("each text is found", is_crawled, True)
            until_true(lambda: server.memory() / 1024 <= 2 * size, SECONDS_TO_GIVE_BACK)
            now, most = server.memory() / 1024, server.memory("VmHWM") / 1024
    taken, peak = now / count, most / count
    print(f"large texts: {size / count:.2f} MiB of text take {taken:.2f} MiB, and {peak:.2f} at the peak")
    test.expect(f"{most:.0f} MiB at the peak are at most three times {size:.0f}", most <= 3 * size, True)
    test.expect(f"{now:.0f} MiB are at most twice {size:.0f}", now <= 2 * size, True)


if __name__ == "__main__":
    run_test("crawl memory", __doc__, check_limits, check_long_texts, check_refused, check_full, check_memory, texts=320)
