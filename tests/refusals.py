#!/usr/bin/env python3
"""Refuses each allocation of a program in turn, by a library that is loaded before it (preloads/refusals.c).

    tests/refusals.py [PROGRAM]

A script that is replayed, a check of a site and a server that ends at once print `hole: 90` at their end, after what they wrote
until then, or words that can't be read (status 2), if the refused allocation was theirs; or go on to their whole output, if the
program can do without the allocation. A server that is refused an allocation for a request sends a beginning of the reply, and
answers the same request with the whole of it then. It gives the places of such clients back, and closes those that would stay.
Workers of a crawl that stop are told while others fetch, and no place is named as failed after its first try of two. Calls that
change or consume what they are given are made by a test of crates/test_library, which makes a refused one again.

The last line is 'refusals: N passed, M failed'.
"""
import contextlib
import mmap
import os
import signal
import subprocess
import threading
import time
from concurrent.futures import ThreadPoolExecutor

from drawn.sizes import crawl_of_many_pages
from models import model
from models.site_model import Site
from models.worked import COUNTS, DENY_RULE, FIRST_CRAWL, MATCHES, TWO_TRIES, WHOLE_SEARCH, searches
from running.server import (
    HOST, ROOT, Host, ask, connect, crawling, free_port, is_open, read_all, run_test, searched, seeded, until_true, with_few_files,
)

CRATE = ROOT / "crates" / "test_library"
CALLS = CRATE / "out" / "test_library_tests"
CALLED = "desks::refused_calls_succeed_when_made_again"
MOST_RUNS = 100_000
# Each of these runs asks for more allocations than this.
LEAST_RUNS = 20
SECONDS = 20
QUESTIONS = (b"moon and p2*", b"p* not moon", b"a or b or c or p1 or p2 or p3", b"not moon", b"and or p4", b" -- ")
SETTINGS = seeded(more="threads = 1\nworkers = 1\n") + f'[[deny]]\nhost = "{HOST}"\nport = PORT\nprefix = "/private"\n'
# What --progress prints of workers that stop, and once of clients.
STOPPED = b"hole: workers that stopped, out of memory: %d\n"
SHORT = b"hole: a client got no whole reply: out of memory\n"
# A copy of a place with this selector takes memory.
LONG_SELECTOR = "/".ljust(200, "x")
# After so many texts the next claims take memory, and a worker that stops is told before so many seconds are over.
TEXTS_BEFORE, SECONDS_UNTIL_TOLD = 11, 2.0
# Rests of a server, after each of which it looks for workers that stopped.
SECONDS_OF_RESTS = 0.35
# A server of eight threads that may open so many files more has so many places. How long a connection without memory may take.
FILES_BESIDE, PLACES, SECONDS_OF_REFUSAL = 64, 16, 0.05
# A connection that has a deadline is closed after so many seconds.
LINGERS = 16
FOUND_LAST = b"/search\thel* or wel* not mars"
LINES = (
    b"", b"/docs", b"/a.txt", b"/docs/b.gif", b"/docs/.menu", b"/search\t -- ", b"/a\0b", b"/search\thello", FOUND_LAST,
    b"/search\tmars",
)
FILES = {"a.txt": b"hello\n", "docs/.menu": b"Welcome\n0Read\t/a.txt\n1Far\t\tfar.example\t70\n", "docs/b.gif": b"\0gif"}


def refused(test, words, given, number):
    """What a run with one allocation refused writes, its errors and its status, and how many allocations it asked for."""
    counted = test.folder / "counted"
    counted.write_text("0\n")
    before = test.preload("refusals", REFUSED=number, COUNTED=counted)
    ran = subprocess.run([*before, *words], input=given, capture_output=True, timeout=SECONDS)
    return (ran.stdout, ran.stderr, ran.returncode), int(counted.read_text())


def refuse_each(test, name, words, given, wanted, is_refused):
    """Refuses each allocation of these words. A run is as `wanted`, or is told apart by `is_refused`."""
    told, number, counted = 0, 0, 0
    while counted >= number and number < MOST_RUNS and test.failed <= 20:
        number += 1
        end, counted = refused(test, words, given, number)
        is_told = end != wanted and is_refused(*end)
        told += is_told
        test.expect(f"{name}, allocation {number} refused", end if not is_told else wanted, wanted)
    # a run is counted only if the library was loaded, and its allocation refused if that many were asked for
    test.expect(f"{name}: allocations are refused, to the last", number > LEAST_RUNS and counted < number, True)
    if is_refused is not never:
        test.expect(f"{name}: of {number} refusals some are told", told > 0, True)


def never(*_):
    """A program that writes the same whatever is refused."""
    return False


def tells(wanted, *numbers):
    """Whether a run printed a beginning of what is wanted, and one of these numbers; or that its words can't be read."""
    ends = tuple(b"hole: %d\n" % number for number in numbers)

    def is_told(output, error, status):
        is_of_words = (output, status) == (b"", 2) and error.startswith(b"error: ")
        return is_of_words or status == 1 and error.endswith(ends) and wanted.startswith(output)

    return is_told


def check_replays(test):
    """Scripts: what a refused run wrote is a beginning of what the model writes."""
    # seventy texts are merged; links are twice there, denied and foreign; words are there over 254 times
    scripts = {"a menu": b"\n".join([*crawl_of_many_pages(70, 1), searches(*QUESTIONS)])}
    worked = {"FIRST_CRAWL": FIRST_CRAWL[0], "WHOLE_SEARCH": WHOLE_SEARCH[0], "MATCHES": MATCHES[0]}
    scripts |= {**worked, "DENY_RULE": DENY_RULE, "TWO_TRIES": TWO_TRIES[0], "COUNTS": COUNTS}
    for name, given in scripts.items():
        wanted = model.replayed(given)
        refuse_each(test, f"replay of {name}", [test.program, "replay"], given, wanted, tells(wanted[0], 90))


def check_starts(test):
    """A check of a site that is sound, and a server that ends at once: its crawl finds nobody who answers."""
    settings, port = test.folder / "settings.toml", free_port()
    head = f'host = "{HOST}"\nport = {port}\nroot = "{test.site(FILES)}"\n'
    settings.write_text(head + SETTINGS.replace("PORT", str(port)))
    for words, last, numbers in ((["check"], b"sound\n", [90]), (["serve", "--requests", "0"], b"dropped 0\n", [90, 82])):
        given = [test.program, words[0], settings, *words[1:]]
        wanted = refused(test, given, b"", 0)[0]
        test.expect(f"{words[0]} ends well", (wanted[0].endswith(last), *wanted[1:]), (True, b"", 0))
        is_told, fault = tells(wanted[0], *numbers), lambda output: output.startswith(b"fault: 90\n")
        is_refused = lambda output, *end: is_told(b"" if fault(output) else output, *end)
        refuse_each(test, words[0], given, b"", wanted, is_refused)


def replies_of(port):
    """Request lines, with their replies after the server's crawl of itself."""
    site = Site(HOST.encode(), port, {path.encode(): content for path, content in FILES.items()})
    site.finish_crawl(lambda place: place[:2] == (site.host, port), [(site.host, port, b"", b"1")], 4_096)
    return {line: site.answer(line) for line in LINES}


def shared_number(path):
    """A number that is shared with the server, by a file."""
    path.write_bytes(bytes(8))
    with path.open("r+b") as file:
        return memoryview(mmap.mmap(file.fileno(), 8)).cast("q")


def asked(port, line):
    """The reply to a line, or what of it came before the connection broke."""
    try:
        return ask(port, line + b"\r\n")
    except OSError:
        return b""


def check_line(test, left, port, line, wanted):
    """Asks a line with each allocation refused, and once more after each."""
    number, is_met = 0, True
    while is_met and number < MOST_RUNS and test.failed <= 20:
        number += 1
        left[0] = number
        reply = asked(port, line)
        is_met = left[0] <= 0
        left[0] = 0
        is_beginning = wanted.startswith(reply) if is_met else reply == wanted
        test.expect(f"server: {line!r}, allocation {number} refused: {reply!r} is a beginning of the reply", is_beginning, True)
        test.expect(f"server: {line!r} once more after allocation {number}", asked(port, line), wanted)
    test.expect(f"server: {line!r} takes memory without an end", number < MOST_RUNS, True)


def check_requests(test):
    """A server that goes on whatever it is refused, asked once its crawl of itself has come to its end."""
    left, told = shared_number(test.folder / "left"), (test.folder / "told").open("wb")
    how = {"more": SETTINGS, "before": test.preload("refusals", LEFT=test.folder / "left"), "stderr": told}
    with told, test.serving(test.site(FILES), "--progress", **how) as server:
        rows = replies_of(server.port)
        until_true(lambda: asked(server.port, FOUND_LAST) == rows[FOUND_LAST])
        for line, wanted in rows.items():
            check_line(test, left, server.port, line, wanted)
        test.expect("server: is still up", server.process.poll(), None)
    test.expect("server: how often it is told", (test.folder / "told").read_bytes().count(SHORT), 1)


@contextlib.contextmanager
def idle(test, files, *words, threads=1, **how):
    """A server that waits for clients and does nothing else, and the number by which its allocations are refused."""
    root = test.site(files)
    path = root.with_suffix(".left")
    left = shared_number(path)
    how["before"] = (*how.get("before", ()), *test.preload("refusals", LEFT=path))
    with test.serving(root, *words, more=f"threads = {threads}\n", **how) as server:
        # the main thread asks for memory until its crawl of nothing is over
        time.sleep(SECONDS_OF_RESTS)
        yield server, left


def check_shortage(test):
    """A client that gets no whole reply is told, also if another of the same round gets its own."""
    path = test.folder / "told"
    with path.open("wb") as told, idle(test, FILES, "--progress", stderr=told) as (server, left):
        with connect(server.port) as first, connect(server.port) as second:
            first.sendall(b"/search\thel")
            second.sendall(b"/a.t")
            time.sleep(SECONDS_OF_RESTS)
            server.process.send_signal(signal.SIGSTOP)
            first.sendall(b"lo\r\n")
            second.sendall(b"xt\r\n")
            left[0] = 1
            server.process.send_signal(signal.SIGCONT)
            test.expect("shortage: the reply of the second of a round", read_all(second), b"hello\r\n.\r\n")
            test.expect("shortage: that of the first", read_all(first), b"")
        is_told = until_true(lambda: SHORT in path.read_bytes())
        test.expect("shortage: it is told", is_told, True)


def refuse_places(port, left):
    """Makes connections that have to wait for their clients, each with another allocation refused, up to the first with none.
    How many were closed for it."""
    number, is_met, closed = 0, True, 0
    while is_met and number < MOST_RUNS:
        number += 1
        left[0] = number
        with connect(port, wait=SECONDS_OF_REFUSAL) as client, contextlib.suppress(TimeoutError):
            client.sendall(b"/a")
            read_all(client)
            closed += 1
        is_met = left[0] <= 0
        left[0] = 0
    return closed


def check_places(test):
    """Connections for which there is no memory give their places back: as many others as there are places aren't closed."""
    with idle(test, FILES, "--clients-per-address", 100, threads=8, before=with_few_files(FILES_BESIDE + PLACES)) as (server, left):
        closed = sum(refuse_places(server.port, left) for _ in range(PLACES))
        test.expect("places: connections without memory are closed", closed >= PLACES, True)
        with contextlib.ExitStack() as ends:
            clients = []
            for _ in range(PLACES):
                clients.append(ends.enter_context(connect(server.port)))
                # so that one thread accepts most of them, as it is the one that waited last
                time.sleep(SECONDS_OF_REFUSAL)
            time.sleep(SECONDS_OF_RESTS)
            test.expect("places: as many clients as there are places", list(map(is_open, clients)), [True] * PLACES)


def check_deadlines(test):
    """A connection whose deadline finds no memory is closed, as each other is in time."""
    with idle(test, {"large.png": bytes(70_000)}) as (server, left), contextlib.ExitStack() as ends:
        files = lambda: len(os.listdir(f"/proc/{server.process.pid}/fd"))
        held, number, is_met = files(), 0, True
        while is_met and number < MOST_RUNS:
            number += 1
            left[0] = number
            client = ends.enter_context(connect(server.port))
            with contextlib.suppress(OSError):
                client.sendall(b"/large.png\r\n")
                read_all(client)
            is_met = left[0] <= 0
            left[0] = 0
        test.expect("deadlines: allocations are refused", number > 1, True)
        are_closed = until_true(lambda: files() <= held, LINGERS + SECONDS)
        test.expect("deadlines: connections that stay open", (are_closed, files() - held), (True, 0))


def check_crawl(test):
    """A crawl that is refused its workers: the server answers its requests, of which the crawl makes none, and 90 is told.

    The main thread asks for their memory while a server thread asks for its own. So only the main thread's are counted."""
    root, counted = test.site(FILES), test.folder / "counted"

    def end_of(number):
        """Whether both requests were answered, and how the server ended."""
        before = test.preload("refusals", OF_MAIN=1, REFUSED=number, COUNTED=counted)
        with test.serving(root, "--requests", 2, more=SETTINGS, before=before) as server:
            replies = [asked(server.port, b"") for _ in range(2)]
            return replies == [replies_of(server.port)[b""]] * 2, server.end()

    end_of(0)
    last = int(counted.read_text())
    # the last allocations are those of the crawl and of the end, and those before that of its workers are of the start
    is_told = any(end_of(number) == (True, (b"", b"hole: 90\n", 1)) for number in range(last, 0, -1))
    test.expect("a crawl without workers is told", is_told, True)


def stops_workers(test, number):
    """How often --progress tells that one and that two workers stopped while another fetched, with this allocation refused after
    all began, and again then; and whether it was refused."""
    may_go, may_follow, may_end = threading.Event(), threading.Event(), threading.Event()
    waits = {b"/text": may_go, b"/next": may_follow, b"/held": may_end}

    def answer(line):
        if line in waits:
            waits[line].wait(SECONDS)
        return menu if line == b"" else b".\r\n"

    left, path = shared_number(test.folder / "left"), test.folder / "told"
    before = test.preload("refusals", LEFT=test.folder / "left")
    with Host(answer) as host, path.open("wb") as told:
        menu = host.menu(b"0", (*(b"/%d" % number for number in range(TEXTS_BEFORE)), b"/held", b"/text", b"/next", b"/rest", b"/last"))
        settings = seeded(host.port, "threads = 1\nworkers = 3")
        with crawling(test, settings, "--progress", before=before, stderr=told):
            until_true(lambda: set(waits) <= set(host.asked))
            is_told = lambda stopped: STOPPED % stopped in path.read_bytes()
            left[0] = number
            may_go.set()
            until_true(lambda: is_told(1) or b"/rest" in host.asked, SECONDS_UNTIL_TOLD, 0.002)
            is_refused = left[0] <= 0
            if is_told(1):
                left[0] = number
                may_follow.set()
                until_true(lambda: is_told(2) or b"/rest" in host.asked, SECONDS_UNTIL_TOLD, 0.002)
                time.sleep(SECONDS_OF_RESTS)
            lines = [path.read_bytes().count(STOPPED % stopped) for stopped in (1, 2)]
            may_end.set()
    return lines, is_refused


def check_workers(test):
    """Workers that have no memory for their next claims stop: --progress tells of each at once and once, while another fetches."""
    lines, is_refused, number = [0, 0], True, 0
    while is_refused and not lines[0]:
        number += 1
        lines, is_refused = stops_workers(test, number)
    test.expect(f"workers that stop are told; {number} allocations were refused", lines, [1, 1])


def tells_reset(test, number):
    """Whether --progress names a place as failed whose first fetch of two is reset, with this allocation refused after that; and
    whether it was refused before the second fetch was answered."""
    left, path, met = shared_number(test.folder / "left"), test.folder / "told", []
    before = test.preload("refusals", LEFT=test.folder / "left")

    def answer(line):
        met.append(left[0] <= 0)
        left[0] = 0 if host.asked[1:] else number
        return b"moon\r\n.\r\n" if host.asked[1:] else None

    with Host(answer) as host, path.open("wb") as told:
        settings = seeded(host.port, "threads = 1\nworkers = 1\ntries = 2", f'type = "0"\nselector = "{LONG_SELECTOR}"\n')
        with crawling(test, settings, "--progress", "--requests", 0, before=before, stderr=told) as server:
            server.process.wait(SECONDS)
    return b": connection reset" in path.read_bytes(), len(met) < 2 or met[1]


def check_failures(test):
    """A place isn't named for the failure of its first try of two, also if there was no memory for counting the try."""
    is_told, is_refused, number = False, True, 0
    while is_refused and not is_told and number < MOST_RUNS:
        number += 1
        is_told, is_refused = tells_reset(test, number)
        test.expect(f"whether a first try is told, with allocation {number} refused", is_told, False)
    test.expect("failures: allocations are refused", number > 1, True)


def loses_page(test, number):
    """Whether a search finds a text with this allocation refused after the text was sent, and whether --progress names it as failed
    for want of memory; and whether the allocation was refused while the crawl went on."""
    left, path = shared_number(test.folder / "left"), test.folder / "told"
    before = test.preload("refusals", LEFT=test.folder / "left")

    def answer(line):
        left[0] = number if line else 0
        return b"moon\r\n.\r\n" if line else menu

    with Host(answer) as host, path.open("wb") as told:
        menu = host.menu(b"0", (b"/text",))
        settings = seeded(host.port, "threads = 1\nworkers = 1\ntries = 1")
        with crawling(test, settings, "--progress", before=before, stderr=told) as server:
            until_true(lambda: b"hole: crawl finished" in path.read_bytes())
            is_refused, left[0] = left[0] <= 0, 0
            found = searched(server, b"moon") == [b"/text"]
    return found, b"/0/text: memory\n" in path.read_bytes(), is_refused


def check_pages(test):
    """A text for whose page there is no memory is told as failed, and no other is; each of the others is found."""
    is_refused, number, lost = True, 0, 0
    while is_refused and number < MOST_RUNS:
        number += 1
        found, is_told, is_refused = loses_page(test, number)
        test.expect(f"a text is found or told, with allocation {number} refused", found != is_told, True)
        lost += is_told
    test.expect("pages without memory", lost > 0, True)


def check_calls(test):
    """The test that makes each refused call again. It prints what says that it passed."""
    if not os.access(CALLS, os.X_OK):
        subprocess.run(["rt", "test"], cwd=CRATE, check=True, stdout=subprocess.DEVNULL)
    words = [CALLS, CALLED]
    wanted = refused(test, words, b"", 0)[0]
    test.expect(CALLED, (wanted[0] != b"", *wanted[1:]), (True, b"", 0))
    refuse_each(test, CALLED, words, b"", wanted, never)


CHECKS = (
    check_calls, check_replays, check_starts, check_requests, check_shortage, check_places, check_crawl, check_workers,
    check_failures, check_pages,
)


def check_all(test):
    """Makes the checks one by one, and the one that mostly waits beside them."""
    with ThreadPoolExecutor(1) as beside:
        waits = beside.submit(check_deadlines, test)
        for check in CHECKS:
            check(test)
        waits.result()


if __name__ == "__main__":
    run_test("refusals", __doc__, check_all)
