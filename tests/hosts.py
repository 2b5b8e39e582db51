#!/usr/bin/env python3
"""Has the built program crawl hosts that would hold its workers, each beside a healthy host and its own site: each crawl ends.

    tests/hosts.py [--full] [PROGRAM]

The hosts are silent, or half or a fourth of their places are; they drip a byte now and then, take no connection, have no
address, reset, lead from menu to menu without an end, or answer late. While a crawl goes on, searches are answered; when it is
over, the healthy host and the own site are found whole, --list-found has each found place once, and --progress has said what
happened. --fetch-pause keeps its time between fetches of another host, and lets the own site be. A server ends by --requests N
though a host holds its workers. Without a time-out a worker waits on. All crawls run beside each other, in 80 seconds. With --full,
the host of which each fourth place is silent is first crawled by itself with the time-out of 60 seconds that the program has
without an option, and has to be over in two minutes. The last line is 'hosts: N passed, M failed'.
"""
import collections
import contextlib
import os
import re
import socket
import threading
import time
from concurrent.futures import ThreadPoolExecutor

from running.server import HOST, SIZES, Host, ask, ask_all, connect, free_port, run_test, until_true

WORKERS = 4
# Seconds: of --fetch-timeout, and how long a machine with other work may take beyond what a crawl has to wait for.
TIMEOUT, SLACK = 2, 12.0
# A fetch takes so many time-outs at most, and a host is given up after so many in a row.
TIMES_IN_ALL, MOST_TIMEOUTS = 10, 3
# After so many seconds a place is named as slow, and a host that was given up is tried again.
SECONDS_UNTIL_SLOW, SECONDS_UNTIL_TRIED = 10, 60
# How many texts a healthy host has, and in the measured case it and the host of which each fourth is silent.
HEALTHY, MEASURED, MEASURED_SILENT = 60, 421, 400
MOST_SECONDS_MEASURED = 120
OWN = {"own.txt": b"ownword\n"}
OWN_PLACES = ["1", "0/own.txt"]
MOST_SECONDS_FOR_A_SEARCH = 5.0
FINISHED = re.compile(r"hole: crawl finished: (\d+) found, (\d+) failed, (\d+) dropped in (\d+) s")
FAILED = re.compile(r"hole: failed: (gopher://\S+): ([a-z ]+?)(?:: (.+))?")
SLOW = re.compile(r"hole: slow: (\d+) s (gopher://\S+)")
TIMED_OUT, GIVEN_UP = "timed out", "host given up"
# A name that is never given an address, and what keeps a machine without a resolver from asking it for long.
NOWHERE, RESOLVER = "nowhere.invalid", {"RES_OPTIONS": "timeout:1 attempts:1"}


def url(port, item, host=HOST):
    """The address of a place, by its type and selector."""
    return f"gopher://{host}:{port}/{item}"


def settings(seeds, more):
    """Settings of a crawl that begins at these places, each a host, a port, a type and a selector."""
    where = 'host = "{}"\nport = {}\n'
    tables = "".join(f'[[seeds]]\n{where.format(*seed[:2])}type = "{seed[2]}"\nselector = "{seed[3]}"\n' for seed in seeds)
    rules = "".join(f"[[allow]]\n{where.format(*pair)}" for pair in dict.fromkeys(seed[:2] for seed in seeds))
    return f"workers = {WORKERS}\n{more}{tables}{rules}"


class Healthy(Host):
    """A host that answers at once: a menu of so many texts, each with a word of its own."""

    def __init__(self, count):
        super().__init__(lambda line: self.replies.get(line, b""))
        self.count = count
        names = [b"/%d" % number for number in range(count)]
        self.replies = {name: b"healthy h%s\r\n.\r\n" % name[1:] for name in names} | {b"": self.menu(b"0", names)}

    def urls(self):
        return [url(self.port, "1"), *(url(self.port, f"0/{number}") for number in range(self.count))]


class Crawl:
    """A server that crawls, and what it says of its crawl."""

    def __init__(self, test, name, server, folder, healthy):
        self.test, self.name, self.server, self.healthy, self.began = test, name, server, healthy, time.monotonic()
        self.errors, self.list = folder / "errors", folder / "found"

    def expect(self, what, got, wanted):
        self.test.expect(f"{self.name}: {what}", got, wanted)

    def told(self):
        """The whole lines on the error stream."""
        return self.errors.read_text().split("\n")[:-1]

    def matches(self, pattern):
        return [found for line in self.told() if (found := pattern.fullmatch(line))]

    def failed(self):
        """The reasons of each place that failed, each with the system's words."""
        reasons = collections.defaultdict(list)
        for found in self.matches(FAILED):
            reasons[found[1]].append((found[2], found[3]))
        return dict(reasons)

    def found(self):
        """The lines of --list-found by their places, which are each listed once."""
        until_true(self.list.exists)
        lines = self.list.read_text().split("\n")[:-1] if self.list.exists() else []
        rows = [line.split("\t", 1) for line in lines]
        self.expect("each listed place is listed once", len(dict(rows)), len(rows))
        return dict(rows)

    def given_up(self):
        return [line for line in self.told() if line.startswith("hole: host given up: ")]

    def is_over(self):
        return any(line.startswith(("hole: crawl finished: ", "hole: crawl ended: ")) for line in self.told())

    def own_hit(self):
        return b"0ownword\t/own.txt\t%s\t%d\r\n.\r\n" % (HOST.encode(), self.server.port)

    def expect_end(self, least, most):
        """Expects the crawl to be over after at least and at most so many seconds, and searches to be answered meanwhile."""
        replies, slowest = [], 0.0
        while not self.is_over() and time.monotonic() < self.began + most:
            asked = time.monotonic()
            replies.append(ask(self.server.port, b"/search\townword\r\n"))
            slowest = max(slowest, time.monotonic() - asked)
            time.sleep(0.1)
        seconds = time.monotonic() - self.began
        self.expect(f"the crawl is over after {least} to {most} s, at {seconds:.1f} s", self.is_over() and least <= seconds, True)
        self.expect("replies to searches meanwhile", {*replies} <= {b".\r\n", self.own_hit()} and len(replies) > 0, True)
        self.expect(f"they are soon there, the slowest after {slowest:.1f} s", slowest < MOST_SECONDS_FOR_A_SEARCH, True)
        return seconds

    def expect_whole(self, others, failed, seconds, dropped=0):
        """Expects the healthy host and the own site to be found whole, these other places to be found too, so many to be failed
        and dropped, and the last lines to say so."""
        whole = [*self.healthy.urls(), *(url(self.server.port, item) for item in OWN_PLACES), *others]
        found, numbers = self.found(), range(self.healthy.count)
        self.expect("the list of found places", sorted(found), sorted(whole))
        titles = {found.get(url(self.healthy.port, f"0/{at}"), "").split("\t")[-1]: at for at in numbers}
        self.expect("titles of the healthy host's texts", titles, {f"healthy h{at}": at for at in numbers})
        sizes = [line.split("\t")[0] for line in found.values()]
        self.expect("their sizes are numbers", [size for size in sizes if not size.isdecimal()], [])
        lines = [b"/search\th%d\r\n" % number for number in numbers]
        hits = [b"0healthy h%d\t/%d\t%s\t%d\r\n.\r\n" % (number, number, HOST.encode(), self.healthy.port) for number in numbers]
        self.expect("searches find each text of the healthy host", ask_all(self.server.port, lines), hits)
        self.expect("a search finds the own text", ask(self.server.port, b"/search\townword\r\n"), self.own_hit())
        known = len(whole) + failed
        last = f"known {known} waiting 0 out 0 done {known} dropped {dropped} failed {failed}"
        self.expect("the sizes at the end are printed once", self.told().count(last), 1)
        self.expect("a line for each failed place", [len(each) for each in self.failed().values()], [1] * failed)
        ended = [tuple(map(int, found.groups())) for found in self.matches(FINISHED)]
        self.expect("the line of the end", [each[:3] for each in ended], [(len(whole), failed, dropped)])
        self.expect("its seconds", [abs(each[3] - seconds) < 3 for each in ended], [True])

    def expect_given_up(self, port, host=HOST):
        self.expect("the host is given up once", self.given_up(), [f"hole: host given up: {host}:{port} ({MOST_TIMEOUTS} time-outs)"])

    def expect_reasons(self, *wanted, given_up=()):
        """Expects these reasons of failed places, perhaps these too, and no others."""
        reasons = {reason for reasons in self.failed().values() for reason in reasons}
        self.expect("the reasons of failed places", reasons - {*given_up}, {*wanted})


@contextlib.contextmanager
def crawl(test, name, seeds, *words, timeout=TIMEOUT, count=HEALTHY, more="", healthy_first=False, env=None, own=OWN):
    """A crawl of these places, a healthy host of so many texts and the own site, in this order unless the healthy one is first."""
    folder = test.site({}, f"{name}-crawl")
    limit = () if timeout is None else ("--fetch-timeout", timeout)
    with Healthy(count) as healthy, (folder / "errors").open("wb") as errors:
        rest = [(HOST, healthy.port, 1, "")], seeds
        seeds = [*(rest[0] + rest[1] if healthy_first else rest[1] + rest[0]), (HOST, "PORT", 1, "")]
        words = ("--progress", "--list-found", folder / "found", *limit, *words)
        how = {"more": settings(seeds, more), "stderr": errors, "env": {**os.environ, **(env or {})}, "seconds": 300}
        with test.serving(test.site(own, f"{name}-site"), *words, **how) as server:
            yield Crawl(test, name, server, folder, healthy)


@contextlib.contextmanager
def holding(is_held, count=0):
    """A host with a menu of so many texts. It doesn't answer those that are held until it ends, and answers others at once."""
    may_end = threading.Event()

    def answer(line):
        if not line:
            return host.menu(b"0", [b"/%d" % number for number in range(count)])
        if is_held(int(line[1:])):
            may_end.wait()
            return b""
        return b"answered a%s\r\n.\r\n" % line[1:]

    with Host(answer) as host:
        try:
            yield host
        finally:
            may_end.set()


def expect_partly_silent(test, name, every, count, healthy, timeout, most):
    """Crawls a host of which each place of so many is silent: it ends soon after a time-out, with the healthy host whole."""
    with holding(lambda number: number % every == 0, count) as host, crawl(
        test, name, [(HOST, host.port, 1, "")], count=healthy, timeout=timeout, more="places = 2000\n"
    ) as crawled:
        seconds = crawled.expect_end(timeout or 60, most)
        ours = [place for place in crawled.found() if place.startswith(url(host.port, ""))]
        failed = crawled.failed()
        places = [url(host.port, "1"), *(url(host.port, f"0/{number}") for number in range(count))]
        crawled.expect("each place is found or failed", sorted([*ours, *failed]), sorted(places))
        silent = [url(host.port, f"0/{number}") for number in range(0, count, every)]
        crawled.expect("silent places that were found", {*ours} & {*silent}, set())
        # Before the last worker is held, the places between the first silent ones are answered.
        first = [url(host.port, f"0/{number}") for number in range(every * (WORKERS - 1)) if number % every]
        crawled.expect("places that were answered first and not found", {*first} - {*ours}, set())
        crawled.expect_whole(ours, len(places) - len(ours), seconds)
        crawled.expect_given_up(host.port)
        crawled.expect_reasons(("read", TIMED_OUT), ("read", GIVEN_UP))
        asked = sum(int(line[1:]) % every == 0 for line in host.asked if line)
        crawled.expect(f"{asked} fetches of silent places are few", WORKERS <= asked < 3 * WORKERS, True)


def check_each_fourth(test):
    """A host of which each fourth place is silent."""
    expect_partly_silent(test, "each fourth silent", 4, MEASURED_SILENT, MEASURED, TIMEOUT, 2 * TIMEOUT + SLACK)


def check_measured(test):
    """The same with the program's own time-out. Before there was one, this crawl didn't end."""
    expect_partly_silent(test, "the measured case", 4, MEASURED_SILENT, MEASURED, None, MOST_SECONDS_MEASURED)


def check_half(test):
    """A host of which each second place is silent."""
    expect_partly_silent(test, "half silent", 2, 40, HEALTHY, TIMEOUT, 2 * TIMEOUT + SLACK)


def check_silent(test):
    """A host that accepts connections and never answers."""
    with holding(lambda _: True) as host, crawl(test, "silent", [(HOST, host.port, 0, f"/{at}") for at in range(20)]) as crawled:
        seconds = crawled.expect_end(TIMEOUT, 2 * TIMEOUT + SLACK)
        crawled.expect_whole([], 20, seconds)
        crawled.expect_given_up(host.port)
        crawled.expect_reasons(("read", TIMED_OUT), ("read", GIVEN_UP))
        crawled.expect("how often it is asked", WORKERS <= len(host.asked) < 3 * WORKERS, True)
        crawled.expect("no place is named as slow", crawled.matches(SLOW), [])


def check_dripping(test):
    """A host that sends a byte now and then, each sooner than the time-out."""
    timeout, count, may_end = 1, 6, threading.Event()

    def drip(_line):
        while not may_end.wait(timeout / 4):
            yield b"i"

    with Host(drip) as host:
        with crawl(test, "dripping", [(HOST, host.port, 0, f"/{at}") for at in range(count)], timeout=timeout) as crawled:
            seconds = crawled.expect_end(TIMES_IN_ALL * timeout - 1, 2 * TIMES_IN_ALL * timeout + SLACK)
            crawled.expect_whole([], count, seconds)
            crawled.expect_given_up(host.port)
            crawled.expect_reasons(("read", TIMED_OUT), given_up=[("read", GIVEN_UP)])
        may_end.set()


def check_black_hole(test):
    """A host whose queue of connections is full, and that accepts none."""
    with socket.socket() as listener, contextlib.ExitStack() as held:
        listener.bind((HOST, 0))
        listener.listen(0)
        port = listener.getsockname()[1]
        is_full = False
        while not is_full:
            try:
                held.enter_context(connect(port, wait=0.5))
            except TimeoutError:
                is_full = True
        with crawl(test, "black hole", [(HOST, port, 0, f"/{at}") for at in range(20)]) as crawled:
            seconds = crawled.expect_end(TIMEOUT, 2 * TIMEOUT + SLACK)
            crawled.expect_whole([], 20, seconds)
            crawled.expect_given_up(port)
            crawled.expect_reasons(("connect", TIMED_OUT), ("connect", GIVEN_UP))


def check_unresolvable(test):
    """A host whose name has no address."""
    with crawl(test, "unresolvable", [(NOWHERE, 70, 0, f"/{at}") for at in range(20)], env=RESOLVER) as crawled:
        seconds = crawled.expect_end(0, SLACK)
        crawled.expect_whole([], 20, seconds)
        crawled.expect_given_up(70, NOWHERE)
        crawled.expect_reasons(("connect", "no such host"), ("connect", GIVEN_UP))


def check_resets(test):
    """A host that resets each connection, and one where nobody listens: both are asked for each of their places."""
    absent = free_port()
    with Host(lambda _line: None) as host:
        seeds = [(HOST, port, 0, f"/{at}") for at in range(20) for port in (host.port, absent)]
        with crawl(test, "resets", seeds, more="tries = 2\n") as crawled:
            seconds = crawled.expect_end(0, SLACK)
            crawled.expect_whole([], 40, seconds)
            crawled.expect("no host is given up", crawled.given_up(), [])
            crawled.expect_reasons(("read", "connection reset"), ("connect", "connection refused"))
            asked = {b"/%d" % at: 2 for at in range(20)}
            crawled.expect("how often each place is asked for", dict(collections.Counter(host.asked)), asked)
            refused = [place for place, reasons in crawled.failed().items() if reasons == [("connect", "connection refused")]]
            crawled.expect("places where nobody listens", sorted(refused), sorted(url(absent, f"0/{at}") for at in range(20)))


def check_endless_menus(test):
    """A host each of whose menus leads to five new ones: the crawl ends when it knows as many places as it may."""
    links, most = 5, 400
    with Host(lambda line: host.menu(b"1", [b"%s/%d" % (line, at) for at in range(links)])) as host:
        more = f"places = {most}\n"
        with crawl(test, "endless menus", [(HOST, host.port, 1, "")], more=more, healthy_first=True) as crawled:
            seconds = crawled.expect_end(0, SLACK)
            menus = [place for place in crawled.found() if place.startswith(url(host.port, ""))]
            crawled.expect("how many menus are found", len(menus), most - HEALTHY - 1 - len(OWN_PLACES))
            # Each menu but the first one was named by one link.
            dropped = links * len(menus) - (len(menus) - 1)
            crawled.expect_whole(menus, 0, seconds, dropped)
            told = [line for line in crawled.told() if line.startswith("hole: dropped links: ")]
            wanted = f"hole: dropped links: most of them in menus of {HOST}:{host.port} ({dropped})"
            crawled.expect("whose menus named the dropped links", told, [wanted])


def check_late(test):
    """A host that answers after a while, but within the time-out: its places are named once, and are found."""
    seconds_late, names = SECONDS_UNTIL_SLOW + 3, [f"/{at}" for at in range(3)]

    def answer(_line):
        time.sleep(seconds_late)
        return b"late\r\n.\r\n"

    with Host(answer) as host, crawl(test, "late", [(HOST, host.port, 0, name) for name in names], timeout=60) as crawled:
        seconds = crawled.expect_end(seconds_late, seconds_late + SLACK)
        places = [url(host.port, f"0{name}") for name in names]
        crawled.expect_whole(places, 0, seconds)
        slow = crawled.matches(SLOW)
        crawled.expect("each slow place is named once", sorted(found[2] for found in slow), places)
        after = [SECONDS_UNTIL_SLOW <= int(found[1]) <= seconds_late for found in slow]
        crawled.expect(f"after how long, {[found[1] for found in slow]}", after, [True] * len(names))
        crawled.expect("no host is given up", crawled.given_up(), [])


def check_again(test):
    """A host that is given up, and answers again later: a place of it that comes a minute after is found."""
    steps, silent, more = 64, 6, 5
    answers = threading.Event()

    def answer_late(line):
        """A chain of menus, each a second late. The last ones each name a place of the host that was given up."""
        time.sleep(1)
        number = int(line[1:])
        if number == steps:
            answers.set()
        name = [b"/%d" % (number + 1000)] if number >= steps else []
        following = [b"/%d" % (number + 1)] if number < steps + more else []
        return chain.menu(b"1", following)[:-3] + host.menu(b"0", name)

    def answer(line):
        if not answers.is_set():
            answers.wait()
        return b"again\r\n.\r\n"

    with Host(answer_late) as chain, Host(answer) as host:
        seeds = [(HOST, host.port, 0, f"/{at}") for at in range(silent)] + [(HOST, chain.port, 1, "/0")]
        with crawl(test, "given up and tried again", seeds) as crawled:
            seconds = crawled.expect_end(SECONDS_UNTIL_TRIED, steps + more + 2 * TIMEOUT + SLACK)
            found = [url(host.port, f"0/{1000 + number}") for number in range(steps, steps + more + 1)]
            found += [url(chain.port, f"1/{number}") for number in range(steps + more + 1)]
            crawled.expect_whole(found, silent, seconds)
            crawled.expect_given_up(host.port)
        answers.set()


def check_pause(test):
    """A pause is kept between the fetches of another host, and not between those of the own site."""
    pause, texts, own = 0.4, 12, {f"own{at}.txt": b"ownword\n" for at in range(60)} | OWN
    times = []

    def answer(line):
        times.append(time.monotonic())
        return b"paused\r\n.\r\n" if line else host.menu(b"0", [b"/%d" % at for at in range(texts)])

    with Host(answer) as host:
        seeds = [(HOST, host.port, 1, "")]
        folder = test.site({}, "pause-crawl")
        with (folder / "errors").open("wb") as errors:
            words = ("--progress", "--fetch-pause", int(1000 * pause), "--list-found", folder / "found")
            more = settings([*seeds, (HOST, "PORT", 1, "")], "")
            with test.serving(test.site(own, "pause-site"), *words, more=more, stderr=errors, seconds=300) as server:
                crawled = Crawl(test, "pause", server, folder, None)
                until_true(crawled.is_over, texts * pause + SLACK)
                seconds = time.monotonic() - crawled.began
                crawled.expect("how many places are found", len(crawled.found()), texts + 1 + len(own) + 1)
    crawled.expect("how many fetches another host sees", len(times), texts + 1)
    # A fetch can be seen later than it begins, and the one after it not.
    early = [at for at, seen in enumerate(times) if seen - times[0] < at * pause - pause / 2]
    crawled.expect(f"fetches that come too early, of {[round(seen - times[0], 2) for seen in times]}", early, [])
    most = len(own) * pause
    crawled.expect(f"the own site isn't crawled with pauses: {seconds:.1f} of {most} s", texts * pause - pause <= seconds < most, True)


def check_requests(test):
    """A server that ends after a connection ends though a host holds each of its workers."""
    with holding(lambda _: True) as host:
        seeds = [(HOST, host.port, 0, f"/{at}") for at in range(2 * WORKERS)]
        words = ("--requests", 1, "--fetch-timeout", TIMEOUT)
        with test.serving(test.site(OWN, "requests-site"), *words, more=settings(seeds, ""), seconds=300) as server:
            until_true(lambda: len(host.asked) == WORKERS)
            reply = ask(server.port, b"/own.txt\r\n")
            began = time.monotonic()
            output, error, status = server.end()
            seconds = time.monotonic() - began
    test.expect("requests: the reply", reply, b"ownword\r\n.\r\n")
    test.expect("requests: the end", (re.sub(rb"\d+", b"N", output), error, status), (re.sub(rb"\d+", b"N", SIZES), b"", 0))
    test.expect(f"requests: it comes soon, after {seconds:.1f} s", seconds < 2 * TIMEOUT + SLACK, True)


def check_without_timeout(test):
    """Without a time-out a place stays out, and is found when its host answers at last."""
    may_answer = threading.Event()

    def answer(_line):
        may_answer.wait()
        return b"at last\r\n.\r\n"

    with Host(answer) as host, crawl(test, "no time-out", [(HOST, host.port, 0, "/late")], timeout=0) as crawled:
        until_true(crawled.is_over, MOST_TIMEOUTS * TIMEOUT)
        crawled.expect("a crawl that waits is over", crawled.is_over(), False)
        crawled.expect("a search finds the own text meanwhile", ask(crawled.server.port, b"/search\townword\r\n"), crawled.own_hit())
        crawled.expect("failed places", crawled.failed(), {})
        may_answer.set()
        crawled.expect_whole([url(host.port, "0/late")], 0, crawled.expect_end(MOST_TIMEOUTS * TIMEOUT, MOST_TIMEOUTS * TIMEOUT + SLACK))


CHECKS = (
    check_again, check_dripping, check_late, check_each_fourth, check_half, check_silent, check_black_hole, check_unresolvable,
    check_resets, check_endless_menus, check_pause, check_requests, check_without_timeout,
)


def check_all(test):
    """Runs the crawls beside each other, because most of their time is waiting; the measured one before them, if it is asked for."""
    if test.given.full:
        check_measured(test)
    with ThreadPoolExecutor(len(CHECKS)) as pool:
        for ran in [pool.submit(check, test) for check in CHECKS]:
            ran.result()


if __name__ == "__main__":
    run_test("hosts", __doc__, check_all, full=False)
