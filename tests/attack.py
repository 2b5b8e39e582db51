#!/usr/bin/env python3
"""Attacks the built program over loopback as hostile clients do, while ordinary clients ask it too.

    tests/attack.py [--seconds N] [--memory KIB] [--heavy] [PROGRAM]

A crowd of clients that say nothing, send a byte a second, read nothing of 8 MiB, or reset in mid-reply stays for N seconds
(7 without N). Then come lines at and over the limit, lines that ask for what lies outside of the folder or is hidden, lines
without an end, clients that send on, more silent clients than there are places, beside downloads too, more of one address than
may be, one that stays after its reply, descriptors that are short, clients that ask for 8 MiB or a large menu and read nothing, and clients that ask the heaviest searches. Every
ordinary client has to be answered whole within SOON seconds, the program's memory has to stay below KIB (24,576 without it; a
build with an address sanitizer, as `rt try` makes, takes some 64,000), and the program has to end well. The last line is
'attack: N passed, M failed'. It takes about N + 60 seconds, and some minutes if the program fails.

While 1,000 heavy searches wait for their turn, the program takes less than 8 MiB for them, and an ordinary reply takes less than
SOON seconds. Beside heavy searches of 4,096 texts, ordinary replies take less than 50 ms in the median and 500 ms at the 99th
percentile. With --heavy there are 65,000 texts and a minute of searches, the bounds are 5 and 50 ms, and nothing else is tried.
"""
import contextlib
import functools
import itertools
import multiprocessing
import os
import pathlib
import random
import re
import resource
import socket
import time
from concurrent.futures import ProcessPoolExecutor, ThreadPoolExecutor

from drawn import site_drawing
from running.heavy import Heavy, flood, heavy_texts
from running.server import (
    HOST, SIZES, WAIT, ask, ask_all, ask_whole, connect, is_open, read_all, reset, run_test, until_true, with_few_files,
)
from models.site_model import Site

SILENT, SLOW, DEAF, ORDINARY, HEAVY = 1_000, 200, 50, 4, 64
RESETS_A_SECOND = 15
SOON = 5.0
MOST_MEMORY = 24_576  # KiB, of a server whose files have 9 MiB
PLACES, EXCESS, MOST_ABOVE, ATTEMPTS = 100, 10, 20, 5
MAX_HELD = 300_000_000
# So many take three times the bytes of 1,000 if the queue of each is as large as that of a few.
DEAF_CROWD, MAX_HELD_BY_CROWD = 3_000, 450_000_000
# For servers whose clients all have one address.
ANY_ADDRESS = ("--clients-per-address", 100_000)
DOWNLOADS = 5
LINGERS = 16  # seconds
# A server that waits by a time of its start waits for as long as it has been up.
SECONDS_UP, SECONDS_UP_FOR_LONG = 3.0, 6.0
HALF_CLOSED = 8
DEAF_TO_LARGE = 20
WAITING = 1_000
MAX_FOR_WAITING = 8_192  # KiB, with what the search takes whose turn it is; begun searches of WAITING clients take 25,000
MAX_FOR_LARGE = 8_192  # KiB, half a copy of a reply
MIB = 1 << 20
LARGE = bytes(range(256)) * 32_768
MIDDLE = bytes(range(256)) * 256
WIDE = b"moon and sun\n" * 20_000
SECRET = site_drawing.SECRET
ASKED = (b"/a.txt\r\n", b"\r\n", b"/wide.txt\r\n", b"/gone\r\n", b"/search\tmoon\r\n", b"/docs\r\n")
NOT_GIVEN = (
    *site_drawing.NOWHERE, b"/.secrets", b"/docs/../a.txt", b"//a.txt", b"/docs//b.txt", b"/given/..", b"/given/../secret.txt",
    b"/shared/.two", b"/shared/../secret.txt", b"\\..\\secret.txt", b"a.txt", b"/a.txt\0", b"/\0", b"/a.txt\r", b"/..\\",
    b"/../root/a.txt", b"y" * 255, b"y" * 256,
)
FILES = {b"a.txt": b"hello\n", b"docs/b.txt": b"..\n", b"large.png": LARGE, b"middle.png": MIDDLE, b"wide.txt": WIDE}
# Draws a folder with links to what lies beside it.
WITH_LINKS = 2


class Attacked:
    """Servers of one folder, with what lies beside it, and what they have to answer."""

    def __init__(self, test):
        self.test, self.given, self.expect = test, test.given, test.expect
        self.root, draw = test.site({}, "attacked/root"), random.Random(WITH_LINKS)
        outside = self.root.with_name("outside")
        self.files = site_drawing.lay_out(draw, bytes(self.root), bytes(outside), dict(FILES))
        (self.root.parent / "secret.txt").write_bytes(SECRET)

    def serving(self, *words, **how):
        return self.test.serving(self.root, *words, **how)

    @functools.cache
    def site(self, port):
        return Site(HOST.encode(), port, self.files)

    def is_answered(self, server, what, line=b"/a.txt\r\n"):
        """Expects an ordinary client to get its reply."""
        self.expect(what, ask_whole(server.port, line), self.site(server.port).reply(line))

    def are_answered(self, server, what, rounds, seconds=0.0):
        """Starts ordinary clients that ask so many lines each in so many seconds. Once called, expects that all were answered,
        and gives the seconds of the slowest reply."""
        site, clients = self.site(server.port), ThreadPoolExecutor(ORDINARY)
        asking = [clients.submit(ask_in_turn, site, rounds, seconds / rounds) for _ in range(ORDINARY)]

        def end():
            answered, slowest = zip(*(each.result() for each in asking))
            self.expect(f"ordinary clients answered {what}", sum(answered), ORDINARY * rounds)
            return max(slowest)

        return end

    def holds_little(self, server):
        memory, most = server.memory("VmHWM"), self.given.memory
        self.expect(f"{memory} KiB are below {most} KiB", bool(memory) and memory < most, True)
        print(f"attack: {memory} KiB at most", flush=True)


def clients_of(ends, server, count):
    """So many connections, which `ends` closes."""
    return [ends.enter_context(connect(server.port)) for _ in range(count)]


def ask_in_turn(site, rounds, pause):
    """Asks one line after another, and waits a little before every second one. Gives how many were answered whole and soon, up to
    the first that wasn't, and the seconds of the slowest reply."""
    slowest = 0.0
    for number in range(rounds):
        line, began = ASKED[number % len(ASKED)], time.monotonic()
        try:
            with connect(site.port, wait=SOON) as client:
                time.sleep(0.02 * (number % 2))
                client.sendall(line)
                is_whole = read_all(client) == site.reply(line)
        except OSError:
            is_whole = False
        took = time.monotonic() - began
        slowest = max(slowest, took)
        if not is_whole or took > SOON:
            return number, slowest
        time.sleep(max(0.0, pause - took))
    return rounds, slowest


def send_slowly(clients, line, port, resets):
    """Has each client send a byte of the line a second; meanwhile others reset. How many slow clients are still there."""
    there = set(clients)
    for byte in line:
        began = time.monotonic()
        for client in list(there):
            try:
                client.sendall(bytes([byte]))
            except OSError:
                there.discard(client)
        for _ in range(resets):
            with contextlib.suppress(OSError), connect(port) as client:
                client.sendall(b"/large.png\r\n")
                client.recv(4_096)
                reset(client)
        time.sleep(max(0.0, 1.0 - (time.monotonic() - began)))
    return len(there)


def number_whole(clients, wanted):
    """How many clients get exactly the reply, in turn, up to the first that doesn't."""
    for number, client in enumerate(clients):
        try:
            with client:
                if read_all(client) != wanted:
                    return number
        except OSError:
            return number
    return len(clients)


def attack_by_crowd(attacked):
    """Silent, slow, deaf and resetting clients together."""
    seconds, rounds = attacked.given.seconds, 5 * attacked.given.seconds
    accepted = SILENT + SLOW + DEAF + RESETS_A_SECOND * seconds + ORDINARY * rounds
    with contextlib.ExitStack() as ends:
        server = ends.enter_context(attacked.serving("--requests", accepted, seconds=3 * seconds + 60))
        silent, slow, deaf = (clients_of(ends, server, count) for count in (SILENT, SLOW, DEAF))
        for client in deaf:
            client.sendall(b"/large.png\r\n")
        ordinary = attacked.are_answered(server, "beside the crowd", rounds, seconds)
        # asks for the root by as many bytes as seconds
        line = b"\t".ljust(seconds - 2, b"x") + b"\r\n"
        attacked.expect("slow clients that could send", send_slowly(slow, line, server.port, RESETS_A_SECOND), SLOW)
        slowest = ordinary()
        attacked.expect("slow clients answered", number_whole(slow, attacked.site(server.port).reply(line)), SLOW)
        attacked.expect("deaf clients that read at last", number_whole(deaf, LARGE), DEAF)
        print(f"attack: the slowest ordinary reply took {slowest:.3f} s", flush=True)
        attacked.holds_little(server)
        silent[0].sendall(b"/a.txt\r\n")
        attacked.expect("a silent client that asks at last", read_all(silent[0]), b"hello\r\n.\r\n")
        for client in silent:
            client.close()
        attacked.expect("the crowd's server ends", server.end(), (SIZES, b"", 0))


def lines_at_limits():
    """What clients send before they end their side."""
    for length in (1_023, 1_024, 1_025, 1_026, 4_096):
        for start in (b"y", b"/a.txt\t", b"/search\t"):
            line = (start + b"y " * length)[:length - 1] + b"y"
            yield from (line + b"\r\n", line + b"\n", line, line + b"\r", line + b"\r\r\n")
    for selector in NOT_GIVEN:
        yield from (selector + b"\r\n", selector + b"\n", selector + b"\t+\r\n", selector)
    yield from (b"/given\r\n", b"/shared/one.txt\r\n", b"/shared\r\n", b"/search\tmo\0on\r\n", b"/search\tnobody\r\n", b"")


def attack_by_lines(attacked):
    """Lines at the limits, and lines that ask for what isn't given."""
    lines = list(lines_at_limits())
    with attacked.serving("--requests", len(lines)) as server:
        replies = ask_all(server.port, lines, ask_whole)
        for sent, reply in zip(lines, replies):
            wanted = attacked.site(server.port).reply(sent)
            attacked.expect(f"the reply to {sent[:60]!r} of {len(sent)} bytes", reply, wanted)
        attacked.expect("replies with what nobody may read", sum(SECRET.strip() in reply for reply in replies), 0)
        attacked.expect("the lines' server ends", server.end()[1:], (b"", 0))


def endless(port):
    """Whether a client that sends on without an end of its line is closed before it has sent 16 MiB."""
    with connect(port, wait=SOON) as client:
        try:
            for _ in range(256):
                client.sendall(b"f" * 65_536)
        except (BrokenPipeError, ConnectionResetError):
            return True
        except OSError:
            pass
    return False


def eager_reply(port, line, seconds=0.2, rate=None):
    """Asks, sends on, and reads late, or `rate` bytes a second, of which its own system holds few."""
    parts = []
    with contextlib.suppress(OSError), socket.socket() as client:
        if rate:
            client.setsockopt(socket.SOL_SOCKET, socket.SO_RCVBUF, 65_536)
        client.settimeout(WAIT)
        client.connect((HOST, port))
        with contextlib.suppress(OSError):
            client.sendall(line + b"more\r\n" * 3_000)
        time.sleep(seconds)
        while part := client.recv(65_536):
            parts.append(part)
            if rate:
                with contextlib.suppress(OSError):
                    client.sendall(b"more\r\n")
                time.sleep(len(part) / rate)
    return b"".join(parts)


def attack_by_senders(attacked):
    """Clients that send on without an end, and clients that send on after their line."""
    lines = [b"/large.png\r\n"] * 12 + [b"/middle.png\r\n"] * 12
    with attacked.serving("--requests", len(lines) + 13) as server, ThreadPoolExecutor(len(lines) + 1) as clients:
        attacked.expect("endless lines that were closed", sum(endless(server.port) for _ in range(10)), 10)
        slow = clients.submit(eager_reply, server.port, b"/large.png\r\n", 0.0, MIB)
        replies = list(clients.map(eager_reply, [server.port] * len(lines), lines))
        attacked.expect("a whole reply to a client that sends on and reads 1 MiB a second", slow.result(2 * WAIT) == LARGE, True)
        attacked.expect("whole replies of 8 MiB to clients that send on", replies.count(LARGE), 12)
        attacked.expect("whole replies of 64 KiB to clients that send on", replies.count(MIDDLE), 12)
        attacked.holds_little(server)
        for line in ASKED[:2]:
            attacked.is_answered(server, "an ordinary client after them", line)
        attacked.expect("the senders' server ends", server.end()[1:], (b"", 0))


def closed_among(clients):
    """The places in the list of the clients whose connections are closed."""
    return [place for place, client in enumerate(clients) if not is_open(client)]


def settled(clients, wanted):
    """The places of the closed clients, once they are as many as wanted or some seconds are over."""
    until_true(lambda: len(closed_among(clients)) >= wanted, SOON)
    time.sleep(0.3)
    return closed_among(clients)


def attack_by_waiting(attacked):
    """As many silent clients as there are places, and more: as many are closed as are too many, the longest idle first."""
    for threads in (1, 2, 4, 8):
        with contextlib.ExitStack() as ends:
            how = {"more": f"threads = {threads}\n", "before": with_few_files(PLACES + 64)}
            server = ends.enter_context(attacked.serving(*ANY_ADDRESS, **how))
            silent = clients_of(ends, server, PLACES)
            attacked.expect(f"clients closed at {threads} threads while there is room", settled(silent, 1), [])
            silent += clients_of(ends, server, 3 * PLACES)
            closed = settled(silent, 3 * PLACES)
            attacked.expect(f"clients closed at {threads} threads", len(closed), 3 * PLACES)
            if threads == 1:
                attacked.expect("the longest idle are closed", closed, list(range(3 * PLACES)))
            attacked.are_answered(server, f"at {threads} threads", 20)()
            closed = len(closed_among(silent))
            attacked.expect(f"{closed} silent clients went for them", closed <= 3 * PLACES + 2 * ORDINARY, True)
            attacked.expect("a server that is ended by SIGTERM", server.terminate(), (b"", b"", -15))


class Polls:
    """What the threads of a server wait for, as the system tells it of their polls."""

    def __init__(self, server, threads):
        self.process = pathlib.Path(f"/proc/{server.process.pid}")
        until_true(lambda: len(self.find()) >= threads, SOON)
        self.infos = self.find()

    def find(self):
        names = sorted(map(int, os.listdir(self.process / "fd")))
        return [self.process / f"fdinfo/{name}" for name in names if "eventpoll" in os.readlink(self.process / f"fd/{name}")]

    def held(self):
        """How many descriptors each thread waits for, its listeners' among them."""
        return [info.read_text().count("\ntfd:") for info in self.infos]


def attack_by_excess(attacked):
    """Clients that come one by one, so that one thread holds more than its share: it is that thread that closes for the other."""
    for attempt in range(1, ATTEMPTS + 1):
        with contextlib.ExitStack() as ends:
            server = ends.enter_context(attacked.serving(*ANY_ADDRESS, more="threads = 2\n", before=with_few_files(PLACES + 64)))
            polls, silent = Polls(server, 2), []
            for _ in range(PLACES):
                before = polls.held()
                silent += clients_of(ends, server, 1)
                until_true(lambda: polls.held() != before, SOON, 0.001)
            held = polls.held()
            # which thread is woken is the system's choice: with equal shares this shows nothing, so another server is tried
            if max(held) <= min(held) + 2 * EXCESS and attempt < ATTEMPTS:
                continue
            attacked.expect(f"no thread holds many more than its share: {held}", max(held) <= PLACES // 2 + MOST_ABOVE, True)
            for more in range(1, EXCESS + 1):
                silent += clients_of(ends, server, 1)
                attacked.expect(f"clients closed for {more} more than there are places", len(settled(silent, more)), more)
            return


def attack_by_use(attacked):
    """A client that sends on is not the longest idle."""
    with contextlib.ExitStack() as ends:
        server = ends.enter_context(attacked.serving(*ANY_ADDRESS, more="threads = 1\n", before=with_few_files(PLACES + 64)))
        slow, *_ = clients_of(ends, server, PLACES)
        for byte in b"/a.txt":
            time.sleep(0.3)
            slow.sendall(bytes([byte]))
            time.sleep(0.3)
            clients_of(ends, server, PLACES // 2)
        slow.sendall(b"\r\n")
        attacked.expect("a client that sends on is answered", read_all(slow), b"hello\r\n.\r\n")


def attack_by_connecting(attacked):
    """Clients that only connect, many more than there are places, cut no download."""
    with contextlib.ExitStack() as ends:
        server = ends.enter_context(attacked.serving(*ANY_ADDRESS, more="threads = 2\n", before=with_few_files(PLACES + 64)))
        readers = clients_of(ends, server, DOWNLOADS)
        for reader in readers:
            reader.sendall(b"/large.png\r\n")
            reader.recv(1, socket.MSG_PEEK)
        silent = clients_of(ends, server, 3 * PLACES)
        settled(silent, 2 * PLACES)
        attacked.is_answered(server, "a client beside so many silent ones")
        attacked.expect("downloads that end whole", number_whole(readers, LARGE), DOWNLOADS)


def attack_by_one_address(attacked):
    """An address holds a quarter of the places at most, so it can't take those of others."""
    with contextlib.ExitStack() as ends:
        server = ends.enter_context(attacked.serving("--listen", HOST, more="threads = 2\n", before=with_few_files(PLACES + 64)))
        others = [ends.enter_context(connect_from("127.0.0.3", server.port)) for _ in range(PLACES // 8)]
        crowd = clients_of(ends, server, PLACES)
        attacked.expect("connections of one address that are closed", len(settled(crowd, PLACES - PLACES // 4)), PLACES - PLACES // 4)
        attacked.expect("connections of another address that are closed", closed_among(others), [])
        with connect_from("127.0.0.3", server.port) as client:
            client.sendall(b"/a.txt\r\n")
            attacked.expect("a client of another address", read_all(client), b"hello\r\n.\r\n")
        for client in crowd:
            client.close()
        time.sleep(0.3)
        again = clients_of(ends, server, PLACES // 4)
        attacked.expect("closed connections of the address after those are gone", settled(again, 1), [])
    with attacked.serving("--clients-per-address", 3, more="threads = 2\n") as server, contextlib.ExitStack() as ends:
        attacked.expect("closed connections of an address that may hold three", settled(clients_of(ends, server, 5), 2), [3, 4])


def connect_from(address, port):
    """A connection from an address of this machine."""
    return socket.create_connection((HOST, port), timeout=WAIT, source_address=(address, 0))


def attack_by_staying(attacked):
    """A client that has the whole of a large reply and resets is closed at once, and one that stays after 16 seconds, however long
    the server has been up."""
    with attacked.serving(more="threads = 1\n") as server:
        polls = Polls(server, 1)
        time.sleep(SECONDS_UP_FOR_LONG)
        for end, wanted in ((reset, 0), (is_open, LINGERS)):
            with connect(server.port) as client:
                client.sendall(b"/large.png\r\n")
                attacked.expect("a large reply", read_all(client) == LARGE, True)
                began, held = time.monotonic(), polls.held()
                end(client)
                until_true(lambda: polls.held() != held, LINGERS + SOON)
            seconds = time.monotonic() - began
            attacked.expect(f"closed after {wanted} seconds, not {seconds:.1f}", abs(seconds - wanted) < 2.0, True)


def open_files(number):
    """How many files a process holds open, once that has stayed so for a moment: a server closes a connection after its end."""
    held = None
    while held != (now := len(os.listdir(f"/proc/{number}/fd"))):
        held = now
        time.sleep(0.5)
    return held


def limit_files(server, files):
    """Lets a server hold so many files open."""
    number = server.process.pid
    resource.prlimit(number, resource.RLIMIT_NOFILE, (files, resource.prlimit(number, resource.RLIMIT_NOFILE)[1]))


def attack_by_refused_reports(attacked):
    """Descriptors are short for a moment, after which the system refuses once to report clients: the one that waited is answered."""
    before = attacked.test.preload("refusing", REFUSED_REPORT=2)
    with attacked.serving("--requests", 1, more="threads = 1\n", before=before) as server:
        limit_files(server, open_files(server.process.pid))
        with connect(server.port) as waiting:
            waiting.sendall(b"/a.txt\r\n")
            time.sleep(0.3)
            limit_files(server, 1_024)
            attacked.expect("a client that waited for a report", read_all(waiting), b"hello\r\n.\r\n")


def attack_by_refused_accepts(attacked):
    """Descriptors are short for a moment: a client waits, or the one idle longest is closed; no thread ends."""
    with contextlib.ExitStack() as ends:
        server = ends.enter_context(attacked.serving("--requests", 14, more="threads = 2\n"))
        number, limit = server.process.pid, functools.partial(limit_files, server)
        time.sleep(SECONDS_UP)
        limit(open_files(number))
        waiting, = clients_of(ends, server, 1)
        waiting.sendall(b"/a.txt\r\n")
        time.sleep(0.2)
        limit(1_024)
        began = time.monotonic()
        attacked.expect("a client that waited for a descriptor", read_all(waiting), b"hello\r\n.\r\n")
        attacked.expect("it is answered soon", time.monotonic() - began < 1.0, True)
        silent = clients_of(ends, server, 10)
        attacked.is_answered(server, "a client beside silent ones")
        limit(open_files(number))
        attacked.is_answered(server, "a client while descriptors are short")
        closed = settled(silent, 1)
        attacked.expect(f"silent clients closed for it: {closed}", 1 <= len(closed) <= 4, True)
        limit(1_024)
        attacked.is_answered(server, "a client after that")
        for client in silent:
            client.close()
        attacked.expect("no thread has ended by it", server.end()[1:], (b"", 0))


def kernel_bytes():
    """How many bytes the system holds for connections."""
    lines = pathlib.Path("/proc/net/sockstat").read_text().splitlines()
    fields = next(line.split() for line in lines if line.startswith("TCP:"))
    return int(fields[fields.index("mem") + 1]) * resource.getpagesize()


def times_beside(attacked, server, what, seconds, most=1_000_000):
    """The median and the 99th percentile of the seconds that replies to an ordinary client take, of so many at most."""
    attacked.is_answered(server, f"the first ordinary client beside {what}")
    times, until = [], time.monotonic() + seconds
    while time.monotonic() < until and len(times) < most:
        began = time.monotonic()
        attacked.is_answered(server, f"an ordinary client beside {what}")
        times.append(time.monotonic() - began)
        time.sleep(0.005)
    times.sort()
    return times[len(times) // 2], times[len(times) * 99 // 100]


def attack_by_deaf(attacked):
    """Many clients of the second address ask for 8 MiB and read nothing: the system holds little for each, and ordinary clients
    are answered."""
    with contextlib.ExitStack() as ends:
        server = ends.enter_context(attacked.serving("--listen", "127.0.0.2", "--listen", HOST))
        before = kernel_bytes()
        for client in clients_of(ends, server, SILENT):
            client.sendall(b"/large.png\r\n")
        _, late = times_beside(attacked, server, "deaf ones", 2 * SOON, 200)
        held = kernel_bytes() - before
        attacked.expect(f"{held} bytes of the system are below {MAX_HELD}", held < MAX_HELD, True)
        attacked.expect(f"{late:.3f} s are soon", late < 0.5, True)
        print(f"attack: {held} bytes of the system for {SILENT} deaf clients; p99 {late:.3f} s", flush=True)


def attack_by_deaf_crowd(attacked):
    """The more clients there are that read nothing, the less the system holds for each."""
    with contextlib.ExitStack() as ends:
        server = ends.enter_context(attacked.serving("--listen", HOST, *ANY_ADDRESS))
        before = kernel_bytes()
        for _ in range(DEAF_CROWD):
            client = ends.enter_context(socket.socket())
            client.setsockopt(socket.SOL_SOCKET, socket.SO_RCVBUF, 4_096)
            client.settimeout(WAIT)
            client.connect((HOST, server.port))
            client.sendall(b"/large.png\r\n")
        attacked.is_answered(server, "an ordinary client beside them")
        held = kernel_bytes() - before
        attacked.expect(f"{held} bytes of the system are below {MAX_HELD_BY_CROWD}", held < MAX_HELD_BY_CROWD, True)
        print(f"attack: {held} bytes of the system for {DEAF_CROWD} deaf clients with small queues", flush=True)


def attack_by_large_replies(attacked):
    """Many clients ask for a large menu or a large text of a folder and read nothing: the server holds no copy for each."""
    lines, host = 65_000, "h" * 250
    root = attacked.test.site({".menu": b"\n" * lines, "docs/large.txt": (b"m" * 255 + b"\n") * lines})
    with contextlib.ExitStack() as ends:
        server = ends.enter_context(attacked.test.serving(root, "--listen", HOST, host=host))
        wanted = {
            b"\r\n": b"i\t\t%s\t%d\r\n" % (host.encode(), server.port) * lines + b".\r\n",
            b"/docs/large.txt\r\n": (b"m" * 255 + b"\r\n") * lines + b".\r\n",
        }
        for line, reply in wanted.items():
            attacked.expect(f"the large reply to {line} is sent whole", ask(server.port, line) == reply, True)
        before = server.memory("VmHWM")
        for client, (line, reply) in zip(clients_of(ends, server, DEAF_TO_LARGE), itertools.cycle(wanted.items())):
            client.sendall(line)
            attacked.expect(f"the reply to {line} begins for a deaf client", client.recv(1, socket.MSG_PEEK), reply[:1])
        held = server.memory("VmHWM") - before
        what = f"{held} KiB for {DEAF_TO_LARGE} deaf clients of large replies"
        attacked.expect(f"{what} are below {MAX_FOR_LARGE}", held < MAX_FOR_LARGE, True)
        print(f"attack: {what}", flush=True)


def check_half_closed(attacked, server, wanted):
    """Clients whose lines come in two parts, and that end their sides while their searches wait for their turn, are answered."""
    with contextlib.ExitStack() as ends:
        clients = clients_of(ends, server, len(wanted))
        for client, (line, _) in zip(clients, wanted):
            client.sendall(line[:16])
        time.sleep(0.2)
        for client, (line, _) in zip(clients, wanted):
            client.sendall(line[16:])
        for client in clients:
            client.shutdown(socket.SHUT_WR)
        replies = [read_all(client) for client in clients]
        attacked.expect("searches of clients that ended their sides", replies, [reply for _, reply in wanted])


def check_waiting(attacked, server, line):
    """Heavy searches that wait for their turn hold little, and an ordinary client is answered beside them."""
    with contextlib.ExitStack() as ends:
        before, waiting = server.memory("VmRSS"), [*clients_of(ends, server, WAITING)]
        for client in waiting:
            client.sendall(line)
        _, slowest = times_beside(attacked, server, "waiting searches", 2 * SOON, 20)
        held = server.memory("VmRSS") - before
        for client in waiting:
            reset(client)
    print(f"attack: {held} KiB for {WAITING} waiting searches; the slowest ordinary reply took {slowest:.3f} s", flush=True)
    attacked.expect(f"{slowest:.3f} s are soon", slowest < SOON, True)
    # a sanitizer keeps what was given back
    if attacked.given.memory <= MOST_MEMORY:
        attacked.expect(f"{held} KiB for waiting searches are below {MAX_FOR_WAITING}", held < MAX_FOR_WAITING, True)


def attack_by_searches(attacked):
    """Clients that ask the heaviest searches get the right hits, and ordinary clients are answered beside them."""
    texts, seconds, median, late = (65_000, 60, 0.005, 0.05) if attacked.given.heavy else (4_096, 6, 0.05, 0.5)
    # clients in a process of their own
    with (
        Heavy(texts) as heavy, attacked.serving("--progress", more=heavy.settings, seconds=1_200) as server,
        ProcessPoolExecutor(1, multiprocessing.get_context("spawn")) as others,
    ):
        crawled = f"known {heavy.known} waiting 0 out 0 done {heavy.known} dropped 0 failed 0\n".encode()
        attacked.expect("the texts are crawled", crawled in iter(server.process.stderr.readline, b""), True)
        ended, wanted = server.process.stderr.readline(), rb"hole: crawl finished: %d found, 0 failed, 0 dropped in \d+ s\n"
        attacked.expect(f"the line of the crawl's end: {ended!r}", re.fullmatch(wanted % heavy.known, ended) is not None, True)
        wanted = [(b"/search\t%s\r\n" % text.encode(), heavy.site.search(text.encode())) for text in heavy_texts()]
        for line, reply in wanted:
            attacked.expect(f"the reply to {line[:40]!r}", ask_whole(server.port, line), reply)
        check_half_closed(attacked, server, wanted * HALF_CLOSED)
        check_waiting(attacked, server, wanted[0][0])
        flooded = others.submit(flood, server.port, wanted[:1] + wanted[-1:], HEAVY, seconds + 2)
        time.sleep(1.5)
        half, most = times_beside(attacked, server, "heavy searches", seconds)
        right, wrong = flooded.result(seconds + 300)
        attacked.expect(f"heavy searches that were answered wrongly, of {right + wrong}", wrong, 0)
        attacked.expect("some were answered", right > 0, True)
        print(f"attack: beside {right} heavy searches p50 {half:.4f} s, p99 {most:.4f} s", flush=True)
        attacked.expect(f"the median of {half:.4f} s is below {median} s", half < median, True)
        attacked.expect(f"the 99th percentile of {most:.4f} s is below {late} s", most < late, True)
        attacked.expect("a server that is ended by SIGTERM", server.terminate()[1:], (b"", -15))


ATTACKS = (
    attack_by_crowd, attack_by_lines, attack_by_senders, attack_by_waiting, attack_by_excess, attack_by_use,
    attack_by_connecting, attack_by_one_address, attack_by_refused_reports, attack_by_refused_accepts, attack_by_deaf,
    attack_by_deaf_crowd, attack_by_large_replies, attack_by_searches,
)


def raise_limit():
    """Lets this process and its servers hold as many files as the system allows."""
    _, most = resource.getrlimit(resource.RLIMIT_NOFILE)
    resource.setrlimit(resource.RLIMIT_NOFILE, (most, most))
    return most == resource.RLIM_INFINITY or most >= 4 * (SILENT + SLOW + DEAF) // 3


def attack_in_turn(test):
    """Makes the attacks, each on a server of its own: the one that mostly waits beside the others."""
    test.expect("files may be open for so many clients", raise_limit(), True)
    attacked = Attacked(test)

    def make(attack):
        try:
            attack(attacked)
        except OSError as error:
            test.expect(f"{attack.__name__} comes to its end", repr(error), None)

    with ThreadPoolExecutor(1) as beside:
        waits = [] if test.given.heavy else [beside.submit(make, attack_by_staying)]
        for attack in (attack_by_searches,) if test.given.heavy else ATTACKS:
            make(attack)
        for made in waits:
            made.result()


if __name__ == "__main__":
    run_test("attack", __doc__, attack_in_turn, seconds=7, memory=MOST_MEMORY, heavy=False)
