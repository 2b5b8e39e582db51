#!/usr/bin/env python3
"""Asks the built program for an hour, beside the crawl of a hostile host, and compares each reply and its memory.

    tests/soak.py [--minutes N] [PROGRAM]

Searches, texts, menus, downloads of a large file and bad lines are asked at once and again. Beside them are clients that end their
side instead of their line, clients that read nothing, and clients that connect and ask nothing. The crawled host hangs, drips,
resets, ends early, and has menus of odd lines, of links without end and of nothing. Each reply has to be the one that the folder
determines. The memory after the first quarter of the time and at the end may differ by what the pages take that were found
meanwhile. It isn't part of the gate. The last line is 'soak: N passed, M failed'.
"""
import collections
import random
import threading
import time

from running.server import HOST, Host, ask, ask_whole, connect, crawling, read_all, reset, run_test, until_true

TEXTS, LINES_OF_A_MENU = 300, 40
LARGE = bytes(range(256)) * 8_192
CLIENTS = {"ask": 6, "download": 2, "end_early": 2, "stay_deaf": 2, "ask_nothing": 2}
# The memory of a page of few words, and what else may come and go (KiB).
KIB_OF_A_PAGE, KIB_BESIDE = 4, 16_384
SECONDS_BETWEEN_SAMPLES = 5.0
# A client that reads nothing stays for at most so long.
SECONDS_DEAF = 20.0


class Hostile(Host):
    """A host each of whose places does one of these, by its number, and whose menus lead to places without end."""

    def __init__(self):
        super().__init__(self.answer_badly)

    def answer_badly(self, line):
        number = int(line.rpartition(b"/")[2] or 0)
        time.sleep(0.5)
        links = self.menu(b"1", [b"/%d" % (number * LINES_OF_A_MENU + at + 1) for at in range(LINES_OF_A_MENU)])
        return (
            lambda: links, lambda: links[:-3], lambda: links[: len(links) // 2], lambda: b"", lambda: None, lambda: b"x\n" * 50_000,
            lambda: self.dripped(links), lambda: self.hung(), lambda: b"\0" * 1_048_577, lambda: links.replace(b"\r\n", b"\n"),
        )[number % 10]()

    def dripped(self, reply):
        for start in range(0, len(reply), 400):
            time.sleep(0.3)
            yield reply[start:start + 400]

    def hung(self):
        time.sleep(4)
        yield b""


class Soak:
    """The clients of a server, what each reply has to be, and how many were right, by the kind of their client."""

    def __init__(self, server, wanted, until):
        self.server, self.wanted, self.until, self.right, self.wrong = server, list(wanted.items()), until, collections.Counter(), []

    def note(self, kind, line, got, wanted):
        self.right[kind] += got == wanted
        if got != wanted:
            self.wrong.append((kind, line[:60], got[:80], len(got)))

    def ask(self, draw):
        line, reply = draw.choice(self.wanted)
        self.note("ask", line, ask(self.server.port, line), reply)

    def download(self, draw):
        self.note("download", b"/large.bin", ask(self.server.port, b"/large.bin\r\n"), LARGE)

    def end_early(self, draw):
        line, reply = draw.choice(self.wanted)
        self.note("end_early", line, ask_whole(self.server.port, line.rstrip(b"\r\n"), pieces=draw.randint(1, 3)), reply)

    def stay_deaf(self, draw):
        with connect(self.server.port) as client:
            client.sendall(b"/large.bin\r\n")
            time.sleep(min(draw.random() * SECONDS_DEAF, max(self.until - time.monotonic(), 0)))
            if draw.random() < 0.5:
                self.note("stay_deaf", b"/large.bin", read_all(client), LARGE)
            else:
                reset(client)

    def ask_nothing(self, draw):
        with connect(self.server.port) as client:
            client.sendall(draw.choice([b"", b"/t", b"/search\tw", b"\0" * 100]))
            time.sleep(draw.random() * 3)

    def keep(self, kind, seed):
        """Does one thing again and again."""
        draw = random.Random(f"{kind} {seed}")
        while time.monotonic() < self.until:
            try:
                getattr(self, kind)(draw)
            except OSError as error:
                self.wrong.append((kind, type(error).__name__))


def texts():
    """The files of the folder, and the replies to lines that ask for them, at a port."""
    files = {f"t{number}.txt": b"w%d common\nline two\n.\n" % number for number in range(TEXTS)}
    replies = {b"/t%d.txt\r\n" % number: b"w%d common\r\nline two\r\n..\r\n.\r\n" % number for number in range(TEXTS)}
    return {**files, "large.bin": LARGE}, replies


def check_hour(test):
    """Serves and crawls for the time."""
    seconds, (files, wanted) = 60 * test.given.minutes, texts()
    with Hostile() as host:
        allow = "".join(f'[[allow]]\nhost = "{HOST}"\nport = {port}\n[[seeds]]\nhost = "{HOST}"\nport = {port}\n' for port in ("PORT", host.port))
        more = f"threads = 2\nworkers = 4\nplaces = 20000\ntries = 2\n{allow}"
        root = test.site(files)
        with test.serving(root, "--fetch-timeout", 2, "--crawl-memory", "64M", more=more, seconds=seconds + 120) as server:
            where = f"\t{HOST}\t{server.port}\r\n".encode()
            for number in range(TEXTS):
                wanted[b"/search\tw%d\r\n" % number] = b"0w%d common\t/t%d.txt%s.\r\n" % (number, number, where)
            wanted[b"/none\r\n"] = b"3Not found" + b"\t" + where + b".\r\n"
            last = [(line, reply) for line, reply in wanted.items() if b"search" in line]
            found = until_true(lambda: all(ask(server.port, line) == reply for line, reply in last), 60)
            test.expect("the folder's own texts are found", found, True)
            soak = Soak(server, wanted, time.monotonic() + seconds)
            clients = [threading.Thread(target=soak.keep, args=(kind, at)) for kind, count in CLIENTS.items() for at in range(count)]
            for client in clients:
                client.start()
            samples = []
            while time.monotonic() < soak.until:
                samples.append((server.memory(), len(host.asked)))
                time.sleep(SECONDS_BETWEEN_SAMPLES)
            for client in clients:
                client.join()
            judge(test, soak, samples)
            test.expect("the end of the server", server.terminate()[1:], (b"", -15))


def judge(test, soak, samples):
    """Prints how much was asked, and compares the memory of the first quarter with that of the end."""
    most = lambda part: max(memory for memory, _ in part)
    quarter = len(samples) // 4
    first, last = most(samples[:quarter]), most(samples[-quarter:])
    pages = samples[-1][1] - samples[quarter][1]
    print(f"soak: {dict(soak.right)}; memory {first} KiB in the first quarter, {last} in the last, {pages} fetches between")
    test.expect("replies that are wrong", soak.wrong[:5], [])
    test.expect("each kind of client had replies", {kind for kind in ("ask", "download", "end_early", "stay_deaf") if not soak.right[kind]}, set())
    test.expect("memory stays", last <= first + pages * KIB_OF_A_PAGE + KIB_BESIDE, True)


if __name__ == "__main__":
    run_test("soak", __doc__, check_hour, minutes=60)
