#!/usr/bin/env python3
"""Times `hole serve` beside a plain C server of the same replies, in one run, on this machine's loopback alone.

    bench/speeds.py HOLE PLAIN_SERVER CLIENTS

takes the built programs. For each kind of request the two servers are asked in turn, ROUNDS times, by 16 clients, and the
medians are printed: requests a second, megabytes a second for the long text, and microseconds of the server's processor
time a request, each with the quotient to the C server's. Then the same for small menus by one client, and with silent clients
beside the 16 (the C server without any), small menus of a server that logs beside one that doesn't, and searches a second by 8
clients while a crawl writes.
"""
import os
import pathlib
import socket
import statistics
import subprocess
import sys
import tempfile

ROUNDS = 7
THREADS = 2
CLIENTS = 16
TICKS = os.sysconf("SC_CLK_TCK")


def write_site(root):
    """A folder with a small menu at the top, a menu of 200 lines, 300 texts, and a text of a megabyte."""
    (root / "list").mkdir(parents=True)
    (root / "texts").mkdir()
    for number in range(200):
        (root / "list" / f"{number:03}.txt").write_text("x\n")
    for number in range(300):
        words = " ".join(f"moon word{number} word{turn % 97}" for turn in range(150))
        (root / "texts" / f"{number:03}.txt").write_text(words + "\n")
    (root / "long.txt").write_text(("moon " * 15 + "\n") * (1_000_000 // 76))
    for number in range(6):
        (root / f"{number}.txt").write_text("x\n")


def free_port():
    with socket.socket() as probe:
        probe.bind(("127.0.0.1", 0))
        return probe.getsockname()[1]


def settings(root, port, seeds):
    lines = [f'host = "localhost"\nport = {port}\nroot = "{root}"\nthreads = {THREADS}\nworkers = 2\nplaces = 4096\n']
    for table in ("seeds", "allow") if seeds else ():
        lines.append(f'[[{table}]]\nhost = "localhost"\nport = {port}\n')
    return "".join(lines)


def ask(port, selector):
    with socket.create_connection(("127.0.0.1", port), timeout=10) as stream:
        stream.sendall(selector.encode() + b"\r\n")
        return b"".join(iter(lambda: stream.recv(65536), b""))


class Server:
    """A running server, which is ended with its block."""

    def __init__(self, words):
        self.process = subprocess.Popen(words, stdout=subprocess.PIPE, text=True)
        if not self.process.stdout.readline().startswith("listening"):
            raise SystemExit(f"{words[0]} doesn't listen")

    def __enter__(self):
        return self

    def __exit__(self, *_):
        self.process.kill()
        self.process.wait()

    def processor_seconds(self):
        fields = pathlib.Path(f"/proc/{self.process.pid}/stat").read_text().rsplit(")", 1)[1].split()
        return (int(fields[11]) + int(fields[12])) / TICKS


def timed(clients, server, port, requests, silent, selectors, number=CLIENTS):
    """Requests a second, megabytes a second, and microseconds of the server's processor time a request."""
    before = server.processor_seconds()
    words = [clients, str(port), str(number), str(requests), str(silent), selectors]
    answered, received, seconds = subprocess.run(words, capture_output=True, text=True, check=True).stdout.split()
    if int(answered) != requests:
        print(f"  only {answered} of {requests} requests were answered")
    spent = server.processor_seconds() - before
    return requests / float(seconds), int(received) / 1e6 / float(seconds), spent / requests * 1e6


def compare(name, rounds, quantity, wanted):
    ours, plain = (statistics.median(turn[side][quantity] for turn in rounds) for side in (0, 1))
    print(f"{name}: {ours:,.0f} (C {plain:,.0f}), quotient {ours / plain:.2f}, goal {wanted}")


def compare_log(hole, clients, room, root):
    """What a log costs of the rate for small menus."""
    ports, places = (free_port(), free_port()), (f"{room}/plain.toml", f"{room}/logging.toml")
    for port, place in zip(ports, places):
        pathlib.Path(place).write_text(settings(root, port, False))
    with Server([hole, "serve", places[0]]) as plain, Server([hole, "serve", places[1], "--log", f"{room}/log"]) as logging:
        ask_both = lambda: (timed(clients, one, port, 20_000, 0, f"{room}/list")[0] for one, port in zip((plain, logging), ports))
        without, with_log = (statistics.median(rates) for rates in zip(*(ask_both() for _ in range(ROUNDS))))
    print(f"small menu with a log, requests a second: {with_log:,.0f} (without {without:,.0f}), quotient {with_log / without:.2f}")


def main(hole, plain_server, clients):
    with tempfile.TemporaryDirectory() as room:
        root = pathlib.Path(room) / "site"
        write_site(root)
        port, plain_port = free_port(), free_port()
        (pathlib.Path(room) / "hole.toml").write_text(settings(root, port, False))
        lists = {
            "small menu": ["/"],
            "menu of 200 lines": ["/list"],
            "300 texts": [f"/texts/{number:03}.txt" for number in range(300)],
            "text of 1 MB": ["/long.txt"],
        }
        with Server([hole, "serve", f"{room}/hole.toml"]) as ours:
            with open(f"{room}/table", "wb") as table:
                for selector in sorted({it for some in lists.values() for it in some}):
                    reply = ask(port, selector)
                    table.write(b"%s %d\n" % (selector.encode(), len(reply)) + reply)
            with Server([plain_server, str(plain_port), str(THREADS), f"{room}/table"]) as plain:
                both = lambda requests, silent, selectors, number=CLIENTS: (
                    timed(clients, ours, port, requests, silent, selectors, number),
                    timed(clients, plain, plain_port, requests, 0, selectors, number),
                )
                for name, selectors in lists.items():
                    pathlib.Path(f"{room}/list").write_text("\n".join(selectors) + "\n")
                    requests = 1_000 if "MB" in name else 20_000
                    rounds = [both(requests, 0, f"{room}/list") for _ in range(ROUNDS)]
                    compare(f"{name}, requests a second", rounds, 0, "at least 0.90")
                    if "MB" in name:
                        compare(f"{name}, MB a second", rounds, 1, "at least 0.90")
                    compare(f"{name}, processor microseconds a request", rounds, 2, "at most 1.25")
                pathlib.Path(f"{room}/list").write_text("/\n")
                rounds = [both(5_000, 0, f"{room}/list", 1) for _ in range(ROUNDS)]
                compare("small menu by one client, requests a second", rounds, 0, "at least 0.90")
                compare("small menu by one client, processor microseconds a request", rounds, 2, "at most 1.50")
                for silent in (100, 1_000):
                    rounds = [both(20_000, silent, f"{room}/list") for _ in range(ROUNDS)]
                    compare(f"small menu beside {silent} silent clients, requests a second", rounds, 0, "at least 0.75")
        compare_log(hole, clients, room, root)
        (pathlib.Path(room) / "hole.toml").write_text(settings(root, port, True))
        pathlib.Path(room, "list").write_text("/search\tmoon\n/search\tword7 and word9\n/search\tword1*\n")
        with Server([hole, "serve", f"{room}/hole.toml"]) as ours:
            rate, _, spent = timed(clients, ours, port, 5_000, 0, f"{room}/list", 8)
            print(f"searches by 8 clients while a crawl writes: {rate:,.0f} a second, {spent:.0f} processor microseconds each")


if __name__ == "__main__":
    if len(sys.argv) != 4:
        sys.exit(__doc__)
    main(*sys.argv[1:])
