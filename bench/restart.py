#!/usr/bin/env python3
"""Measures how long a restart of the built program takes, and which requests it loses.

    bench/restart.py [--files N] [--rounds N] [--held] [PROGRAM]

A server of N texts of 4,096 bytes (1,000 without --files) is ended by SIGTERM and started again at once, ten times without
--rounds, while four clients ask it for a text, one after another. With --held its socket is handed to it, as systemd's socket
activation does. It prints the milliseconds from the signal to the line 'listening ..', the median and the most; how many
requests were answered whole, refused, and cut; and the milliseconds of the slowest that was answered.
"""
import argparse
import collections
import pathlib
import socket
import statistics
import subprocess
import sys
import tempfile
import threading
import time

sys.path.insert(0, str(pathlib.Path(__file__).resolve().parent.parent / "tests"))
from running.server import HOST, PROGRAM, ask, free_port

CLIENTS, BYTES, REST, BACKLOG = 4, 4_096, 0.5, 4_096
TEXT = b"a line of a text, of sixty-four bytes with its end, as many are\n" * (BYTES // 64)
REPLY = TEXT.replace(b"\n", b"\r\n") + b".\r\n"


def outcome(port):
    try:
        return "whole" if ask(port, b"/00000.txt\r\n") == REPLY else "cut"
    except ConnectionRefusedError:
        return "refused"
    except OSError:
        return "cut"


def ask_on(port, is_over, counts, slowest):
    while not is_over.is_set():
        began = time.monotonic()
        found = outcome(port)
        counts[found] += 1
        if found == "whole":
            slowest.append(max(slowest.pop(), 1000 * (time.monotonic() - began)))
        elif found == "refused":
            time.sleep(0.001)


def start(program, settings, held):
    """A server that listens; `held` is the socket that is handed to it, if any, as its descriptor 3."""
    words, kept = [program, "serve", settings], ()
    if held:
        kept = (held.fileno(),)
        words = ["sh", "-c", f'exec 3<&{held.fileno()}; LISTEN_FDS=1 LISTEN_PID=$$ exec "$@"', "sh", *words]
    server = subprocess.Popen(words, stdout=subprocess.PIPE, pass_fds=kept)
    server.stdout.readline()
    return server


def main():
    words = argparse.ArgumentParser()
    words.add_argument("--files", type=int, default=1_000)
    words.add_argument("--rounds", type=int, default=10)
    words.add_argument("--held", action="store_true")
    words.add_argument("program", nargs="?", default=str(PROGRAM))
    given = words.parse_args()
    with tempfile.TemporaryDirectory() as place:
        root, port = pathlib.Path(place) / "root", free_port()
        held = socket.create_server((HOST, port), backlog=BACKLOG) if given.held else None
        root.mkdir()
        for number in range(given.files):
            (root / f"{number:05}.txt").write_bytes(TEXT)
        settings = pathlib.Path(place) / "hole.toml"
        settings.write_text(f'host = "{HOST}"\nport = {port}\nroot = "{root}"\n')
        counts, is_over, times, slowest = collections.Counter(), threading.Event(), [], [[0.0] for _ in range(CLIENTS)]
        server = start(given.program, settings, held)
        clients = [threading.Thread(target=ask_on, args=(port, is_over, counts, most)) for most in slowest]
        for client in clients:
            client.start()
        for _ in range(given.rounds):
            time.sleep(REST)
            began = time.monotonic()
            server.terminate()
            server.wait()
            server = start(given.program, settings, held)
            times.append(1000 * (time.monotonic() - began))
        time.sleep(REST)
        is_over.set()
        for client in clients:
            client.join()
        server.terminate()
        server.communicate()
    print(f"restart of {given.files} files: {statistics.median(times):.0f} ms, {max(times):.0f} ms at most")
    kinds = ", ".join(f"{counts[kind]} {kind}" for kind in ("whole", "refused", "cut"))
    print(f"requests in {given.rounds} restarts: {kinds}; the slowest took {max(most[0] for most in slowest):.0f} ms")
    return 0


if __name__ == "__main__":
    sys.exit(main())
