#!/usr/bin/env python3
"""Ends servers and connections in the middle of replies, and checks that a client can tell a part of a reply from the whole: a
connection whose reply was cut is reset, and one whose reply was sent whole is ended in order, also if its reader is slow.

    tests/cutting.py [PROGRAM]

The last line is 'cutting: N passed, M failed'. It takes some seconds.
"""
import contextlib
import signal
import socket
import time

from running.server import HOST, WAIT, connect, reset, run_test, with_few_files

# Replies that are sent in several parts to a slow reader; one that the system queues at once, and after which a connection lingers;
# and a small one.
LARGE, MIDDLE, SMALL = bytes(range(256)) * 12_000, bytes(range(256)) * 400, b"\0" * 1_000
FILES = {"large.bin": LARGE, "middle.bin": MIDDLE, "small.bin": SMALL}
READERS = 5
# What is left of a reply when the system has all of it.
QUEUED = 60_000
# How many files a server keeps for what isn't a connection, and how many connections it may hold then.
FILES_LEFT, PLACES = 64, 40
# For how long a server may still be at work, in seconds.
SETTLES = 0.3


def slow_reader(port, line=b"/large.bin\r\n", pieces=(), ends=False):
    """A client with a small queue that sent a line, or pieces of one, and ended its side or not."""
    client = socket.socket()
    client.settimeout(WAIT)
    client.setsockopt(socket.SOL_SOCKET, socket.SO_RCVBUF, 16_384)
    client.connect((HOST, port))
    for piece in pieces or (line,):
        client.sendall(piece)
        time.sleep(0.05 * bool(pieces))
    if ends:
        client.shutdown(socket.SHUT_WR)
    return client


def read_to_end(client, got=b"", pause=0.0):
    """All that a client is sent, and how the connection ends."""
    parts = [got]
    try:
        while part := client.recv(65_536):
            parts.append(part)
            time.sleep(pause)
        ending = "in order"
    except ConnectionResetError:
        ending = "by reset"
    client.close()
    return b"".join(parts), ending


def expect_cut(test, what, client, whole=LARGE):
    """Expects that a client is sent a part of a reply, and then a reset."""
    got, ending = read_to_end(client)
    test.expect(f"{what}: a part", (whole.startswith(got), len(got) < len(whole)), (True, True))
    test.expect(f"{what}: its end after {len(got)} bytes", ending, "by reset")


def expect_whole(test, what, client, whole, got=b"", pause=0.0):
    """Expects that a client is sent a whole reply, and then an end."""
    found, ending = read_to_end(client, got, pause)
    test.expect(f"{what}: the reply", found == whole, True)
    test.expect(f"{what}: its end", ending, "in order")


def check_ended_server(test):
    """A server that ends cuts the replies that it is sending, and those alone."""
    root = test.site(FILES)
    for sent in (signal.SIGTERM, signal.SIGKILL):
        with test.serving(root, more="threads = 2\n") as server:
            readers = [slow_reader(server.port) for _ in range(READERS)]
            readers.append(slow_reader(server.port, ends=True))
            readers.append(slow_reader(server.port, pieces=(b"/large", b".bin\r", b"\n")))
            readers.append(slow_reader(server.port, b"/large.bin\n" + b"more" * 500))
            middle, small = slow_reader(server.port, b"/middle.bin\r\n"), slow_reader(server.port, b"/small.bin\r\n")
            late = slow_reader(server.port)
            got = b""
            while len(got) + QUEUED < len(LARGE):
                got += late.recv(65_536)
            time.sleep(SETTLES)
            server.process.send_signal(sent)
            server.end()
        for number, reader in enumerate(readers):
            expect_cut(test, f"reader {number} of a server that ended by {sent.name}", reader)
        expect_whole(test, f"a queued reply of a server that ended by {sent.name}", middle, MIDDLE)
        expect_whole(test, f"a small reply of a server that ended by {sent.name}", small, SMALL)
        expect_whole(test, f"the queued rest of a server that ended by {sent.name}", late, LARGE, got)


def check_whole_replies(test):
    """A reply that isn't cut ends in order, whatever its reader does."""
    with test.serving(test.site(FILES)) as server:
        for name, whole in FILES.items():
            line = f"/{name}\r\n".encode()
            expect_whole(test, f"{name} to a slow reader", slow_reader(server.port, line), whole, pause=0.002)
            expect_whole(test, f"{name} to one that ended its side", slow_reader(server.port, line, ends=True), whole)
            pieces = [line[at:at + 1] for at in range(len(line))]
            expect_whole(test, f"{name} to one that sends single bytes", slow_reader(server.port, pieces=pieces), whole)
            expect_whole(test, f"{name} to one that sends more", slow_reader(server.port, line + b"x" * 3_000), whole)
            unended = slow_reader(server.port, line.rstrip(), ends=True)
            expect_whole(test, f"{name} to one whose line ends with its side", unended, whole)


def check_full_server(test):
    """A connection that is closed for room is reset if its reply isn't sent whole, and else ended in order."""
    words, few = ("--clients-per-address", 2 * PLACES), with_few_files(FILES_LEFT + PLACES)
    with test.serving(test.site(FILES), *words, before=few, more="threads = 1\n") as server:
        reader, silent, begun = slow_reader(server.port), connect(server.port), slow_reader(server.port, b"/large")
        with contextlib.ExitStack() as others:
            for _ in range(PLACES + 10):
                others.enter_context(slow_reader(server.port))
                time.sleep(0.01)
            expect_cut(test, "a reader whose connection was closed for room", reader)
            test.expect("a client that sent nothing", read_to_end(silent), (b"", "in order"))
            test.expect("a client that sent no whole line", read_to_end(begun), (b"", "in order"))


def check_refused_lines(test):
    """A client whose line is too long is reset, so that it doesn't take nothing for a reply."""
    with test.serving(test.site(FILES)) as server:
        for length in (1_025, 3_000):
            client = slow_reader(server.port, b"x" * length + b"\r\n")
            test.expect(f"a line of {length} bytes", read_to_end(client), (b"", "by reset"))
        gone = slow_reader(server.port)
        reset(gone)
        expect_whole(test, "a client after one that is gone", slow_reader(server.port, b"/small.bin\r\n"), SMALL)


if __name__ == "__main__":
    run_test("cutting", __doc__, check_ended_server, check_whole_replies, check_full_server, check_refused_lines)
