#!/usr/bin/env python3
"""Has the built program listen at the addresses of its host, at those that its command line names, and at sockets that it is
handed, and check them.

    tests/listen.py [PROGRAM]

The last line is 'listen: N passed, M failed'. It takes some seconds.
"""
import contextlib
import pathlib
import re
import socket
import sys
import time

from running.server import HOST, ask, ask_whole, connect, free_port, is_open, read_all, run_test, until_true, with_few_files

FILES = {"a.txt": b"hello\n"}
OTHER, ABSENT, REPLY = "127.0.0.2", "192.0.2.1", b"hello\r\n.\r\n"
# How many files a server keeps for what isn't a connection, and how many connections it may hold then.
FILES_LEFT, PLACES = 64, 40
NOT_LISTENING = b"hole: 81\n"
SECONDS_FOR_SLOW = 3.0
# What may be queued for clients who ask one thread for a long reply, the larger queues first. The system has twice as much room as
# it is told, and some more for what it sends at once.
MOST_QUEUED = [2 * 262_144] * 16 + [4 * 65_536] * 4
IPV6, LOOPBACK = pathlib.Path("/proc/net/if_inet6"), f"{1:032}"
# A host that has the addresses that a library gives it, and how many of them are served at most; how many addresses may be named,
# and how many sockets that are handed over are served.
NAME, MOST_OF_HOST, MOST_NAMED, MOST_INHERITED = "many.invalid", 32, 1_024, 64
# What is said of sockets that are handed over if they are more, and numbers of them that can't be read or are past that.
TOO_MANY, BAD_COUNTS = "hole: can't listen: LISTEN_FDS isn't a number up to 64", ("65", "256", "-1", "1x", "")
NO_SEEDS = "warning: searches find nothing, because the settings have no [[seeds]]\n"


def listening(test, root, *words, hosts=(HOST,), **how):
    """Expects a server with these words to serve a text at each of these hosts, which may have a port of their own."""
    with test.serving(root, "--requests", len(hosts), *words, **how) as server:
        for each in hosts:
            host, port = each if isinstance(each, tuple) else (each, server.port)
            test.expect(f"{words}: a text from {host}", ask_whole(port, b"/a.txt\r\n", host), REPLY)
        output, error, status = server.end()
        test.expect(f"{words}: as many connections end it", (output[:6], status), (b"known ", 0))
        return server.port, error


def fails_to_listen(test, root, cause, *words, **how):
    """Expects a server that can't listen to say so, and why with --progress."""
    test.expect(f"{cause}: one line", test.ended(root, *words, **how), (b"", NOT_LISTENING, 1))
    output, error, status = test.ended(root, "--progress", *words, **how)
    told, last = error.splitlines(True)[0].decode(), error.splitlines(True)[1:]
    test.expect(f"{cause}, with --progress", (output, cause in told, last, status), (b"", True, [NOT_LISTENING], 1))


def addresses(count):
    """So many addresses of this machine."""
    return [f"127.1.{number // 250}.{number % 250 + 1}" for number in range(count)]


def having(test, *found):
    """What starts a program for which the host `NAME` has these addresses."""
    return test.preload("names", NAMED=NAME, ADDRESSES=",".join(found))


def check_named(test):
    """Named addresses are served in place of the host, may have a port of their own, and all count for --requests."""
    root, port = test.site(FILES), free_port()
    listening(test, root, "--listen", HOST, "--listen", OTHER, hosts=(HOST, OTHER, OTHER, HOST), more="threads = 2\n")
    with test.serving(root, "--requests", 1, "--listen", f"{OTHER}:{port}") as server:
        menu = ask(port, b"\r\n", OTHER)
        test.expect("a port of its own: menus name the settings' port", f"\t{HOST}\t{server.port}\r\n".encode() in menu, True)
    with test.serving(root) as server:
        are_served = [ask_whole(server.port, b"/a.txt\r\n", host) == REPLY for host in (HOST, OTHER)]
        test.expect("without --listen the host alone is served", are_served, [True, False])
    if not IPV6.exists() or LOOPBACK not in IPV6.read_text():
        return print("listen: skipped: this machine has no IPv6")
    listening(test, root, "--listen", "::1", hosts=("::1",))
    listening(test, root, "--listen", "[::1]", hosts=("::1",))
    listening(test, root, "--listen", f"[::1]:{port}", hosts=(("::1", port),))
    listening(test, root, "--listen", "[::]", hosts=("::1", HOST))


def handing_over(*sockets, receiver="os.getpid()", count="len(kept)"):
    """How to start a program with these sockets as those of socket activation, sd_listen_fds(3), for itself or another process. Their
    number is said to be `count`."""
    numbers = [each.fileno() for each in sockets]
    code = (
        "import fcntl, os, sys\n"
        "kept = [fcntl.fcntl(int(number), fcntl.F_DUPFD, 100) for number in sys.argv[1].split(',')]\n"
        "for place, number in enumerate(kept):\n    os.dup2(number, 3 + place)\n"
        f"os.environ.update(LISTEN_PID=str({receiver}), LISTEN_FDS=str({count}))\n"
        "os.execv(sys.argv[2], sys.argv[2:])\n"
    )
    return {"before": (sys.executable, "-c", code, ",".join(map(str, numbers))), "pass_fds": numbers}


def check_addresses(test):
    """Each address of a host is served, and one that can be bound is enough; 81 if none can be. Each that can't be is told."""
    root = test.site(FILES)
    found = sorted({info[4][0] for info in socket.getaddrinfo("localhost", None, type=socket.SOCK_STREAM)})
    listening(test, root, host="localhost", hosts=found)
    listening(test, root, host=NAME, hosts=(HOST, OTHER), before=having(test, HOST, OTHER))
    fails_to_listen(test, root, ABSENT, "--listen", ABSENT)
    port, error = listening(test, root, "--progress", "--listen", HOST, "--listen", ABSENT)
    test.expect("the second of two addresses is told", f"hole: can't listen at {ABSENT}:{port}: ".encode() in error, True)
    with socket.create_server((HOST, 0)) as taken:
        port = taken.getsockname()[1]
        fails_to_listen(test, root, f"hole: can't listen at {HOST}:{port}: ", port=port)
        for words in (), ("--progress",):
            how = {"port": port, "hosts": (OTHER,), "before": having(test, HOST, OTHER)}
            _, error = listening(test, root, *words, host=NAME, **how)
            told = f"hole: can't listen at {HOST}:{port}: ".encode() in error
            test.expect(f"whether the other is told with {words}", told, bool(words))


def check_most(test):
    """The most addresses of a host, addresses that are named, sockets that are handed over, and requests are served; no more are."""
    root, asked = test.site(FILES), b"/a.txt\r\n"
    found = addresses(MOST_OF_HOST + 1)
    with test.serving(root, host=NAME, before=having(test, *found)) as server:
        replies = [ask_whole(server.port, asked, host) for host in found]
        test.expect("of the addresses of a host", replies, [REPLY] * MOST_OF_HOST + [b"ConnectionRefusedError"])
    named = addresses(MOST_NAMED)
    words = [word for address in named for word in ("--listen", address)]
    with test.serving(root, *words, before=with_few_files(2 * MOST_NAMED)) as server:
        replies = [ask_whole(server.port, asked, host) for host in named]
        test.expect("of the most addresses that are named", replies, [REPLY] * MOST_NAMED)
    with contextlib.ExitStack() as ends:
        sockets = [ends.enter_context(socket.create_server((HOST, 0))) for _ in range(MOST_INHERITED + 1)]
        ports = [each.getsockname()[1] for each in sockets[:-1]]
        with test.serving(root, **handing_over(*sockets[:-1])):
            replies = [ask_whole(port, asked) for port in ports]
            test.expect("of the sockets that are handed over", replies, [REPLY] * MOST_INHERITED)
        fails_to_listen(test, root, TOO_MANY, **handing_over(*sockets))
    with test.serving(root, "--requests", 2) as server, connect(server.port) as held:
        held.sendall(b"/a")
        replies = [ask_whole(server.port, asked)]
        # The listener is closed after that reply, not before it.
        until_true(lambda: replies.append(ask_whole(server.port, asked)) or replies[-1] == b"ConnectionRefusedError", 20)
        told = (replies[0], REPLY in replies[1:], replies[-1])
        test.expect("of the requests after which a server ends", told, (REPLY, False, b"ConnectionRefusedError"))


def check_activation(test):
    """Sockets that are handed over are served in place of the settings' address; one that is no listener ends the threads."""
    root = test.site(FILES)
    with socket.create_server((HOST, 0)) as first, socket.create_server((HOST, 0)) as second, socket.socket() as other:
        places = [(HOST, each.getsockname()[1]) for each in (first, second)]
        listening(test, root, hosts=places, **handing_over(first, second))
        listening(test, root, **handing_over(first, receiver="os.getppid()"))
        listening(test, root, **handing_over(first, count=0))
        for count in BAD_COUNTS:
            fails_to_listen(test, root, TOO_MANY, **handing_over(first, count=repr(count)))
        other.bind((HOST, 0))
        test.expect("a socket that doesn't listen", test.ended(root, **handing_over(other))[1:], (NOT_LISTENING, 1))
        _, error, status = test.ended(root, "--progress", **handing_over(other))
        told = (b"hole: connections can't be accepted: " in error, error.splitlines()[-1], status)
        test.expect("the same with --progress", told, (True, b"hole: 81", 1))
        listening(test, root, "--listen", ABSENT, hosts=places[:1], **handing_over(first))


def check_other_descriptors(test):
    """What is handed over and isn't a TCP socket is named, and nothing is served."""
    root = test.site(FILES)
    kinds = (socket.AF_INET, socket.SOCK_DGRAM), (socket.AF_UNIX, socket.SOCK_STREAM), (socket.AF_UNIX, socket.SOCK_SEQPACKET)
    for kind in kinds:
        with socket.socket(*kind) as other:
            fails_to_listen(test, root, "hole: can't listen at descriptor 3: not a TCP socket", **handing_over(other))
    with socket.create_server((HOST, 0)) as first, open(test.folder / "file", "wb") as other:
        fails_to_listen(test, root, "hole: can't listen at descriptor 4: not a TCP socket", **handing_over(first, other))


def ends_in_time(client):
    """Whether the connection of a client comes to its end before its time-out."""
    try:
        read_all(client)
        return True
    except TimeoutError:
        return False


def queued_for(client):
    """How many bytes the system queues for a client that is connected from this machine."""
    ends = [client.getpeername()[1], client.getsockname()[1]]
    rows = [row.split() for row in pathlib.Path("/proc/net/tcp").read_text().splitlines()[1:]]
    return max(int(row[4].split(":")[0], 16) for row in rows if [int(end.split(":")[1], 16) for end in row[1:3]] == ends)


def check_blocking(test):
    """The one thread never waits in accept at a socket that is handed over as systemd does, and what is queued for its clients is
    limited."""
    root = test.site({**FILES, "large": bytes(8 << 20)})
    with socket.create_server((HOST, 0)) as first:
        port = first.getsockname()[1]
        with test.serving(root, more="threads = 1\n", **handing_over(first)), connect(port, wait=SECONDS_FOR_SLOW) as slow:
            slow.sendall(b"/a")
            for _ in range(8):
                test.expect("a request beside a slow one", ask_whole(port, b"/a.txt\r\n"), REPLY)
            slow.sendall(b".txt\r\n")
            test.expect("whether the slow one is answered", ends_in_time(slow), True)
            with contextlib.ExitStack() as ends:
                deaf = [ends.enter_context(connect(port)) for _ in MOST_QUEUED]
                for client in deaf:
                    client.sendall(b"/large\r\n")
                time.sleep(1)
                queued = sorted(map(queued_for, deaf), reverse=True)
                are_limited = all(0 < bytes_of <= most for bytes_of, most in zip(queued, MOST_QUEUED))
                test.expect(f"what is queued for clients that don't read: {queued}", are_limited, True)


def check_lost_thread(test):
    """A thread ends whose listener is broken. The other accepts what was reported to it, at each listener, and has its places."""
    before = (*with_few_files(FILES_LEFT + PLACES), *test.preload("refusing", BROKEN_ACCEPTS=1))
    words = ("--progress", "--clients-per-address", 2 * PLACES, "--listen", HOST, "--listen", OTHER)
    with test.serving(test.site(FILES), *words, more="threads = 2\n", before=before) as server:
        at_second = ask_whole(server.port, b"/a.txt\r\n", OTHER)
        test.expect("a client that was reported to a thread that ended", at_second, REPLY)
        idle = []
        for _ in range(PLACES):
            idle.append(connect(server.port))
            # so that a thread accepts one in each round
            time.sleep(0.02)
        test.expect("a client after as many idle ones as there are places", ask_whole(server.port, b"/a.txt\r\n"), REPLY)
        test.expect("as many are kept", sum(map(is_open, idle)) >= PLACES - 2, True)
        for each in idle:
            each.close()
        error = server.terminate()[1]
    test.expect("the thread that ended is told", error.count(b"hole: connections can't be accepted: "), 1)


class Checks:
    """Checks of a site at one port."""

    def __init__(self, test):
        self.test, self.root, self.port = test, test.site(FILES), free_port()
        self.settings = test.folder / "check.toml"

    def lines(self, host, *words, before=()):
        """What a check of a host prints of addresses, its line on standard error and its status."""
        self.settings.write_text(f'host = "{host}"\nport = {self.port}\nroot = "{self.root}"\n')
        output, error, status = self.test.run("check", self.settings, *words, before=before)
        counts, warning, rest = output.decode().partition(NO_SEEDS)
        self.test.expect(f"a check of {host} {words} without seeds", (counts[-9:], bool(warning)), ("bytes: 6\n", True))
        return rest, error, status

    def expect(self, words, pattern, is_sound, before=()):
        """Expects such lines, whose addresses of this host stand as HERE, and then the report of 81 unless it is sound."""
        lines, error, status = self.lines(*words, before=before)
        key = "" if "--listen" in words[:-1] else "key: host\n"
        fault = f"fault: 81\npath: {self.settings}\n{key}cause: .*\nremedy: .*\n"
        pattern = pattern.replace("HERE", f"{HOST}:{self.port}") + ("sound\n" if is_sound else fault)
        ended = (b"", 0) if is_sound else (NOT_LISTENING, 1)
        found = (bool(re.fullmatch(pattern, lines)), error, status)
        self.test.expect(f"a check of {words} is {lines!r}", found, (True, *ended))


def check_checks(test):
    """`hole check` resolves the host, or binds addresses, and prints what the system says of each. With --listen ADDRESS it
    doesn't resolve the host, and an address that is in use or needs a permission doesn't fail it."""
    checks, nowhere = Checks(test), "no.such.host.invalid"
    in_use, of_another, denied = "Address already in use.*\n", "Cannot assign.*\n", "Permission denied.*\n"
    without = test.preload("refusing", REFUSED_BINDS=1)
    rows = (
        ((HOST,), "resolves to: HERE\n", True),
        ((HOST, "--listen"), "resolves to: HERE\ncan listen at: HERE\n", True),
        ((ABSENT,), f"resolves to: .*\nnot of this machine: {ABSENT}: {of_another}", False),
        ((ABSENT, "--listen"), f"resolves to: .*\n.*{of_another}", False),
        ((nowhere,), "resolves to nothing: .*\n", False),
        ((nowhere, "--listen"), "resolves to nothing: .*\n", False),
        ((nowhere, "--listen", OTHER), f"can listen at: {OTHER}:{checks.port}\n", True),
        ((HOST, "--listen", ABSENT), f".*{of_another}", False),
    )
    for row in rows:
        checks.expect(*row)
    checks.expect((nowhere, "--listen", HOST), f"can't listen at: HERE: {denied}", True, without)
    checks.expect((HOST, "--listen"), f"resolves to: HERE\ncan't listen at: HERE: {denied}", False, without)
    with socket.create_server((HOST, checks.port)):
        checks.expect((HOST, "--listen"), f"resolves to: HERE\ncan't listen at: HERE: {in_use}", False)
        checks.expect((HOST,), "resolves to: HERE\n", True)
        checks.expect((nowhere, "--listen", HOST), f"can't listen at: HERE: {in_use}", True)
        named = ("--listen", f"{HOST}:{checks.port}", "--listen", f"{ABSENT}:7")
        checks.expect((nowhere, *named), f"can't listen at: HERE: {in_use}can't listen at: {ABSENT}:7: {of_another}", True)


if __name__ == "__main__":
    run_test("listen", __doc__, check_named, check_addresses, check_activation, check_other_descriptors, check_blocking,
             check_lost_thread, check_most, check_checks)
