#!/usr/bin/env python3
"""Reads what the built program logs of requests (docs/SPECIFICATION.md, appendix B), and what it prints of its crawl.

    tests/log.py [PROGRAM]

Servers with --log are asked by ordinary clients, by clients that send odd bytes or leave in mid-reply, and by many at once,
with a log that is a file, a full device, a pipe that nobody reads, a pipe that is read late, and a path where no file can be.
The last line is 'log: N passed, M failed'. It takes half a minute.
"""
import collections
import contextlib
import datetime
import os
import pathlib
import re
import select
import signal
import socket
import time
from concurrent.futures import ThreadPoolExecutor

from running.server import (
    HOST, SIZES, WAIT, Host, ask, ask_all, connect, found_at_last, free_port, is_open, read_all, reset, run_test, seeded, until_true,
    with_few_files,
)

LARGE = bytes(range(256)) * 32_768
LINE = re.compile(rb"(\d{4})-(\d\d)-(\d\d)T(\d\d):(\d\d):(\d\d)\.(\d{6})Z\t([^\t]*)\t([^\t]*)\t([^\t]*)\t(\d+)\t(\d+)")
CANT = b"hole: the log can't be written: "
FAILED = b" failed %d\n"
TRIES = 20
CLOSED = b"hole: connections closed for room: "
SILENT = 100
NO_ROOM = b"hole: messages that had no room: "
REACHED = b"hole: the crawl reached --crawl-memory: it leaves pages out\n"
MOST_SECONDS_FOR_LATE = 5.0
LINES_FOR_PIPE = 1_700  # of some 4,100 bytes each: more than the pipe and all batches hold
KEPT_FOR_PIPE = 200  # more than one batch, the threads and the pipe hold, less than 64 batches that were handed on early
MOST_FOR_PIPE = 1_160  # of 64 batches, another that is written, those of both threads, 17 lines each, the pipe, and the last ones
LAST_LINES = 2  # one for each thread, so that none ends while nobody reads
SECONDS_UNREAD = 2.5  # longer than the writer tries on once no lines come
STEADY = 15
LATE = 0.08  # seconds
SECONDS_BETWEEN_SIZES = 11.0
MOST_SECONDS_OF_WORK = 5.0  # of a crawl of two pages

# Each byte but TAB and LF.
ODD = bytes(byte for byte in range(256) if byte not in (9, 10))

Request = collections.namedtuple("Request", "time peer selector search sent micros")


class Logs:
    """Servers of one folder, and their logs."""

    def __init__(self, test):
        self.test, self.folder, self.expect = test, test.folder, test.expect
        self.root = test.site({"a.txt": b"hello\n", "docs/b.txt": b"moon\n", "empty.png": b"", "large.png": LARGE})

    def serving(self, *words, more="threads = 2\n", **how):
        return self.test.serving(self.root, *words, more=more, **how)

    @contextlib.contextmanager
    def logging(self, path, requests=None, **how):
        """A server with a log, which ends well after so many requests if they are given. All its clients have one address."""
        words = ("--clients-per-address", 1_000, *(("--requests", requests) if requests else ()))
        with self.serving("--log", path, *words, **how) as server:
            yield server
            if requests:
                self.expect(f"a server with the log {pathlib.Path(path).name} ends well", server.end(), (SIZES, b"", 0))


def request_of(line):
    """The fields of a line of the log, or the line itself if it isn't one."""
    fields = LINE.fullmatch(line)
    if not fields:
        return line
    numbers = [int(number) for number in fields.groups()[:7]]
    when = datetime.datetime(*numbers, tzinfo=datetime.timezone.utc).timestamp()
    return Request(when, *fields.groups()[7:10], *map(int, fields.groups()[10:]))


def lines_of(content):
    """The lines of a log; what doesn't end in LF is a line by the name of 'cut'."""
    *lines, rest = content.split(b"\n")
    return lines + ([("cut", rest)] if rest else [])


def logged(path):
    return [request_of(line) for line in lines_of(path.read_bytes())]


def escaped(content):
    return b"".join(b"%c" % byte if 32 <= byte <= 126 and byte != 92 else b"\\x%02x" % byte for byte in content)


# Lines that are asked, with the selector and the search that are logged.
ASKED = [
    (b"\r\n", b"", b""), (b"/a.txt\r\n", b"/a.txt", b""), (b"/a.txt\n", b"/a.txt", b""), (b"/docs\r\n", b"/docs", b""),
    (b"/gone\r\n", b"/gone", b""), (b"/search\tmoon and sun\r\n", b"/search", b"moon and sun"),
    (b"/search\t\r\n", b"/search", b""), (b"/a.txt\t+\r\n", b"/a.txt", b"+"),
    (b"/a.txt\twords\t+\t1\r\n", b"/a.txt", b"words"), (b"/large.png\r\n", b"/large.png", b""),
    (b"/a b\\c\x00\x1f\x7f\xc3\xb6\r\n", b"/a b\\x5cc\\x00\\x1f\\x7f\\xc3\\xb6", b""), (b"\tfr\xf6g\"\r\n", b"", b"fr\\xf6g\""),
    (b"/a\r.txt\r\n", b"/a\\x0d.txt", b""), (b"/" + b"x" * 1_023 + b"\r\n", b"/" + b"x" * 1_023, b""),
    (b"/empty.png\r\n", b"/empty.png", b""), (b"\t".join([ODD] * 3) + b"\r\n", escaped(ODD), escaped(ODD)),
]


def check_fields(logs):
    """Each kind of request has its line, with the bytes of its reply; each byte but LF and TAB is escaped."""
    path = logs.folder / "fields"
    with logs.logging(path, len(ASKED), more="threads = 1\n") as server:
        before = time.time()
        replies = [ask(server.port, line) for line, _, _ in ASKED]
        spent = time.time() - before
    found = logged(path)
    logs.expect("a line for each request", len(found), len(ASKED))
    for request, reply, (line, selector, search) in zip(found, replies, ASKED):
        logs.expect(f"the line of {line[:30]!r}", request[1:5], (b"127.0.0.1", selector, search, len(reply)))
        logs.expect(f"the time of {line[:30]!r}", before - 1 <= request.time <= before + spent + 1, True)
        logs.expect(f"the microseconds of {line[:30]!r}", 0 <= request.micros <= spent * 1e6 + 1e6, True)


def check_steady(logs):
    """Lines are written while requests go on, and the microseconds of one count from the accept."""
    path, waits, times = logs.folder / "steady", [1.1, *[0.1] * (STEADY - 2)], []
    with logs.logging(path, STEADY, more="threads = 1\n") as server:
        for wait in waits:
            began = time.monotonic()
            with connect(server.port) as client:
                time.sleep(wait)
                client.sendall(b"/a.txt\r\n")
                read_all(client)
            times.append(time.monotonic() - began)
        early = len(logged(path))
        ask(server.port, b"/a.txt\r\n")
    found = logged(path)
    logs.expect(f"{early} of {len(found)} lines are written meanwhile", (early >= STEADY // 2, len(found)), (True, STEADY))
    short = [request.micros for request, wait in zip(found, waits) if request.micros < wait * 0.5e6]
    logs.expect("the microseconds of a client that waits before its line", short, [])
    # the client may be at its end before the server has read its clock
    long = [request.micros for request, seconds in zip(found, times) if request.micros > (seconds + LATE) * 1e6]
    logs.expect(f"microseconds of more than the client's own time: {long}", len(long) <= 1, True)


def check_idle(logs):
    """A server that logs sleeps while nobody asks."""
    with logs.logging(logs.folder / "idle") as server:
        ask(server.port, b"/a.txt\r\n")
        time.sleep(1.0)
        before = switches(server.process.pid)
        time.sleep(2.0)
        logs.expect("wakes of an idle server in 2 s are few", switches(server.process.pid) - before <= 2, True)


def switches(number):
    """How often the threads of a process went to sleep so far."""
    return sum(
        int(line.split()[1])
        for status in pathlib.Path(f"/proc/{number}/task").glob("*/status")
        for line in status.read_text().splitlines()
        if line.startswith("voluntary_ctxt_switches:")
    )


def seconds_of_work(number):
    """For how many seconds a process has had a processor so far."""
    times = pathlib.Path(f"/proc/{number}/stat").read_text().rpartition(")")[2].split()[11:13]
    return sum(map(int, times)) / os.sysconf("SC_CLK_TCK")


def expect_cut(logs, path):
    """Expects one line, of a reply that was cut."""
    found = logged(path)
    logs.expect(f"the line of a reply, {path.name}", [request.selector for request in found], [b"/large.png"])
    logs.expect("its bytes", [0 < request.sent < len(LARGE) for request in found], [True])


def check_refused_watch(logs):
    """A connection that the system refuses to watch has its line, and gives its place back."""
    path, refusing = logs.folder / "unwatched", logs.test.preload("refusing", REFUSED_WATCHES=1)
    with logs.logging(path, more="threads = 1\n", before=(*with_few_files(66), *refusing)) as server:
        # the line is there before the server accepts, so that it is asked at once
        server.process.send_signal(signal.SIGSTOP)
        with connect(server.port) as client:
            client.sendall(b"/large.png\r\n")
            server.process.send_signal(signal.SIGCONT)
            time.sleep(0.5)
            read_all(client)
        with connect(server.port) as first, connect(server.port) as second:
            until_true(path.read_bytes, MOST_SECONDS_FOR_LATE)
            logs.expect("two clients after it, for whom there is room", (is_open(first), is_open(second)), (True, True))
    expect_cut(logs, path)


def check_empty_writes(logs):
    """Writes that take no byte are made again. A server whose writes all take none ends well."""
    path = logs.folder / "empty"
    with logs.logging(path, STEADY, before=logs.test.preload("refusing", EMPTY_WRITES=5)) as server:
        ask_all(server.port, [b"/a.txt\r\n"] * STEADY)
    logs.expect("its lines", [request.selector for request in logged(path)], [b"/a.txt"] * STEADY)
    with logs.logging(path, 1, before=logs.test.preload("refusing", EMPTY_WRITES=10**18)) as server:
        ask(server.port, b"/a.txt\r\n")


def is_reset(client):
    """Whether the server has reset the connection of a client. Nothing is read."""
    errors = select.poll()
    errors.register(client, 0)
    return bool(errors.poll(0))


def check_closed(logs):
    """A connection that is closed because all places are taken has its line."""
    path = logs.folder / "closed"
    with logs.logging(path, more="threads = 1\n", before=with_few_files(66)) as server, connect(server.port) as deaf:
        deaf.sendall(b"/large.png\r\n")
        # the others come once the server has written all that the system takes, so that this one is idle longest
        time.sleep(1.0)
        # They have asked too: one that has asked nothing goes first, also one that is accepted before its line comes. So the third
        # one is tried again until its line is there in time.
        with connect(server.port) as second, contextlib.ExitStack() as ends:
            second.sendall(b"/large.png\r\n")
            time.sleep(0.5)
            for _ in range(TRIES):
                third = ends.enter_context(connect(server.port))
                third.sendall(b"/large.png\r\n")
                until_true(lambda: is_reset(third) or is_reset(deaf))
                if not is_reset(third):
                    break
            time.sleep(1.0)
            logs.expect("lines while the others wait", [request.selector for request in logged(path)], [b"/large.png"])
            logs.expect("clients that are reset", [is_reset(deaf), is_reset(second), is_reset(third)], [True, False, False])


def check_silence(logs):
    """Clients that ask nothing leave no line; what stood in the file stays; lines come while the server runs, and while a client
    stays that has its whole reply."""
    path = logs.folder / "appended"
    path.write_bytes(b"what stood there\n")
    with logs.logging(path) as server:
        with contextlib.suppress(OSError):
            ask(server.port, b"x" * 1_100)
        with connect(server.port) as silent:
            silent.sendall(b"/a.txt")
            ask(server.port, b"/a.txt\r\n")
            with connect(server.port) as staying:
                staying.sendall(b"/large.png\r\n")
                read_all(staying)
                until_true(lambda: path.read_bytes().count(b"\n") >= 3, MOST_SECONDS_FOR_LATE)
                lines = logged(path)
    logs.expect("what stood there stays", lines[:1], [b"what stood there"])
    logs.expect("the lines that were asked", [request.selector for request in lines[1:]], [b"/a.txt", b"/large.png"])


def check_reset(logs):
    """A client that resets in mid-reply has a line of the bytes that were sent."""
    path = logs.folder / "reset"
    with logs.logging(path, 1) as server, connect(server.port) as client:
        client.sendall(b"/large.png\r\n")
        client.recv(1_000)
        reset(client)
    expect_cut(logs, path)


def check_reset_at_once(logs):
    """A client that is gone before anything is written to it has a line."""
    path = logs.folder / "gone"
    with logs.logging(path, 1, more="threads = 1\n") as server:
        # the line and the reset are there before the server accepts
        server.process.send_signal(signal.SIGSTOP)
        client = connect(server.port)
        client.sendall(b"/large.png\r\n")
        reset(client)
        server.process.send_signal(signal.SIGCONT)
    logs.expect("the line of a client that was gone", [request[2:5] for request in logged(path)], [(b"/large.png", b"", 0)])


def check_threads(logs):
    """Lines of several threads are whole, and none is missing."""
    path = logs.folder / "threads"
    lines = [b"/a.txt\t%d\r\n" % number for number in range(3_000)]
    with logs.logging(path, len(lines), more="threads = 8\n") as server:
        replies = ask_all(server.port, lines)
    found = sorted(int(request.search) for request in logged(path))
    logs.expect("all lines of eight threads", found, list(range(len(lines))))
    logs.expect("all replies of eight threads", set(replies), {b"hello\r\n.\r\n"})


def check_late(logs):
    """A log whose folder comes later has the lines of all requests, and a failure is told once."""
    folder, count = logs.folder / "later", 20
    with logs.serving("--log", folder / "log", "--requests", count) as server:
        replies = [ask(server.port, b"/a.txt\r\n") for _ in range(count - 1)]
        time.sleep(0.6)
        folder.mkdir()
        until_true((folder / "log").exists, MOST_SECONDS_FOR_LATE)
        replies.append(ask(server.port, b"/a.txt\r\n"))
        expect_told(logs, "a log whose folder comes later", server.end())
    lines = [request.selector for request in logged(folder / "log")] if (folder / "log").exists() else []
    logs.expect("a log whose folder comes later: its lines", lines, [b"/a.txt"] * len(replies))


def expect_told(logs, what, ended):
    """Expects a server to have ended well, and to have said once that its log can't be written."""
    output, error, status = ended
    logs.expect(f"{what}: output and status", (output, status), (SIZES, 0))
    logs.expect(f"{what}: told once", (error.startswith(CANT), error.count(b"\n")), (True, 1))


def check_refused(logs):
    """A log that can't be written is reported once, and serving goes on."""
    lines = [b"/a.txt\r\n"] * 200
    for path in ("/dev/full", logs.folder / "no" / "such" / "folder", logs.folder):
        with logs.serving("--log", path, "--requests", len(lines) + 1) as server:
            replies = ask_all(server.port, lines)
            time.sleep(0.6)
            replies.append(ask(server.port, b"/a.txt\r\n"))
            expect_told(logs, f"the log {path}", server.end())
        logs.expect(f"the log {path}: replies", set(replies), {b"hello\r\n.\r\n"})


def check_standard_error(logs):
    """With --log - the lines are on standard error, also if that is a socket, as under systemd."""
    ours, theirs = socket.socketpair()
    with ours, logs.serving("--log", "-", "--requests", 2, more="threads = 1\n", stderr=theirs) as server:
        theirs.close()
        replies = [ask(server.port, line) for line in (b"/a.txt\r\n", b"/gone\r\n")]
        found = [request_of(line) for line in lines_of(read_all(ours))]
        logs.expect("--log -: the server ends well", server.end(), (SIZES, None, 0))
    wanted = [(b"/a.txt", len(replies[0])), (b"/gone", len(replies[1]))]
    told = [(line.selector, line.sent) if isinstance(line, Request) else line for line in found]
    logs.expect("--log -: a line for each request on standard error", told, wanted)


class Pipe:
    """A log that is a pipe, and lines that are longest when they are logged."""

    LINE = b"/" + b"\xff" * 1_000 + b"\r\n"

    def __init__(self, logs, name):
        self.path = logs.folder / name
        os.mkfifo(self.path)

    def read(self):
        """The requests that are read until its writers end, and the numbers of dropped ones."""
        with os.fdopen(os.open(self.path, os.O_RDONLY | os.O_NONBLOCK), "rb") as pipe:
            # a writer that has given up isn't waited for
            os.set_blocking(pipe.fileno(), True)
            found = lines_of(pipe.read())
        dropped = [int(line.removeprefix(b"# dropped ")) for line in found if line.startswith(b"# dropped ")]
        return [request_of(line) for line in found if not line.startswith(b"# dropped ")], dropped


def check_unread(logs):
    """A pipe that nobody reads stalls nobody; once it is read, its lines and the number of dropped ones make up all."""
    pipe, count = Pipe(logs, "pipe"), LINES_FOR_PIPE + LAST_LINES
    with logs.serving("--log", pipe.path, "--requests", count) as server, ThreadPoolExecutor(1) as reader:
        replies = ask_all(server.port, [pipe.LINE] * LINES_FOR_PIPE)
        time.sleep(SECONDS_UNREAD)
        content = reader.submit(pipe.read)
        time.sleep(1.5)
        replies += ask_all(server.port, [pipe.LINE] * LAST_LINES)
        expect_told(logs, "a pipe", server.end())
        requests, dropped = content.result(WAIT)
    logs.expect("a pipe: replies", (len(replies), len(set(replies))), (count, 1))
    logs.expect("a pipe: whole lines", {request[2] for request in requests}, {escaped(pipe.LINE.strip())})
    is_kept = KEPT_FOR_PIPE <= len(requests) <= MOST_FOR_PIPE
    logs.expect(f"a pipe: the lines of many batches are kept: {len(requests)}", is_kept, True)
    logs.expect("a pipe: lines and dropped ones", (len(requests) + sum(dropped), sum(dropped) > 0), (count, True))


def check_read_at_the_end(logs):
    """Threads that end wait for a pipe that is read soon: its lines and the number of dropped ones make up all."""
    pipe = Pipe(logs, "soon")
    with logs.serving("--log", pipe.path, "--requests", LINES_FOR_PIPE) as server:
        ask_all(server.port, [pipe.LINE] * LINES_FOR_PIPE)
        requests, dropped = pipe.read()
        server.end()
    logs.expect("a pipe that is read soon: lines and dropped ones", len(requests) + sum(dropped), LINES_FOR_PIPE)


def check_never_read(logs):
    """A server whose log is a pipe that nobody ever reads ends all the same."""
    pipe = Pipe(logs, "never")
    with logs.serving("--log", pipe.path, "--requests", 100) as server:
        ask_all(server.port, [pipe.LINE] * 100)
        expect_told(logs, "a pipe that is never read", server.end())


def check_progress(logs):
    """The sizes of the crawl are printed after ten seconds, and again at its end, since they change only then. A place that is out
    for longer than that is named, and so is the limit of memory that the crawl has reached."""
    with socket.create_server((HOST, 0)) as deaf:
        port = deaf.getsockname()[1]
        # one fetch of the server itself, whose page is left out
        words, own = ("--progress", "--requests", 1, "--crawl-memory", 1), seeded() + "".join(seeded(port).splitlines(True)[1:])
        with logs.serving(*words, more=own) as server:
            fetch, _ = deaf.accept()
            began = time.monotonic()
            # a place that is out for as long as that is named too
            first = [re.sub(rb" 1\d s ", b" S s ", server.process.stderr.readline()) for _ in range(4)]
            seconds = time.monotonic() - began
            time.sleep(SECONDS_BETWEEN_SIZES)
            worked = seconds_of_work(server.process.pid)
            deaf.close()
            fetch.close()
            output, rest, status = server.end()
    slow = f"hole: slow: S s gopher://{HOST}:{port}/1\n".encode()
    left_out = f"hole: failed: gopher://{HOST}:{server.port}/1: memory\n".encode()
    wanted = [left_out, slow, REACHED, b"known 2 waiting 0 out 1 done 1 dropped 0" + FAILED % 1]
    logs.expect("the sizes of a crawl that goes on", sorted(first), sorted(wanted))
    logs.expect(f"they came after {seconds:.1f} seconds", 8 < seconds < 13, True)
    logs.expect(f"idle workers sleep, of {worked} seconds of work", worked < MOST_SECONDS_OF_WORK, True)
    failed = f"hole: failed: gopher://{HOST}:{port}/1: read: connection reset\n".encode()
    ended = b"hole: crawl finished: 0 found, 2 failed, 0 dropped in S s\n"
    rest = re.sub(rb" in 2\d s\n$", b" in S s\n", rest)
    logs.expect("the sizes at its end", (rest, status), (failed + output[:-1] + FAILED % 2 + ended, 0))
    logs.expect("they are those of its end", b" waiting 0 out 0 " in output, True)


def check_unread_messages(logs):
    """Messages that nobody reads hold up neither the crawl nor the end; read later, those that had no room are counted."""
    absent, count, found = free_port(), 1_100, []
    with Host(lambda line: {b"/t": b"moon\n.\n"}.get(line.strip(), menu)) as host:
        gone = b"".join(b"0\t/%d%s\t%s\t%d\r\n" % (number, b"\xff" * 240, HOST.encode(), absent) for number in range(count))
        menu = gone + host.menu(b"0", [b"/t"])
        settings = seeded(host.port, f"places = {2 * count}", allow=[absent])
        with logs.serving("--progress", more=settings) as server:
            found = found_at_last(server, b"moon", [b"/t"])
            time.sleep(1)
            printed = missing = 0
            # beside the failed places: how many aren't named, the sizes, and the end
            while printed + missing < 1_000 + 3 and (line := server.process.stderr.readline()):
                printed, missing = (printed, missing + int(line[len(NO_ROOM):])) if line.startswith(NO_ROOM) else (printed + 1, missing)
            server.terminate()
        with logs.serving("--progress", "--requests", 0, more=settings) as server:
            until_true(lambda: server.process.poll() is not None, WAIT)
            status = server.process.poll()
    logs.expect("a crawl whose messages nobody reads goes on", found, [b"/t"])
    logs.expect("messages that were printed or counted", (printed + missing, printed > 200, missing > 0), (1_000 + 3, True, True))
    logs.expect("a server whose messages nobody reads ends", status, 0)


def check_closed_for_room(logs):
    """That connections are closed for others is said at once, and no more in the next seconds."""
    how = {"more": "threads = 1\n", "before": with_few_files(SILENT + 64)}
    with logs.serving("--progress", "--clients-per-address", 1_000, **how) as server, contextlib.ExitStack() as ends:
        for _ in range(2 * SILENT):
            ends.enter_context(connect(server.port))
            ask(server.port, b"/a.txt\r\n")
        _, errors, _ = server.terminate()
    closed = [int(line[len(CLOSED):]) for line in errors.splitlines() if line.startswith(CLOSED)]
    logs.expect("connections closed for room are told once", closed, [1])


def check_mode(logs):
    """A log that is made can be read by its owner and its group alone; one that is there stays as it is."""
    made, old = logs.folder / "made", logs.folder / "there"
    old.touch()
    old.chmod(0o644)
    for path, mode in ((made, 0o640), (old, 0o644)):
        with logs.logging(path, 1) as server:
            ask(server.port, b"/a.txt\r\n")
        logs.expect(f"who may read the log {path.name}", oct(path.stat().st_mode & 0o777), oct(mode))


CHECKS = (
    check_fields, check_steady, check_idle, check_refused_watch, check_empty_writes, check_closed, check_silence, check_reset,
    check_reset_at_once, check_threads, check_standard_error, check_unread, check_read_at_the_end, check_never_read, check_late,
    check_unread_messages, check_closed_for_room, check_mode, check_refused,
)


def check_all(test):
    """Makes the checks one by one, and the one that mostly waits beside them."""
    logs = Logs(test)
    with ThreadPoolExecutor(1) as beside:
        waits = beside.submit(check_progress, logs)
        for check in CHECKS:
            check(logs)
        waits.result()


if __name__ == "__main__":
    run_test("log", __doc__, check_all)
