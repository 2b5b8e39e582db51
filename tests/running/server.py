"""What the tests of the running program share: a test's checks and its folder, servers of the built program, clients that ask
them over loopback, and hosts of this process that they crawl.

Every wait has an end; a server that isn't at its end in time is killed by its process id, which ends its clients' waits.
"""
import argparse
import contextlib
import pathlib
import select
import socket
import socketserver
import struct
import subprocess
import sys
import tempfile
import threading
import time
from concurrent.futures import ThreadPoolExecutor

ROOT = pathlib.Path(__file__).resolve().parent.parent.parent
PROGRAM = ROOT / "crates" / "hole" / "out" / "hole"
HOST = "127.0.0.1"
WAIT = 20.0
MOST_SECONDS = 120.0
MOST_SHOWN = 20
TEXTS_OF_A_MENU = 128
# How long a crawl may take for what is expected of it next.
SECONDS_FOR_ALL = 20.0
# What a server prints at its end that crawled nothing.
SIZES = b"known 0 waiting 0 out 0 done 0 dropped 0\n"
# Sockets that hold ports, by these.
HELD = {}


class Test:
    """The checks of a program in a folder of their own. It counts what passed and what failed, and shows the first that fail."""

    def __init__(self, name, program, folder, given):
        self.name, self.program, self.folder, self.given = name, program, folder, given
        self.passed, self.failed, self.sites = 0, 0, 0
        # Checks may run beside each other.
        self.lock = threading.Lock()

    def expect(self, what, got, wanted):
        with self.lock:
            is_met = got == wanted
            self.passed, self.failed = self.passed + is_met, self.failed + (not is_met)
            is_shown = not is_met and self.failed <= MOST_SHOWN
        if not is_shown:
            return
        shown = [value if len(repr(value)) < 300 else repr(value)[:300] + ".." for value in (got, wanted)]
        print(f"{self.name}: {what}: {shown[0]!r} is not {shown[1]!r}", flush=True)

    def site(self, files, name=None):
        """A new folder with these files, by their paths."""
        with self.lock:
            self.sites += 1
            root = self.folder / (name or f"site-{self.sites}")
        root.mkdir(parents=True)
        for path, content in files.items():
            (root / path).parent.mkdir(parents=True, exist_ok=True)
            (root / path).write_bytes(content)
        return root

    def preload(self, name, **variables):
        """What starts a program with a library of tests/preloads/ loaded before it, and these variables in its environment."""
        library = self.folder / f"{name}.so"
        if not library.exists():
            source = ROOT / "tests" / "preloads" / f"{name}.c"
            subprocess.run(["cc", "-O2", "-shared", "-fPIC", "-o", library, source], check=True)
        return ("env", f"LD_PRELOAD={library}", *(f"{name}={value}" for name, value in variables.items()))

    def run(self, *words, before=(), **how):
        """What the program writes to its output and its error stream, and its status."""
        how = {"stdout": subprocess.PIPE, "stderr": subprocess.PIPE, "timeout": 6 * WAIT, **how}
        ran = subprocess.run([*before, self.program, *words], **how)
        return ran.stdout, ran.stderr, ran.returncode

    @contextlib.contextmanager
    def serving(self, root, *words, **how):
        """A server of a folder that has come to listen."""
        with Server(self, root, *words, **how) as server:
            told = server.started()
            self.expect(f"the line of a server with {words}", told, f"listening {server.host} {server.port}\n".encode())
            yield server

    def ended(self, root, *words, **how):
        """The output, the errors and the status of a server that ends by itself."""
        with Server(self, root, *words, **how) as server:
            return server.end()


def run_test(name, text, *checks, **options):
    """Runs the checks of a test, each with the test, and ends with its status. `text` says what it tests; of the options, each
    has a value that it has if the command line doesn't say another."""
    words = argparse.ArgumentParser(description=text, formatter_class=argparse.RawDescriptionHelpFormatter)
    for option, value in options.items():
        how = {"action": "store_true"} if value is False else {"type": type(value), "default": value}
        words.add_argument(f"--{option}", **how)
    words.add_argument("program", nargs="?", type=pathlib.Path, default=PROGRAM)
    given = words.parse_args()
    with tempfile.TemporaryDirectory() as place:
        folder = pathlib.Path(place)
        folder.chmod(0o755)
        test = Test(name, given.program.resolve(), folder, given)
        for check in checks:
            check(test)
    print(f"{name}: {test.passed} passed, {test.failed} failed")
    sys.exit(0 if test.passed and not test.failed else 1)


def free_port():
    """A port at which nobody listens. A socket that is bound to it keeps the system from giving it to another process."""
    held = socket.socket()
    held.setsockopt(socket.SOL_SOCKET, socket.SO_REUSEADDR, 1)
    held.bind((HOST, 0))
    port = held.getsockname()[1]
    HELD[port] = held
    return port


def connect(port, host=HOST, wait=WAIT):
    return socket.create_connection((host, port), timeout=wait)


def reset(client):
    """Closes a client's side without an end, so that the other side sees a reset."""
    client.setsockopt(socket.SOL_SOCKET, socket.SO_LINGER, struct.pack("ii", 1, 0))
    client.close()


def read_all(client):
    """All that a client is sent, to the end or to a reset."""
    parts = []
    with contextlib.suppress(ConnectionResetError):
        while part := client.recv(65_536):
            parts.append(part)
    return b"".join(parts)


def ask(port, line, host=HOST):
    """The reply to a line."""
    with connect(port, host) as client:
        client.sendall(line)
        return read_all(client)


def ask_whole(port, sent, host=HOST, pieces=1):
    """What a client is sent that sends these bytes in so many pieces, and ends its side if they end no line; or the name of the
    error, if it isn't served."""
    length = len(sent) // pieces + 1
    try:
        with connect(port, host) as client:
            with contextlib.suppress(OSError):
                for start in range(0, len(sent), length):
                    client.sendall(sent[start:start + length])
                    time.sleep(0.003 * (pieces > 1))
                if b"\n" not in sent:
                    client.shutdown(socket.SHUT_WR)
            return read_all(client)
    except OSError as error:
        return type(error).__name__.encode()


def ask_all(port, lines, by=ask):
    """The replies to these lines, of which several are asked at once."""
    with ThreadPoolExecutor(16) as clients:
        return list(clients.map(lambda line: by(port, line), lines))


def is_open(client):
    """Whether the server hasn't closed the connection of a client; what it was sent is read."""
    client.setblocking(False)
    try:
        while client.recv(1 << 20):
            pass
        return False
    except BlockingIOError:
        return True
    except OSError:
        return False


def until_true(test, seconds=WAIT, pause=0.05):
    """Whether a test holds before the time is over."""
    until = time.monotonic() + seconds
    while not (holds := test()) and time.monotonic() < until:
        time.sleep(pause)
    return holds


def with_few_files(files):
    """What starts a program that may open this many files."""
    return ("sh", "-c", f'ulimit -Sn {files}; exec "$@"', "sh")


class Server:
    """A server of a folder, with more words and settings, or by a file of settings that is its `root`; `before` stands before
    the program's name, and `how` is Popen's."""

    def __init__(self, test, root, *words, more="", port=None, host=HOST, before=(), seconds=MOST_SECONDS, **how):
        self.host, self.port, settings = host, port or free_port(), root
        if root.suffix != ".toml":
            settings = test.folder / f"settings-{self.port}.toml"
            settings.write_text(f'host = "{host}"\nport = {self.port}\nroot = "{root}"\n{more.replace("PORT", str(self.port))}')
        words = [*before, test.program, "serve", settings, *map(str, words)]
        self.process = subprocess.Popen(words, **{"stdout": subprocess.PIPE, "stderr": subprocess.PIPE, **how})
        self.watchdog = threading.Timer(seconds, self.process.kill)
        self.watchdog.daemon = True
        self.watchdog.start()

    def started(self):
        """The line that says where it listens."""
        ready, _, _ = select.select([self.process.stdout], [], [], WAIT)
        return self.process.stdout.readline() if ready else b""

    def memory(self, name="VmRSS"):
        """The memory that it holds, in KiB, or with VmHWM the most that it has held; none if it has ended."""
        status = pathlib.Path(f"/proc/{self.process.pid}/status").read_text()
        return next((int(line.split()[1]) for line in status.splitlines() if line.startswith(f"{name}:")), None)

    def end(self):
        """The rest of its output, its errors and its status."""
        try:
            output, error = self.process.communicate(timeout=WAIT)
        except subprocess.TimeoutExpired:
            self.process.kill()
            output, error = self.process.communicate()
            return output, error, "didn't end"
        return output, error, self.process.returncode

    def terminate(self):
        """Ends it by SIGTERM. Returns the rest of its output, its errors and its status."""
        self.process.terminate()
        return self.end()

    def __enter__(self):
        return self

    def __exit__(self, *_):
        self.watchdog.cancel()
        if self.process.poll() is None:
            self.process.kill()
        self.process.communicate()
        if self.port in HELD:
            HELD.pop(self.port).close()


class Replying(socketserver.BaseRequestHandler):
    """Notes the line, and sends what the host answers: bytes, or parts of them; or resets the connection if that is None."""

    def handle(self):
        line = self.request.recv(1_026).rstrip(b"\r\n")
        self.server.asked.append(line)
        reply = self.server.answer(line)
        if reply is None:
            reset(self.request)
            return
        with contextlib.suppress(OSError):
            for part in [reply] if isinstance(reply, bytes) else reply:
                self.request.sendall(part)
            self.request.shutdown(socket.SHUT_WR)
            # A reply that isn't read to its end would be reset otherwise.
            while self.request.recv(65_536):
                pass


class Host(socketserver.ThreadingTCPServer):
    """A host that answers each line by `answer`, and notes in `asked` what it was asked."""

    allow_reuse_address = daemon_threads = True
    request_queue_size = 512

    def __init__(self, answer=None):
        super().__init__((HOST, 0), Replying)
        self.answer, self.asked, self.port = answer, [], self.server_address[1]
        threading.Thread(target=self.serve_forever, daemon=True).start()

    def shutdown_request(self, request):
        """Closes at once, so that a connection that lingers for no time is reset."""
        self.close_request(request)

    def menu(self, kind, selectors, port=None):
        """A menu of these selectors of this host, or of the same host at another port. It shows numbers, and no letter."""
        where = b"\t%s\t%d\r\n" % (HOST.encode(), port or self.port)
        return b"".join(b"%s%d\t%s" % (kind, at, selector) + where for at, selector in enumerate(selectors)) + b".\r\n"

    def menus(self, texts):
        """Replies of a menu of menus, each of which leads to some of these texts, by their selectors."""
        selectors = list(texts)
        parts = [selectors[start:start + TEXTS_OF_A_MENU] for start in range(0, len(selectors), TEXTS_OF_A_MENU)]
        menus = {b"/m%d" % at: self.menu(b"0", part) for at, part in enumerate(parts)}
        return {**texts, **menus, b"": self.menu(b"1", menus)}

    def __exit__(self, *_):
        self.shutdown()
        self.server_close()


def seeded(port="PORT", more="", seed="", allow=()):
    """Settings of a crawl of this machine's host at that port, the server's own if none is given: more of them, more lines of
    the seed, more allowed ports."""
    where = f'host = "{HOST}"\nport = '
    rules = "".join(f"[[allow]]\n{where}{each}\n" for each in (port, *allow))
    return f"{more}\n[[seeds]]\n{where}{port}\n{seed}{rules}"


def crawling(test, settings, *words, **how):
    """A server of an empty folder that crawls by these settings."""
    return test.serving(test.site({}), *words, more=settings, **how)


def searched(server, text):
    """The selectors that a search finds."""
    reply = ask(server.port, b"/search\t" + text + b"\r\n")
    return [line.split(b"\t")[1] for line in reply.split(b"\r\n")[:-2]]


def found_at_last(server, text, wanted, seconds=SECONDS_FOR_ALL):
    """What a search finds, once it finds what is wanted or the time is over."""
    until_true(lambda: searched(server, text) == wanted, seconds)
    return searched(server, text)
