#!/usr/bin/env python3
"""Has Gopher clients that are installed ask a server of the example's site, and looks at what they show.

    tests/clients.py [PROGRAM]

Each of curl, lynx, gopher, sacc, vf1 and bombadillo that is on the path has to show the root's menu, a text, the hits of a
search, and give an image's bytes. Those that aren't there are named, with how to install them on Debian; they count for
nothing. Clients that want a terminal get one of 40 lines, and keys each time that they have been quiet for QUIET seconds;
all run in a folder of their own, which is their home too. What `gopher HOST` shows, which asks by Gopher+, is printed and counts
for nothing; the forms that docs/OPERATING.md names in its place have to show the menu. The last line is 'clients: N passed,
M failed'; it takes about half a minute.
"""
import contextlib
import fcntl
import os
import pty
import select
import shutil
import signal
import struct
import subprocess
import termios
import time

from running.server import HOST, ROOT, WAIT, ask, run_test, seeded, until_true

QUIET = 1.0
SOUGHT = "water not rain"
WHAT = ("menu", "text", "search", "image")
URLS = {"menu": "/1/", "text": "/0/year.txt", "search": "/7/search%09water%20not%20rain", "image": "/I/pictures/pond.png"}
SHOWN = {
    "menu": (b"How the pond was dug", b"Search these pages"),
    "text": (b"A year at the pond", b"kept open with a floating ball"),
    "search": (b"A year at the pond", b"The common frog"),
}
NOT_A_HIT = b"How the pond was dug"


class Asker:
    """Asks the server at a port by clients that run in a folder."""

    def __init__(self, port, folder):
        self.port, self.url, self.folder = port, f"gopher://{HOST}:{port}", folder
        self.environment = {**os.environ, "HOME": str(folder), "XDG_CONFIG_HOME": str(folder), "TERM": "vt100", "PAGER": "cat"}
        self.environment.pop("DISPLAY", None)
        (folder / ".bombadillo.ini").write_text(f"[SETTINGS]\nsavelocation={folder}\n")
        (folder / ".gopherrc").touch()

    def said(self, *words, typed=""):
        """What a client writes that reads its input to the end."""
        how = {"stdout": subprocess.PIPE, "stderr": subprocess.DEVNULL, "cwd": self.folder, "env": self.environment}
        return subprocess.run(words, input=typed.encode(), timeout=WAIT, **how).stdout

    def shown(self, *words, keys=()):
        """What a client writes to a terminal; it is killed once it has been quiet after the last key."""
        process, terminal = pty.fork()
        if process == 0:
            with contextlib.suppress(OSError):
                fcntl.ioctl(0, termios.TIOCSWINSZ, struct.pack("HHHH", 40, 100, 0, 0))
                os.chdir(self.folder)
                os.execvpe(words[0], words, self.environment)
            os._exit(127)
        try:
            return self.typed(terminal, list(keys))
        finally:
            with contextlib.suppress(ProcessLookupError):
                os.kill(process, signal.SIGKILL)
            os.waitpid(process, 0)
            os.close(terminal)

    def typed(self, terminal, keys):
        """Types the keys, and gives all that is shown."""
        all_shown, until, quiet_since = b"", time.monotonic() + WAIT, time.monotonic()
        while time.monotonic() < until:
            if select.select([terminal], [], [], 0.1)[0]:
                try:
                    part = os.read(terminal, 65_536)
                except OSError:
                    break
                all_shown, quiet_since = all_shown + part, time.monotonic()
            elif time.monotonic() - quiet_since > QUIET:
                if not keys:
                    break
                os.write(terminal, keys.pop(0).encode())
                quiet_since = time.monotonic()
        return all_shown

    def kept(self, name):
        """The bytes of a file that a client has left in its folder."""
        path = self.folder / name
        return path.read_bytes() if path.exists() else b""


def by_vf1(asker, what):
    if what == "search":
        return asker.said("vf1", typed=f"go {asker.url}/7/search\n{SOUGHT}\nquit\n")
    if what == "image":
        asker.said("vf1", typed=f"go {asker.url}{URLS[what]}\nsave vf1.png\nquit\n")
        return asker.kept("vf1.png")
    return asker.said("vf1", typed=f"go {asker.url}{URLS[what]}\nquit\n")


def by_gopher(asker, what):
    words = {
        "menu": ("-T", "1", "-p", "/"), "text": ("-T", "0", "-p", "/year.txt"), "image": ("-T", "1", "-p", "/pictures"),
        "search": ("-T", "7", "-p", "/search", "-i", SOUGHT),
    }
    shown = asker.shown("gopher", *words[what], HOST, str(asker.port), keys=("s", "\r") if what == "image" else ())
    return asker.kept("The-pond-from-above") if what == "image" else shown


def by_sacc(asker, what):
    keys = {"search": (SOUGHT + "\r",), "image": ("sacc.png\r",)}
    shown = asker.shown("sacc", asker.url + URLS[what].split("%")[0], keys=keys.get(what, ()))
    return asker.kept("sacc.png") if what == "image" else shown


def by_bombadillo(asker, what):
    if what == "image":
        asker.shown("bombadillo", f"{asker.url}/1/pictures", keys=(":", "w 1\r"))
        return asker.kept("pond.png")
    return asker.shown("bombadillo", asker.url + URLS[what].split("%")[0], keys=(SOUGHT + "\r",) if what == "search" else ())


CLIENTS = {
    "curl": lambda asker, what: asker.said("curl", "--silent", "--max-time", "10", asker.url + URLS[what]),
    "lynx": lambda asker, what: asker.said("lynx", "-source" if what == "image" else "-dump", asker.url + URLS[what]),
    "gopher": by_gopher, "sacc": by_sacc, "vf1": by_vf1, "bombadillo": by_bombadillo,
}


def is_right(what, got):
    """Whether a client has shown what it was asked for."""
    if what == "image":
        return got == (ROOT / "examples/site/pictures/pond.png").read_bytes()
    return all(part in got for part in SHOWN[what]) and (what != "search" or NOT_A_HIT not in got)


def check_client(test, name, asker):
    for what in WHAT:
        try:
            got = CLIENTS[name](asker, what)
        except subprocess.TimeoutExpired:
            got = b"no end in time"
        right = is_right(what, got)
        test.expect(f"{name} and the {what}", True if right else got[-200:], True if right else "what was asked for")


def check_gopher(test, asker):
    """The forms of the command `gopher` without a selector of its own."""
    shown = asker.shown("gopher", HOST, str(asker.port))
    nothing = b"Nothing available"
    what = "the menu" if is_right("menu", shown) else repr(nothing if nothing in shown else shown[-200:])
    print(f"clients: gopher HOST shows {what}")
    for words in ((f"{asker.url}/1/",), ("-p", "/", HOST, str(asker.port))):
        test.expect(f"gopher {words[0]} shows the menu", is_right("menu", asker.shown("gopher", *words)), True)


def check_clients(test):
    there = [name for name in CLIENTS if shutil.which(name)]
    missing = [name for name in CLIENTS if name not in there]
    with test.serving(ROOT / "examples/site", more=seeded(), seconds=300.0) as server:
        found = lambda: is_right("search", ask(server.port, f"/search\t{SOUGHT}\r\n".encode()))
        test.expect("the site is crawled", until_true(found), True)
        for name in there:
            asker = Asker(server.port, test.site({}, name))
            check_client(test, name, asker)
            if name == "gopher":
                check_gopher(test, asker)
    print(f"clients: tried {', '.join(there) or 'none'}")
    if missing:
        print(f"clients: not installed: {', '.join(missing)} (on Debian: apt-get install {' '.join(missing)})")


if __name__ == "__main__":
    run_test("clients", __doc__, check_clients)
