#!/usr/bin/env python3
"""Times other Gopher servers that are installed beside the plain C server, in one run, by small menus from 16 clients.

    bench/peers.py HOLE PLAIN_SERVER CLIENTS

takes the built programs. gophernicus is started for each request, as its own units do, by systemd-socket-activate; it has no
limit of requests, and isn't run by root. pygopherd runs by its own settings with another root and port, outside of a chroot.
All serve one folder. The medians of ROUNDS rounds are printed: requests a second, with the quotient to the C server's. A
server that isn't installed is left out.
"""
import contextlib
import os
import pathlib
import re
import shutil
import statistics
import subprocess
import sys
import tempfile
import time

from speeds import THREADS, Server, ask, free_port, settings, timed, write_site

ROUNDS = 5
REQUESTS = {"C": 20_000, "Hole": 20_000, "gophernicus": 1_000, "pygopherd": 300}
SETTINGS = pathlib.Path("/etc/pygopherd/pygopherd.conf")


class Peer(Server):
    """A running peer. It prints no line when it listens, so it is asked until it answers."""

    def __init__(self, words, port):
        self.process = subprocess.Popen(words, stdout=subprocess.DEVNULL, stderr=subprocess.DEVNULL)
        for _ in range(200):
            time.sleep(0.05)
            with contextlib.suppress(OSError):
                if ask(port, ""):
                    return
        self.process.kill()
        raise SystemExit(f"{words[0]} doesn't answer")


def gophernicus(root, port):
    """The words that start gophernicus, if it is installed."""
    program = shutil.which("gophernicus", path="/usr/sbin:/usr/bin:/usr/local/sbin")
    start = ["systemd-socket-activate", f"--listen=127.0.0.1:{port}", "--accept", "--inetd"]
    if not program or not shutil.which(start[0]):
        return None
    nobody = ["setpriv", "--reuid=65534", "--regid=65534", "--clear-groups"] if os.geteuid() == 0 else []
    return [*nobody, *start, program, "-r", str(root), "-h", "localhost", "-p", str(port), "-nm"]


def pygopherd(root, port):
    """The words that start pygopherd, if it is installed, with settings of its own."""
    program = shutil.which("pygopherd", path="/usr/sbin:/usr/bin:/usr/local/sbin")
    if not program or not SETTINGS.is_file():
        return None
    changed = {"port": port, "root": root, "usechroot": "no", "detach": "no", "pidfile": root.parent / "pygopherd.pid"}
    text = re.sub(r"(?m)^set[ug]id *=.*\n", "", SETTINGS.read_text())
    for name, value in changed.items():
        text = re.sub(rf"(?m)^{name} *=.*$", f"{name} = {value}", text)
    place = root.parent / "pygopherd.conf"
    place.write_text(text)
    return [program, str(place)]


def main(hole, plain_server, clients):
    with tempfile.TemporaryDirectory() as place:
        room, ports = pathlib.Path(place), {name: free_port() for name in REQUESTS}
        room.chmod(0o755)
        write_site(room / "site")
        (room / "hole.toml").write_text(settings(room / "site", ports["Hole"], False))
        (room / "list").write_text("/\n")
        with contextlib.ExitStack() as running:
            servers = {"Hole": running.enter_context(Server([hole, "serve", f"{room}/hole.toml"]))}
            reply = ask(ports["Hole"], "/")
            (room / "table").write_bytes(b"/ %d\n" % len(reply) + reply)
            servers["C"] = running.enter_context(Server([plain_server, str(ports["C"]), str(THREADS), f"{room}/table"]))
            for peer in (gophernicus, pygopherd):
                if words := peer(room / "site", ports[peer.__name__]):
                    servers[peer.__name__] = running.enter_context(Peer(words, ports[peer.__name__]))
            rates = {name: [] for name in servers}
            for _ in range(ROUNDS):
                for name, server in servers.items():
                    rates[name].append(timed(clients, server, ports[name], REQUESTS[name], 0, f"{room}/list")[0])
        medians = {name: statistics.median(found) for name, found in rates.items()}
        for name, rate in medians.items():
            if name != "C":
                print(f"small menus of {name}: {rate:,.0f} a second (C {medians['C']:,.0f}), quotient {rate / medians['C']:.4f}")


if __name__ == "__main__":
    if len(sys.argv) != 4:
        sys.exit(__doc__)
    main(*sys.argv[1:])
