#!/usr/bin/env python3
"""Checks settings and their folder, serves the folder, and prints how to ask the server. Ctrl-C ends it.

    tools/run_example.py [--program FILE] [SETTINGS]
    tools/run_example.py [--program FILE] --check [SETTINGS]
    tools/run_example.py [--program FILE] --replay SCRIPT

Without SETTINGS it serves examples/site by examples/hole.toml. A relative root in one's own settings starts at the working
directory. What `hole check SETTINGS --listen` reports comes first; if that finds a fault, nothing is served. With --check the
script only prints what `hole check SETTINGS` reports, and ends with its status; with --replay, what `hole replay` answers.

Without --program it runs the one that `make build` has left, if no source is younger, or else one that was built without its
proofs: tools/unproved.py builds it, unless it is kept. The server ends with this script, whatever ends the script: a guard in a
session of its own waits for that.
"""
import argparse
import os
import pathlib
import re
import signal
import subprocess
import sys
import time

import unproved
from unproved import PROVED, ROOT, is_up

# Waits for the end of the script, and then ends what is left of the server.
GUARD = """
import contextlib, os, signal, sys
sys.stdin.read()
with contextlib.suppress(ProcessLookupError):
    os.killpg(int(sys.argv[1]), signal.SIGTERM)
"""
EXAMPLE = ROOT / "examples" / "hole.toml"


def runnable(program):
    """The program to run; the one that `make build` left counts only if no source is younger. If there is none and none can be
    built, lines on standard error say why, and the script ends."""
    if os.access(program, os.X_OK) and (program != PROVED or unproved.is_up_to_date()):
        return program
    return unproved.built_or_kept() or sys.exit(1)


def hints(report, host, port, is_example):
    """How to ask the server of a site, by the report of its check."""
    place = f"{f'[{host}]' if ':' in host else host}:{port}"
    search = f"    curl 'gopher://{place}/7/search%09{'frog' if is_example else 'WORD'}'"
    if not re.search(r"(?m)^seed: ", report) or not re.search(r"(?m)^may visit: ", report):
        search = "\nSearches find nothing, because these settings lack [[seeds]] or [[allow]]."
    head = f"It serves at {host}, port {port}. Ask it from another terminal:\n"
    return "\n".join([head, f"    curl gopher://{place}/", search, "\nCtrl-C ends it."])


def serve(words, place, host, port, hint):
    """Starts the server with its guard, and waits until it ends."""
    server = subprocess.Popen(words, cwd=place, start_new_session=True)
    guarding = [sys.executable, "-c", GUARD, str(server.pid)]
    guard = subprocess.Popen(guarding, stdin=subprocess.PIPE, start_new_session=True)
    try:
        while server.poll() is None and not is_up(host, port):
            time.sleep(0.5)
        if server.poll() is None:
            print(hint, flush=True)
        return server.wait()
    finally:
        guard.communicate()
        server.wait()


def check_and_serve(program, settings, place, is_example):
    """Serves a folder if a check finds no fault. Of the example's the report is printed only if it finds one."""
    checked = subprocess.run([program, "check", settings, "--listen"], cwd=place, stdout=subprocess.PIPE, encoding="utf-8", errors="replace")
    if checked.returncode or not is_example:
        print(checked.stdout, end="", flush=True)
    if checked.returncode:
        return checked.returncode
    host, port = re.search(r"(?m)^address: (.*) (\d+)$", checked.stdout).groups()
    print(f"Starting: {program} serve {settings}", flush=True)
    return serve([program, "serve", settings], place, host, port, hints(checked.stdout, host, port, is_example))


def replay(program, script):
    """Replays a script."""
    try:
        with open(script, "rb") as given:
            return subprocess.run([program, "replay"], stdin=given).returncode
    except OSError as fault:
        print(f"{script}: {fault.strerror}", file=sys.stderr)
        return 1


def main():
    words = argparse.ArgumentParser(description="Checks settings and their folder, serves the folder, and prints how to ask the server.")
    words.add_argument("settings", nargs="?", metavar="SETTINGS", help="examples/hole.toml without it")
    words.add_argument("--program", type=pathlib.Path, default=PROVED, help="what `make build` left without it")
    words.add_argument("--check", action="store_true", help="only check")
    words.add_argument("--replay", metavar="SCRIPT", help="such as examples/first_crawl.script")
    given = words.parse_args()
    for number in (signal.SIGTERM, signal.SIGHUP):
        signal.signal(number, lambda number, _: sys.exit(128 + number))
    try:
        program = runnable(given.program.resolve())
        if given.replay:
            return replay(program, given.replay)
        settings, place = (given.settings, None) if given.settings else (str(EXAMPLE.relative_to(ROOT)), ROOT)
        if given.check:
            return subprocess.run([program, "check", settings], cwd=place).returncode
        return check_and_serve(program, settings, place, not given.settings)
    except KeyboardInterrupt:
        return 0


if __name__ == "__main__":
    sys.exit(main())
