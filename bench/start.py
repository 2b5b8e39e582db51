#!/usr/bin/env python3
"""Times the start of a server of 4,000 texts in 93 folders, 64 MiB together, beside `find | xargs cat`: start.py PROGRAM

Prints the best of seven starts, until the line 'listening ..', the best of as many readings by `find` and `cat`, and the
memory of the server beside the bytes of the files."""
import pathlib
import re
import subprocess
import sys
import tempfile
import time

sys.path.insert(0, str(pathlib.Path(__file__).resolve().parent.parent / "tests"))
from running.server import HOST, free_port

ROUNDS, FOLDERS, FILES, LINES = 7, 93, 4_000, 262
LINE = "A line of a text of a small site, of sixty-four bytes with its end\n"[-64:]


def make_site(root):
    for number in range(FILES):
        folder = root / f"{number % FOLDERS}"
        folder.mkdir(exist_ok=True)
        (folder / f"{number}.txt").write_text(f"{number}\n" + LINE * LINES)
    return sum(path.stat().st_size for path in root.rglob("*.txt"))


def started(program, settings):
    """The seconds of a start, and the bytes of memory that the server takes then."""
    began = time.monotonic()
    server = subprocess.Popen([program, "serve", settings], stdout=subprocess.PIPE)
    server.stdout.readline()
    took = time.monotonic() - began
    held = int(re.search(r"VmRSS:\s+(\d+)", pathlib.Path(f"/proc/{server.pid}/status").read_text())[1]) * 1024
    server.kill()
    server.wait()
    server.stdout.close()
    return took, held


def read(root):
    """The seconds that find and cat take."""
    began = time.monotonic()
    subprocess.run(f"find {root} -type f -print0 | xargs -0 cat > /dev/null", shell=True, check=True)
    return time.monotonic() - began


def main(program):
    with tempfile.TemporaryDirectory() as room:
        root, settings = pathlib.Path(room) / "site", pathlib.Path(room) / "settings.toml"
        root.mkdir()
        size = make_site(root)
        settings.write_text(f'host = "{HOST}"\nport = {free_port()}\nroot = "{root}"\n')
        starts = [started(program, settings) for _ in range(ROUNDS)]
        took, plain = min(took for took, _ in starts), min(read(root) for _ in range(ROUNDS))
        held = min(held for _, held in starts)
        print(f"start of {FILES + FOLDERS + 1} nodes: {1000 * took:.0f} ms (find and cat {1000 * plain:.0f}), quotient {took / plain:.2f}")
        print(f"memory at start: {held} bytes, of {size} bytes of files, quotient {held / size:.2f}")


main(sys.argv[1])
