#!/usr/bin/env python3
"""Writes real texts of this machine in the form of pages.py: texts.py FILE [TEXTS]

They are the files below /usr/share, /usr/include and /usr/lib that contain no NUL, of 1 byte to 1 MiB, by the order of their
paths; at most 30,000 without TEXTS. Prints how many there are and how many bytes they have."""
import os
import sys

FOLDERS = ("/usr/share", "/usr/include", "/usr/lib")
MOST_TEXTS, MOST_BYTES = 30_000, 1 << 20


def paths():
    """The regular files below the folders, in order."""
    for top in FOLDERS:
        for folder, folders, files in os.walk(top):
            folders.sort()
            yield from (path for path in (f"{folder}/{name}" for name in sorted(files)) if os.path.isfile(path) and not os.path.islink(path))


def texts():
    for path in paths():
        if 0 < os.path.getsize(path) < MOST_BYTES:
            with open(path, "rb") as file:
                content = file.read()
            if 0 not in content:
                yield content


def main(words):
    most = int(words[1]) if len(words) > 1 else MOST_TEXTS
    count = size = 0
    with open(words[0], "wb") as out:
        for content in texts():
            if count == most:
                break
            # a line of one period would end the reply, and FF the text
            out.write(content.replace(b"\x0c", b"\n").replace(b"\n.\n", b"\n..\n") + b"\x0c")
            count += 1
            size += len(content)
    print(f"{count} real texts, {size} bytes")


main(sys.argv[1:])
