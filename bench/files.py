#!/usr/bin/env python3
"""Writes the files that bench/timings times: a menu and a text of 16 MiB, a menu and a text of 16 KiB, a menu as long as
a reply may be, and a small site."""
import os
import sys

SIZE = 16 * 1024 * 1024
SMALL_SIZE = 16 * 1024
FILE_SIZE = 1024 * 1024


def lines_up_to(size, line):
    """Lines by their numbers, from 0, up to the first with which they have at least `size` bytes."""
    parts, used, number = [], 0, 0
    while used < size:
        parts.append(line(number))
        used += len(parts[-1])
        number += 1
    return "".join(parts)


def menu(size):
    return (
        lines_up_to(
            size,
            lambda number: f"0A file of the folder, number {number}\t/folder/file-{number}.txt\tgopher.example.org\t70\r\n",
        )
        + ".\r\n"
    )


def text_line(number):
    return f"Line {number} of a text that a small site could serve, neither short nor long."


def text(size):
    return lines_up_to(size, lambda number: f"{text_line(number)}\r\n") + ".\r\n"


def file_line(number):
    """A line as an editor writes it; every tenth begins with a period."""
    return f"{'.' if number % 10 == 0 else ''}{text_line(number)}\n"


def site(folder):
    """A folder of three names, one with a menu of 200 lines, one of 4,000 files, a text and an image of
    1 MiB."""
    os.makedirs(f"{folder}/small")
    os.makedirs(f"{folder}/large")
    for name in ("one.txt", "two.txt", "three.txt"):
        with open(f"{folder}/small/{name}", "w") as out:
            out.write("A short text.\n")
    os.makedirs(f"{folder}/many")
    for number in range(4000):
        with open(f"{folder}/many/{number}.txt", "w") as out:
            out.write("A short text.\n")
    with open(f"{folder}/large/.menu", "w") as out:
        for number in range(200):
            out.write(f"0Entry {number} of a menu written by hand\t/text.txt\n")
    with open(f"{folder}/text.txt", "w", newline="") as out:
        out.write(lines_up_to(FILE_SIZE, file_line))
    with open(f"{folder}/image.png", "wb") as out:
        out.write(bytes(range(256)) * (FILE_SIZE // 256))


WRITTEN = (
    ("menu", menu(SIZE)),
    ("reply", menu(FILE_SIZE - 100)),
    ("text", text(SIZE)),
    ("small_menu", menu(SMALL_SIZE)),
    ("small_text", text(SMALL_SIZE)),
)
for name, content in WRITTEN:
    with open(f"{sys.argv[1]}/{name}", "w", newline="") as out:
        out.write(content)
site(f"{sys.argv[1]}/site")
