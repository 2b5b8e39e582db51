#!/usr/bin/env python3
"""Writes the scripts that bench/replay.sh times: each as a quarter, a half and a whole.

links-*.script  one menu with as many links as fit in 1 MiB of script
turns-*.script  20,000 claims, each with its outcome
"""
import os
import sys

LIMIT = 1_048_576
TURNS = 20_000
HEAD = "allow\th\t70\t\nseed\t1\th\t70\t\nstart\t65536\nclaim\nfound\t0\t1\th\t70\t\n"
TAIL = "status\n"


def link(number):
    return f"|0\t/{number:x}\th\t70\n"


def links_script(size):
    parts, used, number = [HEAD], len(HEAD) + len(TAIL), 0
    while used + len(link(number)) <= size:
        parts.append(link(number))
        used += len(parts[-1])
        number += 1
    return "".join(parts) + TAIL


def turns_script(turns):
    parts = [HEAD] + [link(number) for number in range(turns)]
    for number in range(1, turns + 1):
        parts.append(f"claim\nfail\t{number}\t1\n")
    return "".join(parts) + TAIL


def main(folder):
    os.makedirs(folder, exist_ok=True)
    for name, share in (("quarter", 4), ("half", 2), ("whole", 1)):
        for kind, text in (
            ("links", links_script(LIMIT // share)),
            ("turns", turns_script(TURNS // share)),
        ):
            assert len(text) <= LIMIT
            with open(f"{folder}/{kind}-{name}.script", "w", newline="") as out:
                out.write(text)


main(sys.argv[1])
