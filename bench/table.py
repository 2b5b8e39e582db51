#!/usr/bin/env python3
"""Makes the tables of docs/TIMINGS.md that compare with plain C from what `make bench` printed.

    bench/table.py OUTPUT            prints them
    bench/table.py --write OUTPUT    puts them into docs/TIMINGS.md, with the day and the machine

OUTPUT is a file. A ratio over 1 means that Hole is faster, or uses less. Searches are the geometric mean over the queries.
A crawl is one of four workers. If no other server was measured, their table stays.
"""
import math
import os
import pathlib
import platform
import re
import subprocess
import sys
import time

ROOT = pathlib.Path(__file__).resolve().parent.parent
PAGE = ROOT / "docs/TIMINGS.md"
# how the output names a kind of request, and how the table does; the unit of its rate in the output
SERVED = (
    ("small menu", "small menus", "requests"),
    ("small menu by one client", "small menus, one client", "requests"),
    ("menu of 200 lines", "menus of 200 lines", "requests"),
    ("300 texts", "300 texts in turn", "requests"),
    ("text of 1 MB", "texts of 1 MB", "MB"),
)
# what is read, and the files of bench/files.py with it
READ = (
    ("reading menus", "menu"),
    ("reading menus of 16 KiB", "small_menu"),
    ("reading texts", "text"),
    ("reading texts of 16 KiB", "small_text"),
)
# how many idle clients Hole has beside those that ask; the C server has none
IDLE = (100, 1_000)


def number(text, pattern):
    """The number that a pattern finds first."""
    found = re.search(pattern, text)
    if not found:
        raise SystemExit(f"the output has no line like {pattern!r}")
    return float(found[1].replace(",", ""))


def served(text):
    """The rows of requests to the server."""
    for name, shown, unit in SERVED:
        rate = number(text, rf"(?m)^{name}, {unit} a second: .*, quotient ([\d.]+)")
        processor = number(text, rf"(?m)^{name}, processor microseconds a request: .*, quotient ([\d.]+)")
        yield shown, rate, 1 / processor


def idled(text):
    """The rows of small menus while other clients are idle."""
    for count in IDLE:
        rate = number(text, rf"(?m)^small menu beside {count} silent clients, requests a second: .*, quotient ([\d.]+)")
        yield f"small menus, {count:,} idle clients", rate, None


def quotient(ours, plain):
    """The geometric mean over the queries of the C program's time by Hole's."""
    queries = re.findall(r"(?m)^(.*): ([\d.]+) us, \d+ hits, \d+ the sum of their scores$", ours)
    times = [(number(plain, rf"(?m)^{re.escape(name)}: ([\d.]+) us, "), float(us)) for name, us in queries]
    # a time below 50 nanoseconds is printed as 0, and has no quotient
    ratios = [plain_us / us for plain_us, us in times if plain_us and us]
    return math.exp(sum(map(math.log, ratios)) / len(ratios))


def searched_few(text):
    """The rows of searches of few pages, beside a loop over them and beside postings of them."""
    ours, loop, postings = re.split(r"a catalogue of 300 pages:|a plain C loop over them:|the plain C program over them:", text)[1:]
    yield "searches of 300 pages, to a loop over them", quotient(ours, loop), None
    yield "searches of 300 pages, to packed postings", quotient(ours, postings), None


def searched(text):
    """The rows of searches and of making and adding pages. The C program's packing counts as adding."""
    ours, plain = text[: text.index("the plain C program:")], text[text.index("the plain C program:") :]
    yield "searches of 65,536 pages", quotient(ours, plain), None
    made, added = (number(ours, rf"(?m)^65536 pages: {words}") for words in (r"(\d+) ns", r"\d+ ns a page to make, (\d+) "))
    making, adding, packing = (number(plain, rf"(?m)^{name}: ([\d.]+) us a page") for name in ("making", "adding", "packing"))
    yield "making pages", 1000 * making / made, None
    yield "adding pages to the index", 1000 * (adding + packing) / added, None
    held = number(ours, r"(?m)^65536 pages: .*, (\d+) bytes a page")
    yield "memory of a page", number(plain, r"(?m)^memory: (\d+) bytes a page") / held, None


def crawled(text):
    """The row of a crawl by four workers."""
    ours, plain = number(text, r"(?m)^4 workers: .*, (\d+) pages/s"), number(text, r"(?m)^4 threads of C: .*, (\d+) pages/s")
    yield "a crawl by four workers", ours / plain, None


def read(text):
    """The rows of menus and texts that are read."""
    for name, file in READ:
        ours, plain = (number(text, rf"(?s)\nthe file {file}:\n.*?{words} (\d+) MB/s") for words in ("read at", "split in plain C:"))
        yield name, ours / plain, None


def table(text):
    """The table of ratios to plain C."""
    rows = [*served(text), *idled(text), *searched(text), *searched_few(text), *crawled(text), *read(text)]
    head = ["| measured | rate, Hole / C; memory, C / Hole | processor time, C / Hole |", "|---|---|---|"]
    shown = [f"| {name} | {rate:.2f} | {'' if spent is None else f'{spent:.2f} '}|" for name, rate, spent in rows]
    return "\n".join(head + shown) + "\n"


def files(text):
    """The table of what is compared with the files themselves."""
    took = number(text, r"(?m)^start of .*, quotient ([\d.]+)$")
    held = number(text, r"(?m)^memory at start: .*, quotient ([\d.]+)$")
    count, size = (number(text, rf"(?m)^{words}") for words in (r"(\d+) real texts, ", r"\d+ real texts, (\d+) bytes"))
    page = number(text, r"(?m)^real texts: .*, (\d+) bytes a page")
    rows = (
        ("start of a server, to reading its files by `find` and `cat`", took),
        ("memory of that server, to the bytes of its files", held),
        (f"memory of the pages of {count:,.0f} real texts, to their bytes", page * count / size),
    )
    return "\n".join(["| measured | ratio |", "|---|---|", *(f"| {name} | {ratio:.2f} |" for name, ratio in rows)]) + "\n"


def peers(text):
    """The table of other servers; nothing if none was measured."""
    rows = re.findall(r"(?m)^small menus of (?!Hole)(\w+): .*, quotient ([\d.]+)$", text)
    shown = [f"| {name} | {float(rate):.3f} |" for name, rate in rows]
    return "\n".join(["| server | rate / C |", "|---|---|", *shown]) + "\n" if rows else ""


def told():
    """When and on what it was measured."""
    processor = re.search(r"(?m)^model name\s*: (.*)$", pathlib.Path("/proc/cpuinfo").read_text())
    system = f"{platform.system()} {platform.release()}"
    commit = subprocess.run(["git", "-C", ROOT, "describe", "--always", "--dirty"], capture_output=True, text=True).stdout.strip()
    return f"{time.strftime('%-d %B %Y')}, {processor[1] if processor else 'x86-64'}, {os.cpu_count()} cores, {system}, commit {commit}"


def written(page, text):
    """The page with the tables of this output, each below the day and the machine."""
    for name, made in (("ratios", table(text)), ("files", files(text)), ("peers", peers(text))):
        if made:
            place = re.compile(rf"(?s)(<!-- {name}: bench/table.py -->\n).*?(<!-- end -->)")
            page = place.sub(lambda found: f"{found[1]}{told()}\n\n{made}{found[2]}", page)
    return page


def main(words):
    if len(words) not in (1, 2) or words[:-1] not in ([], ["--write"]):
        print(__doc__)
        return 2
    text = pathlib.Path(words[-1]).read_text()
    if words[0] == "--write":
        PAGE.write_text(written(PAGE.read_text(), text))
    else:
        print(f"{told()}\n\n{table(text)}\n{files(text)}\n{peers(text)}", end="")
    return 0


if __name__ == "__main__":
    sys.exit(main(sys.argv[1:]))
