#!/usr/bin/env python3
"""Runs the built program as a user would, over streams that fail at each place, and by the documents' own commands.

    tests/program.py [PROGRAM]

The library of preloads/streams.c stands between the program and the system: streams fail or are interrupted, and threads don't
start. What README's session and the first site and the replay of docs/OPERATING.md tell a reader to do is done, and the replies
are compared: a free port takes the place of theirs, and what `curl` would ask is asked here. A line '..' of a document means one
or more lines. tools/run_example.py serves by settings of its own, and is ended in every way in which a terminal may; what needs
the toolchain runs without it. The last line is 'program: N passed, M failed'. It takes some seconds.
"""
import os
import pathlib
import re
import shutil
import signal
import socket
import subprocess
import sys
import urllib.parse

from models import model
from models.worked import FIRST_CRAWL, REFUSED_START, WHOLE_SEARCH
from running.server import HOST, ROOT, SIZES, WAIT, ask, ask_whole, free_port, run_test, until_true, with_few_files

MEBIBYTE = 1_048_576
MANY = tuple(word for port in range(20_001, 21_026) for word in ("--listen", f"{HOST}:{port}"))
NO_ADDRESSES = (
    "", "localhost", "127.0.0", "127.0.0.1:", "127.0.0.1:0", "127.0.0.1:65536", "127.0.0.1:70x", "[127.0.0.1]", "::1]", "[::1",
    "[::1]:", "1:2",
)
NO_BYTES = ("", "K", "12X", "1.5M", "64 M", "M64", "99999999999999999999", "18446744073709551615G")
# Words that are refused, and an expression for a part of what is said of them.
BAD_ARGUMENTS = [
    ((), "Usage: hole"), (("dig",), "Usage: hole"), (("replay", "extra"), "Usage: hole replay < SCRIPT\n"),
    (("serve",), "\nUsage: hole serve "), (("serve", "s.toml", "extra"), "\nUsage: hole serve "),
    (("serve", "s.toml", "--requests", "1000001"), "--requests"), (("serve", "s.toml", "--requests", "-1"), "-1"),
    (("serve", "s.toml", "--log"), "--log"), (("serve", "examples/hole.toml", *MANY), "--listen"),
    (("check",), "\nUsage: hole check "), (("check", "s.toml", "extra"), "extra"),
    (("check", "s.toml", "--requests", "1"), "--requests"),
    *((("serve", "s.toml", "--listen", word), "error: .*--listen <ADDRESS>") for word in NO_ADDRESSES),
    *((("check", "s.toml", "--listen", word), "--listen <ADDRESS>.*hole check --help") for word in NO_ADDRESSES),
    *((("serve", "s.toml", f"--crawl-memory={word}"), "--crawl-memory") for word in NO_BYTES),
    *((("serve", "s.toml", f"--fetch-timeout={word}"), "--fetch-timeout") for word in ("", "86401", "-1", "1.5", "1m")),
    *((("serve", "s.toml", f"--fetch-pause={word}"), "--fetch-pause") for word in ("", "3600001", "-1", "0.5", "1s")),
    *((("serve", "s.toml", f"--clients-per-address={word}"), "--clients-per-address") for word in ("", "0", "1000001", "-1", "1.5")),
    (("serve", "s.toml", "--list-found"), "--list-found"),
]
# The largest numbers and the smallest of options with which a server serves; those past them are refused above.
AT_LIMITS = (
    ("--requests", 1_000_000), ("--clients-per-address", 1), ("--clients-per-address", 1_000_000), ("--fetch-timeout", 0),
    ("--fetch-timeout", 86_400), ("--fetch-pause", 0), ("--fetch-pause", 3_600_000), ("--crawl-memory", 0),
    ("--crawl-memory", 2**64 - 1), ("--crawl-memory", f"{2**34 - 1}G"),
)
# Words that show a text, and its parts.
SHOWN = (
    (("--help",), ["\n  check "]), (("--version",), ["hole "]), (("check", "examples/hole.toml"), ["\nsound\n"]),
    (("check", "examples/neighbours.toml"), ["\nsound\n"]),
    (("replay", "--help"), ["Usage: hole replay < SCRIPT\n"]),
    (("serve", "--help"), ["\nUsage: hole serve [OPTIONS] <SETTINGS>\n", "--listen <ADDRESS>"]),
)
SEED = '[[seeds]]\nhost = "h"\n[[allow]]\nhost = "h"\n'
# How many files may be open, and settings whose threads and workers need more.
FEW_FILES = ((64, "threads = 1\n"), (68, "workers = 4\n" + SEED), (89, "threads = 8\nworkers = 16\n" + SEED))
NO_THREAD, NOT_STARTED = b"hole: 82\n", b"hole: a server thread can't be started\n"
# The most bytes of a packet. Folders of check_lines with more settings, and the lines of their faults.
PACKET = 4_096
FAULTS = (
    ("menus", "", b"hole: 24 file 0 line 1\n"), ("names", "", b"hole: 20 file 0\n"), ("site", "port = 0\n", b"hole: 33 port\n"),
    ("site", '[[seeds]]\nhost = "h"\n', b"hole: 50 seed 0\n"), ("none", "", b"hole: 26\n"),
)
FINISHED = b"hole: crawl finished: 0 found, 0 failed, 0 dropped in 0 s\n"
# The number of server threads; which of the threads don't start; more words; whether a text is sent; the output at the end, and
# the errors.
THREADS = (
    (1, "1" * 20, ("--requests", 1), False, b"", NO_THREAD),
    (1, "1" * 20, ("--progress",), False, b"", NOT_STARTED + NO_THREAD),
    (2, "11", ("--requests", 1), False, b"", NO_THREAD),
    (2, "01", ("--requests", 0), False, b"", NO_THREAD),
    (2, "001", ("--progress", "--requests", 0), False, b"", NOT_STARTED + SIZES[:-1] + b" failed 0\n" + FINISHED + NO_THREAD),
    (2, "10", ("--requests", 0), False, b"", NO_THREAD),
    (2, "0" + "1" * 20, ("--requests", 1), True, b"", NO_THREAD),
    # only the thread that prints the crawl's sizes lacks
    (1, "00" + "1" * 20, ("--progress", "--requests", 1), True, SIZES, SIZES[:-1] + b" failed 0\n" + FINISHED),
    # and also the one that prints messages, which starts first
    (1, "10" + "1" * 20, ("--progress", "--requests", 1), True, SIZES, SIZES[:-1] + b" failed 0\n" + FINISHED),
)
PORT = "7070"
# How a terminal may end a program.
ENDS = (signal.SIGINT, signal.SIGTERM, signal.SIGHUP, signal.SIGKILL)
CURL = re.compile(r"curl '?gopher://localhost:(\d+)/(?:\w(/[^']*))?'?")


def run(test, words, script=b"", **how):
    """What the program writes behind that library to its output and its error stream, and its status; `how` is told to the
    library."""
    before, given = test.preload("streams", **{name.upper(): value for name, value in how.items()}), test.folder / "given"
    given.write_bytes(script)
    with given.open("rb") as stdin:
        return test.run(*words, before=before, cwd=ROOT, stdin=stdin)


def counted(test, words, script):
    """What these words write, and how many reads of their input and writes to their output they make."""
    calls = test.folder / "calls"
    calls.write_text("")
    output, _, _ = run(test, words, script, calls=calls)
    return output, calls.read_text().count("r"), calls.read_text().count("w")


def check_reads(test):
    """Scripts that can't be read to their end: nothing is written."""
    script, output, _ = FIRST_CRAWL
    for count in range(len(script) + 1):
        ended = run(test, ["replay"], script, fails_0=count)
        test.expect(f"a read fails after {count} bytes", ended, (b"", b"hole: 10\n", 1))
    test.expect("4,095 reads are interrupted", run(test, ["replay"], script, interrupted=4_095), (output, b"", 0))
    ended = run(test, ["replay"], script, interrupted=2**40)
    test.expect("each read is interrupted", ended, (b"", b"hole: 11\n", 1))
    for length, wanted in ((MEBIBYTE, (b"", b"", 0)), (MEBIBYTE + 1, (b"", b"hole: 12\n", 1))):
        test.expect(f"a script of {length} bytes", run(test, ["replay"], b"#" * length), wanted)
    test.expect("a mebibyte is read in large parts", counted(test, ["replay"], b"#" * MEBIBYTE)[1] < 20, True)


def check_writes(test):
    """Outputs that can't be written to their end: what they have is a beginning."""
    script, output, _ = FIRST_CRAWL
    for count in range(len(output)):
        ended = run(test, ["replay"], script, fails_1=count)
        test.expect(f"a write fails after {count} bytes", ended, (output[:count], b"hole: 13\n", 1))
    claims = b"".join(b"claim\nfound\t%d\t0\th\t70\t/%0200d\n|x\n" % (at, at) for at in range(50))
    seeds = b"".join(b"seed\t0\th\t70\t/%0200d\n" % at for at in range(50))
    script = b"allow\th\t70\t\n" + seeds + b"start\t50\n" + claims + b"search\tx\n"
    output, _, writes = counted(test, ["replay"], script)
    test.expect("each of 102 answers goes out in a write of its own", (output, writes), (model.replayed(script)[0], 102))


def error_writes(test, words, script):
    """What each write of these words to their error stream has: a pipe of packets keeps them apart."""
    reader, writer = os.pipe2(os.O_DIRECT)
    with open(reader, "rb", buffering=0) as packets:
        with open(writer, "wb", buffering=0) as error:
            test.run(*words, input=script, stderr=error)
        return [*iter(lambda: packets.read(PACKET), b"")]


def check_lines(test):
    """The line of a fault goes out in one write, with its number and what it names, so that lines of two programs don't mix."""
    root = test.site({"menus/.menu": b"1a\tb\tc\n", "names/a\tb": b"hello\n", "site/a.txt": b"hello\n"})
    script, _, line = REFUSED_START
    cases = {"": b"hole: 31 host\n", **{f'host = "{HOST}"\nroot = "{root}/{name}"\n{more}': told for name, more, told in FAULTS}}
    for text, told in cases.items():
        (root / "hole.toml").write_text(text)
        test.expect(f"the writes of {told}", error_writes(test, ["serve", root / "hole.toml"], b""), [told])
    test.expect("the writes of a bad line", error_writes(test, ["replay"], script), [b"hole: 70 line %d\n" % line])


def check_errors(test):
    """An error stream that fails changes neither the output nor the status."""
    script, output, line = REFUSED_START
    told = b"hole: 70 line %d\n" % line
    for count in range(len(told)):
        ended = run(test, ["replay"], script, fails_2=count)
        test.expect(f"a fault's line fails after {count} bytes", ended, (output, told[:count], 1))
    ended = run(test, ["replay"], script, fails_1=3, fails_2=0)
    test.expect("the output and the error stream fail", ended, (output[:3], b"", 1))
    for words, part in BAD_ARGUMENTS:
        output, text, status = run(test, words, b"claim\n")
        is_told = re.search(part, text.decode(), re.DOTALL) is not None
        test.expect(f"{words[:4]}: are refused", (output, is_told, status), (b"", True, 2))
        test.expect(f"{words[:4]}: nothing is read", counted(test, words, b"claim\n"), (b"", 0, 0))
        for count in (0, 1, 7):
            ended = run(test, words, b"claim\n", fails_2=count)
            test.expect(f"{words[:4]}: with room for {count} bytes", ended, (b"", text[:count], 2))
    for words, parts in SHOWN:
        output, error, status = run(test, words)
        are_shown = all(part in output.decode() for part in parts)
        test.expect(f"{words}: show a text", (are_shown, error, status), (True, b"", 0))


def check_starts(test):
    """Numbers at their limits, with which a server serves. Threads that don't start, and files of which too few may be open: the
    server ends with its number."""
    root = test.site({"a.txt": b"hello\n"})
    for words in AT_LIMITS:
        with test.serving(root, *words) as server:
            test.expect(f"{words}: a text", ask(server.port, b"/a.txt\r\n"), b"hello\r\n.\r\n")
    for threads, refused, words, is_asked, output, errors in THREADS:
        before = test.preload("streams", REFUSED_THREADS=refused)
        with test.serving(root, *words, more=f"threads = {threads}\nworkers = 1\n", before=before) as server:
            what = f"of {threads} threads, {refused} don't start, with {words}"
            if is_asked:
                test.expect(f"{what}: a text", ask(server.port, b"/a.txt\r\n"), b"hello\r\n.\r\n")
            test.expect(f"{what}: the end", server.end(), (output, errors, int(errors.endswith(NO_THREAD))))
    for files, more in FEW_FILES:
        output, error, status = test.ended(root, "--progress", "--requests", 0, more=more, before=with_few_files(files))
        found = (output, b"limit of open files is too low" in error, error.splitlines()[-1:], status)
        test.expect(f"{files} files for {more!r}", found, (b"", True, [b"hole: 81"], 1))


def section(file, heading):
    """The text of a document below a heading."""
    return re.search(rf"(?ms)^#+ (?:\d+\. )?{re.escape(heading)}$\n(.*?)(?=^#|\Z)", (ROOT / file).read_text())[1]


def blocks(text):
    """The indented blocks of a text, without their indentation."""
    found = re.findall(r"(?m)^(?: {4}.*\n)(?:(?: {4}.*)?\n)*", text)
    return [re.sub(r"(?m)^ {4}", "", block).rstrip("\n") + "\n" for block in found]


def commands(block):
    """The commands of a block, each with what comes after it."""
    return re.findall(r"(?m)^\$ (.*)\n((?:(?!\$ ).*\n)*)", block)


def asked(url, port):
    """What curl shows of a reply: its lines."""
    line = urllib.parse.unquote(CURL.fullmatch(url)[2] or "").encode() + b"\r\n"
    return ask(port, line, "localhost").decode().replace("\r\n", "\n")


def comes(command, shown, port):
    """What a command shows, or what the document has if it shows that before long; a search finds what the crawl has found."""
    lines = ["(?:.*\n)+?" if line == ".." else re.escape(line) + "\n" for line in shown.rstrip("\n").split("\n")]
    wanted = re.compile("".join(lines))
    return shown if until_true(lambda: wanted.fullmatch(asked(command, port)), WAIT) else asked(command, port)


def check_readme(test):
    port, settings = free_port(), test.folder / "example.toml"
    text = (ROOT / "examples/hole.toml").read_text().replace(PORT, str(port))
    settings.write_text(text.replace('"examples/site"', f'"{ROOT}/examples/site"'))
    with test.serving(settings, host="localhost", port=port):
        for command, shown in commands(blocks(section("README.md", "A session"))[0].replace(PORT, str(port))):
            test.expect(f"README: {command}", comes(command, shown, port), shown)


def check_first_site(test):
    port, settings = free_port(), test.folder / "hole.toml"
    text = section("docs/OPERATING.md", "A first site in five minutes").replace(PORT, str(port))
    making, session, menu = blocks(re.sub(r"(?ms)^```.*?^```\n", "", text))
    settings.write_text(re.search(r"(?ms)^```toml\n(.*?)^```", text)[1].replace("/home/you", str(test.folder)))
    subprocess.run(["sh", "-ec", making], env={"HOME": str(test.folder), "PATH": "/usr/bin:/bin"}, check=True)
    (start, line), *asking = commands(session)
    test.expect("first site: its start", start, "hole serve hole.toml")
    test.expect("first site: what the server prints", line.strip(), f"listening localhost {port}")
    with test.serving(settings, host="localhost", port=port):
        for command, shown in asking:
            test.expect(f"first site: {command}", comes(command, shown, port), shown)
    (test.folder / "gopher/.menu").write_text(menu.replace("<TAB>", "\t"))
    output, _, status = test.run("check", settings)
    test.expect("first site: a menu of one's own is sound", (status, output.endswith(b"\nsound\n")), (0, True))
    with test.serving(settings, host="localhost", port=port):
        shown = asked(asking[0][0], port).splitlines()
        wanted = [line if "\t" in line else f"i{line}\t" for line in menu.replace("<TAB>", "\t").splitlines()]
        test.expect("first site: the menu", [line.split("\tlocalhost")[0] for line in shown[:-1]], wanted)


def check_replays(test):
    """The example's scripts: one is OPERATING's with the answers that are shown there, the other the one that was worked out."""
    script, answers = (block.replace("<TAB>", "\t") for block in blocks(section("docs/OPERATING.md", "Replay a crawl")))
    file = ROOT / "examples/first_crawl.script"
    test.expect("replay: the script is the example's", script, file.read_text())
    (command, shown), = commands(answers)
    test.expect("replay: its command", command, "hole replay < examples/first_crawl.script")
    words = [ROOT / "tools/run_example.py", "--program", test.program, "--replay", file]
    ran = subprocess.run(words, capture_output=True, text=True, timeout=WAIT)
    test.expect("replay: its answers", (ran.returncode, ran.stdout, ran.stderr), (0, shown, ""))
    script = (ROOT / "examples/whole_search.script").read_bytes()
    test.expect("replay of a whole search", run(test, ["replay"], script), (WHOLE_SEARCH[1], b"", 0))


def check_own_settings(test):
    """One's own settings are checked before they are served: a mistake is told with its cause and remedy."""
    folder, port = test.site({"mine/a.txt": b"hello\n"}), free_port()
    words = [ROOT / "tools/run_example.py", "--program", test.program]
    home = f'host = "{HOST}"\nport = {port}\nroot = '
    asked = lambda *more: subprocess.run([*words, *more, "my.toml"], cwd=folder, capture_output=True, text=True, timeout=WAIT)
    for name, text, told in (
        ("a key that is missing", 'root = "mine"\n', "key: host\ncause: "),
        ("a folder that is missing", f'{home}"none"\n', "cause: no file or folder exists at this path\nremedy: "),
        ("a text that isn't TOML", "host = \n", "fault: 30\n"),
    ):
        (folder / "my.toml").write_text(text)
        for more in ((), ("--check",)):
            ran = asked(*more)
            got = (ran.returncode, told in ran.stdout, len(ran.stderr.splitlines()))
            test.expect(f"{name}: status, report, lines of {more}", got, (1, True, 1))
    (folder / "my.toml").write_text(f'{home}"mine"\n')
    ran = asked("--check")
    test.expect("sound settings: status and report", (ran.returncode, ran.stdout.endswith("\nsound\n")), (0, True))
    with socket.create_server((HOST, port)):
        ran = asked()
        test.expect("a port that is taken: status and report", (ran.returncode, "can't listen at: " in ran.stdout), (1, True))


def check_ends(test):
    """The server is gone once the script's whole group got a signal."""
    # what starts a job in the background may have it ignore SIGINT, and its processes inherit that
    signal.signal(signal.SIGINT, signal.default_int_handler)
    folder, port = test.site({"mine/a.txt": b"hello\n"}), free_port()
    is_up = lambda: ask_whole(port, b"/a.txt\r\n") == b"hello\r\n.\r\n"
    (folder / "my.toml").write_text(f'host = "{HOST}"\nport = {port}\nroot = "mine"\n')
    words = [sys.executable, ROOT / "tools/run_example.py", "--program", test.program, "my.toml"]
    for number in ENDS:
        with subprocess.Popen(words, cwd=folder, start_new_session=True, stdout=subprocess.PIPE, text=True) as script:
            test.expect(f"{number.name}: it serves one's own folder", until_true(is_up), True)
            while "Ctrl-C ends it." not in script.stdout.readline():
                pass
            os.killpg(script.pid, number)
            test.expect(f"{number.name}: the server ends with it", until_true(lambda: not is_up()), True)
            script.kill()


def check_toolchain(test):
    """Without `rt` on the path, one line says what is missing."""
    tools = test.site({})
    for name in ("env", "make", "python3", "sh"):
        (tools / name).symlink_to(shutil.which(name))
    gone = ("--program", test.folder / "no program")
    for words in (
        ("make", "wrong-bodies"),
        (ROOT / "tools/run_example.py", *gone),
        (ROOT / "tools/run_example.py", *gone, "--replay", ROOT / "examples/first_crawl.script"),
    ):
        ran = subprocess.run(words, cwd=ROOT, env={"PATH": str(tools)}, capture_output=True, text=True, timeout=WAIT)
        lines = [line for line in ran.stderr.splitlines() if not line.startswith("make: ")]
        told = (ran.returncode != 0, len(lines), "rt, which isn't on the path" in ran.stderr)
        test.expect(f"{pathlib.Path(words[0]).name} without the toolchain", told, (True, 1, True))


if __name__ == "__main__":
    of_streams = (check_reads, check_writes, check_lines, check_errors, check_starts)
    run_test("program", __doc__, *of_streams, check_readme, check_first_site, check_replays, check_own_settings, check_ends, check_toolchain)
