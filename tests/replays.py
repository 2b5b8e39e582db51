#!/usr/bin/env python3
"""Replays scripts with the built program, and compares all that it writes with the plain model of models/model.py.

    tests/replays.py [--scripts N] [--seed S] [--pages N] [PROGRAM]

The scripts: N that are drawn (500 without N, always the same without S); those of models/worked.py; the example's whole search,
cut after each of its bytes; crawls in every order of their outcomes; catalogues whose pages end around each size at which the
segments of the index change, of at most 16,390 pages or those of --pages; and, without --pages, what is as large as it may be.
The last line is 'replays: N passed, M failed'; a script on which the program differs is left in the folder that is named then.
"""
import pathlib
import random
import tempfile

from models import model
from drawn.drawing import drawn_script
from drawn.sizes import MOST_PAGES, scripts_of_limits, scripts_of_sizes
from models.worked import MODELLED, SCRIPTS, WHOLE_SEARCH
from running.server import run_test

HEAD = b"allow\th\t70\t\nseed\t1\th\t70\t\n"
TWO_TEXTS = {b"": b"|0A\t/a\th\t70\n|0B\t/b\th\t70\n|.\n", b"/a": b"|moon\n|.\n", b"/b": b"|moon\n|.\n"}
LINKS_BACK = {b"": b"|1A\t/a\th\t70\n|.\n", b"/a": b"|1Home\t\th\t70\n|0B\t/b\th\t70\n|.\n"}
BOTH = b"hits 2\nhit\t1\t0\th\t70\t/a\tmoon\nhit\t1\t0\th\t70\t/b\tmoon\n"
DONE = b"known 3 waiting 0 out 0 done 3 dropped 0\n"
# What fetches give, by selector; the selector whose first fetch fails; tries; questions at the end, and their answers.
CRAWLS = [
    (TWO_TEXTS, None, 1, [b"search\tmoon"], BOTH),
    (TWO_TEXTS, b"/a", 1, [b"search\tmoon"], b"hits 1\nhit\t1\t0\th\t70\t/b\tmoon\n"),
    (TWO_TEXTS, b"/a", 2, [b"search\tmoon"], BOTH),
    (
        LINKS_BACK, None, 1, [b"search\tb", b"occurs\thome"],
        b"hits 1\nhit\t1\t1\th\t70\t/a\tHome\nplaces 1\nat\t1\t1\th\t70\t/a\n",
    ),
]


def crawl_in_order(replies, failing, tries, questions, order):
    """A whole crawl as a script. Where several calls are possible, the next digit of `order` says which is made."""
    state, script, out = model.Script(), [], []

    def add(line, block=b""):
        script.append(line + b"\n" + block)
        return state.perform(line, model.lines_of(block))

    for line in model.lines_of(HEAD) + [b"start\t10\t%d" % tries]:
        add(line)
    while out or state.crawl.waiting:
        possible = len(out) + bool(state.crawl.waiting)
        order, choice = divmod(order, possible)
        if choice == len(out):
            out.append(state.crawl.waiting[0])
            add(b"claim")
            continue
        number = out.pop(choice)
        place = state.crawl.known[number]
        if place[2] not in replies or place[2] == failing and state.crawl.claims[number] == 1:
            add(b"fail\t%d\t2" % number)
        else:
            add(b"found\t%d\t" % number + model.place_fields(place), replies[place[2]])
    for line in [b"claim", *questions, b"status"]:
        add(line)
    return b"".join(script)


def scripts_of(given):
    """Each script, and how its output has to end."""
    for script in MODELLED:
        yield script, b""
    for length in range(len(WHOLE_SEARCH[0])):
        yield WHOLE_SEARCH[0][:length], b""
    for *how, answers in CRAWLS:
        for order in range(128):
            yield crawl_in_order(*how, order), b"finished\n" + answers + DONE
    for script in [*scripts_of_sizes(given.pages), *(scripts_of_limits() if given.pages >= MOST_PAGES else ())]:
        yield script, b""
    for number in range(given.scripts):
        yield drawn_script(random.Random(f"{given.seed} {number}")), b""


def check_scripts(test):
    """Replays each script. One on which the program differs is kept."""
    differ = None
    for number, (script, end) in enumerate(scripts_of(test.given)):
        wanted, ran = model.replayed(script), test.run("replay", input=script)
        test.expect(f"script {number}", (*ran, ran[0].endswith(end)), (*wanted, True))
        if ran != wanted:
            differ = differ or pathlib.Path(tempfile.mkdtemp(prefix="replays-"))
            (differ / f"{number}.script").write_bytes(script)
    if differ:
        print(f"replays: the scripts that differ are in {differ}")


def check_worked(test):
    """Replays the scripts that were worked out by hand, and has the model replay them."""
    for script, output, bad_line in SCRIPTS:
        wanted = (output, b"hole: 70 line %d\n" % bad_line, 1) if bad_line else (output, b"", 0)
        test.expect(f"the worked script {script[:60]}", test.run("replay", input=script), wanted)
        test.expect(f"the model of the worked script {script[:60]}", model.replayed(script), wanted)


if __name__ == "__main__":
    run_test("replays", __doc__, check_worked, check_scripts, scripts=500, seed="hole", pages=MOST_PAGES)
