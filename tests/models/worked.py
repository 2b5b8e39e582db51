"""Scripts that were worked out by hand, each with its whole output and the number of its bad line, if there is one; and scripts
for single rules, of which the plain model says what they have to get.
"""
import pathlib

EXAMPLES = pathlib.Path(__file__).resolve().parent.parent.parent / "examples"
HEAD = b"allow\th.example\t70\t\ndeny\th.example\t70\t/private\n"


def pages(*replies):
    """A crawl of files of one server, whose replies these are, by their selectors."""
    seeds = b"".join(b"seed\t0\th.example\t70\t%s\n" % selector for selector, _ in replies)
    founds = (
        b"claim\nfound\t%d\t0\th.example\t70\t%s\n%s" % (number, selector, reply)
        for number, (selector, reply) in enumerate(replies)
    )
    return HEAD + seeds + b"start\t100\n" + b"".join(founds)


def taken(*selectors):
    """The answers of such a crawl."""
    takes = (b"take\t%d\t0\th.example\t70\t%s\nadded 0 0\n" % it for it in enumerate(selectors))
    return b"ok\n" + b"".join(takes)


def searches(*texts):
    return b"".join(b"search\t%s\n" % text for text in texts)


def hits(*lines):
    """The answer of a search that finds files, each in one place: selectors and titles."""
    return b"hits %d\n" % len(lines) + b"".join(b"hit\t1\t0\th.example\t70\t%s\t%s\n" % line for line in lines)


FIRST_CRAWL = (
    (EXAMPLES / "first_crawl.script").read_bytes(),
    b"ok\ntake\t0\t1\tlocalhost\t70\t\nadded 1 0\ntake\t1\t1\tlocalhost\t70\t/docs\nok\nfinished\n"
    b"known 2 waiting 0 out 0 done 2 dropped 0\n",
    None,
)

PLACE_LIMIT = (
    b"allow\th\t70\t\nseed\t1\th\t70\t\nstart\t2\nclaim\nfound\t0\t1\th\t70\t\n|1A\t/a\th\t70\n|1B\t/b\th\t70\n"
    b"|1C\t/c\th\t70\n|1A once more\t/a\th\t70\nstatus\nclaim\nfound\t1\t1\th\t70\t/a\n|1B\t/b\th\t70\nstatus\n"
    b"claim\n",
    b"ok\ntake\t0\t1\th\t70\t\nadded 1 2\nknown 2 waiting 1 out 0 done 1 dropped 2\ntake\t1\t1\th\t70\t/a\n"
    b"added 0 1\nknown 2 waiting 0 out 0 done 2 dropped 3\nfinished\n",
    None,
)

REFUSED_START = (
    b"seed\t1\th\t70\t\nstart\t2\nallow\th\t70\t\nstart\t0\nstart\t2\nclaim\nfail\t0\t6\n",
    b"refused 50\nrefused 51\nok\ntake\t0\t1\th\t70\t\n",
    7,
)

TWO_TRIES = (
    b"allow\th\t70\t\nseed\t1\th\t70\t\nseed\t1\th\t70\t/b\nstart\t5\t2\nclaim\nfail\t0\t1\nstatus\nclaim\nclaim\n"
    b"status\nfail\t0\t2\nclaim\nfound\t1\t1\th\t70\t/b\nstatus\nclaim\n",
    b"ok\ntake\t0\t1\th\t70\t\nok\nknown 2 waiting 2 out 0 done 0 dropped 0\ntake\t1\t1\th\t70\t/b\n"
    b"take\t0\t1\th\t70\t\nknown 2 waiting 0 out 2 done 0 dropped 0\nok\nidle\nadded 0 0\n"
    b"known 2 waiting 0 out 0 done 2 dropped 0\nfinished\n",
    None,
)

WHOLE_SEARCH = (
    (EXAMPLES / "whole_search.script").read_bytes(),
    b"ok\nknown 1 waiting 1 out 0 done 0 dropped 0\ntake\t0\t1\th.example\t70\t\nidle\nadded 2 0\n"
    b"known 3 waiting 2 out 0 done 1 dropped 0\ntake\t1\t1\th.example\t70\t/moon\nrefused 53\n"
    b"take\t2\t0\th.example\t70\t/sun.txt\nidle\nadded 0 0\nok\nfinished\nrefused 52\nrefused 52\nhits 2\n"
    b"hit\t3\t1\th.example\t70\t\tMoon pages\nhit\t3\t0\th.example\t70\t/sun.txt\tThe sun and the moon.\nhits 1\n"
    b"hit\t1\t0\th.example\t70\t/sun.txt\tThe sun and the moon.\nrefused 40\nhits 0\nplaces 2\n"
    b"at\t3\t1\th.example\t70\t\nat\t3\t0\th.example\t70\t/sun.txt\nknown 3 waiting 0 out 0 done 3 dropped 0\n",
    None,
)

# Words by prefix, after the whole search.
PREFIXES = (
    WHOLE_SEARCH[0] + searches(b"se*", b"s* not h*", b"mo* or an*", b"and*", b"sun and* moon", b"*") + b"occurs\tmo*\n",
    WHOLE_SEARCH[1]
    + b"hits 1\nhit\t1\t1\th.example\t70\t\tMoon pages\nhits 1\n"
    b"hit\t1\t0\th.example\t70\t/sun.txt\tThe sun and the moon.\nhits 2\nhit\t4\t1\th.example\t70\t\tMoon pages\n"
    b"hit\t4\t0\th.example\t70\t/sun.txt\tThe sun and the moon.\nhits 2\nhit\t1\t1\th.example\t70\t\tMoon pages\n"
    b"hit\t1\t0\th.example\t70\t/sun.txt\tThe sun and the moon.\nhits 2\nhit\t5\t1\th.example\t70\t\tMoon pages\n"
    b"hit\t5\t0\th.example\t70\t/sun.txt\tThe sun and the moon.\nrefused 40\nplaces 0\n",
    None,
)

# Titles, matches and words.
PAGES = {
    b"/ab": b"|" + b"ab " * 23 + b"c\n", b"/both": b"|sun rain\n", b"/hi": b"|--\n|\tHi\x01there \n|.\n", b"/moon": b"|moon\n",
    b"/sun": b"|sun\n", b"/words": b"|Caf\xc3\xa9\n|" + b"a" * 40 + b"\n|" + b"a" * 41 + b"\n",
}
MATCHES = (
    pages(*PAGES.items())
    + searches(b"c", b"hi", b"moon or sun not rain", b"not moon", b"moon and or sun", b"moon or")
    + searches(b"caf\xc3\xa9", b"a" * 40, b"a" * 41) + b"occurs\tcaf\xc3\xa9\n",
    taken(*PAGES) + hits((b"/ab", b"ab " * 23)) + hits((b"/hi", b"Hi there"))
    + hits((b"/moon", b"moon"), (b"/sun", b"sun")) + hits()
    + hits((b"/both", b"sun rain"), (b"/moon", b"moon"), (b"/sun", b"sun")) + hits((b"/moon", b"moon"))
    + hits((b"/words", b"Caf\xc3\xa9")) * 2 + b"refused 40\nplaces 1\nat\t1\t0\th.example\t70\t/words\n",
    None,
)

# Items that name no place, a host and a port between spaces, an odd line, an empty line, and an item behind them.
SPACES = (
    b"allow\th\t70\t\nseed\t1\th\t70\t\nstart\t10\nclaim\nfound\t0\t1\th\t70\t\n|iWelcome\tfake\t(NULL)\t0\n"
    b"|hSite\tURL:http://x/\th\t70\n|1Dir\t/d\t h \t 70 \t+\n|broken\n|\n|0T\t/t\th\t70\nclaim\nclaim\nclaim\n",
    b"ok\ntake\t0\t1\th\t70\t\nadded 2 0\ntake\t1\t1\th\t70\t/d\ntake\t2\t0\th\t70\t/t\nidle\n",
    None,
)

# A line that begins like an item and has no fields is odd: its first byte is no type, but a part of its word.
ODD_LINE = (
    b"allow\th\t70\t\nseed\t1\th\t70\t/moon\nstart\t10\nclaim\nfound\t0\t1\th\t70\t/moon\n|1Mo\nsearch\t1mo\nsearch\tmo\n",
    b"ok\ntake\t0\t1\th\t70\t/moon\nadded 0 0\nhits 1\nhit\t1\t1\th\t70\t/moon\t1Mo\nhits 0\n",
    None,
)

# The host of a place is spelled in lower case; the first fault of its parts is the one that is told.
HOST_CASE = (
    b"seed\t7\th\t0\t" + b"a" * 256 + b"\nseed\t0\ta b\t70\t\nseed\t0\th\t0\t\nallow\tgopher.example\t70\t\n"
    b"seed\t1\tGopher.Example\t70\t/x\nstart\t10\nclaim\n",
    b"refused 1\nrefused 3\nrefused 4\nok\ntake\t0\t1\tgopher.example\t70\t/x\n",
    None,
)

# A rule and a place that are refused, and a command before its time.
REFUSED_PARTS = [
    (b"allow\ta b\t70\t\n", b"refused 3\n", None), (b"seed\t7\th\t70\t\n", b"refused 1\n", None), (b"claim\n", b"", 1),
    (b"seed\t0\t%s\t70\t\nseed\t0\t%s\t70\t\n" % (b"h" * 255, b"h" * 256), b"refused 3\n", None),
]

# Of two links one is denied, by a rule whose host is spelled in another case.
DENIED_LINK = (
    b"allow\th\t70\t\ndeny\tH\t70\t/p\nseed\t1\th\t70\t\nstart\t5\nclaim\nfound\t0\t1\th\t70\t\n|0X\t/p/x\th\t70\n"
    b"|0Y\t/q\th\t70\nstatus\n",
    b"ok\ntake\t0\t1\th\t70\t\nadded 1 0\nknown 2 waiting 1 out 0 done 1 dropped 0\n",
    None,
)

REFUSED_TRIES = (b"start\t2\t0\nstart\t2\t6\nstart\t0\t0\n", b"refused 54\nrefused 54\nrefused 51\n", None)

SCRIPTS = [
    FIRST_CRAWL, PLACE_LIMIT, REFUSED_START, TWO_TRIES, WHOLE_SEARCH, PREFIXES, MATCHES, SPACES, ODD_LINE, HOST_CASE,
    REFUSED_TRIES, DENIED_LINK, *REFUSED_PARTS,
]

# From here on, scripts for single rules.
DENY_RULE = (
    b"# rules\nallow\th\t70\t\ndeny\tH\t70\t/p\n\nseed\t1\th\t70\t\nstart\t5\t2\nclaim\nfound\t0\t7\th\t70\t\n|x\n"
    b"found\t0\t1\th\t70\t/q\n|y\nfound\t9\t1\th\t70\t\nfound\t0\t1\th\t70\t\n|0X\t/p/x\th\t70\n|0Y\t/q\th\t70\n"
    b"status\nclaim\nfail\t1\t5\nclaim"
)

# Words that stand in a page as often as a byte or sixteen bits count, and once more.
COUNTS = pages(
    (b"/many", b"|" + b"b " * 255 + b"d " * 256 + b"f " * 257 + b"h " * 65_536 + b"a c e g i j\n")
) + searches(*(bytes([letter]) for letter in b"abcdefghij"))

# Pages of one word come by host, then port, then selector, then type.
ORDER = (
    b"allow\ta\t70\t\nallow\th\t70\t\nallow\th\t7070\t\nseed\t0\th\t7070\t\nseed\t1\th\t70\t/a\nseed\t0\th\t70\t/b\n"
    b"seed\t1\ta\t70\t/z\nseed\t0\th\t70\t/a\nstart\t10\n" + b"claim\n" * 5
    + b"found\t0\t0\th\t7070\t\n|x\nfound\t1\t1\th\t70\t/a\n|x\nfound\t2\t0\th\t70\t/b\n|x\nfound\t3\t1\ta\t70\t/z\n|x\n"
    + b"found\t4\t0\th\t70\t/a\n|x\noccurs\tx\n"
)

# Numbers, fields and commands at their limits and at a wrong time.
SHORT = [
    b"", b"\n# a comment\n\n", b"claim\n", b"search\tx\n", b"|x\n", b"allow\ta b\t70\t\n", b"seed\t7\th\t70\t\n",
    b"seed\t1\th\t0\t\n", b"seed\t1\th\t000070\t\n", b"seed\t1\th\t65536\t\n", b"seed\t11\th\t70\t\n",
    b"seed\t\th\t70\t\n", b"start\t4294967295\n", b"start\t4294967296\n", b"start\t00000000002\n", b"start\t0000000002\n",
    b"start\t2\t\n", b"start\t2\t4294967296\n", b"allow\ta b\t70\t\nseed\t1\th\t0\t\nstart\t2\t6\nstatus\n",
]
AFTER_START = [
    b"claim\r", b"|x\n", b"\n|x\n", b"claim x\n", b"start\t2\n", b"allow\th\t70\t\n", b"status\t\n", b"fail\t0\t1\n",
    b"fail\t0\t6\n", b"found\t0\t1\th\t70\t\n|x\n|y\nstatus\n", b"found\t0\t7\th\t70\t\n|x\nstatus\n",
    b"found\tx\t7\th\t70\t\n|x\nstatus\n", b"found\t0\t1\th\t70\t\n|x\n\n|y\n", b"found\t0\t1\th\t70\t\n|x\n#\n|y\n",
    b"search\t" + b"-" * 1_024, b"search\t" + b"-" * 1_025, b"occurs\t" + b"-" * 1_025, b"search\ta\t-",
]

MODELLED = [
    DENY_RULE, COUNTS, ORDER, *SHORT, *(b"start\t2\n" + script for script in AFTER_START),
    b"allow\th\t70\t\nseed\t1\th\t70\t\nstart\t2\nclaim\nfound\t0\t1\th\t70\t/x\nstatus\n",
]
