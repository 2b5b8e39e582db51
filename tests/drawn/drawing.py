"""Scripts that are drawn: few hosts, selectors and words, so that places meet and scores are equal, and among them what is
refused, what no rule allows, and lines that are no commands.
"""
from models import model

WORDS = [
    b"moon", b"moo", b"mood", b"m", b"sun", b"Sunny", b"rain", b"and", b"OR", b"not", b"a", b"\xc3\xa9t\xc3\xa9",
    b"w" * 40, b"w" * 41, b"9", b"--", b".", b"..", b"\x01", b"\x7f",
]
SELECTORS = [b"", b"/", *(b"/%d" % number for number in range(12))]
HOSTS = [b"h", b"h", b"h", b"h", b"H", b"other"]
BAD_SELECTORS = [b"/" + b"s" * 254, b"s" * 256, b"\0", b"/a\rb"]
BAD_HOSTS = [b"", b"a b", b"h\x7f", b"g" * 255, b"g" * 256]
BAD_LINES = [
    b"claims", b"claim\t", b"|x", b"fail\t0", b"fail\t0\t6", b"fail\tx\t1", b"found\t0", b"found\t01234567890\t1\th\t70\t",
    b"found\t4294967296\t1\th\t70\t", b"found\t0\t11\th\t70\t", b"found\t0\t1\th\t65536\t", b"start\t1", b"allow\th\t70\t",
    b"search", b"search\tmoon\tsun", b"search\t" + b"x" * 1025, b"status\t", b"Claim", b"claim\r", b"\xff",
]


def spaced(draw, words):
    return b"".join(word + draw.choice([b" ", b" ", b"  ", b"-", b"\x02"]) for word in words)


def some_words(draw, most):
    return spaced(draw, draw.choices(WORDS, k=draw.randrange(most + 1)))


def port(draw):
    return draw.choice([b"70"] * 12 + [b"00070", b"71", b"0", b"65535"])


def host(draw):
    return draw.choice(BAD_HOSTS) if draw.random() < 0.03 else draw.choice(HOSTS)


def selector(draw):
    return draw.choice(BAD_SELECTORS) if draw.random() < 0.03 else draw.choice(SELECTORS)


def kind(draw):
    return draw.choice([b"0", b"1"] * 12 + [b"7", b"i", b"\xff"])


def place(draw):
    return b"\t".join([kind(draw), host(draw), port(draw), selector(draw)])


def menu_line(draw):
    """A line of a menu: an item, an item with a fault, or what is none."""
    chance = draw.random()
    title = some_words(draw, 3).replace(b"\t", b" ")
    if chance < 0.06:
        return draw.choice([b".", b"", b"..", b".x", b"0x\ty", b"\t\th\t70", b"1a\0\t/1\th\t70", b"1a\t/1\th\t7o"])
    if chance < 0.16:
        return title
    spaces = b" " * draw.choice([0, 0, 0, 1, 2])
    fields = [kind(draw) + title, selector(draw), spaces + host(draw) + spaces, spaces + port(draw)]
    return b"\t".join(fields + [b"+"] * (draw.random() < 0.1))


def block(draw, of_menu):
    lines = [menu_line(draw) if of_menu else some_words(draw, 8) for _ in range(draw.randrange(10))]
    return [b"|" + line.replace(b"\n", b"") for line in lines]


def question(draw):
    words = [word + b"*" * (draw.random() < 0.25) for word in draw.choices(WORDS, k=draw.randrange(1, 7))]
    return spaced(draw, words)[:1024]


def opening(draw):
    """The lines before the start, and one or more starts."""
    for _ in range(draw.randrange(1, 3)):
        yield b"\t".join([b"allow", host(draw), port(draw), draw.choice([b"", b"", b"", b"/", b"/1"])])
    yield b"# nothing more" if draw.random() < 0.1 else b"allow\th\t70\t"
    for _ in range(draw.randrange(2)):
        yield b"\t".join([b"deny", host(draw), port(draw), draw.choice([b"/0", b"/1", b"/1", b"/11", b"/", b"\0"])])
    for _ in range(draw.randrange(1, 6)):
        yield b"seed\t" + place(draw) if draw.random() < 0.1 else b"seed\t1\th\t70\t" + draw.choice(SELECTORS[2:])
    for _ in range(draw.randrange(1, 4)):
        places = draw.choice([0, 1, 2, 4, 8, 12, 12, 40, 65536, 65537])
        yield b"start\t%d" % places + draw.choice([b"", b"", b"\t1", b"\t2", b"\t2", b"\t3", b"\t0", b"\t6"])


def step(draw, crawl):
    """A command, and the lines of its block."""
    chance = draw.random()
    if chance < 0.33 or chance < 0.62 and not crawl.out:
        return b"claim", []
    if chance < 0.66:
        out = sorted(crawl.out)
        number = draw.choice(out) if out and draw.random() < 0.9 else draw.randrange(7)
        if draw.random() < 0.3:
            return b"fail\t%d\t%d" % (number, draw.randrange(1, 6)), []
        is_own = number < len(crawl.known) and draw.random() < 0.9
        fields = model.place_fields(crawl.known[number]) if is_own else place(draw)
        return b"found\t%d\t" % number + fields, block(draw, fields.startswith(b"1"))
    if chance < 0.86:
        return b"search\t" + question(draw), []
    if chance < 0.93:
        return b"occurs\t" + draw.choice(WORDS).replace(b"\t", b""), []
    return draw.choice([b"status", b"", b"# a comment", b"status"]), []


def drawn_script(draw):
    """A script; `draw` is a random.Random. The model follows it, so that most outcomes are of places that are out."""
    state, script = model.Script(), []

    def add(line, following):
        script.extend([line, *following])
        if line and not line.startswith(b"#"):
            state.perform(line, following)

    try:
        for line in opening(draw):
            if state.crawl:
                break
            add(line, [])
        if not state.crawl:
            return b"\n".join(script)
        for _ in range(draw.randrange(10, 80)):
            add(*step(draw, state.crawl))
            if not state.crawl.waiting and not state.crawl.out and draw.random() < 0.2:
                break
        for _ in range(5):
            add(b"search\t" + question(draw), [])
        add(b"claim", [])
        if draw.random() < 0.3:
            add(draw.choice(BAD_LINES), [])
            add(b"status", [])
    except model.BadLine:
        script.append(b"status")
    return draw.choice([b"\n", b"\n", b"\r\n"]).join(script) + draw.choice([b"", b"\n"])
