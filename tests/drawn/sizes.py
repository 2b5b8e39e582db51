"""Scripts of catalogues whose pages end around each size at which the segments of the index change: the first segment,
those that are merged from four, at once or once a fifth follows, and the largest; with words that every other page
has, that one page has, and that stand in a page about as often as a byte counts, and far more often; with long words
that differ late; of pages with so many words that their segment is made otherwise; and of large pages among small ones.
Then scripts of what is as large as it may be: a page, the places of a crawl, its pages, the terms of a search, the words of
a text, the lines of a menu, and the times that a word stands in pages.
"""
import itertools
import random

SIZES = (
    *(7, 8, 9, 15, 16, 17, 63, 64, 65, 255, 256, 257, 1023, 1024, 1025),
    *(5119, 5120, 5121, 16383, 16384, 16385, 16390),
)
MOST_PAGES = 16390
# Pages that have the word `lark` so often, by their numbers.
LARKS = {0: 254, 3: 255, 7: 256, 8: 300, 63: 255, 64: 256, 1023: 254, 1024: 300, 16383: 256, 16384: 255}
# Words that have 15 bytes alike, of which each seventh page has one: a script is at most 1,048,576 bytes.
ALIKE = (b"willowherbwillo", b"willowherbwillow", b"willowherbwillows", b"willowherbwillowt")
QUESTIONS = (
    b"m", b"m*", b"s* not m*", b"m and s not r", b"m or s not so", b"p*", b"p7", b"p8", b"p63", b"p64", b"p1023",
    b"p1024", b"p1*", b"p163*", b"p16383", b"p5120", b"p0 or p8 or p1023 or p16384", b"m not p*", b"absent", b"absent*",
    b"absent or p9", b"lark", b"lark*", b"l*", b"lark not m", b"lark l* la*", b"m or lark", b"k", b"k*", b"k not m",
    b"m or k", b"k and k*", b"so not s", b"r and so and s and m", b"willowherbwillo", b"willowherbwillow and m",
    b"willowherbwillows or willowherbwillowt", b"willowherbwillow*", b"m not willowherbwillo*",
)
SOUGHT = (b"m", b"p0", b"p7", b"p63", b"p64", b"p1023", b"p5119", b"p16384", b"lark", b"k", b"absent", b"willowherbwillowt")

# A page is large if its different words have more bytes than this.
LARGE = 131_072
# Words of large pages, and what is sought among large and small ones; the last questions are done in steps.
LONG_WORDS = (b"a00000" + b"x" * 34, b"b63027" + b"x" * 34)
LARGE_QUESTIONS = (
    b"m", b"a*", b"a* not lark", b"m not a*", b"m not " + LONG_WORDS[0], b"lark", b"lark not a*", b"l* or a*", b"p63",
    b"p64 or p63", b"p255 or p256 or " + LONG_WORDS[1], LONG_WORDS[0], LONG_WORDS[1], b"a0*", b"b63*", b"q*", b"absent",
    b"absent or c*", b"m a* b* c* d*", b"m or a* or lark or l* or p1* or z*", b"m not a* not b* not p1* or lark or p63",
    b"m not " + LONG_WORDS[0] + b" not " + LONG_WORDS[1] + b" or p0 or p63 or p255",
)


def kays(number):
    """How often the word `k` stands in a page: in few pages, and there about as often as a byte counts."""
    return number * 7 % 12 + 250 if 100 <= number < 140 else 0


def body(draw, number, larks):
    words = [b"p%d" % number] + [word for word in (b"m", b"s", b"r", b"so") if draw.random() < 0.4]
    alike = [ALIKE[number % 4]] if number % 7 == 0 else []
    return b" ".join(words + alike + [b"lark"] * larks.get(number, 0) + [b"k"] * kays(number))


def crawl(selectors, texts, ask=lambda number: ()):
    """A crawl of texts at these selectors, with what is asked after each of them."""
    yield b"allow\th\t7\t"
    yield from (b"seed\t0\th\t7\t" + selector for selector in selectors)
    yield b"start\t%d" % len(selectors)
    for number, (selector, text) in enumerate(zip(selectors, texts)):
        yield from (b"claim", b"found\t%d\t0\th\t7\t%s" % (number, selector), b"|" + text)
        yield from ask(number)
    yield b"status"


def numbers(count):
    return [b"%d" % number for number in range(count)]


def asked(questions, words):
    return [*(b"search\t" + question for question in questions), *(b"occurs\t" + word for word in words)]


def crawl_of(pages, sizes, larks):
    """A crawl of so many pages, with questions where it has as many as one of the sizes."""
    draw = random.Random(pages)

    def ask(number):
        words = (word for word in SOUGHT if number < 2000 or word not in ALIKE and (number < 6000 or word != b"m"))
        return asked(QUESTIONS, words) if number + 1 in sizes else ()

    selectors = [b"%d" % (number * 40503 & 0xFFFF) for number in range(pages)]
    return crawl(selectors, (body(draw, number, larks) for number in range(pages)), ask)


def short_names(count):
    """So many words of letters and digits, the shortest first."""
    signs = "abcdefghijklmnopqrstuvwxyz0123456789"
    sizes = (itertools.product(signs, repeat=size) for size in itertools.count(1))
    return ["".join(word).encode() for word in itertools.islice(itertools.chain.from_iterable(sizes), count)]


def crawl_of_many_words():
    """A crawl of 66 pages with over 4,100 words each, so many that a segment of 64 is made page by page."""
    words, questions = short_names(4170), (b"a", b"b*", b"a not b", b"zz and 00 or c", b"d* not dd")
    texts = (b" ".join(word for at, word in enumerate(words) if at % 65 != number) for number in range(66))
    return crawl(numbers(66), texts, lambda number: asked(questions, words[:4] + words[-4:]) if number in (62, 63, 65) else ())


def words_of(number, size):
    """Different words that have so many bytes together: those of 40 bytes, and one for the rest. The first pages share words."""
    count, rest = divmod(size, 40)
    words = [b"%c%05d%s" % (97 + at % 26, (at + 1_000 * number) % 100_000, b"x" * 34) for at in range(count)]
    return words + [b"q" * rest] * (rest > 0)


def crawl_of_large_pages():
    """A crawl of 262 pages, of which some are large: their different words have over 131,072 bytes. Page 100 has just as many.
    The large ones are the first and the last of the first segment, one in the third, one in the fourth, and one behind them.
    So there are segments with large pages and without any, before and after they are merged."""
    sizes = {0: LARGE + 1, 63: 140_000, 100: LARGE, 130: LARGE + 2, 255: 150_000, 256: LARGE + 41}

    def text(number):
        words = [b"p%d" % number, b"m", *[b"lark"] * (number % 7 * 45)]
        if number in sizes:
            words += words_of(number, sizes[number] - len(b"".join(set(words))))
            assert len(b"".join(set(words))) == sizes[number]
        return b" ".join(words)

    def ask(number):
        words = (b"lark", b"p63", b"p255", *LONG_WORDS, b"absent")
        return asked(LARGE_QUESTIONS, words) if number + 1 in (64, 65, 128, 192, 256, 257, 262) else ()

    return crawl(numbers(262), map(text, range(262)), ask)


def scripts_of_sizes(pages):
    yield b"\n".join(crawl_of(pages, SIZES, LARKS))
    if pages >= 1025:
        yield b"\n".join(crawl_of_many_words())
        yield b"\n".join(crawl_of_large_pages())
    # Words that stand more often in a page than sixteen bits count.
    yield b"\n".join(crawl_of(20, (9, 20), {3: 65535, 7: 65536, 8: 70_000}))


def crawl_of_a_large_page():
    """One page of as many different words as a script has room for, of up to four bytes each."""
    words = b" ".join(short_names(210_000))
    return crawl([b""], [words], lambda number: asked([b"a", b"zz*", b"abc not b"], [b"9999", b"a"]))


def crawl_of_most_places():
    """A menu of more places than a catalogue may know, or sixteen bits count, with one of them twice."""
    names = short_names(65_600)
    yield from (b"allow\th\t7\t", b"seed\t1\th\t7\t", b"start\t65536", b"claim", b"found\t0\t1\th\t7\t")
    yield from (b"|0\t%s\th\t7" % name for name in [*names, names[0]])
    yield from (b"status", b"claim", b"fail\t1\t1", b"claim", b"status")


def crawl_of_many_pages(count=25_000, every=1_000):
    """A menu and its texts, in all as many pages as a script has room for, of which every thousandth has words."""
    names = short_names(count)
    yield from (b"allow\th\t7\t", b"seed\t1\th\t7\t", b"start\t65536", b"claim", b"found\t0\t1\th\t7\t")
    yield from (b"|0\t%s\th\t7" % name for name in names)
    for number, name in enumerate(names, 1):
        yield from (b"claim", b"found\t%d\t0\th\t7\t%s" % (number, name))
        if number % every == 0:
            yield b"|moon p%d" % number
    yield from asked((b"moon", b"p%d" % count, b"p* not p1000"), (b"moon",))
    yield b"status"


def crawl_of_many_terms():
    """Searches of 512 terms, the most that a text has room for, and of 170 and 353 different ones, over as many pages as two
    segments have, and some more."""
    different = (b" or ".join(short_names(170)), b" ".join(short_names(353)))
    questions = (b"m " * 512, b"b a " * 256, b"p*" + b" m" * 511, *different)
    texts = (b"m a b "[: 2 + number % 5] + b"p%d" % number for number in range(130))
    return crawl(numbers(130), texts, lambda number: asked(questions, ()) if number in (63, 64, 128, 129) else ())


def crawl_of_a_long_text():
    """A text of 520,000 words, about as many as a reply has room for, all of them one word."""
    return crawl([b"/text"], [b"a " * 520_000], lambda number: asked((b"a", b"a*"), (b"a",)))


def crawl_of_many_lines():
    """A menu of as many lines as a script has room for."""
    yield from (b"allow\th\t7\t", b"seed\t1\th\t7\t", b"start\t1", b"claim", b"found\t0\t1\th\t7\t")
    yield from [b"|a"] * 349_000
    yield from asked((b"a", b"a*"), (b"a",))
    yield b"status"


def crawl_of_frequent_words():
    """Pages of which many more than a search gives have one word 300 times, before and after they are merged: segments are so
    large then that a search guesses which score its hits have."""
    asks = (54, 511, 512, 800, 1024, 1200, 1399)
    return crawl(numbers(1400), [b"l " * 300] * 1400, lambda number: asked((b"l", b"l*", b"l or m"), ()) if number in asks else ())


LARGEST = (
    crawl_of_a_large_page, crawl_of_most_places, crawl_of_many_pages, crawl_of_many_terms, crawl_of_a_long_text,
    crawl_of_many_lines, crawl_of_frequent_words,
)


def scripts_of_limits():
    for crawl in LARGEST:
        script = b"\n".join(crawl())
        assert len(script) <= 1_048_576, crawl.__name__
        yield script
