"""Searches that cost much: made pages on a host of this process, queries as heavy as a line has room for, and their replies."""
import contextlib
import random
import time
from collections import Counter
from concurrent.futures import ThreadPoolExecutor

from models.model import Page
from models.site_model import Site
from running.server import HOST, Host, ask, seeded

LETTERS = "abcdefghijklmnopqrstuvwxyz"
PAIRS = [first + second for first in LETTERS for second in LETTERS]
WORDS_A_PAGE = 250
WORDS_A_LINE = 12
MAX_TEXT = 1_016


def text_of(draw):
    """A text of drawn words. Any two letters begin some word."""
    words = [draw.choice(PAIRS) + "".join(draw.choices(LETTERS, k=draw.randint(0, 5))) for _ in range(WORDS_A_PAGE)]
    lines = [" ".join(words[start:start + WORDS_A_LINE]) for start in range(0, WORDS_A_PAGE, WORDS_A_LINE)]
    return "".join(line + "\r\n" for line in lines).encode() + b".\r\n"


def filled(terms, between):
    """As many of the terms, again and again, as the search text of a line has room for."""
    text = terms[0]
    for number in range(1, MAX_TEXT):
        more = text + between + terms[number % len(terms)]
        if len(more) > MAX_TEXT:
            return text
        text = more
    return text


def heavy_texts():
    """Search texts that look at many postings; the first is the heaviest."""
    letters, pairs = [f"{letter}*" for letter in LETTERS], [f"{pair}*" for pair in PAIRS]
    return [
        filled(letters + pairs, " "),
        filled(letters, " "),
        filled(letters, " or "),
        filled(letters + pairs, " or "),
        filled(pairs[::2] + pairs[1::2], " or "),
    ]


class Counted(Page):
    """A page that has counted its words by their first letters."""

    def __init__(self, is_allowed, place, reply):
        super().__init__(is_allowed, place, reply)
        self.prefixes = Counter()
        for word, times in self.counts.items():
            self.prefixes[word[:1]] += times
            self.prefixes[word[:2]] += times * (len(word) > 1)

    def count(self, term):
        _, word, is_prefix = term
        return self.prefixes[word] if is_prefix and len(word) <= 2 else super().count(term)


class Heavy(Host):
    """A host of so many texts, and what searches of them have to give, by the plain model."""

    def __init__(self, count):
        draw = random.Random(1436)
        texts = {b"/t%d" % number: text_of(draw) for number in range(count)}
        super().__init__(lambda line: replies.get(line, b""))
        replies = self.menus(texts)
        self.settings = seeded(self.port, f"threads = 2\nplaces = {min(2 * len(replies), 65_536)}\nworkers = 16")
        self.site, self.known = Site(HOST.encode(), self.port, {}), len(replies)
        places = ((self.site.host, self.port, name, b"0") for name in texts)
        self.site.crawl.pages = [Counted(None, place, texts[place[2]]) for place in places]


def keep_asking(port, wanted, until):
    """Asks one search after another. Says of each reply whether it is right."""
    are_right, turn = [], 0
    while time.monotonic() < until:
        line, reply = wanted[turn % len(wanted)]
        turn += 1
        with contextlib.suppress(OSError):
            are_right.append(ask(port, line) == reply)
    return are_right


def flood(port, wanted, clients, seconds):
    """Has so many clients ask searches for a time. How many replies were right, and how many weren't."""
    until = time.monotonic() + seconds
    with ThreadPoolExecutor(clients) as asking:
        are_right = sum(asking.map(lambda _: keep_asking(port, wanted, until), range(clients)), [])
    return are_right.count(True), are_right.count(False)
