"""A plain model of `hole replay`, after docs/SPECIFICATION.md: each rule as it stands there, and no index.

`replayed` gives what the program has to write on its output and its error stream, and its status.
"""
import re
from collections import Counter, deque

SPECIAL = b"\t\r\n\0"
CONTROL = bytes([*range(32), 127])
WORD = re.compile(rb"[0-9A-Za-z\x80-\xff]+")
TOKEN = re.compile(rb"([0-9A-Za-z\x80-\xff]+)(\*?)")


class BadLine(Exception):
    """A line of a script that is no command at its place."""


class Refused(Exception):
    """A refusal, by its number."""


def lines_of(data):
    """The lines of bytes: cut at LF, without a CR directly before it."""
    *whole, last = data.split(b"\n")
    return [line.removesuffix(b"\r") for line in whole] + ([last] if last else [])


def words_of(data):
    return [run.lower() for run in WORD.findall(data) if len(run) <= 40]


def has(data, bytes_sought):
    return any(byte in bytes_sought for byte in data)


def host_and_port(host, port):
    """A host in lower case and a port, or the first refusal."""
    if not 1 <= len(host) <= 255 or has(host, CONTROL + b" "):
        raise Refused(3)
    if not 1 <= port <= 65535:
        raise Refused(4)
    return host.lower(), port


def selector_of(selector):
    if len(selector) > 255 or has(selector, SPECIAL):
        raise Refused(2)
    return selector


def place_of(kind, host, port, selector):
    """A place in place order's form, (host, port, selector, type), or the first refusal."""
    if kind not in (b"0", b"1"):
        raise Refused(1)
    selector = selector_of(selector)
    return (*host_and_port(host, port), selector, kind)


def rule_of(host, port, prefix):
    prefix = selector_of(prefix)
    return (*host_and_port(host, port), prefix)


def text_lines(reply):
    for line in lines_of(reply):
        if line == b".":
            return
        yield line[1:] if line.startswith(b"..") else line


def menu_entries(reply):
    """For each entry of a menu its line, and its type, selector, host and port if it is an item."""
    for line in lines_of(reply):
        if line == b".":
            return
        if not line:
            continue
        fields = line.split(b"\t")
        port = fields[3].strip(b" ") if len(fields) > 3 else b""
        if fields[0] and not has(line, b"\r\0") and re.fullmatch(rb"[0-9]+", port) and int(port) <= 65535:
            yield fields[0][1:], (fields[0][:1], fields[2].strip(b" "), int(port), fields[1])
        else:
            yield fields[0], None


def shown(line):
    """A line as a title shows it."""
    return bytes(32 if byte in CONTROL else byte for byte in line).strip(b" ")[:69]


class Page:
    """What is kept of a reply."""

    def __init__(self, is_allowed, place, reply):
        host, _, selector, kind = self.place = place
        entries = list(menu_entries(reply)) if kind == b"1" else [(line, None) for line in text_lines(reply)]
        lines = [line for line, _ in entries]
        titled = [shown(line) for line in lines if words_of(line)]
        self.title = (titled + [shown(selector) or host[:69]])[0]
        self.counts = Counter(word for line in lines for word in words_of(line))
        links = {}
        for _, item in entries:
            try:
                link = place_of(*item) if item else None
            except Refused:
                continue
            if link and is_allowed(link):
                links[link] = None
        self.links = list(links)

    def count(self, term):
        _, word, is_prefix = term
        if not is_prefix:
            return self.counts[word]
        return sum(times for other, times in self.counts.items() if other.startswith(word))

    def matches(self, terms):
        answer = self.count(terms[0]) > 0
        for term in terms[1:]:
            has_it = self.count(term) > 0
            answer = {b"and": answer and has_it, b"or": answer or has_it, b"not": answer and not has_it}[term[0]]
        return answer

    def score(self, terms):
        return sum(self.count(term) for term in terms if term[0] != b"not")


def terms_of(text):
    """The terms of a query: operator, word, and whether it is a prefix."""
    terms, operator = [], b"and"
    for run, star in TOKEN.findall(text):
        word = run.lower()
        if len(word) > 40:
            continue
        if terms and not star and word in (b"and", b"or", b"not"):
            operator = word
        else:
            terms.append((operator, word, bool(star)))
            operator = b"and"
    if not terms:
        raise Refused(40)
    return terms


class Crawl:
    """A catalogue: known places, their frontier, and the pages that were found."""

    def __init__(self, is_allowed, seeds, limit, tries):
        self.is_allowed, self.limit, self.tries = is_allowed, limit, tries
        self.known, self.numbers, self.waiting, self.out = [], {}, deque(), set()
        self.claims, self.done, self.dropped, self.pages = Counter(), 0, 0, []
        self.mention(seeds)

    def mention(self, places):
        known, dropped = len(self.known), self.dropped
        for place in places:
            if place in self.numbers:
                continue
            if len(self.known) < self.limit:
                self.numbers[place] = len(self.known)
                self.waiting.append(len(self.known))
                self.known.append(place)
            else:
                self.dropped += 1
        return len(self.known) - known, self.dropped - dropped

    def claim(self):
        if not self.waiting:
            return None
        number = self.waiting.popleft()
        self.out.add(number)
        self.claims[number] += 1
        return number

    def found(self, number, place, reply):
        if number not in self.out:
            raise Refused(52)
        if self.known[number] != place:
            raise Refused(53)
        page = Page(self.is_allowed, place, reply)
        self.out.remove(number)
        self.done += 1
        self.pages.append(page)
        return self.mention(page.links)

    def fail(self, number):
        if number not in self.out:
            raise Refused(52)
        self.out.remove(number)
        if self.claims[number] < self.tries:
            self.waiting.append(number)
        else:
            self.done += 1

    def search(self, text):
        terms = terms_of(text)
        hits = [(-page.score(terms), page.place, page.title) for page in self.pages if page.matches(terms)]
        return sorted(hits)[:50]

    def occurrences(self, word):
        return sorted((page.place, page.counts[word]) for page in self.pages if page.counts[word])


def number_of(field, digits, most):
    if not re.fullmatch(rb"[0-9]{1,%d}" % digits, field) or int(field) > most:
        raise BadLine
    return int(field)


def port_of(field):
    return number_of(field, 5, 65535)


def place_fields(place):
    host, port, selector, kind = place
    return b"\t".join([kind, host, b"%d" % port, selector])


class Script:
    """The commands of a script, performed one after another."""

    def __init__(self):
        self.allowed, self.denied, self.seeds, self.crawl = [], [], [], None

    def is_allowed(self, place):
        covers = lambda rule: rule[:2] == place[:2] and place[2].startswith(rule[2])
        return any(map(covers, self.allowed)) and not any(map(covers, self.denied))

    def perform(self, line, block):
        """The lines that answer a command."""
        command, *fields = line.split(b"\t")
        before = {b"allow": (3,), b"deny": (3,), b"seed": (4,), b"start": (1, 2)}
        after = {b"claim": (0,), b"found": (5,), b"fail": (2,), b"search": (1,), b"occurs": (1,), b"status": (0,)}
        if len(fields) not in (after if self.crawl else before).get(command, ()):
            raise BadLine
        try:
            return getattr(self, command.decode())(*fields, *([block] if command == b"found" else []))
        except Refused as refusal:
            return [b"refused %d" % refusal.args[0]]

    def allow(self, host, port, prefix):
        self.allowed.append(rule_of(host, port_of(port), prefix))
        return []

    def deny(self, host, port, prefix):
        self.denied.append(rule_of(host, port_of(port), prefix))
        return []

    def start(self, places, tries=b"1"):
        places, tries = number_of(places, 10, 2**32 - 1), number_of(tries, 10, 2**32 - 1)
        if not all(map(self.is_allowed, self.seeds)):
            raise Refused(50)
        if not 1 <= places <= 65536:
            raise Refused(51)
        if not 1 <= tries <= 5:
            raise Refused(54)
        self.crawl = Crawl(self.is_allowed, self.seeds, places, tries)
        return [b"ok"]

    def seed(self, kind, host, port, selector):
        port = port_of(port)
        if len(kind) != 1:
            raise BadLine
        self.seeds.append(place_of(kind, host, port, selector))
        return []

    def claim(self):
        number = self.crawl.claim()
        if number is None:
            return [b"idle" if self.crawl.out else b"finished"]
        return [b"take\t%d\t" % number + place_fields(self.crawl.known[number])]

    def found(self, number, kind, host, port, selector, block):
        number, port = number_of(number, 10, 2**32 - 1), port_of(port)
        if len(kind) != 1:
            raise BadLine
        place = place_of(kind, host, port, selector)
        reply = b"".join(line[1:] + b"\r\n" for line in block)
        return [b"added %d %d" % self.crawl.found(number, place, reply)]

    def fail(self, number, why):
        number = number_of(number, 10, 2**32 - 1)
        if why not in (b"1", b"2", b"3", b"4", b"5"):
            raise BadLine
        self.crawl.fail(number)
        return [b"ok"]

    def search(self, text):
        if len(text) > 1024:
            raise BadLine
        hits = self.crawl.search(text)
        lines = [b"hit\t%d\t%s\t%s" % (-score, place_fields(place), title) for score, place, title in hits]
        return [b"hits %d" % len(hits), *lines]

    def occurs(self, word):
        places = self.crawl.occurrences(word)
        return [b"places %d" % len(places), *(b"at\t%d\t%s" % (count, place_fields(place)) for place, count in places)]

    def status(self):
        crawl = self.crawl
        sizes = (len(crawl.known), len(crawl.waiting), len(crawl.out), crawl.done, crawl.dropped)
        return [b"known %d waiting %d out %d done %d dropped %d" % sizes]


def blocks(lines):
    """Each command with its number and the lines of its block; a line of no block stands as a command."""
    taken = 0
    for number, line in enumerate(lines, 1):
        if number <= taken or not line or line.startswith(b"#"):
            continue
        taken = number
        if line.split(b"\t")[0] == b"found":
            while taken < len(lines) and lines[taken].startswith(b"|"):
                taken += 1
        yield number, line, lines[number:taken]


def replayed(script):
    """What the program writes to its output and to its error stream, and its status."""
    state, output = Script(), []
    for number, line, block in blocks(lines_of(script)):
        try:
            output += state.perform(line, block)
        except BadLine:
            return b"".join(line + b"\n" for line in output), b"hole: 70 line %d\n" % number, 1
    return b"".join(line + b"\n" for line in output), b"", 0
