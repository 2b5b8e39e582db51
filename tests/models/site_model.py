"""A plain model of what `hole serve` sends, after docs/SPECIFICATION.md: a site's replies, its crawl, and its searches.

A site is made of its files as section 9 lists them: a dict from paths (names joined by `/`) to bytes.
"""
from models import model

MOST_IN_LINE = 1024
MOST_WITH_END = 1026
MOST_CRAWLED = 1_048_576


def line_of(sent):
    """The request line of all bytes that a client sends before it ends its side; None if it is too long."""
    front = sent[:MOST_WITH_END]
    if b"\n" in front:
        line = front.split(b"\n")[0].removesuffix(b"\r")
    elif len(front) == MOST_WITH_END:
        return None
    else:
        line = front
    return line if len(line) <= MOST_IN_LINE else None


def text_of(content):
    """The lines of a file as a text."""
    lines = (b"." + line if line.startswith(b".") else line for line in model.lines_of(content))
    return b"".join(line + b"\r\n" for line in lines) + b".\r\n"


def kind_of(name, content):
    name = name.lower()
    if name.endswith(b".gif"):
        return b"g"
    if name.endswith((b".png", b".jpg", b".jpeg")):
        return b"I"
    return b"9" if b"\0" in content else b"0"


def menu_of(lines):
    """Lines, each of type, display string, selector, host and port, as a menu."""
    return b"".join(b"%s%s\t%s\t%s\t%d\r\n" % line for line in lines) + b".\r\n"


class Site:
    """A site at a host and a port; without a crawl its searches find nothing."""

    def __init__(self, host, port, files):
        self.host, self.port, self.files = host, port, files
        self.crawl = model.Crawl(lambda place: False, [], 1, 1)
        folders = {b""}
        for path in files:
            names = path.split(b"/")[:-1]
            folders.update(b"/".join(names[:count]) for count in range(len(names) + 1))
        self.folders = folders
        self.replies = {b"/" + path: self.folder_reply(path) for path in folders}
        self.replies[b""] = self.replies[b"/"]
        for path, content in files.items():
            name = path.split(b"/")[-1]
            if name != b".menu":
                self.replies[b"/" + path] = text_of(content) if kind_of(name, content) == b"0" else content

    def made(self, kind, display, selector):
        return (kind, display, selector, self.host, self.port)

    def folder_reply(self, folder):
        front = folder + b"/" if folder else b""
        if front + b".menu" in self.files:
            return menu_of(map(self.owner_line, model.lines_of(self.files[front + b".menu"])))
        kinds = {path: b"1" for path in self.folders if path}
        kinds.update((path, kind_of(path.split(b"/")[-1], content)) for path, content in self.files.items())
        children = sorted(path for path in kinds if path.startswith(front) and b"/" not in path[len(front):])
        lines = [self.made(kinds[path], path[len(front):], b"/" + path) for path in children]
        return menu_of([self.made(b"7", b"Search", b"/search")] * (not folder) + lines)

    def owner_line(self, line):
        """A line of a `.menu` file, which has no bad one."""
        if b"\t" not in line:
            return self.made(b"i", line, b"")
        first, selector, *rest = line.split(b"\t")
        if not rest:
            return self.made(first[:1], first[1:], selector)
        host, port = rest
        return (first[:1], first[1:], selector, host.strip(b" "), int(port.strip(b" ")))

    def error(self, text):
        return menu_of([self.made(b"3", text, b"")])

    def search(self, text):
        try:
            hits = self.crawl.search(text)
        except model.Refused:
            return self.error(b"No words")
        return menu_of((kind, title, selector, host, port) for _, (host, port, selector, kind), title in hits)

    def answer(self, line):
        """The reply to a request line, given without its end."""
        selector, *fields = line.split(b"\t")
        if len(selector) > 255 or model.has(selector, b"\r\n\0"):
            return self.error(b"Bad request")
        if selector == b"/search":
            return self.search(fields[0] if fields else b"")
        return self.replies.get(selector, self.error(b"Not found"))

    def reply(self, sent):
        """All that is sent to a client who sends these bytes and ends its side."""
        line = line_of(sent)
        return b"" if line is None else self.answer(line)

    def finish_crawl(self, is_allowed, seeds, places):
        """Crawls the site itself by one worker, to the end."""
        self.crawl = crawl = model.Crawl(is_allowed, seeds, places, 1)
        while (number := crawl.claim()) is not None:
            place = crawl.known[number]
            reply = self.reply(place[2] + b"\r\n")
            if len(reply) <= MOST_CRAWLED:
                crawl.found(number, place, reply)
            else:
                crawl.fail(number)
