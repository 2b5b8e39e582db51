"""Folders and request lines that are drawn: what a folder may hold beside its files, files with odd lines and names, menus of
the owner's, and lines that ask for what is there, for what isn't, and for nothing that a server may give.
"""
import os

from drawn import drawing

FOLDERS = [b"docs", b"docs/sub", b"with space", b"\xc3\xa9t\xc3\xa9", b"a..b", b"docs/search", b"~", b"docs/sub/" + b"d" * 90]
NAMES = [
    b"a", b"b.txt", b"B.txt", b"with space.txt", b" lead", b"trail ", b"\xc3\xbcn\xc3\xafcode.txt", b"pic.GIF", b"photo.JpEg",
    b"x.png", b"y.jpg", b"z.jpeg", b"a.gif.txt", b"gif", b"Search", b"searches", b"a.menu", b"menu", b"%2e%2e",
    b"+", b"x;y&z", b"\x01\x7f", b"a.", b"n" * 150, b"m" * 254, b"\\", b"-", b"0", b"~x",
]
HIDDEN = [b".hidden", b".menu.txt", b"..x", b".a\nb", b"...", b".gif", b".config"]
KINDS = [b"0", b"1", b"0", b"1", b"7", b"h", b"i", b"9", b"\xff", b"T"]
SELECTORS = [
    b"", b"/", b"/a", b"/b.txt", b"/docs", b"/docs/sub", b"/search", b"/gone", b"/.hidden", b"URL:http://h.example/", b"s" * 255,
]
ENDS = [b"\n", b"\n", b"\n", b"\r\n", b"\r\n", b"\n\n", b"\r", b"\r\r\n", b"\n\r\n", b" \n"]
SECRET = b"nobody may read this\n"
NOWHERE = [
    b"..", b"/..", b"/../", b"/../secret.txt", b"../secret.txt", b"/docs/../secret.txt", b"/docs/../../secret.txt", b"/.",
    b"/./", b"/./a", b"//", b"//a", b"/a//b", b"/docs//a", b"/docs/", b"/docs/sub/", b"/.menu", b"/docs/.menu", b"/.hidden",
    b"/docs/.hidden", b"/.secrets/a", b"/...", b"/..x", b"/.gif", b"/search/", b"/Search", b"search", b"/searchx",
    b"/%2e%2e/secret.txt", b"/etc/passwd", b"../../../../etc/passwd", b"/proc/self/environ", b"a", b"docs", b"+", b"$",
    b"\xff\xfe", b"\0", b"/a\0", b"/a\0.txt", b"/.\0hidden", b"/a\r", b"/\ra", b"\r", b" ", b"/a ", b" /a",
    b"GET / HTTP/1.1", b"/b.TXT", b"/DOCS", b".", b"/pipe", b"/lost", b"/device", b"/through",
]


def content(draw):
    """The bytes of a file."""
    chance = draw.random()
    if chance < 0.08:
        return draw.choice([b"", b"\n", b"\r", b"\r\n", b".", b".\n", b"\0", b"..\r\n", b"\n\n"])
    if chance < 0.14:
        return draw.randbytes(draw.choice([1, 300, 65_534, 65_536, 70_000, 300_000]))
    lines = [draw.choice([b"", b"", b"", b".", b".."]) + drawing.some_words(draw, 6) for _ in range(draw.randrange(8))]
    whole = b"".join(line + draw.choice(ENDS) for line in lines)
    return whole + draw.choice([b"", b"last", b"last\r", b"."])


def owner_menu(draw, host, port):
    """A `.menu` file without a bad line."""
    lines = []
    for _ in range(draw.randrange(8)):
        text = drawing.some_words(draw, 3)
        first, selector = draw.choice(KINDS) + text, draw.choice(SELECTORS)
        own = [host, host, host, b"other.example"]
        spaces = b" " * draw.choice([0, 0, 1, 2])
        where = [spaces + draw.choice(own) + spaces, spaces + draw.choice([port, port, b"00070", b"0", b"65535"]) + spaces]
        lines.append(draw.choice([text, b".", b"", b"\t".join([first, selector]), b"\t".join([first, selector, *where])]))
    return b"".join(line + draw.choice([b"\n", b"\r\n"]) for line in lines) + draw.choice([b"", b"last"])


def draw_files(draw, host, port):
    """The files of a site, by their paths."""
    files = {}
    for folder in [b"", *draw.sample(FOLDERS, draw.randrange(5))]:
        front = folder + b"/" if folder else b""
        for name in draw.sample(NAMES, draw.randrange(1, 7)):
            if len(front + name) < 255:
                files[front + name] = content(draw)
        if draw.random() < 0.2:
            files[front + b".menu"] = owner_menu(draw, host, port)
    return files


def write(path, data):
    os.makedirs(os.path.dirname(path), exist_ok=True)
    with open(path, "wb") as file:
        file.write(data)


def lay_out(draw, root, outside, files):
    """Writes a site's files to its root, and beside them what isn't of the site; links add what they lead to to the files.

    Nothing of `outside` is of the site but what a link leads to.
    """
    for path, data in files.items():
        write(root + b"/" + path, data)
    write(outside + b"/secret.txt", SECRET)
    write(outside + b"/shared/one.txt", b"shared\n")
    write(outside + b"/shared/.two", SECRET)
    write(root + b"/.secrets/a", SECRET)
    for name in draw.sample(HIDDEN, 4):
        write(root + b"/" + name, SECRET)
    os.makedirs(root + b"/empty/nested", exist_ok=True)
    os.mkfifo(root + b"/pipe")
    os.symlink(b"nowhere", root + b"/lost")
    os.symlink(b"/dev/null", root + b"/device")
    os.symlink(b"../outside/secret.txt/x", root + b"/through")
    if draw.random() < 0.5:
        write(outside + b"/given.txt", b"given by the owner\n")
        os.symlink(outside + b"/given.txt", root + b"/given")
        os.symlink(b"../outside/shared", root + b"/shared")
        files |= {b"given": b"given by the owner\n", b"shared/one.txt": b"shared\n"}
    if draw.random() < 0.3:
        write(root + b"/.kept", b"kept under a hidden name\n")
        os.symlink(b".kept", root + b"/kept")
        files[b"kept"] = b"kept under a hidden name\n"
    return files


def changed(draw, selector):
    """A selector that is nearly another."""
    at = draw.randrange(len(selector) + 1)
    odd = bytes([draw.randrange(256)]).replace(b"\n", b"\r")
    return draw.choice([
        selector + b"/", selector + b"//", selector.replace(b"/", b"//"), selector[1:], selector[:-1], selector.upper(),
        selector + b"/..", b"/.." + selector, b"/." + selector, selector + b"/.", selector[:at] + odd + selector[at:],
        selector[:at] + selector[at + 1:], selector + b"\0", selector.replace(b"/", b"/."), selector.replace(b" ", b"%20"),
        selector + b"/" + selector, selector * 2, selector.replace(b"/", b"\\"),
    ])


def selector_of(draw, known):
    chance = draw.random()
    if chance < 0.4:
        return draw.choice(known)
    if chance < 0.65:
        return changed(draw, draw.choice(known))
    if chance < 0.93:
        return draw.choice(NOWHERE)
    return b"/" + b"l" * draw.choice([252, 253, 254, 255, 256, 1000, 1020, 1021, 1022, 1023, 1024, 1025, 1026, 2000, 9000])


def search_of(draw, words):
    """A search line of a few words, or none; some at the limit of a line."""
    chosen = [word + b"*" * (draw.random() < 0.2) for word in draw.choices(words, k=draw.randrange(5))]
    text = drawing.spaced(draw, chosen)
    text = draw.choice([text, text, text, text.upper(), text.swapcase(), drawing.question(draw), text + b"\0", b"\r" + text])
    if draw.random() < 0.06:
        text = text.ljust(draw.choice([1014, 1015, 1016, 1017, 1018]), draw.choice([b" ", b"x"]))
    return b"/search\t" + text.replace(b"\t", b" ")


def request(draw, known, words):
    """The bytes that a client sends before it ends its side."""
    if draw.random() < 0.25:
        line = search_of(draw, words)
    else:
        line = selector_of(draw, known)
        line += draw.choice([b""] * 6 + [b"\t", b"\t+", b"\t$", b"\tmoon", b"\t\t", b"\tx\0y", b"\t" + b"z" * 1020])
    line += draw.choice([b""] * 9 + [b"\tmore"])
    end = draw.choice([b"\r\n"] * 12 + [b"\n"] * 3 + [b"", b"\r", b"\r\r\n", b"\n\n", b"\r\n/a\r\n", b"\r\n" + b"x" * 6000])
    return line + end
