#!/usr/bin/env python3
"""Tests tools/gophermap_to_menu.py on worked gophermaps and link files, on a planted site, and on drawn ones for lines that this
server would refuse. Tests examples/publish.sh too.
"""
import os
import pathlib
import random
import re
import subprocess
import sys
import tempfile
import unittest
from unittest import mock

TOOLS = pathlib.Path(__file__).resolve().parent
sys.path.insert(0, str(TOOLS))
import gophermap_to_menu

TOOL = TOOLS / "gophermap_to_menu.py"
LISTED = "changed: this is the folder's listing of now, which doesn't change with the folder"
NOTHING, REFUSED = "names nothing that is served", "a name that this server refuses"
FINDS, NO_HOST = "1: changed: it leads to this server's search", "1: changed: it has no host, and leads to this server"
LONG = "1: left out: its selector has more than 255 bytes"
SITE = {
    "a.txt": b"hello\n", "picture.PNG": b"P", "data": b"\0", ".hidden": b"x", "docs/b.txt": b"b\n", "docs/.secret": b"x",
    "docs/part": b"of a part\n0B\tb.txt\n*\nnever shown\n", ".run": b"#!/bin/sh\n", ".round": b"again\n=.round\n",
}
# a gophermap of the root; the lines of its menu, or None; and what is told
MAPS = (
    (b"Welcome\r\n\n  two spaces\n# gone\n1no TAB", b"Welcome\n\n  two spaces\n1no TAB"),
    (b"!My site", b"iMy site\tTITLE"),
    (b"shown\n...\nnever shown", b"shown"),
    (b"0A\ta.txt", b"0A\t/a.txt"),
    (b"0a.txt\t", b"0a.txt\t/a.txt"),
    (b"0A\t/a.txt\t\t70", b"0A\t/a.txt", NO_HOST),
    (b"1Far\t/x\th.example", b"1Far\t/x\th.example\t70"),
    (b"1Far\t/x\th.example\t7070", b"1Far\t/x\th.example\t7070"),
    (b"1Far\t/x\th\t70\t+", b"1Far\t/x\th\t70", "1: changed: fields behind the port are left out"),
    (b"1Its root\t\th.example", b"1Its root\t\th.example\t70"),
    (b"7Find\t", b"7Find\t/search", FINDS),
    (b"7Find\t\t\t70", b"7Find\t/search", FINDS, NO_HOST),
    (b"7Find\t/search", b"7Find\t/search"),
    (b"7Far\t\th.example\t70", b"7Far\t\th.example\t70"),
    (b"7Query\t/query", b"7Query\t/query", "1: /query is no search: this server's is /search"),
    (b"1Home\t/", b"1Home\t"),
    (b"1Home\t/./\n1Home\t//", b"1Home\t\n1Home\t"),
    (b"0Escaped\t/a#056txt\n0Escaped\tdocs%2Fb%2etxt", b"0Escaped\t/a.txt\n0Escaped\t/docs/b.txt"),
    (b"0Typed\t0/a.txt\n1Typed\t1/docs/", b"0Typed\t/a.txt\n1Typed\t/docs"),
    (b"1Typed\t0/docs", b"1Typed\t/0/docs", f"1: /0/docs {NOTHING}"),
    (b"a\n-----\nb", b"a\nb", "2: left out: such a line hides a file in gophernicus"),
    (b"hWeb\tURL:http://h/", b"hWeb\tURL:http://h/"),
    (b"iText\tfake", b"iText\tfake"),
    (b"3Wrong\tx", b"3Wrong\tx"),
    (b"0Finger\tuser\th\t79", b"0Finger\tuser\th\t79"),
    (b"0Gone\tgone.txt", b"0Gone\t/gone.txt", f"1: /gone.txt {NOTHING}"),
    (b"0Hidden\t.hidden", b"0Hidden\t/.hidden", f"1: /.hidden {NOTHING}"),
    (b"1Empty\tempty", b"1Empty\t/empty", f"1: /empty {NOTHING}"),
    (b"Files:\n-data\n*\nnever shown", b"Files:\n1docs\t/docs\n0a.txt\t/a.txt\nIpicture.PNG\t/picture.PNG", f"3: {LISTED}"),
    (b"before\n=docs/part\nafter", b"before\nof a part\n0B\t/b.txt\nafter", f"docs/part:2: /b.txt {NOTHING}"),
    (b"=.round", b"\n".join([b"again"] * 7), ".round:2: left out: it is included too deep"),
    (b"=.run", None, "1: left out: a script"),
    (b"=gone", None, "1: left out: no file to include"),
    (b"=docs", None, "1: left out: no file to include"),
    (b":txt=1", None, "1: left out: a file's type can't be set"),
    (b"~", None, "1: left out: there are no users' folders"),
    (b"%", None, "1: left out: there is one host"),
    (b"\tno type", None, "1: left out: it has no type"),
    (b" \tno type", None, "1: left out: it has no type"),
    (b"1A\t/a\th h", None, "1: left out: its host isn't one"),
    (b"1A\t/a\th\t70x", None, "1: left out: its port isn't one"),
    (b"1A\t/a\th\t65536", None, "1: left out: its port isn't one"),
    (b"1A\t/a\th\t" + b"9" * 5_000, None, "1: left out: its port isn't one"),
    (b"te\rxt", None, "1: left out: it holds a CR or a NUL"),
    (b"te\0xt", None, "1: left out: it holds a CR or a NUL"),
    (b"1A\t/" + b"a" * 255 + b"\th", None, LONG),
    (b"1A\t/" + b"a" * 255, None, f"1: /{'a' * 255} {NOTHING}", LONG),
)
# selectors in a gophermap of docs, and what they become
IN_DOCS = (
    (b"b.txt", b"/docs/b.txt"), (b"./b.txt", b"/docs/b.txt"), (b"../a.txt", b"/a.txt"), (b"/a.txt", b"/a.txt"), (b"..", b""),
    (b"/docs/", b"/docs"), (b"//docs", b"/docs"),
)
# lines of a gophermap of docs on the site gopher.example.org, port 7070, and what they become
OF_THE_SITE = (
    (b"1A\t/docs/\tgopher.example.org\t7070", b"1A\t/docs"), (b"1A\tdocs\tGopher.Example.Org", b"1A\t/docs"),
    (b"1A\t\tgopher.example.org\t7070", b"1A\t"), (b"7A\t/search/\tgopher.example.org\t07070", b"7A\t/search"),
    (b"hA\tURL:http://h/\tgopher.example.org", b"hA\tURL:http://h/"), (b"iA\tfake\tgopher.example.org", b"iA\tfake"),
    (b"1A\t/docs/\tgopher.example.org\t70", b"1A\t/docs/\tgopher.example.org\t70"),
    (b"1A\t/docs/\texample.org", b"1A\t/docs/\texample.org\t7070"),
)
# what is shown; a link file of the root, or of `docs` if the name says so; its menu; and what is told below the listing
LINKS = (
    (
        "order among the listing, as UMN gopherd has it: positive numbers, names, negative numbers",
        b"Name=Last\nType=1\nPath=/x\nHost=h.example\nPort=7070\nNumb=-1\n\n"
        b"Name=Before the last\nNumb=-2\nType=0\nPath=0/x\nHost=h.example\nPort=70\n\n"
        b"Name=Second\nNumb=2\nPath=./a.txt\n\n"
        b"# a comment\nName=First\nType=1\nNumb=1\nPath=./docs\nHost=+\nPort=+\n\n"
        b"Name=m\nType=h\nPath=URL:http://h.example/\n",
        b"1First\t/docs\n0Second\t/a.txt\n9data\t/data\nhm\tURL:http://h.example/\nIpicture.PNG\t/picture.PNG\n"
        b"0Before the last\t0/x\th.example\t70\n1Last\t/x\th.example\t7070\n", (),
    ),
    ("hiding and renaming in docs", b"Type=X\nPath=./b.txt\n\nName=A part\nType=9\nPath=./part\n", b"9A part\t/docs/part\n", ()),
    (
        "paths from docs", b"Type=X\nPath=./b.txt\n\nType=X\nPath=~/part\n\nName=B\nPath=b.txt\n\nName=A\nPath=/a.txt\n",
        b"0A\t/a.txt\n0B\t/docs/b.txt\n", (),
    ),
    (
        "no counterpart",
        b"".join(b"Type=X\nPath=./%s\n\n" % name for name in (b"a.txt", b"data", b"docs", b"picture.PNG"))
        + b"Name=No path\n\nName=A\nPath=/a.txt\nAbstract=about it\nNumb=many\n\nPath=/gone\nPort=7070\n\n"
        b"Type=X\nPath=/a.txt\n\nName=F\nPath=/x\nHost=h h\n# an end\nName=T\tT\nPath=/a.txt\n",
        b"0/a.txt\t/a.txt\n0/gone\t/gone\n0A\t/a.txt\n",
        (
            "13: left out: it has no Path", "17: left out: Abstract has no counterpart", "18: left out: Numb isn't a number",
            "30: left out: it holds a TAB, a CR or a NUL", "23: left out: it hides what the folder doesn't have",
            "20: changed: it has a port and no host, and leads to this server", f"20: /gone {NOTHING}",
            "26: left out: its host isn't one",
        ),
    ),
)
# a site of gophernicus and pygopherd, with one of each that isn't carried over; the menus of its folders; and what is told
PLANTED = {
    "gophermap": b"!A site\n1Home\t/\n1Music\tmusic/\n1Phlog\t/phlog/\n0Note\t/two%20words/a#040note.txt\n*\n",
    "motd.txt": b"m\n", "caf\u00e9.txt": b"c\n", "two words/a note.txt": b"n\n", "music/song.txt": b"s\n",
    "phlog/gophermap": b"My phlog\n1Up\t..\n-drafts\n*\n", "phlog/gophertag": b"A phlog\n", "phlog/2026-11-01.txt": b"p\n",
    "phlog/drafts/d.txt": b"d\n", "music/old/gophertag": b"Old songs\n", "music/old/song.txt": b"s\n",
    "status/gophermap": b"#!/bin/sh\nuptime\n", "news/more.gophermap": b"1More\t/more\n", "news/a.txt": b"a\n",
    "far/.Links": b"Name=Far\nType=1\nPath=/x\nHost=h.example\nPort=70\nNumb=1\n", "far/.names": b"Name=Our own\nPath=./own.txt\n",
    "far/.cap/own.txt": b"Name=Own\n", "far/own.txt": b"o\n", "far/.notes": b"nothing of a link\n", "hand/gophermap": b"text\n",
    "hand/.menu": b"by hand\n", "only/.Links": b"Name=Song\nPath=/music/song.txt\n", "both/gophermap": b"*\n",
    "both/.Links": b"Path=/x\n", "both/.cap/x": b"Name=X\n", "both/tab\tname": b"x\n",
}
MENUS = {
    "": b"iA site\tTITLE\n1Home\t\n1Music\t/music\n1Phlog\t/phlog\n0Note\t/two words/a note.txt\n"
    b"1again\t/again\n1both\t/both\n1broken\t/broken\n1elsewhere\t/elsewhere\n1far\t/far\n1hand\t/hand\n"
    b"1music\t/music\n1news\t/news\n1only\t/only\n1A phlog\t/phlog\n1status\t/status\n1texts\t/texts\n"
    b"1two words\t/two words\n"
    b"0caf\xc3\xa9.txt\t/caf\xc3\xa9.txt\n0motd.txt\t/motd.txt\n",
    "phlog": b"My phlog\n1Up\t\n02026-11-01.txt\t/phlog/2026-11-01.txt\n", "far": b"1Far\t/x\th.example\t70\n0Our own\t/far/own.txt\n",
    "hand": b"by hand\n", "only": b"0Song\t/music/song.txt\n", "both": b"",
}
MAY_GO = ["gophermap", "both/gophermap", "far/.Links", "far/.names", "only/.Links", "phlog/gophermap", "phlog/gophertag"]
INLINE = "gophernicus shows its lines in the folder's listing: include it in a gophermap, by the line =more.gophermap"
NO_TAG = "no converted menu has this name for its folder: write it into the .menu of the folder above"
LEFT = (
    "both/.Links: left: the folder's gophermap comes first", "broken/gophermap: left: No such file or directory",
    "elsewhere: left: a link out of the folder that is served, behind which nothing is converted",
    "far/.cap: left: its names aren't read: write them into a link file, each below a line Path=./FILE",
    "hand/.menu: left: it was written or changed by hand (--force replaces it)", f"music/old/gophertag: left: {NO_TAG}",
    f"news/more.gophermap: left: {INLINE}",
    "status/gophermap: left: it is a script (chmod -x it if it isn't)",
)
# what gophernicus publishes for places of that site, and what this server answers
ALIASES = {
    "/both/": "/both", "/far/": "/far", "/hand/": "/hand", "/music/": "/music", "/music/old/": "/music/old", "/news/": "/news",
    "/only/": "/only", "/phlog/": "/phlog", "/phlog/drafts/": "/phlog/drafts", "/status/": "/status", "/two words/": "/two words",
    "/two#040words/": "/two words", "/two words/a#040note.txt": "/two words/a note.txt", "/caf#303#251.txt": "/caf\u00e9.txt",
    "/two%20words/a#040note.txt": "/two words/a note.txt", "/broken/": "/broken", "/elsewhere/": "/elsewhere",
    "/again/": "/again", "/again/old/": "/again/old", "/texts/": "/texts",
}
# some that it accepts too
ACCEPTED = {
    "1/": "", "1/music": "/music", "1/music/": "/music", "music": "/music", "music/": "/music", "0/music/song.txt": "/music/song.txt",
    "/two%20words/a%20note.txt": "/two words/a note.txt", "/two#040words/a#040note.txt": "/two words/a note.txt",
}
# the gophermap of a phlog and its menu, without the listing
MY_PHLOG, MY_MENU = b"My phlog\n1Home\t/\tgopher.example.org\t7070\n", b"My phlog\n1Home\t\n"
PIECES = (
    b"\t", b"\t", b"\t", b"\t", b"1", b"0", b"i", b"h", b"a", b" ", b"/", b"/docs", b"..", b"h.example", b"70", b"65536", b"\r",
    b"\0", b"=", b"=docs/part", b"-a.txt", b":a=b", b"~", b"%", b"!", b"#", b"x" * 256, b"\xff", b"\x7f", b"URL:http://a/",
)
KEYS = (b"Path=", b"Path=./", b"Name=", b"Type=", b"Host=", b"Port=", b"Numb=", b"#", b"")


def is_menu_line(line):
    """Whether a line of a `.menu` file is none that is refused with 24 (docs/SPECIFICATION.md, sections 3 and 9)."""
    fields = line.split(b"\t")
    if any(byte in line for byte in b"\r\0") or len(fields) not in (1, 2, 4):
        return False
    if len(fields) == 1:
        return True
    kind, selector = fields[0][:1], fields[1]
    if not kind or kind[0] <= 32 or kind in (b".", b"\x7f") or len(selector) > 255:
        return False
    if len(fields) == 2:
        return True
    host, port = (field.strip(b" ") for field in fields[2:])
    is_host = 1 <= len(host) <= 255 and not any(byte <= 32 or byte == 127 for byte in host)
    return is_host and port.isdigit() and int(port) <= 65535


def write(root, files):
    for path, content in files.items():
        (root / path).parent.mkdir(parents=True, exist_ok=True)
        (root / path).write_bytes(content)


def run(*words, **how):
    return subprocess.run([str(word) for word in words], capture_output=True, **how)


class GophermapToMenu(unittest.TestCase):
    def setUp(self):
        self.addCleanup(os.umask, os.umask(0o022))
        self.root = pathlib.Path(self.enterContext(tempfile.TemporaryDirectory()))
        self.write(SITE)
        (self.root / "empty").mkdir()
        (self.root / ".run").chmod(0o755)

    def write(self, files):
        write(self.root, files)

    def menu(self, path, root, *address):
        return gophermap_to_menu.menu_of([os.fsencode(path)], gophermap_to_menu.Site(os.fsencode(root), *address))

    def made(self, content, file="gophermap", *address):
        """The menu that is made of a gophermap or a link file, and what is told, without the path before it."""
        path = self.root / file
        path.write_bytes(content)
        menu = self.menu(path, self.root, *address)
        told = [line.decode().replace(f"{path}:", "").replace(f"{self.root}/", "") for line in menu.told]
        path.unlink()
        return menu.content(), told

    def test_worked_gophermaps(self):
        for content, lines, *told in MAPS:
            self.assertEqual(self.made(content), (b"" if lines is None else lines + b"\n", told))
        for selector, own in IN_DOCS:
            self.assertEqual(self.made(b"0A\t" + selector, "docs/gophermap"), (b"0A\t%s\n" % own, []))
        for line, own in OF_THE_SITE:
            self.assertEqual(self.made(line, "docs/gophermap", b"7070", b"gopher.example.org"), (own + b"\n", []))

    def test_worked_link_files(self):
        for what, content, menu, told in LINKS:
            self.assertEqual(self.made(content, "docs/.Links" if "docs" in what else ".Links"), (menu, [f"1: {LISTED}", *told]), what)

    def test_the_sites_own_port_in_a_link_file(self):
        self.assertIn(b"0Far\t/x\th.example\t7070\n", self.made(b"Name=Far\nPath=/x\nHost=h.example\n", ".Links", b"7070")[0])

    def test_names_of_folders_by_their_tags(self):
        self.write({"docs/gophertag": b"All the\tdocuments\r\nmore\n", "blank/gophertag": b"\n", "docs/gophertag.txt": b"x"})
        self.write({"gophertag/gophertag": b"A folder of that name"})
        wanted = b"1blank\t/blank\n1All the documents\t/docs\n1A folder of that name\t/gophertag\n"
        self.assertEqual(self.made(b"-a.txt\n-data\n-picture.PNG\n*\n"), (wanted, [f"4: {LISTED}"]))
        wanted = b"0b.txt\t/docs/b.txt\n0gophertag.txt\t/docs/gophertag.txt\n0part\t/docs/part\n"
        self.assertEqual(self.made(b"*\n", "docs/gophermap"), (wanted, [f"1: {LISTED}"]))

    def test_a_listing_leaves_out_what_the_server_refuses(self):
        self.write({"docs/tab\tname": b"x", "docs/more.gophermap": b"x"})
        os.rename(self.root / "data", os.fsencode(self.root) + b"/docs/\xff")
        told = ["more.gophermap, whose lines gophernicus would show here", f"tab\tname, {REFUSED}", f"\\xff, {REFUSED}"]
        wanted = b"0b.txt\t/docs/b.txt\n0part\t/docs/part\n", [f"1: {LISTED}", *(f"1: left out: {line}" for line in told)]
        self.assertEqual(self.made(b"*\n", "docs/gophermap"), wanted)

    def test_a_gophermap_lists_what_everybody_may_read(self):
        (self.root / "docs/b.txt").chmod(0o640)
        told = [f"1: {LISTED}", "1: left out: b.txt, which not everybody may read"]
        self.assertEqual(self.made(b"*\n", "docs/gophermap"), (b"0part\t/docs/part\n", told))

    def test_what_makes_no_menu(self):
        path = self.root / "gophermap"
        with self.assertRaises(FileNotFoundError):
            self.menu(path, self.root)
        self.write({"gophermap": b"text\n", "docs/.cap/b.txt": b"Name=B\n"})
        for path, mode, root in (("gophermap", 0o755, ""), ("gophermap", 0o644, "docs"), ("docs/.cap/b.txt", 0o644, "")):
            (self.root / path).chmod(mode)
            with self.assertRaises(gophermap_to_menu.Refused):
                self.menu(self.root / path, self.root / root)

    def test_the_program(self):
        path = self.root / "map"
        self.write({"map": b"Hello\n~\n0A\ta.txt\n", "far": b"1Far\t/x\th.example\n"})
        for words, wanted in (
            ([path], (b"Hello\n0A\t/a.txt\n", f"{path}:2: left out: there are no users' folders\n".encode(), 0)),
            ([f"{path}x"], (b"", f"{path}x: No such file or directory\n".encode(), 1)),
            (["--port", "7070", self.root / "far"], (b"1Far\t/x\th.example\t7070\n", b"", 0)),
        ):
            ran = run(sys.executable, TOOL, *words)
            self.assertEqual((ran.stdout, ran.stderr, ran.returncode), wanted)
        for words in ([], ["--site", self.root, path], ["--aliases", "a", path], ["--site", self.root, "--all-spellings"]):
            self.assertEqual(run(sys.executable, TOOL, *words).returncode, 2, words)
        self.assertEqual(run(sys.executable, TOOL, "--site", path).returncode, 1)

    def test_drawn_files_make_lines_that_are_not_refused(self):
        draw = random.Random("gophermaps")
        maps = (b"".join(draw.choices(PIECES, k=draw.randrange(9))) + b"\n" for _ in range(3_000))
        links = (draw.choice(KEYS) + b"".join(draw.choices(PIECES, k=draw.randrange(3))) + b"\n" for _ in range(5_000))
        for name, drawn in (("gophermap", (line for line in maps if not line.startswith(b"."))), (".Links", links)):
            lines = self.made(b"".join(drawn), name)[0].split(b"\n")[:-1]
            self.assertEqual([line for line in lines if not is_menu_line(line)], [])
            self.assertGreater(sum(b"\t" in line for line in lines), 100)

    def test_escapes_are_read_as_they_are_written(self):
        draw = random.Random("escapes")
        for _ in range(300):
            name = bytes(draw.choices(range(1, 256), k=draw.randrange(20)))
            self.assertEqual(gophermap_to_menu.decoded(gophermap_to_menu.escaped(name)), name)
        self.assertEqual(gophermap_to_menu.escaped(b"a b+~\x7f#"), b"a#040b+~#177#043")


class Sites(unittest.TestCase):
    def setUp(self):
        self.addCleanup(os.umask, os.umask(0o022))
        self.room = pathlib.Path(self.enterContext(tempfile.TemporaryDirectory()))
        self.root = self.room / "site"
        (self.room / "bin").mkdir()
        (self.room / "bin/gophermap_to_menu").symlink_to(TOOL)
        self.environment = {**os.environ, "PATH": f"{self.room}/bin:{os.environ['PATH']}"}

    def plant(self):
        write(self.root, PLANTED)
        write(self.room, {"outside/gophermap": b"text\n"})
        (self.root / "status/gophermap").chmod(0o755)
        write(self.root, {"broken/a.txt": b"a\n"})
        (self.root / "broken/gophermap").symlink_to("gone")
        (self.root / "elsewhere").symlink_to(self.room / "outside")
        write(self.room, {"texts/a.txt": b"a\n"})
        (self.root / "texts").symlink_to(self.room / "texts")
        (self.root / "news/gone.gophermap").symlink_to("gone")
        (self.root / "again").symlink_to("music")
        (self.root / ".tools").mkdir()

    def convert(self, *words):
        """The status, the files that may go, and what is left."""
        ran = run(sys.executable, TOOL, "--site", self.root, *words)
        said, may_go = (part.decode().replace(f"{self.root}/", "").split("\n")[:-1] for part in (ran.stderr, ran.stdout))
        return ran.returncode, may_go, [line for line in said if ": left: " in line]

    def menus(self):
        return {str(path.parent.relative_to(self.root)).strip("."): path.read_bytes() for path in self.root.rglob(".menu")}

    def test_a_planted_site(self):
        self.plant()
        found = self.convert("--aliases", self.room / "aliases")
        self.assertEqual((found[0], found[1], sorted(found[2])), (3, MAY_GO, sorted(LEFT)))
        self.assertEqual(self.menus(), MENUS)
        lines = dict(line.split("\t") for line in (self.room / "aliases").read_text().split("\n")[:-1])
        self.assertEqual(lines, ALIASES)
        self.assertEqual([*self.root.rglob("*.new"), *self.root.rglob("gone")], [])
        self.assertFalse((self.room / "outside/.menu").exists())

    def test_more_spellings(self):
        self.plant()
        self.convert("--aliases", self.room / "aliases", "--all-spellings")
        lines = dict(line.split("\t") for line in (self.room / "aliases").read_text().split("\n")[:-1])
        self.assertEqual(lines, lines | ALIASES | ACCEPTED)
        self.assertEqual([selector for selector in lines.values() if selector[1:] in MAY_GO], [])

    def test_menus_by_hand_stay(self):
        write(self.root, {"gophermap": b"one\n", "docs/gophermap": b"two\n"})
        self.assertEqual(self.convert(), (0, ["gophermap", "docs/gophermap"], []))
        write(self.root, {"docs/gophermap": b"three\n"})
        self.assertEqual(self.convert()[0], 0)
        self.assertEqual(self.menus(), {"": b"one\n", "docs": b"three\n"})
        write(self.root, {"docs/.menu": b"by hand\n"})
        told = ["docs/.menu: left: it was written or changed by hand (--force replaces it)"]
        self.assertEqual(self.convert(), (3, ["gophermap"], told))
        self.assertEqual(self.menus(), {"": b"one\n", "docs": b"by hand\n"})
        self.assertEqual(self.convert("--force"), (0, ["gophermap", "docs/gophermap"], []))
        self.assertEqual(self.menus(), {"": b"one\n", "docs": b"three\n"})
        (self.root / ".menus.sha256").unlink()
        self.assertEqual(self.convert()[0], 0)

    def test_a_map_that_is_included_may_go(self):
        write(self.root, {"gophermap": b"=head.gophermap\n", "head.gophermap": b"0A\ta.txt\n", "a.txt": b"a\n"})
        self.assertEqual(self.convert(), (0, ["gophermap", "head.gophermap"], []))

    def test_a_fault_in_one_folder_stops_no_other(self):
        write(self.root, {"a/gophermap": b"a\n", "b/gophermap": b"b\n", "a/.menu/x": b"", "a/a.txt": b"a\n"})
        self.assertEqual(self.convert("--aliases", self.room), (3, ["b/gophermap"], [
            "a/.menu: left: Is a directory", f"{self.room}: left: Is a directory"]))
        self.assertEqual((self.root / "b/.menu").read_bytes(), b"b\n")

    def test_aliases_have_the_form_that_the_server_reads(self):
        draw, lines = random.Random("aliases"), 0
        for _ in range(60):
            names = ["".join(draw.choices("a #/%\u00e9+\\0", k=draw.randrange(1, 6))).strip("/") or "x" for _ in range(12)]
            root = self.room / draw.randbytes(8).hex()
            for name in names:
                if not any((root / above).is_file() for above in pathlib.Path(name).parents) and not (root / name).exists():
                    write(root, {name: b"x"})
            site = gophermap_to_menu.Site(os.fsencode(root))
            aliases = gophermap_to_menu.Aliases(site, {})
            aliases.add_listed()
            aliases.add_accepted()
            served = {b"", b"/", b"/search", *(selector for selector, _ in site.places())}
            for line in aliases.content().split(b"\n")[:-1]:
                old, selector = line.split(b"\t")
                self.assertTrue(old and not old.startswith(b"#") and old not in served and selector in served, line)
                lines += 1
        self.assertGreater(lines, 1000)

    def test_aliases_stay_below_the_servers_limits(self):
        write(self.root, {f"{'n' * 200}/{name}.txt": b"x" for name in (" " * 20, "a", "b b", "c c")})
        site = gophermap_to_menu.Site(os.fsencode(self.root))
        for limit, kept, left in ((2_000, 3, 0), (900, 2, 1)):
            with mock.patch.object(gophermap_to_menu, "MOST_OF_ALIASES", limit):
                aliases = gophermap_to_menu.Aliases(site, {})
                aliases.add_listed()
            self.assertEqual((len(aliases.kept), aliases.left, len(aliases.content()) <= limit), (kept, left, True))

    def test_the_commands_of_the_documents_convert_a_copy(self):
        page = (TOOLS.parent / "docs/OPERATING.md").read_text().split("\n## 9. ")[1].split("\n## ")[0]
        commands = "\n".join(re.findall(r"(?m)^ {4}(.*)$", page)[:3])
        for old, new in (("/srv/gopher", self.room / "old"), ("/srv/hole", self.root), ("/etc/hole", self.room)):
            self.assertIn(old, commands)
            commands = commands.replace(old, str(new))
        write(self.room, {"old/gophermap": b"Files:\n*\n", "old/docs/gophermap": b"*\n", "old/docs/a.txt": b"a\n"})
        ran = run("sh", "-ec", commands, cwd=self.room, env=self.environment)
        self.assertEqual((ran.returncode, sorted(path.name for path in self.root.rglob("*") if path.is_file())), (
            0, [".menu", ".menu", ".menus.sha256", "a.txt"]), ran.stderr)
        self.assertEqual(self.menus(), {"": b"Files:\n1docs\t/docs\n", "docs": b"0a.txt\t/docs/a.txt\n"})
        self.assertEqual((self.room / "aliases").read_text(), "/docs/\t/docs\n")


class Publishing(unittest.TestCase):
    """examples/publish.sh, with a `hole` that finds a site sound if its root has no file `draft`."""

    def setUp(self):
        self.addCleanup(os.umask, os.umask(0o022))
        self.room = pathlib.Path(self.enterContext(tempfile.TemporaryDirectory()))
        self.site = self.room / "site"
        write(self.room, {"bin/hole": f'#!/bin/sh\n[ "$*" = "check hole.toml" ] && [ ! -e "{self.site}/draft" ]\n'.encode()})
        (self.room / "bin/hole").chmod(0o755)
        (self.room / "bin/gophermap_to_menu").symlink_to(TOOL)
        write(self.room, {"phlog/gophermap": MY_PHLOG + b"*\n", "phlog/one.txt": b"1\n", "phlog/private.txt": b"p\n"})
        (self.room / "phlog/private.txt").chmod(0o600)

    def publish(self, *command):
        path = f"{self.room}/bin:{os.environ['PATH']}"
        environment = {**os.environ, "PATH": path, "SITE_HOST": "gopher.example.org", "SITE_PORT": "7070"}
        words = ("sh", TOOLS.parent / "examples/publish.sh", "phlog", self.site, "hole.toml", *command)
        return run(*words, cwd=self.room, env=environment).returncode

    def files(self):
        return sorted(path.name for path in self.site.iterdir() if path.name != ".menus.sha256")

    def copies(self):
        return [path.name for path in self.room.iterdir() if path.name.startswith("site.")]

    def test_each_change_is_listed_anew(self):
        self.assertEqual(self.publish("touch", "restarted"), 0)
        self.assertTrue((self.room / "restarted").exists())
        self.assertEqual(((self.site / ".menu").read_bytes(), self.files()), (MY_MENU + b"0one.txt\t/one.txt\n", [".menu", "one.txt"]))
        write(self.room, {"phlog/two.txt": b"2\n"})
        (self.room / "phlog/one.txt").unlink()
        self.assertEqual((self.publish(), self.files()), (0, [".menu", "two.txt"]))
        self.assertEqual((self.site / ".menu").read_bytes(), MY_MENU + b"0two.txt\t/two.txt\n")
        self.assertEqual(self.copies(), [os.readlink(self.site)])
        self.assertEqual((self.room / "phlog/gophermap").read_bytes(), MY_PHLOG + b"*\n")

    def test_a_site_that_is_not_sound_changes_nothing(self):
        write(self.room, {"phlog/draft": b"d\n"})
        self.assertEqual((self.publish("touch", "restarted"), self.site.is_symlink(), self.copies()), (1, False, []))
        (self.room / "phlog/draft").rename(self.room / "draft")
        self.assertEqual(self.publish(), 0)
        before = os.readlink(self.site)
        (self.room / "draft").rename(self.room / "phlog/draft")
        self.assertEqual((self.publish("touch", "restarted"), os.readlink(self.site), self.copies()), (1, before, [before]))
        self.assertFalse((self.room / "restarted").exists())

    def test_what_links_lead_to_is_copied(self):
        write(self.room, {"elsewhere/gophermap": b"far\n"})
        (self.room / "phlog/far").symlink_to("../elsewhere")
        self.assertEqual((self.publish(), self.files()), (0, [".menu", "far", "one.txt"]))
        self.assertEqual((self.site / "far/.menu").read_bytes(), b"far\n")
        self.assertEqual([path.name for path in (self.room / "elsewhere").iterdir()], ["gophermap"])

    def test_a_folder_stays(self):
        write(self.room, {"site/a.txt": b"a\n"})
        self.assertEqual((self.publish(), self.copies(), self.files()), (1, [], ["a.txt"]))


if __name__ == "__main__":
    unittest.main()
