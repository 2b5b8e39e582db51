#!/usr/bin/env python3
"""Makes the `.menu` files of a site of its gophermaps, as gophernicus 3.1 has them, or of its link files, as pygopherd has them.

    gophermap_to_menu --site FOLDER [--aliases FILE] > converted
    gophermap_to_menu [--root FOLDER] FILE > .menu.new && mv .menu.new .menu

FOLDER is the folder that is served, from which selectors count. With `--site`, each of its folders gets a `.menu`, of its gophermap
or of all its link files; standard output lists the files that may go. Otherwise the `.menu` (SPECIFICATION.md, section 9) of one
FILE goes to standard output; a name that begins with a period is a link file's. Standard error tells what is left out or changed,
and what a client won't find. The manual has the options and the status; OPERATING.md, section 9, tells what becomes of what. Beyond
that:

- A line that this server would refuse (24) is left out.
- A line stays if its selector names nothing that is served; that is told. Selectors of lines of type i and 3, and those that
  begin with `URL:`, stay as they are. The root has the empty selector.
- A selector that names nothing as it is written is tried without the escapes `#040` and `%20`, and without a type before its slash.
- Selectors in an included file count from the gophermap's folder. Files may include others, eight files deep. `*` in an included
  file ends it and lists nothing. A line that begins with `.` ends its file.
- An empty line ends an entry of a link file, and so does a `#` line behind a `Path=` line. Entries with a positive `Numb=` come
  first, by that number; then those without and the listing, by name; then those with a negative one. `Path=./NAME` of a listed
  name changes its line; other paths are lines of their own.
- Folders behind links aren't converted: that would change what lies outside of the site, or twice what lies inside.
"""
import argparse
import errno
import hashlib
import itertools
import os
import re
import stat
import sys
import urllib.parse

MOST_DEEP = 8
LONGEST = 255
MOST_PLACES = 4_096
MOST_OF_ALIASES = 1_048_576
MENU, MAP, INLINE, TAG, CAP = b".menu", b"gophermap", b".gophermap", b"gophertag", b".cap"
SUMS = b".menus.sha256"
SEARCH, PORT = b"/search", b"70"
LINK_KEYS = (b"Path", b"Name", b"Type", b"Host", b"Port", b"Numb")
RAW = {b".gif": b"g", b".png": b"I", b".jpg": b"I", b".jpeg": b"I"}
NO_COUNTERPART = {b":": "a file's type can't be set", b"~": "there are no users' folders", b"%": "there is one host"}
STATUS_LEFT = 3


class Refused(Exception):
    """A file of which no menu can be made."""


def has_any(text, of):
    return any(byte in of for byte in text)


def is_script(path):
    return bool(os.stat(path).st_mode & 0o111)


def shown(text):
    return text.decode(errors="backslashreplace")


def reason(fault):
    """The words of a fault."""
    return fault.strerror if isinstance(fault, OSError) else str(fault)


def lines_of(path):
    """Lines end in LF, and a CR before it belongs to the end; a CR at the very end goes too, since a `.menu` refuses it."""
    with open(path, "rb") as file:
        lines = file.read().split(b"\n")
    return [line.removesuffix(b"\r") for line in (lines if lines[-1] else lines[:-1])]


def one_spelling(selector):
    """The selector as this server spells it: names, each behind one slash."""
    return os.path.normpath(b"/" + selector.strip(b"/"))


def decoded(selector):
    """A selector without the escapes that gophernicus reads: `#` and three octal digits, `%` and two hexadecimal ones."""
    byte_of = lambda found: bytes([int(found[1], 8) % 256 if found[1] else int(found[2], 16)])
    return re.sub(rb"#([0-7]{3})|%([0-9A-Fa-f]{2})", byte_of, selector)


def escaped(name):
    """A name as gophernicus publishes it in listings."""
    return re.sub(rb"[^+-~]", lambda found: b"#%03o" % found[0][0], name)


def is_served_name(name):
    return not name.startswith(b".") and not has_any(name, b"\t\r\n")


def tag_of(folder):
    """The name that a folder's `gophertag` gives it; nothing if it gives none."""
    try:
        lines = lines_of(os.path.join(folder, TAG))
    except OSError:
        return b""
    return lines[0].translate(bytes.maketrans(b"\t\r\0", b"   ")).strip(b" ") if lines else b""


class Site:
    """The folder that is served, and the server's address; the host is empty if it isn't known. `menus` has the folders that will
    have a `.menu`."""

    def __init__(self, root, port=PORT, host=b""):
        self.root, self.port, self.host, self.menus = os.path.realpath(root), port, host, set()

    def is_within(self, path):
        return os.path.commonpath((self.root, path)) == self.root

    def is_own(self, host, port):
        """Whether fields of a line name this server."""
        return bool(self.host) and host.lower() == self.host.lower() and (port or self.port).lstrip(b"0") == self.port

    def has_files(self, folder):
        """Whether a folder has a file that is served, or will be a `.menu`: one without any has no place on the server."""
        for below, folders, files in os.walk(folder, followlinks=True):
            folders[:] = filter(is_served_name, folders)
            if MENU in files or any(map(is_served_name, files)) or os.path.realpath(below) in self.menus:
                return True
        return False

    def is_served(self, selector):
        path = os.path.join(self.root, selector[1:])
        is_shown = all(map(is_served_name, selector.split(b"/")))
        return is_shown and (os.path.isfile(path) or os.path.isdir(path) and self.has_files(path))

    def kind_of(self, path):
        """The type that this server gives a file or a folder; none if it is neither."""
        if os.path.isdir(path):
            return b"1" if self.has_files(path) else None
        if not os.path.isfile(path):
            return None
        end = os.path.splitext(path.lower())[1]
        if end not in RAW:
            with open(path, "rb") as file:
                return b"9" if b"\0" in file.read() else b"0"
        return RAW[end]

    def places(self):
        """The selectors of what is served below the root, each with whether it is a folder."""
        for folder, folders, files in os.walk(self.root, followlinks=True):
            front = folder.removeprefix(self.root.rstrip(b"/")).rstrip(b"/") + b"/"
            folders[:] = sorted(name for name in filter(is_served_name, folders) if self.has_files(os.path.join(folder, name)))
            yield from ((front + name, True) for name in folders)
            is_file = lambda name: is_served_name(name) and os.path.isfile(os.path.join(folder, name))
            yield from ((front + name, False) for name in sorted(filter(is_file, files)))
            if len(front) > LONGEST:
                folders.clear()


class Menu:
    """The lines of a folder's menu, and what is told of them. It is made of a gophermap, or of link files. `published` has the
    spellings that the old server published, with this server's own; `used` the files whose content is in the menu too."""

    def __init__(self, paths, site):
        self.paths, self.site = paths, site
        self.folder = os.path.realpath(os.path.dirname(paths[0]))
        if not site.is_within(self.folder):
            raise Refused("it doesn't lie in the folder of --root")
        if os.path.basename(self.folder) == CAP:
            raise Refused("it is about one file of a listing: write its lines into a link file, below a line Path=./FILE")
        if any(map(is_script, paths)):
            raise Refused("it is a script (chmod -x it if it isn't)")
        site.menus.add(self.folder)
        self.selector = one_spelling(os.path.relpath(self.folder, site.root))
        self.lines, self.told, self.hidden, self.published, self.used = [], [], set(), [], set()
        self.read()

    def content(self):
        return b"".join(line + b"\n" for line in self.lines)

    def teller(self, path, number):
        """What tells of a line of a file."""
        return lambda text: self.told.append(b"%s:%d: %s" % (path, number, text.encode()))

    def add_item(self, fields, tell):
        """Adds a line of type and name, selector, and perhaps host and port."""
        first, selector, *server = fields
        kind, name = first[:1], first[1:]
        if not kind or kind[0] <= 32 or kind in b".\x7f":
            return tell("left out: it has no type")
        host, port = [part.strip(b" ") for part in (*server, b"", b"")][:2]
        if is_own := self.site.is_own(host, port):
            host, server = b"", []
        if kind == b"7" and not selector and not host:
            selector = SEARCH
            tell("changed: it leads to this server's search")
        elif not server and not is_own:
            selector = selector or name
        if len(server) > 2:
            tell("changed: fields behind the port are left out")
        if server and not host:
            tell("changed: it has no host, and leads to this server")
        if not host and kind not in b"i3" and not selector.startswith(b"URL:"):
            is_whole = is_own or selector.startswith(b"/")
            old = selector if is_whole else self.selector.rstrip(b"/") + b"/" + selector
            selector = self.own_selector(kind, old, selector, tell)
        self.add_checked(first, selector, host, port or self.site.port, tell)

    def add_checked(self, first, selector, host, port, tell):
        """Adds a line if this server doesn't refuse it; the host is empty for this server's own."""
        if len(selector) > LONGEST:
            return tell(f"left out: its selector has more than {LONGEST} bytes")
        if len(host) > LONGEST or any(byte <= 32 or byte == 127 for byte in host):
            return tell("left out: its host isn't one")
        if host and not (port.isdigit() and len(port.lstrip(b"0")) <= 5 and int(port[-5:]) <= 65535):
            return tell("left out: its port isn't one")
        self.lines.append(b"\t".join((first, selector, host, port) if host else (first, selector)))

    def own_selector(self, kind, old, written, tell):
        """The selector of this server, in its one spelling, for the one that the old server published."""
        own = one_spelling(old)
        if own != SEARCH and not self.site.is_served(own):
            if self.site.is_served(other := one_spelling(decoded(old))):
                own = other
            elif written.startswith(kind + b"/") and self.site.is_served(other := one_spelling(written[1:])):
                old, own = written, other
        if kind == b"7" and own != SEARCH:
            tell(f"{shown(own)} is no search: this server's is /search")
        elif own != SEARCH and not self.site.is_served(own):
            tell(f"{shown(own)} names nothing that is served")
        self.published.append((old, own))
        return own if own != b"/" else b""

    def listing(self, tell):
        """The names of the folder that are listed, each with its type and its selector."""
        tell("changed: this is the folder's listing of now, which doesn't change with the folder")
        for name in sorted(os.listdir(self.folder)):
            if name == MAP or name.startswith(b".") or name in self.hidden:
                continue
            path = os.path.join(self.folder, name)
            try:
                kind = self.site.kind_of(path)
            except OSError:
                tell(f"left out: {shown(name)}, which can't be read")
                continue
            if not is_served_name(name) or shown(name).encode() != name:
                tell(f"left out: {shown(name)}, a name that this server refuses")
            elif name.endswith(INLINE):
                tell(f"left out: {shown(name)}, whose lines gophernicus would show here")
            elif kind and not self.is_listed(path):
                tell(f"left out: {shown(name)}, which not everybody may read")
            elif kind:
                yield kind, name, one_spelling(self.selector + b"/" + name)


class MapMenu(Menu):
    """The menu of a gophermap."""

    def read(self):
        self.add_file(self.paths[0], 1)

    @staticmethod
    def is_listed(path):
        """Whether gophernicus lists a file or a folder: it hides what not everybody may read."""
        return bool(os.stat(path).st_mode & stat.S_IROTH)

    def add_file(self, path, depth):
        """Adds the lines of a gophermap; `depth` is 1 for the folder's own."""
        for number, line in enumerate(lines_of(path), 1):
            tell, first = self.teller(path, number), line[:1]
            if first == b"*" and depth == 1:
                self.add_listing(tell)
            if first in (b"*", b"."):
                return
            if first == b"=":
                self.add_included(line[1:], depth, tell)
            elif first != b"#":
                self.add_line(first, line, tell)

    def add_line(self, first, line, tell):
        """Adds a line that is no end, no comment and no included file."""
        if first == b"-":
            self.hidden.add(line[1:])
            if not line.strip(b"-"):
                tell("left out: such a line hides a file in gophernicus")
        elif first in NO_COUNTERPART:
            tell(f"left out: {NO_COUNTERPART[first]}")
        elif has_any(line, b"\0\r"):
            tell("left out: it holds a CR or a NUL")
        elif first == b"!":
            self.lines.append(b"i%s\tTITLE" % line[1:].replace(b"\t", b" "))
        elif b"\t" in line:
            self.add_item(line.split(b"\t"), tell)
        else:
            self.lines.append(line)

    def add_included(self, file, depth, tell):
        path = os.path.join(self.folder, file)
        if depth >= MOST_DEEP:
            tell("left out: it is included too deep")
        elif b"\0" in file or not os.path.isfile(path) or not os.access(path, os.R_OK):
            tell("left out: no file to include")
        elif is_script(path):
            tell("left out: a script")
        else:
            self.used.add(os.path.realpath(path))
            self.add_file(path, depth + 1)

    def add_listing(self, tell):
        """Adds the listing, folders first, as gophernicus has it."""
        for kind, name, selector in sorted(self.listing(tell), key=lambda listed: listed[0] != b"1"):
            if kind == b"1":
                folder = os.path.join(self.folder, name)
                if tag := tag_of(folder):
                    name = tag
                    self.used.add(os.path.realpath(os.path.join(folder, TAG)))
            elif name == TAG:
                continue
            self.lines.append(b"%s%s\t%s" % (kind, name, selector))


def order_of(entry):
    """Where an entry stands in the menu: by a positive number, by name, or by a negative number."""
    _, fields = entry
    place = int(fields.get(b"Numb", 0))
    return (0 if place > 0 else 2 if place < 0 else 1, place, fields.get(b"Name", fields[b"Path"]))


class LinkMenu(Menu):
    """The menu of a folder's link files, with its listing. An entry is what tells of its first line, and its values by their keys."""

    def read(self):
        tell = self.teller(self.paths[0], 1)
        listed = {selector: (tell, {b"Type": kind, b"Name": name, b"Path": selector}) for kind, name, selector in self.listing(tell)}
        own = [entry for path in self.paths for entry in self.entries(path) if not self.is_merged(entry, listed)]
        for entry in sorted([*listed.values(), *own], key=order_of):
            self.add_entry(*entry)

    @staticmethod
    def is_listed(path):
        return True

    def entries(self, path):
        """The entries of a link file that have a path."""
        first, fields = 1, {}
        for number, line in enumerate([*lines_of(path), b""], 1):
            line = line.strip()
            if not line or line.startswith(b"#") and b"Path" in fields:
                if b"Path" in fields:
                    yield self.teller(path, first), fields
                elif fields:
                    self.teller(path, first)("left out: it has no Path")
                first, fields = number + 1, {}
            elif not line.startswith(b"#"):
                self.add_field(fields, line, self.teller(path, number))

    @staticmethod
    def add_field(fields, line, tell):
        key, _, value = line.partition(b"=")
        if key not in LINK_KEYS:
            tell(f"left out: {shown(key)} has no counterpart")
        elif key == b"Numb" and not value.lstrip(b"+-").isdigit():
            tell("left out: Numb isn't a number")
        elif has_any(value, b"\t\r\0"):
            tell("left out: it holds a TAB, a CR or a NUL")
        elif key not in (b"Host", b"Port") or value != b"+":
            fields[key] = value

    def is_merged(self, entry, listed):
        """Whether an entry names a line of the listing, which it then changes or hides."""
        tell, fields = entry
        if fields[b"Path"][:2] not in (b"./", b"~/"):
            return False
        selector = fields[b"Path"] = one_spelling(self.selector + b"/" + fields[b"Path"][2:])
        if selector not in listed:
            return False
        if fields.get(b"Type", b"")[:1] == b"X":
            del listed[selector]
        else:
            listed[selector] = tell, listed[selector][1] | fields
        return True

    def add_entry(self, tell, fields):
        kind, path = fields.get(b"Type", b"0")[:1], fields[b"Path"]
        if kind == b"X":
            return tell("left out: it hides what the folder doesn't have")
        server = [fields[b"Host"], fields.get(b"Port", b"")] if b"Host" in fields else []
        if b"Port" in fields and not server:
            tell("changed: it has a port and no host, and leads to this server")
        self.add_item([kind + fields.get(b"Name", path), path, *server], tell)


def menu_of(paths, site):
    """The menu of a gophermap, or of link files of one folder."""
    kind = LinkMenu if os.path.basename(paths[0]).startswith(b".") else MapMenu
    return kind(paths, site)


def is_file(path):
    return stat.S_ISREG(os.stat(path).st_mode)


def is_link_file(path):
    """Whether a file is a link file: one whose name begins with a period, with a line that begins with `Path=`."""
    name = os.path.basename(path)
    is_hidden = name.startswith(b".") and not name.startswith(MENU)
    return is_hidden and os.path.isfile(path) and any(line.startswith(b"Path=") for line in lines_of(path))


def has_sources(folder):
    """Whether there may be gophermaps or link files in a folder or below it."""
    for below, _, files in os.walk(folder):
        try:
            if MAP in files or any(is_link_file(os.path.join(below, name)) for name in files):
                return True
        except OSError:
            return True
    return False


class Conversion:
    """The conversion of a site. `told` has lines about its files, `may_go` the files whose content is in the menus, `left` the count
    of what wasn't converted, `published` the spellings of all menus. `sums` says how the converter left each `.menu`."""

    def __init__(self, folder, site, is_forced):
        self.folder, self.site, self.is_forced = folder, site, is_forced
        self.told, self.may_go, self.published, self.used, self.left, self.written = [], [], [], set(), 0, 0
        self.sums = self.read_sums()

    def leave(self, path, why):
        self.left += 1
        self.told.append(b"%s: left: %s" % (path, why.encode()))

    def convert(self):
        """Converts all folders; what is wrong with one doesn't stop the others."""
        found = [(folder, *self.sources(folder, files), files) for folder, files in self.walk()]
        self.site.menus.update(os.path.realpath(folder) for folder, paths, _, _ in found if paths)
        for folder, paths, others, _ in found:
            if paths:
                self.convert_folder(folder, paths)
            for path in others:
                self.leave(path, "the folder's gophermap comes first")
        for folder, paths, _, files in found:
            self.leave_rest(folder, paths, files)
        if self.written:
            lines = (b"%s  %s\n" % (of, path) for path, of in sorted(self.sums.items()))
            self.write_or_leave(os.path.join(self.folder, SUMS), b"".join(lines))

    def write_or_leave(self, path, content):
        try:
            write(path, content)
        except OSError as fault:
            self.leave(path, reason(fault))

    def walk(self):
        """The folders that are served and no links, each with the names of its files."""
        fault_of = lambda fault: self.leave(fault.filename, reason(fault))
        for folder, folders, files in os.walk(self.folder, onerror=fault_of):
            folders[:] = sorted(filter(is_served_name, folders))
            for name in folders:
                path = os.path.join(folder, name)
                if os.path.islink(path) and not self.is_walked(os.path.realpath(path)) and has_sources(path):
                    self.leave(path, "a link out of the folder that is served, behind which nothing is converted")
            yield folder, files

    def is_walked(self, path):
        """Whether a folder is one that is converted."""
        names = os.path.relpath(path, self.site.root).split(b"/")
        return self.site.is_within(path) and (names == [b"."] or all(map(is_served_name, names)))

    def sources(self, folder, files):
        """The files of which a folder's menu is made, and link files that are left because the folder has a gophermap."""
        maps, links = [], []
        for path in (os.path.join(folder, name) for name in sorted(files)):
            try:
                maps += [path] * (os.path.basename(path) == MAP and is_file(path))
                links += [path] * is_link_file(path)
            except OSError as fault:
                self.leave(path, reason(fault))
        return (maps, links) if maps else (links, [])

    def convert_folder(self, folder, paths):
        """Writes the menu of a folder, unless there is one that the converter hasn't written."""
        try:
            menu, place = menu_of(paths, self.site), os.path.join(folder, MENU)
            key, content = os.path.relpath(place, self.folder), menu.content()
            if not self.is_forced and self.is_strange(place, key, content):
                return self.leave(place, "it was written or changed by hand (--force replaces it)")
            write(place, content)
        except (OSError, Refused) as fault:
            return self.leave(getattr(fault, "filename", None) or paths[0], reason(fault))
        self.sums[key] = sum_of(content)
        self.told += menu.told
        self.published += menu.published
        self.used |= menu.used
        self.may_go += paths
        self.written += 1

    def is_strange(self, place, key, content):
        """Whether a folder has a menu that is neither the new one nor as the converter left it."""
        if not os.path.lexists(place):
            return False
        with open(place, "rb") as file:
            old = file.read()
        return old != content and self.sums.get(key) != sum_of(old)

    def leave_rest(self, folder, paths, files):
        """Tells of a folder's files that have a meaning for the old server alone; what is in a menu may go."""
        for path in (os.path.join(folder, name) for name in sorted(files)):
            is_used = os.path.realpath(path) in self.used
            if is_used and (os.path.basename(path) == TAG or path.endswith(INLINE)):
                self.may_go.append(path)
            elif os.path.basename(path) == TAG:
                self.leave(path, "no converted menu has this name for its folder: write it into the .menu of the folder above")
            elif path.endswith(INLINE) and os.path.isfile(path) and not is_used:
                line, why = shown(os.path.basename(path)), "gophernicus shows its lines in the folder's listing"
                self.leave(path, "it is a script" if is_script(path) else f"{why}: include it in a gophermap, by the line ={line}")
        if os.path.isdir(path := os.path.join(folder, CAP)) and not any(it.endswith(MAP) for it in paths):
            self.leave(path, "its names aren't read: write them into a link file, each below a line Path=./FILE")

    def read_sums(self):
        try:
            rows = [line.partition(b"  ") for line in lines_of(os.path.join(self.folder, SUMS))]
        except OSError:
            return {}
        return {path: of for of, _, path in rows}


def sum_of(content):
    return hashlib.sha256(content).hexdigest().encode()


def write(path, content):
    """Writes a file whole or not at all."""
    new = path + b".new"
    try:
        with open(new, "wb") as file:
            file.write(content)
        os.replace(new, path)
    except OSError:
        if os.path.isfile(new):
            os.unlink(new)
        raise


class Aliases:
    """Old selectors, each with the one of this server that it stood for. `kept` has them by the old one."""

    def __init__(self, site, gone):
        self.site, self.kept, self.left, self.size = site, {}, 0, 0
        self.places = [it for it in itertools.islice(site.places(), MOST_PLACES) if it[0] not in gone]
        self.served = {b"", b"/", SEARCH} | {selector for selector, _ in self.places}

    def add(self, old, selector):
        """Adds a line, unless this server answers the old selector, or takes no such line."""
        is_line = 0 < len(old) <= LONGEST and not old.startswith(b"#") and not has_any(old + selector, b"\t\r\n\0")
        if not is_line or old in self.served or old in self.kept or selector not in self.served or b"/.." in old:
            return
        selector = selector if selector != b"/" else b""
        self.size += len(old) + len(selector) + 2
        if self.size > MOST_OF_ALIASES:
            self.left += 1
        else:
            self.kept[old] = selector

    def add_listed(self):
        """Adds what gophernicus publishes in its listings: folders end in a slash, special bytes of the last name are escaped."""
        for selector, is_folder in self.places:
            front, _, name = selector.rpartition(b"/")
            end = b"/" if is_folder else b""
            self.add(b"%s/%s%s" % (front, escaped(name), end), selector)
            self.add(selector + end, selector)

    def add_accepted(self):
        """Adds what old servers accept too, or clients send: no slash before it, a type before it, all names escaped."""
        typed = [(b"1" if is_folder else self.kind_of(selector), selector) for selector, is_folder in self.places]
        spellings = (
            lambda kind, selector: selector[1:],
            lambda kind, selector: kind + selector,
            lambda kind, selector: urllib.parse.quote(selector).encode(),
            lambda kind, selector: b"/".join(map(escaped, selector.split(b"/"))),
        )
        self.add(b"1/", b"/")
        for spelling, (kind, selector) in itertools.product(spellings, typed):
            for end in (b"", b"/") if kind == b"1" else (b"",):
                self.add(spelling(kind, selector) + end, selector)

    def kind_of(self, selector):
        """The type of a file that was served a moment ago."""
        try:
            return self.site.kind_of(os.path.join(self.site.root, selector[1:])) or b"0"
        except OSError:
            return b"0"

    def content(self):
        return b"".join(b"%s\t%s\n" % row for row in self.kept.items())


def aliases_of(conversion, given):
    """The aliases of a site that was converted; files that may go need none."""
    aliases = Aliases(conversion.site, {b"/" + os.path.relpath(path, given.site) for path in conversion.may_go})
    aliases.add_listed()
    for old, selector in conversion.published:
        aliases.add(old, selector)
    if given.all_spellings:
        aliases.add_accepted()
    return aliases


def port_of(word):
    """The bytes of a port in the arguments."""
    if not 1 <= int(word) <= 65535:
        raise ValueError(word)
    return b"%d" % int(word)


def arguments():
    words = argparse.ArgumentParser(description="Makes the .menu files of a site of its gophermaps or link files.")
    words.add_argument("--site", metavar="FOLDER", type=os.fsencode, help="convert all of the folder that is served")
    words.add_argument("--aliases", metavar="FILE", type=os.fsencode, help="with --site, write the old server's selectors to FILE")
    words.add_argument("--all-spellings", action="store_true", help="with --aliases, also those that old servers merely accept")
    words.add_argument("--force", action="store_true", help="with --site, replace .menu files that were written by hand")
    words.add_argument("--root", metavar="FOLDER", type=os.fsencode, help="the folder that is served; without it, the file's own")
    words.add_argument("--port", metavar="PORT", type=port_of, default=PORT, help="the site's own port, 70 without it")
    words.add_argument("--host", metavar="HOST", type=os.fsencode, default=b"", help="the site's own name, if lines have it")
    of_file = "a gophermap, or a link file, whose name begins with a period"
    words.add_argument("file", metavar="FILE", type=os.fsencode, nargs="?", help=of_file)
    given = words.parse_args()
    if (given.site is None) == (given.file is None):
        words.error("give a FILE, or --site FOLDER")
    if given.site is None and (given.aliases or given.force) or given.site is not None and given.root is not None:
        words.error("--aliases and --force are for --site, --root is for a FILE")
    if given.all_spellings and not given.aliases:
        words.error("--all-spellings is for --aliases")
    return given


def say(lines, to):
    to.buffer.write(b"".join(line + b"\n" for line in lines))
    to.buffer.flush()


def convert_file(given):
    """Converts one file to standard output."""
    root = given.root if given.root is not None else os.path.dirname(given.file) or b"."
    menu = menu_of([given.file], Site(root, given.port, given.host))
    say(menu.told, sys.stderr)
    say(menu.lines, sys.stdout)
    return 0


def convert_site(given):
    """Converts a site, and lists on standard output what may go."""
    if not os.path.isdir(given.site):
        raise NotADirectoryError(errno.ENOTDIR, os.strerror(errno.ENOTDIR), given.site)
    site = Site(given.site, given.port, given.host)
    conversion = Conversion(given.site, site, given.force)
    conversion.convert()
    if given.aliases:
        aliases = aliases_of(conversion, given)
        conversion.write_or_leave(given.aliases, aliases.content())
        if aliases.left:
            conversion.leave(given.aliases, f"{aliases.left} lines, because the server reads at most {MOST_OF_ALIASES} bytes")
    say(conversion.told, sys.stderr)
    counts = f"menus written: {conversion.written}, left: {conversion.left}, files that may go: {len(conversion.may_go)}"
    say([counts.encode()], sys.stderr)
    say(conversion.may_go, sys.stdout)
    return STATUS_LEFT if conversion.left else 0


def main():
    given = arguments()
    try:
        return convert_site(given) if given.site is not None else convert_file(given)
    except (OSError, Refused) as fault:
        sys.stderr.write(f"{os.fsdecode(getattr(fault, 'filename', None) or given.file or given.site)}: {reason(fault)}\n")
        return 1


if __name__ == "__main__":
    sys.exit(main())
