#!/usr/bin/env python3
"""Makes the packages of a version, with the sums of their bytes.

    packaging/dist.py [--program FILE] [--out FOLDER] [--unproved] [--unreleased] [--dirty]
    packaging/dist.py --look [--unreleased] [--dirty]

It writes three files to FOLDER (without --out, dist/):

- hole-VERSION-x86_64-linux.tar.gz, to be unpacked into a prefix such as /usr/local.
- hole_VERSION_amd64.deb, for Debian and what descends from it.
- SHA256SUMS, for `sha256sum --check`.

VERSION is what the program itself prints for --version, and CHANGELOG.md must have a section for it. Each package contains
the commit, in the file BUILD beside its documents. The bytes depend on the commit and on the program alone: every time in
them is the commit's.

The script refuses to pack:

- a program without a stamp of its proved build. `make build` writes the stamp, FILE.stamp, and it ends in the program's sum.
  With --unproved the script packs such a program too, and VERSION ends in '~unproved'.
- a program with changes that CHANGELOG.md lists as unreleased, since its version says nothing of them. With --unreleased it
  packs it, and VERSION has '+unreleased' behind its number.
- a tree with changes that aren't committed. With --dirty it packs it, and the commit in BUILD ends in '-dirty'.
- a program that needs a newer C library than OLDEST_GLIBC.

With --look it packs nothing and needs no program: it refuses what it would refuse of the tree, and a machine without the tools
for it. So `make dist` does that before it proves.

The status is 0, or 1 with the reason on standard error.
"""
import argparse
import gzip
import hashlib
import io
import os
import pathlib
import re
import shutil
import subprocess
import sys
import tarfile
import tempfile
import textwrap
import time

ROOT = pathlib.Path(__file__).resolve().parent.parent
sys.path.insert(0, str(ROOT / "tools"))
import numbers_of_code

PACKAGING = ROOT / "packaging"
PROGRAM = ROOT / "crates/hole/out/hole"
OLDEST_GLIBC = (2, 34)
UNPROVED, UNRELEASED = "~unproved", "+unreleased"
# What the description says of the proofs, by whether the program was proved.
CHECKED = {
    True: "A prover has checked its replies and its searches against formal definitions.",
    False: "No prover has checked this program: it is for development alone.",
}

DOCUMENTS = ("packaging/README.md", "docs/OPERATING.md", "docs/SPECIFICATION.md")
PAGES = (("man/hole.1", "man1"), ("man/hole.toml.5", "man5"))
UNITS = ("packaging/hole.service",)
UNIT_EXAMPLES = tuple(f"packaging/{name}" for name in ("hole.path", "hole-restart.service", "hole.socket", "hole.logrotate"))
SCRIPTS = ("preinst", "postinst", "prerm", "postrm")


class Refused(Exception):
    """Why no package is made."""


def run(*words, **how):
    """What a command prints; refused where it fails."""
    ran = subprocess.run([str(word) for word in words], capture_output=True, text=True, **how)
    if ran.returncode:
        raise Refused(f"{words[0]}: {ran.stderr.strip() or f'status {ran.returncode}'}")
    return ran.stdout


def sum_of(content):
    return hashlib.sha256(content).hexdigest()


def is_proved(program):
    """Whether the program is the one that a proved build left: its stamp ends in the sum of its bytes."""
    stamp = program.with_name(program.name + ".stamp")
    return stamp.is_file() and stamp.read_text().strip().endswith(sum_of(program.read_bytes()))


def number_of(program):
    """The version that the program prints."""
    words = run(program, "--version").split()
    if len(words) != 2 or words[0] != "hole":
        raise Refused(f"{program} --version prints {' '.join(words)!r}, and not 'hole VERSION'")
    return words[1]


def needed_glibc(program):
    """The oldest C library that has each symbol which the program names."""
    named = re.findall(r"\bGLIBC_(\d+)\.(\d+)", run("objdump", "-T", program))
    if not named:
        raise Refused(f"{program} names no version of the C library")
    return max((int(first), int(second)) for first, second in named)


def commit_of(dirty):
    """The commit, and the time of it."""
    changed = run("git", "-C", ROOT, "status", "--porcelain").strip()
    if changed and not dirty:
        raise Refused("the tree has changes that aren't committed (--dirty packs it all the same):\n" + changed)
    commit, when = run("git", "-C", ROOT, "log", "-1", "--format=%H %ct").split()
    return commit + ("-dirty" if changed else ""), int(when)


def section_of(heading):
    """The changes that CHANGELOG.md lists below a heading, or None."""
    found = re.search(rf"(?ms)^## {heading}\n(.*?)(?=^## |^\[|\Z)", (ROOT / "CHANGELOG.md").read_text())
    return found and found[1].strip()


def changes_of(number):
    """The changes of a version, and those that are unreleased."""
    released = section_of(rf"\[{re.escape(number)}\] - \d{{4}}-\d\d-\d\d")
    if released is None:
        raise Refused(f"CHANGELOG.md has no section '## [{number}] - DATE'")
    return released, section_of(r"\[Unreleased\]") or ""


def state_of_tree(number, unreleased, dirty):
    """The commit, its time, and the released and the unreleased changes of a version; refused if this tree can't be packed."""
    commit, when = commit_of(dirty)
    released, later = changes_of(number)
    if later and not unreleased:
        raise Refused(
            "CHANGELOG.md has unreleased changes. A package is made of a release: give them a version, and the program the same."
            " (--unreleased packs it all the same, and marks the version.)"
        )
    return commit, when, released, later


def lacks_dpkg():
    """Whether no package for Debian can be made; a line on standard error then says so."""
    if shutil.which("dpkg-deb"):
        return False
    print("dist: there is no dpkg-deb here, so no package for Debian is made", file=sys.stderr)
    return True


def look(unreleased, dirty):
    """Refuses what would be refused of this tree and this machine, whatever the program."""
    state_of_tree(numbers_of_code.version(), unreleased, dirty)
    if not shutil.which("objdump"):
        raise Refused("there is no objdump here, which says what C library a program needs")
    lacks_dpkg()


class Tree:
    """Files of a package, by the paths at which they are installed: their bytes and modes."""

    def __init__(self):
        self.files = {}

    def add(self, path, content, mode=0o644):
        self.files[path] = (content.encode() if isinstance(content, str) else content, mode)

    def folders(self):
        return sorted({str(above) for path in self.files for above in pathlib.PurePosixPath(path).parents} - {"."})

    def lay_out(self, folder, when):
        """Writes the files below a folder, each with this time."""
        for path, (content, mode) in self.files.items():
            place = folder / path
            place.parent.mkdir(parents=True, exist_ok=True)
            place.write_bytes(content)
            place.chmod(mode)
        for place in [*folder.rglob("*"), folder]:
            if place.is_dir():
                place.chmod(0o755)
            os.utime(place, (when, when))


class Release:
    """What all packages of a version have in common."""

    def __init__(self, program, unproved, unreleased, dirty):
        self.program = program.read_bytes()
        self.proved = is_proved(program)
        if not self.proved and not unproved:
            raise Refused(
                f"{program} wasn't proved, or has changed since: it has no {program.name}.stamp that ends in its sum."
                " 'make build' proves and builds it. (--unproved packs it all the same, and marks the version.)"
            )
        number = number_of(program)
        self.commit, self.when, released, later = state_of_tree(number, unreleased, dirty)
        self.changes = "\n".join(filter(None, [later, released]))
        self.version = number + (UNRELEASED if later else "") + ("" if self.proved else UNPROVED)
        self.glibc = needed_glibc(program)
        if self.glibc > OLDEST_GLIBC:
            raise Refused(f"{program} needs the C library {self.glibc_text()}, newer than {'.'.join(map(str, OLDEST_GLIBC))}")

    def glibc_text(self):
        return ".".join(map(str, self.glibc))

    def build_text(self):
        """What the file BUILD says."""
        how = "proved" if self.proved else "built without its proofs: for development alone"
        return (
            f"hole {self.version}\ncommit {self.commit}\nprogram {how}\nsha256 {sum_of(self.program)}\n"
            f"needs x86_64 Linux with glibc {self.glibc_text()} or later\n"
        )

    def page(self, file):
        """A page of the manual, with the version in its foot."""
        text = (ROOT / file).read_text()
        marked = re.sub(r'^(\.TH \S+ \d \S+) "hole"', rf'\1 "hole {self.version}"', text, flags=re.M)
        if marked == text:
            raise Refused(f"{file} has no line '.TH NAME SECTION DATE \"hole\" ..'")
        return marked

    def tree(self, prefix, documents, units, compressed):
        """The files that each package has, below a prefix; `compressed` says whether pages of the manual are."""
        tree = Tree()
        tree.add(f"{prefix}bin/hole", self.program, 0o755)
        tree.add(f"{prefix}bin/gophermap_to_menu", (ROOT / "tools/gophermap_to_menu.py").read_bytes(), 0o755)
        for file, section in [*PAGES, ("man/gophermap_to_menu.1", "man1")]:
            page, name = self.page(file).encode(), pathlib.Path(file).name
            if compressed:
                page, name = zipped(page), name + ".gz"
            tree.add(f"{prefix}share/man/{section}/{name}", page)
        tree.add(f"{prefix}share/bash-completion/completions/hole", (PACKAGING / "completion.bash").read_bytes())
        for file in DOCUMENTS:
            tree.add(f"{documents}/{pathlib.Path(file).name}", (ROOT / file).read_bytes())
        tree.add(f"{documents}/BUILD", self.build_text())
        for file in run("git", "-C", ROOT, "ls-files", "examples").split("\n"):
            if file:
                tree.add(f"{documents}/{file}", (ROOT / file).read_bytes())
        for file in UNIT_EXAMPLES:
            tree.add(f"{documents}/examples/{pathlib.Path(file).name}", self.unit(file, prefix))
        for file in UNITS:
            tree.add(f"{units}/{pathlib.Path(file).name}", self.unit(file, prefix))
        return tree

    @staticmethod
    def unit(file, prefix):
        """A unit that starts the program below the prefix."""
        place = "/usr/" if prefix == "usr/" else "/usr/local/"
        return (ROOT / file).read_text().replace("/usr/local/bin/", f"{place}bin/")


def zipped(content):
    """Bytes as gzip has them, with no name and no time."""
    out = io.BytesIO()
    with gzip.GzipFile(filename="", mode="wb", fileobj=out, compresslevel=9, mtime=0) as file:
        file.write(content)
    return out.getvalue()


def make_tarball(release, out):
    """The package to be unpacked into a prefix."""
    name = f"hole-{release.version}-x86_64-linux"
    tree = release.tree("", "share/doc/hole", "lib/systemd/system", compressed=False)
    tree.add("share/doc/hole/CHANGELOG.md", (ROOT / "CHANGELOG.md").read_bytes())
    raw = io.BytesIO()
    with tarfile.open(fileobj=raw, mode="w", format=tarfile.USTAR_FORMAT) as file:
        paths = [("", None), *((folder, None) for folder in tree.folders()), *tree.files.items()]
        for path, held in sorted(paths, key=lambda it: it[0]):
            entry = tarfile.TarInfo(f"{name}/{path}".rstrip("/"))
            entry.mtime, entry.uname, entry.gname = release.when, "root", "root"
            if held is None:
                entry.type, entry.mode = tarfile.DIRTYPE, 0o755
                file.addfile(entry)
            else:
                entry.size, entry.mode = len(held[0]), held[1]
                file.addfile(entry, io.BytesIO(held[0]))
    place = out / f"{name}.tar.gz"
    place.write_bytes(zipped(raw.getvalue()))
    return place


def debian_changelog(release, maintainer):
    """CHANGELOG.md's section of the version as a changelog of Debian's."""
    lines = [f"hole ({release.version}) unstable; urgency=medium", ""]
    for item in re.findall(r"(?m)^- (.*(?:\n  .*)*)", release.changes):
        text = re.sub(r"[`*]", "", re.sub(r"\s+", " ", item))
        lines += textwrap.wrap(text, 76, initial_indent="  * ", subsequent_indent="    ")
    lines += [f"  * Commit {release.commit}.", ""]
    when = time.strftime("%a, %d %b %Y %H:%M:%S +0000", time.gmtime(release.when))
    return "\n".join([*lines, f" -- {maintainer}  {when}", ""])


def site_files():
    """The files of the first site by their paths in it. The page on searching is that of the example's site."""
    site = PACKAGING / "site"
    found = {str(file.relative_to(site)): file for file in site.rglob("*") if file.is_file()}
    found["searching.txt"] = ROOT / "examples/site/searching.txt"
    return {path: found[path].read_bytes() for path in sorted(found)}


def script_of(name):
    """A script of the package, with the sums of the first site's files."""
    sums = "".join(f"{sum_of(content)}  {path}\n" for path, content in site_files().items())
    return (PACKAGING / "debian" / name).read_text().replace("@SITE_SUMS@", sums.strip())


def control_of(release, tree):
    """The fields of the package."""
    size = sum((len(content) + 1023) // 1024 for content, _ in tree.files.values()) + len(tree.folders())
    fields = (PACKAGING / "debian/control").read_text()
    filled = {"VERSION": release.version, "GLIBC": release.glibc_text(), "SIZE": str(size), "CHECKED": CHECKED[release.proved]}
    return re.sub(r"@(\w+)@", lambda found: filled[found[1]], fields)


def debian_tree(release, maintainer):
    """The files of the package for Debian."""
    tree = release.tree("usr/", "usr/share/doc/hole", "lib/systemd/system", compressed=True)
    tree.add("etc/hole/hole.toml", (PACKAGING / "debian/hole.toml").read_bytes())
    for path, content in site_files().items():
        tree.add(f"usr/share/hole/site/{path}", content)
    tree.add("usr/share/doc/hole/changelog.gz", zipped(debian_changelog(release, maintainer).encode()))
    tree.add("usr/share/doc/hole/copyright", (PACKAGING / "debian/copyright").read_bytes())
    tree.add("usr/share/lintian/overrides/hole", (PACKAGING / "debian/lintian-overrides").read_bytes())
    return tree


def make_debian(release, out):
    """The package for Debian."""
    fields = (PACKAGING / "debian/control").read_text()
    tree = debian_tree(release, re.search(r"(?m)^Maintainer: (.*)$", fields)[1])
    control = Tree()
    control.add("DEBIAN/control", control_of(release, tree))
    control.add("DEBIAN/conffiles", "/etc/hole/hole.toml\n")
    packed = {path: held[0] for path, held in sorted(tree.files.items()) if not path.startswith("etc/")}
    sums = [f"{hashlib.md5(content).hexdigest()}  {path}\n" for path, content in packed.items()]
    control.add("DEBIAN/md5sums", "".join(sums))
    for name in SCRIPTS:
        if (PACKAGING / "debian" / name).is_file():
            control.add(f"DEBIAN/{name}", script_of(name), 0o755)
    place = out / f"hole_{release.version}_amd64.deb"
    with tempfile.TemporaryDirectory() as folder:
        staged = pathlib.Path(folder) / "hole"
        staged.mkdir()
        tree.lay_out(staged, release.when)
        control.lay_out(staged, release.when)
        env = {**os.environ, "SOURCE_DATE_EPOCH": str(release.when)}
        run("dpkg-deb", "--root-owner-group", "-Zxz", "-z9", "--threads-max=1", "--build", staged, place, env=env)
    return place


def write_sums(files, out):
    lines = [f"{sum_of(file.read_bytes())}  {file.name}\n" for file in files]
    (out / "SHA256SUMS").write_text("".join(lines))
    return "".join(lines)


def main():
    words = argparse.ArgumentParser(description="Makes the packages of a version, with the sums of their bytes.")
    words.add_argument("--program", type=pathlib.Path, default=PROGRAM, help="the program, crates/hole/out/hole without it")
    words.add_argument("--out", type=pathlib.Path, default=ROOT / "dist", help="where the packages go, dist/ without it")
    words.add_argument("--unproved", action="store_true", help="pack a program that was built without its proofs")
    words.add_argument("--unreleased", action="store_true", help="pack a program with changes that no version has yet")
    words.add_argument("--dirty", action="store_true", help="pack a tree with changes that aren't committed")
    words.add_argument("--look", action="store_true", help="only refuse what would be refused of the tree")
    given = words.parse_args()
    os.umask(0o022)
    try:
        if given.look:
            look(given.unreleased, given.dirty)
            return 0
        if not given.program.is_file():
            raise Refused(f"there is no {given.program}: 'make build' proves and builds it")
        release = Release(given.program.resolve(), given.unproved, given.unreleased, given.dirty)
        given.out.mkdir(parents=True, exist_ok=True)
        files = [make_tarball(release, given.out)]
        if not lacks_dpkg():
            files.append(make_debian(release, given.out))
        print(release.build_text() + write_sums(files, given.out), end="")
    except (Refused, OSError) as fault:
        print(f"dist: {fault}", file=sys.stderr)
        return 1
    return 0


if __name__ == "__main__":
    sys.exit(main())
