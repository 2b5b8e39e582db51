#!/usr/bin/env python3
"""Packs the built program by packaging/dist.py, and tries the packages in a root of their own.

    tests/package.py [PROGRAM]

The package for Debian is installed, serves its first site by the installed settings, is removed, and is purged. lintian and
systemd-analyze look at it, if they are installed. A program without a stamp of its proved build, unreleased changes, and a tree
with changes are packed by the options that dist.py has for them. What can't be tried here is said in a line 'package: skipped:
..'; all of it needs root, dpkg and chroot. The last line is 'package: N passed, M failed'. It takes half a minute.
"""
import gzip
import hashlib
import os
import pathlib
import re
import shutil
import socket
import subprocess
import sys
import time

from running.server import HOST, ROOT, WAIT, ask, run_test, until_true

DIST = ROOT / "packaging" / "dist.py"
SITE = ROOT / "packaging" / "site"
NOBODY = "65534:65534"
PORT = 70
DOCUMENTS = "usr/share/doc/hole"
COMPLETION = "usr/share/bash-completion/completions/hole"
# Keys of the unit that systemd before version 254 doesn't know, and leaves out.
NEW_KEYS = re.compile(r"Unknown key(?: name)? '(?:RestartSteps|RestartMaxDelaySec)'")
# Words in documents that look like names of files of the repository or of the package.
NAMED = re.compile(r"\b(?:docs|tests|tools|bench|crates|packaging|examples|man)/[\w./-]*\w|\b[\w-]+\.md\b")


def run(*words, **how):
    return subprocess.run([str(word) for word in words], capture_output=True, text=True, timeout=6 * WAIT, **how)


def said(text):
    """What a program wrote to standard error, without what one that was built with checks says of a root without /proc."""
    return re.sub(r"(?m)^==\d+==WARNING: .*\n", "", text)


def skip(why):
    print(f"package: skipped: {why}")


def is_here(name):
    if shutil.which(name):
        return True
    skip(f"what {name} would say, which isn't installed")
    return False


def dist(*words, script=DIST):
    return run(sys.executable, script, *words)


def options(program):
    """What has dist.py pack this program of this tree all the same."""
    stamp = program.with_name(program.name + ".stamp")
    is_proved = stamp.is_file() and stamp.read_text().strip().endswith(hashlib.sha256(program.read_bytes()).hexdigest())
    is_changed = run("git", "-C", ROOT, "status", "--porcelain").stdout != ""
    return ["--unreleased", *([] if is_proved else ["--unproved"]), *(["--dirty"] if is_changed else [])]


def files_below(root):
    return sorted(str(path.relative_to(root)) for path in root.rglob("*") if not path.is_dir() or path.is_symlink())


def first_site():
    """The files of the package's first site: its own, and the page on searching of the example's site."""
    return sorted([*files_below(SITE), "searching.txt"])


def check_refusals(test):
    """A program that no stamp calls proved isn't packed."""
    copy = pathlib.Path(shutil.copy(test.program, test.folder / "hole"))
    for name, stamp in (("no stamp", None), ("a stamp of other bytes", "0" * 128)):
        if stamp:
            copy.with_name("hole.stamp").write_text(stamp)
        ran = dist("--program", copy, "--out", test.folder / "refused", "--dirty")
        test.expect(f"{name}: is refused", (ran.returncode, "wasn't proved" in ran.stderr), (1, True))
    test.expect("a refused program leaves no package", (test.folder / "refused").exists(), False)


def clone_of(test, name):
    run("git", "clone", "--quiet", ROOT, test.folder / name)
    return test.folder / name


def check_unreleased(test):
    """Changes that no version has yet aren't packed as the last version."""
    clone = clone_of(test, "changed")
    script, log = clone / "packaging/dist.py", clone / "CHANGELOG.md"
    shutil.copy(DIST, script)
    changes = "## [Unreleased]\n\n### Added\n\n- Frogs.\n\n"
    log.write_text(re.sub(r"(?ms)^## \[Unreleased\].*?(?=^## )", changes, log.read_text()))
    words = ("--program", test.program, "--out", test.folder / "unreleased", "--unproved", "--dirty")
    ran = dist(*words, script=script)
    test.expect("unreleased changes: are refused", (ran.returncode, "has unreleased changes" in ran.stderr), (1, True))
    ran = dist(*words, "--unreleased", script=script)
    marked = re.match(r"hole [\d.]+\+unreleased(?:~unproved)?\n", ran.stdout) is not None
    test.expect("unreleased changes: the version is marked", (ran.returncode, marked), (0, True))


def check_look(test):
    """`make dist` refuses a tree that can't be packed before it proves anything."""
    clone, tools = clone_of(test, "looked"), test.site({})
    for file in ("dist.py", "dist.mk"):
        shutil.copy(ROOT / "packaging" / file, clone / "packaging" / file)
    (tools / "rt").write_text("#!/bin/sh\ntouch $(dirname $0)/called\nexit 1\n")
    (tools / "rt").chmod(0o755)
    log, env = clone / "CHANGELOG.md", {**os.environ, "PATH": f"{tools}:{os.environ['PATH']}"}
    released = re.sub(r"(?ms)^## \[Unreleased\].*?(?=^## )", "", log.read_text())
    for name, text, options, told in (
        ("unreleased changes", f"## [Unreleased]\n\n- Frogs.\n\n{released}", "--dirty", "has unreleased changes"),
        ("changes that aren't committed", released + "\n", "", "aren't committed"),
        ("a version without its changes", re.sub(r"(?m)^## .*$", "", released), "--dirty", "has no section"),
    ):
        log.write_text(text)
        ran = run("make", "dist", f"OPTIONS={options}", cwd=clone, env=env)
        test.expect(f"{name}: are refused at once", (told in ran.stderr, (tools / "called").exists()), (True, False))
    log.write_text(released)
    ran = run("make", "dist", "OPTIONS=--dirty", cwd=clone, env=env)
    test.expect("a release is proved before it is packed", (ran.returncode, (tools / "called").exists()), (2, True))


def check_same_bytes(test, out, words):
    """The same commit gives the same bytes in another folder at another time."""
    time.sleep(1.1)
    if "--dirty" in words:
        skip("the bytes of another checkout: this tree has changes")
        script = DIST
    else:
        script = clone_of(test, "another/checkout") / "packaging/dist.py"
    ran = dist("--program", test.program, "--out", test.folder / "again", *words, script=script)
    test.expect("packed again", (ran.returncode, ran.stderr), (0, ""))
    test.expect("the sums are the same", (test.folder / "again/SHA256SUMS").read_text(), (out / "SHA256SUMS").read_text())


def check_tarball(test, out):
    place = test.site({})
    run("tar", "--extract", "--file", next(out.glob("*.tar.gz")), "--strip-components", "1", "--directory", place)
    test.expect("the tarball's program", run(place / "bin/hole", "--version").stdout.split()[:1], ["hole"])
    ran = run(place / "bin/hole", "replay", input="start\t1\n")
    test.expect("the tarball's program replays", (ran.returncode, ran.stderr), (0, ""))
    ran = run("sha256sum", "--check", "SHA256SUMS", cwd=out)
    test.expect("the sums are those of the packages", ran.returncode, 0)


class Machine:
    """A root of its own, with the C library, the names of hosts and nothing else."""

    def __init__(self, test):
        self.root = test.site({"var/lib/dpkg/status": b"", "etc/hosts": b"127.0.0.1 localhost\n"}, "machine")
        for name in ("var/lib/dpkg/info", "var/lib/dpkg/updates", "var/lib/dpkg/triggers", "proc"):
            (self.root / name).mkdir()
        for library in re.findall(r"(/\S+)", run("ldd", test.program).stdout):
            place = self.root / library.lstrip("/")
            place.parent.mkdir(parents=True, exist_ok=True)
            shutil.copy(library, place)
        self.empty = self.files()

    def files(self):
        """All files but dpkg's own."""
        return [file for file in files_below(self.root) if not file.startswith("var/")]

    def dpkg(self, *words):
        env = {"PATH": "/usr/sbin:/usr/bin:/sbin:/bin", "LC_ALL": "C", "DEBIAN_FRONTEND": "noninteractive"}
        how = ("--force-script-chrootless", "--force-depends", "--force-confdef", "--force-confold", "--log=/dev/null")
        return run("dpkg", f"--root={self.root}", *how, *words, env=env, umask=0o077)

    def hole(self, *words, user=NOBODY):
        return ["chroot", f"--userspec={user}", str(self.root), "/usr/bin/hole", *words]

    def text(self, file):
        return (self.root / file).read_text()


def check_installed(test, machine, package):
    ran = machine.dpkg("--install", package)
    test.expect("it installs", (ran.returncode, "error" in ran.stderr.lower()), (0, False))
    test.expect("the first site is there", files_below(machine.root / "srv/gopher"), first_site())
    modes = {path.stat().st_mode & 0o777 for path in (machine.root / "srv/gopher").rglob("*") if path.is_file()}
    test.expect("everybody may read it", modes, {0o644})
    shown = run(*machine.hole("--version")).stdout.split()
    for page in machine.root.glob("usr/share/man/*/*.gz"):
        text = gzip.decompress(page.read_bytes()).decode()
        test.expect(f"{page.name} has the version", f'"{" ".join(shown)}' in text, True)
        if shutil.which("man"):
            test.expect(f"{page.name} is laid out", run("man", "--warnings", "-l", "-Tutf8", page).stderr, "")
    told = "\n A prover has checked" in run("dpkg-deb", "--field", package, "Description").stdout
    test.expect("only a proved program is said to be checked", told, "~unproved" not in package.name)
    build = machine.text(f"{DOCUMENTS}/BUILD")
    commit = run("git", "-C", ROOT, "rev-parse", "HEAD").stdout.strip()
    test.expect("BUILD names the commit", f"\ncommit {commit}" in build, True)


def check_documents(test, machine):
    """No installed document names a file that isn't installed."""
    place = machine.root / DOCUMENTS
    for file in [*place.glob("*.md"), *place.glob("examples/*.*")]:
        if file.suffix not in (".txt", ".script"):
            gone = [name for name in NAMED.findall(file.read_text()) if not (place / name).exists()]
            test.expect(f"{file.name} names what is installed", gone, [])


def completed(file, folder, *words):
    """What bash offers for the last of these words, in a folder."""
    code = 'source "$0"; COMP_WORDS=("$@"); COMP_CWORD=$(($# - 1)); _hole; printf "%s\\n" "${COMPREPLY[@]}"'
    return sorted(run("bash", "-c", code, file, *words, cwd=folder).stdout.split())


def check_completion(test, machine):
    """bash completes the commands and options that the help has, and files."""
    if not is_here("bash"):
        return
    place, file = test.site(dict.fromkeys(("site/a", "hole.toml", "log.txt"), b"")), machine.root / COMPLETION
    shown = run(*machine.hole("--help")).stdout
    commands = re.findall(r"(?m)^  (\w+)  ", shown)
    test.expect("the commands", completed(file, place, "hole", "")[-len(commands):], sorted(commands))
    test.expect("the options", completed(file, place, "hole", "--"), sorted(re.findall(r"--\w+", shown)))
    for command in set(commands) - {"help"}:
        options = re.findall(r"(?m)^ +(?:-\w, )?(--[\w-]+)", run(*machine.hole(command, "--help")).stdout)
        test.expect(f"the options of {command}", completed(file, place, "hole", command, "--"), sorted(options))
    test.expect("settings", completed(file, place, "hole", "check", ""), ["hole.toml", "site"])
    test.expect("any file for the log", completed(file, place, "hole", "serve", "hole.toml", "--log", "l"), ["log.txt"])
    test.expect("any file for the list", completed(file, place, "hole", "serve", "hole.toml", "--list-found", "l"), ["log.txt"])
    for command in ("serve", "check"):
        test.expect(f"{command}: any file for aliases", completed(file, place, "hole", command, "hole.toml", "--aliases", "l"), ["log.txt"])
    for option in ("--requests", "--clients-per-address", "--fetch-timeout", "--fetch-pause"):
        test.expect(f"no file for the number of {option}", completed(file, place, "hole", "serve", "hole.toml", option, ""), [])


def check_unit(test, machine):
    """The unit and the examples of units are sound, with the program where it is installed here."""
    if not is_here("systemd-analyze"):
        return
    units = [machine.root / "lib/systemd/system/hole.service", *(machine.root / DOCUMENTS / "examples").glob("hole*.service")]
    units += [machine.root / DOCUMENTS / "examples" / name for name in ("hole.path", "hole.socket")]
    for unit in units:
        place = test.folder / "units" / unit.name
        place.parent.mkdir(exist_ok=True)
        place.write_text(unit.read_text().replace("/usr/bin/hole", f"{machine.root}/usr/bin/hole"))
    for unit in units:
        ran = run("systemd-analyze", "verify", "--man=no", test.folder / "units" / unit.name)
        told = [line for line in ran.stderr.splitlines() if "hole" in line and not NEW_KEYS.search(line)]
        test.expect(f"{unit.name} is sound", (ran.returncode, told), (0, []))


def check_serves(test, machine):
    """The installed settings are sound for any user, and the first site is served by them, and found."""
    ran = run(*machine.hole("check", "/etc/hole/hole.toml"))
    test.expect("the first site is sound", (ran.returncode, said(ran.stderr), "\nsound\n" in ran.stdout), (0, "", True))
    if run(*machine.hole("check", "/etc/hole/hole.toml", "--listen", user="0:0")).returncode:
        skip(f"what the first site serves: port {PORT} of localhost can't be bound here")
        return
    how = {"stdout": subprocess.PIPE, "stderr": subprocess.PIPE}
    with subprocess.Popen(machine.hole("serve", "/etc/hole/hole.toml", user="0:0"), **how) as server:
        try:
            test.expect("it listens", server.stdout.readline(), f"listening localhost {PORT}\n".encode())
            test.expect("its menu", ask(PORT, b"\r\n", "localhost").split(b"\t")[0], b"iWelcome.")
            text = (SITE / "notes/tomatoes.txt").read_bytes().replace(b"\n", b"\r\n") + b".\r\n"
            test.expect("a text", ask(PORT, b"/notes/tomatoes.txt\r\n", "localhost"), text)
            for word, hit in (b"evening", b"\t/notes/tomatoes.txt\t"), (b"notes", b"1Notes\t/notes\t"):
                found = until_true(lambda: hit in ask(PORT, b"/search\t%s\r\n" % word, "localhost"))
                test.expect(f"a search of {word}", found, True)
            test.expect("no search finds the page on searching", ask(PORT, b"/search\tlily\r\n", "localhost"), b".\r\n")
        finally:
            server.terminate()
            test.expect("it says nothing on standard error", said(server.communicate(timeout=WAIT)[1].decode()), "")


def check_removed(test, machine):
    """Removal leaves the settings and the site, and purging leaves nothing."""
    test.expect("it is removed", machine.dpkg("--remove", "hole").returncode, 0)
    left = [file for file in machine.files() if file not in machine.empty and not file.startswith("etc/systemd/")]
    kept = ["etc/hole/hole.toml", *(f"srv/gopher/{file}" for file in first_site())]
    test.expect("removal leaves the settings and the site", left, kept)
    test.expect("it is purged", machine.dpkg("--purge", "hole").returncode, 0)
    test.expect("purging leaves nothing", [file for file in machine.files() if file not in machine.empty], [])
    folders = [name for name in ("etc/hole", "srv/gopher", "usr/share/hole") if (machine.root / name).exists()]
    test.expect("purging leaves no folder either", folders, [])


def check_owner(test, machine, package):
    """What the owner wrote stays, and what the owner removed stays away."""
    machine.dpkg("--install", package)
    (machine.root / "srv/gopher/.menu").write_text("My own.\n")
    (machine.root / "srv/gopher/own.txt").write_text("My own.\n")
    (machine.root / "srv/gopher/first-steps.txt").unlink()
    with open(machine.root / "etc/hole/hole.toml", "a") as settings:
        settings.write("# my own\n")
    test.expect("it installs again", machine.dpkg("--install", package).returncode, 0)
    test.expect("the settings stay", machine.text("etc/hole/hole.toml").endswith("# my own\n"), True)
    stayed = sorted([*(file for file in first_site() if file != "first-steps.txt"), "own.txt"])
    test.expect("the site stays", files_below(machine.root / "srv/gopher"), stayed)
    (machine.root / "srv/gopher/upload/empty").mkdir(parents=True)
    machine.dpkg("--purge", "hole")
    folders = sorted(path.name for path in (machine.root / "srv/gopher").rglob("*") if path.is_dir())
    test.expect("a purge leaves the owner's folders, and none of the first site", folders, ["empty", "upload"])
    test.expect("a purge leaves the owner's files", files_below(machine.root / "srv/gopher"), [".menu", "own.txt"])


def check_start(test):
    """Where systemd runs, an installation starts the server; if another program holds its port, it says so, and neither starts nor
    enables it."""
    folder = test.site({"run/systemd/system/a": b"", "site/a.txt": b"a\n"})
    for name, code in ("deb-systemd-helper", 0), ("deb-systemd-invoke", 0), ("systemctl", 3), ("hole", None):
        script = f'exec {test.program} "$@"' if code is None else f'echo {name} "$@" >> {folder}/calls\n[ "$2" != is-active ] || exit {code}'
        (folder / name).write_text(f"#!/bin/sh\n{script}\n")
        (folder / name).chmod(0o755)
    text = (ROOT / "packaging/debian/postinst").read_text()
    for place in ("/run/systemd/system", "/srv/gopher", "/etc/hole", "/usr/share/hole"):
        text = text.replace(place, f"{folder}{place}")
    (folder / "etc/hole").mkdir(parents=True)
    (folder / "srv/gopher").mkdir(parents=True)
    (folder / "postinst").write_text(text)
    with socket.create_server((HOST, 0)) as listener:
        port = listener.getsockname()[1]
        (folder / "etc/hole/hole.toml").write_text(f'host = "{HOST}"\nport = {port}\nroot = "{folder}/site"\n')
        for name, holder in ("a port that is taken", listener), ("a free port", None):
            if not holder:
                listener.close()
            (folder / "calls").write_text("")
            ran = run("sh", folder / "postinst", "configure", "", env={"PATH": f"{folder}:/usr/bin:/bin"})
            calls = (folder / "calls").read_text()
            told = f"can't listen at: {HOST}:{port}: Address already in use" in ran.stdout
            wanted = (0, bool(holder), not holder, not holder)
            got = (ran.returncode, told, "invoke start hole" in calls, "helper enable hole" in calls)
            test.expect(f"{name}: status, said, started, enabled", got, wanted)


def check_lintian(test, package):
    if is_here("lintian"):
        ran = run("lintian", "--allow-root", "--fail-on", "error,warning", package)
        test.expect("lintian finds no error and no warning", (ran.returncode, ran.stdout), (0, ""))


def check_package(test, package):
    """Installs a package for Debian in a root of its own, has it serve there, and removes it."""
    if os.geteuid() or not shutil.which("dpkg") or not shutil.which("chroot"):
        return skip("the installation: it needs root, dpkg and chroot")
    machine = Machine(test)
    check_installed(test, machine, package)
    check_documents(test, machine)
    check_serves(test, machine)
    check_completion(test, machine)
    check_unit(test, machine)
    check_removed(test, machine)
    check_owner(test, machine, package)


def check_packages(test):
    out, how = test.folder / "dist", options(test.program)
    ran = dist("--program", test.program, "--out", out, *how)
    test.expect("it is packed", (ran.returncode, ran.stderr), (0, ""))
    if ran.returncode == 0:
        print(ran.stdout, end="")
        check_same_bytes(test, out, how)
        check_tarball(test, out)
        for package in out.glob("*.deb"):
            check_package(test, package)
            check_lintian(test, package)


if __name__ == "__main__":
    run_test("package", __doc__, check_refusals, check_unreleased, check_look, check_start, check_packages)
