#!/usr/bin/env python3
"""Publishes the files of a Debian package by `cvkit publish` in two steps, and reads all of them back.

    examples/release.py [--full] [PROGRAM]

The gateway is one `cvkit stdio` behind a small listener (`tools/cvkit_gateway.py`). The first folder has the package's files, a
catalogue of their own, and some that the second takes away: by whiteouts, by a changed file, and by an opaque directory. What is
published is read from a plain web server by `cvkit ls` and `cvkit cat`, in the full form by a shell's lines, and each file is
compared with what `sha1sum` says of it; and of the first hundred directories, links and files `cvkit stat` tells what the system
tells of them, but for the owners, which are 0. The package is one in apt's cache: the smallest that has from 20 to 300 files of 256 KiB in all, or in the full form the
first that has from 1,000 to 20,000; or else one that `apt-get download` brings. Without either
nothing is done.
"""
import glob
import hashlib
import os
import shutil
import stat
import subprocess
import sys
import tempfile

sys.path.insert(0, os.path.join(os.path.dirname(os.path.abspath(__file__)), "..", "tools"))
from cvkit_client import REPOSITORY, expect, main, repository
from cvkit_files import whole_head
from cvkit_gateway import gateway
from cvkit_release import MARKER
from cvkit_server import web_server

FULL = "--full" in sys.argv
LEAST, MOST = (1_000, 20_000) if FULL else (20, 300)
# What is downloaded where the cache has no such package.
NAMED = "tzdata" if FULL else "base-files"
# The most bytes of a file that can be published, and of all files.
LARGEST, WHOLE = 16 << 20, 1 << (30 if FULL else 18)
# The seconds that a command may take.
PATIENCE = 500
AT = "/package"


# ---- the package


def sizes_in(package):
    """The sizes of a package's files, or nothing where there is no telling."""
    listed = subprocess.run(["dpkg-deb", "-c", package], stdout=subprocess.PIPE, stderr=subprocess.DEVNULL, text=True, errors="replace")
    return [int(line.split()[2]) for line in listed.stdout.splitlines() if line.startswith("-")] if listed.returncode == 0 else []


def fits(package):
    sizes = sizes_in(package)
    return LEAST <= len(sizes) <= MOST and max(sizes) <= LARGEST and sum(sizes) <= WHOLE


def downloaded(place):
    if shutil.which("apt-get") is None:
        return []
    subprocess.run(["apt-get", "download", NAMED], cwd=place, stdout=subprocess.DEVNULL, stderr=subprocess.DEVNULL, timeout=60)
    return glob.glob(os.path.join(place, "*.deb"))


def find_package(place):
    """The package's file, or None."""
    if shutil.which("dpkg-deb") is None:
        return None
    for package in sorted(glob.glob("/var/cache/apt/archives/*.deb"), key=None if FULL else os.path.getsize):
        if fits(package):
            return package
    return next(filter(sizes_in, downloaded(place)), None)


# ---- the folders


def write(path, content):
    os.makedirs(os.path.dirname(path), exist_ok=True)
    with open(path, "wb") as file:
        file.write(content)


def paths_below(folder, which):
    """The paths below a folder, from there, of which this is so."""
    paths = (os.path.join(above, name) for above, folders, names in os.walk(folder) for name in folders + names)
    return sorted(os.path.relpath(path, folder) for path in paths if which(path))


def files_below(folder):
    """The paths of the regular files below a folder, from there."""
    return paths_below(folder, lambda path: os.path.isfile(path) and not os.path.islink(path))


def make_folders(package, first, second, wanted):
    """The two folders that are published, and what must be there then."""
    subprocess.run(["dpkg-deb", "-x", package, first], check=True)
    files = files_below(first)
    changed, gone = files[0], files[-1]
    write(os.path.join(first, MARKER), b"")
    write(os.path.join(first, "old"), b"It goes with the next release.\n")
    os.symlink(changed, os.path.join(first, "link"))
    for name in "abc":
        write(os.path.join(first, "hidden", name), name.encode())
    shutil.copytree(first, wanted, symlinks=True)
    # What the second brings, and what it takes away.
    write(os.path.join(second, changed), b"changed\n")
    write(os.path.join(second, os.path.dirname(gone), f".wh.{os.path.basename(gone)}"), b"")
    write(os.path.join(second, ".wh.old"), b"")
    write(os.path.join(second, "hidden", ".wh..wh..opq"), b"")
    write(os.path.join(second, "hidden", "new"), b"new\n")
    write(os.path.join(wanted, changed), b"changed\n")
    for path in (gone, "old", "hidden/a", "hidden/b", "hidden/c"):
        os.remove(os.path.join(wanted, path))
    write(os.path.join(wanted, "hidden", "new"), b"new\n")
    return gone, changed


def told_of(path):
    """What `cvkit stat` tells of what was published from here."""
    found = os.lstat(path)
    time = max(0, int(found.st_mtime // 1))
    kind, size, target = "file", found.st_size, ""
    if stat.S_ISDIR(found.st_mode):
        kind, size = "dir", 0
    elif stat.S_ISLNK(found.st_mode):
        kind, target = "link", f" -> {os.readlink(path)}"
    return f"{kind} {stat.S_IMODE(found.st_mode):04o} 0 0 {size} {time}{target}\n"


def digests_of(folder):
    """The digest of each file below a folder, by sha1sum."""
    files = files_below(folder)
    listed = b"\0".join(os.fsencode(path) for path in files) + b"\0"
    ran = subprocess.run(["xargs", "-0", "sha1sum", "--"], cwd=folder, input=listed, stdout=subprocess.PIPE, check=True)
    return dict(zip(files, (line.split()[0].lstrip(b"\\").decode() for line in ran.stdout.splitlines())))


# ---- what is done


class Place:
    """The program in a folder, and a server."""

    def __init__(self, program, folder, port):
        self.program, self.folder, self.url = program, folder, f"http://127.0.0.1:{port}/cvmfs/{REPOSITORY}"

    def run(self, *words, given=b""):
        ran = subprocess.run([self.program, *words], cwd=self.folder, input=given, capture_output=True, timeout=PATIENCE)
        return ran.returncode, ran.stdout, ran.stderr.decode()

    def publish(self, folder, revision):
        found = self.run("publish", self.url, AT, folder)
        expect(found == (0, b"revision %d\n" % revision, ""), f"the publication of {folder}", found)

    def look(self, verb, path):
        return self.run(verb, self.url, path)


def contents_one_by_one(place, files):
    for path in files:
        status, content, line = place.look("cat", f"{AT}/{path}")
        expect(status == 0, f"cat of {path}", line)
        yield path, content


def contents_by_shell(place, files):
    lines = "".join(f"cat {AT}/{path}\n" for path in files).encode()
    status, output, line = place.run("shell", place.url, given=lines)
    expect(status == 0, "the shell", line)
    at = 0
    for path in files:
        end = output.find(b"\n", at)
        head = output[at:end]
        expect(head.startswith(b"bytes "), f"the shell's answer on {path}", head)
        at = end + 1 + int(head[6:]) + 1
        yield path, output[end + 1 : at - 1]
    expect(at == len(output), "the shell's last answer", output[at : at + 80])


def look_at_entries(place, first, second, taken):
    """What is told of the entries of the first release that the second leaves as they are."""
    kinds = {
        "directories": paths_below(first, lambda path: os.path.isdir(path) and not os.path.islink(path)),
        "links": paths_below(first, os.path.islink),
        "files": files_below(first),
    }
    counts = []
    for kind, paths in kinds.items():
        stay = [path for path in paths if path not in taken and not path.startswith("hidden/") and not os.path.lexists(os.path.join(second, path))]
        for path in stay[:100]:
            found = place.look("stat", f"{AT}/{path}")
            expect(found == (0, os.fsencode(told_of(os.path.join(first, path))), ""), f"what is told of {path}", found)
        counts.append(f"{len(stay[:100])} {kind}")
    print(f"of {', '.join(counts)} the kind, permissions, size, time and target are those of the package")


def read_back(place, wanted, gone):
    digests = digests_of(wanted)
    contents = contents_by_shell if FULL else contents_one_by_one
    for path, content in contents(place, sorted(digests)):
        expect(hashlib.sha1(content).hexdigest() == digests[path], f"the content of {path}", content[:80])
    found = place.look("ls", f"{AT}/hidden")
    expect(found == (0, b"new\n", ""), "the names of the opaque directory", found)
    names = sorted(os.listdir(wanted))
    found = place.look("ls", AT)
    expect(found == (0, "".join(f"{name}\n" for name in names).encode(), ""), "the names of the release", found)
    for path in ("old", gone):
        found = place.look("stat", f"{AT}/{path}")
        expect(found == (10, b"", "cvkit: not found\n"), f"what was taken away, {path}", found)
    print(f"read {len(digests)} files back: each has the digest that sha1sum says")


def refuse(place, top):
    """A whiteout that takes nothing away, a parent that isn't there, and no folder: each has its status and its line."""
    bad = os.path.join(top, "bad")
    write(os.path.join(bad, ".wh."), b"")
    for words, status, line in (
        ((AT, bad), 13, "changes: bad whiteout /.wh."),
        ((f"{AT}/none/below", bad), 4, "refused: no_parent"),
        ((AT, os.path.join(top, "none")), 15, "folder failed"),
        ((f"{AT}/{MARKER}", bad), 2, "usage"),
    ):
        found = place.run("publish", place.url, *words)
        expect(found == (status, b"", f"cvkit: {line}\n"), f"publish {words[0]}", found)
        print(f"    publish {words[0]}: status {status}, {line}")


def script(program, _short):
    with tempfile.TemporaryDirectory(prefix="cvkit-") as top, repository(program) as folder:
        package = find_package(top)
        if package is None:
            print("skipped: there is no package of Debian here, and none can be had")
            return
        first, second, wanted = (os.path.join(top, name) for name in ("first", "second", "wanted"))
        gone, changed = make_folders(package, first, second, wanted)
        with gateway(program, folder) as (port, asked):
            place = Place(program, folder, port)
            place.publish(first, 2)
            place.publish(second, 3)
            print(f"published {os.path.basename(package)} in two steps, by {len(asked)} exchanges")
            refuse(place, top)
        expect(whole_head(folder).revision == 3, "the head", whole_head(folder))
        with web_server(folder) as (port, _):
            place = Place(program, folder, port)
            read_back(place, wanted, gone)
            look_at_entries(place, first, second, (gone, "old"))


sys.argv = [word for word in sys.argv if word != "--full"]
main(script)
