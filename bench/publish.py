#!/usr/bin/env python3
"""A folder of files published through `cvkit stdio` and by `cvkit publish`, beside `ostree commit` and `restic backup` of it.

    bench/publish.py [--short] [PROGRAM]

The folder has 1,000 files of 10 KiB of random bytes. Each tool puts it into a repository of its own that is new and empty, on the
disk of the system's folder for temporary files, with the syncs that it makes by itself: how many, by strace. Its time is that of
its process, from its start until it has ended; making the repository doesn't count. For cvkit a client in Python reads and hashes
the files and makes the catalogue, and leases, sends and commits in one connection: the time has that too, and what of it passes
in the client. One tool runs after the other, five times (the last of all alone, three times), and the middle time of each stands. A
tool that isn't there is skipped.

Then the folder has 10,000 such files, and `cvkit publish` takes the client's place: its time is that of its process, whose gateway
is one `cvkit stdio` behind a small listener in Python (`tools/cvkit_gateway.py`), and it has the most memory that its process had.
Ten files are changed, and published again: by cvkit as a folder of these ten, by the others as the whole folder. Before that
`cvkit publish` does the same with 1,000 files, which tells what the other files of the catalogue add to the ten. Then it publishes
1,000 and 10,000 such files as a directory with a catalogue of its own, and ten beside it as another, which are changed then: that
tells what files in other catalogues add.

No repository is removed before the last run has ended: ext4 takes no inode again that was removed in the last minutes, and looks
all of these through for each new file.

The short form has five files, and prints no time. Each repository must have the files then.
"""
import collections
import contextlib
import os
import shutil
import statistics
import subprocess
import sys
import tempfile
import time

sys.path.insert(0, os.path.join(os.path.dirname(os.path.abspath(__file__)), "..", "tools"))
from cvkit_client import (
    REPOSITORY,
    STRACE,
    Session,
    commit,
    digest_of,
    expect,
    lease,
    main,
    object_path,
    payload,
    peak_of,
    repository,
    sync_calls,
)
from cvkit_files import read_file, whole_head
from cvkit_gateway import gateway
from cvkit_release import DIRECTORY, file, offer, tree

# The seconds in which an answer has to come.
PATIENCE = 300
SIZE = 10_240
# What restic asks for, and where it keeps what speeds it up: in the folder of the run.
PASSWORD = "publish"

# How many files are changed for a second publication.
CHANGED = 10
# A publication: the seconds of all of it, and those that passed in the client; and of one after a change: the seconds, and the most
# memory of the two, in MiB.
Taken = collections.namedtuple("Taken", "seconds client again peak", defaults=(0, 0))


def make_files(folder, count):
    """So many files in a folder."""
    os.mkdir(folder)
    for number in range(count):
        with open(os.path.join(folder, f"{number:06}"), "wb") as made:
            made.write(os.urandom(SIZE))


def change(folder):
    """Gives the first files of a folder other contents, and their names."""
    names = sorted(os.listdir(folder))[:CHANGED]
    for name in names:
        with open(os.path.join(folder, name), "wb") as changed:
            changed.write(os.urandom(SIZE))
    return names


def run_measured(words, place, env=None):
    """Runs these words, which must end with status 0: their output, the seconds, and the most memory, in MiB.

    The memory is looked at every few milliseconds.
    """
    begin, peak = time.perf_counter(), 0
    child = subprocess.Popen(words, cwd=place, env=env, stdin=subprocess.DEVNULL, stdout=subprocess.PIPE, stderr=subprocess.DEVNULL)
    while child.poll() is None:
        peak = max(peak, peak_of(child.pid))
        time.sleep(0.005)
    seconds = time.perf_counter() - begin
    output = child.stdout.read()
    child.stdout.close()
    expect(child.returncode == 0, f"{words[0]} {words[1]}", child.returncode)
    return output, seconds, peak


def contents_of(folder):
    return {name: read_file(os.path.join(folder, name)) for name in sorted(os.listdir(folder))}


def requests_of(folder, head):
    """The requests that publish a folder at `/files` of a new repository, and the root that they offer."""
    nodes = {f"/files/{name}": file(content) for name, content in contents_of(folder).items()}
    root, objects = offer(tree({"/files": DIRECTORY}, nodes), head.time)
    return [lease("/files"), payload("1-1", objects), commit("1-1", head.root, root)], root


def look(found, folder):
    """What a tool has must be the folder."""
    wanted = contents_of(folder)
    expect(found == wanted, "the files of a repository", (len(found), len(wanted)))


class Cvkit:
    """`cvkit stdio`, over a repository that `cvkit init` makes."""

    name = "cvkit"

    def __init__(self, program):
        self.program = program

    def lacks(self):
        return False

    def publish(self, folder, kept):
        place = kept.enter_context(repository(self.program))
        head, begin = whole_head(place), time.perf_counter()
        with Session(self.program, place) as session:
            asked, root = requests_of(folder, head)
            client, answers = time.perf_counter() - begin, []
            for one in asked:
                session.send(one)
                answers.append(session.reply(PATIENCE).json())
            session.close()
        seconds = time.perf_counter() - begin
        expect(answers[-1] == {"final_revision": 2, "root_hash": root, "status": "ok"}, "the answer to a commit", answers[-1])
        expect(whole_head(place).root == root, "the newest root", root)
        names = {name: object_path(place, digest_of(content)) for name, content in contents_of(folder).items()}
        look({name: read_file(path) for name, path in names.items()}, folder)
        return Taken(seconds, client)

    def syncs(self, folder):
        with repository(self.program) as place:
            asked, _ = requests_of(folder, whole_head(place))
            return sync_calls([self.program, "stdio", REPOSITORY], place, b"".join(asked))


class Publisher:
    """`cvkit publish`, over a gateway of a repository that `cvkit init` makes."""

    name = "cvkit publish"

    def __init__(self, program):
        self.program = program

    def lacks(self):
        return False

    def run(self, place, port, path, folder, revision):
        words = [self.program, "publish", f"http://127.0.0.1:{port}/cvmfs/{REPOSITORY}", path, folder]
        output, seconds, peak = run_measured(words, place)
        expect(output == b"revision %d\n" % revision, "what a publication printed", output)
        return seconds, peak

    def publish(self, folder, kept):
        place = kept.enter_context(repository(self.program))
        with gateway(self.program, place) as (port, _):
            seconds, peak = self.run(place, port, "/files", folder, 2)
            changes = os.path.join(place, "changes")
            os.mkdir(changes)
            for name in change(folder):
                shutil.copy2(os.path.join(folder, name), changes)
            again, second_peak = self.run(place, port, "/files", changes, 3)
        names = {name: object_path(place, digest_of(content)) for name, content in contents_of(folder).items()}
        look({name: read_file(path) for name, path in names.items()}, folder)
        return Taken(seconds, 0, again, max(peak, second_peak))

    def syncs(self, _folder):
        """They are the gateway's, as those of `cvkit stdio`."""
        return None


class Apart(Publisher):
    """The same, of a directory with a catalogue of its own, and of ten files beside it in another, which are changed then."""

    name = "cvkit publish, the ten in a catalogue of their own"

    def publish(self, folder, kept):
        place = kept.enter_context(repository(self.program))
        others, ten = os.path.join(place, "others"), os.path.join(place, "ten")
        shutil.copytree(folder, others)
        make_files(ten, CHANGED)
        marks = [os.path.join(one, ".cvmfscatalog") for one in (others, ten)]
        for mark in marks:
            open(mark, "wb").close()
        with gateway(self.program, place) as (port, _):
            seconds, peak = self.run(place, port, "/files", others, 2)
            self.run(place, port, "/ten", ten, 3)
            os.remove(marks[1])
            change(ten)
            again, second_peak = self.run(place, port, "/ten", ten, 4)
        for one in (others, ten):
            names = {name: object_path(place, digest_of(content)) for name, content in contents_of(one).items()}
            look({name: read_file(path) for name, path in names.items()}, one)
        return Taken(seconds, 0, again, max(peak, second_peak))


class Tool:
    """A tool that puts a folder into a repository by one command."""

    def __init__(self, name, made, published, given_back):
        self.name, self.made, self.published, self.given_back = name, made, published, given_back

    def lacks(self):
        return shutil.which(self.name) is None

    def words(self, words, place, folder):
        where = {"repository": os.path.join(place, "repository"), "folder": folder, "out": os.path.join(place, "out")}
        return [self.name] + [word.format(**where) for word in words]

    def run(self, words, place, folder):
        _, seconds, peak = run_measured(self.words(words, place, folder), place, around(place))
        return seconds, peak

    def publish(self, folder, kept):
        place = kept.enter_context(tempfile.TemporaryDirectory(prefix="cvkit-"))
        self.run(self.made, place, folder)
        seconds, peak = self.run(self.published, place, folder)
        change(folder)
        again, second_peak = self.run(self.published, place, folder)
        self.run(self.given_back, place, folder)
        out = os.path.join(place, "out")
        below = out + folder
        look(contents_of(below if os.path.isdir(below) else out), folder)
        return Taken(seconds, 0, again, max(peak, second_peak))

    def syncs(self, folder):
        with tempfile.TemporaryDirectory(prefix="cvkit-") as place:
            self.run(self.made, place, folder)
            return sync_calls(self.words(self.published, place, folder), place, env=around(place))


def around(place):
    """The environment of a tool's run."""
    return {**os.environ, "RESTIC_PASSWORD": PASSWORD, "RESTIC_CACHE_DIR": os.path.join(place, "cache"), "HOME": place}


OSTREE = Tool(
    "ostree",
    ["init", "--repo={repository}"],
    ["commit", "--repo={repository}", "--branch=files", "{folder}"],
    ["checkout", "--repo={repository}", "--user-mode", "files", "{out}"],
)
RESTIC = Tool(
    "restic",
    ["init", "--repo={repository}"],
    ["backup", "--repo={repository}", "{folder}"],
    ["restore", "--repo={repository}", "--target={out}", "latest"],
)


def tell(tool, runs, folder):
    """A line on the runs of a tool."""
    seconds, client, again, peak = (statistics.median(one) for one in zip(*runs))
    parts = [f"{seconds:.2f} s" + (f", of which {client:.2f} s in its client" if client else "")]
    parts.append(f"from {min(runs).seconds:.2f} to {max(runs).seconds:.2f} s")
    if again:
        parts.append(f"{CHANGED} changed files {again:.2f} s")
        parts.append(f"{peak:.0f} MiB at most")
    syncs = tool.syncs(folder) if STRACE else None
    if syncs is not None:
        parts.append("syncs: " + (", ".join(f"{count:,} {call}" for call, count in sorted(syncs.items())) or "none"))
    print(f"{tool.name}: {'; '.join(parts)}")
    return seconds, again


def measure(tools, count, times, short, kept):
    """Has each tool publish so many files so often, one tool after the other, and keeps what was made."""
    for tool in tools:
        if tool.lacks():
            print(f"skipped: {tool.name}: it isn't on this machine")
    tools = [tool for tool in tools if not tool.lacks()]
    folder = os.path.join(kept.enter_context(tempfile.TemporaryDirectory(prefix="cvkit-")), "files")
    make_files(folder, count)
    runs = list(zip(*([tool.publish(folder, kept) for tool in tools] for _ in range(times))))
    if short:
        print(f"{count} files were published by {', '.join(tool.name for tool in tools)}")
        return
    print(f"{count:,} files of 10 KiB, the middle one of {times} runs:")
    own, *others = [tell(tool, one, folder) for tool, one in zip(tools, runs)]
    for tool, (seconds, again) in zip(tools[1:], others):
        changed = f", {CHANGED} changed files {own[1] / again:.2f}" if own[1] else ""
        print(f"{tools[0].name} to {tool.name}: {own[0] / seconds:.2f}{changed}")


def script(program, short):
    times = 1 if short else 5
    with contextlib.ExitStack() as kept:
        measure([Cvkit(program), OSTREE, RESTIC], 5 if short else 1_000, times, short, kept)
        if not short:
            measure([Publisher(program), Apart(program)], 1_000, times, short, kept)
        measure([Publisher(program), OSTREE, RESTIC], 5 if short else 10_000, times, short, kept)
        measure([Apart(program)], 5 if short else 10_000, 1 if short else 3, short, kept)


main(script)
