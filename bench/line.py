#!/usr/bin/env python3
"""The time of opening a repository by its count of revisions, beside sha1sum, and the fsyncs of making and opening one.

    bench/line.py [--short] [PROGRAM]

The records of 10,000 revisions of the empty tree are made here, each with the hash of the one before, and the manifest of the
newest. `cvkit stdio` opens them without input, `sha1sum` goes over the files of the records, and the best of five runs counts:
opening may take 3 times as long. By `strace -c -f` a first `init` may make 12 fsyncs. The short form has 40 revisions, and
prints no time. Both see that the newest revision is served, in the next epoch, and that a record less is noticed.
"""
import os
import subprocess
import sys
import time

sys.path.insert(0, os.path.join(os.path.dirname(os.path.abspath(__file__)), "..", "tools"))
from cvkit_client import (
    REPOSITORY,
    STRACE,
    Session,
    add_object,
    digest_of,
    ended,
    expect,
    fsyncs,
    get,
    init,
    lease,
    main,
    manifest_path,
    object_name,
    object_path,
    workplace,
)
from cvkit_files import epoch_of
from line_vectors import catalogue, manifest, record, sha1

STDIO = ["stdio", REPOSITORY]
# The fsyncs of `init` on an empty folder: 4 of files and 8 of folders.
FSYNCS, RATIO = 12, 3
BAD_HISTORY = (3, b"", "cvkit: repository: bad history\n")


def add_line(folder, count):
    """The files of so many revisions of the empty tree. It gives the ids of their records."""
    tree, last, ids = catalogue(0o040755), None, []
    add_object(folder, tree, "C")
    for revision in range(1, count + 1):
        token, key = ((1, revision - 1), b"k1") if last else ((0, 0), b"")
        last = record(revision, sha1(last) if last else bytes(20), sha1(tree), token, b"", key)
        add_object(folder, last, "H")
        ids.append(digest_of(last) + "H")
    with open(os.path.join(folder, "srv", "gateway.epoch"), "w") as file:
        file.write("1\n")
    with open(manifest_path(folder), "wb") as file:
        file.write(manifest(count, tree, last))
    return ids


def look(program, folder, count):
    """The newest revision is served, in the next epoch."""
    epoch = epoch_of(folder) + 1
    with Session(program, folder) as session:
        served = session.exchange(get(".cvmfspublished")).content()
        with open(manifest_path(folder), "rb") as file:
            expect(served == file.read(), "the manifest that is served", served)
        granted = session.exchange(lease("/a")).json()
        found = granted["revision"], granted["session_token"]
        expect(found == (count, f"{epoch}-1"), "a lease on the newest revision", granted)
        session.close()


def look_without(program, folder, id_):
    """A record less is noticed."""
    path = object_path(folder, id_)
    os.rename(path, path + ".away")
    found = ended(program, folder, STDIO)
    os.rename(path + ".away", path)
    expect(found == BAD_HISTORY, "an opening without a record", found)


def best(run):
    """The seconds of the shortest of five runs."""

    def timed():
        begin = time.perf_counter()
        run()
        return time.perf_counter() - begin

    return min(timed() for _ in range(5))


def open_once(program, folder):
    found = ended(program, folder, STDIO)
    expect(found == (0, b"", ""), "an opening", found)


def measure(program, folder, ids):
    """Whether opening keeps its bound."""
    opened = best(lambda: open_once(program, folder))
    names = [object_name(id_) for id_ in ids]
    how = {"cwd": os.path.join(folder, "srv"), "stdout": subprocess.DEVNULL, "check": True}
    hashed = best(lambda: subprocess.run(["sha1sum", *names], **how))
    with workplace() as other:
        init(program, other)
        first = best(lambda: open_once(program, other))
    print(
        f"opening {len(ids):,} revisions: {opened * 1000:.0f} ms; sha1sum of their records {hashed * 1000:.0f} ms; "
        f"ratio {opened / hashed:.2f}, of {RATIO}; opening one revision {first * 1000:.0f} ms"
    )
    return opened <= RATIO * hashed


def count_fsyncs(program):
    """Whether `init` keeps its bound."""
    if STRACE is None:
        print("skipped: the fsyncs of init: there is no strace on this machine")
        return True
    with workplace() as folder:
        made, opened = fsyncs(program, folder, ["init", REPOSITORY]), fsyncs(program, folder, STDIO)
    print(f"fsyncs: {made} of init, of {FSYNCS}; {opened} of opening one revision")
    return made <= FSYNCS


def script(program, short):
    count = 40 if short else 10_000
    with workplace() as folder:
        ids = add_line(folder, count)
        look(program, folder, count)
        look_without(program, folder, ids[count // 2])
        in_time = short or measure(program, folder, ids)
    if short:
        print(f"a repository of {count} revisions was opened")
    expect(count_fsyncs(program), "init makes more fsyncs than it may")
    expect(in_time, "opening takes longer than it may")


if __name__ == "__main__":
    main(script)
