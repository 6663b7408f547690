#!/usr/bin/env python3
"""What calls of a vault cost: over a folder the fsyncs of files and of folders, by strace, and in memory the time of many names.

    bench/vault.py [--short]

The program of crates/cv_calls stores batches of objects, replaces a manifest and makes the first sync over many files,
each over a folder of its own and all in one run. By `strace -f -y` each of its fsyncs shows what it is of. The counts are
compared with those below. The full form has batches of 1,000 objects and a sync over 50,000 files too, and prints the time of
that one; the short form has batches of 1 and 10, and a sync over 10 files.

The program also writes 500,000 names into a vault in memory and syncs, lists ten of them by a prefix, and changes one and
syncs. The seconds of each are printed, and all together may take a minute. The short form has 1,000 names and prints no time.
"""
import os
import re
import shutil
import subprocess
import sys
import tempfile
import time

sys.dont_write_bytecode = True
sys.path.insert(0, os.path.join(os.path.dirname(os.path.dirname(os.path.abspath(__file__))), "tools"))
from vault_calls import path

MANIFEST = "write=txn/manifest>{} sync rename=txn/manifest>.cvmfspublished sync"
FSYNC = re.compile(r"\bf(?:data)?sync\(\d+<([^>]*)>")


def nothing(folder):
    """No folder is there."""


def buckets(folder):
    """The folders of all objects are there."""
    for bucket in range(256):
        os.makedirs(os.path.join(folder, "srv", "data", f"{bucket:02x}"))


def files(count):
    """These folders, with so many files."""

    def prepare(folder):
        buckets(folder)
        for number in range(count):
            with open(os.path.join(folder, "srv", "data", f"{number % 256:02x}", f"{number:038x}"), "wb") as file:
                file.write(b"x" * 100)

    return prepare


def batch(count, before, wanted):
    """A row of a batch of so many objects."""
    prepare, there = (buckets, "the folders are there") if before else (nothing, "no folder is there")
    what = f"a batch of {count:,} object{'s' if count > 1 else ''}, where {there}"
    return what, prepare, before, f"store={count}>1000", wanted


def rows(short):
    """What is done; how its folder is made; calls that aren't counted, and those that are; their fsyncs of files and folders."""
    once = "sync " + MANIFEST.format(1)
    found = [batch(1, "", (1, 5)), batch(10, "", (10, 14))]
    found += [batch(1, "sync", (1, 3)), batch(10, "sync", (10, 12))]
    found += [("a replaced manifest", buckets, once, MANIFEST.format(2), (1, 2))]
    if short:
        return found + [("a first sync over 10 files in 256 folders", files(10), "", "sync", (0, 259))]
    found += [batch(1_000, "", (1_000, 260)), batch(1_000, "sync", (1_000, 258))]
    return found + [("a first sync over 50,000 files in 256 folders", files(50_000), "", "sync", (0, 259))]


def answers(words, tracer=()):
    """What the program of calls prints on these words, run by a tracer if one is given."""
    return subprocess.run([*tracer, path(), *words], stdin=subprocess.DEVNULL, stdout=subprocess.PIPE, check=True, text=True).stdout


def traced(runs, names, top):
    """The fsyncs of files and of folders of each run, a way to make a folder with calls over it; and the seconds of the names."""
    arguments = []
    for number, (prepare, calls) in enumerate(runs):
        folder = os.path.join(top, str(number))
        os.mkdir(folder)
        prepare(folder)
        root = os.path.join(folder, "srv")
        arguments += [f"at={root}" if arguments else root] + calls.split()
    log = os.path.join(top, "strace.log")
    arguments.append(f"memory={names}")
    told = answers(arguments, ["strace", "-f", "-y", "-o", log, "-e", "trace=fsync,fdatasync"]).split()
    if set(told[:-3]) - {"ok", "yes"} or [word.isdigit() for word in told[-3:]] != [True] * 3:
        sys.exit(f"a call failed: {told}")
    counts = [[0, 0] for _ in runs]
    with open(log, errors="replace") as file:
        for path in FSYNC.findall(file.read()):
            if path.startswith(top + os.sep):
                number = int(path[len(top) + 1 :].split(os.sep)[0])
                counts[number][not os.path.basename(path).startswith(".cvkit-")] += 1
    return counts, [int(word) / 1e9 for word in told[-3:]]


def measured(all_rows, names, top):
    """The fsyncs of the calls of each row that are counted, and the seconds of so many names in memory."""
    runs = []
    for _, prepare, before, calls, _ in all_rows:
        runs += [(prepare, f"{before} {calls}"), (prepare, before)]
    counts, seconds = traced(runs, names, top)
    return [(both[0] - first[0], both[1] - first[1]) for both, first in zip(counts[::2], counts[1::2])], seconds


def timed(top):
    """The seconds of a start and a first sync over 50,000 files."""
    folder = os.path.join(top, "timed")
    os.mkdir(folder)
    files(50_000)(folder)
    begin = time.perf_counter()
    answers([os.path.join(folder, "srv"), "sync"])
    return time.perf_counter() - begin


def main():
    if sys.argv[1:] not in ([], ["--short"]):
        sys.exit("usage: vault.py [--short]")
    short = "--short" in sys.argv[1:]
    if shutil.which("strace") is None:
        print("skipped: the fsyncs of the vault: there is no strace on this machine")
        return
    all_rows, wrong = rows(short), 0
    # The time is that of the disk on which this is run.
    place = None if short else os.getcwd()
    with tempfile.TemporaryDirectory(dir=place) as top:
        counts, seconds = measured(all_rows, 1_000 if short else 500_000, top)
        print("| What | fsyncs of files | of folders |\n|---|---|---|")
        for (what, _, _, _, wanted), found in zip(all_rows, counts):
            so = found == wanted
            wrong += not so
            print(f"| {what} | {found[0]:,} | {found[1]:,} |" + ("" if so else f" not {wanted[0]:,} and {wanted[1]:,}"))
        if not short:
            writes, lists, change = seconds
            wrong += sum(seconds) > 60
            print(f"500,000 names written into a vault in memory, and a sync: {writes:.2f} s; ten of them listed by a prefix:")
            print(f"{lists * 1e6:.0f} us; one changed, and a sync: {change * 1e6:.0f} us")
            print(f"a start and a first sync over 50,000 files: {timed(top):.2f} s")
    sys.exit(wrong != 0)


main()
