#!/usr/bin/env python3
"""Payloads through `cvkit stdio`: how fast they are stored beside sha1sum, and how much memory that takes.

    bench/payload.py [--short] [PROGRAM]

A payload of 32 MiB comes in 100 objects and in 10,000, the most that the interface takes, and the best of three runs stands, each
beside one of sha1sum. It fails where that run had more than 48 MiB of memory: what is stored is 32, and a body beside it would be
as much. The short form sends a few kilobytes and prints no time.
"""
import os
import subprocess
import sys
import time

sys.path.insert(0, os.path.join(os.path.dirname(os.path.abspath(__file__)), "..", "tools"))
from cvkit_client import Session, expect, lease, main, payload, plain, repository

MIB = 1 << 20
# The seconds in which a payload has to be stored.
PATIENCE = 600
# The most memory of the program, in MiB: what is stored is held, and no body beside it.
MOST = 32 + 16


def store_by(session, asked):
    """The seconds in which the payload is stored by a session, and the most memory that the program has had then."""
    session.exchange(lease("/a"))
    begin = time.perf_counter()
    session.send(asked)
    answer = session.reply(PATIENCE).json()
    took = time.perf_counter() - begin
    expect(answer == {"status": "ok"}, "the answer to a payload", answer)
    peak = session.peak()
    session.close()
    return took, peak


def store(program, asked):
    """The same, in a new repository in a folder."""
    with repository(program) as folder, Session(program, folder) as session:
        return store_by(session, asked)


def sha1sum(data):
    begin = time.perf_counter()
    subprocess.run(["sha1sum"], input=data, stdout=subprocess.DEVNULL, check=True)
    return time.perf_counter() - begin


def objects_of(count, size):
    """So many objects of this size, no two alike."""
    return [index.to_bytes(8, "big") + bytes(size - 8) for index in range(count)]


def measure(stored, count, size, times):
    """The seconds of a payload of so many objects of this size, with the memory of its run, and those of sha1sum, in turn."""
    objects = objects_of(count, size)
    asked, data = payload("1-1", [plain(content) for content in objects]), b"".join(objects)
    runs = [(stored(asked), sha1sum(data)) for _ in range(times)]
    return *min(run for run, _ in runs), min(beside for _, beside in runs)


def tell(count, took, peak, beside):
    """Prints what a payload of 32 MiB took, which mustn't be too much memory."""
    speed = f"{32 / took:.1f} MiB/s, {beside / took:.2f} of sha1sum"
    print(f"32 MiB in {count} objects: {took:.3f} s, {speed}, {peak:.0f} MiB of memory at most")
    expect(peak <= MOST, f"at most {MOST} MiB of memory", f"{peak:.0f} MiB")


def script(program, short):
    whole, counts, times = (10_240, (10, 20), 1) if short else (32 * MIB, (100, 10_000), 3)
    for count in counts:
        found = measure(lambda asked: store(program, asked), count, whole // count, times)
        if short:
            print(f"{count} objects were stored")
        else:
            tell(count, *found)


if __name__ == "__main__":
    main(script)
