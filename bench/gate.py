#!/usr/bin/env python3
"""What the gate takes through `cvkit stdio`: payloads, beside the same bytes written by Python, and leases, by the history.

    bench/gate.py [--short] [PROGRAM]

Payloads are of 100 objects of 10 KiB. Python writes the same bytes in the same order: each on its way, a sync of each file and of
the folder, then each to its name, and a sync of the folders. The best of five runs stands, and may take 1.3 times as long as
Python's. Leases are granted, 999 over one connection once it is open, in a repository of one revision and in one of 10,000: the
middle one of five runs each may take 1.5 times as long. The short form stores five objects and grants 20 leases, at 1 and 40
revisions, once each, and prints no time.
"""
import os
import statistics
import sys
import tempfile
import time

sys.path.insert(0, os.path.join(os.path.dirname(os.path.abspath(__file__)), "..", "tools"))
from cvkit_client import REPOSITORIES, Session, expect, lease, main, object_name, payload, plain, repository, workplace
from line import add_line

# How much longer a payload may take than Python takes for its bytes, and a lease beside a long history than beside a short one.
PAYLOAD_RATIO = 1.3
LEASE_RATIO = 1.5


def contents(turn, count):
    """So many objects of 10 KiB, which no other turn has."""
    return [plain((turn << 32 | index).to_bytes(8, "big") + bytes(10_232)) for index in range(count)]


def sync(path):
    handle = os.open(path, os.O_RDONLY)
    os.fsync(handle)
    os.close(handle)


def way_of(folder, id_):
    """Where an object is on its way."""
    return os.path.join(folder, ".cvkit-txn-" + id_)


def by_python(folder, objects):
    """The seconds in which Python puts the objects into a folder."""
    begin = time.perf_counter()
    os.makedirs(folder, exist_ok=True)
    for id_, content in objects:
        with open(way_of(folder, id_), "wb") as file:
            file.write(content)
            file.flush()
            os.fsync(file.fileno())
    sync(folder)
    folders = set()
    for id_, _ in objects:
        path = os.path.join(folder, object_name(id_))
        os.makedirs(os.path.dirname(path), exist_ok=True)
        os.rename(way_of(folder, id_), path)
        folders.add(os.path.dirname(path))
    for path in sorted(folders) + [os.path.join(folder, "data"), folder]:
        sync(path)
    return time.perf_counter() - begin


def by_cvkit(session, objects):
    """The seconds in which the program stores them."""
    asked = payload("1-1", objects)
    begin = time.perf_counter()
    session.send(asked)
    answer = session.reply(120).json()
    took = time.perf_counter() - begin
    expect(answer == {"status": "ok"}, "the answer to a payload", answer)
    return took


def measure_payloads(program, short):
    count, times = (5, 1) if short else (100, 5)
    with repository(program) as folder, Session(program, folder) as session:
        session.exchange(lease("/a"))
        stored = min(by_cvkit(session, contents(turn, count)) for turn in range(times))
        session.close()
    with tempfile.TemporaryDirectory(prefix="cvkit-") as folder:
        written = min(by_python(folder, contents(turn, count)) for turn in range(times))
    if short:
        print(f"{count} objects were stored")
        return
    print(f"{count} objects of 10 KiB: {stored:.3f} s, by Python {written:.3f} s, ratio {stored / written:.2f} of {PAYLOAD_RATIO}")
    expect(stored <= PAYLOAD_RATIO * written, "a payload takes longer than it may", stored / written)


def lease_seconds(program, folder, revision, count):
    """The seconds of one of so many leases, which are granted at this revision over a connection that is open."""
    asked = [lease(f"/n{number}") for number in range(count)]
    with Session(program, folder) as session:
        session.exchange(REPOSITORIES)
        begin = time.perf_counter()
        replies = [session.exchange(one) for one in asked]
        took = time.perf_counter() - begin
        session.close()
    found = {(answer["status"], answer.get("revision")) for answer in (reply.json() for reply in replies)}
    expect(found == {("ok", revision)}, "the answers to leases", found)
    return took / count


def measure_leases(program, short):
    """A lease beside a short history and beside a long one, one run of each after the other."""
    revisions, count, times = ((1, 40), 20, 1) if short else ((1, 10_000), 999, 5)
    with workplace() as first, workplace() as second:
        folders = list(zip((first, second), revisions))
        for folder, revision in folders:
            add_line(folder, revision)
        runs = [[lease_seconds(program, *one, count) for one in folders] for _ in range(times)]
    if short:
        print(f"{count} leases were granted at each of the revisions {revisions}")
        return
    young, old = (statistics.median(seconds) for seconds in zip(*runs))
    print(f"a lease at revision 1: {young * 1e6:.0f} us; at revision 10,000 {old * 1e6:.0f} us; ratio {old / young:.2f} of {LEASE_RATIO}")
    expect(old <= LEASE_RATIO * young, "a lease takes longer beside a long history than it may")


def script(program, short):
    measure_payloads(program, short)
    measure_leases(program, short)


main(script)
