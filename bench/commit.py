#!/usr/bin/env python3
"""Commits through `cvkit stdio`: how many one connection makes in a second, their fsyncs, and how long one takes by the tree.

    bench/commit.py [--short] [PROGRAM]

A publisher leases a path, sends a file of 1 KiB with the catalogues that change by it, and commits, again and again. First there
is nothing but that file: 300 rounds, beside the fsyncs that the program makes of a payload and of a commit (by strace), and the
time that Python takes to write and sync a file of the same bytes in that folder. Then the file is one beside others: 1,000 and
49,900 files in the one catalogue of the root, and 1,000 directories of ten files that have a catalogue each, in one of which it
stands; the offered tree is the whole tree with the new file, and the best of five rounds counts. Each root that is answered must
be the one that was offered. The short form has small trees and prints no time.
"""
import os
import statistics
import sys
import time

sys.path.insert(0, os.path.join(os.path.dirname(os.path.abspath(__file__)), "..", "tools"))
import line_vectors
from cvkit_client import (
    REPOSITORY,
    STRACE,
    Session,
    add_object,
    commit,
    digest_of,
    expect,
    fsyncs,
    lease,
    main,
    manifest_path,
    payload,
    repository,
    workplace,
)
from cvkit_files import whole_head, whole_object
from cvkit_release import DIRECTORY, MARKER, file, offer, tree

# The seconds in which a commit has to be answered.
PATIENCE = 600
STDIO = ["stdio", REPOSITORY]


def content(number, place=0):
    """A file of 1 KiB, which has no other bytes than its numbers."""
    return file(number.to_bytes(8, "big") + place.to_bytes(8, "big") + bytes(1008))


def one_catalogue(count):
    """So many files in one directory, and the path of one more."""
    nodes = {f"/d/{index:06}": file(b"%d\n" % index) for index in range(count)}
    return tree({"/d": DIRECTORY}, nodes), "/d/leaf"


def catalogues_beside(width, size):
    """A catalogue of so many catalogues, of as many again, of files, each of this size; and beside it an empty directory."""
    tops = ["/d", *(f"/d/{index:02}" for index in range(width))]
    leaves = [f"{top}/{index:02}" for top in tops[1:] for index in range(width)]
    nodes = {"/a": DIRECTORY}
    nodes.update({top: DIRECTORY for top in tops + leaves})
    nodes.update({f"{top}/{MARKER}": file(b"") for top in tops + leaves})
    nodes.update({f"{top}/{name:06}": file(b"%d\n" % name) for top in leaves for name in range(size)})
    return tree(nodes)


def many_catalogues(count):
    """So many directories of ten files with a catalogue each, and the path of one more file in one of them."""
    nodes = {"/d": DIRECTORY}
    for index in range(count):
        top = f"/d/{index:06}"
        nodes.update({top: DIRECTORY, f"{top}/{MARKER}": file(b"")})
        nodes.update({f"{top}/{name}": file(b"%d %d\n" % (index, name)) for name in range(10)})
    return tree(nodes), f"/d/{count // 2:06}/leaf"


def add_first(folder, nodes):
    """Makes the files of a repository whose first revision has this tree. It gives the root, and the objects that are there."""
    root, objects = offer(nodes, line_vectors.TIME)
    for id_, data in objects:
        add_object(folder, data, id_[40:])
    catalogue = dict(objects)[root + "C"]
    record = line_vectors.record(1, bytes(20), bytes.fromhex(root), (0, 0), b"", b"")
    add_object(folder, record, "H")
    with open(os.path.join(folder, "srv", "gateway.epoch"), "w") as epoch:
        epoch.write("0\n")
    with open(manifest_path(folder), "wb") as manifest:
        manifest.write(line_vectors.manifest(1, catalogue, record))
    return root, {id_ for id_, _ in objects}


class Publisher:
    """One who publishes files of new bytes at or below a path of a tree, again and again, over one connection."""

    def __init__(self, nodes, path, root, there, root_time=line_vectors.TIME):
        self.nodes, self.path, self.root, self.there, self.root_time = nodes, path, root, there, root_time
        self.names = [""]
        self.number = 0

    def offer(self):
        """The root that is offered, and the objects of its tree."""
        return offer(self.nodes, self.root_time)

    def requests(self):
        """The requests of the next round, with the root that it offers."""
        self.number += 1
        token = f"1-{self.number}"
        self.nodes.update({self.path + name: content(self.number, place) for place, name in enumerate(self.names)})
        root, objects = self.offer()
        sent = [one for one in objects if one[0] not in self.there]
        self.there |= {id_ for id_, _ in sent}
        asked = lease(self.path), payload(token, sent), commit(token, self.root, root)
        self.root = root
        return asked

    def round(self, session):
        """The seconds that the answers of a round take: of the lease, of the payload and of the commit."""
        seconds, answer = [], None
        for asked in self.requests():
            begin = time.perf_counter()
            session.send(asked)
            answer = session.reply(PATIENCE).json()
            seconds.append(time.perf_counter() - begin)
            expect(answer["status"] == "ok", "an answer", answer)
        made = {"final_revision": self.number + 1, "root_hash": self.root, "status": "ok"}
        expect(answer == made, "the answer to a commit", answer)
        return seconds


def synced(folder):
    """The seconds in which Python writes and syncs a file of 1 KiB, the middle one of 50."""
    seconds = []
    for number in range(50):
        begin = time.perf_counter()
        with open(os.path.join(folder, "written"), "wb") as written:
            written.write(content(number)[1])
            written.flush()
            os.fsync(written.fileno())
        seconds.append(time.perf_counter() - begin)
    return statistics.median(seconds)


def count_fsyncs(program):
    """The fsyncs of opening, of a payload of a file and a catalogue, and of a commit."""
    counts = []
    for length in range(4):
        with workplace() as folder:
            publisher = Publisher(tree(), "/leaf", *add_first(folder, tree()))
            counts.append(fsyncs(program, folder, STDIO, b"".join(publisher.requests()[:length])))
    opened, leased, stored, made = counts
    print(f"fsyncs: {opened} of opening, {leased - opened} of a lease, {stored - leased} of a payload, {made - stored} of a commit")


def measure_rate(program, rounds, short):
    with repository(program) as folder:
        head = whole_head(folder)
        publisher = Publisher(tree(), "/leaf", head.root, set(), head.time)
        with Session(program, folder) as session:
            begin = time.perf_counter()
            seconds = [publisher.round(session) for _ in range(rounds)]
            took = time.perf_counter() - begin
            session.close()
        expect(whole_head(folder).revision == rounds + 1, "the newest revision", whole_head(folder))
        beside = synced(folder)
    if short:
        print(f"{rounds} commits were made")
        return
    middle = [statistics.median(one) * 1000 for one in zip(*seconds)]
    print(
        f"{rounds} rounds: {rounds / took:.1f} commits/s; the middle round takes {middle[0]:.1f} ms for the lease, "
        f"{middle[1]:.1f} ms for the payload, {middle[2]:.1f} ms for the commit; a file written and synced by Python {beside * 1000:.1f} ms"
    )


def measure_tree(program, what, made, rounds, short):
    nodes, path = made
    with workplace() as folder:
        publisher = Publisher(nodes, path, *add_first(folder, nodes))
        with Session(program, folder) as session:
            best = [min(one) * 1000 for one in zip(*(publisher.round(session) for _ in range(rounds)))]
            session.close()
    if short:
        print(f"a commit was made beside {what}")
    else:
        print(f"beside {what}: the lease takes {best[0]:.1f} ms, the payload {best[1]:.1f} ms, the commit {best[2]:.1f} ms")


class Beside(Publisher):
    """One who publishes files in a directory beside a catalogue that stays."""

    def __init__(self, inner, *others):
        self.inner = inner
        super().__init__(tree({"/a": DIRECTORY, "/d": DIRECTORY, f"/d/{MARKER}": file(b"")}), "/a", *others)

    def offer(self):
        """What is offered is the tree of these nodes, whose one nested catalogue, the last entry, is another than they make."""
        root, objects = super().offer()
        sent = dict(objects)
        catalogue = sent.pop(root + "C")[:-28] + bytes.fromhex(digest_of(self.inner)) + len(self.inner).to_bytes(8, "big")
        root = digest_of(catalogue)
        return root, [*((id_, data) for id_, data in sent.items() if id_[40:] != "C"), (root + "C", catalogue)]


def measure_beside(program, width, size, rounds):
    """The milliseconds of the first commit of a connection, of one file, and of the best behind it of one file and of 100."""
    nodes = catalogues_beside(width, size)
    with workplace() as folder:
        root, there = add_first(folder, nodes)
        inner = whole_object(folder, whole_object(folder, root + "C")[-28:-8].hex() + "C")
        publisher, firsts, best = Beside(inner, root, there), [], []
        with Session(program, folder) as session:
            for count in (1, 100):
                publisher.names = [f"/{place:03}" for place in range(count)]
                first, *others = (publisher.round(session)[-1] for _ in range(rounds + 1))
                firsts.append(first)
                best.append(min(others))
            session.close()
    return [seconds * 1000 for seconds in (firsts[0], *best)]


def compare_sizes(program, short):
    """How long a commit takes beside few files and beside many, in other catalogues than its own."""
    width, few, many, rounds = (2, 5, 5, 2) if short else (14, 1_000, 1_021, 20)
    (_, *small), (first, *large) = (measure_beside(program, *one, rounds) for one in ((1, few), (width, many)))
    if short:
        print(f"commits of 1 and 100 files were made beside {few} and {width * width * many} others")
        return
    for count, one, other in zip((1, 100), small, large):
        print(
            f"a commit of {count} files: beside {few:,} others {one:.1f} ms, beside {width * width * many:,} {other:.1f} ms, "
            f"{other / one:.2f} times as long"
        )
    print(f"the first commit of a connection beside {width * width * many:,}: {first:.0f} ms")


def script(program, short):
    if STRACE:
        count_fsyncs(program)
    else:
        print("skipped: the fsyncs: there is no strace on this machine")
    measure_rate(program, 3 if short else 300, short)
    sizes, nested = ((10,), 3) if short else ((1_000, 49_900), 1_000)
    for count in sizes:
        measure_tree(program, f"{count:,} files of one catalogue", one_catalogue(count), 1 if short else 5, short)
    measure_tree(program, f"{nested:,} catalogues of ten files", many_catalogues(nested), 1 if short else 5, short)
    compare_sizes(program, short)


main(script)
