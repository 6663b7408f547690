#!/usr/bin/env python3
"""Fills a catalogue to its last row, over `cvkit stdio` and real pipes, and sees that a row more is refused.

    examples/full.py [PROGRAM]

Two publishers lease a path each in a tree whose one catalogue has room for one row, and each offers that tree with its own
file: both offers fit, and one file is published. The catalogues are made by `tools/cut_vectors.py`, apart from the program.
"""
import os
import sys

sys.path.insert(0, os.path.join(os.path.dirname(os.path.abspath(__file__)), "..", "tools"))
from cvkit_client import LIST, REPOSITORY, Session, commit, expect, get, lease, main, object_name, payload, repository
from cvkit_files import read_catalogue, read_manifest, whole_head
from cvkit_release import file, offer, tree

# The most rows of a catalogue.
LIMIT = 50_000
# The seconds in which an answer has to come.
PATIENCE = 300
CONTENT = file(b"hello\n")
DONE = {"status": "ok"}


def ask(session, what, asked, wanted):
    session.send(asked)
    answer = session.reply(PATIENCE).json()
    expect(answer == wanted, what, answer)
    print(f"{what}: {answer}")


def lease_at(session, path, token, revision, root):
    granted = {"revision": revision, "root_hash": root, "session_token": token, "status": "ok"}
    ask(session, f"a lease on {path or '/'}", lease(path), granted)


def publish(session, token, old, offered, revision):
    """Sends an offer's objects and commits it: the root must be the one that was offered."""
    root, objects = offered
    ask(session, "its objects", payload(token, objects), DONE)
    ask(session, "its commit", commit(token, old, root), {"final_revision": revision, "root_hash": root, "status": "ok"})


def newest_rows(session, root):
    """How many rows the newest root's catalogue has."""
    head = read_manifest(session.exchange(get(".cvmfspublished")).content())
    expect(head.root == root, "the newest root", head)
    rows, nested = read_catalogue(session.exchange(get(object_name(root + "C"))).content())
    expect(nested == [], "nested catalogues", nested)
    return len(rows)


def fill(session, first, time):
    # The root has a row too.
    nodes = tree({f"/{number:05}": CONTENT for number in range(LIMIT - 2)})
    most, with_x, with_y = (offer({**nodes, **more}, time) for more in ({}, {"/x": CONTENT}, {"/y": CONTENT}))
    lease_at(session, "", "1-1", 1, first)
    publish(session, "1-1", first, most, 2)
    expect(newest_rows(session, most[0]) == LIMIT - 1, "the rows of revision 2")

    lease_at(session, "/x", "1-2", 2, most[0])
    lease_at(session, "/y", "1-3", 2, most[0])
    publish(session, "1-2", most[0], with_x, 3)
    expect(newest_rows(session, with_x[0]) == LIMIT, "the rows of revision 3")
    ask(session, "the other objects", payload("1-3", with_y[1]), DONE)
    refusal = {"path": "", "reason": "catalogue_full", "status": "error"}
    ask(session, "the other commit", commit("1-3", most[0], with_y[0]), refusal)
    expect(newest_rows(session, with_x[0]) == LIMIT, "the rows of revision 3 behind the refusal")
    live = {"key_id": "k1", "path": REPOSITORY + "/y", "time_remaining": 0}
    leases = session.exchange(LIST).json()["data"]
    expect([{**one, "time_remaining": 0} for one in leases] == [live], "the lease behind the refusal", leases)


def script(program, _short):
    with repository(program) as folder:
        head = whole_head(folder)
        with Session(program, folder) as session:
            fill(session, head.root, head.time)
            session.close()
        expect(whole_head(folder).revision == 3, "the revision on disk", whole_head(folder))


main(script)
