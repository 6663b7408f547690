#!/usr/bin/env python3
"""Publishes two releases by two keys, over `cvkit stdio` and real pipes, and reads all of each revision back by its hashes.

    examples/commit.py [PROGRAM]

The catalogues that are sent are made by `tools/cut_vectors.py`, and those that are served are read by `tools/cvkit_files.py`:
both by the tables of the formats, apart from the program. Each object that comes back is hashed by sha1sum.
"""
import os
import subprocess
import sys

sys.path.insert(0, os.path.join(os.path.dirname(os.path.abspath(__file__)), "..", "tools"))
from cvkit_client import (
    REPOSITORY,
    Session,
    commit,
    digest_of,
    expect,
    expect_refusal,
    get,
    lease,
    main,
    object_name,
    payload,
    repository,
)
from cvkit_files import read_manifest, read_record, read_tree, whole_head
from cvkit_release import DIRECTORY, MARKER, file, offer, tree

# The first release has a catalogue of its own.
APP = {
    "/app": DIRECTORY,
    f"/app/{MARKER}": file(b""),
    "/app/README": file(b"Says hello.\n"),
    "/app/bin": DIRECTORY,
    "/app/bin/hello": file(b"#!/bin/sh\necho hello\n"),
}
DATA = {"/data": DIRECTORY, "/data/table": file(bytes(range(256)) * 400)}
# The flags and the mode of a row, by what stands at the path.
PLAIN_FILE, PLAIN_DIRECTORY, NESTED_ROOT = (4, 0o100644), (1, 0o040755), (33, 0o040755)


def sha1sum(content):
    """The digits that sha1sum writes for these bytes."""
    return subprocess.run(["sha1sum"], input=content, stdout=subprocess.PIPE, check=True).stdout.split()[0].decode()


def fetch(session, id_, size=None):
    """An object by its id, whose bytes must have that hash, and this size where one is said."""
    content = session.exchange(get(object_name(id_))).content()
    expect(sha1sum(content) == id_[:40], "an object of another hash", id_)
    expect(size in (None, len(content)), "an object of another size", (id_, len(content)))
    return content


def wanted_row(nodes, path):
    """What the row of a path has to say: flags, mode, size and hash."""
    kind, content = nodes[path]
    if kind == "file":
        return *PLAIN_FILE, len(content), digest_of(content)
    form = NESTED_ROOT if path and f"{path}/{MARKER}" in nodes else PLAIN_DIRECTORY
    return *form, 0, ""


def read_back(session, revision, nodes):
    """All of the newest revision, which must be this one and have this tree. It gives the head."""
    head = read_manifest(session.exchange(get(".cvmfspublished")).content())
    expect(head.revision == revision, "the newest revision", head)
    rows = read_tree(lambda id_, size: fetch(session, id_, size), head.root)
    found = {path: (row.flags, row.mode, row.size, row.hash) for path, row in rows.items()}
    expect(found == {path: wanted_row(nodes, path) for path in nodes}, "the rows of the revision", found)
    print(f"revision {revision}, root {head.root}:")
    for path, row in sorted(rows.items()):
        if row.hash:
            content = fetch(session, row.hash, row.size)
            expect(content == nodes[path][1], "the bytes of a file", path)
            print(f"    {row.hash} {len(content):7,} {path}")
    return head


def check_history(session, head, wanted):
    """The records from the newest back say these publications, and then comes the first one."""
    id_ = head.record
    for revision, root, offered, token, path, key, tag in wanted:
        record = read_record(fetch(session, id_ + "H"))
        said = record.revision, record.root, record.offered, f"{record.epoch}-{record.number}", record.path, record.key, record.tag
        expect(said == (revision, root, offered, token, path, key, tag), "a record", record)
        print(f"    {record.revision} by {record.key} under {token} on {path}, tag {tag!r}")
        id_ = record.previous
    expect(read_record(fetch(session, id_ + "H")).revision == 1, "the first record", id_)


def ask(session, what, asked):
    answer = session.exchange(asked).json()
    print(f"{what}: {answer}")
    return answer


def grant(session, path, key, token, revision, root):
    granted = ask(session, f"{key} leases {path}", lease(path, key))
    wanted = {"revision": revision, "root_hash": root, "session_token": token, "status": "ok"}
    expect(granted == wanted, "the grant", granted)


def send(session, token, objects, key):
    stored = ask(session, f"{key} sends {len(objects)} objects", payload(token, objects, key))
    expect(stored == {"status": "ok"}, "the answer to a payload", stored)


def publish(session, asked, revision, root):
    made = ask(session, "committed", asked)
    expect(made == {"final_revision": revision, "root_hash": root, "status": "ok"}, "the answer to a commit", made)


def refuse(session, what, asked, reason, **members):
    reply = session.exchange(asked)
    expect_refusal(reply, reason, **members)
    print(f"{what}: {reply.line}, {reply.body.decode().strip()}")


def publish_both(session, first, time):
    """Two publishers lease at the first revision, and commit one after the other. It gives the newest root and its history."""
    grant(session, "/app", "k1", "1-1", 1, first)
    grant(session, "/data", "k2", "1-2", 1, first)
    app, objects = offer(tree(APP), time)
    send(session, "1-1", objects, "k1")
    publish(session, commit("1-1", first, app, "k1", tag="v1"), 2, app)
    by_app = (2, app, app, "1-1", "/app", "k1", "v1")
    check_history(session, read_back(session, 2, tree(APP)), [by_app])

    # The second publisher still offers what it made of the first revision. The first release stays where it is.
    data, objects = offer(tree(DATA), time)
    both, _ = offer(tree(APP, DATA), time)
    send(session, "1-2", objects, "k2")
    publish(session, commit("1-2", first, data, "k2"), 3, both)
    check_history(session, read_back(session, 3, tree(APP, DATA)), [(3, both, data, "1-2", "/data", "k2", ""), by_app])
    return both


def ask_in_vain(session, first, newest):
    """Commits that are refused, and change nothing."""
    refuse(session, "under a lease that has ended", commit("1-1", newest, first), "invalid_token")
    grant(session, "/app", "k1", "1-3", 3, newest)
    refuse(session, "by another key", commit("1-3", newest, first, "k2"), "wrong_key")
    refuse(session, "on a root from before the lease", commit("1-3", first, first), "stale_base", revision=3)
    refuse(session, "with a tag again", commit("1-3", newest, first, tag="v1"), "tag_taken", revision=2)
    refuse(session, "a root that isn't there", commit("1-3", newest, "0" * 40), "missing_object", object="0" * 40 + "C")


def script(program, _short):
    with repository(program) as folder:
        head = whole_head(folder)
        with Session(program, folder) as session:
            newest = publish_both(session, head.root, head.time)
            ask_in_vain(session, head.root, newest)
            read_back(session, 3, tree(APP, DATA))
            session.close()
        print("and in the next opening")
        with Session(program, folder) as session:
            grant(session, "/app", "k1", "2-1", 3, newest)
            read_back(session, 3, tree(APP, DATA))
            session.close()
        expect(whole_head(folder).revision == 3, "the revision on disk", whole_head(folder))


main(script)
