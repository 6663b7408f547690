#!/usr/bin/env python3
"""Sends objects under a lease, over `cvkit stdio` and real pipes, reads them back by their hashes and checks them with sha1sum.

    examples/payloads.py [PROGRAM]

What was stored is looked for in the folder too, and in the next opening.
"""
import os
import subprocess
import sys

sys.path.insert(0, os.path.join(os.path.dirname(os.path.abspath(__file__)), "..", "tools"))
from cvkit_client import Session, digest_of, expect, get, lease, main, object_name, object_path, payload, plain, repository

CONTENTS = [b"hello\n", b"", bytes(range(256)) * 400]


def sha1sum(content):
    """The digits that sha1sum writes for these bytes."""
    return subprocess.run(["sha1sum"], input=content, stdout=subprocess.PIPE, check=True).stdout.split()[0].decode()


def read_back(session, what):
    """Each object is served, with the hash by which it was asked."""
    for content in CONTENTS:
        found = session.exchange(get(object_name(digest_of(content)))).content()
        expect(found == content and sha1sum(found) == digest_of(content), what, digest_of(content))
        print(f"{what}: {digest_of(content)}, {len(content)} bytes")


def store(session, token):
    return session.exchange(payload(token, [plain(content) for content in CONTENTS])).json()


def script(program, _short):
    with repository(program) as folder:
        with Session(program, folder) as session:
            refused = store(session, "1-1")
            expect(refused == {"reason": "invalid_token", "status": "error"}, "a payload without a lease", refused)
            session.exchange(lease("/a"))
            for what in ("stored", "sent again"):
                stored = store(session, "1-1")
                print(f"{what}: {stored}")
                expect(stored == {"status": "ok"}, what, stored)
            read_back(session, "read back")
            session.close()
        for content in CONTENTS:
            with open(object_path(folder, digest_of(content)), "rb") as file:
                expect(file.read() == content, "the file of an object", digest_of(content))
        with Session(program, folder) as session:
            read_back(session, "read in the next opening")
            session.close()


main(script)
