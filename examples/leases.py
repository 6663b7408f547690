#!/usr/bin/env python3
"""Asks for a lease, lists it and ends it, over `cvkit stdio` and real pipes, and looks for it in the next opening.

    examples/leases.py [PROGRAM]

The requests are signed by Python's hmac, and the answers read by its json.
"""
import os
import sys

sys.path.insert(0, os.path.join(os.path.dirname(os.path.abspath(__file__)), "..", "tools"))
from cvkit_client import LIST, REPOSITORIES, REPOSITORY, Session, end, expect, lease, main, repository
from cvkit_files import epoch_of, whole_head


def ask(session, what, asked):
    answer = session.exchange(asked).json()
    print(f"{what}: {answer}")
    return answer


def grant(session, what, asked, token, root):
    """A lease that must be granted under this token, on this root at revision 1."""
    granted = ask(session, what, asked)
    expect(granted == {"revision": 1, "root_hash": root, "session_token": token, "status": "ok"}, "the grant", granted)


def first_opening(session, root):
    repositories = ask(session, "repositories", REPOSITORIES)
    expect(repositories == {"repos": [REPOSITORY], "status": "ok"}, "the repositories", repositories)

    grant(session, "granted", lease("/a/"), "1-1", root)
    listed = ask(session, "listed", LIST)
    lines = [(line["key_id"], line["path"]) for line in listed["data"]]
    expect(lines == [("k1", REPOSITORY + "/a")], "the leases", listed)
    busy = ask(session, "asked again", lease("/a"))
    expect(busy["status"] == "path_busy" and busy["lease"] == "1-1", "a path that is leased", busy)
    expect(7190 < busy["time_remaining"] <= 7200, "the time of a lease", busy)

    other = ask(session, "ended with another key", end("1-1", "k2"))
    expect(other == {"reason": "wrong_key", "status": "error"}, "an end with another key", other)
    ended = ask(session, "ended", end("1-1"))
    expect(ended == {"status": "ok"}, "the end", ended)
    again = ask(session, "ended again", end("1-1"))
    expect(again == {"reason": "invalid_token", "status": "error"}, "a second end", again)
    listed = ask(session, "listed", LIST)
    expect(listed == {"data": [], "status": "ok"}, "the leases after the end", listed)

    grant(session, "granted, and left", lease("/left"), "1-2", root)


def second_opening(session, root):
    """The leases of the first opening are gone, and their tokens don't come again."""
    listed = ask(session, "listed in the second opening", LIST)
    expect(listed == {"data": [], "status": "ok"}, "the leases of another opening", listed)
    grant(session, "granted again", lease("/left"), "2-1", root)
    old = ask(session, "ended by its token of before", end("1-2"))
    expect(old == {"reason": "invalid_token", "status": "error"}, "a token of another opening", old)
    ended = ask(session, "ended", end("2-1"))
    expect(ended == {"status": "ok"}, "the end", ended)


def script(program, _short):
    with repository(program) as folder:
        root = whole_head(folder).root
        for epoch, opening in enumerate([first_opening, second_opening], start=1):
            with Session(program, folder) as session:
                opening(session, root)
                session.close()
            expect(epoch_of(folder) == epoch, "the epoch of an opening", epoch_of(folder))
        expect(whole_head(folder).root == root, "leases changed the revision")


main(script)
