#!/usr/bin/env python3
"""Leases a second through `cvkit stdio`, and what each costs as the table grows.

    bench/leases.py [--short] [PROGRAM]

Each kind of request is asked 999 times over one connection, one after another, and the best of three runs stands. Leases of
paths of one name are granted, so that the table grows to 999. Paths eight names deep have no parent over a repository of
the root alone: they are searched for in the table, and then refused. The short form asks 20 times and prints no time.
"""
import os
import sys
import time

sys.path.insert(0, os.path.join(os.path.dirname(os.path.abspath(__file__)), "..", "tools"))
from cvkit_client import REPOSITORIES, REPOSITORY, Session, expect, lease, main, repository
from cvkit_files import epoch_of, whole_head


def session(program, folder, requests, answers):
    """The seconds of each exchange, in order. Each answer must have these members."""
    seconds = []
    with Session(program, folder) as connection:
        for asked in requests:
            begin = time.perf_counter()
            reply = connection.exchange(asked)
            seconds.append(time.perf_counter() - begin)
            said = reply.json()
            expect(answers.items() <= said.items(), "the answer", said)
        connection.close()
    return seconds


def script(program, short):
    count, times = (20, 1) if short else (999, 3)

    def best(folder, requests, answers):
        return min((session(program, folder, requests, answers) for _ in range(times)), key=sum)

    with repository(program) as folder:
        granted = {"revision": 1, "root_hash": whole_head(folder).root, "status": "ok"}
        listing = best(folder, [REPOSITORIES] * count, {"repos": [REPOSITORY], "status": "ok"})
        shallow = best(folder, [lease(f"/n{i}") for i in range(count)], granted)
        refusal = {"reason": "no_parent", "status": "error"}
        deep = best(folder, [lease(f"/n{i}/b/c/d/e/f/g/h") for i in range(count)], refusal)
        expect(epoch_of(folder) == 3 * times, "the epoch after so many openings", epoch_of(folder))
    if short:
        print(f"{count} requests of each kind were answered")
        return
    print(f"{count} lists of the repositories: {sum(listing):.3f} s")
    for what, seconds in [("leases granted", shallow), ("leases eight names deep, refused", deep)]:
        last, first, listed = sum(seconds[-100:]), sum(seconds[:100]), sum(listing)
        print(
            f"{count} {what}: {sum(seconds):.3f} s; last hundred to first hundred {last / first:.2f}; "
            f"to the lists {sum(seconds) / listed:.2f}"
        )


main(script)
