#!/usr/bin/env python3
"""Runs of operations for the tests of cv_links, with the list that each leaves, by Python's own lists.

A row for each run. `L` and `F` put a value in, at the end or right after the first (at the end of an empty list);
`f` and `s` take out the first or the second, if it is there. The value is the digit of the operation's place.
"""
import random

from vectors import settle, table, text

random.seed(23)


def left(run):
    values = []
    for value, name in enumerate(run, 1):
        if name == "L" or (name == "F" and not values):
            values.append(value)
        elif name == "F":
            values.insert(1, value)
        elif name == "f":
            del values[0:1]
        else:
            del values[1:2]
    return "".join(map(str, values))


rows = []
for _ in range(32):
    run = "".join(random.choice("LLFFfs") for _ in range(random.randint(4, 9)))
    rows.append(f"({text(run)}, {text(left(run))})")
settle("crates/cv_links_tests/src/tests.rt", [table("RUNS", "(&str, &str)", rows, "static")])
