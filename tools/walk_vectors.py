#!/usr/bin/env python3
"""The table of cv_resolver_tests: trees and questions with the answers by a walk over nested dicts, and what is served as a tree
and is none (`lies.py`). `crates/cv_resolver_tests/src/main.rt` says how a line is read.
"""
import random

import lies
from vectors import settle_lines

random.seed(31)
MARKER = ".cvmfscatalog"
NAMES = ["a", "b", "c"]
TARGETS = ["a", "b/c", "..", "../a", "./b", "a/", "../../c", "/cvmfs/r", "/cvmfs/r/a", "/cvmfs/r/b/../c", "/cvmfs/rr/a", "//cvmfs/r", "/a", "c//b", "l"]
LINKS = 32
COUNT = 300


def generated():
    """A tree as a dict from paths to what stands there, each behind its directory: a dict, a text or a link."""
    entries = {(): "dir"}
    for _ in range(random.randint(4, 14)):
        above = random.choice([path for path, what in entries.items() if what == "dir"])
        if len(above) == 3:
            continue
        kind = random.random()
        if kind < 0.45:
            path = above + (random.choice(NAMES),)
            entries.setdefault(path, "dir")
            if random.random() < 0.6 and entries[path] == "dir":
                entries.setdefault(path + (MARKER,), "file")
        elif kind < 0.7:
            entries.setdefault(above + (random.choice(NAMES),), "file")
        else:
            entries.setdefault(above + (random.choice(NAMES + ["l"]),), "=" + random.choice(TARGETS))
    return entries


def path_text(path):
    return "".join("/" + name for name in path)


def words(entries):
    marks = {"dir": "/", "file": ""}
    return "".join(" " + path_text(path) + marks.get(what, what) for path, what in entries.items() if path)


def count(entries):
    """The catalogues and the contents of files: there is a catalogue of the root and of each directory below it with a marker."""
    files = [path for path, what in entries.items() if what == "file"]
    return 1 + sum(len(path) > 1 and path[-1] == MARKER for path in files) + len(files)


def nested(entries):
    """The same as dicts of dicts: a directory is a dict, a file the text of its path, a link a tuple of its target."""
    top = {}
    for path, what in entries.items():
        if path:
            folder = top
            for name in path[:-1]:
                folder = folder[name]
            folder[path[-1]] = {} if what == "dir" else path_text(path) if what == "file" else (what[1:],)
    return top


def walk(top, names, follows):
    """What stands there, or a refusal."""
    stack, todo, links = [top], list(names), 0
    while todo:
        name = todo.pop(0)
        if name in ("", "."):
            continue
        if not isinstance(stack[-1], dict):
            return None, "not a directory"
        if name == "..":
            stack = stack[:-1] or stack
            continue
        child = stack[-1].get(name)
        if child is None:
            return None, "not found"
        if not isinstance(child, tuple) or not (todo or follows):
            stack.append(child)
            continue
        links += 1
        if links > LINKS:
            return None, "too many links"
        parts = child[0].split("/")
        if parts[0] == "" and len(parts) > 1:
            if parts[1:3] != ["cvmfs", "r"]:
                return None, "not found"
            stack, parts = [top], parts[3:]
        todo = parts + todo
    return stack[-1], None


def answer(top, kind, path):
    there, refusal = walk(top, path, kind != "S")
    if refusal:
        return refusal
    if kind == "L":
        return " ".join(["names"] + sorted(there)) if isinstance(there, dict) else "not a directory"
    if kind == "R":
        return f"content {there}" if isinstance(there, str) else "not a file"
    if isinstance(there, dict):
        return "dir 0"
    return f"file {len(there)}" if isinstance(there, str) else f"link {len(there[0])} -> {there[0]}"


def question(entries):
    """Mostly a path that is there, or one below it."""
    path = random.choice(list(entries))
    if random.random() < 0.6:
        path += tuple(random.choice(NAMES + ["l"]) for _ in range(random.randint(1, 2)))
    return random.choice("LSR"), path


def rows(room, entries, questions):
    """The lines of a tree and of its questions, and what they print."""
    yield f"tree {room}{words(entries)}", f"{count(entries)} objects"
    top = nested(entries)
    for kind, path in questions:
        yield f"{kind} {path_text(path) or '/'}", answer(top, kind, path)


def remark(text):
    """A line that prints itself."""
    yield f"# {text}", f"# {text}"


def chain():
    """Links one behind the other: the last of 32 comes to the file, one more doesn't."""
    entries = {(): "dir", ("f",): "file", ("l0",): "=f"}
    for i in range(1, 34):
        entries[(f"l{i}",)] = f"=l{i - 1}"
    return entries


def by_hand():
    yield from rows(1, {(): "dir"}, [("L", ()), ("S", ()), ("S", ("a",))])
    yield from rows(1, {(): "dir", ("a",): "file"}, [("L", ("a",)), ("R", ("a",)), ("S", ("b",)), ("S", ("a",)), ("L", ()), ("R", ())])
    yield from remark("the 33rd link is one too many")
    yield from rows(1, chain(), [("R", ("l31",)), ("R", ("l32",)), ("S", ("l33",)), ("L", ("l31",))])
    yield from remark("what is kept isn't wanted again")
    yield from rows(64, {(): "dir", ("d",): "dir", ("d", MARKER): "file", ("d", "f"): "file"}, [])
    yield from [("N S /d/f", "2 wanted"), ("N L /d", "0 wanted"), ("N R /d/f", "1 wanted")]


def at_random():
    """Trees, of which no two are the same, with eight questions each."""
    seen = set()
    while len(seen) < COUNT:
        entries = generated()
        questions = [question(entries) for _ in range(8)]
        if words(entries) not in seen:
            seen.add(words(entries))
            yield from remark(f"{len(seen)} of {COUNT} at random")
            yield from rows(2, entries, questions)


settle_lines("cv_resolver_tests", [*by_hand(), *lies.rows(), *at_random()])
