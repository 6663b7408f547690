#!/usr/bin/env python3
"""What is to be answered of a root whose shelf has one byte changed, for the tests of cv_load. The catalogues are those of
`tools/cut_vectors.py`, made from the definition of the format, and they are judged here by a reader of their own.

The tree has a marked directory `/a`, with another, `/a/b`, in it, and a marked directory `/0`. A change makes one byte of one of
the four catalogues one greater; the hashes above it are written anew, so that each catalogue stands under its own hash."""
import hashlib

import cut_vectors
from row_vectors import FLAGS, NO_KEY, TYPES, key, parent
from vectors import constant, settle, table, text

TREE = ("/a/ /a/.cvmfscatalog /a/b/ /a/b/.cvmfscatalog /a/b/f /a/d/ /a/d/x "
        "/0/ /0/.cvmfscatalog /0/l=../r /r")
PATHS = ["/a/b", "/a", "/0", ""]

# How far apart the bytes are that are changed, and how many changes at least leave a root that isn't whole.
STEP = 5
DEFECTS = 200

# The number of a known catalogue, its path, and how many of the first catalogues the shelf lacks.
KNOWN = [(3, "/other", 0), (2, "/0", 0), (1, "/a", 1), (1, "/other", 1), (3, "", 4)]
MISSING = "-"
WHOLE = "+"
MARKER = b".cvmfscatalog"
KINDS = {number: kind for kind, number in FLAGS.items()}


def sha1(data):
    return hashlib.sha1(data).digest()


NODES = cut_vectors.read(TREE)
SHELF = [cut_vectors.catalogues(NODES)[path] for path in PATHS]
CONTENTS = [content for kind, content in NODES.values() if kind == "file"]


def links():
    """Where the hash of one catalogue stands in another: the other, the one, and how many bytes before the end."""
    names = [(1, 0), (3, 1), (3, 2)]
    return [(above, below, len(SHELF[above]) - SHELF[above].index(sha1(SHELF[below]))) for above, below in names]


def changed(place):
    """The shelf whose byte at a place of the catalogues, one after another, is one greater."""
    made = []
    for number, data in enumerate(SHELF):
        data = bytearray(data)
        for above, below, distance in links():
            if above == number:
                start = len(data) - distance
                data[start:start + 20] = sha1(made[below])
        if 0 <= place < len(data):
            data[place] = (data[place] + 1) % 256
        place -= len(data)
        made.append(bytes(data))
    return made


class Wrong(Exception):
    pass


class Reader:
    def __init__(self, data):
        self.data = data
        self.place = 0

    def take(self, count):
        if self.place + count > len(self.data):
            raise Wrong
        self.place += count
        return self.data[self.place - count:self.place]

    def number(self, count):
        return int.from_bytes(self.take(count), "big")


def need(holds):
    if not holds:
        raise Wrong


def good_name(name):
    try:
        name.decode()
    except UnicodeDecodeError:
        return False
    return 1 <= len(name) <= 255 and b"/" not in name and b"\0" not in name and name not in (b".", b"..")


def read_row(reader):
    r = {"key": reader.take(16), "parent": reader.take(16)}
    flags = reader.number(4)
    need(flags in KINDS)
    r["kind"] = KINDS[flags]
    mode = reader.number(4)
    need(mode & ~0o7777 == TYPES[r["kind"]])
    r["attr"] = (mode & 0o7777, reader.number(8), reader.number(4), reader.number(4))
    r["size"] = reader.number(8)
    count = reader.number(1)
    need(count == (20 if r["kind"] == "file" else 0))
    r["hash"] = reader.take(count)
    r["name"] = reader.take(reader.number(2))
    r["target"] = reader.take(reader.number(2))
    if r["kind"] == "link":
        need(1 <= len(r["target"]) <= 4095 and r["size"] == len(r["target"]) and b"\0" not in r["target"])
        try:
            r["target"].decode()
        except UnicodeDecodeError:
            raise Wrong from None
    else:
        need(r["target"] == b"")
        need(r["size"] <= 1 << 24 if r["kind"] == "file" else r["size"] == 0)
    need(good_name(r["name"]) if r["name"] else r["parent"] == NO_KEY)
    return r


def read_entry(reader):
    text = reader.take(reader.number(2))
    names = text.split(b"/")
    need(names[0] == b"" and all(good_name(name) for name in names[1:]) and len(names) <= 65)
    return {"path": text.decode(), "hash": reader.take(20), "size": reader.number(8)}


def read(data, path, above):
    """The rows and nested entries of the catalogue at a path, under the row that names it."""
    reader = Reader(data)
    need(len(data) <= 1 << 24 and reader.take(4) == b"CVR1")
    rows, entries = reader.number(4), reader.number(4)
    need(rows <= 50000)
    rows = [read_row(reader) for _ in range(rows)]
    entries = [read_entry(reader) for _ in range(entries)]
    need(reader.place == len(data))
    need(all(a["key"] < b["key"] for a, b in zip(rows, rows[1:])))
    need(all(a["path"].encode() < b["path"].encode() for a, b in zip(entries, entries[1:])))
    by_key = {r["key"]: r for r in rows}
    top = by_key.get(key(path))
    need(top is not None and top["kind"] == ("nested" if path else "dir") and top["parent"] == parent(path))
    need(top["name"] == path.rsplit("/", 1)[-1].encode())

    def place(r, steps=0):
        need(steps <= 64)
        if r is top:
            return path
        over = by_key.get(r["parent"])
        need(r["kind"] != "nested" and over is not None and over is not r and over["kind"] in ("dir", "nested"))
        return place(over, steps + 1) + "/" + r["name"].decode()

    places = {r["key"]: place(r) for r in rows}
    need(all(key(places[r["key"]]) == r["key"] for r in rows))
    marked = {r["parent"] for r in rows if r["kind"] == "file" and r["name"] == MARKER}
    for r in rows:
        if r["kind"] == "nested":
            need(r["key"] in marked)
        if r["kind"] == "dir" and r is not top:
            need(r["key"] not in marked)
    named = {places[r["key"]]: r for r in rows if r["kind"] == "transition"}
    need(sorted(named) == sorted(e["path"] for e in entries))
    if above is not None:
        need(all(top[field] == above[field] for field in ("key", "parent", "attr", "size", "hash", "name", "target")))
    return rows, entries, named


def faults(shelf):
    """All that may be answered of the root."""
    by_hash = {sha1(data): number for number, data in enumerate(shelf)}
    contents = {sha1(data): data for data in CONTENTS}
    found = set()

    def walk(number, path, above):
        try:
            rows, entries, named = read(shelf[number], path, above)
        except Wrong:
            found.add(number)
            return
        for r in rows:
            if r["kind"] == "file":
                if r["hash"] not in contents:
                    found.add(MISSING)
                elif len(contents[r["hash"]]) != r["size"]:
                    found.add(number)
        for e in entries:
            below = by_hash.get(e["hash"])
            if below is None:
                found.add(MISSING)
            elif len(shelf[below]) != e["size"]:
                found.add(number)
            else:
                walk(below, e["path"], named[e["path"]])

    walk(3, "", None)
    return found


def answer(place):
    """What is to be answered: the number of the catalogue that is bad, or that an object is missing, or that the root is whole."""
    answers = faults(changed(place)) or {WHOLE}
    assert len(answers) == 1, (place, answers)
    return str(answers.pop())


def pairs(number, path, lacking):
    """How many pairs a check gives where a catalogue is known at a path and the shelf lacks the first catalogues."""
    new = set(range(4))
    if path == PATHS[number]:
        new = {other for other in new if not (PATHS[other] + "/").startswith(path + "/")}
    fetched = new | {number} if new else new
    return None if any(other < lacking for other in fetched) else len(new)


def items():
    assert faults(SHELF) == set()
    answers = "".join(answer(place) for place in range(0, sum(len(data) for data in SHELF), STEP))
    assert len(answers) - answers.count(WHOLE) >= DEFECTS
    mode = len(b"".join(SHELF[:3])) + SHELF[3].index(key("/a") + key("")) + 39
    assert answer(mode) == "1"
    yield constant("TREE", "&str", text(TREE))
    yield constant("LINKS", "[(usize, usize, usize); 3]", str(links()))
    yield constant("STEP", "usize", STEP)
    yield constant("ANSWERS", "&str", text(answers))
    yield constant("MODE", "usize", mode)
    rows = []
    for number, path, lacking in KNOWN:
        count = pairs(number, path, lacking)
        rows.append(f'({number}, "{path or "/"}", {lacking}, {count if count is None else f"Some({count})"})')
    yield table("KNOWN", "(usize, &str, usize, Option<usize>)", rows)


if __name__ == "__main__":
    settle("crates/cv_load_tests/src/tests_whole.rt", list(items()))
