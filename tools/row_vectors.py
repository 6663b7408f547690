#!/usr/bin/env python3
"""The table of cv_rows_tests: row files by the format's table alone, what is found in them, and what is left of them without a path;
and bad ones, each with its first fault. `crates/cv_rows_tests/src/main.rt` says how a row is read."""
import hashlib
import random
import struct

from vectors import settle_lines

TIME = 1700000000
FLAGS = {"dir": 1, "transition": 3, "nested": 33, "file": 4, "link": 12}
TYPES = {"dir": 0o040000, "transition": 0o040000, "nested": 0o040000, "file": 0o100000, "link": 0o120000}
NO_KEY = bytes(16)
COUNT = 50


def key(path):
    return hashlib.md5(path.encode()).digest()


def parent(path):
    return NO_KEY if path == "" else key(path.rsplit("/", 1)[0])


def row(path, kind, content=b"", mode=None, key_=None, size=None, name=None, target=None):
    if mode is None:
        mode = 0o644 if kind == "file" else 0o777 if kind == "link" else 0o755
    if target is None:
        target = content if kind == "link" else b""
    if size is None:
        size = len(content)
    hash_ = hashlib.sha1(content).digest() if kind == "file" else b""
    if name is None:
        name = path.rsplit("/", 1)[-1].encode()
    k = key(path) if key_ is None else key_
    return (k, k + parent(path) + struct.pack(">IIQIIQ", FLAGS[kind], TYPES[kind] | mode, TIME, 0, 0, size)
            + bytes([len(hash_)]) + hash_ + struct.pack(">H", len(name)) + name + struct.pack(">H", len(target)) + target)


def entry(path, content):
    text = path.encode()
    return struct.pack(">H", len(text)) + text + hashlib.sha1(content).digest() + struct.pack(">Q", len(content))


def file(rows, nested=(), sort=True):
    if sort:
        rows = sorted(rows)
    return b"CVR1" + struct.pack(">II", len(rows), len(nested)) + b"".join(r[1] for r in rows) + b"".join(nested)


def at(data, offset, new):
    return data[:offset] + new + data[offset + len(new):]


def index(rows, path):
    return [r[0] for r in sorted(rows)].index(key(path))


# ---- rows by hand

ROOT = row("", "dir")
A = row("/a", "file", b"hello\n")
D, F, G, MARKER = row("/d", "dir"), row("/d/f", "file", b"f\n"), row("/d/g", "file", b"g\n"), row("/d/.cvmfscatalog", "file")
INNER_ROWS = [row("/d", "nested"), F, G, MARKER]
INNER = file(INNER_ROWS)
OUTER_ROWS = [ROOT, row("/d", "transition")]
# A directory `/a` with a nested catalogue `/a/x`, and one at `/a-b`, whose text stands below.
CROSSED_ROWS = [ROOT, row("/a", "dir"), row("/a/x", "transition"), row("/a-b", "transition")]
EMPTY, ONE = file([ROOT]), file([ROOT, A])
LINKED = file([ROOT, row("/l", "link", b"../t")])
OUTER = file(OUTER_ROWS, [entry("/d", INNER)])
PLAIN_ROWS = [ROOT, D, F, G]
PLAIN = file(PLAIN_ROWS)
CROSSED = file(CROSSED_ROWS, [entry("/a-b", INNER), entry("/a/x", INNER)])
PRUNED = file([ROOT, CROSSED_ROWS[3]], [entry("/a-b", INNER)])
DEEP = "/n" * 64
TOO_DEEP = [row(DEEP, "nested"), row(DEEP + "/.cvmfscatalog", "file")]
FAR, IN_ITSELF = row("/x/f", "file", b"f\n"), (D[0], at(D[1], 16, D[0]))

# What is bad, the place at which it's read, its bytes, and its fault.
FAULTS = [
    ("an empty text", "/", b"", "Short"),
    ("eleven bytes", "/", EMPTY[:11], "Short"),
    ("the last byte lacks", "/", EMPTY[:80], "Short"),
    ("another name of the format", "/", at(EMPTY, 3, b"2"), "BadMagic"),
    ("50,001 rows", "/", b"CVR2" + struct.pack(">I", 50001), "TooLarge"),
    ("flags of no kind", "/", at(EMPTY, 44, struct.pack(">I", 2)), "BadField(44)"),
    ("a bit above the type", "/", at(EMPTY, 48, struct.pack(">I", 0o240755)), "BadField(48)"),
    ("a directory with a size", "/", at(EMPTY, 68, struct.pack(">Q", 1)), "BadField(68)"),
    ("a directory with a hash", "/", at(EMPTY, 76, b"\x14"), "BadField(76)"),
    ("a name of 256 bytes", "/", at(EMPTY, 77, struct.pack(">H", 256)), "BadField(77)"),
    ("a name with a slash", "/", file([row("", "dir", name=b"/")]), "BadField(79)"),
    ("no name below a directory", "/", at(EMPTY, 28, b"\x01"), "BadField(79)"),
    ("a directory with a target", "/", file([row("", "dir", target=b"t")]), "BadField(79)"),
    ("a link with a longer size", "/", file([row("", "link", b"t", size=2)]), "BadField(68)"),
    ("a target with NUL", "/", file([row("", "link", b"\0")]), "BadField(81)"),
    ("a nested path with a slash at its end", "/", file([ROOT], [entry("/d/", b"")]), "BadField(83)"),
    ("a byte more", "/", EMPTY + b"\0", "TrailingBytes"),
    ("rows out of order", "/", file([ROOT, A], sort=False), "Order(1)"),
    ("an entry twice", "/", file(CROSSED_ROWS, [entry("/a-b", INNER)] * 2), "Order(5)"),
    ("no rows", "/", file([]), "Orphan(0)"),
    ("a root row of another key", "/", at(EMPTY, 12, b"\0"), "Orphan(0)"),
    ("a file in no directory", "/", file([ROOT, FAR]), f"Orphan({index([ROOT, FAR], '/x/f')})"),
    ("a key of another path", "/", file([ROOT, row("/a", "file", b"hello\n", key_=bytes(16))]), "BadKey(0)"),
    ("a path of 65 names", DEEP, file(TOO_DEEP), f"BadKey({index(TOO_DEEP, DEEP + '/.cvmfscatalog')})"),
    ("a root row of another name", "/d", file([row("/d", "nested", name=b"e"), F, G, MARKER]), f"BadKey({index(INNER_ROWS, '/d')})"),
    ("a marked directory", "/", file([ROOT, D, F, MARKER]), f"Marker({index([ROOT, D, F, MARKER], '/d')})"),
    ("a nested root without a marker", "/d", file(INNER_ROWS[:3]), f"Marker({index(INNER_ROWS[:3], '/d')})"),
    ("an entry of a plain directory", "/", file([ROOT, D], [entry("/d", INNER)]), "NestedList(0)"),
    ("a transition without an entry", "/", file(OUTER_ROWS), "NestedList(0)"),
    ("an entry of another place", "/", file(OUTER_ROWS, [entry("/e", INNER)]), "NestedList(0)"),
    ("an entry of the catalogue's own place", "/d", file(INNER_ROWS, [entry("/d", INNER)]), "NestedList(0)"),
    ("an entry of the place above", "/d", file(INNER_ROWS, [entry("", INNER)]), "NestedList(0)"),
    ("a directory in itself", "/", file([ROOT, IN_ITSELF, F, G]), f"Orphan({index([ROOT, F], '/d/f')})"),
]


def kept(place, data):
    return f"read {place} {data.hex()}", data.hex()


def by_hand():
    assert len(EMPTY) == 81 and len(ONE) == 171
    for place, data in ("/", EMPTY), ("/", ONE), ("/", LINKED), ("/d", INNER), ("/", OUTER), ("/", PLAIN), ("/", CROSSED), ("/", PRUNED):
        yield kept(place, data)
    for _, place, data, fault in FAULTS:
        yield f"read {place} {data.hex()}", fault
    # at most 16 MiB
    yield "zeros 16777216", "BadMagic"
    yield "zeros 16777217", "TooLarge"
    for path, found in ("/", "'', 1 below"), ("/d", "'d', 2 below"), ("/e", "none, 0 below"):
        yield f"row {path} {PLAIN.hex()}", found
    yield f"nested {OUTER.hex()}", f"/d {hashlib.sha1(INNER).hexdigest()} {len(INNER)};"
    for data in CROSSED, EMPTY:
        yield f"of {data.hex()}", data.hex()
    # a row that is there collides, and changes nothing
    yield f"with {ONE.hex()}", f"collision {key('/a').hex()} {ONE.hex()}"
    yield f"twice {ONE.hex()}", f"collision {key('/a').hex()}"
    yield f"without /a {CROSSED.hex()}", PRUNED.hex()
    yield f"back /a {CROSSED.hex()}", CROSSED.hex()
    yield f"back /d {PLAIN.hex()}", PLAIN.hex()


# ---- rows at random

def generated():
    """The kinds of what stands at the paths of a catalogue of the root, each behind its directory."""
    kinds = {"": "dir"}
    for _ in range(random.randint(1, 9)):
        above = random.choice([path for path, kind in kinds.items() if kind == "dir"])
        kinds.setdefault(above + "/" + random.choice(["a", "b", "a-b", "\u00e9"]), random.choice(["dir", "dir", "file", "link", "transition"]))
    return kinds


def contents_of(kinds):
    """The rows and the nested entries, by their paths."""
    texts = {path: path.encode() if kind in ("file", "link") else b"" for path, kind in kinds.items()}
    rows = {path: row(path, kind, texts[path]) for path, kind in kinds.items()}
    return rows, {path: entry(path, INNER) for path, kind in kinds.items() if kind == "transition"}


def written(rows, nested):
    return file(rows.values(), [nested[path] for path in sorted(nested, key=str.encode)]).hex()


def questions(kinds):
    rows, nested = contents_of(kinds)
    whole = written(rows, nested)
    by_key = sorted(kinds, key=key)
    yield f"read / {whole}", whole
    yield f"of {whole}", whole
    yield f"places {whole}", "".join(path + " " for path in by_key)
    directory = random.choice([path for path, kind in kinds.items() if kind == "dir"])
    inside = [path.rpartition("/")[2] for path in by_key if path and path.rpartition("/")[0] == directory]
    yield f"in {directory or '/'} {whole}", "".join(name + " " for name in inside)
    if len(kinds) > 1:
        gone = random.choice(list(kinds)[1:])
        rest = [path for path in kinds if path != gone and not path.startswith(gone + "/")]
        left = written({path: rows[path] for path in rest}, {path: nested[path] for path in rest if path in nested})
        yield f"without {gone} {whole}", left
        yield f"back {gone} {whole}", whole


def at_random():
    """Catalogues of which no two have the same paths, with six questions each."""
    random.seed(77)
    seen = []
    while len(seen) < COUNT:
        kinds = generated()
        if kinds not in seen:
            seen.append(kinds)
            yield from questions(kinds)


if __name__ == "__main__":
    settle_lines("cv_rows_tests", [*by_hand(), *at_random()])
