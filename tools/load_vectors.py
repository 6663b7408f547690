#!/usr/bin/env python3
"""Catalogues of a root and of `/d` below it for the tests of cv_load, good ones and ones of which the lower is wrong. They are
written by the format's table alone."""
import hashlib
import struct

import cut_vectors
from row_vectors import entry, file, key, row
from vectors import array, constant, settle, text

ROOT = row("", "dir")
TRANSITION = row("/d", "transition")
MARKER = row("/d/.cvmfscatalog", "file")
NESTED = row("/d", "nested")
NAMED_TREE = "/a/ /a/.cvmfscatalog /a/b/ /a/b/.cvmfscatalog /a/b/c/ /a/b/c/.cvmfscatalog /a/b/c/f"


def sha1(data):
    return hashlib.sha1(data).hexdigest()


def named(path, digest, size):
    """The entry of a nested catalogue of this digest and size."""
    data = path.encode()
    return struct.pack(">H", len(data)) + data + digest + struct.pack(">Q", size)


def wrong():
    """What is wrong, and the bytes of the catalogue of `/d`."""
    yield "it has no marker", file([NESTED])
    yield "its root row has another mode", file([row("/d", "nested", mode=0o700), MARKER])
    yield "it is the catalogue of another place", file([row("/e", "nested"), row("/e/.cvmfscatalog", "file")])
    yield "it is a catalogue of the root", file([ROOT])
    yield "its rows are out of order", file([MARKER, NESTED], sort=False)
    yield "a row has the key of another path", file([NESTED, MARKER, row("/d/f", "file", key_=key("/d/g"))])
    yield "a transition has no entry", file([NESTED, MARKER, row("/d/e", "transition")])
    yield "an entry has no transition", file([NESTED, MARKER], [entry("/d/e", b"")])
    yield "an entry is that of the place above", file([NESTED, MARKER], [entry("", b"")])
    yield "it says 50,001 rows", b"CVR1" + struct.pack(">II", 50001, 0)


def triple(digest, size, data):
    """The digits of the hash under which a catalogue stands, of its size and of its bytes."""
    return f'("{digest}", "{size:016x}", "{data.hex()}")'


def items():
    contents = {"F": b"f\n", "G": b"g\n"}
    inner = file([NESTED, row("/d/f", "file", contents["F"]), row("/d/g", "file", contents["G"]), MARKER])
    outer = file([ROOT, TRANSITION], [entry("/d", inner)])
    for name, data in ("OUTER", outer), ("INNER", inner):
        yield constant(name, "&str", text(data.hex()))
        yield constant(name + "_ID", "&str", text(sha1(data) + "C"))
    for name, data in contents.items():
        yield constant(name + "_ID", "&str", text(sha1(data)))
    yield constant("INNER_ENTRY", "&str", text(entry("/d", inner)[4:].hex()))
    root = cut_vectors.catalogues(cut_vectors.read(NAMED_TREE))[""]
    yield constant("CUT_ID", "&str", text(sha1(root) + "C"))

    rows = [f"// {what}\n    " + triple(sha1(bad), len(bad), bad) for what, bad in wrong()]
    yield constant("WRONG", f"[(&str, &str, &str); {len(rows)}]", array(rows), "static")
    zeros = bytes((1 << 24) + 1)
    yield constant("LARGE", "(&str, &str)", f'("{sha1(zeros)}", "{len(zeros):016x}")')
    # The catalogue of `/d` has a nested one, `/d/e`, of the digest under which it stands itself.
    digest = b"\x11" * 20
    own = [NESTED, MARKER, row("/d/e", "transition")]
    size = len(file(own, [named("/d/e", digest, 0)]))
    itself = file(own, [named("/d/e", digest, size)])
    yield constant("NAMES_ITSELF", "(&str, &str, &str)", triple(digest.hex(), size, itself))
    yield f"damaged({text(digest.hex() + 'C')}, {text(sha1(itself))})"


if __name__ == "__main__":
    settle("crates/cv_load_tests/src/tests.rt", list(items()))
