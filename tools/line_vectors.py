#!/usr/bin/env python3
"""Expected values for the tests of the line of revisions, worked out from the formats and not by the program.

They are the files of a repository `sw.example.org` that was made at time 1700000000 (its catalogue, its record, its
manifest), and those of its second revision: the same directory with the mode 0700, published under the lease 1-1 on `/`
with the key `k1`. Seals are by the `hmac` of Python under the secret `seal`. The tests have the catalogue, the record and
the manifest of the second revision as they are, and of each file its length and the name that a plain object of its bytes
would have, which tells their SHA-1; and a manifest of revision 3 that names the record of revision 2, and one of revision 2
that names bytes as its record that are none.
"""
import hashlib
import hmac
import struct

from vectors import constant, settle, table

TIME = 1700000000


def sha1(data):
    return hashlib.sha1(data).digest()


def md5(data):
    return hashlib.md5(data).digest()


def catalogue(mode, time=TIME):
    """The catalogue of one directory, which is the root."""
    row = md5(b"") + bytes(16) + struct.pack(">IIQIIQ", 1, mode, time, 0, 0, 0) + bytes(5)
    return b"CVR1" + struct.pack(">II", 1, 0) + row


def sized(text):
    return struct.pack(">H", len(text)) + text


def record(revision, previous, root, token, path, key):
    return (
        b"CVH1"
        + struct.pack(">Q", revision)
        + previous
        + root
        + root
        + struct.pack(">QQ", *token)
        + sized(path)
        + sized(key)
        + struct.pack(">Q", TIME)
        + sized(b"")
    )


def manifest(revision, tree, history):
    lines = b"".join(
        (
            b"C%s\n" % sha1(tree).hex().encode(),
            b"B%d\n" % len(tree),
            b"R%s\n" % md5(b"").hex().encode(),
            b"D240\n",
            b"S%d\n" % revision,
            b"Nsw.example.org\n",
            b"H%s\n" % sha1(history).hex().encode(),
            b"T%d\n" % TIME,
        )
    )
    digits = sha1(lines).hex().encode()
    return lines + b"--\n" + digits + b"\n" + hmac.new(b"seal", digits, "sha1").digest()


def name(data, suffix=""):
    digits = sha1(data).hex()
    return f"data/{digits[:2]}/{digits[2:]}{suffix}"


def literal(data):
    """A literal of bytes."""
    plain = set(range(32, 127)) - set(b'"\\')
    return 'b"' + "".join("\\n" if byte == 10 else chr(byte) if byte in plain else f"\\x{byte:02x}" for byte in data) + '"'


def file(path, data):
    return f'("{path}", {len(data)}, "{name(data)}")'


def files(word, revision, tree, history):
    rows = (name(tree, "C"), tree), (name(history, "H"), history), (".cvmfspublished", manifest(revision, tree, history))
    return table(word, "File", [file(path, data) for path, data in rows], "static")


trees = [catalogue(0o040755), catalogue(0o040700)]
first = record(1, bytes(20), sha1(trees[0]), (0, 0), b"", b"")
second = record(2, sha1(first), sha1(trees[1]), (1, 1), b"", b"k1")
assert len(first) == 102 and len(manifest(1, trees[0], first)) == 222
if __name__ == "__main__":
    settle(
        "crates/cv_swap_tests/src/tests.rt",
        [
            files("FIRST", 1, trees[0], first),
            files("SECOND", 2, trees[1], second),
            constant("CATALOGUE", "&[u8]", literal(trees[1])),
            constant("RECORD", "&[u8]", literal(second)),
        ],
    )
    settle(
        "crates/cv_swap_tests/src/opening_tests.rt",
        [
            constant("AHEAD", "&[u8]", literal(manifest(3, trees[1], second))),
            constant("NAMES_HELLO", "&[u8]", literal(manifest(2, trees[1], b"hello\n"))),
            constant("HELLO", "&str", f'"{name(b"hello" + bytes([10]), "H")}"'),
            constant("FIRST_RECORD", "&str", f'"{name(first, "H")}"'),
            constant("SECOND_RECORD", "&str", f'"{name(second, "H")}"'),
            constant("SECOND_CATALOGUE", "&str", f'"{name(trees[1], "C")}"'),
        ],
    )
