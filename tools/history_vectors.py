#!/usr/bin/env python3
"""Expected values for the tests of history records, worked out from the format and not by the reader.

The tests have the first record of the empty repository at time 1700000000 and the record of its second revision (the file
`/a` of `hello` and a newline, published under the lease 1-1 on `/a` with the key `k1`), each with its SHA-1; and for a table
of edits of these two the offset of the first field that is wrong then. A row is the offset of the byte that is set, that
byte, and the expected offset. What a field may be is said here a second time, on whole records.
"""
import hashlib
import struct

from row_vectors import file, row
from vectors import array, numbers, settle


def sha1(data):
    return hashlib.sha1(data).digest()


def sized(text):
    return struct.pack(">H", len(text)) + text


def record(revision, previous, root, offered, token, path, key, time, tag):
    return (
        b"CVH1"
        + struct.pack(">Q", revision)
        + previous
        + root
        + offered
        + struct.pack(">QQ", *token)
        + sized(path)
        + sized(key)
        + struct.pack(">Q", time)
        + sized(tag)
    )


hello = b"hello\n"
root_row = row("", "dir")
file_row = row("/a", "file", hello)
empty_root = sha1(file([root_row]))
next_root = sha1(file([root_row, file_row]))
first = record(1, bytes(20), empty_root, empty_root, (0, 0), b"", b"", 1700000000, b"")
second = record(2, sha1(first), next_root, next_root, (1, 1), b"/a", b"k1", 1700000000, b"")
assert len(first) == 102


def is_text(text):
    try:
        text.decode()
    except UnicodeDecodeError:
        return False
    return True


def is_path(text):
    names = text.split(b"/")[1:]
    return (
        is_text(text)
        and (text == b"" or text[:1] == b"/")
        and len(names) <= 64
        and all(0 < len(n) < 256 and b"\0" not in n and n not in (b".", b"..") for n in names)
    )


def wrong(data):
    """The offset that BadRecord carries, or None for a record."""
    at = 0
    found = {}

    def field(size):
        nonlocal at
        if at + size > len(data):
            raise IndexError
        at += size
        return data[at - size : at]

    def number(size):
        return int.from_bytes(field(size), "big")

    def text(limit, right):
        nonlocal at
        size = number(2)
        if size > (0 if found["first"] else limit):
            return at - 2
        value = field(size)
        return None if right(value) else at - size

    try:
        if field(4) != b"CVH1":
            return 0
        revision = number(8)
        if not 1 <= revision <= 262144:
            return 4
        found["first"] = revision == 1
        if field(20) != bytes(20) and found["first"]:
            return 12
        root = field(20)
        if field(20) != root and found["first"]:
            return 52
        for place in (72, 80):
            if number(8) != 0 and found["first"]:
                return place
        for limit, right in ((4095, is_path), (255, lambda t: is_text(t) and b"\0" not in t)):
            bad = text(limit, right)
            if bad is not None:
                return bad
        if number(8) >= 1 << 62:
            return at - 8
        bad = text(255, lambda t: is_text(t) and all(b >= 32 for b in t))
        if bad is not None:
            return bad
    except IndexError:
        return len(data)
    return at if at < len(data) else None


def edited(data, at, byte):
    """The row of an edit."""
    bad = wrong(data[:at] + bytes([byte]) + data[at + 1 :])
    assert bad is not None, (at, byte)
    return f"({at}, {byte}, {bad})"


def function(name, data):
    return f"fn {name}() -> [u8; {len(data)}] {{\n    {numbers(data)}\n}}"


def record_id(name, data):
    return f"const {name}: ObjectId = ObjectId {{ hash: {numbers(sha1(data))}, kind: Kind::History }};"


FIRST_EDITS = ((12, 1), (31, 1), (52, 0), (79, 1), (87, 1), (89, 1), (91, 1), (101, 1))
SECOND_EDITS = (
    (3, ord("2")), (4, 1), (11, 0), (9, 5), (88, 16), (90, ord("a")),
    (91, 0), (91, ord("/")), (92, 1), (94, 0xFF), (96, 64), (104, 1),
)

# A record that is cut is wrong at its end, and a longer one behind the record.
for whole in (first, second):
    assert wrong(whole) is None
    assert all(wrong(whole[:size]) == size for size in range(len(whole)))
    assert wrong(whole + bytes(1)) == len(whole)

settle(
    "crates/cv_history_tests/src/tests.rt",
    [
        function("first", first),
        function("second", second),
        record_id("FIRST_ID", first),
        record_id("SECOND_ID", second),
        record_id("HELLO_ID", hello),
        f"const NOTHING: [u8; 20] = {numbers(sha1(b''))};",
        array([edited(first, *edit) for edit in FIRST_EDITS]),
        array([edited(second, *edit) for edit in SECOND_EDITS]),
    ],
)
