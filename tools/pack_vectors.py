#!/usr/bin/env python3
"""Expected values for the tests of object packs, worked out from the format and not by the reader.

The tests have the pack of two objects (a file of `hello` and a newline, and the catalogue that has it), and for each text of a
table the shortest front of it that shows the fault, with that fault. What a byte shows is said here a second time, over whole
fronts: a front shows a fault where no pack that begins with it has that fault's field as the format wants it.
"""
import hashlib
import re

from row_vectors import file, row
from vectors import constant, numbers, settle, table


def sha1(data):
    return hashlib.sha1(data).hexdigest()


def pack(objects):
    """The bytes of the pack of these (digest and suffix, content) pairs."""
    header = b"V2\nS%d\nN%d\n--\n" % (sum(len(c) for _, c in objects), len(objects))
    for ident, content in objects:
        header += b"C %s %d\n" % (ident.encode(), len(content))
    return header, header + b"".join(c for _, c in objects)


hello = b"hello\n"
catalogue = file([row("", "dir"), row("/a", "file", hello)])
header, whole = pack([(sha1(hello), hello), (sha1(catalogue) + "C", catalogue)])
empty_header, empty = pack([])
assert (len(catalogue), len(header), len(whole)) == (171, 107, 284)


def line_fault(front, at, pattern, whole_pattern):
    """A line's fault where what there is of it can't become a line of this form."""
    end = front.find(b"\n", at)
    text = front[at : end + 1] if end >= 0 else front[at:]
    if re.fullmatch(whole_pattern, text):
        return None, end + 1
    if end < 0 and re.fullmatch(pattern, text):
        return None, None
    return "BadHeader(%d)" % at, None


NUMBER = rb"(0|[1-9][0-9]*)"
PART = rb"(0|[1-9][0-9]*)?"
HEX = rb"[0-9a-f]"


def over(front, at, prefix, limit):
    """Whether the digits after the prefix of the line at this offset pass the limit."""
    found = re.match(prefix + rb"([0-9]+)", front[at:])
    return bool(found) and int(found.group(1)) > limit


def fault(front):
    """The fault that these bytes show and their front without the last byte doesn't; None for none."""
    bad, at = line_fault(front, 0, rb"(V(2)?)?", rb"V2\n")
    if bad or at is None:
        return bad
    bad, after = line_fault(front, at, rb"(S" + PART + rb")?", rb"S" + NUMBER + rb"\n")
    if over(front, at, rb"S", 33554432):
        return "TooLarge"
    if bad or after is None:
        return bad
    total = int(front[at + 1 : after - 1])
    at = after
    bad, after = line_fault(front, at, rb"(N" + PART + rb")?", rb"N" + NUMBER + rb"\n")
    if over(front, at, rb"N", 10000):
        return "TooMany"
    if bad or after is None:
        return bad
    count = int(front[at + 1 : after - 1])
    at = after
    bad, after = line_fault(front, at, rb"(-(-)?)?", rb"--\n")
    if bad or after is None:
        return bad
    at = after
    entries = []
    for index in range(count):
        part = rb"(C( (" + HEX + rb"{0,40}|" + HEX + rb"{40}(C)?|" + HEX + rb"{40}C? " + PART + rb"))?)?"
        bad, after = line_fault(front, at, part, rb"C " + HEX + rb"{40}C? " + NUMBER + rb"\n")
        named = re.match(rb"C (" + HEX + rb"{40})( |C)", front[at:])
        if named and (named.group(1), named.group(2)) in [e[0] for e in entries]:
            return "Duplicate(%d)" % index
        if over(front, at, rb"C " + HEX + rb"{40}C? ", 16777216):
            return "TooLarge"
        if bad or after is None:
            return bad
        size = int(front[at:after].split(b" ")[2])
        entries.append(((named.group(1), named.group(2)), size))
        at = after
    if sum(size for _, size in entries) != total:
        return "BadHeader(3)"
    for index, ((digest, _), size) in enumerate(entries):
        if len(front) < at + size:
            return None
        if sha1(front[at : at + size]).encode() != digest:
            return "HashDiffers(%d)" % index
        at += size
    return "Trailing" if len(front) > at else None


NOTHING = sha1(b"").encode()
A = sha1(b"a").encode()
LINE = b"V2\nS0\nN1\n--\nC "
TABLE = [
    b"X",
    b"V2\r\n",
    b"V2\nT0\n",
    b"V2\nS\n",
    b"V2\nS01\n",
    b"V2\nS-1\n",
    b"V2\nS33554433\n",
    b"V2\nS335544320\n",
    b"V2\nS0\r\n",
    b"V2\nS12\nM0\n",
    b"V2\nS0\nN\n",
    b"V2\nS0\nN10001\n",
    b"V2\nS0\nN0\n-\n",
    b"V2\nS0\nN0\n---",
    b"V2\nS1\nN0\n--\n",
    b"V2\nS0\nN1\n--\nD",
    LINE + b" " + NOTHING,
    LINE + NOTHING.upper() + b" 0\n",
    LINE + NOTHING + b"H 0\n",
    LINE + NOTHING + b"CC 0\n",
    LINE + NOTHING + b"0 0\n",
    LINE + NOTHING + b" \n",
    LINE + NOTHING + b" 00\n",
    LINE + NOTHING + b" 16777217\n",
    LINE + A + b" 0\n",
    b"V2\nS1\nN1\n--\nC " + A + b" 0\n",
    b"V2\nS1\nN1\n--\nC " + A + b" 1\nb",
    b"V2\nS1\nN2\n--\nC " + A + b" 1\nC " + A + b" 0\n",
    b"V2\nS1\nN2\n--\nC " + A + b"C 1\nC " + A + b"C 0\n",
    b"V2\nS1\nN2\n--\nC " + A + b" 1\nC " + A + b"C 0\na",
    b"V2\nS1\nN2\n--\nC " + A + b"C 0\nC " + A + b" 1\na",
    b"V2\nS1\nN3\n--\nC " + NOTHING + b" 0\nC " + A + b" 1\nC " + NOTHING + b"C 0\naa",
    b"V2\nS0\nN0\n--\n\n",
]


def literal(data):
    return "b" + ascii(data)[1:].replace("'", '"')


def shown(data):
    """The row of a text: its shortest front that shows a fault, and the fault."""
    front = next(data[:end] for end in range(len(data) + 1) if fault(data[:end]))
    return f"({literal(front)}, PackFault::{fault(front)})"


# A pack whose last bytes lack shows no fault yet.
for data in [b"V2\nS0\nN0\n--", b"V2\nS1\nN1\n--\nC " + A + b" 1\n", b""]:
    assert fault(data) is None

settle(
    "crates/cv_pack_tests/src/tests.rt",
    [
        constant("HEADER", "&[u8]", literal(header)),
        constant("HEADER_DIGEST", "[u8; 20]", numbers(hashlib.sha1(header).digest()), "static"),
        constant("HELLO", "&[u8]", literal(hello)),
        constant("CATALOGUE", "[u8; 171]", numbers(catalogue), "static"),
        constant("EMPTY_DIGEST", "[u8; 20]", numbers(hashlib.sha1(empty_header).digest()), "static"),
        table("FAULTS", "(&[u8], PackFault)", [shown(data) for data in TABLE], "static"),
    ],
)
