#!/usr/bin/env python3
"""Publications for the tests of cv_publisher: what is served, and each request, by the formats and not by the program.

A request is its method, its target, the Authorization header or `-`, the message size or `-`, and the length and the SHA-1 of
its body. Digests are made by hashlib, signatures by hmac.
"""
import hmac
import hashlib

from cut_vectors import TIME, catalogues
from cvkit_client import (
    LEASES, PAYLOADS, REPOSITORY, SEAL, authorization, commit_message, digest_of, lease_message, object_name, pack, pack_header,
    payload_message,
)
from cvkit_release import DIRECTORY, MARKER, file, tree
from vectors import constant, settle, table, text

HELLO = b"hello\n"
TOKEN = "1-1"


def line(method, target, body=b"", signed=None, size=None):
    header = "-" if signed is None else authorization("k1", signed)
    return f"{method} {target} {header} {'-' if size is None else size} {len(body)} {digest_of(body)}"


def fetched(name):
    return line("GET", f"/cvmfs/{REPOSITORY}/{name}")


def manifest(root):
    """A manifest of this root catalogue."""
    lines = (
        f"C{digest_of(root)}\nB{len(root)}\nRd41d8cd98f00b204e9800998ecf8427e\nD240\nS1\nN{REPOSITORY}\nH{'5' * 40}\nT{TIME}\n"
    ).encode()
    digits = digest_of(lines).encode()
    return lines + b"--\n" + digits + b"\n" + hmac.new(SEAL.encode(), digits, hashlib.sha1).digest()


def story(path, before, after, order):
    """The requests by which `after` comes of `before` at a path, whose catalogues are fetched in this order."""
    old, new = catalogues(before), catalogues(after)
    there = {digest_of(data) for data in old.values()}
    sent = {digest_of(content): content for kind, content in after.values() if kind == "file" and content == HELLO}
    sent.update({digest_of(data) + "C": data for data in new.values() if digest_of(data) not in there})
    objects = sorted(sent.items())
    said = payload_message(digest_of(pack_header(*objects)), len(pack_header(*objects)), TOKEN)
    return [
        line("POST", LEASES, lease_message(path), lease_message(path)),
        fetched(".cvmfspublished"),
        *(fetched(object_name(digest_of(old[cut]) + "C")) for cut in order),
        line("POST", PAYLOADS, said + pack(*objects), said, len(said)),
        line("POST", f"{LEASES}/{TOKEN}", commit_message(digest_of(old[""]), digest_of(new[""])), TOKEN.encode()),
    ]


def literal(data):
    """A literal of bytes, with the escapes of Rust."""
    shown = {0x5C: "\\\\", 0x22: '\\"', 0x0A: "\\n", 0x0D: "\\r"}
    return 'b"' + "".join(shown.get(byte) or (chr(byte) if 32 <= byte < 127 else f"\\x{byte:02x}") for byte in data) + '"'


EMPTY = tree()
NESTED = tree({"/n": DIRECTORY, "/n/" + MARKER: file(b""), "/n/x": file(b"x")})
NEW = {"/r": DIRECTORY, "/r/f": file(HELLO)}
INNER = {"/f": file(HELLO), "/g": file(HELLO)}


def main():
    cancel = line("DELETE", f"{LEASES}/{TOKEN}", signed=TOKEN.encode())
    rows = lambda lines: [text(one) for one in lines]
    nested = catalogues(NESTED)
    settle(
        "crates/cv_publisher_tests/src/tests.rt",
        [
            constant("CATALOGUE", "&[u8]", literal(catalogues(EMPTY)[""])),
            constant("MANIFEST", "&[u8]", literal(manifest(catalogues(EMPTY)[""]))),
            constant("OUTER", "&[u8]", literal(nested[""])),
            constant("INNER", "&[u8]", literal(nested["/n"])),
            constant("OUTER_MANIFEST", "&[u8]", literal(manifest(nested[""]))),
            constant("CANCEL", "&str", text(cancel)),
            table("BELOW", "&str", rows(story("/r", EMPTY, {**EMPTY, **NEW}, [""])), "static"),
            table("AT_THE_ROOT", "&str", rows(story("", NESTED, {**NESTED, **INNER}, ["", "/n"])), "static"),
        ],
    )


main()
