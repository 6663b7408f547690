#!/usr/bin/env python3
"""Lines for the tests of cv_shell, with what a server replies for each and what is printed of it.

The repository has a file `/f` and a link `/l` to it. Replies are whole responses of HTTP/1.1; a line without one needs no
exchange. The texts are written out here, and digests and seals taken by Python's own hashlib and hmac.
"""
import hashlib
import hmac

from cut_vectors import catalogues
from vectors import constant, numbers, settle, table

NODES = {"": ("dir", b""), "/f": ("file", b"hello\n"), "/l": ("link", b"f")}
CATALOGUE = catalogues(NODES, 1700000000)[""]
JUNK = b"junk"


def literal(data):
    """A literal of bytes, with the escapes of Rust."""
    named = {10: "\\n", 13: "\\r", 34: '\\"', 92: "\\\\"}
    return 'b"%s"' % "".join(named.get(b) or (chr(b) if 32 <= b < 127 else f"\\x{b:02x}") for b in data)


def sha1(data):
    return hashlib.sha1(data).hexdigest().encode()


def manifest(revision, root, name=b"r"):
    """A sealed manifest of these values."""
    key = hashlib.md5(b"").hexdigest().encode()
    lines = b"C%s\nB%d\nR%s\nD240\nS%d\nN%s\nH%s\nT1700000000\n" % (root, len(CATALOGUE), key, revision, name, sha1(b""))
    digits = sha1(lines)
    return lines + b"--\n" + digits + b"\n" + hmac.new(b"seal", digits, "sha1").digest()


def reply(body, code=b"200 OK"):
    return b"HTTP/1.1 %s\r\nContent-Length: %d\r\n\r\n%s" % (code, len(body), body)


ROOT = sha1(CATALOGUE)
FILE = sha1(b"hello\n")
# A line, what the server replies, and what is printed. The client is pinned at revision 5.
STORY = [
    (b"ls ", reply(CATALOGUE), b"names 2\nf\nl\n"),
    (b"stat /f", None, b"file 0644 0 0 6 1700000000\n"),
    (b"stat /l/", None, b"link 0777 0 0 1 1700000000 -> f\n"),
    (b"cat /l", reply(b"hello\n"), b"bytes 6\nhello\n\n"),
    (b"ls /f", None, b"refused: not a directory\n"),
    (b"cat /", None, b"refused: not a file\n"),
    (b"stat /x", None, b"refused: not found\n"),
    (b"cat /f", reply(b"", b"404 Not Found"), b"refused: not served " + FILE + b"\n"),
    (b"cat /f", reply(b"hallo\n"), b"refused: bad object " + FILE + b"\n"),
    (b"ls", None, b"refused: bad line\n"),
    (b"", None, b"refused: bad line\n"),
    (b"renew ", None, b"refused: bad line\n"),
    (b"cat f", None, b"refused: bad line\n"),
    (b"cat /\xff", None, b"refused: bad line\n"),
    (b"renew", reply(manifest(4, ROOT)), b"refused: older\n"),
    (b"renew", reply(manifest(5, sha1(JUNK))), b"refused: forked\n"),
    (b"renew", reply(manifest(6, ROOT, b"s")), b"refused: other repository\n"),
    (b"renew", reply(b"M\n"), b"refused: bad manifest\n"),
    (b"renew", reply(manifest(6, sha1(JUNK))), b"revision 6\n"),
    (b"ls /", reply(JUNK), b"refused: bad catalogue " + sha1(JUNK) + b"C\n"),
    (b"renew", reply(manifest(7, ROOT)), b"revision 7\n"),
    (b"ls /", None, b"names 2\nf\nl\n"),
]

if __name__ == "__main__":
    settle("crates/cv_shell_tests/src/tests.rt", [
        constant("ROOT", "[u8; 20]", numbers(bytes.fromhex(ROOT.decode()), "0x%02x")),
        table("REPLIES", "&[u8]", [literal(given) for _, given, _ in STORY if given is not None], "static"),
        constant("INPUT", "&[u8]", literal(b"\n".join(line for line, _, _ in STORY))),
        constant("OUTPUT", "&[u8]", literal(b"".join(text for _, _, text in STORY))),
    ])
