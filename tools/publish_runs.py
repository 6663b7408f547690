"""Publications for cv_run_tests: folders, what the gateway replies, what the links to it must take, and what is printed.

Digests are made by hashlib, signatures by hmac, catalogues by `cut_vectors.py` and manifests by `line_vectors.py`.
"""
import json

import runs
from cut_vectors import catalogues
from cvkit_client import LEASES, PAYLOADS, REPOSITORY, authorization, commit_message, digest_of, lease_message, object_name, pack, pack_header, payload_message
from line_vectors import first, manifest

TIME = 1700000000
HELLO = b"hello\n"
DIRECTORY = ("dir", b"")
# A tree with two files in a directory, and one with nothing.
BASE = {"": DIRECTORY, "/r": DIRECTORY, "/r/d": DIRECTORY, "/r/d/x": ("file", b"x\n"), "/r/d/y": ("file", b"y\n")}
EMPTY = {"": DIRECTORY}
# What is left of the first where a folder takes one file out and brings another.
NEXT = {**{path: node for path, node in BASE.items() if path != "/r/d/x"}, "/r/d/z": ("file", HELLO)}
# A catalogue of its own, and a link, which take the place of what stood there.
OPAQUE = {
    "": DIRECTORY, "/r": DIRECTORY, "/r/.cvmfscatalog": ("file", b""), "/r/d": DIRECTORY, "/r/d/f": ("file", HELLO), "/r/l": ("link", b"d/f"),
}


# ---- replies


def reply(body, kind="application/json", status="200 OK"):
    return f"HTTP/1.1 {status}\r\nContent-Type: {kind}\r\nContent-Length: {len(body)}\r\nConnection: close\r\n\r\n".encode() + body


def said(**members):
    return reply(json.dumps(members, separators=(",", ":"), sort_keys=True).encode())


def octets(body):
    return reply(body, "application/octet-stream")


def root_of(nodes):
    return digest_of(catalogues(nodes, TIME)[""])


def granted(nodes):
    return said(revision=1, root_hash=root_of(nodes), session_token="1-1", status="ok")


def served(nodes):
    return octets(manifest(2, catalogues(nodes, TIME)[""], first))


def committed(nodes):
    return said(final_revision=3, root_hash=root_of(nodes), status="ok")


DONE = said(status="ok")
ABSENT = reply(b"Not Found\n", "text/plain", "404 Not Found")
BUSY = said(lease="1-2", status="path_busy", time_remaining=9)
STALE = said(reason="stale_base", revision=3, status="error")
GONE = said(reason="invalid_token", status="error")


# ---- requests


def asked(method, target, body=b"", signed=None, size=None):
    lines = [f"{method} {target} HTTP/1.1", "Host: h", "Connection: close"]
    if signed is not None:
        lines.append("Authorization: " + authorization("k1", signed))
    if size is not None:
        lines.append(f"Message-Size: {size}")
    return "\r\n".join([*lines, f"Content-Length: {len(body)}"]).encode() + b"\r\n\r\n" + body


def lease(path):
    return asked("POST", LEASES, lease_message(path), lease_message(path))


def get(file):
    return asked("GET", f"/cvmfs/{REPOSITORY}/{file}")


def catalogue(nodes):
    digits = root_of(nodes)
    return get(f"data/{digits[:2]}/{digits[2:]}C")


def payload(*objects):
    objects = sorted(objects)
    header = pack_header(*objects)
    message = payload_message(digest_of(header), len(header), "1-1")
    return asked("POST", PAYLOADS, message + pack(*objects), message, len(message))


def made(nodes, *contents):
    """The objects of a publication: its catalogues, and these contents."""
    return [(digest_of(data) + "C", data) for data in catalogues(nodes, TIME).values()] + [(digest_of(data), data) for data in contents]


def commit(old, new):
    return asked("POST", f"{LEASES}/1-1", commit_message(root_of(old), root_of(new)), b"1-1")


CANCEL = asked("DELETE", f"{LEASES}/1-1", b"", b"1-1")
HEAD = get(".cvmfspublished")


# ---- rows


def publish(path, items, exchanges, output=b"", code=0, line="", parts=()):
    """A run of `publish` with the folder of these items. An exchange is a request and its reply; a reply that is None is that of a
    link that can't be dialled."""
    links = [runs.given("link", given) for _, given in exchanges if given is not None]
    took = b"".join(asking for asking, given in exchanges if given is not None)
    words = ["publish", f"http://h/cvmfs/{REPOSITORY}", path, "changes"]
    parts = [*parts, *(f"item {item}" for item in items), *links]
    return runs.run(words, *parts, code=code, line=line, output=output, requests=took)


def begun(path, nodes):
    return [(lease(path), granted(nodes)), (HEAD, served(nodes)), (catalogue(nodes), octets(catalogues(nodes, TIME)[""]))]


ITEMS = ["dir /d", "file /d/.wh.x", "file /d/z hello\\n"]
STORY = begun("/r", BASE) + [(payload(*made(NEXT, HELLO)), DONE), (commit(BASE, NEXT), committed(NEXT))]
CAUGHT = begun("/r", BASE)
FILE = ["file /f hello\\n"]
# A manifest under another seal; and one whose root's catalogue is a text.
RESEALED = octets(manifest(2, catalogues(BASE, TIME)[""], first)[:-1] + b"!")
GRANTED_FILE = said(revision=1, root_hash=digest_of(HELLO), session_token="1-1", status="ok")
SERVED_FILE = octets(manifest(2, HELLO, first))
FILE_NAME = f"{object_name(digest_of(HELLO))}C"
PUBLISHED = [
    # One file is taken out, and one is brought.
    publish("/r", ITEMS, STORY, b"revision 3\n"),
    # An opaque directory, a catalogue of its own, and a link.
    publish(
        "/r",
        ["file /.cvmfscatalog", "dir /d", "file /d/.wh..wh..opq", "file /d/f hello\\n", "link /l d/f"],
        begun("/r", BASE) + [(payload(*made(OPAQUE, b"", HELLO)), DONE), (commit(BASE, OPAQUE), committed(OPAQUE))],
        b"revision 3\n",
    ),
    publish("/r", ["file /.wh."], CAUGHT + [(CANCEL, DONE)], code=13, line="changes: bad whiteout /.wh."),
    publish("/r/d", FILE, begun("/r/d", EMPTY) + [(CANCEL, DONE)], code=4, line="refused: no_parent"),
    publish("/r", FILE, [(lease("/r"), BUSY)], code=4, line="refused: path_busy"),
    publish("/r", ITEMS, STORY[:4] + [(STORY[4][0], STALE), (CANCEL, GONE)], code=4, line="refused: stale_base"),
    publish("/r", FILE, [(lease("/r"), granted(BASE)), (HEAD, ABSENT), (CANCEL, DONE)], code=12, line="bad reply"),
    publish("/r", FILE, CAUGHT[:2] + [(CAUGHT[2][0], ABSENT), (CANCEL, DONE)], code=11, line=f"not served {root_of(BASE)}C"),
    publish("/r", FILE, CAUGHT[:2] + [(CAUGHT[2][0], octets(HELLO)), (CANCEL, DONE)], code=11, line=f"bad object {root_of(BASE)}C"),
    publish("/r", FILE, CAUGHT[:1] + [(HEAD, RESEALED), (CANCEL, DONE)], code=11, line="bad manifest"),
    publish("/r", FILE, [(lease("/r"), GRANTED_FILE), (HEAD, SERVED_FILE), (get(FILE_NAME), octets(HELLO)), (CANCEL, DONE)], code=11, line=f"bad catalogue {digest_of(HELLO)}C"),
    publish("/r", FILE, CAUGHT[:2] + [(CAUGHT[2][0], b"hello\n")], code=12, line="bad reply"),
    publish("/r", FILE, CAUGHT[:2] + [(CAUGHT[2][0], None)], code=8, line="link failed"),
    publish("/r", ["special /p"], [], code=13, line="changes: special /p"),
    publish("/r", [], [], code=15, line="folder failed", parts=["lost"]),
    publish("/r", FILE, [], code=16, line="bad keys", parts=["keys {}"]),
    publish("/r/.cvmfscatalog", FILE, [], code=2, line="usage"),
]


def rows():
    yield runs.remark("folders are published")
    yield from PUBLISHED
