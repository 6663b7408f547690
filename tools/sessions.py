"""Requests to a gateway, and the replies by the tables of the interface, not by the program: for the tables of whole runs.

The repository is the one that `init` makes at the first moment; its files are those of `line_vectors.py`. The Authorization headers
are made by Python's hmac and base64, the answers by json.
"""
import json
import struct

import cvkit_client
import line_vectors
import row_vectors
from cut_vectors import catalogues
from cvkit_client import LEASES, REPOSITORY, authorization, lease_message, pack, payload, plain
from line_vectors import name, sha1


CATALOGUE = line_vectors.trees[0]
RECORD = line_vectors.first
MANIFEST = line_vectors.manifest(1, CATALOGUE, RECORD)
HELLO = b"hello\n"
# A catalogue that has the file `/a` with these bytes.
WITH_FILE = row_vectors.file([row_vectors.row("", "dir"), row_vectors.row("/a", "file", HELLO)])
# A tree with the directory `/a`, and the record of its first revision.
WITH_DIRECTORY = row_vectors.file([row_vectors.row("", "dir"), row_vectors.row("/a", "dir")])
OTHER_RECORD = line_vectors.record(1, bytes(20), sha1(WITH_DIRECTORY), (0, 0), b"", b"")


def second_record(root):
    """The record of a second revision that `k1` published under the lease 1-1 on `/a`, and whose root is the offered one."""
    return (
        b"CVH1"
        + struct.pack(">Q", 2)
        + sha1(RECORD)
        + root
        + root
        + struct.pack(">QQ", 1, 1)
        + line_vectors.sized(b"/a")
        + line_vectors.sized(b"k1")
        + struct.pack(">Q", line_vectors.TIME)
        + line_vectors.sized(b"")
    )


def request(method, target, signed=None, body=None):
    return cvkit_client.request(method, target, body, signed).decode()


def ask(path, key="k1", repository=REPOSITORY, secret=None, signed=True):
    body = lease_message(path, repository)
    return request("POST", LEASES, authorization(key, body, secret) if signed else None, body)


def end(token, key):
    return cvkit_client.end(token, key).decode()


def reply(answer):
    body = json.dumps(answer, separators=(",", ":"), sort_keys=True)
    return "HTTP/1.1 200 OK\r\nContent-Type: application/json\r\nContent-Length: %d\r\n\r\n%s" % (len(body), body)


def granted(token, root=CATALOGUE):
    return reply({"revision": 1, "root_hash": sha1(root).hex(), "session_token": token, "status": "ok"})


def busy(token, seconds):
    return reply({"lease": token, "status": "path_busy", "time_remaining": seconds})


def committed(revision, root):
    return reply({"final_revision": revision, "root_hash": sha1(root).hex(), "status": "ok"})


def refused(reason):
    return reply({"reason": reason, "status": "error"})


def listed(*leases):
    data = [{"key_id": key, "path": REPOSITORY + path, "time_remaining": seconds} for key, path, seconds in leases]
    return reply({"data": data, "status": "ok"})


DONE = reply({"status": "ok"})


def octets(body, last=False):
    close = b"Connection: close\r\n" if last else b""
    return b"HTTP/1.1 200 OK\r\nContent-Type: application/octet-stream\r\nContent-Length: %d\r\n%s\r\n%s" % (len(body), close, body)


def refusal(code, last=False):
    body = code.split(" ", 1)[1].encode() + b"\n"
    close = b"Connection: close\r\n" if last else b""
    return b"HTTP/1.1 %s\r\nContent-Type: text/plain\r\nContent-Length: %d\r\n%s\r\n%s" % (code.encode(), len(body), close, body)


HEAD, EPOCH = ".cvmfspublished", "gateway.epoch"
# The files of that repository.
BELOW_FILES = [
    (name(WITH_DIRECTORY, "C"), WITH_DIRECTORY),
    (name(OTHER_RECORD, "H"), OTHER_RECORD),
    (EPOCH, b"0\n"),
    (HEAD, line_vectors.manifest(1, WITH_DIRECTORY, OTHER_RECORD)),
]


def sealed(lines, secret):
    digits = sha1(lines).hex().encode()
    return lines + b"--\n" + digits + b"\n" + line_vectors.hmac.new(secret, digits, "sha1").digest()


RECORD_NAME = name(RECORD, "H")

# A lease, a payload of two objects under it, and what reads one of them.
OBJECTS = [plain(HELLO), (sha1(WITH_FILE).hex() + "C", WITH_FILE)]
PACK = pack(*OBJECTS)
assert len(WITH_FILE) == 171 and len(PACK) == 284
READ = (cvkit_client.get(name(HELLO)), octets(HELLO))
LEASED = (ask("/a").encode(), granted("1-1").encode())
STORED = (payload("1-1", OBJECTS), DONE.encode())

# The roots of the first revision and of the one with the file, and the manifest of that one.
OLD, NEW = (sha1(tree).hex() for tree in (CATALOGUE, WITH_FILE))
assert WITH_FILE == catalogues({"": ("dir", b""), "/a": ("file", HELLO)})[""]
SECOND_RECORD = second_record(sha1(WITH_FILE))
SECOND_MANIFEST = line_vectors.manifest(2, WITH_FILE, SECOND_RECORD)

FILES = [(name(CATALOGUE, "C"), CATALOGUE), (RECORD_NAME, RECORD), (EPOCH, b"0\n"), (HEAD, MANIFEST)]
