#!/usr/bin/env python3
"""The table of cv_session_tests: requests, their replies and what they ask of the desk, by the tables of the interface and not by the
program. `crates/cv_session_tests/src/main.rt` says how a row is read.

Behind each entry of the seat of a desk that grants stands one of another's, and a lease's token has the number of its entry.
Digests are made by hashlib, signatures by hmac.
"""
import hashlib
import hmac
import itertools
import json
import re

import cvkit_client
import told_gateway
import turns
from cvkit_client import LEASES, PAYLOADS, REPOSITORY, authorization, digest_of, lease_message
from vectors import in_line, settle_lines

HELLO = b"hello\n"
CLEAN, CLOSED = "Clean", "Closed"


def bad(fault):
    return f"Bad({fault})"


def header(*contents):
    return cvkit_client.pack_header(*map(cvkit_client.plain, contents))


def pack(*contents):
    return cvkit_client.pack(*map(cvkit_client.plain, contents))


def message(digest, size, token="1-1"):
    return cvkit_client.payload_message(digest, size, token)


def announced(head, size=None):
    """The message of a pack with this header."""
    return message(hashlib.sha1(head).hexdigest(), len(head) if size is None else size)


def payload(body, said, fields=(), size=None, signed=True, keep=None, secret=None):
    """A payload of a message and a pack. `size` is the value of Message-Size, or "" for none; `keep` cuts the request's end off."""
    size = str(len(said)) if size is None else size
    fields = ([f"Message-Size: {size}"] if size else []) + list(fields)
    signature = authorization("k1", said, secret) if signed else None
    made = cvkit_client.request("POST", PAYLOADS, said + body, signature, fields).decode()
    return made if keep is None else made[:keep]


def head(method, target, *fields):
    return "\r\n".join([f"{method} {target} HTTP/1.1", *fields]) + "\r\n\r\n"


def lease(path):
    body = lease_message(path, REPOSITORY)
    return cvkit_client.request("POST", LEASES, body, authorization("k1", body)).decode()


def commit(token):
    members = {"new_root_hash": digest_of(b"new"), "old_root_hash": digest_of(b"old"), "tag_name": ""}
    body = json.dumps(members, separators=(",", ":")).encode()
    return cvkit_client.request("POST", f"{LEASES}/{token}", body, authorization("k1", token.encode())).decode()


def written(status, kind, body, last=False):
    close = "Connection: close\r\n" if last else ""
    return f"HTTP/1.1 {status}\r\nContent-Type: {kind}\r\nContent-Length: {len(body)}\r\n{close}\r\n{body}"


def answer(**members):
    return written("200 OK", "application/json", json.dumps(members, separators=(",", ":"), sort_keys=True))


def refused(reason, **members):
    return answer(reason=reason, status="error", **members)


def fault(status):
    return written(status, "text/plain", status[4:] + "\n", True)


DONE = answer(status="ok")
LINE = "HTTP/1.1 100 Continue\r\n\r\n"
EXPECT = ["Expect: 100-continue"]
EMPTY = (pack(), announced(header()))
FULL = (pack(HELLO), announced(header(HELLO)))
BODY = len(EMPTY[0] + EMPTY[1])
HOST = "Host: x"


def granted(token):
    return answer(revision=1, root_hash="0" * 40, session_token=token, status="ok")


# A pack of no objects; the same without Message-Size; a pack twice.
SESSIONS = [
    ([(payload(*EMPTY), DONE)], CLEAN),
    ([(payload(*EMPTY, size=""), refused("bad_message_size"))], CLEAN),
    ([(payload(*FULL), DONE), (payload(*FULL), DONE)], CLEAN),
]
# Faults of a pack whose header is as announced.
SESSIONS += [
    ([(payload(body, FULL[1]), refused("bad_pack"))], CLEAN)
    for body in (FULL[0][:-1], FULL[0] + b"x", pack(HELLO)[:-6] + b"hellO\n")
]
# A coded body; a head that is cut; no input.
SESSIONS += [
    ([(head("POST", PAYLOADS, HOST, "Transfer-Encoding: chunked") + "0\r\n\r\n", fault("501 Not Implemented"))], bad("Coding")),
    ([(payload(*EMPTY, keep=10), "")], bad("Short")),
    ([("", "")], CLEAN),
]
# The client waits for the body, asks for something else, or has none.
SESSIONS += [
    ([(payload(*EMPTY, EXPECT), LINE + DONE)], CLEAN),
    ([(payload(*EMPTY, ["Expect: 100-continued"]), DONE)], CLEAN),
    ([(head("GET", "/api/v1/repos", HOST, *EXPECT), answer(repos=[REPOSITORY], status="ok"))], CLEAN),
]
# Message-Size is no number, above its limit, above the body.
SESSIONS += [
    ([(payload(*EMPTY, size=size), refused("bad_message_size")), (payload(*EMPTY), DONE)], CLEAN)
    for size in ("0x10", "65537", str(BODY + 1))
]
# No key, another secret, no JSON, another digest, another size of the header; each passes over its pack.
SESSIONS += [
    ([(payload(*EMPTY, **how), refused(reason)), (payload(*EMPTY), DONE)], CLEAN)
    for how, reason in (({"signed": False}, "no_authorization"), ({"secret": "s2"}, "wrong_mac"))
]
SESSIONS += [
    ([(payload(pack(), said), refused(reason, **members)), (payload(*EMPTY), DONE)], CLEAN)
    for said, reason, members in (
        (b"[]", "not_json", {}),
        (b"{}", "missing_member", {"member": "session_token"}),
        (message("0" * 40, 12), "bad_digest", {}),
        (announced(header(), 13), "bad_header_size", {}),
    )
]
# Cut in the message and in the pack; the line alone is said where the client waits.
SESSIONS += [
    ([(payload(*EMPTY), DONE), (payload(*EMPTY, keep=-13), "")], bad("Short")),
    ([(payload(*FULL, keep=-1), "")], bad("Short")),
    ([(payload(*FULL, EXPECT, keep=-1), LINE)], bad("Short")),
]
# Faults of HTTP, of which the first counts.
SESSIONS += [
    ([(head("POST", PAYLOADS, *fields), fault(status))], bad(why))
    for fields, status, why in (
        ((HOST, HOST, "Transfer-Encoding: x"), "400 Bad Request", "BadHead"),
        ((HOST, "Content-Length: +1", "Transfer-Encoding: x"), "400 Bad Request", "BadHead"),
        ((HOST, "Transfer-Encoding: x", "Content-Length: 34668545"), "501 Not Implemented", "Coding"),
        ((HOST,), "411 Length Required", "NoLength"),
        ((HOST, "Content-Length: 34668545", *EXPECT), "413 Content Too Large", "BodyTooLarge"),
    )
]
# Leases between which others' stand, and the end that a request asks for.
SESSIONS += [
    ([(lease("/a"), granted("1-1")), (payload(*EMPTY), DONE), (lease("/b"), granted("1-5"))], CLEAN),
    ([(head("GET", "/none", HOST, "Connection: close"), fault("404 Not Found"))], CLOSED),
]
# Each other fault of a pack, whose header is as announced: its first line, its size, its number, their sum, a name twice.
SESSIONS += [
    ([(payload(made + body, announced(made)), refused("bad_pack")), (payload(*EMPTY), DONE)], CLEAN)
    for made, body in (
        (b"V3\nS0\nN0\n--\n", b""),
        (b"V2\nS33554433\nN0\n--\n", b""),
        (b"V2\nS0\nN10001\n--\n", b""),
        (header(HELLO).replace(b"S6", b"S5"), HELLO),
        (header(HELLO, HELLO), HELLO + HELLO),
    )
]
# An empty message; cut between the message and the pack, and behind the pack's header; too many fields of a head.
SESSIONS += [
    ([(payload(pack(), b""), refused("not_json")), (payload(*EMPTY), DONE)], CLEAN),
    ([(payload(*EMPTY, keep=-12), "")], bad("Short")),
    ([(payload(*FULL, keep=-6), "")], bad("Short")),
    ([(head("POST", PAYLOADS, HOST, *["a: b"] * 64), fault("431 Request Header Fields Too Large"))], bad("HeadTooLarge")),
]
# A commit, which the desk of the tests refuses.
SESSIONS.append(([(commit("1-1"), refused("revisions_full"))], CLEAN))
# cut behind the head, in the pack's header, and in a body that is passed over
SESSIONS += [
    ([(payload(*EMPTY, keep=-left, **how), "")], bad("Short"))
    for left, how in ((BODY, {}), (3, {}), (3, {"size": "0x10"}), (3, {"signed": False}))
]


# ---- what is asked of the desk

def told_of(asked, said):
    """What a request asks of the desk, where it's answered so."""
    found = re.match(r"POST (\S+) HTTP/1.1\r\n(.*?)\r\n\r\n(.*)", asked, re.S)
    if not found or not (said.endswith(DONE) or "root_hash" in said or "revisions_full" in said):
        return ""
    target, fields, body = found.groups()
    if target == PAYLOADS:
        size = int(re.search(r"Message-Size: (\d+)", fields)[1])
        ask, pack = json.loads(body[:size]), body[size:]
        count = int(re.search(r"^N(\d+)$", pack, re.M)[1])
        return "store k1 of {}: {} of {};".format(ask["session_token"], count, ask["payload_digest"])
    if target == LEASES:
        return "lease k1 on '{}';".format(json.loads(body)["path"].removeprefix(REPOSITORY))
    ask = json.loads(body)
    return f"commit k1 of {target.removeprefix(LEASES + '/')} from {ask['old_root_hash']} to {ask['new_root_hash']} as '{ask['tag_name']}';"


def row(desk, piece, reading, writing, exchanges, end):
    """A line of the table, and what it prints, where all is answered."""
    asked, said = ("".join(part) for part in zip(*exchanges))
    told = "".join(told_of(*exchange) for exchange in exchanges)
    counts = told.count("store "), told.count("lease ")
    return line(desk, piece, reading, writing, asked, said, end, told, *counts)


def with_holds(told):
    """What was asked, with each store behind how many holds: a session is held where a payload was read, before it's stored."""
    holds = itertools.count(1)
    return re.sub("store [^;]*", lambda store: f"{store[0]} behind {next(holds)} holds", told)


def line(desk, piece, reading, writing, asked, said, end, told, payloads=0, leases=0):
    given = f"{desk}|{piece}|{reading}|{writing}|{in_line(asked.encode())}"
    said = said if isinstance(said, bytes) else said.encode()
    return given, f"{in_line(said)}|{end}|{with_holds(told)}|{payloads} {leases}"


# ---- requests one by one

def sealed():
    """The manifest of the desk's newest head, under the seal `seal`."""
    lines = f"C{'0' * 40}\nB0\nR{hashlib.md5(b'').hexdigest()}\nD240\nS1\nN{REPOSITORY}\nH{'0' * 40}\nT0\n".encode()
    digits = hashlib.sha1(lines).hexdigest().encode()
    return lines + b"--\n" + digits + b"\n" + hmac.new(b"seal", digits, "sha1").digest()


def octets(data):
    return f"HTTP/1.1 200 OK\r\nContent-Type: application/octet-stream\r\nContent-Length: {len(data)}\r\n\r\n".encode() + data


LIVE = [{"key_id": "k1", "path": REPOSITORY + "/a/b", "time_remaining": 7200}, {"key_id": "k2", "path": REPOSITORY, "time_remaining": 0}]


def turn_row(method, target, signature, body):
    """A request to a desk that grants: what it asks, and the reply to that."""
    asked = cvkit_client.request(method, target, body.encode() if method == "POST" else None, signature).decode()
    words = turns.turn(method, target, signature, body)
    kind, _, rest = words.partition(" ")
    told, said = words + ";", None
    if kind == "lease":
        said = granted("1-1")
    elif kind == "commit":
        said = refused("revisions_full")
    elif kind == "end":
        said = DONE
    elif kind == "file" and rest.startswith("data/"):
        told, said = rest.removeprefix("data/").replace("/", "") + ";", written("404 Not Found", "text/plain", "Not Found\n")
    elif kind == "file":
        told, said = "newest;", octets(sealed())
    elif kind == "leases":
        said = answer(data=LIVE, status="ok")
    else:
        told = ""
        if kind == "repos":
            said = answer(repos=[REPOSITORY], status="ok")
        elif kind in ("404", "501"):
            said = written(words, "text/plain", rest + "\n")
        else:
            said = refused(kind, member=rest) if rest else refused(kind)
    return line("grants", 7, 0, 0, asked, said, CLEAN, told, 0, int(kind == "lease"))


# ---- replies of the gate

AB = "ab" * 20
# What is answered where the gate replies by a word.
REPLIES = {
    "granted": answer(revision=3, root_hash=AB, session_token="1-2", status="ok"),
    "committed": answer(final_revision=3, root_hash=AB, status="ok"),
    "stored": DONE,
    "cancelled": DONE,
    "path_busy": answer(lease="1-2", status="path_busy", time_remaining=1),
    "path_collision": refused("path_collision", path="/b", second="/a"),
    "catalogue_full": refused("catalogue_full", path="/b"),
    "damaged": refused("damaged", found="0" * 40, object=AB + "C"),
    **{word: refused(word, object=AB + "C") for word in ("collision", "missing_object", "bad_catalogue")},
    **{word: refused(word, revision=3) for word in ("stale_base", "tag_taken")},
    **{
        word: refused(word)
        for word in "bad_path too_many_leases no_parent invalid_token wrong_key store_failed no_memory revisions_full".split()
    },
}


def replied():
    for word, said in REPLIES.items():
        yield line(word, 100, 0, 0, lease("/a"), said, CLEAN, "lease k1 on '/a';", 0, 1)
    full = written("200 OK", "application/json", '{"reason":"journal_full","status":"error"}', True)
    yield line("journal_full", 100, 0, 0, lease("/a") + lease("/b"), full, "JournalFull", "lease k1 on '/a';", 0, 1)


# ---- sources and sinks that fail

NONE = head("GET", "/", HOST)
NOT_FOUND = written("404 Not Found", "text/plain", "Not Found\n")


def failing():
    # two requests in one read, behind which the source fails: both are answered
    yield line("grants", 100, 2, 0, NONE + NONE, NOT_FOUND * 2, "ReadFault", "")
    yield line("grants", 100, 1, 0, NONE, "", "ReadFault", "")
    # nothing is read behind the end
    yield line("grants", 100, 3, 0, NONE + NONE, NOT_FOUND * 2, CLEAN, "")
    # a head, a body and a flush
    top = NOT_FOUND.index("Not Found\n", 20)
    for call, taken in (1, ""), (2, NOT_FOUND[:top]), (3, NOT_FOUND), (4, NOT_FOUND):
        yield line("grants", 100, 0, call, NONE + NONE, taken, "WriteFault", "")
    asked, said = payload(*EMPTY, EXPECT), LINE + DONE
    told = told_of(asked, said)
    # the read of the body behind its line, where 100 bytes come by a call
    reads = -(-(asked.index("\r\n\r\n") + 4) // 100)
    yield line("grants", 100, reads + 1, 0, asked, LINE, "ReadFault", "")
    for call, taken in (1, ""), (2, LINE):
        yield line("grants", 100, 0, call, asked, taken, "WriteFault", "")
    for call, taken in (3, LINE), (4, LINE + DONE[: -len('{"status":"ok"}')]), (5, said):
        yield line("grants", 100, 0, call, asked, taken, "WriteFault", told, 1, 0)
    said = granted("1-1")
    for call, taken in (1, ""), (3, said):
        yield line("grants", 100, 0, call, lease("/a"), taken, "WriteFault", "lease k1 on '/a';", 0, 0)
    # a flush that fails where the body or the next request is held whole: that isn't asked of the desk
    yield line("grants", 1000, 0, 2, asked, LINE, "WriteFault", "", 0, 0)
    yield line("grants", 1000, 0, 3, lease("/a") + lease("/b"), said, "WriteFault", "lease k1 on '/a';", 0, 0)


# ---- the table

# What is asked at a seat where no lease is live and none can be had, over a new repository: the leases, the ends of two, a lease,
# a payload, a commit, and the manifest.
AT_SEAT = [
    (cvkit_client.LIST.decode(), answer(data=[], status="ok")),
    (cvkit_client.end("1-1").decode(), refused("invalid_token")),
    (cvkit_client.end("1-2").decode(), refused("invalid_token")),
    (lease("/a"), refused("no_memory")),
    (payload(*FULL), refused("invalid_token")),
    (commit("1-1"), refused("invalid_token")),
    (head("GET", f"/cvmfs/{REPOSITORY}/.cvmfspublished", HOST), octets(told_gateway.Gateway().manifest)),
]


def at_seat():
    asked, said = zip(*AT_SEAT)
    return line("seat", 100, 0, 0, "".join(asked), b"".join(one if isinstance(one, bytes) else one.encode() for one in said), CLEAN, "", 1, 1)


def rows():
    for exchanges, end in SESSIONS:
        for piece in 1, 100:
            yield row("grants", piece, 0, 0, exchanges, end)
    yield at_seat()
    for request in turns.REQUESTS:
        yield turn_row(*request)
    yield from replied()
    yield from failing()


settle_lines("cv_session_tests", list(rows()))
