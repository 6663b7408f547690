#!/usr/bin/env python3
"""The table of cv_run_tests: whole runs of the program, by the tables of the interface and not by the program.
`crates/cv_run_tests/src/main.rt` says how a row is read.

The stories of publishers, the questions of clients, the lines of shells, the folders that are published, the publications against
a session and the runs that are cut stand in scripts of their own. Digests are made by hashlib, signatures and seals by hmac.
"""
import crashes
import looks
import publish_runs
import releases
import runs
import shell_runs
import stories
from cvkit_client import LEASES, REPOSITORY, commit, get, payload
from line_vectors import name, sha1
from runs import INIT, STDIO, run, session
from sessions import BELOW_FILES, CATALOGUE, DONE, EPOCH, FILES, HEAD, HELLO, LEASED, MANIFEST, OBJECTS, OTHER_RECORD, PACK, READ, RECORD, RECORD_NAME, STORED, WITH_DIRECTORY
from sessions import ask, busy, committed, end, granted, listed, octets, refusal, refused, reply, request, sealed
from vectors import settle_lines

MANIFEST_ASKED = get(HEAD)
# The reply to a request for what isn't there.
ABSENT = refusal("404 Not Found")


def made():
    """A repository is made where none is, and then served."""
    yield runs.remark("a repository is made")
    yield run(INIT, "bare", output=b"revision 1\n")
    yield run(INIT, code=3, line="repository: exists")
    yield run(INIT, "bare", runs.file(name(CATALOGUE, "C"), b"x"), code=3, line="repository: damaged", objects=1)
    yield session([(get(path), octets(data)) for path, data in ((HEAD, MANIFEST), (RECORD_NAME, RECORD), (name(CATALOGUE, "C"), CATALOGUE))])
    yield session([READ], runs.file(name(HELLO), HELLO), objects=3)
    yield session([(READ[0], ABSENT)])
    yield session([(READ[0], refusal("500 Internal Server Error"))], runs.file(name(HELLO), b"hellO\n"), objects=3)


def refused_requests():
    """Requests that are refused before they are understood, and how the session ends then."""

    def bad(asked, status):
        return run(STDIO, f"in {asked}", code=14, line="bad request", output=refusal(status, True) if status else b"")

    yield runs.remark("requests that are refused")
    yield bad(r"POST / HTTP/1.1\r\n\r\n", "400 Bad Request")
    yield bad(r"POST / HTTP/1.1\r\nHost: x\r\n\r\n", "411 Length Required")
    yield bad(r"POST / HTTP/1.1\r\nHost: x\r\nTransfer-Encoding: chunked\r\n\r\n0\r\n\r\n", "501 Not Implemented")
    yield bad(r"POST / HTTP/1.1\r\nHost: x\r\nContent-Length: 65537\r\n\r\n", "413 Content Too Large")
    yield bad(r"GET / HTTP/1.1\r\nHost: x\r\nHost: y\r\n\r\n", "400 Bad Request")
    yield bad(r"GET / HTTP/1.1\r\nHost: x\r\nContent-Length: +1\r\n\r\na", "400 Bad Request")
    yield bad("GET /<16380*a>", "431 Request Header Fields Too Large")
    yield bad("GET / HTTP/", None)
    yield bad(r"POST / HTTP/1.1\r\nHost: x\r\nContent-Length: 2\r\n\r\na", None)
    yield session([(request("PUT", "/", body=b"abc"), refusal("501 Not Implemented")), (request("POST", "/", body=b"a"), ABSENT)])
    old = rf"in GET /cvmfs/{REPOSITORY}/{HEAD} HTTP/1.0\r\n\r\nGET / HTTP/1.1\r\n"
    yield run(STDIO, old, output=octets(MANIFEST, True))
    yield run(STDIO)


LINES = MANIFEST[: MANIFEST.index(b"--\n")]
# A file, what it is instead or nothing, and what the line says then.
BROKEN = [
    (HEAD, None, "missing"),
    (HEAD, b"M\n", "bad manifest"),
    (HEAD, MANIFEST[:-1], "bad manifest"),
    (HEAD, sealed(LINES, b"soul"), "bad manifest"),
    (HEAD, sealed(LINES.replace(b"Nsw.", b"Nxx."), b"seal"), "other name"),
    (RECORD_NAME, None, "bad history"),
    (RECORD_NAME, RECORD[:-1], "bad history"),
    (EPOCH, None, "bad epoch"),
    (EPOCH, b"+1\n", "bad epoch"),
    (EPOCH, b"18446744073709551615\n", "epochs spent"),
]


def broken():
    yield runs.remark("repositories that are not opened")
    for path, data, line in BROKEN:
        left = [file for file in FILES if file[0] != path]
        parts = ["bare", *(runs.file(*file) for file in left)] if data is None else [runs.file(path, data)]
        count = sum(file.startswith("data/") for file, _ in (left if data is None else FILES))
        yield run(STDIO, *parts, runs.given("in", MANIFEST_ASKED), code=3, line=f"repository: {line}", objects=count)


def judged():
    """First the words are judged, then the keys, then the seal."""
    asked = runs.given("in", MANIFEST_ASKED)
    yield runs.remark("words, keys and seals")
    for words in ["stdio"], ["init", "a", "b"], ["serve", REPOSITORY], ["init", ""], ["stdio", "a b"], ["stdio", "a/b"], ["stdio", "é"]:
        yield run(words, "bare", "keys ", "seal ", asked, code=2, line="usage", objects=0)
    for parts in (["keys "], ['keys {"keys":[]}', "seal "], ["seal "]):
        yield run(STDIO, "bare", *parts, asked, code=16, line="bad keys", objects=0)
    yield run(INIT, "bare", "seal ", asked, code=16, line="bad keys", objects=0)
    yield run(STDIO, "bare", asked, code=3, line="repository: missing", objects=0)


def leases():
    yield runs.remark("leases")
    yield session([(ask("/a"), granted("1-1")), (end("1-1", "k2"), refused("wrong_key")), (end("1-1", "k1"), DONE), (end("1-1", "k1"), refused("invalid_token"))])
    yield session([(ask("/a"), granted("1-1")), (ask("/ab", "k2"), granted("1-2")), (request("GET", LEASES), listed(("k1", "/a", 7200), ("k2", "/ab", 7200)))])
    yield session([(ask("/a"), granted("1-1")), (ask("/a/b"), busy("1-1", 7200))])
    yield session([(ask("/a"), granted("1-1")), (ask("/a"), busy("1-1", 1)), (ask("/a"), granted("1-2"))], "at 0 7199 7200")
    exchanges = [
        (ask("/a", secret="s2"), refused("wrong_mac")),
        (ask("/a", "k9", secret="s1"), refused("unknown_key")),
        (ask("/a", signed=False), refused("no_authorization")),
        (request("GET", "/api/v1/repos"), reply({"repos": [REPOSITORY], "status": "ok"})),
        (ask("/a/"), granted("1-1")),
        (request("GET", LEASES), listed(("k1", "/a", 7195))),
        (end("1-1", "k1"), DONE),
    ]
    yield session(exchanges, "at 0 5 4")
    exchanges = [
        (ask("/a/.cvmfscatalog"), refused("bad_path")),
        (ask("/n/m"), refused("no_parent")),
        (ask("/a", repository="other.org"), refused("unknown_repository")),
    ]
    yield session(exchanges)


# A repository whose tree has the directory `/a`.
BELOW = ["bare", *(runs.file(*file) for file in BELOW_FILES)]


def below():
    """Leases below the directory, and one that runs out before its commit, when another publisher has taken the directory out."""

    def given(token):
        return granted(token, WITH_DIRECTORY)

    yield runs.remark("leases below a directory")
    yield session([(ask("/a/b"), given("1-1")), (ask("/a"), busy("1-1", 7200)), (ask("/a/c"), given("1-2")), (ask("/a"), busy("1-2", 7200))], *BELOW)
    old, new = sha1(WITH_DIRECTORY).hex(), sha1(CATALOGUE).hex()
    exchanges = [
        (ask("/a/b"), given("1-1")),
        (ask("/a", "k2"), given("1-2")),
        (payload("1-2", [(new + "C", CATALOGUE)], "k2"), DONE),
        (commit("1-2", old, new, "k2"), committed(2, CATALOGUE)),
        (commit("1-1", old, old), refused("invalid_token")),
        (ask("/a/b"), refused("no_parent")),
        (request("GET", LEASES), listed()),
    ]
    yield session(exchanges, *BELOW, "at 0 7200 7200", objects=4)


def payloads():
    """Two objects twice, and then one of them is read; faults of their pack, and of what stands beside it."""
    yield runs.remark("payloads")
    yield session([LEASED, STORED, STORED, READ], objects=4)
    faulty = [PACK[:-1], PACK + b"x", PACK.replace(HELLO, b"hellO\n")]
    yield session([LEASED, *((payload("1-1", OBJECTS, packed=packed), refused("bad_pack")) for packed in faulty)])
    unled, other = (payload("1-1", OBJECTS), refused("invalid_token")), (payload("1-1", OBJECTS, key="k2"), refused("wrong_key"))
    yield session([unled, LEASED, other])


# How many calls of the vault open a repository that stands, before one reads the first object that is asked for.
OPENING = 8
TWO = [READ, (MANIFEST_ASKED, octets(MANIFEST))]
FAILED = refusal("500 Internal Server Error")


def failing():
    """A call of the vault, a read of the input or a write of the output fails."""
    hello = runs.file(name(HELLO), HELLO)
    asked = runs.given("in", b"".join(asked for asked, _ in TWO))
    yield runs.remark("calls that fail")
    for call in range(1, OPENING + 1):
        yield run(STDIO, hello, f"broken {call}", asked, code=7, line="store failed", objects=3)
    yield session([(READ[0], FAILED), TWO[1]], hello, f"broken {OPENING + 1}", objects=3)
    yield run(STDIO, hello, asked, "deaf 1", code=5, line="input failed", objects=3)
    yield run(STDIO, hello, asked, "mute 1", code=6, line="output failed", objects=3)
    # The last of the writes passes on what the others wrote.
    yield session(TWO, hello, "mute 6", code=6, line="output failed", objects=3)
    yield runs.remark("all that came is answered before a read that fails")
    absent = request("GET", "/"), ABSENT
    for exchanges in [absent], [absent, absent], [(request("POST", "/", body=b"a"), ABSENT)]:
        yield session(exchanges, "deaf 2", code=5, line="input failed")
    yield shell_runs.run("x\\n", [shell_runs.PINNED], [shell_runs.HEAD], shell_runs.BAD_LINE, 5, "input failed", parts=["deaf 2"])
    yield shell_runs.run("x\\n", [shell_runs.PINNED], [shell_runs.HEAD], b"", 6, "output failed", parts=["mute 1"])
    yield runs.remark("the thousandth request of a session is its last")
    many = rf"in <1001*GET / HTTP/1.1\r\nHost: x\r\n\r\n>"
    yield run(STDIO, many, output=ABSENT * 999 + refusal("404 Not Found", True))


def rows():
    yield from (row for part in (made, refused_requests, broken, judged, leases, below, payloads, failing) for row in part())
    yield from (row for part in (stories, looks, shell_runs, publish_runs, releases, crashes) for row in part.rows())


if __name__ == "__main__":
    settle_lines("cv_run_tests", list(rows()))
