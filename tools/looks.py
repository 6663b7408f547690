"""Questions of a client for cv_run_tests: what servers reply, what the links to them must take, and what is printed.

The tree is that of the second revision of `sessions.py`: the file `/a` alone. A question is a command's first word and its
path, the replies of its links in their order, the files that these must be asked for, the output, the status and the line.
"""
import hmac

import line_vectors
import runs
from cut_vectors import catalogues
from line_vectors import name, sha1
from sessions import HEAD, HELLO, RECORD, REPOSITORY, SECOND_MANIFEST, WITH_FILE, octets, refusal

URL = f"http://h/cvmfs/{REPOSITORY}"
ROOT = name(WITH_FILE, "C")
FILE = name(HELLO)
# The manifest with another last byte, one whose root is no catalogue, and a catalogue with another bit.
RESEALED = SECOND_MANIFEST[:-1] + bytes([SECOND_MANIFEST[-1] ^ 1])
ROOT_OF_FILE = line_vectors.manifest(2, HELLO, RECORD)
CHANGED = WITH_FILE[:-1] + bytes([WITH_FILE[-1] ^ 1])
# A chain of 33 links, each to the next, and the last to a file.
CHAIN = catalogues({"": ("dir", b""), "/f": ("file", HELLO), **{f"/l{n}": ("link", b"f" if n == 33 else b"l%d" % (n + 1)) for n in range(1, 34)}})[""]
CHAINED = [HEAD, name(CHAIN, "C")]


def sealed(lines):
    """A manifest of these lines under the tests' seal."""
    sum = sha1(lines).hex().encode()
    return lines + b"--\n" + sum + b"\n" + hmac.new(b"seal", sum, "sha1").digest()


def with_line(letter, value):
    """The manifest with another value in one line."""
    lines = SECOND_MANIFEST.partition(b"--\n")[0].splitlines(keepends=True)
    return octets(sealed(b"".join(letter + value + b"\n" if line.startswith(letter) else line for line in lines)))


def asked(path):
    return f"GET /cvmfs/{REPOSITORY}/{path} HTTP/1.1\r\nHost: h\r\nConnection: close\r\nContent-Length: 0\r\n\r\n".encode()


def digits(data):
    return sha1(data).hex()


# The reply with the manifest, with its catalogue and with the file's content, and the one for what isn't there; and what is asked.
MANIFEST, TREE, CONTENT, ABSENT = octets(SECOND_MANIFEST), octets(WITH_FILE), octets(HELLO), refusal("404 Not Found")
FIRST, BOTH, ALL = [HEAD], [HEAD, ROOT], [HEAD, ROOT, FILE]


def look(verb, path, replies, paths, output=b"", code=0, line="", word="link", parts=()):
    """The replies are those of links for the first paths: one that isn't there can't be dialled."""
    links = [runs.given(word, reply) for reply in replies]
    return runs.run([verb, URL, path], *parts, *links, code=code, line=line, output=output, requests=b"".join(map(asked, paths)))


def stall(*row, **end):
    """The same where each peer gives its bytes, and then nothing more until the read fails, as one whose time runs out."""
    return look(*row, word="stall", **end)


LOOKS = [
    look("ls", "/", [MANIFEST, TREE], BOTH, b"a\n"),
    look("stat", "/a", [MANIFEST, TREE], BOTH, b"file 0644 0 0 6 %d\n" % line_vectors.TIME),
    look("cat", "/a/", [MANIFEST, TREE, CONTENT], ALL, HELLO),
    look("ls", "/a", [MANIFEST, TREE], BOTH, code=10, line="not a directory"),
    look("cat", "/b", [MANIFEST, TREE], BOTH, code=10, line="not found"),
    look("cat", "/", [MANIFEST, TREE], BOTH, code=10, line="not a file"),
    look("ls", "/", [octets(RESEALED)], FIRST, code=11, line="bad manifest"),
    look("ls", "/", [MANIFEST, octets(CHANGED)], BOTH, code=11, line=f"bad object {digits(WITH_FILE)}C"),
    look("cat", "/a", [MANIFEST, TREE, octets(b"hellO\n")], ALL, code=11, line=f"bad object {digits(HELLO)}"),
    look("cat", "/l1", [octets(line_vectors.manifest(2, CHAIN, RECORD)), octets(CHAIN)], CHAINED, code=10, line="too many links"),
    look("cat", "/l2", [octets(line_vectors.manifest(2, CHAIN, RECORD)), octets(CHAIN), CONTENT], [*CHAINED, FILE], HELLO),
    look("ls", "/", [with_line(b"R", b"0" * 32)], FIRST, code=11, line="bad manifest"),
    look("ls", "/", [with_line(b"D", b"24x")], FIRST, code=11, line="bad manifest"),
    look("ls", "/", [with_line(b"S", b"02")], FIRST, code=11, line="bad manifest"),
    look("ls", "/", [with_line(b"N", b"other.example.org"), TREE], BOTH, b"a\n"),
    look("ls", "/", [with_line(b"H", b"1" * 39)], FIRST, code=11, line="bad manifest"),
    look("ls", "/", [with_line(b"T", b"-1")], FIRST, code=11, line="bad manifest"),
    look("ls", "/", [octets(ROOT_OF_FILE), CONTENT], [HEAD, name(HELLO, "C")], code=11, line=f"bad catalogue {digits(HELLO)}C"),
    look("cat", "/a", [MANIFEST, TREE, ABSENT], ALL, code=11, line=f"not served {digits(HELLO)}"),
    look("ls", "/", [b"hello\n"], FIRST, code=12, line="bad reply"),
    look("ls", "/", [ABSENT], FIRST, code=12, line="bad reply"),
    look("ls", "/", [MANIFEST], FIRST, code=8, line="link failed"),
]

# A whole reply is taken from a peer that stalls behind it; a part of one is a link that failed, wherever it ends.
WHOLE = octets(SECOND_MANIFEST)
STALLS = [
    stall("cat", "/a", [MANIFEST, TREE, CONTENT], ALL, HELLO),
    stall("cat", "/a", [MANIFEST, TREE, ABSENT], ALL, code=11, line=f"not served {digits(HELLO)}"),
    stall("ls", "/", [b""], FIRST, code=8, line="link failed"),
    stall("ls", "/", [b"HTTP/1.1 20"], FIRST, code=8, line="link failed"),
    stall("ls", "/", [b"HTTP/1.1 200 OK\r\nContent-Le"], FIRST, code=8, line="link failed"),
    stall("ls", "/", [b"HTTP/1.1 200 OK\r\nContent-Length: 223\r\n"], FIRST, code=8, line="link failed"),
    stall("ls", "/", [b"HTTP/1.1 100 Continue\r\n\r\n"], FIRST, code=8, line="link failed"),
    stall("ls", "/", [b"HTTP/1.1 100 Continue\r\n\r\nHTTP/1.1 200 OK\r\n"], FIRST, code=8, line="link failed"),
    stall("ls", "/", [b"HTTP/1.1 200 OK\r\nContent-Length: 223\r\n\r\n"], FIRST, code=8, line="link failed"),
    stall("ls", "/", [WHOLE[:-1]], FIRST, code=8, line="link failed"),
    stall("ls", "/", [b"HTTP/1.1 200 OK\r\n\r\n" + SECOND_MANIFEST], FIRST, code=8, line="link failed"),
    stall("ls", "/", [MANIFEST, b""], BOTH, code=8, line="link failed"),
    stall("cat", "/a", [MANIFEST, TREE, octets(HELLO)[:-1]], ALL, code=8, line="link failed"),
]


def rows():
    assert WITH_FILE == catalogues({"": ("dir", b""), "/a": ("file", HELLO)})[""]
    yield runs.remark("questions to servers")
    yield from LOOKS
    yield look("ls", "/", [MANIFEST, TREE], [], code=16, line="bad keys", parts=["seal "])
    yield runs.remark("questions to servers that stall")
    yield from STALLS
