"""Lines of a shell for cv_run_tests: what servers reply, what the links to them must take, and what is printed.

The client is pinned at revision 5, whose tree is that of `shell_vectors.py`, while revision 7 is published, whose tree has the file
`/g` alone.
"""
import runs
from cut_vectors import catalogues
from shell_vectors import CATALOGUE, ROOT, manifest, reply, sha1

NEXT = catalogues({"": ("dir", b""), "/g": ("file", b"hello\n")}, 1700000000)[""]
CHANGED = CATALOGUE[:-1] + bytes([CATALOGUE[-1] ^ 1])
FIRST = manifest(5, ROOT)
RESEALED = FIRST[:-1] + bytes([FIRST[-1] ^ 1])
HEAD = ".cvmfspublished"


def name(root):
    return f"data/{root.decode()[:2]}/{root.decode()[2:]}"


# A line, which file is asked for and what the server replies, and what is printed.
STORY = [
    (b"ls /", (name(ROOT) + "C", CHANGED), b"refused: bad object " + ROOT + b"C\n"),
    (b"rm /a", None, b"refused: bad line\n"),
    (b"ls /", (name(ROOT) + "C", CATALOGUE), b"names 2\nf\nl\n"),
    (b"stat /f", None, b"file 0644 0 0 6 1700000000\n"),
    (b"renew", (HEAD, manifest(4, ROOT)), b"refused: older\n"),
    (b"renew", (HEAD, RESEALED), b"refused: bad manifest\n"),
    (b"ls /", None, b"names 2\nf\nl\n"),
    (b"renew", (HEAD, manifest(7, sha1(NEXT))), b"revision 7\n"),
    (b"ls /", (name(sha1(NEXT)) + "C", NEXT), b"names 1\ng\n"),
    (b"cat /g", (name(sha1(b"hello\n")), b"hello\n"), b"bytes 6\nhello\n\n"),
    (b"cat /f", None, b"refused: not found\n"),
]


def asked(path):
    return f"GET /cvmfs/r/{path} HTTP/1.1\r\nHost: h\r\nConnection: close\r\nContent-Length: 0\r\n\r\n".encode()


def run(input_, replies, paths, output=b"", code=0, line="", parts=()):
    """The input as it stands in a row, the replies of the links in their order, and which files these must be asked for."""
    links = [runs.given("link", given) for given in replies]
    requests = b"".join(map(asked, paths))
    return runs.run(["shell", "http://h/cvmfs/r"], *parts, *links, f"in {input_}", code=code, line=line, output=output, requests=requests)


PINNED, ABSENT = reply(FIRST), reply(b"", b"404 Not Found")
TREE = name(ROOT) + "C"
BAD_LINE = b"refused: bad line\n"
ENDS = [
    run("", [PINNED], [HEAD]),
    run("\\n", [PINNED], [HEAD], BAD_LINE),
    run("rm /a", [PINNED], [HEAD], BAD_LINE),
    run("ls /\\n", [], [], code=8, line="link failed"),
    run("ls /\\n", [PINNED], [HEAD], code=8, line="link failed"),
    run("x\\nrenew\\nx\\n", [PINNED], [HEAD], BAD_LINE, 8, "link failed"),
    run("ls /\\n", [reply(RESEALED)], [HEAD], code=11, line="bad manifest"),
    run("ls /\\n", [b"hello\n"], [HEAD], code=12, line="bad reply"),
    run("ls /\\n", [ABSENT], [HEAD], code=12, line="bad reply"),
    run("x\\nrenew\\nx\\n", [PINNED, b"hello\n"], [HEAD, HEAD], BAD_LINE, 12, "bad reply"),
    run("ls /\\nx\\n", [PINNED, b"hello\n"], [HEAD, TREE], code=12, line="bad reply"),
    run("ls /\\nx", [PINNED, ABSENT], [HEAD, TREE], b"refused: not served " + ROOT + b"C\n" + BAD_LINE),
    run("x\\n", [PINNED], [], code=16, line="bad keys", parts=["seal "]),
    # The longest line, and one byte more.
    run("<8192*x>\\n", [PINNED], [HEAD], BAD_LINE),
    run("<8193*x>\\n", [PINNED], [HEAD], code=14, line="bad request"),
]


def rows():
    yield runs.remark("a shell at a pinned revision")
    asking = [of for _, of, _ in STORY if of]
    lines, texts = "\\n".join(line.decode() for line, _, _ in STORY), b"".join(text for _, _, text in STORY)
    yield run(lines, [PINNED, *(reply(data) for _, data in asking)], [HEAD, *(path for path, _ in asking)], texts)
    yield runs.remark("how a shell ends")
    yield from ENDS
