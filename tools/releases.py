"""Publications of folders for cv_run_tests, over links that a gateway serves, and what is printed, by a second telling of both.

`crates/cv_run_tests/src/releases.rt` says how a row is read, and `releases/folders.rt` beside it how a folder is written. What
comes of a row is by `told_gateway.py` and `told_publisher.py`, and not by the program. Where a folder can't be published, and
what a question finds, is told by hand.
"""
import random
import re

from cut_vectors import MARKER, TIME
from cvkit_client import LIST, ZEROS, commit, digest_of, end, get, lease
from publish_runs import EMPTY, reply, root_of, said
from told_gateway import DONE, HEAD, LEASE_TIME, Gateway, kept_open, refused
from told_publisher import OPAQUE, Publication, bad_whiteout, changed
from vectors import in_line

COUNT = 20


def link_text(link):
    what, *more = link or [""]
    if what == "others":
        return f"others {more[0]} " + in_line(b"".join(asking for asking, _ in more[1]))
    if what == "says":
        return "says " + in_line(more[0])
    return " ".join(map(str, [what, *more]))


def names_of(word):
    """The names of the path that a word of a folder says."""
    return [name.encode() for name in re.split("[=*]", word)[0].rstrip("/!").split("/")]


def in_order(words):
    """The words of a folder, by the names of their paths."""
    return " ".join(sorted(words.split(), key=names_of))


class Table:
    """Rows, each a line and what it prints."""

    def __init__(self):
        self.rows, self.gateway, self.last = [], Gateway(), None

    def remark(self, text):
        self.rows.append((f"# {text}",) * 2)

    def publish(self, path, words, *links, end=None, again=False):
        """A publication. Its end is told by hand where no link is dialled."""
        self.gateway = self.gateway if again else Gateway()
        one = self.last = Publication(self.gateway, path.rstrip("/"), words, links)
        code, printed = (end[0], f"cvkit: {end[1]}\n") if end else one.ends()
        line = "|".join(["again " * again + "publish " * (not again) + path, in_order(words), *map(link_text, links)])
        digests = map(digest_of, (b"".join(one.took), b"".join(one.came), self.gateway.standing()))
        self.rows.append((line, " ".join([f"{code} {in_line(printed.encode())} links {one.dials}", *digests])))
        return code

    def again(self, path, words, *links, **more):
        return self.publish(path, words, *links, **more, again=True)

    def show(self):
        """What went over each link of the last publication."""
        for number, (took, came) in enumerate(zip(self.last.took, self.last.came), 1):
            self.rows += [(f"took {number}", in_line(took)), (f"came {number}", in_line(came))]

    def ask(self, *asked_by):
        """What others ask, and what they are told."""
        told = [kept_open(act(self.gateway)) for _, act in asked_by]
        line = "ask " + in_line(b"".join(asking for asking, _ in asked_by))
        self.rows.append((line, in_line(b"".join(told))))

    def question(self, word, path, printed, code=0):
        self.rows.append((f"{word} {path}", f"{code} {in_line(printed.encode())}"))


# ---- what others ask


def leased(path, key="k2"):
    return lease(path, key), lambda gateway: gateway.lease(path, key)


def committed(token, old, new, key="k2"):
    asking = commit(token, root_of(old), root_of(new), key)
    return asking, lambda gateway: gateway.commit(token, root_of(old), new, key)


def ended(token, key="k1"):
    return end(token, key), lambda gateway: gateway.end(token, key)


LISTED = LIST, Gateway.list
SERVED = get(HEAD), lambda gateway: gateway.get(HEAD)

# ---- the rows by hand: releases

# A folder, another one that is published after it, a question on a path then, and what it prints.
RELEASES = [
    ("/d/ /d/x /d/y", "/.wh.d /e", "ls", "/r", "e\n"),
    ("/d/ /d/x /d/y /e", "/d=e /f", "cat", "/r/d", "/e"),
    ("/d/ /d/x", "/d/ /d/.cvmfscatalog /d/y", "ls", "/r/d", ".cvmfscatalog\nx\ny\n"),
    ("/.cvmfscatalog /d/ /d/.cvmfscatalog /d/x", "/d/ /d/.wh..wh..opq", "ls", "/r/d", ""),
]


def stories(table):
    """Three releases, with all that goes over the links: two files, then a whiteout, and then an opaque directory."""
    table.remark("a first release of two files, byte for byte")
    assert table.publish("/r", "/d/ /d/x /d/y") == 0
    table.show()
    table.remark("one of them is taken out, and one comes")
    assert table.again("/r", "/d/ /d/.wh.x /d/z") == 0
    table.show()
    table.question("ls", "/r/d", "y\nz\n")
    table.remark("an opaque directory")
    assert table.again("/r", "/d/ /d/.wh..wh..opq /d/w") == 0
    table.show()
    table.question("ls", "/r/d", "w\n")
    table.question("cat", "/r/d/w", "/d/w")
    table.question("cat", "/r/d/y", "cvkit: not found\n", 10)
    table.ask(LISTED, SERVED)


def releases(table):
    table.remark("what a folder changes is served")
    for first_one, second, word, path, printed in RELEASES:
        assert table.publish("/r", first_one) == table.again("/r", second) == 0
        table.question(word, path, printed)
    table.remark("contents are sent again, and catalogues that were fetched aren't")
    table.publish("/r", "/f")
    table.again("/r", "/f")
    table.again("/r", "")
    table.remark("at the root, below a catalogue, and between others")
    table.publish("/", "/a/ /a/.cvmfscatalog /a/x /b/ /b/.cvmfscatalog /b/c/ /b/c/.cvmfscatalog /b/c/y")
    table.again("/b/c/d", "/z")
    table.again("/b", "/c/ /c/.wh.y")
    table.question("ls", "/b/c", ".cvmfscatalog\nd\n")
    table.question("cat", "/a/x", "/a/x")
    table.remark("300 files, and then a whiteout and an opaque directory")
    first_words = ["/r1/ /r1/.cvmfscatalog /r1/old /r2/ /r2/.cvmfscatalog /r2/d/ /r2/d/x"]
    table.publish("/", " ".join(first_words + [f"/r{place}/f{number:03}" for place in (1, 2) for number in range(149)]))
    table.again("/", "/r1/ /r1/.wh.old /r2/ /r2/d/ /r2/d/.wh..wh..opq /r2/d/a /r2/d/b")
    table.question("ls", "/r2/d", "a\nb\n")
    table.question("stat", "/r1/old", "cvkit: not found\n", 10)
    table.question("ls", "/r1", "".join([".cvmfscatalog\n", *(f"f{number:03}\n" for number in range(149))]))
    table.question("cat", "/r2/f148", "/r2/f148")


# ---- the rows by hand: folders that can't be published

DEEP = "/1" * 64
# A path, a folder, and the line on the status: no link is dialled.
UNREAD = [
    ("/r", "/d/ /d/p!", "special /d/p"),
    ("/r", "/d/ /d/..", "bad name /d"),
    ("/r", "/d/ /d/l=", "bad name /d"),
    ("/r", "/" + "n" * 256, "bad name "),
    (DEEP, "/f", "bad name "),
    ("/r", "/z*16777217", "too large /z"),
    ("/r", "/a! /b/ /b/..", "special /a"),
    ("/r", "/b/ /b/.. /c!", "bad name /b"),
    ("/r", "/b/ /b/p! /b-c!", "special /b-c"),
]
# A folder, and its bad whiteout.
WHITEOUTS = [
    ("/d/ /d/.wh..", "/d/.wh.."),
    ("/.wh...", "/.wh..."),
    ("/.wh.x /x", "/.wh.x"),
    ("/.wh.x/", "/.wh.x"),
    ("/.wh.x=t", "/.wh.x"),
    ("/.wh..wh..opq/", "/.wh..wh..opq"),
    ("/a/ /a/.wh. /b/ /b/.wh.", "/a/.wh."),
]


def folders(table):
    table.remark("folders that can't be published")
    for path, words, line in UNREAD:
        table.publish(path, words, end=(13, f"changes: {line}"))
    for call in 1, 2, 3:
        table.publish("/r", f"/d/ /d/x !{call}", end=(15, "folder failed"))
    for words, bad in WHITEOUTS:
        assert bad_whiteout(changed(words)) == bad
        assert table.publish("/r", words) == 13
    table.publish("/r/.cvmfscatalog", "/f", end=(2, "usage"))
    table.remark("what is left of a lease that was ended, byte for byte")
    assert table.publish("/r", "/.wh.") == 13
    table.show()
    table.ask(LISTED, leased("/r"), LISTED)


# ---- the rows by hand: what the gateway refuses, and other answers

# Each reason with the members of its refusal.
HELLO, OTHER, TREE = map(digest_of, (b"hello\n", b"other\n", b"a tree"))
REASONS = [
    *((reason, {}) for reason in """
        bad_path too_many_leases no_parent invalid_token wrong_key store_failed journal_full no_memory revisions_full
        no_authorization bad_authorization unknown_key wrong_mac not_json unknown_repository
        bad_message_size bad_digest bad_pack bad_header_size
    """.split()),
    *((reason, {"member": "path"}) for reason in ("missing_member", "wrong_type", "bad_value")),
    ("collision", {"object": HELLO}),
    ("stale_base", {"revision": 7}),
    ("missing_object", {"object": TREE + "C"}),
    ("bad_catalogue", {"object": OTHER + "C"}),
    ("path_collision", {"path": "/r/a", "second": "/r/b"}),
    ("catalogue_full", {"path": "/r"}),
    ("tag_taken", {"revision": 1}),
    ("damaged", {"found": OTHER, "object": HELLO}),
]
REFUSALS = [said(lease="1-1", status="path_busy", time_remaining=7200), *(refused(reason, **members) for reason, members in REASONS)]
KINDS = [
    said(revision=1, root_hash=ZEROS, session_token="1-9", status="ok"),
    DONE,
    said(final_revision=2, root_hash=ZEROS, status="ok"),
    said(data=[], status="ok"),
    reply(b"hello"),
    reply(b"Not Found", "text/plain", "404 Not Found"),
]
# The exchanges of a publication of one file: the lease, the manifest, the catalogue, the payload and the commit. The fourth of a
# folder whose whiteout is bad is the cancel.
EXCHANGES = [("/f", number) for number in range(1, 6)] + [("/.wh.", 4)]


def at(number, link):
    """What happens to the links up to this one."""
    return [None] * (number - 1) + [link]


def refusals(table):
    table.remark("each refusal of a lease, of a payload and of a commit, and then another one of the cancel")
    for place, refusal in enumerate(REFUSALS):
        table.publish("/r", "/f", ("says", refusal))
        for number in 4, 5:
            table.publish("/r", "/f", *at(number, ("says", refusal)), ("says", REFUSALS[place - number]))
    table.remark("another kind of answer, in place of each, and then another one of the cancel")
    for place, kind in enumerate(KINDS):
        table.publish("/r", "/f", ("says", kind))
        for number in 2, 3, 4, 5:
            table.publish("/r", "/f", *at(number, ("says", kind)), ("says", KINDS[place - number]))
    table.remark("what the gateway itself refuses, byte for byte")
    for path, links in (
        ("/n/m", []), ("/r", [("others", 0, [leased("/r")])]), ("/r", at(4, ("others", LEASE_TIME, []))), ("/r", at(4, ("says", DONE))),
    ):
        assert table.publish(path, "/f", *links) == 4
        table.show()


def cuts(table):
    table.remark("links that fail, are cut or bring no reply")
    for words, number in EXCHANGES:
        for link in [("undialled",), ("failing",), ("says", b"hello\r\n"), *(("cut", most) for most in (0, 100))]:
            table.publish("/r", words, *at(number, link))


def clocks(table):
    table.remark("a lease that runs out before an exchange, or lives to its last second")
    for number in range(2, 6):
        for seconds in LEASE_TIME - 1, LEASE_TIME:
            table.publish("/r", "/f", *at(number, ("others", seconds, [])))
    table.publish("/r", "/f", *at(4, ("others", LEASE_TIME, [leased("/r")])))
    table.ask(LISTED)
    table.remark("a lease that another one ended")
    for number in range(2, 6):
        table.publish("/r", "/f", *at(number, ("others", 0, [ended("1-1")])))
    table.remark("what others hold, and what they publish meanwhile")
    for path in "/r", "", "/r/s":
        table.publish("/r", "/f", ("others", 0, [leased(path)]))
    table.publish("/r", "/f", ("others", 0, [leased("/s")]))
    for number in range(1, 6):
        table.publish("/r", "/f", *at(number, ("others", 0, [leased("/s"), committed(f"1-{1 + (number > 1)}", EMPTY, EMPTY)])))
    table.remark("a parent that is gone, though the lease found it, byte for byte")
    table.publish("/r", "/d/ /d/x /d/y")
    base = table.gateway.trees[-1]
    assert table.again("/r/d", "/f", *at(2, ("others", LEASE_TIME, [leased("/r"), committed("1-3", base, EMPTY)]))) == 4
    table.show()
    table.question("ls", "/", "")


# ---- generated rows

NAMES = ["a", "b", "a-b", "c"]


def generated(depth=0, above_it=""):
    """The words of a folder of few entries: some whiteouts, of which a few are bad, some catalogues, links and directories."""
    words = []
    for name in random.sample(NAMES, random.randint(0, 3)):
        path = above_it + "/" + name
        kind = random.choice("///=fffww" if depth < 3 else "=ffw")
        if kind == "/":
            words += [path + "/", *generated(depth + 1, path)]
        elif kind == "w":
            words.append(f"{above_it}/.wh.{name}")
            if random.random() < 0.05:
                words.append(path)
        else:
            words.append(path + {"=": "=a/b", "f": ""}[kind])
    extra = [(MARKER, 0.3), (OPAQUE, 0.15), (".wh..cvmfscatalog", 0.1), (".wh..", 0.01)]
    named = [name for name, chance in extra if random.random() < chance]
    if MARKER in named and ".wh..cvmfscatalog" in named:
        named.remove(MARKER)
    return words + [above_it + "/" + name for name in named]


def generated_link():
    """What happens to a link: mostly nothing."""
    said_instead = random.choice(REFUSALS + KINDS)
    kinds = [("undialled",), ("failing",), ("cut", random.randint(0, 100)), ("others", LEASE_TIME, []), ("says", said_instead)]
    return None if random.random() < 0.93 else random.choice(kinds)


def generated_rows(table):
    table.remark("random folders, published one after another, over links of which some fail")
    for _ in range(COUNT):
        table.publish(random.choice(["/", "/", "/r"]), " ".join(generated()))
        for _ in range(2):
            paths = sorted(path for path in table.gateway.trees[-1] if path.count("/") < 3 and not path.endswith(MARKER))
            links = [generated_link() for _ in range(6)]
            while links and links[-1] is None:
                links.pop()
            table.again(random.choice(paths + ["", "/r", "/n"]) or "/", " ".join(generated()), *links)


def rows():
    random.seed(244)
    table = Table()
    for part in stories, releases, folders, refusals, cuts, clocks, generated_rows:
        part(table)
    return table.rows
