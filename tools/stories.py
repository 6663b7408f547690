"""Stories of publishers for cv_run_tests: sessions over the new repository, and how many objects are there then.

A tree is that of `cut_vectors.py`, and what a commit makes of two is told by `graft_vectors.py`. A catalogue that is offered is the
publisher's own, and what is read back afterwards is made from the newest tree.
"""
import functools
import struct

import line_vectors
import row_vectors
import runs
from cut_vectors import catalogues, read
from cvkit_client import LEASES, commit, digest_of, get, object_name, payload, plain
from cvkit_release import offer
from graft_vectors import replaced
from line_vectors import name
from sessions import CATALOGUE, HELLO, NEW, OLD, WITH_FILE, ask, listed, octets, reply, request

EMPTY = read("")
assert catalogues(EMPTY)[""] == CATALOGUE
X, Y, BOTH = read("/x"), read("/y"), read("/x /y")
# No catalogue's digits, and those of a file.
NOWHERE, AWAY = "0" * 39 + "1", digest_of(HELLO)
# With the root these are all rows but one that a catalogue may have.


@functools.cache
def offer_of(nodes):
    root, objects = offer(dict(nodes), line_vectors.TIME)
    return root, dict(objects)


def offered(nodes):
    """The root of a tree, and its objects by their ids."""
    return offer_of(tuple(nodes.items()))


class Story:
    """A session over the new repository. Its trees are those of the revisions, its paths those of the leases, and its parts those of
    the row."""

    def __init__(self, name):
        self.name, self.exchanges, self.trees, self.paths, self.objects, self.parts = name, [], [EMPTY], [], set(), []

    def stand(self, id_, data):
        """A file under the name of an object, before the session."""
        self.objects.add(id_)
        self.parts.append(runs.file(object_name(id_), data))

    def say(self, asked, answer):
        self.exchanges.append((asked, reply(answer)))

    def refuse(self, asked, reason, **members):
        self.say(asked, {"reason": reason, "status": "error", **members})

    def lease(self, *paths):
        """Leases on these paths, which are granted."""
        for path in paths:
            self.paths.append(path)
            token, root = f"1-{len(self.paths)}", offered(self.trees[-1])[0]
            self.say(ask(path), {"revision": len(self.trees), "root_hash": root, "session_token": token, "status": "ok"})

    def send(self, number, objects):
        """A payload under the lease of this number."""
        self.objects |= set(objects)
        self.say(payload(f"1-{number}", list(objects.items())), {"status": "ok"})

    def publish(self, number, old, nodes, tag=""):
        """A commit under the lease of this number, which offers a tree made from an old root."""
        self.trees.append(replaced(self.trees[-1], self.paths[number - 1] or "/", nodes))
        root, objects = offered(self.trees[-1])
        self.objects |= set(objects)
        asked = commit(f"1-{number}", offered(old)[0], offered(nodes)[0], tag=tag)
        self.say(asked, {"final_revision": len(self.trees), "root_hash": root, "status": "ok"})

    def bring(self, number, old, nodes):
        """The objects of a tree, and its commit."""
        self.send(number, offered(nodes)[1])
        self.publish(number, old, nodes)

    def list(self, *leases):
        """The leases that are live."""
        self.exchanges.append((request("GET", LEASES), listed(*leases)))

    def read(self, data, suffix=""):
        self.exchanges.append((get(name(data, suffix)), octets(data)))

    def read_catalogues(self, count):
        """All catalogues of the newest tree, which are so many."""
        made = catalogues(self.trees[-1])
        assert len(made) == count
        for data in made.values():
            self.read(data, "C")

    def rows(self):
        """Its name and its session: each revision has a record."""
        count = len(self.objects | set(offered(EMPTY)[1])) + len(self.trees)
        return runs.remark(self.name), runs.session(self.exchanges, *self.parts, objects=count)


def of_one():
    """One publisher after itself."""
    one = Story("a file is taken out")
    one.lease("/x")
    one.bring(1, EMPTY, X)
    one.lease("/y")
    one.bring(2, X, Y)
    one.lease("/x")
    one.publish(3, BOTH, EMPTY)
    assert one.trees[-1] == Y
    one.read_catalogues(1)
    yield one

    one, plain_, marked = Story("a marker comes and goes"), read("/d/ /d/f /d/g"), read("/d/ /d/f /d/g /d/.cvmfscatalog")
    one.lease("/d")
    one.bring(1, EMPTY, plain_)
    one.lease("/d")
    one.bring(2, plain_, marked)
    # Two rows and an entry above, and four rows below.
    assert [struct.unpack(">II", data[4:12]) for data in catalogues(marked).values()] == [(4, 0), (2, 1)]
    one.read_catalogues(2)
    one.lease("/d")
    one.publish(3, marked, plain_)
    assert one.trees[-1] == one.trees[1]
    yield one

    one, whole = Story("a whole tree"), read("/a/ /a/.cvmfscatalog /a/f /b/ /b/l=../a/f /c")
    one.lease("/x")
    one.bring(1, EMPTY, X)
    one.lease("")
    one.bring(2, X, whole)
    assert one.trees[-1] == whole
    one.read_catalogues(2)
    yield one

    one = Story("what is there already")
    for number in 1, 2:
        one.lease("/x")
        one.publish(number, EMPTY, EMPTY)
    yield one

    one, below = Story("an offer without the parent"), read("/d/ /d/e")
    one.lease("/d")
    one.bring(1, EMPTY, below)
    one.lease("/d/e")
    one.publish(2, below, EMPTY)
    assert one.trees[-1] == read("/d/")
    one.read_catalogues(1)
    yield one


def of_two():
    """Two publishers beside each other, whose offers were made on the root that each of them names."""
    for what, paths in ("two publishers", ("/x", "/y")), ("the two the other way round", ("/y", "/x")):
        one = Story(what)
        one.lease("/x", "/y")
        for path in paths:
            one.bring(1 if path == "/x" else 2, EMPTY, X if path == "/x" else Y)
        assert one.trees[-1] == BOTH
        one.read_catalogues(1)
        yield one

    one = Story("a root of before the lease")
    one.lease("/x")
    one.bring(1, EMPTY, X)
    one.lease("/y")
    one.send(2, offered(Y)[1])
    one.refuse(commit("1-2", OLD, offered(Y)[0]), "stale_base", revision=2)
    one.publish(2, X, Y)
    yield one

    one = Story("an old root of no revision")
    one.lease("/a")
    one.refuse(commit("1-1", NOWHERE, OLD), "stale_base", revision=1)
    one.list(("k1", "/a", 7200))
    one.publish(1, EMPTY, EMPTY)
    yield one

    one = Story("another key")
    one.lease("/a")
    one.refuse(commit("1-1", OLD, OLD, "k2"), "wrong_key")
    yield one


def of_tags():
    one = Story("a tag again")
    one.lease("/a", "/b")
    one.publish(1, EMPTY, EMPTY, "v1")
    one.refuse(commit("1-2", OLD, OLD, tag="v1"), "tag_taken", revision=2)
    yield one

    one, tag = Story("the longest tag"), "é" * 127 + "t"
    one.lease("/a", "/b", "/c")
    one.refuse(commit("1-1", OLD, OLD, tag=tag + "t"), "bad_value", member="tag_name")
    one.publish(1, EMPTY, EMPTY, tag)
    one.refuse(commit("1-2", OLD, OLD, tag=tag), "tag_taken", revision=2)
    one.publish(2, EMPTY, EMPTY, tag[:-1])
    one.list(("k1", "/c", 7200))
    yield one


def of_bad_offers():
    """What is offered lacks an object, or isn't what it has to be."""
    one = Story("a root that was never sent")
    one.lease("/a")
    one.refuse(commit("1-1", OLD, NOWHERE), "missing_object", object=NOWHERE + "C")
    yield one

    one, wrong = Story("a file of another size"), row_vectors.file([row_vectors.row("", "dir"), row_vectors.row("/a", "file", HELLO, size=7)])
    one.lease("/a")
    one.send(1, dict([plain(HELLO), (digest_of(wrong) + "C", wrong)]))
    one.refuse(commit("1-1", OLD, digest_of(wrong)), "bad_catalogue", object=digest_of(wrong) + "C")
    yield one

    one, with_file = Story("a file that comes late"), {"": EMPTY[""], "/a": ("file", HELLO)}
    one.lease("/a")
    one.send(1, {NEW + "C": WITH_FILE})
    one.refuse(commit("1-1", OLD, NEW), "missing_object", object=AWAY)
    one.list(("k1", "/a", 7200))
    one.send(1, dict([plain(HELLO)]))
    one.publish(1, EMPTY, with_file)
    yield one

    one = Story("an offered root that is damaged")
    one.stand(NEW + "C", HELLO)
    one.lease("/a")
    one.refuse(commit("1-1", OLD, NEW), "damaged", found=AWAY, object=NEW + "C")
    one.list(("k1", "/a", 7200))
    yield one

    # The row of a cut states how many bytes its catalogue has, which is seen first.
    nested = read("/d/ /d/.cvmfscatalog")
    (root, root_data), (inner, inner_data) = ((digest_of(data) + "C", data) for data in map(catalogues(nested).get, ("", "/d")))
    changed = inner_data[:-1] + bytes([inner_data[-1] ^ 1])
    one = Story("a nested catalogue that is damaged")
    one.stand(root, root_data)
    one.stand(inner, changed)
    one.lease("/d")
    one.refuse(commit("1-1", OLD, root[:-1]), "damaged", found=digest_of(changed), object=inner)
    yield one

    one = Story("a nested catalogue of another size")
    one.stand(root, root_data)
    one.stand(inner, inner_data[:-1])
    one.lease("/d")
    one.refuse(commit("1-1", OLD, root[:-1]), "bad_catalogue", object=root)
    yield one


def rows():
    for stories in of_one, of_two, of_tags, of_bad_offers:
        for one in stories():
            yield from one.rows()
