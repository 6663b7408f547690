"""A gateway over a new repository, as docs/PROTOCOL.md tells it: what it replies, and what stands then.

Trees are those of `cut_vectors.py`. A reply is that to a request which asks for the end of its connection.
"""
import struct

from cut_vectors import TIME, above, catalogues, covers
from cvkit_client import REPOSITORY, digest_of, object_name
from graft_vectors import replaced
from line_vectors import first, manifest as manifest_at_first, sha1, sized
from publish_runs import EMPTY, octets, reply, root_of, said
from sessions import sealed

HEAD = ".cvmfspublished"
LEASE_TIME = 7200
ABSENT = reply(b"Not Found\n", "text/plain", "404 Not Found")
DONE = said(status="ok")


def refused(reason, **members):
    return said(reason=reason, status="error", **members)


def kept_open(replied):
    """The reply to a request that doesn't ask for the end."""
    return replied.replace(b"Connection: close\r\n", b"")


def has_place(tree, path):
    """Whether the parent of a path is a directory."""
    return path == "" or tree.get(above(path), ("none",))[0] == "dir"


def record(revision, before, roots, token, path, key, seconds):
    """The record of a revision: its root and the offered one, the lease and its path, the key and the moment."""
    epoch, number = map(int, token.split("-"))
    return b"".join([
        b"CVH1", struct.pack(">Q", revision), sha1(before), *map(bytes.fromhex, roots), struct.pack(">QQ", epoch, number),
        sized(path.encode()), sized(key.encode()), struct.pack(">Q", TIME + seconds), sized(b""),
    ])


def manifest(revision, root, history, seconds):
    lines = manifest_at_first(revision, root, history).partition(b"--\n")[0]
    return sealed(lines.replace(b"\nT%d\n" % TIME, b"\nT%d\n" % (TIME + seconds)), b"seal")


def ids_of(tree):
    """The ids of what a tree reaches, the root's first."""
    made = [digest_of(data) + "C" for data in catalogues(tree, TIME).values()]
    return made[::-1] + [digest_of(content) for kind, content in tree.values() if kind == "file"]


class Gateway:
    """A new repository at the first moment. A lease is its path, its key, the revision at its grant, and the second that ends it."""

    def __init__(self):
        self.seconds, self.granted, self.leases = 0, 0, {}
        self.trees, self.record, self.files = [EMPTY], first, {}
        self.stand(first)

    def stand(self, history):
        """The newest tree is that of the record."""
        made = catalogues(self.trees[-1], TIME)
        self.record = history
        self.manifest = manifest(len(self.trees), made[""], history, self.seconds)
        self.files.update({object_name(digest_of(data) + "C"): data for data in made.values()})
        self.files.update({object_name(digest_of(history) + "H"): history, HEAD: self.manifest})

    def live(self):
        self.leases = {token: lease for token, lease in self.leases.items() if self.seconds < lease[3]}
        return self.leases

    def lease(self, path, key):
        for token, (other, _, _, until) in reversed(self.live().items()):
            if covers(path, other) or covers(other, path):
                return said(lease=token, status="path_busy", time_remaining=until - self.seconds)
        if not has_place(self.trees[-1], path):
            return refused("no_parent")
        self.granted += 1
        token, revision = f"1-{self.granted}", len(self.trees)
        self.leases[token] = (path, key, revision, self.seconds + LEASE_TIME)
        return said(revision=revision, root_hash=root_of(self.trees[-1]), session_token=token, status="ok")

    def why_not(self, token, key):
        """The refusal of what a key asks under a lease, or nothing."""
        if token not in self.live():
            return refused("invalid_token")
        return None if self.leases[token][1] == key else refused("wrong_key")

    def end(self, token, key):
        refusal = self.why_not(token, key)
        if refusal is None:
            del self.leases[token]
        return refusal or DONE

    def store(self, token, objects, key):
        refusal = self.why_not(token, key)
        if refusal is None:
            self.files.update({object_name(id_): data for id_, data in objects})
        return refusal or DONE

    def commit(self, token, old, offered, key):
        refusal = self.why_not(token, key)
        if refusal:
            return refusal
        path, _, since, _ = self.leases[token]
        if old not in [root_of(tree) for tree in self.trees[since - 1 :]]:
            return refused("stale_base", revision=since)
        lacking = [id_ for id_ in ids_of(offered) if object_name(id_) not in self.files]
        if lacking:
            assert lacking[0] == root_of(offered) + "C"
            return refused("missing_object", object=lacking[0])
        del self.leases[token]
        self.trees.append(replaced(self.trees[-1], path or "/", offered))
        roots = root_of(self.trees[-1]), root_of(offered)
        self.stand(record(len(self.trees), self.record, roots, token, path, key, self.seconds))
        return said(final_revision=len(self.trees), root_hash=roots[0], status="ok")

    def get(self, name):
        return octets(self.files[name]) if name in self.files else ABSENT

    def list(self):
        data = [
            {"key_id": key, "path": REPOSITORY + path, "time_remaining": until - self.seconds}
            for path, key, _, until in self.live().values()
        ]
        return said(data=data, status="ok")

    def standing(self):
        return kept_open(self.list()) + kept_open(self.get(HEAD))
