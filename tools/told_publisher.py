"""A publisher of a folder of changes, as docs/PROTOCOL.md tells it: what it asks, and how it ends.

A folder is the words of a row of cv_run_tests (`crates/cv_run_tests/src/releases/folders.rt`), and trees are those of
`cut_vectors.py`. What happens to a link is `None`, or a word of such a row and more.
"""
import json

from cut_vectors import TIME, above, catalogues, covers, owner, read
from cvkit_client import LEASES, PAYLOADS, REPOSITORY, commit_message, digest_of, lease_message, object_name, pack, pack_header
from cvkit_client import payload_message
from publish_runs import DIRECTORY, asked, root_of
from told_gateway import HEAD, has_place

OPAQUE = ".wh..wh..opq"


class Fault(Exception):
    """What a reply under a lease shows: the code of the status, and its line."""


class End(Exception):
    """Nothing follows."""


BAD_REPLY = 12, "bad reply"


def changed(words):
    """The nodes of a folder, by their paths."""
    return {path: node for path, node in read(words).items() if path}


def last_name(path):
    return path.rsplit("/", 1)[1]


def is_whiteout(path):
    return last_name(path).startswith(".wh.")


def bad_whiteout(changes):
    """The least bad whiteout by the bytes of its path, or None."""
    bad = []
    for path, (kind, _) in changes.items():
        if is_whiteout(path):
            gone = last_name(path)[len(".wh.") :]
            hides_none = gone in ("", ".", "..") or above(path) + "/" + gone in changes
            if kind != "file" or last_name(path) != OPAQUE and hides_none:
                bad.append(path)
    return min(bad, key=str.encode, default=None)


def is_hidden(changes, path):
    """Whether a directory on the way to a path hides what the base has there."""
    names, at = path.split("/")[1:], ""
    for name in names:
        below = at + "/" + name
        leaf = changes.get(below, DIRECTORY)[0] != "dir" and not is_whiteout(below)
        if at + "/" + OPAQUE in changes or at + "/.wh." + name in changes or leaf:
            return True
        at = below
    return False


def laid(base, at, changes):
    """The tree that has the changes laid over what the base has at a path."""
    nodes = {path: node for path, node in base.items() if not covers(at, path)}
    nodes[at] = base[at] if base.get(at, ("none",))[0] == "dir" else DIRECTORY
    for path, node in base.items():
        if path != at and covers(at, path) and not is_hidden(changes, path[len(at) :]):
            nodes[path] = node
    nodes.update((at + path, node) for path, node in changes.items() if not is_whiteout(path))
    return nodes


def is_toward(path, cut):
    """Whether a catalogue lies on the way to a path, or at or below it."""
    return covers(path, cut) or covers(cut, path)


def whole(came):
    """The code and the body of the reply that came, or None."""
    head, end, body = came.partition(b"\r\n\r\n")
    line, *fields = head.split(b"\r\n")
    if not end or not line.startswith(b"HTTP/1.1 "):
        return None
    size = int(dict(field.split(b": ", 1) for field in fields)[b"Content-Length"])
    return (int(line.split()[1]), body[:size]) if size <= len(body) else None


def answer_of(code, body):
    """The members of an answer, and which of them tell it from others."""
    try:
        members = json.loads(body) if code == 200 else {}
    except ValueError:
        members = {}
    for word in "session_token final_revision data repos".split():
        if word in members:
            return word, members
    return members.get("status"), members


def refusal_of(answer, members):
    """The end of a publication that was answered otherwise than it asked."""
    reason = {"path_busy": "path_busy", "error": members.get("reason")}.get(answer)
    return (4, f"refused: {reason}") if reason else BAD_REPLY


class Publication:
    """A folder that is published at a path, and what happens to its links: `None`, or a word and more."""

    def __init__(self, gateway, path, words, links):
        self.gateway, self.path, self.words, self.links = gateway, path, words, list(links)
        self.dials, self.took, self.came = 0, [], []

    def exchange(self, asking, act):
        """The code and the body of the reply to a request, which the gateway answers by an act."""
        what, *more = (self.links.pop(0) if self.links else None) or ["served"]
        self.dials += 1
        if what == "others":
            self.gateway.seconds = more[0]
            for _, other in more[1]:
                other(self.gateway)
        if what == "undialled":
            raise End(8, "link failed")
        self.took.append(asking)
        if what == "failing":
            raise End(8, "link failed")
        came = more[0] if what == "says" else act(self.gateway)
        self.came.append(came[: more[0]] if what == "cut" else came)
        replied = whole(self.came[-1])
        if replied is None:
            raise End(*BAD_REPLY)
        return replied

    def ask(self, wanted, method, target, act, body=b"", signed=None, size=None):
        """The members of the answer, which is to have this word."""
        answer, members = answer_of(*self.exchange(asked(method, target, body, signed, size), act))
        if answer != wanted:
            raise Fault(*refusal_of(answer, members))
        return members

    def fetch(self, name):
        return self.exchange(asked("GET", f"/cvmfs/{REPOSITORY}/{name}"), lambda gateway: gateway.get(name))

    def ends(self):
        """The code of the status, and what is printed."""
        try:
            message = lease_message(self.path)
            members = self.ask("session_token", "POST", LEASES, lambda gateway: gateway.lease(self.path, "k1"), message, message)
            token = members["session_token"]
            try:
                return 0, f"revision {self.release(token)}\n"
            except Fault as fault:
                act = lambda gateway: gateway.end(token, "k1")
                self.exchange(asked("DELETE", f"{LEASES}/{token}", b"", token.encode()), act)
                raise
        except (Fault, End) as end:
            code, line = end.args
            return code, f"cvkit: {line}\n"

    def release(self, token):
        """The revision that is published under a lease."""
        base = self.base()
        fetched = self.catalogues(base)
        changes = changed(self.words)
        bad = bad_whiteout(changes)
        if bad is not None:
            raise Fault(13, f"changes: bad whiteout {bad}")
        if not has_place(base, self.path):
            raise Fault(4, "refused: no_parent")
        tree = laid(base, self.path, changes)
        objects = self.objects(tree, changes, fetched)
        if objects:
            self.send(token, objects)
        return self.publish(token, base, tree)

    def base(self):
        """The tree of the manifest that is served."""
        code, body = self.fetch(HEAD)
        if code != 200:
            raise Fault(*BAD_REPLY)
        if body != self.gateway.manifest:
            raise Fault(11, "bad manifest")
        return self.gateway.trees[-1]

    def catalogues(self, base):
        """The ids of the catalogues toward the path: each is asked for, and then those that it names before the others."""
        made, wanted, ids = catalogues(base, TIME), [""], []
        while wanted:
            cut = wanted.pop(0)
            ids.append(digest_of(made[cut]) + "C")
            code, body = self.fetch(object_name(ids[-1]))
            if code != 200:
                raise Fault(*((11, f"not served {ids[-1]}") if code == 404 else BAD_REPLY))
            if body != made[cut]:
                raise Fault(11, f"bad object {ids[-1]}")
            nested = [path for path in made if path and owner(base, path) == cut and is_toward(self.path, path)]
            wanted = sorted(nested, key=str.encode) + wanted
        return ids

    def objects(self, tree, changes, fetched):
        """What is sent: the contents of the folder, and the catalogues toward the path that weren't fetched."""
        contents = [content for path, (kind, content) in changes.items() if kind == "file" and not is_whiteout(path)]
        found = {digest_of(content): content for content in contents}
        for cut, data in catalogues(tree, TIME).items():
            if is_toward(self.path, cut) and digest_of(data) + "C" not in fetched:
                found[digest_of(data) + "C"] = data
        return sorted(found.items())

    def send(self, token, objects):
        header = pack_header(*objects)
        message = payload_message(digest_of(header), len(header), token)
        act = lambda gateway: gateway.store(token, objects, "k1")
        self.ask("ok", "POST", PAYLOADS, act, message + pack(*objects), message, len(message))

    def publish(self, token, base, tree):
        message = commit_message(root_of(base), root_of(tree))
        act = lambda gateway: gateway.commit(token, root_of(base), tree, "k1")
        members = self.ask("final_revision", "POST", f"{LEASES}/{token}", act, message, token.encode())
        return members["final_revision"]
