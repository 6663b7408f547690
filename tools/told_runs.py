"""Runs of cvkit over a vault of which calls fail, by a second telling of the vault with its crashes and of the gateway over it,
call by call: how each run ends, and what a crash behind it leaves.

Requests, replies and files are those of `sessions.py` and `line_vectors.py`. What is asked and answered are names of texts.
"""
from collections import namedtuple

import sessions as told
from cvkit_client import commit, digest_of, end, get, lease, payload
from line_vectors import manifest, name, record, sha1

# Texts by their names.
TEXTS = {}


def text(called, data):
    """The name of a text, which has it from here on."""
    assert TEXTS.setdefault(called, data) == data
    return called


# ---- the vault

# How a run is cut: the call of this number fails, with its change made or not, and maybe each call behind it fails too.
Cut = namedtuple("Cut", "call made stops")
NONE = Cut(0, False, False)


class Failed(Exception):
    """A call of the vault failed."""


class Vault:
    """Files, and for each name that isn't settled what stood there before it was changed, where a crash may leave that."""

    def __init__(self, files, cut):
        self.files, self.before, self.cut, self.calls, self.changing = dict(files), {}, cut, 0, set()

    def fate(self):
        """Numbers the next call: whether it works, and whether its change is made."""
        self.calls += 1
        first = self.calls == self.cut.call
        works = not first and not (self.cut.stops and self.calls > self.cut.call)
        return works, works or first and self.cut.made

    def settled_or_fails(self):
        if not self.fate()[0]:
            raise Failed

    def read(self, path):
        self.settled_or_fails()
        return self.files.get(path)

    def sync(self):
        self.settled_or_fails()
        self.before = {}

    def change(self, files, before):
        works, made = self.fate()
        self.changing.add(self.calls)
        self.before.update(before)
        if made:
            self.files.update(files)
        if not works:
            raise Failed

    def write(self, path, data):
        self.change({path: data}, {path: None})

    def rename(self, path, to):
        assert self.files.get(path) is not None
        settled = not self.before.keys() & {path, to}
        before = {one: self.files.get(one) if settled else None for one in (path, to)}
        self.change({path: None, to: self.files[path]}, before)

    def picks(self):
        """How many picks leave something of their own, of those of four bits."""
        return 2 ** min(4, len(self.before))

    def crash(self, pick):
        """What a crash leaves: a bit for each name that isn't settled, in their order."""
        left = dict(self.files)
        for place, path in enumerate(sorted(self.before)):
            if not pick >> place & 1:
                left[path] = self.before[path]
        return {path: data for path, data in left.items() if data is not None}


# ---- what is published

HEAD, EPOCH, EPOCH_WAY, HEAD_WAY = ".cvmfspublished", "gateway.epoch", "txn/epoch", "txn/manifest"
OBJECTS = {
    "tree-1": (told.CATALOGUE, "C"),
    "record-1": (told.RECORD, "H"),
    "tree": (told.WITH_FILE, "C"),
    "file": (told.HELLO, ""),
    "tree-below": (told.WITH_DIRECTORY, "C"),
    "record-below": (told.OTHER_RECORD, "H"),
}


def path_of(what):
    return name(*OBJECTS[what])


def id_of(what):
    data, suffix = OBJECTS[what]
    return digest_of(data) + suffix


# A revision: the name of its text, and those of its tree and its record.
Revision = namedtuple("Revision", "head tree record")
# The revisions up to that of a manifest.
LINES = {}


def line_with(line, called, tree, recorded):
    """A line with one more revision."""
    data = manifest(len(line) + 1, OBJECTS[tree][0], OBJECTS[recorded][0])
    longer = (*line, Revision(text(called, told.octets(data)), tree, recorded))
    assert LINES.setdefault(data, longer) == longer
    return longer, data


def second_line(line, key, token):
    """The line with the revision that a key publishes under a token."""
    recorded, numbers = f"record-{key}-{token}", tuple(map(int, token.split("-")))
    made = record(2, sha1(told.RECORD), sha1(told.WITH_FILE), numbers, b"/a", key.encode())
    OBJECTS[recorded] = made, "H"
    return line_with(line, f"head-{key}-{token}", "tree", recorded)


FIRST, FIRST_MANIFEST = line_with((), "head-1", "tree-1", "record-1")
BELOW, BELOW_MANIFEST = line_with((), "head-below", "tree-below", "record-below")


def put(vault, batch, settled=False):
    if not settled:
        vault.sync()
    for what in batch:
        if vault.read(path_of(what)) is None:
            vault.write("txn/" + id_of(what), OBJECTS[what][0])


def bring(vault, batch):
    vault.sync()
    for what in batch:
        if vault.read(path_of(what)) is None:
            vault.rename("txn/" + id_of(what), path_of(what))


# ---- the gateway


def replied(called, **members):
    return text(called, told.reply(members).encode())


def refused(reason, called=None, **members):
    return replied(called or reason, reason=reason, status="error", **members)


class Gate:
    """What a gateway over a vault knows: the line, and one that came or didn't, as its manifest; the live lease, as its token,
    key and revision; how many leases were granted; whether the offered tree was found whole; and whether nothing waits for a
    sync."""

    def __init__(self, vault):
        self.vault, self.doubt, self.lease, self.granted, self.known = vault, None, None, 0, False
        vault.sync()
        found = vault.read(HEAD)
        if found is None:
            raise LookupError
        self.line = LINES[found]
        for revision in reversed(self.line):
            assert vault.read(path_of(revision.record)) is not None
        self.epoch = int(vault.read(EPOCH)) + 1
        vault.write(EPOCH_WAY, b"%d\n" % self.epoch)
        vault.sync()
        vault.rename(EPOCH_WAY, EPOCH)
        vault.sync()
        self.settled = True

    def settle(self):
        """Finds out whether a commit in doubt came, whose lease then ends."""
        if self.doubt is not None:
            self.settled = False
            self.vault.sync()
            if self.vault.read(HEAD) == self.doubt:
                self.line, self.lease = LINES[self.doubt], None
            self.doubt, self.settled = None, True

    def refusal(self, key, token):
        if self.lease is None or self.lease[0] != token:
            return refused("invalid_token")
        return refused("wrong_key") if self.lease[1] != key else None

    def grant(self, key, path):
        if self.lease is not None:
            return text(f"busy-{self.lease[0]}", told.busy(self.lease[0], 7200).encode())
        if path.count("/") > 1:
            self.vault.read(path_of(self.line[-1].tree))
        self.granted += 1
        token, root = f"{self.epoch}-{self.granted}", digest_of(OBJECTS[self.line[-1].tree][0])
        self.lease = token, key, len(self.line)
        called = f"granted-{token}-on-{self.line[-1].tree}"
        return replied(called, revision=len(self.line), root_hash=root, session_token=token, status="ok")

    def give_back(self, key, token):
        why = self.refusal(key, token)
        if why is None:
            self.lease = None
        return why or replied("done", status="ok")

    def put(self, batch):
        """Puts a batch on its way, behind a sync where something may wait for one."""
        settled, self.settled = self.settled, False
        put(self.vault, batch, settled)

    def store(self, key, token):
        why = self.refusal(key, token)
        if why is None:
            for what in SENT:
                self.vault.read(path_of(what))
            self.put(SENT)
            bring(self.vault, SENT)
            self.vault.sync()
            self.settled = True
        return why or replied("done", status="ok")

    def judge(self):
        """Whether all that is offered is there: the tree, and the file in it."""
        if self.known:
            return None
        for what in "tree", "file":
            if self.vault.read(path_of(what)) is None:
                return refused("missing_object", f"lacks-{what}", object=id_of(what))
        self.known = True
        return None

    def publish(self, key, token):
        why = self.refusal(key, token)
        if why is None and all(revision.tree != "tree-1" for revision in self.line[self.lease[2] - 1 :]):
            why = refused("stale_base", revision=self.lease[2])
        why = why or self.judge()
        if why is not None:
            return why
        for what in "tree", self.line[-1].tree:
            self.vault.read(path_of(what))
        line, data = second_line(self.line, key, token)
        batch = "tree", line[-1].record
        self.put(batch)
        bring(self.vault, batch)
        assert self.vault.read(path_of(line[-1].record)) is not None
        self.vault.write(HEAD_WAY, data)
        self.vault.sync()
        self.doubt = data
        self.vault.rename(HEAD_WAY, HEAD)
        self.vault.sync()
        self.line, self.doubt, self.lease, self.settled = line, None, None, True
        return replied("committed", final_revision=len(line), root_hash=told.NEW, status="ok")

    def answer(self, asked):
        """What is answered to a step, which settles a commit in doubt first."""
        try:
            self.settle()
            return asked.act(self, *asked.words)
        except Failed:
            return refused("store_failed")

    def head(self):
        return self.line[-1].head

    def object(self, what):
        try:
            found = self.vault.read(path_of(what))
        except Failed:
            return text("server-error", told.refusal("500 Internal Server Error"))
        return text("not-found", told.refusal("404 Not Found")) if found is None else text(f"got-{what}", told.octets(found))


SENT = "file", "tree"

# ---- requests: the name of a text, what it does, and the words of that.

Asked = namedtuple("Asked", "text act words")


def asks(called, data, act, *words):
    return Asked(text(called, data), act, words)


def lease_on(key, path="/a"):
    return asks(f"lease-{key}{path.replace('/', '-')}", lease(path, key), Gate.grant, key, path)


def sends(key, token):
    return asks(f"send-{key}-{token}", payload(token, told.OBJECTS, key), Gate.store, key, token)


def commits(key, token):
    second_line(FIRST, key, token)
    return asks(f"commit-{key}-{token}", commit(token, told.OLD, told.NEW, key), Gate.publish, key, token)


def ends(key, token):
    return asks(f"end-{key}-{token}", end(token, key), Gate.give_back, key, token)


def gets(*objects):
    """The manifest and these objects, which are read."""
    yield asks("get-head", get(told.HEAD), Gate.head)
    for what in objects:
        yield asks(f"get-{what}", get(path_of(what)), Gate.object, what)


READS = Gate.head, Gate.object

# ---- runs, as their requests, and how they end: with a status, and the names of what is written

STORE_FAILED = "7", text("line-store-failed", b"cvkit: store failed\n")
INIT = ()


def refused_by(why):
    return "3", text(f"line-{why}", f"cvkit: repository: {why}\n".encode())


def init(vault):
    """A repository is made, where there is none."""
    if vault.read(HEAD) is not None:
        return refused_by("exists")
    batch = "tree-1", "record-1"
    put(vault, batch)
    vault.write(EPOCH_WAY, b"0\n")
    vault.write(HEAD_WAY, FIRST_MANIFEST)
    bring(vault, batch)
    vault.rename(EPOCH_WAY, EPOCH)
    vault.sync()
    vault.rename(HEAD_WAY, HEAD)
    vault.sync()
    return "0", text("made", b"revision 1\n")


def stdio(vault, asked):
    """A gateway is opened, and asked."""
    try:
        gate = Gate(vault)
    except LookupError:
        return refused_by("missing")
    return "0", *(one.act(gate, *one.words) if one.act in READS else gate.answer(one) for one in asked)


def end_of(vault, run):
    try:
        return init(vault) if run is INIT else stdio(vault, run)
    except Failed:
        return STORE_FAILED
