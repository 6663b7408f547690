"""Runs of cvkit for cv_run_tests that are cut at each call of the vault, and what is printed of them.
`crates/cv_run_tests/src/crashes.rt` says how a row is read.

What comes of each case is reckoned by `told_runs.py`, call by call. So each case has one outcome, and no pick of a crash is tried
whose bits go beyond the names that aren't settled; at most 16 are. Each outcome is held to the promise, too (`keeps` and its like):
no commit that was answered is lost, and none is made twice.

These runs are cut at each call of the vault, with its change made and not, alone and with all calls behind it, and then comes a
crash by each pick: `init`, behind which a repository is made and published in; an opening with a lease, a payload and a commit,
behind which it's asked for again until the revision is 2; such a one in which two publishers ask, and all is asked for twice; one
of leases alone, whose base has a directory; and, behind each repository that a cut `init` or a cut commit may leave, the next
`init` or the publisher who asks again. What comes behind reads the manifest and each object that it reaches.

Not covered are: a call that gives other bytes than were written, a crash that damages bytes, want of memory, faults of input and
output, bits of a pick behind the fourth, two failing calls in one run with a working one between them, more than two runs that are
cut, a crash by another pick than 0 behind a run that isn't, a third revision, and trees of more than a file or a directory.
"""
import sessions as told
from told_runs import (
    BELOW_MANIFEST, EPOCH, FIRST_MANIFEST, HEAD, INIT, LINES, NONE, OBJECTS, TEXTS, Cut, Vault,
    commits, end_of, ends, gets, lease_on, path_of, refused_by, sends, text,
)

# ---- cases: how runs are cut, one after another, and the crash behind each. Behind a run that isn't cut comes a crash, too.


def ends_of(files, runs, cuts):
    """How the runs end, and the vault of the last run that is cut."""
    ended, reached = [], None
    for place, run in enumerate(runs):
        cut, pick = cuts[place] if place < len(cuts) else (NONE, 0)
        vault = Vault(files, cut)
        ended.append(end_of(vault, run))
        reached = vault if place < len(cuts) else reached
        files = vault.crash(pick)
    return tuple(ended), reached


def cut_word(cut, pick):
    return f"{cut.call}{'/made' * cut.made}{'/stops' * cut.stops}@{pick}"


def cuts_of(files, runs, before=()):
    """Each way to cut the run behind those that are cut so: at no call, and at each, which fails alone or, where others follow,
    with all behind it."""
    _, whole = ends_of(files, runs, (*before, (NONE, 0)))
    yield NONE
    for call in range(1, whole.calls + 1):
        for made in (False, True) if call in whole.changing else (False,):
            yield Cut(call, made, False)
            _, alone = ends_of(files, runs, (*before, (Cut(call, made, False), 0)))
            if alone.calls > call:
                yield Cut(call, made, True)


class Scenario:
    """Files, runs over them, and what the program says of the cases that are tried."""

    def __init__(self, called, files, keeps, *runs):
        self.called, self.named, self.keeps, self.runs = called, files, keeps, runs
        self.files = {path: TEXTS[one] for path, one in files.items()}
        self.tried, self.ways, self.names = [], [], set()

    def way_of(self, ended, said):
        """The number of a way to end, which is said where it's a new one."""
        assert self.keeps(*ended), ended
        self.names.update(word for one in ended for word in one[1:])
        if ended not in self.ways:
            self.ways.append(ended)
            said.append(f"way {len(self.ways)}: " + " / ".join(map(" ".join, ended)))
        return self.ways.index(ended) + 1

    def try_cut(self, *cuts):
        """Tries each pick behind the last of these cuts."""
        _, vault = ends_of(self.files, self.runs, cuts)
        picks, said = vault.picks(), []
        ways = [self.way_of(ends_of(self.files, self.runs, (*cuts[:-1], (cuts[-1][0], pick)))[0], said) for pick in range(picks)]
        words = " ".join(cut_word(*cut) for cut in (*cuts[:-1], (cuts[-1][0], picks)))
        self.tried.append((f"try {words}", "\n".join([*said, f"{words}: " + " ".join(map(str, ways))])))

    def try_all(self, before=()):
        """Cuts the run behind those that are cut so at each call."""
        for cut in cuts_of(self.files, self.runs, before):
            self.try_cut(*before, (cut, 0))
        return self

    def try_twice(self):
        """Cuts the second run at each call, from each of the states of the repository that a crash of the first one leaves."""
        seen = set()
        for cut in cuts_of(self.files, self.runs):
            _, vault = ends_of(self.files, self.runs, [(cut, 0)])
            for pick in range(vault.picks()):
                kept = frozenset(one for one in vault.crash(pick).items() if not one[0].startswith("txn/"))
                if kept not in seen:
                    seen.add(kept)
                    self.try_all([(cut, pick)])
        return self

    def rows(self):
        yield (f"scenario {self.called}",) * 2
        yield from ((f"file {path} {called}", None) for path, called in self.named.items())
        for run in self.runs:
            yield "run init" if run is INIT else " ".join(["run stdio", *(one.text for one in run)]), None
        yield from self.tried


# ---- what is promised


def is_read(end):
    """Whether an opening that reads first serves all that its revision reaches, if it comes so far."""
    if end[0] != "0" or "server-error" in end:
        return True
    revision = next(line[-1] for line in LINES.values() if line[-1].head == end[1])
    second = {"got-tree", "got-file"} if revision.tree == "tree" else set()
    return {"got-tree-1", "got-record-1", f"got-{revision.record}", *second} <= set(end)


def keeps(first, *others):
    """Of publishers' runs, of which each but the first reads first: a commit that was answered is in each later opening, and is
    made once; what a revision reaches is there; and in the end that is the second one, however it came."""
    ended = (first, *others)
    for place, end in enumerate(ended):
        if "committed" in end:
            heads = {end[-1], *(later[1] for later in ended[place + 1 :] if later[0] == "0")}
            if heads != {others[-1][1]}:
                return False
    once = sum(end.count("committed") for end in ended) <= 1
    return once and keeps_tokens(*ended) and all(map(is_read, others)) and others[-1][0] == "0" and others[-1][1] != "head-1"


def keeps_first(*ended):
    """Of a repository that is made until there is one: it's made once, and in the end the whole of it is there."""
    whole = "0", "head-1", "got-tree-1", "got-record-1"
    return sum("made" in end for end in ended) <= 1 and ended[-1] == whole and ended[-3] in (whole, refused_by("missing"))


def keeps_all(first, second, *others):
    """Of a whole story: the repository is made once, and then published in."""
    return [first[1], second[1]].count("made") <= 1 and keeps(*others)


def keeps_tokens(*ended):
    """No token is granted twice."""
    tokens = [word.partition("-on-")[0] for end in ended for word in end if word.startswith("granted-")]
    return len(set(tokens)) == len(tokens)


# ---- scenarios


def repository(tree, recorded, data):
    """The files of a new repository, as the names of their texts."""
    objects = {path_of(what): text(what, OBJECTS[what][0]) for what in (tree, recorded)}
    return {**objects, EPOCH: text("epoch", b"0\n"), HEAD: text(f"manifest-of-{tree}", data)}


FILES, FILES_BELOW = repository("tree-1", "record-1", FIRST_MANIFEST), repository("tree-below", "record-below", BELOW_MANIFEST)
assert list(FILES_BELOW) == [path for path, _ in told.BELOW_FILES]
ONCE = [lease_on("k1"), sends("k1", "1-1"), commits("k1", "1-1"), *gets()]
TWICE = [lease_on("k1"), lease_on("k2"), *(act("k1", "1-1") for act in (sends, sends, commits, commits)), *gets()]


def asked_again(*tokens):
    """The other publisher reads all, and does what isn't done, under the token that is granted, which is one of these."""
    return [*READ_ALL, lease_on("k2"), *(act("k2", token) for act in (sends, commits) for token in tokens), *gets()]


for token in "1-1", "2-1", "3-1":
    commits("k2", token)
READ_ALL = [*gets("tree-1", "record-1", "tree", "file", "record-k1-1-1", *(f"record-k2-{epoch}-1" for epoch in (1, 2, 3)))]
READ_FIRST, READ_BELOW = [*gets("tree-1", "record-1")], [*gets("tree-below", "record-below")]
LEASE_BELOW, LEASE_OTHER, END_BELOW = lease_on("k1", "/a/b"), lease_on("k2", "/a/b"), ends("k1", "1-1")
LEASES = [LEASE_BELOW, LEASE_OTHER, END_BELOW, END_BELOW, LEASE_OTHER]


def scenarios():
    yield Scenario("init", {}, keeps_first, INIT, READ_FIRST, INIT, READ_FIRST).try_all()
    yield Scenario("init-again", {}, keeps_first, INIT, INIT, READ_FIRST, INIT, READ_FIRST).try_twice()
    yield Scenario("story", {}, keeps_all, INIT, INIT, ONCE, asked_again("1-1", "2-1"), READ_ALL).try_all()
    yield Scenario("leases", FILES_BELOW, keeps_tokens, LEASES, [*READ_BELOW, LEASE_OTHER]).try_all()
    yield Scenario("once", FILES, keeps, ONCE, asked_again("1-1", "2-1"), READ_ALL).try_all()
    yield Scenario("twice", FILES, keeps, TWICE, asked_again("1-1", "2-1"), READ_ALL).try_all()
    yield Scenario("again", FILES, keeps, ONCE, asked_again("1-1", "2-1"), asked_again("1-1", "2-1", "3-1"), READ_ALL).try_twice()


def rows():
    made = list(scenarios())
    told_of = [row for one in made for row in one.rows()]
    spoken_of = {word for line, _ in told_of for word in line.split()[2:]}.union(*(one.names for one in made))
    yield from ((f"text {called} {TEXTS[called].hex()}", None) for called in sorted(TEXTS.keys() & spoken_of))
    yield from told_of
