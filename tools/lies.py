"""Objects that a peer serves as a tree and that are none, and renewals, with the answers, for `walk_vectors.py`. The catalogues are
written by the format's table alone. `crates/cv_resolver_tests/src/main.rt` says how a line is read.
"""
from load_vectors import MARKER, NESTED, ROOT, TRANSITION, named, sha1, wrong
from row_vectors import entry, file, row

CONTENT = b"f"
BELOW = row("/d/f", "file", CONTENT)
INNER = file([NESTED, MARKER, BELOW])
OUTER = file([ROOT, TRANSITION], [entry("/d", INNER)])
NEXT = file([ROOT, TRANSITION, row("/e", "file", CONTENT)], [entry("/d", INNER)])
EMPTY = file([ROOT])
OTHER = file([NESTED, MARKER, row("/d/f", "file", b"g")])
OTHER_DIGEST = b"\x11" * 20
HELLO = b"hello\n"


def catalogue(data):
    """Bytes under the id that they have as a catalogue."""
    return sha1(data) + "C", data


def bad(data):
    return f"bad catalogue {sha1(data)}C"


def lies():
    """What is served, the root first, and the questions with their answers, in the order in which they are asked."""
    yield "nothing is wrong", [catalogue(OUTER), catalogue(INNER), (sha1(CONTENT), CONTENT)], ["S /d/f>file 1", "R /d/f>content f", "L /d>names .cvmfscatalog f"]
    for what, data in wrong():
        outer = file([ROOT, TRANSITION], [entry("/d", data)])
        yield f"the catalogue of `/d`: {what}", [catalogue(outer), catalogue(data)], [f"S /d/f>{bad(data)}", "L />names d", f"L /d>{bad(data)}"]
    yield "the root is the catalogue of another place", [catalogue(INNER)], [f"L />{bad(INNER)}", f"S /d/f>{bad(INNER)}"]
    astray = file([ROOT, row("/x/f", "file", CONTENT)])
    yield "a row of the root stands in no directory", [catalogue(astray)], [f"L />{bad(astray)}", f"S /x/f>{bad(astray)}"]
    inside = file([ROOT, TRANSITION, BELOW], [entry("/d", INNER)])
    yield "a row of the root is below `/d`, which has a catalogue", [catalogue(inside), catalogue(INNER)], [f"S /d/f>{bad(inside)}"]
    both = file([ROOT, TRANSITION, row("/e", "transition")], [entry("/d", INNER), entry("/e", INNER)])
    yield "two places have one catalogue", [catalogue(both), catalogue(INNER)], ["S /d/f>file 1", f"S /e/f>{bad(INNER)}", "L />names d e", "S /d/f>file 1"]
    below = file([NESTED, MARKER, row("/d/e", "transition")], [entry("/d/e", EMPTY)])
    outer = file([ROOT, TRANSITION], [entry("/d", below)])
    yield "a catalogue names that of an empty tree below it", [catalogue(outer), catalogue(below), catalogue(EMPTY)], [f"S /d/e/f>{bad(EMPTY)}", "L /d>names .cvmfscatalog e"]
    yield "another catalogue of `/d` than the one named", [catalogue(OUTER), (sha1(INNER) + "C", OTHER)], [f"S /d/f>bad object {sha1(INNER)}C {sha1(OTHER)}", "L />names d"]
    itself = file([NESTED, MARKER, row("/d/e", "transition")], [named("/d/e", OTHER_DIGEST, 0)])
    outer = file([ROOT, TRANSITION], [named("/d", OTHER_DIGEST, len(itself))])
    yield "a catalogue that names itself", [catalogue(outer), (OTHER_DIGEST.hex() + "C", itself)], [f"S /d/e/e/f>bad object {OTHER_DIGEST.hex()}C {sha1(itself)}"]
    yield "the catalogue named isn't served", [catalogue(OUTER)], [f"S /d/f>not served {sha1(INNER)}C", "L />names d"]
    sized = file([ROOT, TRANSITION], [named("/d", bytes.fromhex(sha1(INNER)), 1)])
    yield "another size of it is named, which a client needn't know", [catalogue(sized), catalogue(INNER)], ["S /d/f>file 1"]
    yield "the content is another's", [catalogue(OUTER), catalogue(INNER), (sha1(CONTENT), b"g")], [f"R /d/f>bad object {sha1(CONTENT)} {sha1(b'g')}", "S /d/f>file 1"]
    yield "the root has no bytes", [(sha1(EMPTY) + "C", b"")], [f"L />bad object {sha1(EMPTY)}C {sha1(b'')}"]
    changed = bytes([EMPTY[0] ^ 1]) + EMPTY[1:]
    yield "one bit of the root is changed", [(sha1(EMPTY) + "C", changed)], [f"L />bad object {sha1(EMPTY)}C {sha1(changed)}"]
    yield "the root is no catalogue", [catalogue(HELLO)], [f"L />{bad(HELLO)}"]


def served(room, root, objects, asked):
    """The lines of what is served and of what is asked of it, and what they print."""
    words = [f"{id_}={data.hex()}" for id_, data in objects]
    yield " ".join(["served", str(room), root] + words), f"{len(objects)} objects"
    for line in asked:
        question, _, answer = line.partition(">")
        yield question, answer


def renewals():
    """What is served, and the renewals and questions with their answers."""
    ones, twos = "01" * 20, "02" * 20
    refused = [f"renew s 4 {twos}>other repository", f"renew r 4 {twos}>older 5 4", f"renew r 5 {twos}>forked {ones} {twos}"]
    taken = [f"renew r 5 {ones}>renewed", f"L />not served {ones}C", f"renew r 6 {twos}>renewed", f"L />not served {twos}C"]
    yield "a renewal is refused in this order", ones + "C", [], refused + taken
    before = ["N S /d/f>2 wanted", "S /e>not found", f"renew r 6 {sha1(NEXT)}>renewed"]
    after = ["N S /d/f>1 wanted", "S /d/f>file 1", "S /e>file 1"]
    yield "what is kept stays over a renewal", sha1(OUTER) + "C", [catalogue(OUTER), catalogue(INNER), catalogue(NEXT)], before + after


def rows():
    """The lines of the table, and what they print. A remark prints itself."""
    for what, objects, asked in lies():
        yield f"# {what}", f"# {what}"
        yield from served(2, objects[0][0], objects, asked)
    for what, root, objects, asked in renewals():
        yield f"# {what}", f"# {what}"
        yield from served(64, root, objects, asked)
