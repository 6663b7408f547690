#!/usr/bin/env python3
"""How `cvkit` ends, on real files and pipes: the status, and its line on standard error.

    examples/statuses.py [PROGRAM]

Each row begins with a new repository, or with none where the row is one of `init`. What refuses to open leaves every file as
it is.
"""
import os
import subprocess
import sys
import time

sys.path.insert(0, os.path.join(os.path.dirname(os.path.abspath(__file__)), "..", "tools"))
from cvkit_client import REPOSITORY, Session, digest_of, ended, expect, init, main, manifest_path, object_path, request, workplace
from cvkit_files import whole_head
from line_vectors import catalogue

ASKED = request("GET", "/")
INIT, STDIO = ["init", REPOSITORY], ["stdio", REPOSITORY]
EPOCH, HEAD = "srv/gateway.epoch", "srv/.cvmfspublished"


def put(name, content):
    """Puts this content in place of a file."""

    def change(folder):
        with open(os.path.join(folder, name), "wb") as file:
            file.write(content)

    return change


def without(name):
    """Takes a file of the folder away."""
    return lambda folder: os.remove(os.path.join(folder, name))


def cut_manifest(folder):
    os.truncate(manifest_path(folder), 221)


def without_record(folder):
    os.remove(object_path(folder, whole_head(folder).record + "H"))


def damaged_record(folder):
    with open(object_path(folder, whole_head(folder).record + "H"), "r+b") as file:
        file.write(b"X")


def damaged_catalogue(folder):
    """Other bytes stand at the root catalogue that `init` makes, at whichever of the next seconds that is."""
    for moment in range(int(time.time()), int(time.time()) + 60):
        path = object_path(folder, digest_of(catalogue(0o040755, moment)) + "C")
        os.makedirs(os.path.dirname(path), exist_ok=True)
        put(path, b"other bytes")(folder)


def nothing(_folder):
    """All is as it was made."""


def both(first, second):
    """Two changes, one after the other."""

    def change(folder):
        first(folder)
        second(folder)

    return change


REFUSED = "cvkit: repository: "
BAD_KEYS = "cvkit: bad keys\n"
# What was changed behind `init`, the words, the input, the status and the line.
ROWS = [
    ("the input ends between requests", nothing, STDIO, ASKED, 0, ""),
    ("nothing is asked", nothing, STDIO, b"", 0, ""),
    ("a second init", nothing, INIT, b"", 3, f"{REFUSED}exists\n"),
    ("no words", nothing, [], b"", 2, "cvkit: usage\n"),
    ("a command without a name", nothing, ["init"], b"", 2, "cvkit: usage\n"),
    ("a word too many", nothing, [*STDIO, "again"], b"", 2, "cvkit: usage\n"),
    ("another command", nothing, ["serve", REPOSITORY], b"", 2, "cvkit: usage\n"),
    ("a name with a slash", nothing, ["stdio", "a/b"], b"", 2, "cvkit: usage\n"),
    ("an option", nothing, ["stdio", "-v", REPOSITORY], b"", 2, "cvkit: usage\n"),
    ("a name behind the dashes", nothing, ["stdio", "--", REPOSITORY], ASKED, 0, ""),
    ("dashes behind a name", nothing, [*STDIO, "--"], ASKED, 0, ""),
    ("dashes as a name behind the dashes", nothing, ["stdio", "--", "--"], ASKED, 3, f"{REFUSED}other name\n"),
    ("dashes before the command", nothing, ["--", *STDIO], b"", 2, "cvkit: usage\n"),
    ("an option behind the dashes", nothing, ["stdio", "--", REPOSITORY, "-v"], b"", 2, "cvkit: usage\n"),
    ("no manifest", without(HEAD), STDIO, ASKED, 3, f"{REFUSED}missing\n"),
    ("a manifest of one letter", put(HEAD, b"M\n"), STDIO, ASKED, 3, f"{REFUSED}bad manifest\n"),
    ("a manifest without its last byte", cut_manifest, STDIO, ASKED, 3, f"{REFUSED}bad manifest\n"),
    ("another seal", put("cvkit.seal", b"soul"), STDIO, ASKED, 3, f"{REFUSED}bad manifest\n"),
    ("a seal with a newline more", put("cvkit.seal", b"seal\n"), STDIO, ASKED, 3, f"{REFUSED}bad manifest\n"),
    ("another name", nothing, ["stdio", "other.example.org"], ASKED, 3, f"{REFUSED}other name\n"),
    ("no record", without_record, STDIO, ASKED, 3, f"{REFUSED}bad history\n"),
    ("a record of another digest", damaged_record, STDIO, ASKED, 3, f"{REFUSED}bad history\n"),
    ("no epoch", without(EPOCH), STDIO, ASKED, 3, f"{REFUSED}bad epoch\n"),
    ("an empty epoch", put(EPOCH, b""), STDIO, ASKED, 3, f"{REFUSED}bad epoch\n"),
    ("an epoch with a sign", put(EPOCH, b"+1\n"), STDIO, ASKED, 3, f"{REFUSED}bad epoch\n"),
    ("the last epoch", put(EPOCH, b"18446744073709551615\n"), STDIO, ASKED, 3, f"{REFUSED}epochs spent\n"),
    ("a request that is cut", nothing, STDIO, ASKED[:10], 14, "cvkit: bad request\n"),
    ("no keys", without("cvkit.keys"), STDIO, ASKED, 16, BAD_KEYS),
    ("keys that are no JSON", put("cvkit.keys", b"k1"), STDIO, ASKED, 16, BAD_KEYS),
    ("no seal", without("cvkit.seal"), STDIO, ASKED, 16, BAD_KEYS),
    ("an empty seal", put("cvkit.seal", b""), STDIO, ASKED, 16, BAD_KEYS),
    # What is judged first where two things are amiss.
    ("neither words nor keys", without("cvkit.keys"), [], b"", 2, "cvkit: usage\n"),
    ("neither keys nor a manifest", both(without("cvkit.keys"), without(HEAD)), STDIO, ASKED, 16, BAD_KEYS),
    ("neither a seal nor a manifest", both(without("cvkit.seal"), without(HEAD)), STDIO, ASKED, 16, BAD_KEYS),
    ("another name and no record", without_record, ["stdio", "other.example.org"], ASKED, 3, f"{REFUSED}other name\n"),
    ("neither a record nor an epoch", both(without_record, without(EPOCH)), STDIO, ASKED, 3, f"{REFUSED}bad history\n"),
]
# The same where there is no repository yet.
FIRST = [
    ("nothing there to open", nothing, STDIO, ASKED, 3, f"{REFUSED}missing\n"),
    ("init without keys", without("cvkit.keys"), INIT, b"", 0, ""),
    ("init without a seal", without("cvkit.seal"), INIT, b"", 16, BAD_KEYS),
    ("init with an empty seal", put("cvkit.seal", b""), INIT, b"", 16, BAD_KEYS),
    ("init over a damaged object of its own", damaged_catalogue, INIT, b"", 3, f"{REFUSED}damaged\n"),
]


def seen(folder):
    """What stands in `srv`, with its content."""
    found = {}
    for path, _, names in os.walk(os.path.join(folder, "srv")):
        for name in names:
            with open(os.path.join(path, name), "rb") as file:
                found[os.path.join(path, name)] = file.read()
    return found


def to_nobody(program, folder):
    """How it ends where the output's reader is gone."""
    reads, writes = os.pipe()
    os.close(reads)
    try:
        return ended(program, folder, STDIO, ASKED, writes)
    finally:
        os.close(writes)


def from_a_folder(program, folder):
    """The same where the input is a folder, which can't be read."""
    given = os.open(folder, os.O_RDONLY)
    try:
        ran = subprocess.run([program, *STDIO], cwd=folder, stdin=given, capture_output=True)
        return ran.returncode, ran.stdout, ran.stderr.decode()
    finally:
        os.close(given)


def while_held(words):
    """The same where another process holds `srv`."""

    def run(program, folder):
        with Session(program, folder) as session:
            session.exchange(ASKED)
            before = seen(folder)
            found = ended(program, folder, words, ASKED)
            expect(seen(folder) == before, "files changed while another process held them")
            session.close()
        return found

    return run


STREAMS = [
    ("the input can't be read", from_a_folder, 5, "cvkit: input failed\n"),
    ("nobody reads the output", to_nobody, 6, "cvkit: output failed\n"),
    ("another process holds the folder", while_held(STDIO), 7, "cvkit: store failed\n"),
    ("the same, for init", while_held(INIT), 7, "cvkit: store failed\n"),
]


def check(what, found, status, line):
    print(f"{what}: {found[0]} {found[2].strip()}")
    expect((found[0], found[2]) == (status, line), what, found)


def check_row(program, folder, what, change, words, given, status, line):
    change(folder)
    before = seen(folder)
    check(what, ended(program, folder, words, given), status, line)
    if status in (2, 3, 16):
        expect(seen(folder) == before, f"files changed: {what}")


def script(program, _short):
    for row in FIRST:
        with workplace() as folder:
            check_row(program, folder, *row)
    for row in ROWS:
        with workplace() as folder:
            init(program, folder)
            check_row(program, folder, *row)
    for what, run, status, line in STREAMS:
        with workplace() as folder:
            init(program, folder)
            check(what, run(program, folder), status, line)


main(script)
