#!/usr/bin/env python3
"""Makes a repository by `cvkit init`, and gets its files from `cvkit stdio`, over real files and pipes.

    examples/files.py [PROGRAM]

From the manifest on, each file is asked by the hash that the one before it has: the root catalogue and the record of the
first revision, whose digests are also taken by `sha1sum`. Then comes an object that was put there by hand.
"""
import os
import shutil
import subprocess
import sys

sys.path.insert(0, os.path.join(os.path.dirname(os.path.abspath(__file__)), "..", "tools"))
from cvkit_client import (
    REPOSITORY,
    Session,
    add_object,
    digest_of,
    ended,
    expect,
    get,
    init,
    main,
    manifest_path,
    object_name,
    object_path,
    workplace,
)
from cvkit_files import epoch_of, named_in, read_manifest, read_record, whole_head

HAS_SHA1SUM = shutil.which("sha1sum") is not None


def sha1sum(content):
    """The digest that sha1sum gives, or Python's hashlib where there is no sha1sum."""
    if not HAS_SHA1SUM:
        return digest_of(content)
    run = subprocess.run(["sha1sum"], input=content, stdout=subprocess.PIPE, check=True)
    return run.stdout.decode().split()[0]


def fetch(session, name):
    print(f"GET /cvmfs/{REPOSITORY}/{name}")
    return session.exchange(get(name))


def fetch_object(session, id_, size):
    """An object by its id, which must have this size and its own digest."""
    served = fetch(session, object_name(id_)).content()
    print(f"    {len(served):,} bytes; their SHA-1 is {sha1sum(served)}")
    expect((sha1sum(served), len(served)) == (id_[:40], size), "an object of another digest or size", id_)
    return served


def make(program, folder):
    """The first revision, which is made once."""
    print(f"cvkit init {REPOSITORY}")
    init(program, folder)
    print("    revision 1")
    print("and again")
    again = ended(program, folder, ["init", REPOSITORY])
    print(f"    status {again[0]}, {again[2].strip()}")
    expect(again == (3, b"", "cvkit: repository: exists\n"), "a second init", again)
    head, found = whole_head(folder), set()
    for path, _, names in os.walk(os.path.join(folder, "srv")):
        found |= {os.path.join(path, name) for name in names}
    made = {object_path(folder, head.root + "C"), object_path(folder, head.record + "H"), manifest_path(folder)}
    expect(found == made | {os.path.join(folder, "srv", "gateway.epoch")}, "the files of a new repository", found)
    expect((head.revision, epoch_of(folder)) == (1, 0), "the first revision and its epoch", head)


def fetch_revision(session, folder):
    """The manifest, and what it names."""
    manifest = fetch(session, ".cvmfspublished").content()
    for line in manifest.split(b"\n")[:10]:
        print("   ", line.decode())
    with open(manifest_path(folder), "rb") as file:
        expect(manifest == file.read(), "the manifest is another than the file", manifest)
    # A name of 14 letters, and a time of ten digits.
    expect(len(manifest) == 222, "the size of the manifest", len(manifest))
    head = read_manifest(manifest)
    catalogue = fetch_object(session, head.root + "C", 81)
    expect(list(named_in(catalogue)) == [], "the catalogue of an empty tree names something", catalogue)
    record = read_record(fetch_object(session, head.record + "H", 102))
    expect((record.revision, record.root, record.time) == (1, head.root, head.time), "the first record", record)


def fetch_damaged(session, folder, content):
    """An object of a file: as it is, where a byte of the file has changed, and where there is none."""
    digest = sha1sum(content)
    fetch_object(session, digest, len(content))
    print("the same, where a byte of the file has changed")
    with open(object_path(folder, digest), "r+b") as file:
        file.write(bytes([content[0] ^ 1]))
    damaged = fetch(session, object_name(digest))
    print("   ", damaged.line)
    expect(damaged.line == "HTTP/1.1 500 Internal Server Error", "the reply for a damaged object", damaged.line)
    print("and where there is no file")
    os.remove(object_path(folder, digest))
    absent = fetch(session, object_name(digest))
    print("   ", absent.line)
    expect(absent.line == "HTTP/1.1 404 Not Found", "the reply for an absent object", absent.line)


def script(program, _short):
    if not HAS_SHA1SUM:
        print("skipped: there is no sha1sum on this machine, and hashlib takes its place")
    content = os.urandom(100_000)
    with workplace() as folder:
        make(program, folder)
        add_object(folder, content)
        with Session(program, folder) as session:
            fetch_revision(session, folder)
            fetch_damaged(session, folder, content)
            session.close()


main(script)
