#!/usr/bin/env python3
"""Publishes what one pack can't hold, and folders that pass a limit.

    examples/limits.py [PROGRAM]

The gateway is one `cvkit stdio` behind a small listener (`tools/cvkit_gateway.py`). Three files of 12 MiB go in two packs, and are
read back, each by `sha1sum`. A folder of 50,001 files fills the one catalogue that would have them, and one whose files have a byte
more than 1 GiB in all is too large: each has its status and its line, and publishes nothing.
"""
import hashlib
import os
import subprocess
import sys
import tempfile

sys.path.insert(0, os.path.join(os.path.dirname(os.path.abspath(__file__)), "..", "tools"))
from cvkit_client import PAYLOADS, REPOSITORY, expect, main, repository
from cvkit_files import whole_head
from cvkit_gateway import gateway

# The seconds that a command may take.
PATIENCE = 500
MIB = 1 << 20


def make(folder, sizes):
    """A folder of files with these sizes, by their names. What stands behind a file's first byte is a hole."""
    os.mkdir(folder)
    for name, (first, size) in sizes.items():
        with open(os.path.join(folder, name), "wb") as file:
            file.write(first)
            file.truncate(size)


def run(program, place, *words):
    ran = subprocess.run([program, *words], cwd=place, stdin=subprocess.DEVNULL, capture_output=True, timeout=PATIENCE)
    return ran.returncode, ran.stdout, ran.stderr.decode()


def digest_of(path):
    return subprocess.run(["sha1sum", path], stdout=subprocess.PIPE, check=True).stdout.split()[0].decode()


def publish_packs(program, place, url, top, asked):
    large = os.path.join(top, "large")
    make(large, {name: (name.encode(), 12 * MIB) for name in "abc"})
    before = len(asked)
    found = run(program, place, "publish", url, "/large", large)
    expect(found == (0, b"revision 2\n", ""), "the publication of three large files", found)
    packs = sum(one.startswith(f"POST {PAYLOADS} ") for one in asked[before:])
    expect(packs == 2, "the packs", packs)
    return large


def read_packs(program, place, url, large):
    for name in "abc":
        status, content, line = run(program, place, "cat", url, f"/large/{name}")
        expect((status, line) == (0, ""), f"cat of {name}", (status, line))
        digest = digest_of(os.path.join(large, name))
        expect(hashlib.sha1(content).hexdigest() == digest, f"the content of {name}", content[:80])
    print("three files of 12 MiB went in two packs: each has the digest that sha1sum says")


def refuse(program, place, url, top):
    full, whole = (os.path.join(top, name) for name in ("full", "whole"))
    make(full, {f"{count:05}": (b"", 0) for count in range(50_001)})
    make(whole, {**{f"{count:02}": (b"", 16 * MIB) for count in range(64)}, "one": (b"", 1)})
    for folder, line in ((full, "changes: catalogue full "), (whole, "changes: too large /one")):
        found = run(program, place, "publish", url, "/none", folder)
        expect(found == (13, b"", f"cvkit: {line}\n"), f"the publication of {folder}", found)
        print(f"    publish {os.path.basename(folder)}: status 13, {line}")


def script(program, _short):
    with tempfile.TemporaryDirectory(prefix="cvkit-") as top, repository(program) as place:
        with gateway(program, place) as (port, asked):
            url = f"http://127.0.0.1:{port}/cvmfs/{REPOSITORY}"
            large = publish_packs(program, place, url, top, asked)
            read_packs(program, place, url, large)
            refuse(program, place, url, top)
        expect(whole_head(place).revision == 2, "the head", whole_head(place))


main(script)
