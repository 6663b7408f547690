#!/usr/bin/env python3
"""Object bytes and requests a second through `cvkit stdio`, beside sha1sum.

    bench/stdio.py [--short] [PROGRAM]

Asks for an object of 16 MiB fifty times and for one of 1 KiB 999 times, each over one connection, and prints ratios of one
run: the best of three each. What is answered is compared first, a few times. The short form compares, with small objects, and
prints no time.
"""
import os
import subprocess
import sys
import time

sys.path.insert(0, os.path.join(os.path.dirname(os.path.abspath(__file__)), "..", "tools"))
from cvkit_client import digest_of, expect, file_reply, get, main, manifest_path, object_name, object_path, repository, serve
from cvkit_files import whole_head, whole_object


def best(run, times=3):
    """The seconds of the shortest of some runs, and what that run gave."""

    def timed():
        begin = time.perf_counter()
        given = run()
        return time.perf_counter() - begin, given

    return min((timed() for _ in range(times)), key=lambda one: one[0])


def compare(program, folder, contents, times):
    """Sees that the manifest, the root catalogue and the objects come, each so many times."""
    root = whole_head(folder).root + "C"
    with open(manifest_path(folder), "rb") as file:
        files = [file.read(), whole_object(folder, root), *contents]
    names = [".cvmfspublished", object_name(root), *(object_name(digest_of(content)) for content in contents)]
    written, _ = serve(program, folder, b"".join(map(get, names)) * times)
    wanted = b"".join(map(file_reply, files)) * times
    expect(written == wanted, "the replies are others than the objects", len(written))


def measure(program, folder, large, small):
    def ask(content, times):
        asked = get(object_name(digest_of(content))) * times
        return best(lambda: serve(program, folder, asked, subprocess.DEVNULL))

    path = object_path(folder, digest_of(large))
    served, (_, peak) = ask(large, 50)
    hashed, _ = best(lambda: subprocess.run(["sha1sum"] + [path] * 50, stdout=subprocess.DEVNULL, check=True))
    many, (_, small_peak) = ask(small, 999)
    total = 50 * len(large) / (1 << 20)
    ratio = hashed / served
    print(f"object of 16 MiB, 50 times: {total / served:.0f} MiB/s; sha1sum {total / hashed:.0f} MiB/s; ratio {ratio:.2f}")
    print(f"object of 1 KiB: {999 / many:.0f} requests/s in one session of 999, the program's start included")
    print(f"peak memory of the program: {peak:.0f} MiB; with the small object {small_peak:.0f} MiB")


def script(program, short):
    contents = [os.urandom(100_000 if short else 16 << 20), os.urandom(1024), b""]
    with repository(program, objects=contents) as folder:
        compare(program, folder, contents, 3)
        if short:
            print("each object came as it stands")
        else:
            measure(program, folder, *contents[:2])


main(script)
