#!/usr/bin/env python3
"""Sends a pack of 20 MiB by curl, which waits for `100 Continue`, and reads its objects back by curl and sha1sum.

    examples/curl.py [PROGRAM]

A listener of Python on a free port of the loopback starts `cvkit stdio` on each connection, which is its input and its output.
curl makes its requests on one: a lease, the pack, and each object; and on another the pack by a wrong signature, which is refused.
With the head of the pack it sends `Expect: 100-continue`, and would wait for the line for longer than it is given to end. The
program holds the objects of the pack and not its body beside them, and of the pack that it refuses nothing: so its memory shows.
"""
import os
import shutil
import socket
import subprocess
import sys
import threading
import time

sys.path.insert(0, os.path.join(os.path.dirname(os.path.abspath(__file__)), "..", "tools"))
from cvkit_client import (
    LEASES,
    PAYLOADS,
    REPOSITORY,
    authorization,
    digest_of,
    expect,
    lease_message,
    main,
    object_name,
    pack,
    pack_header,
    payload_message,
    peak_of,
    plain,
    repository,
)

# The objects: 20 of 1 MiB each, which differ.
SIZE, COUNT = 1 << 20, 20
# The seconds that curl is given, and those for which it would wait for `100 Continue`.
PATIENCE, WAIT = 60, 600
# The most memory of the program, in MiB, where it stores the pack, and where it passes it over.
STORES, PASSES = 36, 16
TOKEN = "1-1"
INTERIM = "HTTP/1.1 100 Continue"


class Listener:
    """The program serving each connection of a port, one after another."""

    def __init__(self, program, folder):
        self.program, self.folder, self.ends, self.peaks = program, folder, [], []
        self.socket = socket.create_server(("127.0.0.1", 0))
        self.thread = threading.Thread(target=self.serve, daemon=True)

    def __enter__(self):
        self.thread.start()
        return f"http://127.0.0.1:{self.socket.getsockname()[1]}"

    def __exit__(self, *_):
        self.socket.shutdown(socket.SHUT_RDWR)
        self.thread.join(PATIENCE)
        self.socket.close()

    def serve(self):
        while True:
            try:
                connection, _ = self.socket.accept()
            except OSError:
                return
            with connection:
                words = [self.program, "stdio", REPOSITORY]
                child = subprocess.Popen(words, cwd=self.folder, stdin=connection, stdout=connection, stderr=subprocess.PIPE)
                peak = 0
                while child.poll() is None:
                    peak = max(peak, peak_of(child.pid))
                    time.sleep(0.002)
                self.ends.append((child.returncode, child.stderr.read()))
                child.stderr.close()
                self.peaks.append(peak)


def written(folder, name, content):
    """The words by which curl posts these bytes, from a file of their own."""
    path = os.path.join(folder, name)
    with open(path, "wb") as file:
        file.write(content)
    return ["--data-binary", f"@{path}"]


def curl(folder, requests):
    """What curl writes on these requests, on one connection: the lines of all heads, and the body of each reply."""
    words = []
    for number, request in enumerate(requests):
        fields = ["--dump-header", os.path.join(folder, f"head-{number}"), "--output", os.path.join(folder, f"body-{number}")]
        limits = ["--max-time", str(PATIENCE), "--expect100-timeout", str(WAIT)]
        words += [*(["--next"] if words else []), "--silent", "--show-error", *limits, *fields, *request]
    ran = subprocess.run(["curl", "--fail-early", *words], stderr=subprocess.PIPE, timeout=2 * PATIENCE)
    expect(ran.returncode == 0, "curl's status", (ran.returncode, ran.stderr))
    heads, bodies = [], []
    for number in range(len(requests)):
        with open(os.path.join(folder, f"head-{number}"), "rb") as head, open(os.path.join(folder, f"body-{number}"), "rb") as body:
            heads.append(head.read().decode("latin-1").split("\r\n\r\n")[:-1])
            bodies.append(body.read())
    return heads, bodies


def sha1sum(content):
    """The digits that sha1sum writes for these bytes."""
    return subprocess.run(["sha1sum"], input=content, stdout=subprocess.PIPE, check=True).stdout.split()[0].decode()


def posts(folder, url, objects):
    """A lease on the whole tree, the pack, and the pack by a wrong signature."""
    asked = lease_message("")
    head = pack_header(*objects)
    said = payload_message(digest_of(head), len(head), TOKEN)
    body = written(folder, "payload", said + pack(*objects))
    front = ["--header", f"Message-Size: {len(said)}", "--header", "Expect: 100-continue"]
    return [
        ["--header", f"Authorization: {authorization('k1', asked)}", *written(folder, "lease", asked), url + LEASES],
        [*front, "--header", f"Authorization: {authorization('k1', said)}", *body, url + PAYLOADS],
        [*front, "--header", f"Authorization: {authorization('k1', said, 'no secret')}", *body, url + PAYLOADS],
    ]


def script(program, _short):
    if not shutil.which("curl"):
        print("skipped: there is no curl on this machine")
        return
    objects = [plain(bytes([number]) * SIZE) for number in range(COUNT)]
    with repository(program) as folder:
        listener = Listener(program, folder)
        with listener as url:
            reads = [[f"{url}/cvmfs/{REPOSITORY}/{object_name(id_)}"] for id_, _ in objects]
            asks, stores, refused = posts(folder, url, objects)
            heads, bodies = curl(folder, [asks, stores, *reads])
            for one, more in zip((heads, bodies), curl(folder, [refused])):
                one.insert(2, more[0])
        expect(listener.ends == [(0, b"")] * 2, "two connections, and how the program ended on them", listener.ends)
        for most, peak, what in zip((STORES, PASSES), listener.peaks, ("stored", "passed over"), strict=True):
            expect(peak <= most, f"the MiB of the program where the pack is {what}", peak)
            print(f"the pack was {what} in {peak:.1f} MiB")
    expect(f'"session_token":"{TOKEN}"'.encode() in bodies[0], "a lease", bodies[0])
    expect(bodies[1] == b'{"status":"ok"}', "the pack", bodies[1])
    expect(bodies[2] == b'{"reason":"wrong_mac","status":"error"}', "the pack by a wrong signature", bodies[2])
    for number in 1, 2:
        expect(len(heads[number]) == 2 and heads[number][0] == INTERIM, "the heads of a reply to a pack", heads[number])
        print(f"{INTERIM}, then {heads[number][1].splitlines()[0]}: {bodies[number].decode()}")
    for (id_, _), found in zip(objects, bodies[3:], strict=True):
        expect(sha1sum(found) == id_, "an object that was read back", id_)
    print(f"read {COUNT} objects of {SIZE} bytes back")


main(script)
