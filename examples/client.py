#!/usr/bin/env python3
"""Publishes a release over `cvkit stdio`, serves its files by a plain web server, and reads them with `cvkit ls`, `stat`, `cat`
and `shell`.

    examples/client.py [PROGRAM]

The server is Python's own http.server over the files of the repository, on a free port of the loopback: it knows nothing of
cvkit. What the program prints is compared with the tree that was published. A shell's lines are sent in two pieces over a pipe
that stays open: each is answered once it is whole, before the next is sent. Then a file is damaged, one is taken away, the
manifest is sealed by another secret, and the server stops: each has its status and its line.
"""
import os
import select
import subprocess
import sys

sys.path.insert(0, os.path.join(os.path.dirname(os.path.abspath(__file__)), "..", "tools"))
from cut_vectors import MODES, TIME
from cvkit_client import REPOSITORY, digest_of, ended, expect, mac, main, manifest_path, object_name, object_path, repository
from cvkit_files import whole_head
from cvkit_release import DIRECTORY, MARKER, file, tree
from cvkit_server import publish, web_server

# A release with a catalogue of its own at `/app`, and a link that leads into it.
RELEASE = tree(
    {
        "/app": DIRECTORY,
        f"/app/{MARKER}": file(b""),
        "/app/README": file(b"Says hello.\n"),
        "/app/bin": DIRECTORY,
        "/app/bin/hello": file(b"#!/bin/sh\necho hello\n"),
        "/app/table": file(bytes(range(256)) * 400),
        "/readme": ("link", b"app/./bin/../README"),
        "/round": ("link", b"round"),
    }
)


# The seconds in which a line of the shell has to be answered, and in which nothing may come.
SOON, WHILE = 10, 0.05


# ---- what has to be printed


def names_below(path):
    return sorted(other[len(path) + 1 :] for other in RELEASE if other.startswith(f"{path}/") and "/" not in other[len(path) + 1 :])


def listed(path):
    return "".join(f"{name}\n" for name in names_below(path)).encode()


def line_of(path, root_time):
    kind, content = RELEASE[path]
    target = f" -> {content.decode()}" if kind == "link" else ""
    size = 0 if kind == "dir" else len(content)
    return f"{kind} {MODES[kind]:04o} 0 0 {size} {TIME if path else root_time}{target}\n".encode()


class Client:
    """The program in a folder, as a client of a server."""

    def __init__(self, program, folder, port):
        self.program, self.folder, self.url = program, folder, f"http://127.0.0.1:{port}/cvmfs/{REPOSITORY}"

    def run(self, verb, path):
        return ended(self.program, self.folder, [verb, self.url, path or "/"])

    def prints(self, verb, path, output):
        found = self.run(verb, path)
        expect(found == (0, output, ""), f"{verb} {path}", found)

    def refuses(self, verb, path, code, line):
        found = self.run(verb, path)
        expect(found == (code, b"", f"cvkit: {line}\n"), f"{verb} {path}", found)
        print(f"    {verb} {path}: status {code}, {line}")


# ---- what is done


def read_back(client, root_time):
    """All names, lines and contents, which must be those of the release."""
    for path, (kind, content) in RELEASE.items():
        client.prints("stat", path, line_of(path, root_time))
        if kind == "dir":
            client.prints("ls", path, listed(path))
        if kind == "file":
            client.prints("cat", path, content)
    client.prints("cat", "/readme", RELEASE["/app/README"][1])
    print(f"read {len(RELEASE)} entries of {client.url}")


def look_astray(client):
    """Questions that the tree refuses."""
    client.refuses("cat", "/app/none", 10, "not found")
    client.refuses("ls", "/app/README/below", 10, "not a directory")
    client.refuses("ls", "/app/README", 10, "not a directory")
    client.refuses("cat", "/app", 10, "not a file")
    client.refuses("cat", "/round", 10, "too many links")
    client.refuses("cat", "app", 2, "usage")


def check_requests(client, asked, folder):
    """What a server is asked for: the manifest, then the catalogues on the way, then the content."""
    path = "/app/README"
    asked.clear()
    client.prints("cat", path, RELEASE[path][1])
    files = [name.split(f"/cvmfs/{REPOSITORY}/")[1] for name in asked]
    expect(len(files) == 4 and files[0] == ".cvmfspublished", "the requests", files)
    expect(files[1] == object_name(whole_head(folder).root + "C"), "the request for the root", files)
    expect(files[2].endswith("C"), "the request for the catalogue below", files)
    expect(files[3] == object_name(digest_of(RELEASE[path][1])), "the request for the content", files)
    print(f"asked for {', '.join(files)}")


def answered_lines():
    """Lines of a shell, and what is printed of each."""
    names, (_, content) = names_below("/app"), RELEASE["/app/README"]
    return [
        (b"ls /app", f"names {len(names)}\n".encode() + listed("/app")),
        (b"stat /readme", line_of("/readme", None)),
        (b"cat /readme", f"bytes {len(content)}\n".encode() + content + b"\n"),
        (b"cat /app/none", b"refused: not found\n"),
        (b"renew", b"revision 2\n"),
        (b"renewed", b"refused: bad line\n"),
        (b"stat /app/table", line_of("/app/table", None)),
    ]


def read_soon(output, length):
    """As many bytes as the shell prints meanwhile, up to these."""
    found = b""
    while len(found) < length and select.select([output], [], [], SOON)[0]:
        more = os.read(output.fileno(), length - len(found))
        if not more:
            break
        found += more
    return found


def ask_shell(client):
    """Line by line over a pipe: nothing before a line is whole, and its answer before the next one is sent."""
    words = [client.program, "shell", client.url]
    pipes = {"stdin": subprocess.PIPE, "stdout": subprocess.PIPE, "stderr": subprocess.PIPE}
    with subprocess.Popen(words, cwd=client.folder, bufsize=0, **pipes) as shell:
        for line, answer in answered_lines():
            shell.stdin.write(line[:3])
            expect(not select.select([shell.stdout], [], [], WHILE)[0], "nothing before the line is whole", line)
            shell.stdin.write(line[3:] + b"\n")
            found = read_soon(shell.stdout, len(answer))
            expect(found == answer, "the answer to a line", (line, found[:80]))
        shell.stdin.write(b"ls /app/bin")
        shell.stdin.close()
        rest, line = shell.stdout.read(), shell.stderr.read()
        expect((rest, line) == (b"names 1\nhello\n", b""), "the last line", (rest, line))
        expect(shell.wait(SOON) == 0, "the shell's status", shell.returncode)
    print(f"a shell answered {len(answered_lines()) + 1} lines, each before the next")


def put(path, content):
    with open(path, "wb") as out:
        out.write(content)


def resealed(manifest, secret):
    """A manifest whose seal is that of another secret."""
    lines = manifest[:-64]
    digits = digest_of(lines)
    return lines + f"--\n{digits}\n".encode() + bytes.fromhex(mac(secret, digits.encode()))


def look_at_faults(client, folder):
    """What a server can do wrong, and what is said of it."""
    path = "/app/README"
    id_, content = digest_of(RELEASE[path][1]), RELEASE[path][1]
    put(object_path(folder, id_), content[:-1] + b"!")
    client.refuses("cat", path, 11, f"bad object {id_}")
    os.remove(object_path(folder, id_))
    client.refuses("cat", path, 11, f"not served {id_}")
    client.prints("ls", "/app", listed("/app"))
    put(object_path(folder, id_), content)
    root = whole_head(folder).root + "C"
    with open(object_path(folder, root), "rb") as stored:
        catalogue = stored.read()
    put(object_path(folder, root), catalogue[:-1] + bytes([catalogue[-1] ^ 1]))
    client.refuses("ls", "/", 11, f"bad object {root}")
    put(object_path(folder, root), catalogue)
    with open(manifest_path(folder), "rb") as stored:
        manifest = stored.read()
    put(manifest_path(folder), resealed(manifest, "another seal"))
    client.refuses("ls", "/", 11, "bad manifest")
    os.remove(manifest_path(folder))
    client.refuses("ls", "/", 12, "bad reply")
    put(manifest_path(folder), manifest)


def script(program, _short):
    with repository(program) as folder:
        root_time = publish(program, folder, RELEASE)
        with web_server(folder) as (port, asked):
            client = Client(program, folder, port)
            read_back(client, root_time)
            check_requests(client, asked, folder)
            ask_shell(client)
            print("and what is refused:")
            look_astray(client)
            look_at_faults(client, folder)
            client.prints("ls", "", listed(""))
        client.refuses("ls", "/", 8, "link failed")


main(script)
