#!/usr/bin/env python3
"""`cvkit ls`, `cat` and `shell` from a plain web server, beside curl and sha1sum.

    bench/client.py [--short] [PROGRAM]

Publishes a directory of 10,000 names, which has a catalogue of its own, and a file of 16 MiB. nginx serves the files of the
repository over the loopback, or Python's own http.server where there is no nginx. It measures `ls` of the directory beside `curl`
of its catalogue, `cat` of the file beside `curl | sha1sum`, and `shell` on 1,000 lines `stat` of entries in one catalogue, each with
the start of its processes, the best of five in turn, and their processor time beside it; and it counts the requests of `shell`. Of
an entry eight names deep it measures what one more such line takes, of 100,000. A program that has no `shell` is measured without it. The short form has 100 names and lines and a small file, compares what is answered, and prints no time.
"""
import collections
import contextlib
import os
import resource
import shutil
import socket
import subprocess
import sys
import tempfile
import time

sys.path.insert(0, os.path.join(os.path.dirname(os.path.abspath(__file__)), "..", "tools"))
from cvkit_client import PATIENCE, REPOSITORY, digest_of, ended, expect, main, object_name, repository
from cvkit_release import DIRECTORY, MARKER, file, offer, tree
from cvkit_server import publish, web_server

os.environ["PATH"] += ":/usr/sbin"

NGINX = """\
daemon off;
pid {work}/nginx.pid;
error_log {work}/nginx.log;
events {{}}
http {{
    access_log {work}/asked;
    client_body_temp_path {work}/bodies;
    proxy_temp_path {work}/parts;
    fastcgi_temp_path {work}/parts;
    uwsgi_temp_path {work}/parts;
    scgi_temp_path {work}/parts;
    server {{
        listen 127.0.0.1:{port};
        location /cvmfs/{repository}/ {{ alias {folder}/srv/; }}
    }}
}}
"""


# ---- the server


@contextlib.contextmanager
def nginx(folder):
    """nginx over the files of a repository. It gives its port."""
    os.chmod(folder, 0o755)
    with tempfile.TemporaryDirectory(prefix="cvkit-nginx-") as work:
        with socket.create_server(("127.0.0.1", 0)) as probe:
            port = probe.getsockname()[1]
        path = os.path.join(work, "nginx.conf")
        with open(path, "w") as out:
            out.write(NGINX.format(work=work, port=port, repository=REPOSITORY, folder=folder))
        child = subprocess.Popen(["nginx", "-e", f"{work}/nginx.log", "-c", path], stdin=subprocess.DEVNULL)
        try:
            until = time.monotonic() + PATIENCE
            while child.poll() is None and time.monotonic() < until:
                with contextlib.suppress(OSError), socket.create_connection(("127.0.0.1", port), 1):
                    break
                time.sleep(0.05)
            yield port
        finally:
            child.terminate()
            child.wait(PATIENCE)


@contextlib.contextmanager
def server(folder):
    """A server of the files of a repository. It gives its name and its port."""
    if shutil.which("nginx"):
        with nginx(folder) as port:
            yield "nginx", port
    else:
        with web_server(folder) as (port, _):
            yield "Python's http.server", port


def url_of(port):
    return f"http://127.0.0.1:{port}/cvmfs/{REPOSITORY}"


# ---- what is compared


def names_of(count):
    return [f"n{number:07}" for number in range(count)]


def reading_tree(count, content):
    """A directory of so many names, which has a catalogue of its own, and a file."""
    below = {f"/names/{name}": file(b"") for name in names_of(count)}
    return tree({"/names": DIRECTORY, f"/names/{MARKER}": file(b""), "/file": file(content)}, below)


# The seconds of a command from its start until it has ended, and those of processors that its processes took.
Taken = collections.namedtuple("Taken", "whole busy")


def busy():
    used = resource.getrusage(resource.RUSAGE_CHILDREN)
    return used.ru_utime + used.ru_stime


def taken(command, folder=None):
    before, begin = busy(), time.perf_counter()
    subprocess.run(command, shell=True, cwd=folder, stdout=subprocess.DEVNULL, check=True)
    return Taken(time.perf_counter() - begin, busy() - before)


def in_turn(*commands, folder, times=5):
    """The best times of some commands, which follow each other so often."""
    runs = [[taken(command, folder) for command in commands] for _ in range(times)]
    return [Taken(*map(min, zip(*ones))) for ones in zip(*runs)]


def ms(one):
    return f"{one.whole * 1000:.1f} ms ({one.busy * 1000:.0f} of processors)"


def catalogue_of(nodes, root_time):
    """The name of the file of the catalogue of the names: of the tree's catalogues the largest."""
    _, objects = offer(nodes, root_time)
    catalogues = [(len(content), id_) for id_, content in objects if id_.endswith("C")]
    return object_name(max(catalogues)[1])


# ---- ls and cat


def read(program, folder, short):
    content = os.urandom(100_000 if short else 16 << 20)
    nodes = reading_tree(100 if short else 10_000, content)
    root_time = publish(program, folder, nodes)
    listed = "".join(f"{name}\n" for name in [MARKER, *names_of(100 if short else 10_000)]).encode()
    with server(folder) as (name, port):
        url = url_of(port)
        expect(ended(program, folder, ["ls", url, "/names"]) == (0, listed, ""), "ls of the names")
        expect(ended(program, folder, ["cat", url, "/file"]) == (0, content, ""), "cat of the file")
        if short:
            print(f"the names and the content came from {name}")
            return
        plain = f"curl -s {url}"
        content_name, catalogue_name = object_name(digest_of(content)), catalogue_of(nodes, root_time)
        hashed = subprocess.run(f"{plain}/{content_name} | sha1sum", shell=True, stdout=subprocess.PIPE, check=True)
        expect(hashed.stdout.split()[0].decode() == digest_of(content), "curl of the file")
        names, fetched = in_turn(f"{program} ls {url} /names", f"{plain}/{catalogue_name}", folder=folder)
        print(f"from {name}: ls of 10,000 names: {ms(names)}; curl of their catalogue {ms(fetched)}; ratio {names.whole / fetched.whole:.2f}")
        whole, summed = in_turn(f"{program} cat {url} /file", f"{plain}/{content_name} | sha1sum", folder=folder)
        print(f"from {name}: cat of 16 MiB: {ms(whole)}; curl | sha1sum {ms(summed)}; ratio {summed.whole / whole.whole:.2f}")


# ---- shell


def ask_lines(program, folder, short):
    count = 100 if short else 1000
    publish(program, folder, tree({f"/{name}": file(b"") for name in names_of(count)}))
    lines = "".join(f"stat /{name}\n" for name in names_of(count)).encode()
    with web_server(folder) as (port, asked):
        status, output, said = ended(program, folder, ["shell", url_of(port)], lines)
        if status == 2:
            print("skipped: the lines of a shell: the program has none")
            return
        expect((status, said) == (0, "") and output.count(b"file 0644 0 0 0 ") == output.count(b"\n") == count, "shell", (status, said))
        expect(len(asked) == 2, "the requests of a shell", asked)
    if short:
        print(f"{count} lines of a shell were answered by 2 requests")
        return
    with server(folder) as (name, port), tempfile.NamedTemporaryFile() as given:
        given.write(lines)
        given.flush()
        (answered,) = in_turn(f"{program} shell {url_of(port)} <{given.name}", folder=folder)
        print(f"from {name}: shell on {count} lines of stat in one catalogue: {ms(answered)}, 2 requests")


# ---- an entry eight names deep

DEEP = "/one/two/three/four/five/six/seven/eight"


def deep_tree():
    """A file eight names deep, with a catalogue at each second directory above it."""
    names = DEEP.split("/")[1:]
    above = ["/" + "/".join(names[:count]) for count in range(1, 8)]
    return tree({path: DIRECTORY for path in above}, {f"{path}/{MARKER}": file(b"") for path in above[1::2]}, {DEEP: file(b"")})


def ask_deep(program, folder, short):
    """What one more line of a shell takes, where every catalogue on the way is kept."""
    count = 100 if short else 100_000
    publish(program, folder, deep_tree())
    with web_server(folder) as (port, asked):
        status, output, said = ended(program, folder, ["shell", url_of(port)], f"stat {DEEP}\n".encode() * 100)
        if status == 2:
            return
        expect((status, said) == (0, "") and output.count(b"file 0644 0 0 0 ") == output.count(b"\n") == 100, "shell", (status, said))
        expect(len(asked) == 5, "the requests of a shell", asked)
    if short:
        print("100 lines on an entry eight names deep were answered by 5 requests")
        return
    with server(folder) as (name, port), tempfile.TemporaryDirectory() as given:
        for lines in (1, count):
            with open(os.path.join(given, str(lines)), "w", encoding="ascii") as file_:
                file_.write(f"stat {DEEP}\n" * lines)
        one, many = in_turn(*(f"{program} shell {url_of(port)} <{given}/{lines}" for lines in (1, count)), folder=folder)
        print(f"from {name}: a line of a shell on an entry eight names deep, everything kept: {(many.whole - one.whole) / (count - 1) * 1e6:.1f} us")


def script(program, short):
    for part in read, ask_lines, ask_deep:
        with repository(program) as folder:
            part(program, folder, short)


main(script)
