"""What the scripts share that run cvkit: the folder where it runs, the program over pipes, requests and replies.

It knows the program by docs/PROTOCOL.md alone, and makes signatures, digests and messages with Python's own hmac, hashlib
and json. A reply that doesn't come within its time, or that isn't framed as it should be, raises `Wrong`; so does `expect`.
"""
import base64
import contextlib
import hashlib
import hmac
import json
import os
import re
import select
import shutil
import subprocess
import sys
import tempfile
import time

TOP = os.path.dirname(os.path.dirname(os.path.abspath(__file__)))
BUILT = os.path.join(TOP, "crates", "cvkit", "out", "cvkit")
REPOSITORY = "sw.example.org"
LEASES = "/api/v1/leases"
PAYLOADS = "/api/v1/payloads"
KEYS = {"k1": "s1", "k2": "s2"}
SEAL = "seal"
STRACE = shutil.which("strace")
ZEROS = "0" * 40
# The seconds in which a reply has to come.
PATIENCE = 20


class Wrong(Exception):
    """The program did otherwise than it should."""


def expect(holds, what, found=""):
    if not holds:
        raise Wrong(f"{what}: {found!r}" if found != "" else what)


def main(script):
    """Runs `script(program, short)` on the words of the command line: `[--short] [PROGRAM]`."""
    words = sys.argv[1:]
    short = "--short" in words
    words = [word for word in words if word != "--short"]
    program = os.path.abspath(words[0]) if words else BUILT
    name = os.path.basename(sys.argv[0])
    if len(words) > 1 or any(word.startswith("-") for word in words):
        sys.exit(f"usage: {name} [--short] [PROGRAM]")
    if not os.access(program, os.X_OK):
        sys.exit(f"{name}: {program} is no program: tools/show builds it")
    try:
        script(program, short)
    except (Wrong, OSError, subprocess.SubprocessError) as wrong:
        sys.exit(f"{name}: FAILED: {wrong}")


# ---- the folder in which the program runs


@contextlib.contextmanager
def workplace(keys=None):
    """A folder in which the program runs: keys, a seal and an empty `srv`. It goes again in the end."""
    with tempfile.TemporaryDirectory(prefix="cvkit-") as folder:
        with open(os.path.join(folder, "cvkit.keys"), "w") as file:
            members = [{"id": key, "secret": secret} for key, secret in (keys or KEYS).items()]
            json.dump({"keys": members}, file)
        with open(os.path.join(folder, "cvkit.seal"), "w") as file:
            file.write(SEAL)
        os.mkdir(os.path.join(folder, "srv"))
        yield folder


def ended(program, folder, words, given=b"", output=subprocess.PIPE):
    """How the program ends on these words and this input: its status, what it wrote, and its line on standard error."""
    ran = subprocess.run([program, *words], cwd=folder, input=given, stdout=output, stderr=subprocess.PIPE, timeout=PATIENCE)
    return ran.returncode, ran.stdout, ran.stderr.decode()


def sync_calls(words, folder, given=b"", env=None):
    """How often these words make each call of the system that syncs, on this input, by strace."""
    with tempfile.NamedTemporaryFile("r") as log:
        tracer = [STRACE, "-c", "-f", "-o", log.name, "-e", "trace=fsync,fdatasync,syncfs,sync"]
        ran = subprocess.run([*tracer, *words], cwd=folder, input=given, stdout=subprocess.DEVNULL, stderr=subprocess.DEVNULL, env=env)
        expect(ran.returncode == 0, f"{words[0]} under strace", ran.returncode)
        rows = [line.split() for line in log.read().splitlines()]
    return {row[-1]: int(row[3]) for row in rows if row and re.fullmatch("f(data)?sync|sync(fs)?", row[-1])}


def fsyncs(program, folder, words, given=b""):
    """How many fsyncs the program makes on these words and this input, by strace."""
    calls = sync_calls([program, *words], folder, given)
    return calls.get("fsync", 0) + calls.get("fdatasync", 0)


def init(program, folder, name=REPOSITORY):
    """Makes the repository, which must not be there yet."""
    found = ended(program, folder, ["init", name])
    expect(found == (0, b"revision 1\n", ""), "init", found)


@contextlib.contextmanager
def repository(program, name=REPOSITORY, keys=None, objects=()):
    """A workplace with a new repository, and with these objects of files."""
    with workplace(keys) as folder:
        init(program, folder, name)
        for content in objects:
            add_object(folder, content)
        yield folder


def manifest_path(folder):
    return os.path.join(folder, "srv", ".cvmfspublished")


def digest_of(content):
    return hashlib.sha1(content).hexdigest()


def object_name(id_):
    """Where the object of an id stands: 40 digits, and `C` behind those of a catalogue or `H` behind those of a record."""
    return f"data/{id_[:2]}/{id_[2:]}"


def object_path(folder, id_):
    return os.path.join(folder, "srv", object_name(id_))


def add_object(folder, content, suffix=""):
    path = object_path(folder, digest_of(content) + suffix)
    os.makedirs(os.path.dirname(path), exist_ok=True)
    with open(path, "wb") as file:
        file.write(content)


# ---- requests


def mac(secret, message):
    """The digits of HMAC-SHA1."""
    return hmac.new(secret.encode(), message, hashlib.sha1).hexdigest()


def authorization(key, message, secret=None):
    """The text of the header by which a key signs a message: with its own secret, or with this one."""
    digits = mac(secret or KEYS[key], message)
    return key + " " + base64.b64encode(digits.encode()).decode()


def request(method, target, body=None, signed=None, fields=()):
    """The bytes of a request. `signed` is the text of its Authorization header."""
    lines = [f"{method} {target} HTTP/1.1", "Host: x", *fields]
    if signed is not None:
        lines.append(f"Authorization: {signed}")
    if body is not None:
        lines.append(f"Content-Length: {len(body)}")
    return "\r\n".join(lines).encode() + b"\r\n\r\n" + (body or b"")


def get(name, repository=REPOSITORY):
    """A request for a file of the repository."""
    return request("GET", f"/cvmfs/{repository}/{name}")


def lease_message(path, repository=REPOSITORY):
    """The message that asks for a lease on a path."""
    return json.dumps({"path": repository + path}, separators=(",", ":")).encode()


def lease(path, key="k1", repository=REPOSITORY):
    """A request for a lease on a path."""
    body = lease_message(path, repository)
    return request("POST", LEASES, body, authorization(key, body))


def end(token, key="k1"):
    """A request for the end of a lease."""
    return request("DELETE", f"{LEASES}/{token}", signed=authorization(key, token.encode()))


def plain(content):
    """A plain object: the text of its id, and its bytes."""
    return digest_of(content), content


def pack_header(*objects):
    """The header of a pack of these objects."""
    lines = "".join(f"C {id_} {len(content)}\n" for id_, content in objects)
    return f"V2\nS{sum(len(content) for _, content in objects)}\nN{len(objects)}\n--\n{lines}".encode()


def pack(*objects):
    return pack_header(*objects) + b"".join(content for _, content in objects)


def payload_message(digest, size, token):
    """The message of a payload, by the digest and the size of its pack's header."""
    members = {"header_size": size, "payload_digest": digest, "session_token": token}
    return json.dumps(members, separators=(",", ":")).encode()


def payload(token, objects, key="k1", packed=None):
    """A request that sends these objects under a lease, in their pack or in these bytes."""
    header = pack_header(*objects)
    said = payload_message(digest_of(header), len(header), token)
    body = said + (pack(*objects) if packed is None else packed)
    return request("POST", PAYLOADS, body, authorization(key, said), [f"Message-Size: {len(said)}"])


def commit_message(old, new, tag=""):
    """The message that offers a new root, which was made from an old one."""
    members = {"new_root_hash": new, "old_root_hash": old, "tag_name": tag}
    return json.dumps(members, separators=(",", ":")).encode()


def commit(token, old, new, key="k1", tag=""):
    """A request that publishes what a new root has at the path of a lease."""
    return request("POST", f"{LEASES}/{token}", commit_message(old, new, tag), authorization(key, token.encode()))


LIST = request("GET", LEASES)
REPOSITORIES = request("GET", "/api/v1/repos")


# ---- replies


class Reply:
    """A status line, the fields under their names, and a body."""

    def __init__(self, line, fields, body):
        self.line, self.fields, self.body = line, fields, body

    def json(self):
        """The answer of the interface that the reply carries."""
        expect(self.line == "HTTP/1.1 200 OK", "the status line", self.line)
        expect(self.fields.get("Content-Type") == "application/json", "the type of an answer", self.fields)
        return json.loads(self.body)

    def content(self):
        """The bytes of the file that the reply carries."""
        expect(self.line == "HTTP/1.1 200 OK", "the status line", self.line)
        expect(self.fields.get("Content-Type") == "application/octet-stream", "the type of a file", self.fields)
        return self.body


def expect_refusal(reply, reason, **members):
    """The reply must be this refusal, with these further members."""
    answer = reply.json()
    expect(answer == {"reason": reason, "status": "error", **members}, f"a refusal, {reason}", answer)


def file_reply(content):
    """The bytes of the reply that carries a file, where the connection goes on."""
    return b"HTTP/1.1 200 OK\r\nContent-Type: application/octet-stream\r\nContent-Length: %d\r\n\r\n" % len(content) + content


def peak_of(process):
    """The most memory that a process has had so far, in MiB, or 0 once it has ended. What the system tells of it in the end begins
    with what its parent had."""
    with open(f"/proc/{process}/status", encoding="ascii") as status:
        fields = dict(line.split(":", 1) for line in status)
    return int(fields.get("VmHWM", "0 kB").split()[0]) / 1024


class Session:
    """The program serving one connection on pipes, of which the input stays open until `close`."""

    def __init__(self, program, folder, name=REPOSITORY):
        self.child = subprocess.Popen(
            [program, "stdio", name], cwd=folder, stdin=subprocess.PIPE, stdout=subprocess.PIPE, stderr=subprocess.PIPE
        )
        self.held = b""

    def __enter__(self):
        return self

    def __exit__(self, *_):
        self.child.kill()
        self.child.wait()
        for pipe in (self.child.stdin, self.child.stdout, self.child.stderr):
            with contextlib.suppress(OSError):
                pipe.close()

    def send(self, data):
        try:
            self.child.stdin.write(data)
            self.child.stdin.flush()
        except BrokenPipeError:
            self.child.wait()
            raise Wrong(f"the program ended with status {self.child.returncode}: {self.child.stderr.read()!r}") from None

    def more(self, until):
        """More bytes of the output, or none at its end."""
        left = until - time.monotonic()
        out = self.child.stdout.fileno()
        if left <= 0 or not select.select([out], [], [], left)[0]:
            raise Wrong(f"no reply came in time, but only {self.held[:80]!r}")
        data = os.read(out, 1 << 20)
        self.held += data
        return data

    def head(self, until):
        """The lines of the next head, while the input stays open."""
        while b"\r\n\r\n" not in self.held:
            if not self.more(until):
                self.child.wait()
                raise Wrong(f"no reply, but status {self.child.returncode}: {self.child.stderr.read()!r}")
        head, _, self.held = self.held.partition(b"\r\n\r\n")
        return head.decode("latin-1").split("\r\n")

    def interim(self, seconds=PATIENCE):
        """The lines of an interim reply, which has no body."""
        return self.head(time.monotonic() + seconds)

    def reply(self, seconds=PATIENCE):
        """The next reply, while the input stays open."""
        until = time.monotonic() + seconds
        line, *rest = self.head(until)
        fields = dict(field.split(": ", 1) for field in rest)
        size = int(fields["Content-Length"])
        while len(self.held) < size:
            expect(self.more(until), "the output ended inside a body")
        body, self.held = self.held[:size], self.held[size:]
        return Reply(line, fields, body)

    def exchange(self, asked):
        self.send(asked)
        return self.reply()

    def peak(self):
        """The most memory that the program has had so far, in MiB."""
        return peak_of(self.child.pid)

    def is_silent(self, seconds=0.2):
        """Whether nothing comes for so long."""
        return not self.held and not select.select([self.child.stdout], [], [], seconds)[0]

    def status_within(self, seconds):
        """The status with which the program ended by itself within this time, or None."""
        try:
            return self.child.wait(seconds)
        except subprocess.TimeoutExpired:
            return None

    def close(self, status=0):
        """Ends the input. The program has to end with this status, and write nothing more."""
        self.child.stdin.close()
        until = time.monotonic() + PATIENCE
        while self.more(until):
            pass
        self.child.wait()
        expect(self.child.returncode == status, "the status", (self.child.returncode, self.child.stderr.read()))
        expect(self.held == b"", "output behind the last reply", self.held[:80])


def serve(program, folder, asked, output=subprocess.PIPE, name=REPOSITORY):
    """Gives the program all requests at once: what it wrote, and the most memory that it had, in MiB."""
    with tempfile.TemporaryFile() as input_:
        input_.write(asked)
        input_.seek(0)
        child = subprocess.Popen([program, "stdio", name], cwd=folder, stdin=input_, stdout=output)
        written = child.stdout.read() if output == subprocess.PIPE else None
        _, status, used = os.wait4(child.pid, 0)
        child.returncode = os.waitstatus_to_exitcode(status)
    expect(child.returncode == 0, "the status", child.returncode)
    return written, used.ru_maxrss / 1024
