#!/usr/bin/env python3
"""The table of cv_http_tests: heads, bodies and replies by the grammar of RFC 9112, over regular expressions, and writes by its
text. `crates/cv_http_tests/src/main.rt` says how a row is read.
"""
import random
import re

from vectors import from_line, in_line, settle_lines

random.seed(9112)
HEAD, FIELDS, BODY, PIECE, INTERIM = 16_384, 64, 33_554_432, 65_536, 16
COUNT = 300
TOKEN = rb"[!#$%&'*+\-.^_`|~0-9A-Za-z]+"
LINES = rb"((?:%s:[\t\x20-\x7e\x80-\xff]*\r?\n)*)\r?\n" % TOKEN
REQUEST = re.compile(rb"(?:\r?\n)*(%s) ([!-~\x80-\xff]+) HTTP/1\.([01])\r?\n%s" % (TOKEN, LINES))
REPLY = re.compile(rb"(?:\r?\n)*HTTP/1\.[01] (\d{3})(?: [\t\x20-\x7e\x80-\xff]*)?\r?\n%s" % LINES)
FIELD = re.compile(rb"(%s):[ \t]*(.*?)[ \t]*\r?\n" % TOKEN)
NAMES = {b"GET": "Get", b"POST": "Post", b"DELETE": "Delete"}
CODES = {
    "200": "OK",
    "400": "Bad Request",
    "404": "Not Found",
    "411": "Length Required",
    "413": "Content Too Large",
    "431": "Request Header Fields Too Large",
    "500": "Internal Server Error",
    "501": "Not Implemented",
}
TYPES = {"json": "application/json", "octets": "application/octet-stream", "text": "text/plain"}


# ---- what heads say

def values(fields, name):
    return [value for called, value in fields if called.lower() == name]


def fields_of(lines):
    return [found.groups() for found in FIELD.finditer(lines)]


def is_text(data):
    try:
        data.decode()
    except UnicodeDecodeError:
        return False
    return True


def is_number(value):
    return re.fullmatch(rb"\d+", value) and int(value) < 2**64


def fields_fault(fields):
    lengths = values(fields, b"content-length")
    if len(lengths) > 1 or not all(map(is_number, lengths)):
        return "BadHead"
    if len(fields) > FIELDS:
        return "HeadTooLarge"
    return "Coding" if values(fields, b"transfer-encoding") else None


def length_of(fields):
    return next((int(value) for value in values(fields, b"content-length")), None)


def text_of(fields, name):
    """The text of a field, where it's there: none of it where it stands twice or isn't UTF-8."""
    found = values(fields, name)
    if not found:
        return ""
    value = found[0] if len(found) == 1 and is_text(found[0]) else b""
    return f" {name.decode()}='{in_line(value)}'"


def request_of(found):
    """What a request's head answers, and the length of its body."""
    method, target, minor, lines = found.groups()
    fields = fields_of(lines)
    if not is_text(target) or (minor == b"1" and len(values(fields, b"host")) != 1):
        return "BadHead", None
    length = length_of(fields) if fields_fault(fields) is None else None
    fault = fields_fault(fields) or ("NoLength" if method == b"POST" and length is None else None)
    if fault:
        return fault, None
    said = f"{NAMES.get(method, 'Other')} {in_line(target)}" + ("" if length is None else f" length={length}")
    if minor == b"1" and b"100-continue" in map(bytes.lower, values(fields, b"expect")):
        said += " expects"
    words = [word.strip().lower() for value in values(fields, b"connection") for word in value.split(b",")]
    if minor == b"0" or b"close" in words:
        said += " last"
    return said + text_of(fields, b"authorization") + text_of(fields, b"message-size"), length


# ---- reads

class Fault(Exception):
    pass


class Wire:
    """A source that gives pieces, of which one call fails, and what was read of it."""

    def __init__(self, piece, call, data):
        self.piece, self.call, self.data, self.at, self.given, self.calls = min(piece, PIECE), call, data, 0, 0, 0

    def more(self):
        self.calls += 1
        if self.calls == self.call:
            raise Fault("ReadFault")
        came = self.data[self.given : self.given + self.piece]
        self.given += len(came)
        return bool(came)

    def held(self):
        return self.data[self.at : self.given]

    def head(self, form):
        """The head that comes next, or none at the end of the input. No more is read than its last line, or that of a bad one."""
        while True:
            held = self.held()[:HEAD]
            blank = re.match(rb"(?:\r?\n)*", held).end()
            end = re.search(rb"\n\r?\n", held[blank:])
            if end:
                found = form.fullmatch(held[: blank + end.end()])
                if not found:
                    raise Fault("BadHead" if blank <= 2 else "BadHead early")
                return found
            if len(held) == HEAD:
                raise Fault("HeadTooLarge")
            if not self.more():
                if held:
                    raise Fault("Short")
                return None

    def request(self):
        found = self.head(REQUEST)
        if found is None:
            return "none", None
        said, length = request_of(found)
        if said in ("BadHead", "HeadTooLarge", "Coding", "NoLength"):
            raise Fault(said)
        self.at += found.end()
        return said, length

    def some(self, left):
        """The next bytes: one where the source gives one a call, and otherwise at most those that are left."""
        if not self.held() and not self.more():
            raise Fault("Short")
        piece = self.held()[: min(left, PIECE)]
        self.at += len(piece)
        return piece

    def body(self, size):
        body = b""
        while len(body) < size:
            if not self.held() and not self.more():
                raise Fault("Short")
            part = self.held()[: size - len(body)]
            body, self.at = body + part, self.at + len(part)
        return body

    def rest(self):
        body = b""
        while self.held() or self.more():
            if len(body) + len(self.held()) > BODY:
                raise Fault("BodyTooLarge")
            body, self.at = body + self.held(), self.given
        return body

    def reply(self):
        for _ in range(INTERIM + 1):
            found = self.head(REPLY)
            if found is None:
                raise Fault("Short")
            code, lines = found.groups()
            fault = fields_fault(fields_of(lines))
            if fault:
                raise Fault(fault)
            self.at += found.end()
            if int(code) != 100:
                length = length_of(fields_of(lines))
                if length is not None and length > BODY:
                    raise Fault("BodyTooLarge")
                return f"{int(code)} " + in_line(self.rest() if length is None else self.body(length))
        raise Fault("BadHead")

    def answer(self, act):
        word, _, number = act.partition("=")
        try:
            if word == "head":
                return self.request()[0]
            if word == "reply":
                return self.reply()
            return in_line(self.body(int(number)) if word == "body" else self.some(int(number)))
        except Fault as fault:
            return str(fault)


def read(piece, call, text, *acts):
    """A row of reads, and what it prints."""
    wire = Wire(piece, call, from_line(text))
    said = "".join(wire.answer(act) + "|" for act in acts)
    return "|".join(["read", str(piece), str(call), text, *acts]), f"{said}{len(wire.data) - wire.given} left"


def said(row, *answers):
    """A row that answers so."""
    assert row[1].split("|")[:-1] == list(answers), row
    return row


# ---- writes

class Full(Exception):
    pass


class Sink:
    """Room for so many bytes, and the call that fails; each behind a failed one fails too."""

    def __init__(self, room, call):
        self.room, self.call, self.taken, self.passed, self.calls, self.broken = room, call, b"", 0, 0, False

    def count(self, is_full=False):
        self.calls += 1
        self.broken = self.broken or self.calls == self.call or is_full
        if self.broken:
            raise Full

    def put(self, *parts):
        """Each part in a write at best, and then a flush."""
        try:
            for part in parts:
                while part:
                    free = self.room - len(self.taken)
                    self.count(free == 0)
                    self.taken += part[:free]
                    part = part[free:]
            self.count()
        except Full:
            return "WriteFault"
        self.passed = len(self.taken)
        return "ok"


def head(first, *fields):
    return "".join(line + "\r\n" for line in [first, *fields, ""]).encode()


def write_reply(sink, code, kind, last, body):
    lines = [f"Content-Type: {TYPES[kind]}", f"Content-Length: {len(body)}"] + ["Connection: close"] * (last == "close")
    return sink.put(head(f"HTTP/1.1 {code} {CODES[code]}", *lines), body)


def write_request(sink, verb, host, target, key, size, body):
    lines = [f"Host: {host}", "Connection: close"]
    if key != "-":
        lines.append("Authorization: " + from_line(key).decode())
    if size != "-":
        lines.append(f"Message-Size: {size}")
    return sink.put(head(f"{verb} {target} HTTP/1.1", *lines, f"Content-Length: {len(body)}"), body)


def written(sink, act):
    word, _, words = act.partition(" ")
    if word == "continue":
        return sink.put(head("HTTP/1.1 100 Continue"))
    if word == "say":
        code, last = words.split(" ")
        return write_reply(sink, code, "text", last, f"{CODES[code]}\n".encode())
    *words, body = words.split(" ", 3 if word == "reply" else 5)
    return (write_reply if word == "reply" else write_request)(sink, *words, from_line(body))


def write(room, call, *acts):
    """A row of writes, and what it prints."""
    sink = Sink(room, call)
    said = "".join(written(sink, act) + "|" for act in acts)
    return "|".join(["write", str(room), str(call), *acts]), f"{said}{in_line(sink.taken)}|{sink.passed} passed on"


# ---- rows by hand

HOST = r"Host: x\r\n"


def long_head(size):
    """A head of so many bytes, the most of them in its target."""
    return rf"GET /<{size - 27}*a> HTTP/1.1\r\n{HOST}\r\n"


def wide(first, fields):
    return rf"{first}<{fields}*A: b\r\n>\r\n"


# Heads, and how they are answered.
HEADS = [
    (r"GET /\00 HTTP/1.1\r\nHost: x\r\n\r\n", "BadHead"),
    (r"GET / HTTP/2.0\r\nHost: x\r\n\r\n", "BadHead"),
    (r"GET / HTTP/1.1\r\n\r\n", "BadHead"),
    (r"GET / HTTP/1.1\r\nHost: x\r\nhOST: x\r\n\r\n", "BadHead"),
    (r"GET / HTTP/1.0\nContent-Length: +1\n\n", "BadHead"),
    (r"GET / HTTP/1.0\nContent-Length: 1\nContent-Length: 1\n\n", "BadHead"),
    (r"GET / HTTP/1.0\nContent-Length: 18446744073709551616\n\n", "BadHead"),
    (r"GET / HTTP/1.0\nContent-Length: 18446744073709551615\n\n", "Get / length=18446744073709551615 last"),
    (r"GET / HTTP/1.0\nContent-Length:\n\n", "BadHead"),
    (r"POST / HTTP/1.0\n\n", "NoLength"),
    (r"GET / HTTP/1.0\nTransfer-Encoding: a\nContent-Length: x\n\n", "BadHead"),
    (r"POST / HTTP/1.0\nTransfer-Encoding: chunked\n\n", "Coding"),
    (r"GET / HTTP/1.1\r\nHost: x\r\n", "Short"),
    (r"\r\n", "Short"),
    ("", "none"),
    (long_head(HEAD), "Get /" + "a" * (HEAD - 27)),
    (long_head(HEAD + 1), "HeadTooLarge"),
    (wide(rf"GET / HTTP/1.1\r\n{HOST}", 63), "Get /"),
    (wide(rf"GET / HTTP/1.1\r\n{HOST}", 64), "HeadTooLarge"),
    (r"get /\c3\a9 HTTP/1.0\n\n", r"Other /\c3\a9 last"),
    (r"GET /\ff HTTP/1.0\n\n", "BadHead"),
    (r"GET / HTTP/1.0\nA : b\n\n", "BadHead"),
    (r"GET / HTTP/1.0\n b\n\n", "BadHead"),
    (r"GET / HTTP/1.0\nAuthorization: k1 \c3\a9\nMessage-Size: \ff\n\n", r"Get / last authorization='k1 \c3\a9' message-size=''"),
    (r"GET / HTTP/1.0\nExpect: 100-continue\n\n", "Get / last"),
    (rf"GET / HTTP/1.1\r\n{HOST}Expect: 100-continue, x\r\nConnection: closed\r\n\r\n", "Get /"),
]

SIZED = r"HTTP/1.1 200 OK\r\nContent-Length: 3\r\n\r\nabcd"
CONTINUE = r"HTTP/1.1 100 Continue\r\n\r\n"

# Replies, and how they are answered.
REPLIES = [
    (SIZED, "200 abc"),
    (r"HTTP/1.0 200\n\nabcd", "200 abcd"),
    (r"HTTP/1.1 404 Not Found\r\nContent-Length: 0\r\n\r\n", "404 "),
    (rf"<16*{CONTINUE}>{SIZED}", "200 abc"),
    (rf"<17*{CONTINUE}>{SIZED}", "BadHead"),
    (r"HTTP/1.1 200 OK\r\nContent-Length: 3\r\nContent-Length: 3\r\n\r\nabc", "BadHead"),
    (r"HTTP/1.1 200 OK\r\nContent-Length: 3a\r\n\r\nabc", "BadHead"),
    (r"HTTP/1.1 200 OK\r\nTransfer-Encoding: chunked\r\n\r\n0\r\n\r\n", "Coding"),
    (r"HTTP/1.1 200 OK\r\nContent-Length: 3\r\n", "Short"),
    (rf"{CONTINUE}HTTP/1.1 200 OK\r\nContent-Length: 3\r\n\r\nab", "Short"),
    ("", "Short"),
    (CONTINUE, "Short"),
    (r"GET / HTTP/1.1\r\n\r\n", "BadHead"),
    (r"HTTP/1.1 200 OK\r\nContent-Length: 33554433\r\n\r\n", "BodyTooLarge"),
    (r"HTTP/1.1 200 OK\r\nContent-Length: 33554432\r\n\r\n", "Short"),
    (wide(r"HTTP/1.1 200 OK\r\n", 64), "200 "),
    (wide(r"HTTP/1.1 200 OK\r\n", 65), "HeadTooLarge"),
    (r"HTTP/1.1 099 \r\n\r\n\ff", r"99 \ff"),
    (r"HTTP/1.1 20 OK\r\n\r\n", "BadHead"),
]

TWO = r"\r\nPOST /api/v1/leases HTTP/1.1\r\nhost: x\r\nContent-Length: 003\r\n\r\nabcDELETE / HTTP/1.0\n\nab"
ALL_FIELDS = (
    r"GET /a HTTP/1.1\r\nHost: x\r\nExpect: 100-Continue\r\nConnection: keep-alive ,\09CLOSE\r\n"
    r"Authorization:  key s \r\nMessage-Size: 1\r\nmessage-size: 1\r\n\r\n"
)
LEASE = "Post /api/v1/leases length=3"
GET = "request GET localhost:8000 /cvmfs/a/.cvmfspublished - - "
POST = r"request POST x /api/v1/payloads k1\20s 2 {}V2\n"
REPLIED = (
    r"HTTP/1.1 100 Continue\r\n\r\nHTTP/1.1 200 OK\r\nContent-Type: application/octet-stream\r\nContent-Length: 2\r\n\r\nM\n"
    r"HTTP/1.1 400 Bad Request\r\nContent-Type: text/plain\r\nContent-Length: 12\r\nConnection: close\r\n\r\nBad Request\n"
)
ASKED = (
    r"GET /cvmfs/a/.cvmfspublished HTTP/1.1\r\nHost: localhost:8000\r\nConnection: close\r\nContent-Length: 0\r\n\r\n"
    r"POST /api/v1/payloads HTTP/1.1\r\nHost: x\r\nConnection: close\r\nAuthorization: k1 s\r\nMessage-Size: 2\r\nContent-Length: 5\r\n\r\n"
    r"{}V2\n"
)


def by_hand():
    for text, answer in HEADS:
        yield said(read(7, 0, text, "head"), answer)
    for text, answer in REPLIES:
        yield said(read(7, 0, text, "reply"), answer)
    yield said(read(PIECE, 0, rf"HTTP/1.0 200\n\n<32768*{'a' * 1024}>a", "reply"), "BodyTooLarge")
    yield said(read(7, 0, TWO, "head", "body=3", "head", "body=3"), LEASE, "abc", "Delete / last", "Short")
    yield said(read(7, 0, ALL_FIELDS, "head", "head"), "Get /a expects last authorization='key s' message-size=''", "none")
    # a byte a call: nothing behind a head, a body or a reply is read
    yield said(read(1, 0, TWO, "head", "some=3", "body=2", "head"), LEASE, "a", "bc", "Delete / last")
    yield said(read(1, 0, SIZED, "reply"), "200 abc")
    # a call that fails takes nothing of a head
    yield said(read(7, 3, TWO, "head", "head", "body=2", "body=1", "head"), "ReadFault", LEASE, "ab", "c", "Delete / last")
    yield said(read(PIECE, 2, TWO, "head", "body=3", "head", "body=3", "head"), LEASE, "abc", "Delete / last", "ReadFault", "none")
    yield said(read(PIECE, 2, r"HTTP/1.0 200\n\nabcd", "reply"), "ReadFault")
    yield said(read(1, 1, "", "some=1", "some=1", "body=0"), "ReadFault", "Short", "")
    yield said(write(300, 0, "continue", r"reply 200 octets keep M\n", "say 400 close"), "ok", "ok", "ok", REPLIED)
    yield said(write(400, 0, GET, POST), "ok", "ok", ASKED)
    for code in CODES:
        yield write(200, 0, f"say {code} keep")
    for call in range(1, 9):
        yield write(400, call, "continue", "reply 200 json close {}", POST)
    for room in (0, 24, 25, 120, 400):
        yield write(room, 0, "continue", "reply 200 json close {}", POST)


# ---- rows at random

METHODS = [b"GET", b"POST", b"DELETE", b"PUT", b"get"]
MANY = [
    b"Connection: close", b"Connection: keep-alive,Close", b"Expect: 100-continue", b"expect:100-CONTINUE", b"Authorization: k1 s", b"Message-Size:2 ",
    b"Transfer-Encoding: chunked", b"A: \xc3\xa9", b"A:\xff\t", b"Content-Length: 4x", b"content-length: 05", b"Host: y",
]


def generated_head(first, fields):
    end = random.choice([b"\r\n", b"\r\n", b"\n"])
    return random.choice([b"", b"", b"\r\n"]) + b"".join(line + end for line in [first, *fields, b""])


def changed(data):
    """With another byte in one place, mostly one that makes it bad."""
    place = random.randrange(len(data) - 4)
    return data[:place] + random.choice([b"\0", b" ", b":", b"\x7f", b"\xff", b"x", b"\t", b"1"]) + data[place + 1 :]


def generated_fields():
    fields = [b"Host: x"] * random.choice([1, 1, 1, 1, 0, 2]) + random.sample(MANY, random.choice([0, 1, 1, 2, 3]))
    random.shuffle(fields)
    return fields


def generated_request():
    """A request, mostly good, and its body."""
    body = random.choice([b"", b"ab", b"abcde\n\n", b"\r\n\r\nGET"])
    fields = generated_fields() + [b"Content-Length: %d" % len(body)] * random.choice([1, 1, 1, 0])
    first = b"%s %s HTTP/1.%d" % (random.choice(METHODS), random.choice([b"/", b"/a?b", b"*", b"/\xc3\xa9"]), random.choice([1, 1, 1, 0]))
    made = generated_head(first, fields)
    return (changed(made) if random.random() < 0.15 else made) + body


def generated_reply():
    body = random.choice([b"", b"ab", b"abcde\n\n"])
    fields = generated_fields() + [b"Content-Length: %d" % len(body)] * random.choice([1, 1, 0])
    made = generated_head(b"HTTP/1.%d %s" % (random.choice([0, 1]), random.choice([b"200 OK", b"404", b"503 ", b"100 Continue"])), fields)
    return (changed(made) if random.random() < 0.15 else made) + body


def requests_at_random():
    """Two requests on one source, with an act for each head and each body, up to the first fault but of the source."""
    text = in_line(generated_request() + generated_request())
    piece, call = random.choice([1, 2, 7, 64, PIECE]), random.choice([0, 0, 1, 2, 3])
    wire, acts, answer, length = Wire(piece, call, from_line(text)), [], "", None
    while answer not in ("none", "BadHead", "BadHead early", "HeadTooLarge", "Coding", "NoLength", "Short"):
        if acts and answer == "ReadFault" and acts[-1] != "head":
            break
        try:
            act, wants = "head", length
            if wants:
                act, length = f"some={wants}" if piece == 1 else f"body={wants}", None
                acts.append(act)
                answer = wire.answer(act)
                if piece == 1 and answer not in ("ReadFault", "Short"):
                    length = wants - 1
            else:
                acts.append(act)
                answer, length = wire.request()
        except Fault as fault:
            answer = str(fault)
    return text, answer, read(piece, call, text, *acts)


def at_random():
    seen = set()
    while len(seen) < COUNT:
        if random.random() < 0.3:
            text = in_line(generated_reply() + generated_reply())
            row = read(random.choice([1, 7, PIECE]), random.choice([0, 0, 0, 2]), text, "reply")
            answer = row[1].split("|")[0]
        else:
            text, answer, row = requests_at_random()
        # where the input ends in a head, which fault comes depends on whether more bytes could make it a good one; and behind
        # two empty lines a bad head may be refused before its end
        if answer not in ("Short", "BadHead early") and text not in seen:
            seen.add(text)
            yield row


settle_lines("cv_http_tests", [*by_hand(), *at_random()])
