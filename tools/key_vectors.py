#!/usr/bin/env python3
"""The table of cv_keys_tests: keys texts and Authorization headers by Python's json, hmac and base64, with the first fault of each
by the tables of the interface. `crates/cv_keys_tests/src/main.rt` says how a row is read.
"""
import base64
import json
import random
import re

from cvkit_client import authorization, mac
from vectors import from_line, in_line, settle_lines

random.seed(2104)
COUNT = 300
KEYS = '{"keys":[{"id":"k1","secret":"s1"},{"id":"k2","secret":"s2"}]}'


class Fault(Exception):
    pass


# ---- keys texts

def depth(value):
    if isinstance(value, (dict, list)):
        return 1 + max(map(depth, value.values() if isinstance(value, dict) else value), default=0)
    return 0


def has_infinity(value):
    if isinstance(value, (dict, list)):
        return any(map(has_infinity, value.values() if isinstance(value, dict) else value))
    return value in (float("inf"), float("-inf"))


def object_of(data):
    """A JSON object within the limits: 127 levels, and numbers that a double can hold."""
    try:
        value = json.loads(data.decode())
    except ValueError:
        raise Fault("NotJson") from None
    if not isinstance(value, dict) or depth(value) > 127 or has_infinity(value):
        raise Fault("NotJson")
    return value


def member(value, name, of_type, place):
    if name not in value:
        raise Fault(f"Missing({place})")
    if not isinstance(value[name], of_type):
        raise Fault(f"WrongType({place})")
    return value[name]


def keys_of(data):
    """The keys, by their ids."""
    elements = member(object_of(data), "keys", list, 0)
    if len(elements) > 256:
        raise Fault("TooMany")
    if not elements:
        raise Fault("NoKey")
    keys = {}
    for place, element in enumerate(elements, 1):
        if not isinstance(element, dict):
            raise Fault(f"WrongType({place})")
        id_ = member(element, "id", str, place)
        if not re.fullmatch("[!-~]{1,255}", id_):
            raise Fault(f"BadValue({place})")
        secret = member(element, "secret", str, place)
        if not 1 <= len(secret.encode()) <= 255:
            raise Fault(f"BadValue({place})")
        if id_ in keys:
            raise Fault(f"Repeated({place})")
        keys[id_] = secret
    return keys


def read(text):
    """A row of a keys text, and what it prints."""
    try:
        id_, secret = next(iter(keys_of(from_line(text)).items()))
        return f"keys {text}", f"{id_} {in_line(secret.encode())}"
    except Fault as fault:
        return f"keys {text}", str(fault)


# ---- headers

def decoded(code):
    """The 40 bytes whose base64 this is, in its one spelling."""
    try:
        data = base64.b64decode(code, validate=True)
    except ValueError:
        return None
    return data if len(data) == 40 and base64.b64encode(data).decode() == code else None


def checked(keys, header, message):
    if header == "-":
        return "NoHeader"
    id_, space, code = header.partition(" ")
    if not space or decoded(code) is None:
        return "BadHeader"
    if id_ not in keys:
        return "UnknownKey"
    if decoded(code).decode("latin-1") != mac(keys[id_], message):
        return "WrongMac"
    return f"{id_}|{header}"


def check(text, header, message):
    """A row of a header, and what it prints."""
    return f"check {text}|{header}|{message}", checked(keys_of(from_line(text)), header, from_line(message))


# ---- rows by hand

# Texts that are no keys text, and the first fault of each.
FAULTS = [
    ("", "NotJson"),
    ("[]", "NotJson"),
    ('{"keys":[}', "NotJson"),
    ('{"keys":[{"id":"k1","secret":"s1"}]} x', "NotJson"),
    ("{}", "Missing(0)"),
    ('{"keys":{}}', "WrongType(0)"),
    ('{"keys":null}', "WrongType(0)"),
    ('{"keys":[]}', "NoKey"),
    ('{"keys":[1]}', "WrongType(1)"),
    ('{"keys":[{}]}', "Missing(1)"),
    ('{"keys":[{"id":"k1"}]}', "Missing(1)"),
    ('{"keys":[{"id":1}]}', "WrongType(1)"),
    ('{"keys":[{"id":""}]}', "BadValue(1)"),
    ('{"keys":[{"id":"k 1"}]}', "BadValue(1)"),
    ('{"keys":[{"id":"k1","secret":1}]}', "WrongType(1)"),
    ('{"keys":[{"id":"k1","secret":""}]}', "BadValue(1)"),
    ('{"keys":[{"id":"k1","secret":"a","secret":""}]}', "BadValue(1)"),
    ('{"keys":[{"id":"k1","secret":"s"},{"id":"k1","secret":"t"}]}', "Repeated(2)"),
    ('{"keys":[{"id":"k1","secret":"s"},{"id":"k1","secret":""}]}', "BadValue(2)"),
    ('{"keys":[{"id":"k1","secret":"s"},{"secret":"s"}]}', "Missing(2)"),
    (r'{"keys":[{"id":"\c3\a9","secret":"s"}]}', "BadValue(1)"),
    ('{"x":1e999,"keys":[{"id":"k1","secret":"s"}]}', "NotJson"),
    # not UTF-8
    (r'{"keys":[{"id":"k1","secret":"\ff"}]}', "NotJson"),
    # at a limit, or one past it
    ('{"keys":[<256*0,>0]}', "TooMany"),
    ('{"keys":[<255*0,>0]}', "WrongType(1)"),
    ('{"keys":[{"id":"k","secret":"<256*a>"}]}', "BadValue(1)"),
    (r'{"keys":[{"id":"k","secret":"<127*\c3\a9>aa"}]}', "BadValue(1)"),
    ('{"keys":[{"secret":"s","id":"<256*a>"}]}', "BadValue(1)"),
    ('{"keys":<127*[><127*]>}', "NotJson"),
    ('{"keys":<126*[><126*]>}', "WrongType(1)"),
]
GOOD = [
    (KEYS, "k1 s1"),
    (r' {\n"x":0, "keys" : [ {"id":"k","secret":"\u00e9","id":"l"} ] }'.replace(r"\u", r"\5cu"), r"l \c3\a9"),
    ('{"keys":[{"id":"<255*a>","secret":"<255*b>"}]}', "a" * 255 + " " + "b" * 255),
]

OTHER = "ZWZmY2RmNmFlNWViMmZhMmQyNzQxNmQ1ZjE4NGRmOWMyNTlhN2M3OQ=="
# Headers that no key gives the message `x`, and the first fault of each.
HEADERS = [
    ("-", "NoHeader"),
    ("", "BadHeader"),
    ("k9", "BadHeader"),
    ("k9 ZWZm", "BadHeader"),
    ("k1  ", "BadHeader"),
    (f"k9 {OTHER}", "UnknownKey"),
    (f"k1 {OTHER}", "WrongMac"),
    (f"k1  {OTHER}", "BadHeader"),
    (f"k1 {OTHER[:-4]}OR==", "BadHeader"),
]


def said(row, answer):
    """A row that prints this."""
    assert row[1] == answer, row
    return row


def by_hand():
    for text, answer in GOOD + FAULTS:
        yield said(read(text), answer)
    for header, answer in HEADERS:
        yield said(check(KEYS, header, "x"), answer)
    for count in range(51):
        id_ = ("k1", "k2")[count % 2]
        header = authorization(id_, ("mé" * count).encode())
        yield said(check(KEYS, header, rf"<{count}*m\c3\a9>"), f"{id_}|{header}")


# ---- rows at random

def generated_element():
    element = {"id": random.choice(["k", "k", "k1", "k2", "~!", "k 1", "", 1]), "secret": random.choice(["s", "s", "é\"", "a\\b", "", None])}
    for name in list(element):
        if random.random() < 0.08:
            del element[name]
    return random.choice([element] * 12 + [[], None])


def generated_keys():
    elements = [generated_element() for _ in range(random.choice([1, 1, 2, 2, 3]))]
    whole = {"keys": random.choice([elements] * 12 + [{}])}
    made = json.dumps(whole, ensure_ascii=random.random() < 0.5, indent=random.choice([None, None, 1]))
    return in_line((made[:-1] if random.random() < 0.05 else made).encode())


def generated_header():
    """Two keys with secrets of many lengths, a message, and mostly a header of one of them for it."""
    keys = {name: "s" * random.choice([1, 20, 63, 64, 65, 255]) for name in ("k1", "k2")}
    message = random.randbytes(random.choice([0, 1, 55, 56, 63, 64, 65, 200]))
    header = authorization(random.choice(["k1", "k2"]), message, keys[random.choice(["k1", "k1", "k2"])])
    if random.random() < 0.2:
        place = random.randrange(len(header))
        header = header[:place] + random.choice("kA= /+") + header[place + 1 :]
    text = json.dumps({"keys": [{"id": name, "secret": secret} for name, secret in keys.items()]})
    return check(in_line(text.encode()), header, in_line(message))


def at_random():
    seen = set()
    while len(seen) < COUNT:
        row = read(generated_keys()) if random.random() < 0.6 else generated_header()
        if row not in seen:
            seen.add(row)
            yield row


settle_lines("cv_keys_tests", [*by_hand(), *at_random()])
