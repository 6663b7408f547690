#!/usr/bin/env python3
"""The table of cv_answers_tests: answers in other spellings, with what each says in words and as what it is written, and texts that
are none, each with its first fault; by the tables of the interface and Python's json. `crates/cv_answers_tests/src/main.rt` says
how a row is read.

The status is judged first. Members are judged in ascending order of their names, each for being there, for its type and for its
value, but the reason of a refusal before those that it asks for.
"""
import hashlib
import json
import random
import re

from vectors import in_line, settle_lines

random.seed(1909)
COUNT = 300
PLAIN = (
    "bad_path too_many_leases no_parent invalid_token wrong_key journal_full no_memory no_authorization bad_authorization unknown_key wrong_mac "
    "not_json unknown_repository bad_message_size bad_digest bad_pack bad_header_size store_failed revisions_full"
).split()
NAMED = "path old_root_hash new_root_hash tag_name session_token payload_digest header_size status reason".split()


def sha1(data):
    return hashlib.sha1(data).hexdigest()


HELLO, OTHER, TREE = sha1(b"hello\n"), sha1(b"other\n"), sha1(b"a tree")


# ---- reading

class Fault(Exception):
    pass


def is_number(value):
    return type(value) in (int, float)


def is_path(value):
    """Whether a text is that of a path, with or without a slash behind it; none here is near the limits of size and depth."""
    return re.fullmatch(r"(/(?!\.\.?(/|$))[^/\0]{1,255})*/?", value)


def is_token(value):
    numbers = re.fullmatch("(0|[1-9][0-9]*)-(0|[1-9][0-9]*)", value)
    return numbers and all(int(number) < 2**64 for number in numbers.groups())


TEXT = (lambda value: type(value) is str, lambda value: True)
NUMBER = (is_number, lambda value: type(value) is int and 0 <= value < 2**64)
DIGEST = (TEXT[0], lambda value: re.fullmatch("[0-9a-f]{40}", value))
OBJECT = (TEXT[0], lambda value: re.fullmatch("[0-9a-f]{40}[CH]?", value))
TOKEN = (TEXT[0], is_token)
PATH = (TEXT[0], is_path)
MEMBER = (TEXT[0], lambda value: value in NAMED)
ARRAY = (lambda value: type(value) is list, lambda value: True)

# The refusals that say more than their reason, with their members and how faults name these.
REFUSALS = {
    "missing_member": {"member": (MEMBER, "Other")},
    "wrong_type": {"member": (MEMBER, "Other")},
    "bad_value": {"member": (MEMBER, "Other")},
    "collision": {"object": (OBJECT, "Other")},
    "stale_base": {"revision": (NUMBER, "Other")},
    "missing_object": {"object": (OBJECT, "Other")},
    "bad_catalogue": {"object": (OBJECT, "Other")},
    "path_collision": {"path": (PATH, "Path"), "second": (PATH, "Other")},
    "catalogue_full": {"path": (PATH, "Path")},
    "tag_taken": {"revision": (NUMBER, "Other")},
    "damaged": {"found": (DIGEST, "Other"), "object": (OBJECT, "Other")},
}


def member(value, name, rule, called):
    is_type, is_good = rule
    if name not in value:
        raise Fault(f"Missing({called})")
    if not is_type(value[name]):
        raise Fault(f"WrongType({called})")
    if not is_good(value[name]):
        raise Fault(f"BadValue({called})")
    return value[name]


def lease_of(value):
    if type(value) is not dict:
        raise Fault("WrongType(Other)")
    return {"key_id": member(value, "key_id", TEXT, "Other"), "path": member(value, "path", TEXT, "Path"), "time_remaining": member(value, "time_remaining", NUMBER, "Other")}


def ok_of(value):
    """The words of an answer of the status ok, and its members."""
    if "session_token" in value:
        revision, root = member(value, "revision", NUMBER, "Other"), member(value, "root_hash", DIGEST, "Other")
        token = member(value, "session_token", TOKEN, "SessionToken")
        return f"granted {token} {revision} {root}", {"revision": revision, "root_hash": root, "session_token": token}
    if "final_revision" in value:
        revision, root = member(value, "final_revision", NUMBER, "Other"), member(value, "root_hash", DIGEST, "Other")
        return f"committed {revision} {root}", {"final_revision": revision, "root_hash": root}
    if "data" in value:
        leases = list(map(lease_of, member(value, "data", ARRAY, "Other")))
        return "leases" + "".join(" {key_id} on {path} for {time_remaining},".format(**one) for one in leases), {"data": leases}
    if "repos" in value:
        names = [member({"": name}, "", TEXT, "Other") for name in member(value, "repos", ARRAY, "Other")]
        return "repositories" + "".join(f" {name}," for name in names), {"repos": names}
    return "done", {}


def refusal_of(value):
    reason = member(value, "reason", (TEXT[0], lambda reason: reason in PLAIN or reason in REFUSALS), "Reason")
    members = {}
    for name, (rule, called) in REFUSALS.get(reason, {}).items():
        found = member(value, name, rule, called)
        members[name] = re.sub("/$", "", found) if rule is PATH else found
    return " ".join([reason, *(f"{name}={found}" for name, found in members.items())]), {"reason": reason, **members}


def answer_of(value):
    if type(value) is not dict:
        raise Fault("NotJson")
    status = member(value, "status", (TEXT[0], lambda status: status in ("ok", "path_busy", "error")), "Status")
    if status == "ok":
        words, members = ok_of(value)
    elif status == "error":
        words, members = refusal_of(value)
    else:
        token, remaining = member(value, "lease", TOKEN, "Other"), member(value, "time_remaining", NUMBER, "Other")
        words, members = f"busy {token} {remaining}", {"lease": token, "time_remaining": remaining}
    return words, {"status": status, **members}


def printed(words, members):
    return in_line(words.encode()) + "|" + json.dumps(members, separators=(",", ":"), sort_keys=True, ensure_ascii=False)


def read(text):
    """A row of a text, and what it prints."""
    try:
        return f"read {text}", printed(*answer_of(json.loads(text)))
    except Fault as fault:
        return f"read {text}", str(fault)


# ---- rows by hand

# Texts of answers, and what each is in words.
ANSWERS = [
    (
        ' { "status" : "ok", "session_token":"1-1","x":[{}],"root_hash":"00112233445566778899aabbccddeeff00112233" , "revision":18446744073709551615 }',
        "granted 1-1 18446744073709551615 00112233445566778899aabbccddeeff00112233",
    ),
    (f'{{"status":"ok","root_hash":"{"ab" * 20}","final_revision":2,"final_revision":3,"data":0}}', "committed 3 " + "ab" * 20),
    (
        '{"status":"ok","repos":0,"data":[{"time_remaining":7200,"path":"r/a","key_id":"k1"},{"key_id":"k2","path":"r","time_remaining":0}]}',
        "leases k1 on r/a for 7200, k2 on r for 0,",
    ),
    (r'{"status":"ok","repos":["a","\u0062\n"]}', "repositories a, b\n,"),
    ('{"revision":"x","status":"ok"}', "done"),
    ('{"status":"path_busy","lease":"1-1","time_remaining":1}', "busy 1-1 1"),
    (f'{{"status":"ok","session_token":"1-1","root_hash":"{"0" * 40}","revision":1}}', "granted 1-1 1 " + "0" * 40),
    (r'{"status":"ok","data":[{"key_id":"k1","path":"sw.example.org/\"a\"","time_remaining":1}]}', 'leases k1 on sw.example.org/"a" for 1,'),
    ('{"time_remaining":1,"lease":"3-70","status":"path_busy"}', "busy 3-70 1"),
    ('{"status":"error","reason":"wrong_key","member":0}', "wrong_key"),
    ('{"status":"error","reason":"bad_value","member":"payload_digest"}', "bad_value member=payload_digest"),
]

AB = "ab" * 20
# Texts that are no answer, and the first fault of each.
FAULTS = [
    ("[]", "NotJson"),
    ('{"revision":1}', "Missing(Status)"),
    ('{"status":1}', "WrongType(Status)"),
    ('{"status":"OK"}', "BadValue(Status)"),
    ('{"status":"ok","session_token":1}', "Missing(Other)"),
    ('{"status":"ok","session_token":1,"revision":"1"}', "WrongType(Other)"),
    ('{"status":"ok","session_token":1,"revision":-1}', "BadValue(Other)"),
    ('{"status":"ok","session_token":1,"revision":1.0}', "BadValue(Other)"),
    ('{"status":"ok","session_token":1,"revision":18446744073709551616}', "BadValue(Other)"),
    ('{"status":"ok","session_token":1,"revision":1,"root_hash":1}', "WrongType(Other)"),
    (f'{{"status":"ok","session_token":1,"revision":1,"root_hash":"{AB.upper()}"}}', "BadValue(Other)"),
    (f'{{"status":"ok","session_token":1,"revision":1,"root_hash":"{AB}C"}}', "BadValue(Other)"),
    (f'{{"status":"ok","session_token":1,"revision":1,"root_hash":"{AB}"}}', "WrongType(SessionToken)"),
    (f'{{"status":"ok","session_token":"01-1","revision":1,"root_hash":"{AB}"}}', "BadValue(SessionToken)"),
    ('{"status":"ok","final_revision":1}', "Missing(Other)"),
    ('{"status":"ok","data":{}}', "WrongType(Other)"),
    ('{"status":"ok","data":["a"]}', "WrongType(Other)"),
    ('{"status":"ok","data":[{"key_id":"k","time_remaining":"x"}]}', "Missing(Path)"),
    ('{"status":"ok","data":[{"key_id":"k","path":"p","time_remaining":1e2}]}', "BadValue(Other)"),
    ('{"status":"ok","repos":["a",1]}', "WrongType(Other)"),
    ('{"status":"path_busy","time_remaining":-1}', "Missing(Other)"),
    ('{"status":"path_busy","lease":"1-18446744073709551616"}', "BadValue(Other)"),
    ('{"status":"error"}', "Missing(Reason)"),
    ('{"status":"error","reason":"no"}', "BadValue(Reason)"),
    ('{"status":"error","reason":"wrong_type"}', "Missing(Other)"),
    ('{"status":"error","reason":"wrong_type","member":null}', "WrongType(Other)"),
    ('{"status":"error","reason":"wrong_type","member":"other"}', "BadValue(Other)"),
]

# Each refusal that has a revision, an id, a digest or a path, with its members.
SAID = [
    ("collision", {"object": HELLO}),
    ("stale_base", {"revision": 2**64 - 1}),
    ("missing_object", {"object": TREE + "C"}),
    ("bad_catalogue", {"object": OTHER + "C"}),
    ("path_collision", {"path": "/b/c", "second": '/a/"d" é'}),
    ("catalogue_full", {"path": ""}),
    ("tag_taken", {"revision": 0}),
    ("damaged", {"found": OTHER, "object": HELLO + "H"}),
]

# Members that aren't those of the refusal for a reason.
UNSAID = [
    ("collision", {}),
    ("collision", {"object": HELLO[1:]}),
    ("missing_object", {"object": 1}),
    ("bad_catalogue", {"object": HELLO + "X"}),
    ("stale_base", {"revision": "1"}),
    ("tag_taken", {"revision": 2**64}),
    ("path_collision", {"second": 1}),
    ("path_collision", {"path": "a", "second": 1}),
    ("path_collision", {"path": "/a", "second": "/a//b"}),
    ("catalogue_full", {"path": "/a/.."}),
    ("damaged", {"object": 1}),
    ("damaged", {"found": HELLO + "C", "object": 1}),
    ("damaged", {"found": HELLO}),
]

# Answers that are made, and what each is in words and as JSON.
MADE = [
    (f"grant 1-2 3 {AB}", f'granted 1-2 3 {AB}|{{"revision":3,"root_hash":"{AB}","session_token":"1-2","status":"ok"}}'),
    ("missing", 'missing_member member=path|{"member":"path","reason":"missing_member","status":"error"}'),
    ("lease k1 r/a 2", 'leases k1 on r/a for 2,|{"data":[{"key_id":"k1","path":"r/a","time_remaining":2}],"status":"ok"}'),
]


def other_spelling(reason, members):
    """The text with members in descending order, spaces, a member twice and one that isn't named, and a slash behind a path."""
    shown = {name: value + "/" if name in ("path", "second") else value for name, value in members.items()}
    shown = {"x": [{}], "status": "error", "reason": reason, **shown}
    pairs = [f" {json.dumps(name)} : {json.dumps(shown[name])}" for name in sorted(shown, reverse=True)]
    return '{"reason":1,' + ",".join(pairs) + " }"


def said(row, answer):
    """A row that prints this."""
    assert row[1].split("|")[0] == in_line(answer.encode()), row
    return row


def by_hand():
    for text, words in ANSWERS + FAULTS:
        yield said(read(text), words)
    for reason, members in SAID:
        words = " ".join([reason, *(f"{name}={value}" for name, value in sorted(members.items()))])
        yield said(read(other_spelling(reason, members)), words)
    for reason, members in UNSAID:
        row = read(json.dumps({"status": "error", "reason": reason, **members}, separators=(",", ":")))
        assert re.fullmatch(r"\w+\(\w+\)", row[1])
        yield row
    for reason in PLAIN:
        yield said(read(json.dumps({"reason": reason, "status": "error"})), reason)
    yield from MADE


# ---- rows at random

GOOD = {
    NUMBER: [0, 1, 7200, 2**64 - 1],
    DIGEST: [HELLO, OTHER],
    OBJECT: [HELLO, TREE + "C", OTHER + "H"],
    TOKEN: ["0-0", "1-1", "18446744073709551615-7"],
    PATH: ["", "/", "/a", "/a/b/", "/é"],
    MEMBER: NAMED,
    TEXT: ["", "k1", "é\n", "r/a"],
}
BAD = ["1", 1, -1, 1.5, 2**64, None, True, [], {}, "/a/", HELLO + "X", HELLO[1:], "01-1", "a/b", "other", "ok"]


def value_for(rule):
    return random.choice(GOOD[rule]) if random.random() < 0.93 else random.choice(BAD)


def generated_lease():
    lease = {"key_id": value_for(TEXT), "path": value_for(TEXT), "time_remaining": value_for(NUMBER)}
    return random.choice([lease] * 15 + [1])


def generated():
    kind = random.choice(["grant", "commit", "leases", "names", "busy", "refusal", "refusal", "refusal"])
    if kind == "grant":
        return {"status": "ok", "revision": value_for(NUMBER), "root_hash": value_for(DIGEST), "session_token": value_for(TOKEN)}
    if kind == "commit":
        return {"status": "ok", "final_revision": value_for(NUMBER), "root_hash": value_for(DIGEST)}
    if kind == "leases":
        return {"status": "ok", "data": [generated_lease() for _ in range(random.randint(0, 3))]}
    if kind == "names":
        return {"status": "ok", "repos": [value_for(TEXT) for _ in range(random.randint(0, 3))]}
    if kind == "busy":
        return {"status": "path_busy", "lease": value_for(TOKEN), "time_remaining": value_for(NUMBER)}
    reason = random.choice(list(REFUSALS))
    return {"status": "error", "reason": reason, **{name: value_for(rule) for name, (rule, _) in REFUSALS[reason].items()}}


def generated_text():
    """An answer's text, mostly with all its members, in any order, with or without spaces and escapes."""
    members = list(generated().items())
    random.shuffle(members)
    if random.random() < 0.12:
        members.pop()
    if random.random() < 0.1:
        members.append(("status", random.choice(["ok", "error", "no", 1])))
    shown = dict(members + [("x", [0])] * random.choice([0, 0, 1]))
    return json.dumps(shown, ensure_ascii=random.random() < 0.5, separators=random.choice([(",", ":"), (" , ", " : ")]))


def at_random():
    seen = set()
    while len(seen) < COUNT:
        row = read(generated_text())
        if row not in seen:
            seen.add(row)
            yield row


settle_lines("cv_answers_tests", [*by_hand(), *at_random()])
