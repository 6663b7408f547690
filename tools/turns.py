"""Requests for the tests of cv_session, with what each asks, by the tables of the interface and not by the program.

A request is a method, a target, an Authorization header and a body. The headers are made by Python's hmac and base64, and what is
asked by a second telling of the rules, over regular expressions and Python's json.
"""
import base64
import json
import re

import cvkit_client
import line_vectors
from cvkit_client import KEYS, LEASES, REPOSITORY, digest_of, mac

HASH = "f572d396fae9206628714fb2ce00f72e94f2258f"
OLD, NEW = (digest_of(tree) for tree in line_vectors.trees)


def header(key, message, secret=None):
    return cvkit_client.authorization(key, message.encode(), secret)


def signer(authorization, message):
    """The id of the key, or the words of a refusal."""
    if authorization is None:
        return None, "no_authorization"
    parts = re.fullmatch(r"([^ ]*) ([A-Za-z0-9+/]{54}==)", authorization)
    if not parts:
        return None, "bad_authorization"
    key, code = parts.groups()
    if key not in KEYS:
        return None, "unknown_key"
    if base64.b64decode(code).decode("latin-1") != mac(KEYS[key], message.encode()):
        return None, "wrong_mac"
    return key, None


def members(body):
    """The members of an object, or None."""
    try:
        ask = json.loads(body)
    except ValueError:
        return None
    return ask if isinstance(ask, dict) else None


def lease(authorization, body):
    key, refusal = signer(authorization, body)
    if refusal:
        return refusal
    ask = members(body)
    if ask is None:
        return "not_json"
    if "path" not in ask:
        return "missing_member path"
    if not isinstance(ask["path"], str):
        return "wrong_type path"
    name, slash, rest = ask["path"].partition("/")
    if name != REPOSITORY:
        return "unknown_repository"
    if not re.fullmatch(r"([^/]+(/[^/]+)*/?)?", rest):
        return "bad_path"
    return "lease %s on '%s'" % (key, ("/" + rest).rstrip("/"))


def token_of(text):
    number = r"(0|[1-9][0-9]*)"
    return text if re.fullmatch(number + "-" + number, text) else "0-0"


def commit(authorization, text, body):
    key, refusal = signer(authorization, text)
    if refusal:
        return refusal
    ask = members(body)
    if ask is None:
        return "not_json"
    ask.setdefault("tag_name", "")
    for name, form in [("old_root_hash", "[0-9a-f]{40}C?"), ("new_root_hash", "[0-9a-f]{40}C?"), ("tag_name", "[^\0-\x1f]{0,255}")]:
        if name not in ask:
            return "missing_member " + name
        if not isinstance(ask[name], str):
            return "wrong_type " + name
        if not re.fullmatch(form, ask[name]):
            return "bad_value " + name
    roots = ask["old_root_hash"][:40], ask["new_root_hash"][:40]
    return "commit %s of %s from %s to %s as '%s'" % (key, token_of(text), *roots, ask["tag_name"])


def end(authorization, text):
    key, refusal = signer(authorization, text)
    if refusal:
        return refusal
    return "end %s of %s" % (key, token_of(text))


def turn(method, target, authorization, body):
    if method not in ("GET", "POST", "DELETE"):
        return "501 Not Implemented"
    if method == "POST" and target == LEASES:
        return lease(authorization, body)
    if method == "POST" and target.startswith(LEASES + "/"):
        return commit(authorization, target[len(LEASES) + 1 :], body)
    if method == "DELETE" and target.startswith(LEASES + "/"):
        return end(authorization, target[len(LEASES) + 1 :])
    if method == "GET":
        file = re.fullmatch(r"/cvmfs/sw\.example\.org/(\.cvmfspublished|data/[0-9a-f]{2}/[0-9a-f]{38}[CH]?)", target)
        if file:
            return "file " + file.group(1)
        if target in (LEASES, "/api/v1/repos"):
            return target[8:]
    return "404 Not Found"


def text_of(**asked):
    return json.dumps(asked, separators=(",", ":"))


def ask(path):
    return text_of(path=path)


GOOD = ask("sw.example.org/a")
REQUESTS = [("POST", LEASES, None, GOOD)]
REQUESTS += [("POST", LEASES, text, GOOD) for text in ["k1", header("k9", GOOD, "s1"), header("k1", GOOD, "s2")]]
REQUESTS += [("POST", LEASES, header("k1", GOOD), "{")]
for body in ["{", "{}", '{"path":1}']:
    REQUESTS.append(("POST", LEASES, header("k1", body), body))
for path in ["other.org/a//", "sw.example.orgs", "sw.example.org/a//", "sw.example.org"]:
    REQUESTS.append(("POST", LEASES, header("k1", ask(path)), ask(path)))
REQUESTS.append(("POST", LEASES, header("k2", ask("sw.example.org/a/b/")), ask("sw.example.org/a/b/")))
COMMIT = text_of(old_root_hash=OLD, new_root_hash=NEW, tag_name="")
REQUESTS.append(("POST", LEASES + "/1-1", header("k1", COMMIT), "{"))
for body in [
    "{",
    text_of(new_root_hash=1),
    text_of(old_root_hash=OLD + "CC", new_root_hash=1),
    text_of(old_root_hash=OLD, new_root_hash=1, tag_name=1),
    text_of(old_root_hash=OLD, new_root_hash=NEW, tag_name="v\n1"),
    COMMIT,
    text_of(old_root_hash=OLD + "C", new_root_hash=NEW),
]:
    REQUESTS.append(("POST", LEASES + "/1-1", header("k1", "1-1"), body))
REQUESTS.append(("POST", LEASES + "/1-01", header("k2", "1-01"), text_of(old_root_hash=OLD, new_root_hash=NEW + "C", tag_name="v1")))
REQUESTS.append(("POST", "/api/v1/repos", header("k1", ""), ""))
for token in ["12-34", "01-1", "", "1-1/"]:
    REQUESTS.append(("DELETE", LEASES + "/" + token, header("k2", token), ""))
REQUESTS.append(("DELETE", LEASES + "/01-1", header("k2", "0-0"), ""))
REQUESTS.append(("DELETE", LEASES, header("k1", ""), ""))
for target in ["/api/v1/repos", LEASES]:
    REQUESTS.append(("GET", target, None, ""))
for file in [".cvmfspublished", "data/%s/%sC" % (HASH[:2], HASH[2:])]:
    REQUESTS.append(("GET", "/cvmfs/%s/%s" % (REPOSITORY, file), None, ""))
REQUESTS.append(("PUT", LEASES, None, ""))
