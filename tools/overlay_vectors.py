#!/usr/bin/env python3
"""The table of cv_overlay_tests: folders of changes over bases, with what comes of them, by rules over Python's dicts.
`crates/cv_overlay_tests/src/main.rt` says how a row is read, and `parts.rt` and `folders.rt` beside it how a base, a folder and a
part are written.
"""
import hashlib
import random

from vectors import settle_lines

random.seed(232)
FILE, SUM = 16 * 1024 * 1024, 1024 * 1024 * 1024
COUNT = 300
NAMES = ["a", "b", "c", "a-b", "a.b"]
OPAQUE = ".wh..wh..opq"


def text(path):
    return "".join("/" + name for name in path)


def published(word):
    return ("n",) * int(word) if word.isdigit() else tuple(word.split("/")[1:])


def is_name(name):
    return 1 <= len(name.encode()) <= 255 and "/" not in name and "\0" not in name and name not in (".", "..")


def item(line):
    """An item of a folder: its path, its kind and its detail."""
    above, rest = line.split(":", 1)
    place = min((rest.index(mark) for mark in "=*>!" if mark in rest), default=len(rest) - 1)
    return tuple(above.split("/")[1:]) + (rest[:place],), rest[place], rest[place + 1 :]


def walk(at, items):
    """The first fault in the order of the bytes of the paths, or None; what stands at each path; and the hashes of the contents."""
    total, found, hashes = 0, {}, []
    for path, kind, detail in sorted(items, key=lambda one: text(one[0]).encode()):
        whole = at + path
        fits = is_name(path[-1]) and len(whole) <= 64 and len(text(whole).encode()) <= 4095
        if not fits or (kind == ">" and not 1 <= len(detail.encode()) <= 4095):
            return f"bad name {text(path[:-1]) or '/'}", found, hashes
        if kind == "!":
            return f"special {text(path)}", found, hashes
        if kind in "=*":
            content = detail.encode() if kind == "=" else bytes(int(detail))
            total += len(content)
            if len(content) > FILE or total > SUM:
                return f"too large {text(path)}", found, hashes
            digest = hashlib.sha1(content).hexdigest()[:4]
            found[path] = f"={len(content)}#{digest}"
            if not path[-1].startswith(".wh.") and digest not in hashes:
                hashes.append(digest)
        else:
            found[path] = kind + detail
    return None, found, hashes


def bad_whiteout(found):
    """The least bad whiteout by the bytes of its path, or None."""
    bad = []
    for path, what in found.items():
        name = path[-1]
        if name.startswith(".wh."):
            gone = name[4:]
            if what[0] != "=" or (name != OPAQUE and (gone in ("", ".", "..") or path[:-1] + (gone,) in found)):
                bad.append(text(path).encode())
    return min(bad).decode() if bad else None


def children(tree, at):
    return {path[-1] for path in tree if len(path) == len(at) + 1 and path[: len(at)] == at}


def merged(base, found, at=()):
    """What stands below a directory that both may have, level by level."""
    part, named = {}, children(found, at)
    for name in children(base, at):
        path = at + (name,)
        is_taken = name in named and not name.startswith(".wh.")
        if OPAQUE not in named and ".wh." + name not in named and not is_taken:
            part.update({other: what for other, what in base.items() if other[: len(path)] == path})
    for name in named:
        path = at + (name,)
        if not name.startswith(".wh."):
            part[path] = "+" + found[path]
            if found[path] == "/":
                is_kept = base.get(path) == "/" and OPAQUE not in named
                part.update(merged(base if is_kept else {}, found, path))
    return part


def part_text(part):
    marked = [(path, what[:1] == "+", what.lstrip("+")) for path, what in sorted(part.items())]
    return "".join(("+" if is_new else "") + text(path) + what + " " for path, is_new, what in marked)


def answer(at, base, lines):
    fault, found, hashes = walk(published(at), [item(line) for line in lines])
    if fault is not None:
        return fault
    bad = bad_whiteout(found)
    if bad is not None:
        return f"bad whiteout {bad}"
    return part_text(merged(base, found)) + " ".join(["#"] + hashes)


def row(at, base, lines):
    """A line of the table, and what it prints. No call of the folder fails."""
    words = " ".join(text(path) + ("" if what[0] == "=" else what) for path, what in sorted(base.items()))
    return f"{at}|0|{words}|{' '.join(lines)}", answer(at, base, lines)


def generated_base():
    """Paths as tuples of names, each behind its directory."""
    base = {}
    for _ in range(random.randint(0, 6)):
        above = random.choice([()] + [path for path, what in base.items() if what == "/"])
        if len(above) < 3:
            base.setdefault(above + (random.choice(NAMES[:4] + [".wh.a"]),), random.choice(["/", "/", "=1#0707", ">t"]))
    return base


def generated_folder():
    """A folder of few items, directory by directory, each with its names in order: some whiteouts, of which a few are bad."""
    lines, todo = [], [()]
    while todo:
        above = todo.pop(0)
        named = set(random.sample(NAMES, random.randint(0, 3)))
        for name in random.sample(NAMES, random.randint(0, 2)):
            if name not in named or random.random() < 0.1:
                named.add(".wh." + name)
        if random.random() < 0.2:
            named.add(OPAQUE)
        if random.random() < 0.03:
            named.add(random.choice([".wh.", ".wh..", ".wh...", "..", "."]))
        for name in sorted(named):
            kind = random.choice("//==>" if len(above) < 2 else "==>")
            if name.startswith(".wh.") and random.random() < 0.96:
                kind = "="
            if random.random() < 0.02:
                kind = "!"
            detail = {"=": random.choice(["", "x", "yy"]), ">": random.choice(["a/b"] * 20 + [""])}.get(kind, "")
            lines.append(f"{text(above)}:{name}{kind}{detail}")
            if kind == "/" and is_name(name):
                todo.append(above + (name,))
    return lines


def tree(words):
    """A base by the words of a row."""
    base = {}
    for word in words.split():
        path, _, target = word.rstrip("/").partition(">")
        base[tuple(path.split("/")[1:])] = "/" if word.endswith("/") else ">" + target if target else "=1#0707"
    return base


# By hand: the published path, the base and the folder.
RULES = [
    ("/r", "", []),
    ("/r", "/d/ /d/x /d/y", [":d/", "/d:.wh.x=", "/d:z="]),
    ("/r", "/d/ /d/x /d/y /e", [":d/", "/d:.wh..wh..opq=", "/d:z="]),
    ("/r", "/d/ /d/x /e", [":d=x"]),
    ("/r", "/d/ /d/x /e", [":d>x"]),
    ("/r", "/d /e", [":d/", "/d:x="]),
    ("/r", "/.wh.a/ /.wh.a/x /b", [":.wh.a="]),
    ("/r", "/.wh.a/ /.wh.a/x /b", [":.wh..wh.a=", ":.wh.b="]),
    ("/r", "/a", [":.wh.="]),
    ("/r", "/a", [":.wh..="]),
    ("/r", "/a", [":.wh...="]),
    ("/r", "/a", [":.wh.a=", ":a="]),
    ("/r", "/a", [":.wh.a/"]),
    ("/r", "/a", [":.wh.a>x"]),
    ("/r", "/a", [":.wh..wh..opq/"]),
    ("/r", "/a", [":a/", ":a-b/", "/a:.wh.=", "/a-b:.wh.="]),
    ("/r", "/a", [":.wh.b="]),
    ("/r", "", [":a/", ":f=x", "/a:g=x", "/a:h=y", "/a:l>../f"]),
    ("/r", "", [":.wh.a=gone", ":b=gone", ":c=gone"]),
    ("/r", "", [":a/", ":a-b!", "/a:x!"]),
    ("/r", "", [":a/", ":a.b/", "/a:x=1", "/a.b:x!"]),
    ("/r", "", [":a/", ":a0!", "/a:x!"]),
    ("/r", "", [":..=x", ":b!"]),
    ("/r", "", [":a!", ":b" + "c" * 255 + "="]),
    ("/r", "", [":d/", "/d:l>"]),
    ("/r", "", [":d/", "/d:=x"]),
    ("64", "", [":f=x"]),
    ("63", "", [":d/", "/d:f=x"]),
    ("62", "", [":d/", "/d:f=x"]),
    ("/" + "/".join(["p" * 255] * 15), "", [":" + "q" * 254 + "=x", ":" + "r" * 255 + "=x"]),
    ("/r", "", [":big*16777217", ":c!"]),
]


# By hand: a folder, the number of its call that fails, and what comes of it. A fault of an item to which the walk comes earlier
# stands.
FAILING = [
    (":a=x", 1, "failed"),
    (":a=x", 2, "failed"),
    (":a=x", 3, "+/a=1#11f6 # 11f6"),
    (":a! :b=x", 2, "special /a"),
    (":a/ :a-b! /a:b=x", 2, "special /a-b"),
]


def main():
    by_hand = [row(at, tree(base), lines) for at, base, lines in RULES]
    failing = [(f"/r|{call}||{lines}", answer) for lines, call, answer in FAILING]
    rows = []
    while len(rows) < COUNT:
        made = row("/r/s", generated_base(), generated_folder())
        if made not in rows:
            rows.append(made)
    settle_lines("cv_overlay_tests", by_hand + failing + rows)


main()
