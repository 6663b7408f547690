#!/usr/bin/env python3
"""Catalogues of small trees for the tests of cv_cut, made from the definition of the format and not by cutting.

A tree is a text of paths, one after another: `/d/` is a directory, `/l=t` a link to `t`, anything else a file whose content is the text of its path.
"""
import collections
import hashlib
import struct

from vectors import settle, table

TIME = 1700000000
MARKER = ".cvmfscatalog"
MODES = {"dir": 0o755, "file": 0o644, "link": 0o777}
TYPES = {"dir": 0o040000, "file": 0o100000, "link": 0o120000}
TREES = [
    "",
    "/a",
    "/d/ /d/f /d/g",
    "/d/ /d/f /d/g /d/.cvmfscatalog",
    "/.cvmfscatalog",
    "/e/ /e/.cvmfscatalog",
    "/e/ /e/.cvmfscatalog/",
    "/e/ /e/.cvmfscatalog=../a",
    "/a/ /a/.cvmfscatalog /a/b/ /a/b/.cvmfscatalog /a/b/c/ /a/b/c/.cvmfscatalog /a/b/c/f",
    "/a/ /a/b/ /a/b/.cvmfscatalog /a/b/c/ /a/b/c/d/ /a/b/c/d/.cvmfscatalog /a/b/c/d/e/ /a/x",
    "/a/ /a-b/ /a/x/ /a/x/.cvmfscatalog /a-b/.cvmfscatalog /a-b/f",
    "/a/ /a/.cvmfscatalog /a-b/ /a-b/.cvmfscatalog /a.b/ /a.b/.cvmfscatalog /a/x",
    "/l=a /k=/cvmfs/sw.example.org/l /d/ /d/l=../l",
    "/é/ /é/ü=ñ /é/.cvmfscatalog /日本/ /日本/語",
    "/empty/ /empty/er/ /empty/er/still/",
    "/1/ /1/.cvmfscatalog /2/ /2/.cvmfscatalog /3/ /3/.cvmfscatalog /4/ /4/.cvmfscatalog",
    "/d/ /d/.cvmfscatalog /d/e/ /d/e/f/ /d/e/f/.cvmfscatalog /d/e/g /d/e/f/h /i",
    "/d/ /d/.cvmfscatalogue /d/.cvmfscatalo /.cvmfscatalog",
    "/x/ /x/y/ /x/y/z/ /x/y/z/.cvmfscatalog /x/y/.cvmfscatalog /x/.cvmfscatalog /.cvmfscatalog",
    "/a/ /a/a/ /a/a/a/ /a/a/a/a/ /a/a/a/a/.cvmfscatalog /a/a/.cvmfscatalog",
]
# Trees, and paths at which their parts are cut.
PARTS = [
    ("/a/ /a/b/ /a/b/f /c", "/a/b"),
    ("/a/ /a/b/ /a/b/.cvmfscatalog /a/b/c/ /a/b/c/.cvmfscatalog /a/b/c/f", "/a/b"),
    ("/a/ /a/.cvmfscatalog /a/b/ /a/b/.cvmfscatalog /a/b/c /a/d", "/a"),
    ("/a/ /a/.cvmfscatalog /a/b/ /a/b/c/ /a/b/c/.cvmfscatalog /a/b/c/d /a/b/e", "/a/b"),
    ("/a/ /a/f", "/a/f"),
    ("/a/ /a/f", "/a/g"),
]


def read(text):
    """The nodes of a tree by path: (kind, bytes of the content or of the target)."""
    nodes = {"": ("dir", b"")}
    for word in text.split():
        if word.endswith("/"):
            nodes[word[:-1]] = ("dir", b"")
        elif "=" in word:
            path, target = word.split("=", 1)
            nodes[path] = ("link", target.encode())
        else:
            nodes[word] = ("file", word.encode())
    return nodes


def above(path):
    return path.rsplit("/", 1)[0]


def is_cut(nodes, path):
    return path == "" or nodes[path][0] == "dir" and nodes.get(path + "/" + MARKER, ("none",))[0] == "file"


def owner(nodes, path):
    """The nearest cut properly above a path."""
    path = above(path)
    while not is_cut(nodes, path):
        path = above(path)
    return path


def row(nodes, cut, path, time):
    kind, content = nodes[path]
    if kind == "file":
        flags = 4
    elif kind == "link":
        flags = 12
    elif path == cut:
        flags = 33 if path else 1
    else:
        flags = 3 if is_cut(nodes, path) else 1
    digest = hashlib.sha1(content).digest() if kind == "file" else b""
    target = content if kind == "link" else b""
    name = path.rsplit("/", 1)[-1].encode()
    key = hashlib.md5(path.encode()).digest()
    parent = hashlib.md5(above(path).encode()).digest() if path else bytes(16)
    fields = struct.pack(">IIQIIQ", flags, TYPES[kind] | MODES[kind], time, 0, 0, len(content))
    texts = b"".join(struct.pack(">H", len(text)) + text for text in (name, target))
    return key + parent + fields + bytes([len(digest)]) + digest + texts


def catalogues(nodes, root_time=TIME):
    """The catalogue of each cut, by its path. The root has this time."""
    regions, made = collections.defaultdict(list), {}
    for path in nodes:
        if path:
            regions[owner(nodes, path)].append(path)
        if is_cut(nodes, path):
            regions[path].append(path)
    for cut in sorted(regions, key=lambda path: -path.count("/")):
        rows = sorted(row(nodes, cut, path, TIME if path else root_time) for path in regions[cut])
        nested = sorted(path.encode() for path in regions[cut] if path != cut and is_cut(nodes, path))
        parts = [b"CVR1", struct.pack(">II", len(rows), len(nested)), *rows]
        for path in nested:
            inner = made[path.decode()]
            parts.append(struct.pack(">H", len(path)) + path + hashlib.sha1(inner).digest() + struct.pack(">Q", len(inner)))
        made[cut] = b"".join(parts)
    return made


def item():
    rows = []
    for text in TREES:
        made = catalogues(read(text))
        total = sum(len(data) for data in made.values())
        root = made[""]
        rows.append(f'("{text}", "{hashlib.sha1(root).hexdigest()}C", {len(root)}, {len(made)}, {total})')
    return table("TREES", "(&str, &str, u64, usize, usize)", rows, "static")


def covers(path, other):
    return other == path or other.startswith(path + "/")


def part(nodes, path):
    """What the catalogue above a part gets, and the part's own catalogues, those nested in another before it."""
    cuts = [cut for cut in sorted(nodes, reverse=True) if covers(path, cut) and is_cut(nodes, cut)]
    region = [one for one in nodes if covers(path, one) and not any(cut != one and covers(cut, one) for cut in cuts)]
    made = catalogues(nodes)
    last = hashlib.sha1(made[cuts[-1]]).hexdigest() + "C" if cuts else ""
    return len(region), sum(is_cut(nodes, one) for one in region), len(cuts), last


def part_item():
    rows = [f'("{text}", "{path}", {", ".join(map(str, part(read(text), path)[:3]))}, "{part(read(text), path)[3]}")' for text, path in PARTS]
    return table("PARTS", "(&str, &str, usize, usize, usize, &str)", rows, "static")


if __name__ == "__main__":
    settle("crates/cv_cut_tests/src/tests.rt", [item(), part_item()])
