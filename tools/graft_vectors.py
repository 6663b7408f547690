#!/usr/bin/env python3
"""Grafts of small trees for the tests of cv_graft: the root's catalogue of the tree of which a subtree was replaced, made from the
definition of the format and not by grafting.

Trees are the texts that `tools/cut_vectors.py` reads."""
import hashlib

from cut_vectors import catalogues, is_cut, read
from vectors import settle, table

# A newest tree, the path at which it takes the offered tree's subtree, and the offered tree.
GRAFTS = [
    ("/a/ /a/f /b", "/a", "/a/ /a/g"),
    ("/a/ /a/f /b", "/a", "/c"),
    ("/a/ /a/f /b", "/a", "/a/ /a/.cvmfscatalog /a/g"),
    ("/a/ /a/.cvmfscatalog /a/f /b", "/a", "/a/ /a/g"),
    ("/a/ /a/.cvmfscatalog /a/b/ /a/b/x", "/a/b", "/a/ /a/b/ /a/b/y"),
    ("/a/ /a/.cvmfscatalog /a/b/ /a/b/.cvmfscatalog /a/b/c/ /a/z", "/a/b/c",
     "/a/ /a/b/ /a/b/c/ /a/b/c/d/ /a/b/c/d/.cvmfscatalog"),
    ("/a/ /a/b/ /a/b/x", "/a/b", "/a/ /a/.cvmfscatalog /a/b/ /a/b/.cvmfscatalog /a/b/y"),
    ("/a/ /a/f", "/", "/b/ /b/.cvmfscatalog"),
    ("/a/ /a/f /b", "/a", "/a"),
]
PLACES = "/a/ /a/.cvmfscatalog /a/b/ /a/b/x /c"
PATHS = ["/", "/a", "/a/b", "/a/b/x", "/a/d", "/a/d/e", "/c", "/c/d", "/b"]


def is_below(path, top):
    return top == "/" or path == top or path.startswith(top + "/")


def replaced(newest, at, offered):
    """The newest tree with the offered one's subtree at a path."""
    nodes = {path: node for path, node in newest.items() if not is_below(path, at)}
    nodes.update((path, node) for path, node in offered.items() if is_below(path, at))
    return nodes


def is_made(nodes, path, at):
    """Whether a path is a cut properly above the place."""
    return at != "/" and is_cut(nodes, path) and at.startswith(path + "/")


def is_brought(nodes, path, at):
    """Whether a path is a cut at the place or below."""
    return is_cut(nodes, path) and is_below(path, at)


def items():
    rows = []
    for newest, at, offered in GRAFTS:
        nodes = replaced(read(newest), at, read(offered))
        root = hashlib.sha1(catalogues(nodes)[""]).hexdigest()
        made = sum(is_made(nodes, path, at) for path in nodes)
        brought = sum(is_brought(nodes, path, at) for path in nodes)
        rows.append(f'("{newest}", "{at}", "{offered}", "{root}C", {made}, {brought})')
    yield table("GRAFTS", "(&str, &str, &str, &str, usize, usize)", rows, "static")
    there = read(PLACES)
    kinds = [there.get(path.rstrip("/"), ("none",))[0] for path in PATHS]
    yield table("DIRECTORIES", "(&str, bool)", [f'("{path}", {str(kind == "dir").lower()})' for path, kind in zip(PATHS, kinds)], "static")
    yield f'const PLACES: &str = "{PLACES}";'


if __name__ == "__main__":
    settle("crates/cv_graft_tests/src/tests.rt", list(items()))
