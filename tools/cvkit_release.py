"""What the scripts share that publish: trees of files, and the objects of them that a publisher sends.

A tree is that of `tools/cut_vectors.py`: nodes by their paths, each a kind and the bytes of its content.
"""
from cut_vectors import catalogues
from cvkit_client import digest_of, plain

DIRECTORY = ("dir", b"")
# The file that gives its directory a catalogue of its own.
MARKER = ".cvmfscatalog"


def file(content):
    return "file", content


def tree(*parts):
    """The root and these nodes below it."""
    nodes = {"": DIRECTORY}
    for part in parts:
        nodes.update(part)
    return nodes


def offer(nodes, root_time):
    """The root of a tree whose own directory has this time, and the objects of its files and catalogues."""
    made = catalogues(nodes, root_time)
    objects = dict(plain(content) for kind, content in nodes.values() if kind == "file")
    objects.update((digest_of(data) + "C", data) for data in made.values())
    return digest_of(made[""]), list(objects.items())
