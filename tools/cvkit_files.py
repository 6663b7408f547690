"""What the scripts share that look at the files of a repository: whether the head, and all that it reaches, are whole.

It knows the formats by docs/PROTOCOL.md alone, and takes digests and seals by Python's own hashlib and hmac. What isn't as
it should be raises `Wrong` of cvkit_client.
"""
import collections
import hashlib
import hmac
import os
import re
import struct

from cvkit_client import REPOSITORY, SEAL, ZEROS, digest_of, expect, manifest_path, object_path


Head = collections.namedtuple("Head", "root size revision record time")
Record = collections.namedtuple("Record", "revision previous root offered epoch number path key time tag")
Row = collections.namedtuple("Row", "key parent flags mode time user group size hash name target")
# The fields of a row before its hash, which has a length.
ROW = struct.Struct(">16s16sIIQIIQ")
ROOT_KEY = hashlib.md5(b"").hexdigest()
DECIMAL = "(0|[1-9][0-9]*)"
MANIFEST = re.compile(
    f"C([0-9a-f]{{40}})\nB{DECIMAL}\nR{ROOT_KEY}\nD240\nS{DECIMAL}\nN(.*)\nH([0-9a-f]{{40}})\nT{DECIMAL}\n".encode()
)


def read_file(path):
    """The bytes of a regular file, or None where nothing is there."""
    try:
        with open(path, "rb") as file:
            return file.read()
    except FileNotFoundError:
        return None


def read_manifest(data, name=REPOSITORY, secret=SEAL):
    """The head that a manifest says."""
    lines, end = data[:-64], data[-64:]
    said = MANIFEST.fullmatch(lines)
    expect(said, "a manifest of other lines", data)
    digits = digest_of(lines).encode()
    expect(end == b"--\n" + digits + b"\n" + hmac.new(secret.encode(), digits, hashlib.sha1).digest(), "its seal", data)
    root, size, revision, named, record, time = (value.decode() for value in said.groups())
    expect(named == name, "its name", data)
    return Head(root, int(size), int(revision), record, int(time))


def read_record(data):
    """The record that bytes say."""
    at = 0

    def field(size):
        nonlocal at
        expect(at + size <= len(data), "a record that is cut", data)
        at += size
        return data[at - size : at]

    def number(size):
        return int.from_bytes(field(size), "big")

    expect(field(4) == b"CVH1", "no record", data)
    record = Record(
        number(8), field(20).hex(), field(20).hex(), field(20).hex(), number(8), number(8),
        field(number(2)).decode(), field(number(2)).decode(), number(8), field(number(2)).decode(),
    )
    expect(at == len(data), "bytes behind a record", data)
    return record


def read_catalogue(data):
    """The rows of a catalogue, and its nested entries: path, id and size."""
    expect(data[:4] == b"CVR1", "no catalogue", data[:80])
    count, nested_count = struct.unpack_from(">II", data, 4)
    at = 12

    def sized(form):
        nonlocal at
        (size,) = struct.unpack_from(form, data, at)
        at += struct.calcsize(form) + size
        return data[at - size : at]

    rows, nested = [], []
    for _ in range(count):
        fields = ROW.unpack_from(data, at)
        at += ROW.size
        hash_, name, target = sized(">B"), sized(">H"), sized(">H")
        rows.append(Row(*fields, hash_.hex(), name.decode(), target.decode()))
    for _ in range(nested_count):
        path = sized(">H").decode()
        nested.append((path, data[at : at + 20].hex() + "C", int.from_bytes(data[at + 20 : at + 28], "big")))
        at += 28
    expect(at == len(data), "bytes behind a catalogue, or a cut one", (at, len(data)))
    return rows, nested


def named_in(catalogue):
    """The ids that a catalogue names, with the size of each: files first, then nested catalogues."""
    rows, nested = read_catalogue(catalogue)
    return [(row.hash, row.size) for row in rows if row.hash] + [(id_, size) for _, id_, size in nested]


def key_of(path):
    """The key of a path's text."""
    return hashlib.md5(path.encode()).digest()


def rows_below(top, rows):
    """The rows of the catalogue of a cut, by their paths. They are in order, and each has the keys of its path and its parent's."""
    expect([row.key for row in rows] == sorted({row.key for row in rows}), "the order of the rows", top)
    below, found = collections.defaultdict(list), {}
    for row in rows:
        below[row.parent].append(row)
    left = [(top, row) for row in rows if row.key == key_of(top)]
    expect([row.parent for _, row in left] == [key_of(top.rpartition("/")[0]) if top else bytes(16)], "the root row", top)
    while left:
        path, row = left.pop()
        expect(row.key == key_of(path), "the key of a path", path)
        found[path] = row
        left += [(f"{path}/{inner.name}", inner) for inner in below[row.key]]
    expect(len(found) == len(rows), "a row that isn't reached", (top, len(rows)))
    return found


def read_tree(fetch, root):
    """The rows of the tree that a root means, by path. Its catalogues are what `fetch` gives for their ids and sizes."""
    found, left = {}, [("", root + "C", None)]
    while left:
        top, id_, size = left.pop()
        rows, nested = read_catalogue(fetch(id_, size))
        found.update(rows_below(top, rows))
        left += nested
    return found


def whole_object(folder, id_):
    """The bytes of an object, which is there and has the digest of its name."""
    data = read_file(object_path(folder, id_))
    expect(data is not None, "an object that is reached isn't there", id_)
    expect(digest_of(data) == id_[:40], "an object that is reached has another digest", id_)
    return data


def check_tree(folder, root, seen):
    """All that a root reaches is there and whole. What was `seen` is passed over, and added to."""
    left = [(root + "C", None)]
    while left:
        id_, size = left.pop()
        if id_ in seen:
            continue
        seen.add(id_)
        data = whole_object(folder, id_)
        expect(size in (None, len(data)), "the size of an object that is reached", id_)
        if id_.endswith("C"):
            left += named_in(data)


def records_of(folder, head):
    """The records of a head from the newest back to the first, each with its hash."""
    hash_ = head.record
    for revision in range(head.revision, 0, -1):
        record = read_record(whole_object(folder, hash_ + "H"))
        expect(record.revision == revision, "the revision of a record", record)
        yield hash_, record
        hash_ = record.previous
    expect(hash_ == ZEROS, "a record before the first one", hash_)


def whole_head(folder, name=REPOSITORY):
    """The head of the repository, where all that it reaches is there and whole; None where there is no manifest."""
    manifest = read_file(manifest_path(folder))
    if manifest is None:
        return None
    head = read_manifest(manifest, name)
    expect(len(whole_object(folder, head.root + "C")) == head.size, "the size of the root catalogue", head)
    seen = set()
    for _, record in records_of(folder, head):
        is_newest = record.revision == head.revision
        expect(not is_newest or (record.root, record.time) == (head.root, head.time), "the newest record", record)
        check_tree(folder, record.root, seen)
    return head


def check_names(folder):
    """Each file under the name of an object has that digest, whether something reaches it or not."""
    for path, _, files in os.walk(os.path.join(folder, "srv", "data")):
        for file in files:
            id_ = os.path.basename(path) + file
            if re.fullmatch("[0-9a-f]{40}[CH]?", id_):
                whole_object(folder, id_)


def epoch_of(folder):
    """The epoch that stands in its file, or None where there is none."""
    text = read_file(os.path.join(folder, "srv", "gateway.epoch"))
    if text is None:
        return None
    expect(re.fullmatch(DECIMAL.encode() + b"\n", text), "the text of the epoch", text)
    return int(text)
