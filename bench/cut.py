#!/usr/bin/env python3
"""The time of cutting a tree into catalogues and of loading it again, by its files.

    bench/cut.py [--short] [FOLDER]

The program reads paths from standard input, makes a tree of them, and measures the best of three cuts of it and of three
loads from a shelf in memory. It gets trees of 5,000 and of 50,000 files in 500 directories, of which 50 have a marker, and
trees of 1,000 and of 10,000 directories that have a marker each. The smaller two must have the root that
`tools/cut_vectors.py` gives them. The short form has a tree of 20 files and prints no time. FOLDER is a copy of the
repository in which to build.
"""
import hashlib
import os
import sys

sys.path.insert(0, os.path.join(os.path.dirname(os.path.abspath(__file__)), "..", "tools"))
import cut_vectors
from program import READ_ALL, program, words

PROGRAM = """\
//! Cuts the tree of the paths on standard input and loads it again, and prints the id of its root and the nanoseconds of
//! the best cut and load.
#![tactic(auto)]
ghost use Rattle.std.specs.Prelude.{IfSome};
ghost use Rattle.cv_tree.specs.Node.{IsNode};

use cv_base::{Attr, Bytes, Kind, Object, ObjectId, RepoPath};
use cv_cut::cut;
use cv_load::load;
use cv_ports::{MemoryShelf, Source};
use cv_real::StreamSource;
use cv_tree::{FileRef, Node, Tree};
use std::alloc::Global;
use std::time::{Clock, Instant};

const FILE: Attr = Attr {
    mode: 0o644,
    mtime: 1_700_000_000,
    uid: 0,
    gid: 0,
};

const DIRECTORY: Attr = Attr {
    mode: 0o755,
    mtime: 1_700_000_000,
    uid: 0,
    gid: 0,
};

/// A file whose content is this text.
fn file(text: &str) -> Option<Node>
    ensures { IfSome result IsNode }
{
    if text.len() > 4095 {
        return None;
    }
    let hash = ObjectId::of(Kind::Plain, text.as_bytes()).hash;
    let size = text.len() as u64;
    Some(Node::File(FILE, FileRef { hash, size }))
}

/// Adds the directory or the file of a line, and the file's content.
fn add(alloc: Global, tree: &mut Tree, contents: &mut Vec<Object>, line: &str) -> Option<()> {
    let path = RepoPath::read(alloc, line).ok()?;
    if line.ends_with('/') {
        return tree.insert(&path, Node::Dir(DIRECTORY)).ok();
    }
    tree.insert(&path, file(line)?).ok()?;
    contents
        .push(Object {
            id: ObjectId::of(Kind::Plain, line.as_bytes()),
            bytes: Bytes::from_slice(alloc, line.as_bytes()).ok()?,
        })
        .ok()
}

/// The tree of these lines, and the contents of its files.
fn tree_of(alloc: Global, text: &str) -> Option<(Tree, Vec<Object>)> {
    let mut tree = Tree::new(alloc, DIRECTORY).ok()?;
    let mut contents = Vec::new(alloc);
    for line in text.lines() {
        add(alloc, &mut tree, &mut contents, line)?;
    }
    Some((tree, contents))
}

/// The nanoseconds of the best of three cuts.
fn time_cuts(clock: &impl Clock, alloc: Global, tree: &Tree) -> Option<u128> {
    let mut best = u128::MAX;
    for _ in 0..3u64 {
        let begin = Instant::now(clock).ok()?;
        let made = cut(alloc, tree).ok()?;
        best = best.min(begin.elapsed(clock).ok()?.as_nanos());
        if made.size == 0 {
            return None;
        }
    }
    Some(best)
}

/// The nanoseconds of the best of three loads.
fn time_loads(clock: &impl Clock, alloc: Global, tree: &Tree, contents: Vec<Object>) -> Option<u128> {
    let made = cut(alloc, tree).ok()?;
    let root = ObjectId {
        hash: made.root.hash,
        kind: Kind::Catalogue,
    };
    let mut objects = made.catalogues.into_vec();
    let mut contents = contents;
    objects.append(&mut contents).ok()?;
    let mut shelf = MemoryShelf::new(alloc, objects, Vec::new(alloc)).ok()?;
    let mut best = u128::MAX;
    for _ in 0..3u64 {
        let begin = Instant::now(clock).ok()?;
        let loaded = load(alloc, &mut shelf, &root).ok()?;
        best = best.min(begin.elapsed(clock).ok()?.as_nanos());
        if loaded.get(&RepoPath::root(alloc)).is_none() {
            return None;
        }
    }
    Some(best)
}

/// The text of the root's id, and both times over the tree of these lines.
fn measure(clock: &impl Clock, alloc: Global, text: &str) -> Option<(String, u128, u128)> {
    let (tree, contents) = tree_of(alloc, text)?;
    let root = cut(alloc, &tree).ok()?.root.text(alloc).ok()?;
    let cuts = time_cuts(clock, alloc, &tree)?;
    let loads = time_loads(clock, alloc, &tree, contents)?;
    Some((root, cuts, loads))
}

fn main(rt: HostRuntime) {
    let mut source = StreamSource::new(rt.stdin());
    let Some(bytes) = read_all(rt.alloc(), &mut source) else {
        return;
    };
    let Ok(text) = std::str::from_utf8(&bytes) else {
        return;
    };
    if let Some((root, cuts, loads)) = measure(&rt, rt.alloc(), text) {
        let _ = println!(rt; "{root} {cuts} {loads}");
    }
}
"""


LIBRARIES = "cv_base cv_ports cv_vault cv_folder cv_real cv_tree cv_cut cv_load"


def paths(files, tops=50):
    """Directories with a marker, so many, nine directories in each, and so many files in all."""
    lines = []
    for i in range(tops):
        lines += [f"/r{i}/", f"/r{i}/.cvmfscatalog"]
        lines += [f"/r{i}/d{j}/" for j in range(9)]
    lines += [f"/r{k % tops}/d{k // tops % 9}/f{k}" for k in range(files - tops)]
    return "\n".join(lines).encode()


def marked(directories):
    """So many directories, each with a marker and a file."""
    lines = []
    for i in range(directories):
        lines += [f"/d{i}/", f"/d{i}/.cvmfscatalog", f"/d{i}/f"]
    return "\n".join(lines).encode()


def root_of(lines):
    """The id of the root's catalogue, by the table of the format."""
    catalogues = cut_vectors.catalogues(cut_vectors.read(lines.decode()))
    return hashlib.sha1(catalogues[""]).hexdigest() + "C"


def measured(made, lines, root=None):
    """The nanoseconds of cutting and of loading the tree of these lines, which must have this root where one is named."""
    output = made.output(lines).decode().split()
    if len(output) != 3 or root not in (None, output[0]):
        sys.exit(f"cut.py: FAILED: the tree of root {root} was cut as {output}")
    return int(output[1]), int(output[2])


SHORT, FOLDER = words()
with program("cut_bench", LIBRARIES, PROGRAM + READ_ALL, SHORT, FOLDER) as made:
    if SHORT:
        small = paths(20, 3)
        measured(made, small, root_of(small))
        print("a tree of 20 files with 4 catalogues was cut and loaded")
        sys.exit()
    small, marks = paths(5_000), marked(1_000)
    files, more_files = measured(made, small, root_of(small)), measured(made, paths(50_000))
    markers, more_markers = measured(made, marks, root_of(marks)), measured(made, marked(10_000))
for what, few, many in zip(("cut", "load"), files, more_files):
    print(f"{what}: 5,000 files in {few / 1e6:.1f} ms, 50,000 in {many / 1e6:.1f} ms, growth {many / few:.1f}-fold")
for what, few, many in zip(("cut", "load"), markers, more_markers):
    print(f"{what}: 1,000 markers in {few / 1e6:.1f} ms, 10,000 in {many / 1e6:.1f} ms, growth {many / few:.1f}-fold")
