#!/usr/bin/env python3
"""The time of reading a folder of changes, and of laying it over a base, by their sizes.

    bench/overlay.py [--short] [FOLDER]

The base has 50,000 files in directories of 100. The folder is a real one, on the disk of the system's folder for temporary
files, with 10,000 small files in directories of 100: half of them stand in place of files of the base, a whiteout a directory
removes one, and each tenth directory is opaque. The program measures the best of three readings of the folder and of three
overlays; so it does at a tenth of both sizes. Of five runs of it the best times count. The short form has 100 files over 200, and
prints no time. FOLDER is a copy of the repository in which to build.
"""
import os
import sys
import tempfile

sys.path.insert(0, os.path.dirname(os.path.abspath(__file__)))
from program import program, words

PROGRAM = """\
//! Reads the folder that its first word names, lays it over a base of as many directories of 100 files as its second word says,
//! and prints how many entries the part has, and the nanoseconds of the best reading and of the best overlay of three.
#![tactic(auto)]

use cv_base::{Attr, RepoPath};
use cv_overlay::{overlay, read_folder};
use cv_ports::Folder;
use cv_real::{SystemFolder, program_words};
use cv_tree::{FileRef, Node, Part, Tree};
use std::alloc::Global;
use std::env;
use std::time::Instant;

const ATTR: Attr = Attr {
    mode: 0o755,
    mtime: 1_700_000_000,
    uid: 0,
    gid: 0,
};

/// Adds a file.
fn add_file(alloc: Global, tree: &mut Tree, directory: u32, number: u32) -> Option<()> {
    let path = format!(in alloc; "/d{directory:05}/f{number:05}").ok()?;
    let content = FileRef {
        hash: [7; 20],
        size: 1,
    };
    let path = RepoPath::read(alloc, path.as_str()).ok()?;
    tree.insert(&path, Node::File(ATTR, content)).ok()
}

/// Adds a directory of 100 files.
fn add_directory(alloc: Global, tree: &mut Tree, directory: u32) -> Option<()> {
    let path = format!(in alloc; "/d{directory:05}").ok()?;
    let path = RepoPath::read(alloc, path.as_str()).ok()?;
    tree.insert(&path, Node::Dir(ATTR)).ok()?;
    for number in 0..100u32 {
        add_file(alloc, tree, directory, number)?;
    }
    Some(())
}

/// A base of so many directories.
fn base(alloc: Global, directories: u32) -> Option<Part> {
    let mut tree = Tree::new(alloc, ATTR).ok()?;
    for directory in 0..directories {
        add_directory(alloc, &mut tree, directory)?;
    }
    tree.subtree(alloc, &RepoPath::root(alloc)).ok()?
}

/// How many entries the part has, and the nanoseconds of a reading and of an overlay.
fn measured<F: Folder>(rt: &HostRuntime, folder: &mut F, name: &str, base: &Part) -> Option<(usize, u128, u128)> {
    let alloc = rt.alloc();
    folder.root(alloc, name).ok()?;
    let begin = Instant::now(rt).ok()?;
    let changes = read_folder(alloc, folder, &RepoPath::root(alloc)).ok()?;
    let reading = begin.elapsed(rt).ok()?.as_nanos();
    let begin = Instant::now(rt).ok()?;
    let part = overlay(alloc, Some(base), &changes, 5).ok()?;
    let laying = begin.elapsed(rt).ok()?.as_nanos();
    Some((part.entries(alloc).ok()?.len(), reading, laying))
}

/// The same with the best times of three.
fn best<F: Folder>(rt: &HostRuntime, folder: &mut F, name: &str, directories: u32) -> Option<(usize, u128, u128)> {
    let base = base(rt.alloc(), directories)?;
    let (mut entries, mut reading, mut laying) = measured(rt, folder, name, &base)?;
    for _ in 0..2u64 {
        let next = measured(rt, folder, name, &base)?;
        entries = entries.max(next.0);
        reading = reading.min(next.1);
        laying = laying.min(next.2);
    }
    Some((entries, reading, laying))
}

// The handle on threads is this function's alone: what wants it is made here.
fn main(rt: HostRuntime) {
    let mut folder = SystemFolder::new(rt);
    let Ok(Some(words)) = program_words(rt.alloc(), env::args(&rt)) else {
        return;
    };
    if let (Some(name), Some(directories)) = (words.first(), words.get(1)) {
        let directories = directories.parse::<u32>().unwrap_or(0);
        if let Some((entries, reading, laying)) = best(&rt, &mut folder, name.as_str(), directories) {
            let _ = println!(rt; "{entries} {reading} {laying}");
        }
    }
}
"""

LIBRARIES = "cv_base cv_ports cv_vault cv_folder cv_real cv_tree cv_overlay"
# How much longer a base and a folder ten times the size may take.
GROWTH = 14


def make_folder(top, directories):
    """A folder of so many directories of 100 files, and how many entries it adds to a base that has these directories."""
    added = 0
    for directory in range(directories):
        path = os.path.join(top, f"d{directory:05}")
        os.makedirs(path)
        is_opaque = directory % 10 == 0
        for name in [f"f{number:05}" for number in range(50, 150)] + [".wh.f00000"] + [".wh..wh..opq"] * is_opaque:
            with open(os.path.join(path, name), "w") as file:
                file.write(f"{directory} {name}\n")
        added += 0 if is_opaque else 49
    return added


def times(made, over, directories):
    """The nanoseconds of reading so many directories, and of laying them over a base of `over` directories."""
    with tempfile.TemporaryDirectory(prefix="cvkit-overlay-") as top:
        wanted = 1 + 101 * over + make_folder(top, directories)
        runs = []
        for _ in range(1 if SHORT else 5):
            output = made.output(arguments=[top, str(over)]).split()
            if len(output) != 3 or int(output[0]) != wanted:
                sys.exit(f"overlay.py: FAILED: {100 * directories} files over {100 * over}: {output}, of {wanted} entries")
            runs.append((int(output[1]), int(output[2])))
    return tuple(min(times) for times in zip(*runs))


SHORT, FOLDER = words()
with program("overlay_bench", LIBRARIES, PROGRAM, SHORT, FOLDER) as made:
    if SHORT:
        times(made, 2, 1)
        print("a folder of 100 files was laid over 200")
    else:
        small, large = times(made, 50, 10), times(made, 500, 100)
        for what, (reading, laying) in (("1000 files over 5000", small), ("10000 files over 50000", large)):
            print(f"{what}: read in {reading / 1e6:.1f} ms, laid over in {laying / 1e6:.1f} ms")
        growth = large[1] / small[1]
        print(f"growth of the overlay {growth:.1f}-fold, of the reading {large[0] / small[0]:.1f}-fold")
        if growth >= GROWTH:
            sys.exit(f"overlay.py: FAILED: it grows {GROWTH}-fold or more")
