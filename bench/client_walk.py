#!/usr/bin/env python3
"""The time of a client's answers once it has every catalogue on the way.

    bench/client_walk.py [--short] [FOLDER]

The program cuts a tree into catalogues: a file eight names deep with a nested catalogue at each second directory above it, and a
directory of 10,000 names in a catalogue of its own. It asks for the entry of the file and for the names, which fetches the
catalogues; then it measures 10,000 more questions for the entry, and the best of three more for the names, in which nothing is
fetched. Beside them it measures the best of three decodings of the catalogue of the names. Of five runs of it the best times
count. The short form has 100 of each, and prints no time. FOLDER is a copy of the repository in which to build.
"""
import os
import sys

sys.path.insert(0, os.path.dirname(os.path.abspath(__file__)))
from program import program, words

PROGRAM = """\
//! Asks about a tree of as many names as its first word says, and prints how many names were listed, and the nanoseconds of an
//! entry, of the best listing and of the best decoding. The second word is the entry's path, and the third how often it is asked.
#![tactic(auto)]

use cv_base::{Attr, Name, Object, ObjectId, RepoPath};
use cv_cut::cut;
use cv_manifest::{Head, Manifest};
use cv_real::program_words;
use cv_resolver::{Found, Question, Resolver};
use cv_rows::Catalogue;
use cv_tree::{FileRef, Node, Tree};
use std::alloc::Global;
use std::env;
use std::time::Instant;

const ATTR: Attr = Attr {
    mode: 0o755,
    mtime: 1_700_000_000,
    uid: 0,
    gid: 0,
};

/// The directories above the file, and what marks a nested catalogue.
const DIRECTORIES: [&str; 7] = [
    "/one",
    "/one/two",
    "/one/two/three",
    "/one/two/three/four",
    "/one/two/three/four/five",
    "/one/two/three/four/five/six",
    "/one/two/three/four/five/six/seven",
];
const MARKERS: [&str; 4] = [
    "/one/two/.cvmfscatalog",
    "/one/two/three/four/.cvmfscatalog",
    "/one/two/three/four/five/six/.cvmfscatalog",
    "/names/.cvmfscatalog",
];
const FILE: &str = "/one/two/three/four/five/six/seven/eight";

/// What is asked of which tree.
#[derive(Drop)]
struct Asking {
    names: u32,
    file: RepoPath,
    questions: u32,
}

/// Adds a directory.
fn add_directory(alloc: Global, tree: &mut Tree, path: &str) -> Option<()> {
    tree.insert(&RepoPath::read(alloc, path).ok()?, Node::Dir(ATTR)).ok()
}

/// Adds a file.
fn add_file(alloc: Global, tree: &mut Tree, path: &str) -> Option<()> {
    let content = FileRef {
        hash: [7; 20],
        size: 1,
    };
    tree.insert(&RepoPath::read(alloc, path).ok()?, Node::File(ATTR, content)).ok()
}

/// The tree with so many names in one directory.
fn tree_of(alloc: Global, count: u32) -> Option<Tree> {
    let mut tree = Tree::new(alloc, ATTR).ok()?;
    add_directory(alloc, &mut tree, "/names")?;
    for directory in &DIRECTORIES {
        add_directory(alloc, &mut tree, directory)?;
    }
    for marker in &MARKERS {
        add_file(alloc, &mut tree, marker)?;
    }
    add_file(alloc, &mut tree, FILE)?;
    for number in 1..count {
        let path = format!(in alloc; "/names/n{number:07}").ok()?;
        add_file(alloc, &mut tree, path.as_str())?;
    }
    Some(tree)
}

/// A resolver at a root.
fn resolver_at(alloc: Global, root: ObjectId) -> Option<Resolver> {
    let name = Name::read(alloc, "r").ok()??;
    let head = Head {
        revision: 1,
        root: root.hash,
        size: 0,
        history: [0; 20],
        time: 0,
    };
    Resolver::new(alloc, Manifest { name, ttl: 0, head }, 64).ok()
}

/// A copy of the bytes under an id.
fn bytes_of(alloc: Global, objects: &[Object], id: ObjectId) -> Option<Vec<u8>> {
    for object in objects {
        if object.id == id {
            return Vec::from_slice(alloc, object.bytes.as_slice()).ok();
        }
    }
    None
}

/// Gives what is wanted, and tells its id.
fn give_wanted(alloc: Global, resolver: &mut Resolver, objects: &[Object]) -> Option<ObjectId> {
    let id = resolver.want()?;
    resolver.give(bytes_of(alloc, objects, id));
    Some(id)
}

/// Asks, gives what is wanted, and tells the id of what was given last.
fn ask(alloc: Global, resolver: &mut Resolver, objects: &[Object], question: Question) -> Option<ObjectId> {
    resolver.ask(question);
    let mut last = None;
    for _ in 0..10u64 {
        match give_wanted(alloc, resolver, objects) {
            Some(id) => last = Some(id),
            None => break,
        }
    }
    resolver.answer()?.ok()?;
    last
}

/// The nanoseconds of one of so many questions for the entry at a path, for which nothing is wanted.
fn entry_time(rt: &HostRuntime, resolver: &mut Resolver, path: &RepoPath, count: u32) -> Option<u128> {
    let begin = Instant::now(rt).ok()?;
    for _ in 0..count {
        resolver.ask(Question::Stat(path.copy(rt.alloc()).ok()?));
        resolver.answer()?.ok()?;
    }
    let taken = begin.elapsed(rt).ok()?.as_nanos();
    taken.checked_div(u128::from(count))
}

/// How many names there are, and the nanoseconds of one question for them.
fn listing_time(rt: &HostRuntime, resolver: &mut Resolver, path: &RepoPath) -> Option<(usize, u128)> {
    let begin = Instant::now(rt).ok()?;
    resolver.ask(Question::List(path.copy(rt.alloc()).ok()?));
    let found = resolver.answer()?.ok()?;
    let taken = begin.elapsed(rt).ok()?.as_nanos();
    match found {
        Found::Names(names) => Some((names.as_slice().len(), taken)),
        _ => None,
    }
}

/// The nanoseconds of decoding a catalogue.
fn decoding_time(rt: &HostRuntime, bytes: &[u8], at: &RepoPath) -> Option<u128> {
    let begin = Instant::now(rt).ok()?;
    let catalogue = Catalogue::decode(rt.alloc(), bytes, at).ok()?;
    let taken = begin.elapsed(rt).ok()?.as_nanos();
    (!catalogue.rows().is_empty()).then_some(taken)
}

/// How many names were listed, and the times.
fn measure(rt: &HostRuntime, asking: &Asking) -> Option<(usize, u128, u128, u128)> {
    let alloc = rt.alloc();
    let made = cut(alloc, &tree_of(alloc, asking.names)?).ok()?;
    let objects = made.catalogues.into_vec();
    let mut resolver = resolver_at(alloc, made.root)?;
    let names = RepoPath::read(alloc, "/names").ok()?;
    ask(alloc, &mut resolver, &objects, Question::Stat(asking.file.copy(alloc).ok()?))?;
    let id = ask(alloc, &mut resolver, &objects, Question::List(names.copy(alloc).ok()?))?;
    let bytes = bytes_of(alloc, &objects, id)?;
    let entry = entry_time(rt, &mut resolver, &asking.file, asking.questions)?;
    let mut listed = 0;
    let mut listing = u128::MAX;
    let mut decoding = u128::MAX;
    for _ in 0..3u64 {
        let (found, taken) = listing_time(rt, &mut resolver, &names)?;
        listed = found;
        listing = listing.min(taken);
        decoding = decoding.min(decoding_time(rt, bytes.as_slice(), &names)?);
    }
    Some((listed, entry, listing, decoding))
}

/// What the words say.
fn asked(alloc: Global, words: &[String]) -> Option<Asking> {
    match words {
        [names, file, questions] => Some(Asking {
            names: names.as_str().parse::<u32>().ok()?,
            file: RepoPath::read(alloc, file.as_str()).ok()?,
            questions: questions.as_str().parse::<u32>().ok()?,
        }),
        _ => None,
    }
}

fn main(rt: HostRuntime) {
    let Ok(Some(words)) = program_words(rt.alloc(), env::args(&rt)) else {
        return;
    };
    let Some(asking) = asked(rt.alloc(), words.as_slice()) else {
        return;
    };
    if let Some((listed, entry, listing, decoding)) = measure(&rt, &asking) {
        let _ = println!(rt; "{listed} {entry} {listing} {decoding}");
    }
}
"""

LIBRARIES = "cv_base cv_ports cv_vault cv_folder cv_real cv_tree cv_rows cv_cut cv_seal cv_manifest cv_resolver"
# The most nanoseconds of an entry, and how many times as long as a decoding a listing may take.
ENTRY, RATIO = 20_000, 3

SHORT, FOLDER = words()
COUNT = 100 if SHORT else 10_000
FILE = "/one/two/three/four/five/six/seven/eight"
runs = []
with program("client_walk_bench", LIBRARIES, PROGRAM, SHORT, FOLDER) as made:
    for _ in range(1 if SHORT else 5):
        output = made.output(arguments=[str(COUNT), FILE, str(COUNT)]).split()
        if len(output) != 4 or int(output[0]) != COUNT:
            sys.exit(f"client_walk.py: FAILED: {COUNT} names were listed as {output}")
        runs.append([int(number) for number in output[1:]])
entry, listing, decoding = (min(times) for times in zip(*runs))
if SHORT:
    print("100 names were listed, and an entry found eight names deep")
else:
    ratio = listing / decoding
    print(f"an entry eight names deep, everything cached: {entry / 1e3:.2f} us")
    print(f"{COUNT} names listed in {listing / 1e6:.2f} ms, their catalogue decoded in {decoding / 1e6:.2f} ms, ratio {ratio:.2f}")
    if entry >= ENTRY or ratio > RATIO:
        sys.exit(f"client_walk.py: FAILED: above {ENTRY} ns, or {RATIO} times")
