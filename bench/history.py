#!/usr/bin/env python3
"""The time of walking a chain of records over a shelf in memory, by its length.

    bench/history.py [--short] [FOLDER]

The program makes chains of 1,000 and of 10,000 records and walks each, and the best of five walks counts, if it gave as many
records. The program itself measures, so that building the shelf and starting the program don't count. The short form has
chains of 5 and of 10 records and prints no time. FOLDER is a copy of the repository in which to build.
"""
import sys

from program import program, words

PROGRAM = """\
//! Walks chains of records over a shelf in memory, and prints the nanoseconds of each best walk.
#![tactic(auto)]

use cv_base::{Bytes, Kind, Object, ObjectId};
use cv_history::chain;
use cv_ports::MemoryShelf;
use std::alloc::{AllocError, Global};
use std::time::{Clock, Instant};

/// The lengths of the chains.
const LENGTHS: [u64; 2] = [1_000, 10_000];

/// The bytes of a record under the root path, without key and tag.
fn record_bytes(alloc: Global, revision: u64, previous: &[u8; 20]) -> Result<Vec<u8>, AllocError> {
    let token = if revision == 1 { 0 } else { revision };
    let mut bytes = Vec::new(alloc);
    bytes.extend_from_slice(b"CVH1")?;
    bytes.extend_from_slice(&revision.to_be_bytes())?;
    bytes.extend_from_slice(previous)?;
    bytes.extend_from_slice(&[7; 40])?;
    bytes.extend_from_slice(&token.to_be_bytes())?;
    bytes.extend_from_slice(&token.to_be_bytes())?;
    bytes.extend_from_slice(&[0; 4])?;
    bytes.extend_from_slice(&1_700_000_000u64.to_be_bytes())?;
    bytes.extend_from_slice(&[0; 2])?;
    Ok(bytes)
}

/// The objects of a chain, and the id of its last record.
fn objects(alloc: Global, count: u64) -> Result<(Vec<Object>, ObjectId), AllocError> {
    let mut objects = Vec::new(alloc);
    let mut last = ObjectId {
        hash: [0; 20],
        kind: Kind::History,
    };
    for revision in 1..=count {
        let bytes = record_bytes(alloc, revision, &last.hash)?;
        last = ObjectId::of(Kind::History, bytes.as_slice());
        let bytes = Bytes::new(bytes);
        objects
            .push(Object { id: last, bytes })
            .map_err(|_| AllocError)?;
    }
    Ok((objects, last))
}

/// The nanoseconds of the best of five walks of a chain of this length.
fn best_walk(clock: &impl Clock, alloc: Global, count: u64) -> Option<u128> {
    let (objects, last) = objects(alloc, count).ok()?;
    let mut shelf = MemoryShelf::new(alloc, objects, Vec::new(alloc)).ok()?;
    let mut best = u128::MAX;
    for _ in 0..5u64 {
        let begin = Instant::now(clock).ok()?;
        let records = chain(alloc, &mut shelf, &last, count).ok()?;
        let time = begin.elapsed(clock).ok()?.as_nanos();
        if records.len() as u64 != count {
            return None;
        }
        best = best.min(time);
    }
    Some(best)
}

fn main(rt: HostRuntime) {
    for count in LENGTHS {
        let nanoseconds = best_walk(&rt, rt.alloc(), count).unwrap_or(0);
        let _ = println!(rt; "{count} {nanoseconds}");
    }
}
"""

SHORT, FOLDER = words()
LENGTHS = (5, 10) if SHORT else (1_000, 10_000)
SOURCE = PROGRAM.replace("1_000, 10_000", ", ".join(map(str, LENGTHS)))
with program("history_bench", "cv_base cv_ports cv_history", SOURCE, SHORT, FOLDER) as made:
    lines = [line.split() for line in made.output().decode().splitlines()]
times = {int(count): int(nanoseconds) for count, nanoseconds in lines}
if tuple(times) != LENGTHS or 0 in times.values():
    sys.exit(f"history.py: FAILED: a chain was not walked: {lines}")
if SHORT:
    print(f"chains of {LENGTHS[0]} and {LENGTHS[1]} records were walked")
else:
    short, long = times.values()
    print(f"chain of 1,000 records: {short / 1e6:.2f} ms; of 10,000: {long / 1e6:.2f} ms; growth {long / short:.1f}-fold")
