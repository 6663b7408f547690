#!/usr/bin/env python3
"""Payloads through a session with no disk behind it: how fast they are read, judged and kept, beside sha1sum.

    bench/session.py [--short] [FOLDER]

A program serves one connection by `session` over a desk that grants each lease and keeps what is stored in a shelf in memory. The
payloads are those of bench/payload.py: 32 MiB in 100 objects and in 10,000, and the best of five runs stands. It fails where one
takes more than the time of sha1sum over the same bytes by 0.6. The short form sends a few kilobytes and prints no time. FOLDER is
a copy of the repository in which to build.
"""
import json
import os
import sys
import tempfile

sys.path.insert(0, os.path.dirname(os.path.abspath(__file__)))
from payload import MIB, measure, store_by, tell
from program import program, words
from cvkit_client import KEYS, Session, expect, lease, payload, plain

PROGRAM = """\
//! Serves the requests of the standard input over a desk that keeps what is stored in a shelf in memory.
#![tactic(auto)]

ghost use Rattle.std.specs.Prelude.{◌≡◌, ◌≤◌};
ghost use Rattle.cv_base.specs.Counts.{Rose};

use cv_base::{Bytes, Items, Name, NoMemory, Object, ObjectId, Token};
use cv_gate::{Desk, LeaseLine, Op, Reply};
use cv_http::Wire;
use cv_keys::KeyTable;
use cv_manifest::Head;
use cv_ports::{MemoryShelf, NoHold, Shelf, ShelfFault};
use cv_real::{StreamSink, StreamSource, SystemClock};
use cv_seal::KeyedHash;
use cv_session::session;
use std::alloc::Global;
use std::process::ExitCode;

/// The keys text.
const KEYS: &[u8] = br#"KEYS_TEXT"#;

/// A desk that can be seen in no way. Each of its entries counts as a fault of the store.
#[derive(Drop)]
struct ShelfDesk {
    name: Name,
    entries: u64,
    shelf: MemoryShelf,
}

/// What is kept is the batch of the last payload.
fn keep(alloc: Global, desk: &mut ShelfDesk, batch: Items<Object>) -> Result<(), NoMemory>
    ensures name { desk.new.name ≡ desk.old.name }
    ensures entries { desk.new.entries ≡ desk.old.entries }
{
    desk.shelf = MemoryShelf::new(alloc, batch.into_vec(), Vec::new(alloc))?;
    Ok(())
}

impl ShelfDesk {
    /// The number of the next entry.
    fn next_entry(&mut self) -> u64
        ensures name { self.new.name ≡ self.old.name }
        ensures later { self.old.entries ≤ self.new.entries }
        ensures rose { Rose 1 self.old.entries self.new.entries }
    {
        self.entries = self.entries.saturating_add(1);
        self.entries
    }
}

impl Desk for ShelfDesk {
    ghost stands = { λ d v. ⊥ };

    ghost does = { λ a calls b. Unit {0} };

    ghost named = { λ d. d.name };

    ghost faults = { λ d. d.entries };

    fn name(&self) -> &Name {
        &self.name
    }

    fn ask(&mut self, alloc: Global, _now: u64, op: Op) -> Reply {
        let number = self.next_entry();
        match op {
            Op::Lease { .. } => Reply::Granted {
                token: Token { epoch: 1, number },
                revision: 1,
                root: [0; 20],
            },
            Op::Store { batch, .. } => match keep(alloc, self, batch) {
                Ok(()) => Reply::Stored,
                Err(NoMemory) => Reply::NoMemory,
            },
            Op::Cancel { .. } => Reply::Cancelled,
            Op::Commit { .. } => Reply::RevisionsFull,
        }
    }

    fn live(&mut self, alloc: Global, _now: u64) -> Result<Vec<LeaseLine>, NoMemory> {
        Ok(Vec::new(alloc))
    }

    fn object(&mut self, _alloc: Global, _id: &ObjectId) -> Result<Option<Bytes>, ShelfFault> {
        Ok(None)
    }

    fn newest(&mut self) -> Head {
        Head {
            revision: 1,
            root: [0; 20],
            size: 0,
            history: [0; 20],
            time: 0,
        }
    }

    ghost does_lead = { λ a b calls does. λ v before. absurd before };

    ghost does_none = { λ a. tt };

    ghost does_more = { λ a b c calls more first then. tt };
}

/// Serves one connection.
fn serve(rt: HostRuntime) -> Option<()> {
    let alloc = rt.alloc();
    let mut desk = ShelfDesk {
        name: Name::read(alloc, "sw.example.org").ok()??,
        entries: 0,
        shelf: MemoryShelf::new(alloc, Vec::new(alloc), Vec::new(alloc)).ok()?,
    };
    let keys = KeyTable::read(alloc, KEYS).ok()?;
    let signer = KeyedHash::new(String::from_str(alloc, "seal").ok()?);
    let mut clock = SystemClock::new(rt);
    let mut wire = Wire::new(alloc, StreamSource::new(rt.stdin()));
    let mut sink = StreamSink::new(rt.stdout());
    let _end = session(
        alloc, &mut desk, &keys, &signer, &mut clock, &NoHold, &mut wire, &mut sink,
    );
    Some(())
}

fn main(rt: HostRuntime) -> ExitCode {
    match serve(rt) {
        Some(()) => ExitCode::SUCCESS,
        None => ExitCode::FAILURE,
    }
}
"""

LIBRARIES = "cv_base cv_ports cv_http cv_keys cv_manifest cv_seal cv_gate cv_session cv_real"
# The least part of the speed of sha1sum.
LEAST = 0.6


def source():
    members = [{"id": key, "secret": secret} for key, secret in KEYS.items()]
    return PROGRAM.replace("KEYS_TEXT", json.dumps({"keys": members}))


def answer_few(made):
    """A payload of ten objects, whose answer alone counts."""
    asked = lease("/a") + payload("1-1", [plain(b"%d" % number) for number in range(10)])
    answers = made.output(asked)
    expect(answers.count(b"HTTP/1.1 200 OK") == 2, "the answers to a lease and a payload", answers)
    expect(answers.endswith(b'{"status":"ok"}'), "the answer to a payload", answers)
    print("10 objects were stored")


def store(program_, asked):
    with tempfile.TemporaryDirectory(prefix="cvkit-bench-") as folder, Session(program_, folder) as session:
        return store_by(session, asked)


def measure_whole(made):
    for count in (100, 10_000):
        took, peak, beside = measure(lambda asked: store(made.path, asked), count, 32 * MIB // count, 5)
        tell(count, took, peak, beside)
        expect(beside / took >= LEAST, f"at least {LEAST} of sha1sum", f"{beside / took:.2f}")


def main():
    short, folder = words()
    with program("bench_session", LIBRARIES, source(), short, folder) as made:
        (answer_few if short else measure_whole)(made)


main()
