#!/usr/bin/env python3
"""The time of the calls of the table of leases as it grows: 1,024 and 4,096 leases on paths 64 names deep.

    bench/lease_table.py [--short] [FOLDER]

The paths share their first 62 names, and 64 places at most stand below any other. All leases are granted, a path among them
that none overlaps is looked up as often, and then all expire at once: what costs the same however many leases there are
takes four times as long for four times as many. Then all are granted again, and 64 of them are found by their tokens and
ended, which walks the leases: that takes four times as long too. The program is run by `rt try`, compiled with checks and
without a proof, and so slower than a build. The short form has 64 leases and prints no time. FOLDER is a copy of the
repository in which to build.
"""
import subprocess
import sys

from program import program, words

PROGRAM = """\
//! Grants, looks up, expires, finds and ends leases, and prints the nanoseconds of each.
#![tactic(auto)]

use cv_base::{RepoPath, Steps, Text, Token};
use cv_leases::{Lease, LeaseTable};
use std::alloc::Global;
use std::marker::Brand;
use std::sync::ledger::{Blank, Ledger};
use std::time::{Clock, Instant};

/// How many leases there are.
const COUNT: u64 = @COUNT@;

/// The path that all others are below.
fn above(alloc: Global) -> Option<String> {
    let mut text = String::new(alloc);
    for number in 0..62u64 {
        let name = format!(in alloc; "/d{number}").ok()?;
        text.push_str(name.as_str()).ok()?;
    }
    Some(text)
}

/// The path of this number.
fn path(alloc: Global, above: &str, number: u64) -> Option<RepoPath> {
    let group = number / 64;
    let place = number % 64;
    let text = format!(in alloc; "{above}/a{group}/b{place}").ok()?;
    RepoPath::read(alloc, text.as_str()).ok()
}

/// All leases.
fn all(alloc: Global, above: &str) -> Option<Vec<Lease>> {
    let mut leases = Vec::new(alloc);
    for number in 0..COUNT {
        let lease = Lease {
            token: Token { epoch: 1, number },
            key: Text::from_str(alloc, "k1").ok()?,
            path: path(alloc, above, number)?,
            deadline: number,
            from_revision: 1,
        };
        leases.push(lease).ok()?;
    }
    Some(leases)
}

/// Takes out all leases, whose deadlines have come.
fn expire<L: Ledger>(table: &mut LeaseTable, blank: Blank) {
    let mut steps: Steps<L> = Steps::new(blank);
    table.expire(COUNT, &mut steps);
}

/// Grants a lease as a gate does: it asks first what refuses it.
fn grant(table: &mut LeaseTable, lease: Lease) -> Option<()> {
    if table.refusal(&lease.path).is_some() {
        return None;
    }
    table.grant(lease).ok()
}

/// The nanoseconds of granting all, of looking up a path that none overlaps, of expiring all, and of finding and ending 64.
fn measure(clock: &impl Clock, alloc: Global, above: &str) -> Option<[u128; 5]> {
    let mut table = LeaseTable::new(alloc);
    let leases = all(alloc, above)?;
    let begin = Instant::now(clock).ok()?;
    for lease in leases {
        grant(&mut table, lease)?;
    }
    let granting = begin.elapsed(clock).ok()?.as_nanos();
    let other = path(alloc, above, COUNT + 64)?;
    let begin = Instant::now(clock).ok()?;
    for _ in 0..COUNT {
        if table.refusal(&other).is_some() {
            return None;
        }
    }
    let looking = begin.elapsed(clock).ok()?.as_nanos();
    let begin = Instant::now(clock).ok()?;
    expire::<Brand>(&mut table, Blank::new(1));
    let expiring = begin.elapsed(clock).ok()?.as_nanos();
    if table.count() > 0 {
        return None;
    }
    for lease in all(alloc, above)? {
        grant(&mut table, lease)?;
    }
    let begin = Instant::now(clock).ok()?;
    for place in 0..64u64 {
        let number = place * (COUNT / 64);
        table.find(Token { epoch: 1, number })?;
    }
    let finding = begin.elapsed(clock).ok()?.as_nanos();
    let begin = Instant::now(clock).ok()?;
    for place in 0..64u64 {
        let number = place * (COUNT / 64);
        table.end(Token { epoch: 1, number });
    }
    let ending = begin.elapsed(clock).ok()?.as_nanos();
    if table.count() as u64 + 64 != COUNT {
        return None;
    }
    Some([granting, looking, expiring, finding, ending])
}

fn main(rt: HostRuntime) {
    if let Some(above) = above(rt.alloc()) {
        if let Some([granting, looking, expiring, finding, ending]) = measure(&rt, rt.alloc(), above.as_str()) {
            let _ = println!(rt; "{granting} {looking} {expiring} {finding} {ending}");
        }
    }
}
"""

LIBRARIES = "cv_base cv_links cv_leases"
CALLS = ("granted", "looked up, free", "expired", "64 found by token", "64 ended by token")


def measured(count, folder):
    """The nanoseconds of each call with so many leases."""
    source = PROGRAM.replace("@COUNT@", str(count))
    with program("lease_table_bench", LIBRARIES, source, True, folder) as made:
        command = ["rt", "try", "--steps", "1", "--seconds", "600"]
        ran = subprocess.run(command, cwd=made.crate, stdout=subprocess.PIPE, stderr=subprocess.PIPE, text=True)
    times = [int(word) for word in ran.stdout.split()]
    if ran.returncode or len(times) != len(CALLS):
        sys.exit(f"lease_table.py: FAILED: {count} leases gave {times}\n{ran.stderr}")
    return times


SHORT, FOLDER = words()
if SHORT:
    measured(64, FOLDER)
    print("64 leases were granted, looked up, expired, found and ended")
else:
    small, large = measured(1_024, FOLDER), measured(4_096, FOLDER)
    for call, few, many in zip(CALLS, small, large):
        print(f"{call}: 1024 in {few / 1e6:.2f} ms, 4096 in {many / 1e6:.2f} ms, ratio {many / few:.1f}")
