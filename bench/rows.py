#!/usr/bin/env python3
"""The time of decoding a catalogue's row file, by its rows and beside SHA-1 of the same bytes.

    bench/rows.py [--short] [FOLDER]

The program reads a row file from standard input and measures the best of three decodings of it and of three digests. It gets
catalogues of 5,000 and of 50,000 rows, files in directories of 99, by the writer of `tools/row_vectors.py`; and two of 50,000
rows and as many bytes, whose files stand two and 63 names deep. The short form has one of 100 rows of each form and prints
no time. FOLDER is a copy of the repository in which to build.
"""
import os
import sys

sys.path.insert(0, os.path.join(os.path.dirname(os.path.abspath(__file__)), "..", "tools"))
import row_vectors
from program import READ_ALL, program, words

PROGRAM = """\
//! Decodes a row file from standard input, and prints the nanoseconds of the best decoding and of the best digest.
#![tactic(auto)]

use cv_base::RepoPath;
use cv_ports::Source;
use cv_real::StreamSource;
use cv_rows::Catalogue;
use sha1::Sha1;
use std::alloc::Global;
use std::time::{Clock, Instant};

/// How many rows there are, and the nanoseconds of the best of three decodings and of three digests.
fn measure(clock: &impl Clock, alloc: Global, bytes: &[u8]) -> Option<(usize, u128, u128)> {
    let root = RepoPath::root(alloc);
    let mut rows = 0;
    let mut decoding = u128::MAX;
    let mut digest = u128::MAX;
    for _ in 0..3u64 {
        let begin = Instant::now(clock).ok()?;
        let catalogue = Catalogue::decode(alloc, bytes, &root).ok()?;
        decoding = decoding.min(begin.elapsed(clock).ok()?.as_nanos());
        let begin = Instant::now(clock).ok()?;
        let hash = Sha1::digest(bytes);
        digest = digest.min(begin.elapsed(clock).ok()?.as_nanos());
        if hash[0] == 0 && catalogue.nested().len() == 1 {
            return None;
        }
        rows = catalogue.rows().len();
    }
    Some((rows, decoding, digest))
}

fn main(rt: HostRuntime) {
    let mut source = StreamSource::new(rt.stdin());
    let times = match read_all(rt.alloc(), &mut source) {
        Some(bytes) => measure(&rt, rt.alloc(), bytes.as_slice()),
        None => None,
    };
    if let Some((rows, decoding, digest)) = times {
        let _ = println!(rt; "{rows} {decoding} {digest}");
    }
}
"""


LIBRARIES = "cv_base cv_ports cv_vault cv_folder cv_real cv_rows sha1"


def row_file(count):
    directories = count // 100
    rows = [row_vectors.row("", "dir")]
    rows += [row_vectors.row(f"/d{i}", "dir") for i in range(directories)]
    files = count - len(rows)
    rows += [row_vectors.row(f"/d{j % directories}/f{j}", "file", b"%d\n" % j) for j in range(files)]
    return row_vectors.file(rows)


def deep_file(count, is_deep):
    """Rows of 62 directories, one in another or beside each other, and of files in them."""
    names = [f"d{i:02}" for i in range(62)]
    directories = ["/" + "/".join(names[: i + 1]) if is_deep else f"/{names[i]}" for i in range(62)]
    rows = [row_vectors.row("", "dir")] + [row_vectors.row(path, "dir") for path in directories]
    for j in range(count - len(rows)):
        above = directories[-1] if is_deep else directories[j % 62]
        rows.append(row_vectors.row(f"{above}/f{j:05}", "file", b"%d\n" % j))
    return row_vectors.file(rows)


def measured(made, count, bytes):
    """The nanoseconds of decoding so many rows, and of their digest."""
    output = made.output(bytes).split()
    if len(output) != 3 or int(output[0]) != count:
        sys.exit(f"rows.py: FAILED: {count} rows were read as {output}")
    return int(output[1]), int(output[2])


SHORT, FOLDER = words()
COUNTS = (100,) if SHORT else (5_000, 50_000)
with program("rows_bench", LIBRARIES, PROGRAM + READ_ALL, SHORT, FOLDER) as made:
    times = {count: measured(made, count, row_file(count)) for count in COUNTS}
    flat, deep = (measured(made, COUNTS[-1], deep_file(COUNTS[-1], is_deep))[0] for is_deep in (False, True))
if SHORT:
    print("catalogues of 100 rows were decoded")
else:
    for count, (decoding, digest) in times.items():
        ratio = decoding / digest
        print(f"{count} rows: decoded in {decoding / 1e6:.1f} ms, SHA-1 in {digest / 1e6:.2f} ms, ratio {ratio:.1f}")
    print(f"growth {times[50_000][0] / times[5_000][0]:.1f}-fold")
    print(f"50000 rows 63 names deep: {deep / 1e6:.1f} ms, two deep: {flat / 1e6:.1f} ms, ratio {deep / flat:.1f}")
