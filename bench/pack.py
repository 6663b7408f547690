#!/usr/bin/env python3
"""The rate of reading an object pack in pieces, beside sha1sum, and the memory that it takes.

    bench/pack.py [--short] [FOLDER]

The program reads a pack from standard input in pieces of 64 KiB. It gets a pack of 32 MiB in 100 objects. Printed are both
rates, the best of five runs each, their ratio, and the peak memory of the program over that of one that reads the empty
pack. The short form reads a pack of 4 KiB in 4 objects and prints no time. FOLDER is a copy of the repository in which to
build.
"""
import hashlib
import os
import subprocess
import sys
import tempfile
import time

from program import program, words

PROGRAM = """\
//! Reads a pack from standard input in pieces of 64 KiB, and prints how many objects it has.
#![tactic(auto)]

use cv_pack::PackReader;
use cv_ports::Source;
use cv_real::StreamSource;
use std::alloc::Global;

/// The bytes of a piece.
const PIECE: usize = 65_536;

/// The most pieces: 256 MiB.
const PIECES: usize = 4096;

/// How many objects the pack has that comes from the source.
fn count_objects<S: Source<Beside = cv_ports::MemorySink> + Drop>(alloc: Global, source: &mut S) -> Option<usize> {
    let beside = cv_ports::MemorySink::new(alloc, 0, Vec::new(alloc)).ok()?;
    let mut buffer = vec![in alloc; 0u8; PIECE].ok()?;
    let mut reader = PackReader::new(alloc);
    for _ in 0..PIECES {
        let count = source.read(buffer.as_mut_slice(), &beside).ok()?;
        if count == 0 {
            break;
        }
        reader.feed(&buffer[..count]).ok()?;
    }
    let pack = reader.finish().ok()?;
    Some(pack.objects.as_slice().len())
}

fn main(rt: HostRuntime) {
    let mut source = StreamSource::new(rt.stdin());
    let count = count_objects(rt.alloc(), &mut source).unwrap_or(0);
    let _ = println!(rt; "{count}");
}
"""

LIBRARIES = "cv_base cv_ports cv_vault cv_folder cv_real cv_pack"


def pack(contents):
    lines = [f"C {hashlib.sha1(content).hexdigest()} {len(content)}\n" for content in contents]
    total = sum(map(len, contents))
    return f"V2\nS{total}\nN{len(contents)}\n--\n".encode() + "".join(lines).encode() + b"".join(contents)


# A process of its own, since a child's peak begins with what its parent has.
MEASURE = """\
import os, subprocess, sys
child = subprocess.Popen(sys.argv[1], stdin=open(sys.argv[2], "rb"), stdout=subprocess.DEVNULL)
print(os.wait4(child.pid, 0)[2].ru_maxrss)
"""


def run_on(program, path):
    begin = time.perf_counter()
    with open(path, "rb") as file:
        output = subprocess.run(program, stdin=file, stdout=subprocess.PIPE).stdout
    return time.perf_counter() - begin, output


def peak_on(program, path):
    return int(subprocess.run([sys.executable, "-c", MEASURE, program, path], stdout=subprocess.PIPE).stdout) / 1024


def contents(total, count):
    sizes = [total // count] * count
    sizes[-1] += total - sum(sizes)
    return [os.urandom(size) for size in sizes]


def measure(made, folder):
    mib = 32
    whole, empty = (os.path.join(folder, name) for name in ("pack", "empty"))
    with open(whole, "wb") as file:
        file.write(pack(contents(mib << 20, 100)))
    with open(empty, "wb") as file:
        file.write(pack([]))
    runs = [run_on([made.path], whole) for _ in range(5)]
    assert all(output == b"100\n" for _, output in runs), runs[0][1]
    beside = [run_on(["sha1sum"], whole)[0] for _ in range(5)]
    read, summed = min(run[0] for run in runs), min(beside)
    print(f"pack reader {mib / read:.0f} MiB/s, sha1sum {mib / summed:.0f} MiB/s, ratio {summed / read:.2f}")
    peaks = peak_on(made.path, whole), peak_on(made.path, empty)
    print(f"peak memory {peaks[0]:.1f} MiB, {peaks[1]:.1f} MiB for a pack of nothing; contents {mib:.0f} MiB")


SHORT, FOLDER = words()
with program("pack_bench", LIBRARIES, PROGRAM, SHORT, FOLDER) as made, tempfile.TemporaryDirectory() as folder:
    if SHORT:
        output = made.output(pack(contents(4096, 4)))
        if output != b"4\n":
            sys.exit(f"pack.py: FAILED: a pack of 4 objects was read as {output}")
        print("a pack of 4 objects was read")
    else:
        measure(made, folder)
