#!/usr/bin/env python3
"""A thousand requests that come one byte a read, beside the same in pieces of 100 bytes.

    bench/pieces.py [--short]

The program of crates/cv_session_tests serves sessions of 1,000 requests from a source in memory, each as one row of its table. A
run has ten such rows, and the best of five runs stands. It fails where one byte a read takes more than three times as long, or
where the replies differ. The short form has one row and one run, and prints no time. Where the program isn't built, there is
nothing to run.
"""
import os
import subprocess
import sys
import time

sys.dont_write_bytecode = True
TOP = os.path.dirname(os.path.dirname(os.path.abspath(__file__)))
sys.path.insert(0, os.path.join(TOP, "tools"))
from cvkit_client import Wrong, expect
from vectors import in_line

PROGRAM = os.path.join(TOP, "crates", "cv_session_tests", "out", "cv_session_tests")
REQUEST = b"GET /api/v1/repos HTTP/1.1\r\nHost: sw.example.org\r\nUser-Agent: bench\r\nAccept: */*\r\n\r\n"
COUNT = 1000
# How often one byte a read may take the time of pieces of 100.
MOST = 3


def run(piece, rows):
    """The seconds in which the program serves these sessions by pieces of so many bytes, and what it prints."""
    row = f"grants|{piece}|0|0|<{COUNT}*{in_line(REQUEST)}>\n"
    begin = time.perf_counter()
    done = subprocess.run([PROGRAM], input=row * rows, stdout=subprocess.PIPE, text=True, check=True, timeout=300)
    return time.perf_counter() - begin, done.stdout


def compare(rows, times):
    """The seconds by one byte a read and by pieces of 100, where all is answered alike."""
    single, hundreds = ([run(piece, rows) for _ in range(times)] for piece in (1, 100))
    printed = single[0][1]
    replies = printed.splitlines()[0].count("HTTP/1.1 200 OK")
    expect(replies == COUNT and printed.count("|Closed|") == rows, "the replies to each request", f"{replies} replies")
    expect(all(text == printed for _, text in single + hundreds), "the same replies by all pieces", "others")
    return min(seconds for seconds, _ in single), min(seconds for seconds, _ in hundreds)


def main(words):
    if any(word != "--short" for word in words):
        sys.exit("usage: pieces.py [--short]")
    if not os.access(PROGRAM, os.X_OK):
        print("skipped: bench/pieces.py: the program of crates/cv_session_tests isn't built")
        return
    short = "--short" in words
    rows, times = (1, 1) if short else (10, 5)
    single, hundreds = compare(rows, times)
    if short:
        print(f"{COUNT} requests were answered alike by one byte a read and by pieces of 100")
        return
    ratio = single / hundreds
    print(f"{rows} sessions of {COUNT} requests: {single:.3f} s by one byte a read, {hundreds:.3f} s by 100, {ratio:.2f} times")
    expect(ratio <= MOST, f"at most {MOST} times as long", f"{ratio:.2f}")


if __name__ == "__main__":
    try:
        main(sys.argv[1:])
    except (Wrong, OSError, subprocess.SubprocessError) as wrong:
        sys.exit(f"pieces.py: FAILED: {wrong}")
