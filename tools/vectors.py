"""What the scripts `tools/*_vectors.py` share: each makes expected values of a crate's tests, apart from the program.

    tools/NAME_vectors.py            prints the items of Rust that the tests have
    tools/NAME_vectors.py --check    looks for each of them in the tests, up to layout, and fails where one isn't there

A script ends in `settle(file, items)`: the tests' file and the texts of the items, which may be whole constants, or
expressions. Comments, spaces, line ends and a comma before a closing bracket don't count; all else does.

One whose tests are a program, with a table in the crate's `stdin` and what it has to print in `stdout`, ends in
`settle_lines(crate, rows)`, a row being a line of the one and what it adds to the other: a line, lines, or None. Without words it
writes both files, and with `--check` it compares them, byte by byte.
"""
import os
import re
import sys

TOP = os.path.dirname(os.path.dirname(os.path.abspath(__file__)))
TOKEN = re.compile(
    r'b?r(?P<raw>#*)".*?"(?P=raw)'  # a raw string
    r'|b?"(?:\\.|[^"\\])*"'  # a string
    r"|b?'(?:\\[^u]|\\u\{\w+\}|[^'\\])'"  # a character
    r"|//[^\n]*"  # a comment
    r"|\w+|\S",
    re.S,
)


def tokens(text):
    """The tokens of a text of Rust, each behind a zero byte."""
    found = [match[0] for match in TOKEN.finditer(text) if not match[0].startswith("//")]
    kept = [one for one, after in zip(found, found[1:] + [""]) if not (one == "," and after in (")", "]", "}"))]
    return "".join("\0" + one for one in kept) + "\0"


def is_check(name):
    """Whether the word --check was given."""
    if sys.argv[1:] not in ([], ["--check"]):
        sys.exit(f"usage: {name} [--check]")
    return sys.argv[1:] == ["--check"]


def settle(file, items):
    """Prints the items, or looks for them in the tests of this file."""
    name = os.path.basename(sys.argv[0])
    if not is_check(name):
        print("\n\n".join(items))
        return
    with open(os.path.join(TOP, file), encoding="utf-8") as tests:
        there = tokens(tests.read())
    lacking = [item for item in items if tokens(item) not in there]
    for item in lacking:
        print(f"{name}: {file} has nothing like this:\n{item}", file=sys.stderr)
    if lacking:
        sys.exit(1)
    print(f"{name}: checked {len(items)} of {file}")


def settle_lines(crate, rows):
    """Writes the lines that a program of tests is given and those that it has to print, or compares them with its files."""
    name = os.path.basename(sys.argv[0])
    checks = is_check(name)
    texts = ("".join(line + "\n" for line in lines if line is not None) for lines in zip(*rows))
    files = {f"crates/{crate}/{file}": made for file, made in zip(("stdin", "stdout"), texts)}
    for file, made in files.items():
        with open(os.path.join(TOP, file), "r" if checks else "w", encoding="utf-8") as there:
            if not checks:
                there.write(made)
            elif there.read() != made:
                sys.exit(f"{name}: {file} is other than this makes it")
    if checks:
        print(f"{name}: checked {len(files)} files: {', '.join(files)}")


def in_line(data):
    """Bytes as a part of a line, as `crates/cv_lines/src/line.rt` says."""
    marks = {10: "\\n", 13: "\\r"}
    return "".join(marks.get(byte) or (chr(byte) if 32 <= byte < 127 and byte not in b"\\|<" else f"\\{byte:02x}") for byte in data)


def from_line(text):
    """The bytes that a part of a line says."""
    whole = re.sub(r"<(\d+)\*([^>]*)>", lambda found: found[2] * int(found[1]), text).encode()
    marks = {b"n": b"\n", b"r": b"\r"}
    return re.sub(rb"\\(n|r|[0-9a-f]{2})", lambda found: marks.get(found[1]) or bytes([int(found[1], 16)]), whole)


def constant(name, of_type, value, keyword="const"):
    return f"{keyword} {name}: {of_type} = {value};"


def table(name, of_rows, rows, keyword="const"):
    """A constant that is an array of these rows."""
    return constant(name, f"[{of_rows}; {len(rows)}]", array(rows), keyword)


def array(rows):
    return "[\n" + "".join(f"    {row},\n" for row in rows) + "]"


def numbers(data, form="%d"):
    """The bytes as an array of numbers."""
    return "[" + ", ".join(form % byte for byte in data) + "]"


def text(value):
    """A literal of a text, with the escapes of Rust."""
    for old, new in ("\\", "\\\\"), ('"', '\\"'), ("\r", "\\r"), ("\n", "\\n"):
        value = value.replace(old, new)
    return f'"{value}"'


def raw_text(value):
    """A literal of a text, raw where it has quotation marks."""
    return f'r#"{value}"#' if '"' in value else f'"{value}"'
