#!/usr/bin/env python3
"""Expected values for the tests of manifests, worked out from the format and not by the reader.

The tests have the manifest of an empty repository (its catalogue is the one row of the root, its history the record of
revision 1), and tables of faulty texts with the fault that each shows. Seals are by the `hmac` of Python under the secret
`seal`.
"""
import hashlib
import hmac
import struct

from row_vectors import file, row
from vectors import constant, numbers, settle, table

SECRET = b"seal"
NAME = b"sw.example.org"
TIME = 1700000000
LETTERS = b"CBRDSNHT"
ROOT_KEY = hashlib.md5(b"").hexdigest().encode()


def sha1(data):
    return hashlib.sha1(data).hexdigest().encode()


def sealed(lines, secret=SECRET):
    """The lines, their end, the digits of their digest, and the seal of these."""
    digits = sha1(lines)
    return lines + b"--\n" + digits + b"\n" + hmac.new(secret, digits, "sha1").digest()


catalogue = file([row("", "dir")])
root = hashlib.sha1(catalogue).digest()
record = (
    b"CVH1"
    + struct.pack(">Q", 1)
    + bytes(20)
    + root
    + root
    + struct.pack(">QQ", 0, 0)
    + bytes(2 + 2)
    + struct.pack(">Q", TIME)
    + bytes(2)
)
history = hashlib.sha1(record).digest()
FIELDS = {
    b"C": sha1(catalogue),
    b"B": b"81",
    b"R": ROOT_KEY,
    b"D": b"240",
    b"S": b"1",
    b"N": NAME,
    b"H": sha1(record),
    b"T": b"%d" % TIME,
}


def lines(**changed):
    """The eight lines, with other values for some letters; None leaves the line out."""
    fields = dict(FIELDS)
    for letter, value in changed.items():
        fields[letter.encode()] = value
    return b"".join(l + v + b"\n" for l, v in fields.items() if v is not None)


def literal(data):
    text = ""
    for byte in data:
        if byte == 10:
            text += "\\n"
        elif byte == 13:
            text += "\\r"
        elif 32 <= byte < 127 and byte not in b'"\\':
            text += chr(byte)
        else:
            text += "\\x%02x" % byte
    return 'b"%s"' % text


WHOLE = sealed(lines())
assert (len(catalogue), len(record), len(WHOLE)) == (81, 102, 222)
IN_ANY_ORDER = sealed(b"Xpassed over\n" + b"".join(reversed(lines().splitlines(True))) + b"- \n")

C, H = FIELDS[b"C"], FIELDS[b"H"]
# the line of a number in place of that of the manifest (9 is behind them), and the fault under the seal
CHANGES = [
    (1, b"", "Missing(b'C')"),
    (5, b"", "Missing(b'S')"),
    (8, b"\n", "BadLine(8)"),
    (9, b"\n", "BadLine(9)"),
    (9, b"C\n", "BadLine(9)"),
    (9, b"C" + C + b"\n", "Repeated(b'C')"),
    (9, b"T1\n\n", "Repeated(b'T')"),
    (1, b"C" + C.upper() + b"\n", "BadLine(1)"),
    (1, b"C" + C[:-1] + b"\n", "BadLine(1)"),
    (1, b"C" + C + b"\r\n", "BadLine(1)"),
    (2, b"B081\n", "BadLine(2)"),
    (2, b"B+81\n", "BadLine(2)"),
    (2, b"B\n", "BadLine(2)"),
    (2, b"B%d\n" % 2**64, "BadLine(2)"),
    (3, b"R" + ROOT_KEY[:-1] + b"f\n", "BadLine(3)"),
    (4, b"D-1\n", "BadLine(4)"),
    (5, b"S0\n", "BadLine(5)"),
    (5, b"S%d\n" % 2**64, "BadLine(5)"),
    (6, b"N\n", "BadLine(6)"),
    (6, b"Na b\n", "BadLine(6)"),
    (6, b"N\xff\n", "BadLine(6)"),
    (7, b"H" + H + b"H\n", "BadLine(7)"),
    (8, b"T%d\n" % 2**62, "BadLine(8)"),
]
# whole texts under a seal of 20 zero bytes
NOTHING = sha1(b"")
ZEROS = bytes(20)
TEXTS = [
    (b"", "NoEnd"),
    (b"--", "NoEnd"),
    (b"--\n", "NoEnd"),
    (b"--\r\n" + NOTHING + b"\n" + ZEROS, "NoEnd"),
    (b" --\n" + NOTHING + b"\n" + ZEROS, "NoEnd"),
    (b"--\n" + NOTHING, "NoEnd"),
    (b"--\n" + NOTHING.upper() + b"\n" + ZEROS, "NoEnd"),
    (b"--\n" + NOTHING[1:] + b"\n" + ZEROS, "NoEnd"),
    (b"--\n--\n" + NOTHING + b"\n" + ZEROS, "NoEnd"),
    (b"--\n" + NOTHING + b"\n", "BadSeal"),
    (b"--\n" + NOTHING + b"\n" + ZEROS, "BadSeal"),
]


def digest(name, data):
    return constant(name, "[u8; 20]", numbers(data, "0x%02x"))


settle(
    "crates/cv_manifest_tests/src/tests.rt",
    [
        digest("ROOT", root),
        digest("HISTORY", history),
        constant("WHOLE", "&[u8]", literal(WHOLE)),
        constant("SEAL_AT", "usize", str(len(WHOLE) - 20)),
        constant("IN_ANY_ORDER", "&[u8]", literal(IN_ANY_ORDER)),
        table("LINES", "&[u8]", [literal(line) for line in lines().splitlines(True) + [b""]]),
        table(
            "CHANGES",
            "(usize, &[u8], ManifestFault)",
            [f"({number}, {literal(text)}, ManifestFault::{fault})" for number, text, fault in CHANGES],
        ),
        table("TEXTS", "(&[u8], ManifestFault)", [f"({literal(text)}, ManifestFault::{fault})" for text, fault in TEXTS]),
        digest("OF_NOTHING", hashlib.sha1(b"").digest()),
        digest("OF_NEWLINE", hashlib.sha1(b"\n").digest()),
    ],
)
