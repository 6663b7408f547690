"""How a row of cv_run_tests is written that is one run: `crates/cv_run_tests/src/runs.rt` says how one is read."""
from cvkit_client import REPOSITORY
from vectors import in_line

INIT, STDIO = ["init", REPOSITORY], ["stdio", REPOSITORY]


def given(word, data):
    """A part of a row that is a word and these bytes."""
    return f"{word} {in_line(data)}"


def file(path, data):
    """The part that puts a file there."""
    return f"file {path}={in_line(data)}"


def run(words, *parts, code=0, line="", output=b"", requests=b"", objects=2):
    """A run of these words, and what it prints: the status' code and line, the output, what links took, and how many objects are
    there then. A new repository has two."""
    said = f"cvkit: {line}\n".encode() if line else b""
    return "|".join(["cvkit " + ",".join(words), *parts]), "|".join([str(code), *map(in_line, (said, output, requests)), str(objects)])


def octets_of(text):
    return text.encode() if isinstance(text, str) else text


def session(exchanges, *parts, **end):
    """A session of these requests, of which each has its reply."""
    asked, said = (b"".join(map(octets_of, texts)) for texts in zip(*exchanges))
    return run(STDIO, *parts, given("in", asked), output=said, **end)


def remark(text):
    """A line that prints itself."""
    return f"# {text}", f"# {text}"
