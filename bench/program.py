"""What the measurements share that need a program of their own: it is added to a copy of the crates, and built there.

In the full form `rt run` proves and builds it: the libraries below it are taken from a clone on this machine in which they
are proved, or else proved first. In the short form `rt try` runs it with no proof, slowly, and only its answers count.
"""
import contextlib
import os
import shutil
import subprocess
import sys
import tempfile

# The end of a program's source: it reads its whole input.
READ_ALL = """
/// The bytes of a piece.
const PIECE: usize = 65_536;

/// All bytes of a source, of at most 256 MiB.
fn read_all<S: Source<Beside = cv_ports::MemorySink> + Drop>(alloc: Global, source: &mut S) -> Option<Vec<u8>> {
    let beside = cv_ports::MemorySink::new(alloc, 0, Vec::new(alloc)).ok()?;
    let mut buffer = vec![in alloc; 0u8; PIECE].ok()?;
    let mut bytes = Vec::new(alloc);
    for _ in 0..4096u64 {
        let count = source.read(buffer.as_mut_slice(), &beside).ok()?;
        if count == 0 {
            break;
        }
        bytes.extend_from_slice(&buffer[..count]).ok()?;
    }
    Some(bytes)
}
"""

TOP = os.path.dirname(os.path.dirname(os.path.abspath(__file__)))


def words():
    """The words of the command line: whether the form is short, and the folder to work in, if one is named."""
    given = [word for word in sys.argv[1:] if word != "--short"]
    if len(given) > 1 or any(word.startswith("-") for word in given):
        sys.exit(f"usage: {os.path.basename(sys.argv[0])} [--short] [FOLDER]")
    if not shutil.which("rt"):
        sys.exit("there is no rt on this machine: it is the command of the Rattle kit")
    return "--short" in sys.argv[1:], given[0] if given else None


# What a crate's folder is made of. What stands there besides was made of it, or left by its tests.
PARTS = ("src", "specs", "proofs", "data", "stdin", "stdout", "args", "status")


def copy_crates(folder):
    """The crates without what was made of them."""
    top = os.path.join(TOP, "crates")

    def ignored(where, names):
        return [name for name in names if os.path.dirname(where) == top and name not in PARTS]

    shutil.copytree(top, os.path.join(folder, "crates"), ignore=ignored)
    for name in ("crates.txt", "HANDLES"):
        shutil.copy(os.path.join(TOP, name), folder)


def add_program(folder, name, libraries, source):
    """Adds a program over these libraries, and gives the folder of its crate."""
    crate = os.path.join(folder, "crates", name)
    os.makedirs(os.path.join(crate, "src"), exist_ok=True)
    with open(os.path.join(crate, "src", "main.rt"), "w") as file:
        file.write(source)
    with open(os.path.join(folder, "crates.txt"), "r+") as file:
        if f"\n{name}:" not in file.read():
            file.write(f"\n{name}: {libraries}\n")
    return crate


class Program:
    """A program in the folder of its crate; `path` is where it stands once it is built."""

    def __init__(self, crate, short):
        self.crate, self.short = crate, short
        self.path = os.path.join(crate, "out", os.path.basename(crate))

    def build(self):
        """Proves and builds it, unless the form is short."""
        if self.short:
            return
        how = {"stdin": subprocess.DEVNULL, "stdout": subprocess.PIPE, "stderr": subprocess.STDOUT, "text": True}
        built = subprocess.run(["rt", "run"], cwd=self.crate, **how)
        if not os.path.exists(self.path):
            sys.exit(built.stdout)

    def output(self, given=b"", arguments=(), tracer=()):
        """What it writes on this input and these words, and where a tracer is given, run by it."""
        arguments, tracer = list(arguments), list(tracer)
        if not self.short:
            return subprocess.run(tracer + [self.path] + arguments, input=given, stdout=subprocess.PIPE).stdout
        command = tracer + ["rt", "try", "--steps", "1"] + (["--"] + arguments if arguments else [])
        ran = subprocess.run(command, cwd=self.crate, input=given, stdout=subprocess.PIPE, stderr=subprocess.PIPE)
        if ran.returncode:
            sys.exit(ran.stderr.decode())
        return ran.stdout


@contextlib.contextmanager
def program(name, libraries, source, short, folder=None):
    """A program over these libraries in a copy of the crates: in a new folder, or in one that has such a copy."""
    with tempfile.TemporaryDirectory(prefix="cvkit-bench-") as new:
        if folder is None:
            copy_crates(new)
        made = Program(add_program(folder or new, name, libraries, source), short)
        made.build()
        yield made
