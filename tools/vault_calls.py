"""The program of `crates/cv_calls`, which makes calls of the vault by words, for `tools/hostile_folder` and `bench/vault.py`.

Its source says which words there are. `path()` is where `rt ci` left it built, or where `VAULT_CALLS` says that it stands.
"""
import os
import sys

TOP = os.path.dirname(os.path.dirname(os.path.abspath(__file__)))
BUILT = os.path.join(TOP, "crates", "cv_calls", "out", "cv_calls")


def path():
    """The path of the program."""
    program = os.path.abspath(os.environ.get("VAULT_CALLS", BUILT))
    if not os.access(program, os.X_OK):
        sys.exit(f"{program} is no program: `rt run` in crates/cv_calls proves and builds it")
    return program
