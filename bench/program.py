"""Which program the scripts here run: the one that `--program PATH` names, else the one that `./elvm` would run, which may be
proved and built first. Its path and its sum are printed first."""
import functools
import hashlib
import os
import subprocess
import sys
import time

TOP = os.path.dirname(os.path.dirname(os.path.abspath(__file__)))
ELVM = os.path.join(TOP, "elvm")


def sum_of(path):
    """The SHA-256 of a file's contents."""
    with open(path, "rb") as file:
        return hashlib.sha256(file.read()).hexdigest()


def named():
    """The path after `--program` on the command line, of which both words are taken; None where there is none."""
    if "--program" not in sys.argv:
        return None
    at = sys.argv.index("--program")
    if at + 1 == len(sys.argv):
        sys.exit("--program wants the path of a program")
    path = os.path.abspath(sys.argv[at + 1])
    del sys.argv[at : at + 2]
    return path


def told():
    """The path of the program that `./elvm` would run."""
    made = subprocess.run([ELVM], stdout=subprocess.PIPE, env={**os.environ, "ELVM_TELL": "1"})
    if made.returncode != 0:
        sys.exit("./elvm has no program to run")
    return os.fsdecode(made.stdout[:-1])


@functools.cache
def program():
    """The path of the program to run."""
    path = named() or told()
    if not os.access(path, os.X_OK):
        sys.exit(f"{path} is no program")
    print(f"program {path}, sum {sum_of(path)}", flush=True)
    return path


def run(words, given=b"", timeout=None):
    """Status, output and seconds of one call."""
    begun = time.monotonic()
    made = subprocess.run([program(), *words], input=given, capture_output=True, timeout=timeout)
    return made.returncode, made.stdout, time.monotonic() - begun
