"""Which program of the repository the scripts here run, where none is named: the one that `./elvm` would run."""
import os
import subprocess
import sys

TOP = os.path.dirname(os.path.dirname(os.path.abspath(__file__)))


def released():
    """Its path. Where the sources are not those of the release, `./elvm` proves and builds it first."""
    made = subprocess.run([os.path.join(TOP, "elvm")], stdout=subprocess.PIPE, env={**os.environ, "ELVM_TELL": "1"})
    if made.returncode != 0:
        sys.exit("./elvm has no program to run")
    return os.fsdecode(made.stdout[:-1])
