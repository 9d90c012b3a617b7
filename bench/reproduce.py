#!/usr/bin/env python3
"""Builds the program anew in clones, and says whether the bytes are those of the program that `--program` names, or that `./elvm`
would run: in a folder with another name, after a changed definition; in one with a long path, after a changed proof; with one
processor, after both.

    bench/reproduce.py [--program PATH] [FOLDER]

The clones, of the last commit, are made in FOLDER (in a temporary one, where there is none), one after another. A gate must
have passed on this machine, since `rt ci` proves there only the two crates at the top, whose kept proofs the changes make
useless: that takes some minutes a clone, the one with one processor longer. Wrong bodies aren't tried.
"""
import glob
import os
import shutil
import subprocess
import sys
import tempfile
import time

from program import TOP, program, sum_of

CRATE = os.path.join("crates", "elvm_cli")
# folder, parts of the crate in which a comment is added, words before the command
BUILDS = (
    ("a", ("specs",), ()),
    ("/".join(["a-folder-with-a-long-name"] * 8), ("proofs",), ()),
    ("one-processor", ("specs", "proofs"), ("taskset", "-c", "0")),
)


def build(room, folder, parts, before):
    """The path of the program that is built in a clone with such changes."""
    top = os.path.join(room, folder)
    os.makedirs(os.path.dirname(top), exist_ok=True)
    subprocess.run(["git", "clone", "--quiet", "--no-hardlinks", TOP, top], check=True)
    for edits in glob.glob(os.path.join(top, "crates", "*", "must-fail")):
        shutil.rmtree(edits)
    for part in parts:
        with open(sorted(glob.glob(os.path.join(top, CRATE, part, "*.antt")))[-1], "a", encoding="utf-8") as file:
            file.write(f"\n-- built at {time.time_ns()}\n")
    made = subprocess.run([*before, "rt", "ci"], cwd=top, stdin=subprocess.DEVNULL, capture_output=True, text=True, errors="replace")
    if made.returncode != 0:
        sys.exit(f"{made.stdout[-3000:]}{made.stderr}\nrt ci failed in {top}")
    for name in ("elvm_cli", "elvm"):
        if f"rt: {name} proved" not in made.stdout:
            sys.exit(f"rt ci didn't prove {name} anew in {top}, so this shows nothing")
    return os.path.join(top, "crates", "elvm", "out", "elvm")


def main():
    wanted = sum_of(program())
    room = os.path.abspath(sys.argv[1]) if len(sys.argv) > 1 else tempfile.mkdtemp(prefix="elvm-reproduce-")
    print(f"clones in {room}", flush=True)
    same = []
    for folder, parts, before in BUILDS:
        begun = time.monotonic()
        path = build(room, folder, parts, before)
        found = sum_of(path)
        same.append(found == wanted)
        print(f"{' '.join(before)} {folder}, a comment in {' and '.join(parts)}: {os.path.getsize(path):,} bytes, sum {found}, "
              f"{'the same' if same[-1] else 'ANOTHER'}, {(time.monotonic() - begun) / 60:.0f} min", flush=True)
    print(f"{sum(same)} of {len(same)} builds are the same")
    return 0 if all(same) else 1


if __name__ == "__main__":
    sys.exit(main())
