#!/usr/bin/env python3
"""Makes the released program, or says whether it is the one that the gate builds.

    bench/release.py                  runs the gate (`rt ci`) in a fresh clone of the last commit, and makes release/ of the program that it built
    bench/release.py --check          after a gate here: the released program is the one that this gate built, byte for byte
    bench/release.py --check --sums   in a second: release/BUILT speaks of release/elvm, and of the sources that stand here or of others

release/ has `elvm`, the program, and `BUILT`, three lines: the toolchain, the program's sum, and the sum of its sources. All
sums are SHA-256. The sum of the sources is that of the lines "sum  path" of crates.txt and of each .rt file of crates/*/src,
sorted by bytes: `./elvm` makes the same.
"""
import glob
import hashlib
import os
import re
import shutil
import signal
import subprocess
import sys
import tempfile

from program import TOP, sum_of

RELEASE = os.path.join(TOP, "release")
PROGRAM = os.path.join("crates", "elvm", "out", "elvm")
NAMES = ("kit", "program", "sources")


def sources_in(top):
    """The paths of the sources, as bytes, from the top of a repository."""
    found = [b"crates.txt"]
    top = os.fsencode(top)
    for folder in glob.glob(os.path.join(glob.escape(top), b"crates", b"*", b"src")):
        for at, _, names in os.walk(folder, followlinks=True):
            found += [os.path.relpath(os.path.join(at, name), top) for name in names if name.endswith(b".rt")]
    return [path for path in found if os.path.isfile(os.path.join(top, path))]


def sum_of_sources(top):
    lines = [sum_of(os.path.join(os.fsencode(top), path)).encode() + b"  " + path + b"\n" for path in sources_in(top)]
    return hashlib.sha256(b"".join(sorted(lines))).hexdigest()


def kit():
    """The toolchain's line."""
    return subprocess.run(["rt", "version"], capture_output=True, text=True, check=True).stdout.strip()


def read_built():
    """What release/BUILT says, by name; it ends the script where that can't be read."""
    try:
        with open(os.path.join(RELEASE, "BUILT"), encoding="utf-8") as file:
            lines = file.read().split("\n")
    except FileNotFoundError:
        sys.exit("release: FAILED: there is no release/BUILT; bench/release.py makes it")
    pairs = [line.partition(": ")[::2] for line in lines]
    if [name for name, _ in pairs] != [*NAMES, ""] or not all(re.fullmatch("[0-9a-f]{64}", sum) for _, sum in pairs[1:3]):
        sys.exit("release: FAILED: release/BUILT isn't the three lines that bench/release.py writes")
    return dict(pairs[:3])


def check_sums():
    """Compares the release with itself and with the sources that stand here, and gives what BUILT says, or None where it is of other sources."""
    built = read_built()
    try:
        found = sum_of(os.path.join(RELEASE, "elvm"))
    except FileNotFoundError:
        sys.exit("release: FAILED: there is no release/elvm")
    if found != built["program"]:
        sys.exit(f"release: FAILED: release/elvm is damaged: its sum is {found}, and release/BUILT says {built['program']}")
    if sum_of_sources(TOP) != built["sources"]:
        print("release: it is of other sources than those that stand here, so ./elvm proves and builds its program")
        return None
    return built


def check():
    """Compares the release with the program that a gate has just built here."""
    program = os.path.join(TOP, PROGRAM)
    if not os.path.isfile(program):
        sys.exit(f"release: FAILED: the gate has left no program, {PROGRAM}")
    built = check_sums()
    if not built:
        return 0
    found, here = sum_of(program), kit()
    if here != built["kit"]:
        print(f"release: it was built with another toolchain ({built['kit']}, and this is {here}), so it is only tried, by bench/examples.py", flush=True)
        return subprocess.run([os.path.join(TOP, "bench", "examples.py"), "--program", os.path.join(RELEASE, "elvm")]).returncode
    if found != built["program"]:
        sys.exit(f"release: FAILED: the gate built a program with the sum {found}, and release/elvm has {built['program']}")
    print(f"release: release/elvm is the program that this gate built, byte for byte ({found})")
    return 0


def gate(clone):
    """Runs the gate in a clone, and ends the script where it fails."""
    print(f"release: rt ci in {clone}, a fresh clone of the last commit", flush=True)
    streams = {"stdin": subprocess.DEVNULL, "stdout": subprocess.PIPE, "stderr": subprocess.STDOUT}
    last = ""
    with subprocess.Popen(["rt", "ci"], cwd=clone, text=True, errors="replace", **streams) as process:
        try:
            for last in process.stdout:
                print(last, end="", flush=True)
        except BaseException:
            process.terminate()
            raise
    if process.returncode != 0 or not re.fullmatch(r"\d+ passed, 0 failed", last.strip()):
        sys.exit("release: FAILED: the gate failed, so nothing was made")


def put(clone, sources):
    """Puts the program of a clone's gate, and what is said of it, in the place of release/ at once: there is never half of one."""
    aside = os.path.join(TOP, "crates", "elvm", "out")
    os.makedirs(aside, exist_ok=True)
    with tempfile.TemporaryDirectory(prefix="release-", dir=aside) as room:
        new, old = os.path.join(room, "new"), os.path.join(room, "old")
        os.mkdir(new)
        shutil.copyfile(os.path.join(clone, PROGRAM), os.path.join(new, "elvm"))
        os.chmod(os.path.join(new, "elvm"), 0o755)
        with open(os.path.join(new, "BUILT"), "w", encoding="utf-8") as file:
            file.write(f"kit: {kit()}\nprogram: {sum_of(os.path.join(new, 'elvm'))}\nsources: {sources}\n")
        os.chmod(new, 0o755)
        if os.path.lexists(RELEASE):
            os.rename(RELEASE, old)
        try:
            os.rename(new, RELEASE)
        finally:
            if not os.path.lexists(RELEASE) and os.path.lexists(old):
                os.rename(old, RELEASE)


def make():
    sources = sum_of_sources(TOP)
    with tempfile.TemporaryDirectory(prefix="elvm-release-") as room:
        clone = os.path.join(room, "elvm")
        subprocess.run(["git", "clone", "--quiet", "--no-hardlinks", TOP, clone], check=True)
        if sum_of_sources(clone) != sources:
            sys.exit("release: FAILED: the sources that stand here aren't those of the last commit; commit them first")
        gate(clone)
        if sum_of_sources(clone) != sources or sum_of_sources(TOP) != sources:
            sys.exit("release: FAILED: the sources changed while the gate ran, so nothing was made")
        put(clone, sources)
    with open(os.path.join(RELEASE, "BUILT"), encoding="utf-8") as file:
        print(f"release: release/ is made; commit it\n{file.read()}", end="")
    return 0


def main():
    words = sys.argv[1:]
    if words not in ([], ["--check"], ["--check", "--sums"]):
        sys.exit(__doc__)
    if not words:
        # so that what was begun is stopped and removed where the script is
        signal.signal(signal.SIGTERM, lambda *_: sys.exit(143))
        return make()
    if "--sums" not in words:
        return check()
    if check_sums():
        print("release: release/BUILT speaks of release/elvm and of the sources that stand here")
    return 0


if __name__ == "__main__":
    sys.exit(main())
