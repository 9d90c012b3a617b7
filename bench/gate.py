#!/usr/bin/env python3
"""Runs the gate, `rt ci`, and prints what each crate took: its lines, and the processor seconds of its
proof, of its tests and of its must-fail edits.

It looks at the system's processes twice a second, so that what is shorter isn't seen, and fails where the gate does. What
the gate prints goes to a file, whose name is printed first.
"""
import os
import re
import subprocess
import sys
import tempfile
import time

TOP = os.path.dirname(os.path.dirname(os.path.abspath(__file__)))
TICKS = os.sysconf("SC_CLK_TCK")
KINDS = ("proof", "tests", "edits")


def words_of(process):
    with open(f"/proc/{process}/cmdline", "rb") as file:
        return file.read().decode(errors="replace").split("\0")


def parent_and_seconds(process):
    """The parent of a process, and the processor seconds that it has taken."""
    with open(f"/proc/{process}/stat", encoding="utf-8") as file:
        fields = file.read().rsplit(")", 1)[1].split()
    return int(fields[1]), (int(fields[11]) + int(fields[12])) / TICKS


def kind_of(words):
    """What a process of the prover is for, from its words."""
    if "--test" in words:
        return "tests"
    return "edits" if words[1] == "check" and "-o" not in words else "proof"


def below(process, parents):
    """The process is the gate's, or one that it began."""
    while process > 1 and process != os.getpid():
        process = parents.get(process, 0)
    return process == os.getpid()


def look(seen):
    """Notes what each of the gate's provers has taken so far."""
    found, parents = {}, {}
    for name in filter(str.isdigit, os.listdir("/proc")):
        process = int(name)
        try:
            parents[process], seconds = parent_and_seconds(process)
            words = words_of(process)
        except OSError:
            continue
        if words[0].endswith("rattle") and "--crate-name" in words:
            crate = words[words.index("--crate-name") + 1]
            found[process] = (crate, kind_of(words), seconds)
    for process, (crate, kind, seconds) in found.items():
        if below(process, parents):
            seen[(process, crate, kind)] = seconds


def lines_of(crate):
    count = 0
    for folder, _, names in os.walk(os.path.join(TOP, "crates", crate)):
        for name in names:
            if name.endswith((".rt", ".antt")) and "/out" not in folder:
                with open(os.path.join(folder, name), "rb") as file:
                    count += file.read().count(b"\n")
    return count


def edits_of(crate):
    folder = os.path.join(TOP, "crates", crate, "must-fail")
    return len(os.listdir(folder)) if os.path.isdir(folder) else 0


def crates():
    with open(os.path.join(TOP, "crates.txt"), encoding="utf-8") as file:
        return re.findall(r"^(\w+):", file.read(), re.M)


def table(seen):
    print(f"{'crate':14} {'lines':>6} {'edits':>5} " + " ".join(f"{kind:>8}" for kind in KINDS))
    total = [0.0] * len(KINDS)
    for crate in crates():
        taken = [sum(s for (_, c, k), s in seen.items() if c == crate and k == kind) for kind in KINDS]
        total = [a + b for a, b in zip(total, taken)]
        print(f"{crate:14} {lines_of(crate):6} {edits_of(crate):5} " + " ".join(f"{seconds:8.0f}" for seconds in taken))
    print(f"{'all':14} {sum(map(lines_of, crates())):6} {sum(map(edits_of, crates())):5} " + " ".join(f"{seconds:8.0f}" for seconds in total))


def main():
    log = tempfile.NamedTemporaryFile(prefix="gate-", suffix=".log", delete=False)
    print(log.name, flush=True)
    began, seen = time.time(), {}
    gate = subprocess.Popen(["rt", "ci"], cwd=TOP, stdout=log, stderr=subprocess.STDOUT)
    while gate.poll() is None:
        look(seen)
        time.sleep(0.5)
    table(seen)
    with open(log.name, encoding="utf-8", errors="replace") as file:
        print(f"{(time.time() - began) / 60:.0f} minutes; {file.read().splitlines()[-1]}")
    return gate.returncode


if __name__ == "__main__":
    sys.exit(main())
