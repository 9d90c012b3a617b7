#!/usr/bin/env python3
"""Checks the suite itself: the released program and the plain interpreters pass all probes by the suite's own conventions, and each
of the mistakes in suite/mistakes, in a copy of a plain interpreter, is found by a probe of the rule that it breaks.

Usage: suite/check.py [--elvm PROGRAM] [--target T ..] [--jobs N]
"""
import argparse
import glob
import json
import os
import re
import shutil
import subprocess
import sys
import tempfile
import time

from released import released

HERE = os.path.dirname(os.path.abspath(__file__))
PLAIN = os.path.join(HERE, "plain")
TARGETS = ("brainfuck", "whitespace", "subleq", "piet", "wasm")


def give_up(line):
    sys.stderr.write(f"check.py: {line}\n")
    sys.exit(2)


class Words(argparse.ArgumentParser):
    def error(self, message):
        give_up(message)


def run_suite(given, target, command, room, *more):
    """What run.py says of an interpreter: its last line, and the rules at which it fails, each with its probes."""
    report = os.path.join(room, "report.json")
    words = [sys.executable, os.path.join(HERE, "run.py"), os.path.join(HERE, "probes", target), "--command", command, "--strict"]
    run = subprocess.run([*words, "--jobs", str(given.jobs), "--json", report, *more], capture_output=True, text=True)
    if run.returncode not in (0, 1):
        give_up(f"run.py: {run.stderr.strip()}")
    with open(report, encoding="utf-8") as file:
        programs = json.load(file)["programs"]
    failed = {}
    for program in programs:
        if program["verdict"] != "passed":
            failed.setdefault(program["rule"], []).append(program["name"])
    return run.stdout.strip().split("\n")[-1], failed


def patched(lines, hunks, name):
    """The lines of a file after the hunks of a patch, each of which stands where it says."""
    made, at = [], 0
    for first, body in hunks:
        made += lines[at : first - 1]
        at = first - 1
        for line in body:
            if line[0] in " -":
                if at >= len(lines) or lines[at] != line[1:]:
                    give_up(f"{name} doesn't fit line {at + 1}: make it again")
                at += 1
            if line[0] in " +":
                made.append(line[1:])
    return made + lines[at:]


def apply_patch(path, folder):
    """Changes the files of a folder by a patch. What stands before its first file says what is wrong, and which rule is broken."""
    with open(path, encoding="utf-8") as file:
        head, *parts = re.split(r"^--- a/(?=\S+\n)", file.read(), flags=re.M)
    for part in parts:
        name, rest = part.split("\n", 1)
        hunks = []
        for line in rest.splitlines(keepends=True)[1:]:
            begins = re.match(r"@@ -(\d+)", line)
            if begins:
                hunks.append((int(begins[1]), []))
            else:
                hunks[-1][1].append(line)
        with open(os.path.join(folder, name), encoding="utf-8") as file:
            lines = file.read().splitlines(keepends=True)
        with open(os.path.join(folder, name), "w", encoding="utf-8") as file:
            file.writelines(patched(lines, hunks, path))
    says, rule = head.strip().split("\nrule: ")
    return says, rule


def build(folder, target, goal):
    built = subprocess.run(["cc", "-O1", "-o", goal, os.path.join(folder, target + ".c")], capture_output=True, text=True)
    if built.returncode != 0:
        give_up(f"cc can't build {target}.c: {built.stderr.strip()[:300]}")


def command_of(program, target):
    return f"{program} --codel {{codel}} {{program}}" if target == "piet" else f"{program} {{program}}"


def check_right(given, target, what, command, room):
    line, failed = run_suite(given, target, command, room, "--status", "--seconds", "20")
    print(f"{target}: {what}: {line}", flush=True)
    for rule, names in failed.items():
        print(f"    {rule}: {', '.join(names)}")
    return not failed


def check_mistake(given, target, path, room):
    """Whether a probe finds the mistake, and names its rule."""
    folder, program = os.path.join(room, "copy"), os.path.join(room, "copy", "wrong")
    shutil.rmtree(folder, ignore_errors=True)
    shutil.copytree(PLAIN, folder)
    says, rule = apply_patch(path, folder)
    build(folder, target, program)
    failed = run_suite(given, target, command_of(program, target), room, "--only", rule, "--seconds", "2")[1]
    names = failed.get(rule, [])
    told = "found by " + ", ".join(names[:3]) + (" .." if len(names) > 3 else "") if names else "NOT FOUND"
    print(f"{target}: {os.path.basename(path)[: -len('.patch')]}: {told} ({rule}: {says})", flush=True)
    return bool(names)


def main():
    words = Words(description=__doc__.split("\n")[0])
    words.add_argument("--elvm", metavar="PROGRAM")
    words.add_argument("--target", nargs="+", default=list(TARGETS), choices=TARGETS)
    words.add_argument("--jobs", type=int, default=2)
    given = words.parse_args()
    given.elvm = given.elvm or released()
    if shutil.which(given.elvm) is None:
        give_up(f"{given.elvm} isn't there, or can't be run")
    begun, right, found, count = time.monotonic(), True, 0, 0
    with tempfile.TemporaryDirectory() as room:
        for target in given.target:
            elvm = f"{os.path.abspath(given.elvm)} run --target {target}" + (" --codel {codel}" if target == "piet" else "") + " {program}"
            plain = os.path.join(room, target)
            build(PLAIN, target, plain)
            right = check_right(given, target, "elvm", elvm, room) and right
            right = check_right(given, target, "suite/plain", command_of(plain, target), room) and right
            for path in sorted(glob.glob(os.path.join(HERE, "mistakes", target, "*.patch"))):
                found, count = found + check_mistake(given, target, path, room), count + 1
    print(f"{found} of {count} mistakes are found, in {time.monotonic() - begun:.0f} s" + ("" if right else "; what should pass doesn't"))
    return 0 if right and found == count else 1


if __name__ == "__main__":
    try:
        sys.exit(main())
    except KeyboardInterrupt:
        sys.exit(130)
