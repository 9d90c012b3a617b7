#!/usr/bin/env python3
"""Makes a suite in a folder: the probes, what elvm emits for the examples, and random programs, for each target.

Usage: suite/make.py FOLDER [--target T ..] [--random N] [--seed S] [--most-steps N] [--elvm PROGRAM]

It needs the program elvm (the one that ./elvm would run, if none is named) and a C compiler `cc`, which builds the interpreters of
suite/plain: they tell what each program needs. A folder that isn't there is made, one that is a suite is made again, and any other
one that holds something is left alone.
"""
import argparse
import json
import os
import re
import shutil
import subprocess
import sys
import tempfile

import generate
import leans
import pixels
from released import released

HERE = os.path.dirname(os.path.abspath(__file__))
sys.path.append(os.path.join(HERE, "host"))
import hosts

TOP = os.path.dirname(HERE)
TARGETS = ("brainfuck", "whitespace", "subleq", "piet", "wasm")
MARK = "suite.json"
LARGER = 3  # pixels along a side of a codel, in the larger images
MOST_CODELS = 40000  # of an image that comes in larger codels, too
STILL_GOING = 3  # the plain interpreters' status at their limit of steps
EMITTED = "A program that elvm emits for a source: it writes what the source writes, by proof."


def give_up(line):
    sys.stderr.write(f"make.py: {line}\n")
    sys.exit(2)


class Words(argparse.ArgumentParser):
    def error(self, message):
        give_up(message)


def read_words():
    words = Words(description=__doc__.split("\n")[0])
    words.add_argument("folder")
    words.add_argument("--target", nargs="+", default=list(TARGETS), metavar="T")
    words.add_argument("--random", type=int, default=20, metavar="N", help="how many random programs")
    words.add_argument("--seed", type=int, default=1, metavar="S")
    words.add_argument("--most-steps", type=int, default=300000000, metavar="N", help="after so many steps a program isn't measured further")
    words.add_argument("--elvm", metavar="PROGRAM")
    given = words.parse_args()
    given.elvm = given.elvm or released()
    for target in given.target:
        if target not in TARGETS:
            give_up(f"{target} is no target: {', '.join(TARGETS)} are")
    if given.random < 0:
        give_up("--random wants a number from 0 on")
    for program, what in ((given.elvm, "elvm"), ("cc", "a C compiler")):
        if shutil.which(program) is None:
            give_up(f"{program} isn't there, or can't be run ({what})")
    return given


def check_folder(folder):
    if not os.path.exists(folder):
        return
    if not os.path.isdir(folder) or (os.listdir(folder) and not os.path.isfile(os.path.join(folder, MARK))):
        give_up(f"{folder} is left alone: it isn't empty, and no suite")


def write(path, content):
    with open(path, "wb") as file:
        file.write(content)


def read(path):
    with open(path, "rb") as file:
        return file.read()


# The sources.

def run_elvm(given, words, stdin=b""):
    run = subprocess.run([given.elvm, *words], input=stdin, capture_output=True)
    if run.returncode not in (0, 4):
        give_up(f"elvm {' '.join(words)} answers {run.returncode}: {run.stderr.decode('utf-8', 'replace').strip()}")
    return run


class Source:
    """A program whose output is known: its name, its file, its input, what it is for, and its output by the source's own rules."""

    def __init__(self, given, name, path, stdin, kind, tests):
        self.name, self.path, self.input, self.kind, self.tests = name, path, stdin, kind, tests
        self.is_c = path.endswith(".c")
        run = run_elvm(given, ["c" if self.is_c else "eir", path], stdin or b"")
        self.output, self.ends = run.stdout, "ends" if run.returncode == 0 else "fault"

    def emitted(self, given, target):
        return run_elvm(given, ["build" if self.is_c else "emit", "--target", target, self.path]).stdout


def beside(path, ending):
    other = os.path.splitext(path)[0] + ending
    return read(other) if os.path.exists(other) else None


def examples(given):
    for folder, ending, what in (("examples", ".eir", "EIR"), (os.path.join("examples", "c"), ".c", "C")):
        for name in sorted(os.listdir(os.path.join(TOP, folder))):
            if name.endswith(ending):
                path = os.path.join(TOP, folder, name)
                stem = f"{ending[1:]}-{name[: -len(ending)]}"
                yield Source(given, stem, path, beside(path, ".in"), "example", f"the {what} example {name}, emitted")


def random_programs(given, room):
    for number in range(given.random):
        text, stdin = generate.program(given.seed, number)
        path = os.path.join(room, f"random-{given.seed}-{number}.eir")
        write(path, text.encode())
        yield Source(given, f"random-{given.seed}-{number}", path, stdin, "random", f"random program {number} of seed {given.seed}, emitted")


# What a program needs.

def build_plain(room, targets):
    for target in targets:
        command = ["cc", "-O2", "-o", os.path.join(room, target), os.path.join(HERE, "plain", target + ".c")]
        built = subprocess.run(command, capture_output=True, text=True)
        if built.returncode != 0:
            give_up(f"cc can't build {target}.c: {built.stderr.splitlines()[0] if built.stderr else ''}")


def needs_of(given, room, target, path, entry, stdin):
    """What the plain interpreter says of a program: what it needs and met, whether it was stopped before the end, and what it wrote."""
    command = [os.path.join(room, target), "--needs", "--steps", str(given.most_steps), "--codel", str(entry.get("codel", 1)), path]
    run = subprocess.run(command, input=stdin or b"", capture_output=True)
    told = re.search(rb"^needs (.*)$", run.stderr, re.M)
    needs = {name: int(number) for name, number in (part.split("=") for part in told[1].decode().split())} if told else {}
    if needs and needs.get("heap") == 0:
        del needs["lowest"], needs["highest"]
    met = re.search(r"^met(.*)$", run.stderr.decode("utf-8", "replace"), re.M)
    return needs, set(met[1].split()) if met else set(), run.returncode == STILL_GOING, run.stdout


# The folders.

class Folder:
    """A target's folder that is being made."""

    def __init__(self, given, target, room):
        self.given, self.target, self.room = given, target, room
        self.path = os.path.join(given.folder, target)
        shutil.rmtree(self.path, ignore_errors=True)
        shutil.copytree(os.path.join(HERE, "probes", target), self.path, ignore=shutil.ignore_patterns("probes.txt", "index.json"))
        with open(os.path.join(HERE, "probes", target, "index.json"), encoding="utf-8") as file:
            self.index = json.load(file)
        self.index["rules"]["emitted"] = EMITTED
        self.ending = os.path.splitext(self.index["programs"][0]["program"])[1]
        self.entries = []

    def add_probe(self, entry):
        stdin = read(os.path.join(self.path, entry["input"])) if "input" in entry else None
        entry["rules"] = [entry["rule"]]
        entry["needs"], _, _, wrote = needs_of(self.given, self.room, self.target, os.path.join(self.path, entry["program"]), entry, stdin)
        is_point = entry["kind"] == "point"
        wanted = entry["outputs"][entry["own"]].encode("latin-1") if is_point else read(os.path.join(self.path, entry["output"]))
        if wrote != wanted:
            give_up(f"{self.target}/{entry['name']}: the plain interpreter writes something else")
        self.add_forms(entry)
        self.entries.append(entry)

    def add_source(self, source, program):
        entry = {"name": source.name, "kind": source.kind, "tests": source.tests, "rule": "emitted", "rules": [], "leans": {}, "ends": source.ends,
                 "program": source.name + self.ending, "bytes": len(program), "output": source.name + ".out"}
        path = os.path.join(self.path, entry["program"])
        write(path, program)
        write(os.path.join(self.path, entry["output"]), source.output)
        if source.input is not None:
            entry["input"] = source.name + ".in"
            write(os.path.join(self.path, entry["input"]), source.input)
        entry["needs"], met, is_cut, wrote = needs_of(self.given, self.room, self.target, path, entry, source.input)
        if is_cut:
            entry["needs_more"] = True
        if not source.output.startswith(wrote) if is_cut else wrote != source.output:
            give_up(f"{self.target}/{source.name}: the plain interpreter writes something else than the source")
        run = leans.Program(program, source.input, source.output, entry["needs"], met, is_cut)
        entry["rules"], entry["leans"] = leans.found(self.target, list(self.index["rules"]), run)
        self.add_forms(entry)
        self.entries.append(entry)
        if self.target == "piet" and entry["needs"]["codels"] <= MOST_CODELS:
            self.add_larger(entry, program)

    def add_forms(self, entry):
        """A PNG beside an image, and a module for WASI beside a module."""
        program, name = read(os.path.join(self.path, entry["program"])), entry["name"]
        if self.target == "piet" and entry["ends"] != "refused":
            entry["png"] = name + ".png"
            write(os.path.join(self.path, entry["png"]), pixels.png(pixels.read_ppm(program)))
        if self.target == "wasm" and entry["ends"] != "refused":
            module = hosts.for_host(program, hosts.Wasi())
            if module != program:
                entry["wasi"] = name + ".wasi.wasm"
                write(os.path.join(self.path, entry["wasi"]), module)

    def add_larger(self, entry, program):
        """The same image in larger codels."""
        larger = {**entry, "name": f"{entry['name']}-codel-{LARGER}", "tests": f"{entry['tests']}, in codels of {LARGER} pixels", "codel": LARGER}
        larger["rules"] = [*entry["rules"], "codels"]
        larger["program"] = larger["name"] + self.ending
        image = pixels.ppm_of(pixels.enlarged(pixels.read_ppm(program), LARGER))
        larger["bytes"] = len(image)
        write(os.path.join(self.path, larger["program"]), image)
        self.add_forms(larger)
        self.entries.append(larger)

    def close(self):
        if self.target == "wasm":
            shutil.copytree(os.path.join(HERE, "host"), os.path.join(self.path, "host"), ignore=shutil.ignore_patterns("__pycache__"))
        self.index["programs"] = self.entries
        write(os.path.join(self.path, "index.json"), (json.dumps(self.index, indent=1, ensure_ascii=False) + "\n").encode())


def make_target(given, target, room, sources):
    folder = Folder(given, target, room)
    for entry in folder.index["programs"]:
        folder.add_probe(entry)
    for source in sources:
        folder.add_source(source, source.emitted(given, target))
    folder.close()
    kinds = [entry["kind"] for entry in folder.entries]
    size = sum(os.path.getsize(os.path.join(folder.path, name)) for name in os.listdir(folder.path))
    print(f"{target}: " + ", ".join(f"{kinds.count(kind)} of kind {kind}" for kind in sorted(set(kinds))) + f", {size:,} bytes", flush=True)


def main():
    given = read_words()
    check_folder(given.folder)
    os.makedirs(given.folder, exist_ok=True)
    with tempfile.TemporaryDirectory() as room:
        build_plain(room, given.target)
        sources = [*examples(given), *random_programs(given, room)]
        write(os.path.join(given.folder, MARK), (json.dumps({"suite": 1, "seed": given.seed, "random": given.random}) + "\n").encode())
        for target in given.target:
            make_target(given, target, room, sources)
    return 0


if __name__ == "__main__":
    try:
        sys.exit(main())
    except KeyboardInterrupt:
        sys.exit(130)
