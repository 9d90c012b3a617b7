#!/usr/bin/env python3
"""The test for people in a hurry: runs each program of examples/ on every verb and target, side by side, in under two minutes.

What a program is given and has to write stands beside it, in files that end in `.in` and `.out`. An EIR program is run as it
is, and as `opt` writes it: by itself, and as it is emitted for each target. A C text is run by itself, compiled, and built for
each target. A run that would take too long is cut after a number of steps that stands here (`CUT`): what it has written till
then must begin what it has to write, and the table says so.

`--steps` prints bytes, and steps to the end, in place of the table, which takes some minutes more. The script needs python3 and
the program that `--program` names, or that `./elvm` would run, and fails where something else is written.
"""
import concurrent.futures
import os
import re
import subprocess
import sys
import tempfile
import time

from measure import steps_to_end
from program import TOP, program, run

TARGETS = ("brainfuck", "whitespace", "subleq", "piet", "wasm")
COLUMNS = ("itself", "as text", *TARGETS)
EXAMPLES = os.path.join(TOP, "examples")
# the steps after which a run is cut that would take a minute and more
CUT = {}
# seconds that one call has
LONGEST = 110


def beside(path, ending):
    """The bytes of the file beside a program that has its name and another ending; none where there is no such file."""
    try:
        with open(os.path.splitext(path)[0] + ending, "rb") as file:
            return file.read()
    except FileNotFoundError:
        return b""


def size_of(path):
    """Blocks, operations and data words of an EIR file that is right."""
    blocks, words, begins = 0, 0, True
    ops = 0
    for line in open(path):
        line = line.split("#")[0]
        labels = re.match(r"\s*([^\s:\"]+:\s*)*", line).group(0)
        begins = begins or ":" in labels
        statement = line[len(labels):].split()
        if not statement:
            continue
        if statement[0] == ".long":
            words += 1
        elif statement[0] == ".string":
            words += len(re.sub(r"\\.", "x", line[line.index('"') + 1:line.rindex('"')])) + 1
        elif not statement[0].startswith("."):
            blocks += begins
            ops += 1
            begins = statement[0][0] == "j"
    return blocks + ops + words


class Example:
    """A program of examples/, with what it is given and has to write, and a folder for what is made of it."""

    def __init__(self, path, room):
        self.path, self.name = path, os.path.basename(path)
        self.is_c = path.endswith(".c")
        self.given, self.wanted = beside(path, ".in"), beside(path, ".out")
        self.room = os.path.join(room, self.name)
        os.mkdir(self.room)

    def make(self, name, words):
        """The path of a file with what a call writes, which must succeed."""
        status, wrote, _ = run(words, timeout=LONGEST)
        if status != 0:
            raise ValueError(f"{words[0]} answers {status}")
        path = os.path.join(self.room, name)
        with open(path, "wb") as file:
            file.write(wrote)
        return path

    def judge(self, verb, path, most=None):
        """Runs a file. What is told is `same`, or how much a run had written when it was cut."""
        limit = ["--steps", str(most)] if most else []
        status, wrote, _ = run([*verb, *limit, path], self.given, timeout=LONGEST)
        if (status, wrote) == (0, self.wanted):
            return "same"
        if most and status == 3 and wrote and self.wanted.startswith(wrote):
            return f"{len(wrote)} of {len(self.wanted)} bytes"
        raise ValueError(f"status {status}, {wrote[:40]!r}")

    def texts(self):
        """Paths of EIR files that mean what the program means, by the way in which they are made."""
        if self.is_c:
            first = self.make("compiled.eir", ["compile", self.path])
            return {"compiled": first, "by opt": self.make("smaller.eir", ["opt", first])}
        return {"as it is": self.path, "by opt": self.make("smaller.eir", ["opt", self.path])}

    def itself(self):
        return self.judge(["c" if self.is_c else "eir"], self.path)

    def as_text(self):
        for path in self.texts().values():
            self.judge(["eir"], path)
        return "same"

    def on(self, target):
        """What the program is built or emitted as, and an EIR program also as `opt` writes it."""
        verb, most = ["run", "--target", target], CUT.get((self.name, target))
        if self.is_c:
            return self.judge(verb, self.make(target, ["build", "--target", target, self.path]), most)
        for way, path in self.texts().items():
            told = self.judge(verb, self.make(f"{way}.{target}", ["emit", "--target", target, path]), most)
        return told

    def cell(self, column):
        """What is told in a column of the table, and what went wrong, if anything did."""
        try:
            return {"itself": self.itself, "as text": self.as_text}.get(column, lambda: self.on(column))(), None
        except ValueError as error:
            return "FAILED", f"{self.name}, {column}: {error}"
        except subprocess.TimeoutExpired:
            return "FAILED", f"{self.name}, {column}: not within {LONGEST} seconds"

    def lines(self):
        """Bytes and steps to the end of what is made of the program."""
        yield f"{self.name}"
        units = f" for {steps_to_end(['c'], self.path, self.given)} units of fuel" if self.is_c else ""
        for way, path in list(self.texts().items())[: 1 if self.is_c else 2]:
            yield f"  {way:10} size {size_of(path):5}, {steps_to_end(['eir'], path, self.given):9,} steps{units}"
            for target in TARGETS:
                words = ["build", "--target", target, self.path] if self.is_c else ["emit", "--target", target, path]
                made = self.make(f"{way}.{target}", words)
                steps = "" if self.is_c else f", {steps_to_end(['run', '--target', target], made, self.given):9,} steps"
                yield f"    {target:10} {os.path.getsize(made):10,} bytes{steps}"


def examples(room):
    paths = [os.path.join(folder, name) for folder in (EXAMPLES, os.path.join(EXAMPLES, "c")) for name in sorted(os.listdir(folder))]
    return [Example(path, room) for path in paths if path.endswith((".eir", ".c"))]


def sample():
    """The verb that makes a program of its own: its line ends in the word that says that both runs wrote the same."""
    status, line, _ = run(["sample", "2000"], timeout=LONGEST)
    is_right = status == 0 and line.startswith(b"sample 2000 ") and line.endswith(b" same\n")
    return line.decode(errors="replace").strip(), None if is_right else f"sample: status {status}, {line!r}"


def table(shown):
    """Runs all side by side, the longest first, and prints a row for each program. It gives what went wrong in each call, or None."""
    cells = [(example, column) for example in shown for column in COLUMNS]
    cells.sort(key=lambda cell: (not cell[0].is_c, COLUMNS.index(cell[1]) not in (2, 5)))
    with concurrent.futures.ThreadPoolExecutor(os.cpu_count()) as pool:
        found = {(example.name, column): pool.submit(example.cell, column) for example, column in cells}
        last = pool.submit(sample)
        print(f"{'':14}" + "".join(f"{column:>16}" for column in COLUMNS))
        for example in shown:
            print(f"{example.name:14}" + "".join(f"{found[example.name, column].result()[0]:>16}" for column in COLUMNS), flush=True)
        print(last.result()[0])
        return [result.result()[1] for result in (*found.values(), last)]


def main():
    program()
    begun = time.monotonic()
    with tempfile.TemporaryDirectory() as room:
        shown = examples(room)
        if "--steps" in sys.argv:
            for example in shown:
                for line in example.lines():
                    print(line, flush=True)
            return 0
        faults = table(shown)
    for fault in filter(None, faults):
        print(fault)
    print(f"{faults.count(None)} of {len(faults)} as expected, in {time.monotonic() - begun:.0f} s")
    if CUT:
        print("cut: " + ", ".join(f"{name} on {target} after {most:,} steps" for (name, target), most in CUT.items()))
    print("This shows that the program writes on these inputs what it has to write, by every verb and on every target. It doesn't")
    print("show the theorem, which is of every program and input, nor that the program is the proved one: .ci/run shows both.")
    return 1 if any(faults) else 0


if __name__ == "__main__":
    sys.exit(main())
