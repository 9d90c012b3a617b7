#!/usr/bin/env python3
"""Makes the files of suite/probes from their sources, suite/probes/TARGET/probes.txt, which are written by hand.

A source tells the rules of the language, and of each probe its name, what it tests, the rule, the input and the output, as the
rules have it, and the program. Programs are written in the language itself: Brainfuck and SUBLEQ as they are; Whitespace an
instruction a line; Piet as a picture of codels, or as a row of commands; WebAssembly in its text format (wat2wasm of wabt makes
the bytes). Nothing of it is taken from a program that runs them.

Usage: suite/assemble.py [--check] [TARGET ..]     --check only says whether the files are as the sources have them
"""
import ast
import json
import os
import subprocess
import sys
import tempfile

import wast
from pixels import ppm

HERE = os.path.dirname(os.path.abspath(__file__))
TARGETS = ("brainfuck", "whitespace", "subleq", "piet", "wasm")


def literal(text):
    """The bytes of a quoted value."""
    return ast.literal_eval("b" + text)


def pairs(text):
    """What stands in `point=convention, point=convention`."""
    return dict(part.strip().split("=") for part in text.split(",")) if text else {}


def read_source(target):
    """The head of a source, its rules, and its records: pairs of fields and program."""
    with open(os.path.join(HERE, "probes", target, "probes.txt"), encoding="utf-8", newline="") as file:
        front, *records = ("\n" + file.read()).split("\n== ")
    head, rules = {}, {}
    for line in front.split("\n"):
        key, _, value = line.partition(": ")
        if line.startswith("rule "):
            rules[key[5:]] = value
        elif line and not line.startswith("#"):
            head[key] = value
    return head, rules, [read_record(record) for record in records]


def read_record(record):
    fields, _, program = record.partition("\n--\n")
    name, *lines = fields.split("\n")
    told = {"name": name}
    for line in lines:
        key, _, value = line.partition(": ")
        if key in told:
            sys.exit(f"{name}: {key} is told twice")
        told[key] = value
    return told, program.rstrip("\n")


# Whitespace: an instruction a line.

SPELLINGS = {
    "push": "SS", "dup": "SLS", "copy": "STS", "swap": "SLT", "drop": "SLL", "slide": "STL",
    "add": "TSSS", "sub": "TSST", "mul": "TSSL", "div": "TSTS", "mod": "TSTT", "store": "TTS", "retrieve": "TTT",
    "label": "LSS", "call": "LST", "jump": "LSL", "jz": "LTS", "jn": "LTT", "ret": "LTL", "end": "LLL",
    "outc": "TLSS", "outn": "TLST", "readc": "TLTS", "readn": "TLTT",
}


def number_signs(text):
    """A decimal number, or its signs as they are, as `TSST`."""
    if text.strip("ST") == "":
        return text
    number = int(text)
    return ("T" if number < 0 else "S") + bin(abs(number))[2:].replace("0", "S").replace("1", "T")


def instruction_signs(words):
    name, *rest = words
    if name == "raw":
        return "".join(rest)
    if name in ("push", "copy", "slide"):
        return SPELLINGS[name] + number_signs(rest[0]) + "L"
    if name in ("label", "call", "jump", "jz", "jn"):
        return SPELLINGS[name] + "".join(rest) + "L"
    return SPELLINGS[name]


def whitespace(program):
    """Signs S, T and L as a space, a tab and a line feed; `note TEXT` is a comment within the program."""
    text = ""
    for line in program.split("\n"):
        if line.startswith("note "):
            text += ast.literal_eval(line[5:])
        elif line and not line.startswith("#"):
            text += "".join(instruction_signs(part.split()) for part in line.split(";")).translate({83: " ", 84: "\t", 76: "\n"})
    return text.encode()


# Piet: pictures.

HUES = "RYGCBM"
COMMANDS = {
    "push": 1, "pop": 2, "add": 3, "sub": 4, "mul": 5, "div": 6, "mod": 7, "not": 8, "greater": 9, "pointer": 10, "switch": 11,
    "dup": 12, "roll": 13, "inn": 14, "inc": 15, "outn": 16, "outc": 17,
}
SHADES = {
    "lR": "FFC0C0", "nR": "FF0000", "dR": "C00000", "lY": "FFFFC0", "nY": "FFFF00", "dY": "C0C000",
    "lG": "C0FFC0", "nG": "00FF00", "dG": "00C000", "lC": "C0FFFF", "nC": "00FFFF", "dC": "00C0C0",
    "lB": "C0C0FF", "nB": "0000FF", "dB": "0000C0", "lM": "FFC0FF", "nM": "FF00FF", "dM": "C000C0",
    "..": "FFFFFF", "##": "000000",
}


def name_of(colour):
    return "lnd"[colour % 3] + HUES[colour // 3]


def after(colour, command):
    """The colour to which a command leads from another one."""
    return (colour // 3 + command // 3) % 6 * 3 + (colour % 3 + command % 3) % 3


def strip(text):
    """A row of commands, from left to right, as a picture: each push stands in a block as large as its number. The run ends in a
    hook, whose exits all lead outside or into black."""
    colour, row = 1, []
    for word in text.split("; "):
        command, *number = word.split()
        row += [name_of(colour)] * (int(number[0]) if number else 1)
        colour = after(colour, COMMANDS[command])
    hook = [name_of(colour)]
    return [row + hook, ["##"] * (len(row) - 1) + hook * 2]


def piet(program, record):
    """The picture as PPM text, each codel `codel` pixels wide. `colour ab: RRGGBB` names a colour of its own."""
    shades, rows = dict(SHADES), []
    for line in program.split("\n"):
        if line.startswith("colour "):
            shades[line[7:9]] = line[11:17]
        elif line.startswith("strip: "):
            rows = strip(line[7:])
        elif line and not line.startswith("# "):
            rows.append(line.split())
    if len({len(row) for row in rows}) != 1:
        sys.exit(f"{record['name']}: rows of different lengths")
    size = 1 if record.get("grid") == "pixels" else int(record.get("codel", "1"))
    return ppm([[bytes.fromhex(shades[codel]) for codel in row for _ in range(size)] for row in rows for _ in range(size)])


# WebAssembly: its text format.

def wasm(program, record):
    if record.get("hex") == "yes":
        return bytes.fromhex(" ".join(line.split(";")[0] for line in program.split("\n")))
    with tempfile.TemporaryDirectory() as room:
        source, made = os.path.join(room, "probe.wat"), os.path.join(room, "probe.wasm")
        with open(source, "w", encoding="utf-8") as file:
            file.write(wast.module_text(program))
        done = subprocess.run(["wat2wasm", "--no-check", source, "-o", made], capture_output=True, text=True)
        if done.returncode != 0:
            sys.exit(f"{record['name']}: {done.stderr}")
        with open(made, "rb") as file:
            return file.read()


def program_bytes(target, record, program):
    if record.get("bytes") == "yes":
        return program.encode()
    if target == "whitespace":
        return whitespace(program)
    if target == "piet":
        return piet(program, record)
    if target == "wasm":
        return wasm(program, record)
    return program.encode() + (b"" if record.get("bare") == "yes" else b"\n")


def entry_of(target, head, rules, record, program):
    """What the index tells of a probe, and the files that go with it."""
    name = record["name"]
    if record["rule"] not in rules:
        sys.exit(f"{target}: {name}: no rule {record['rule']}")
    entry = {"name": name, "kind": "probe", "tests": record["tests"], "rule": record["rule"], "leans": pairs(record.get("leans")),
             "ends": record.get("ends", "ends"), "program": name + head["ending"]}
    made = program_bytes(target, record, program)
    files = {entry["program"]: made}
    entry["bytes"] = len(made)
    if "codel" in record:
        entry["codel"] = int(record["codel"])
    if "in" in record:
        entry["input"] = name + ".in"
        files[entry["input"]] = literal(record["in"])
    if "point" in record:
        entry["kind"] = "point"
        entry["point"] = record["point"]
        entry["own"] = record["own"]
        entry["outputs"] = {key[4:]: literal(value).decode("latin-1") for key, value in record.items() if key.startswith("out ")}
    else:
        entry["output"] = name + ".out"
        files[entry["output"]] = literal(record["out"])
    if target == "wasm" and record.get("wast") != "no":
        entry["wast"] = name + ".wast"
        files[entry["wast"]] = wast.script(record, program, made, literal(record.get("in", '""'))).encode()
    return entry, files


def check_points(target, entries):
    own = {entry["point"]: entry["outputs"] for entry in entries if entry["kind"] == "point"}
    for entry in entries:
        for point, convention in entry["leans"].items():
            if any(one not in own.get(point, {}) for one in convention.split("|")):
                sys.exit(f"{target}: {entry['name']} leans on {point}={convention}, which no point has")
    names = [entry["name"] for entry in entries]
    if len(set(names)) != len(names):
        sys.exit(f"{target}: a name stands twice: {sorted(name for name in names if names.count(name) > 1)}")


def assemble(target):
    head, rules, records = read_source(target)
    entries, files = [], {}
    for record, program in records:
        entry, more = entry_of(target, head, rules, record, program)
        entries.append(entry)
        files.update(more)
    check_points(target, entries)
    index = {"suite": 1, "target": target, "language": head["language"], "rules": rules, "programs": entries}
    files["index.json"] = (json.dumps(index, indent=1, ensure_ascii=False) + "\n").encode()
    return files


def there(folder):
    found = {}
    for name in os.listdir(folder):
        if name != "probes.txt":
            with open(os.path.join(folder, name), "rb") as file:
                found[name] = file.read()
    return found


def main():
    only_check = "--check" in sys.argv[1:]
    targets = [word for word in sys.argv[1:] if word != "--check"] or TARGETS
    status = 0
    for target in targets:
        if target not in TARGETS:
            sys.stderr.write(f"assemble.py: {target} is no target: {', '.join(TARGETS)} are\n")
            return 2
        folder = os.path.join(HERE, "probes", target)
        files, old = assemble(target), there(folder)
        if only_check:
            wrong = sorted(name for name in {*files, *old} if files.get(name) != old.get(name))
            print(f"{target}: {len(files)} files, " + (f"other than their source: {', '.join(wrong)}" if wrong else "as their source"))
            status = status or bool(wrong)
            continue
        for name in {*old} - {*files}:
            os.remove(os.path.join(folder, name))
        for name, content in files.items():
            with open(os.path.join(folder, name), "wb") as file:
                file.write(content)
        kinds = [entry["kind"] + " " + entry["ends"] for entry in json.loads(files["index.json"])["programs"]]
        print(f"{target}: " + ", ".join(f"{kinds.count(kind)} {kind}" for kind in sorted(set(kinds))))
    return status


if __name__ == "__main__":
    sys.exit(main())
