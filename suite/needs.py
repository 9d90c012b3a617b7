#!/usr/bin/env python3
"""Prints the table of what the examples need, of a folder that suite/make.py made:   suite/needs.py FOLDER"""
import json
import os
import sys

COLUMNS = (
    ("Brainfuck: bytes, steps, tape", "brainfuck", ("steps", "tape")),
    ("Whitespace: bytes, steps, stack, heap", "whitespace", ("steps", "stack", "heap")),
    ("SUBLEQ: bytes, steps, cells", "subleq", ("steps", "cells")),
    ("Piet: bytes, steps, codels, stack", "piet", ("steps", "codels", "stack")),
    ("WebAssembly: bytes, steps, pages, calls", "wasm", ("steps", "pages", "calls")),
)


def cell(entry, names):
    if entry is None:
        return ""
    numbers = [f"{entry['bytes']:,}"] + [f"{entry['needs'][name]:,}" for name in names]
    if entry.get("needs_more"):
        numbers[1] = "more than " + numbers[1]
    return "; ".join(numbers)


def main():
    if len(sys.argv) != 2:
        sys.exit(__doc__)
    found = {}
    for _, target, _ in COLUMNS:
        path = os.path.join(sys.argv[1], target, "index.json")
        if os.path.exists(path):
            with open(path, encoding="utf-8") as file:
                found[target] = {entry["name"]: entry for entry in json.load(file)["programs"] if entry["kind"] == "example" and "codel" not in entry}
    names = list(dict.fromkeys(name for entries in found.values() for name in entries))
    print("| Example | " + " | ".join(title for title, _, _ in COLUMNS) + " |")
    print("|---|" + "---|" * len(COLUMNS))
    for name in names:
        cells = [cell(found.get(target, {}).get(name), needs) for _, target, needs in COLUMNS]
        print(f"| `{name}` | " + " | ".join(cells) + " |")


if __name__ == "__main__":
    main()
