#!/usr/bin/env python3
"""Counts the lines of definitions that a reader has to believe, for each language, from the sources alone.

From the definitions that the contract of the top call names for a language it follows each import to the file that it
stands in, and counts that file's lines of definitions (no comments, no imports, no blank lines). Types of src/ that a
definition matches on are listed by name. `bench/believed.py -v` lists the files.
"""
import os
import re
import sys

TOP = os.path.dirname(os.path.dirname(os.path.abspath(__file__)))
SHARED = ["mach_core Rule", "eir_core Step", "eir_core Reach", "eir_text Spells", "sim_trait Faithful"]
LANGUAGES = {
    "EIR": ["eir_text Spells", "eir_core Step", "mach_core Rule"],
    "emit, whatever the target": SHARED,
    "Whitespace": ["ws_lang Spelling", "ws_lang Refusal", "ws_lang Step"],
    "SUBLEQ": ["sq_lang Text", "sq_lang Answers", "sq_lang Step"],
    "WebAssembly": ["wasm_bin Module", "wasm_valid Rules", "wasm_rule Rule", "wasm_rule Start"],
    "Brainfuck": ["bf_lang Text", "bf_lang Step"],
    "Piet": ["piet_image Text", "piet_image Block", "piet_image Raster", "piet_lang Step"],
    "C tokens": ["c_syntax Lex"],
    "C text": ["c_syntax Lex", "c_grammar Spells"],
    "C types": ["c_types Limits", "c_types Room"],
    "C meaning": ["c_eval Meaning"],
    "C, from its text to its meaning": ["c_prep Prepared", "c_grammar Spells", "c_types Limits", "c_types Room", "c_eval Meaning"],
}
IMPORT = re.compile(r"^\s*(?:pub )?use Rattle\.(\w+)\.specs\.([\w.]+)")


def place(crate, module):
    return os.path.join(TOP, "crates", crate, "specs", module.replace(".", "/") + ".antt")


def imports(path):
    with open(path) as file:
        for line in file:
            found = IMPORT.match(line)
            if found:
                yield found.group(1), found.group(2).rstrip(".")


def lines(path):
    with open(path) as file:
        return sum(1 for line in file if line.strip() and not re.match(r"\s*(--|(pub )?use |(pub )?mod )", line))


def closure(roots):
    """The files behind the roots, and the types of src/ that they name."""
    wanted, files, types = [tuple(root.split()) for root in roots], {}, set()
    while wanted:
        crate, module = wanted.pop()
        path = place(crate, module)
        if module.startswith("declared."):
            types.add(crate + "::" + [part for part in module.split(".") if part != "TheVariants"][-1])
        elif path not in files and os.path.exists(path):
            files[path] = lines(path)
            wanted.extend(imports(path))
    return files, types


def main():
    for language, roots in LANGUAGES.items():
        if not all(os.path.exists(place(*root.split())) for root in roots):
            print(f"{language}: not here, or under other names: {[root for root in roots if not os.path.exists(place(*root.split()))]}")
            continue
        files, types = closure(roots)
        print(f"{language}: {sum(files.values())} lines in {len(files)} files; types of the code: {', '.join(sorted(types))}")
        if "-v" in sys.argv:
            for path, count in sorted(files.items()):
                print(f"  {count:5} {os.path.relpath(path, TOP)}")
    return 0


if __name__ == "__main__":
    sys.exit(main())
