"""The rules and open points that an emitted program leans on: found in its text or module, and in what a plain interpreter met.

Rules of faults aren't looked for (an emitted program that ends meets none), and a rule on width only in the numbers of a text. What
stands in a text counts also where no run comes to it; what a run met is told up to the place where the plain interpreter was stopped.
"""
import os
import sys

sys.path.append(os.path.join(os.path.dirname(os.path.abspath(__file__)), "host"))
import hosts


class Program:
    """A program with its input and output, what it needed, and what the plain interpreter met; `is_cut` where that was stopped early."""

    def __init__(self, content, stdin, output, needs, met, is_cut):
        self.content, self.input, self.output, self.needs, self.met, self.is_cut = content, stdin, output, needs, met, is_cut

    def asks_past_the_end(self):
        return self.needs["past_end"] > 0 or (self.is_cut and self.input is not None)


def has_high(content):
    return any(byte > 127 for byte in content or b"")


def points_of_bytes(program, reads, writes):
    """The points on bytes above 127, and on the end of the input, of a program that reads and writes characters."""
    leans = {}
    if reads and program.asks_past_the_end():
        leans["end-of-input"] = "zero"
    if reads and has_high(program.input):
        leans["input"] = "bytes"
    if writes and has_high(program.output):
        leans["output"] = "bytes"
    if "large-characters" in program.met:
        leans["large-characters"] = "modulo 256"
    return leans


# Brainfuck: the commands that stand in the text.

BRAINFUCK = {"+": ["cells"], "-": ["cells"], "<": ["tape"], ">": ["tape"], "[": ["open", "close", "pairs"], ".": ["write"], ",": ["input"]}


def of_brainfuck(program):
    letters = {chr(byte) for byte in set(program.content)}
    rules = {"end"}.union(*(names for letter, names in BRAINFUCK.items() if letter in letters))
    if letters - set("><+-.,[]"):
        rules.add("comments")
    leans = points_of_bytes(program, "," in letters, "." in letters)
    if "end-of-input" in leans:
        leans["end-of-input"] = "zero|unchanged"
    if letters & set("+-"):
        leans["cell-width"] = "8"
    if program.needs["tape"] > 30000:
        leans["tape"] = "no last one"
    return rules, leans


# Whitespace: the instructions that stand in the text. S is a space, T a tab, L a line feed; N a number, with its sign, and B a label.

WHITESPACE = {
    "SSN": "stack", "SLS": "stack", "SLT": "stack", "SLL": "stack", "STSN": "copy", "STLN": "slide",
    "TSSS": "arithmetic", "TSST": "arithmetic", "TSSL": "arithmetic", "TSTS": "division", "TSTT": "division", "TTS": "heap", "TTT": "heap",
    "LSSB": "labels", "LSTB": "call", "LSLB": "jump", "LTSB": "jump", "LTTB": "jump", "LTL": "call", "LLL": "end",
    "TLSS": "write-character", "TLST": "write-number", "TLTS": "read-character", "TLTT": "read-number",
}


def instructions_of(content):
    """Each instruction's form and its number, None of one that has none."""
    signs = content.translate(bytes.maketrans(b" \t\n", b"STL"), bytes(set(range(256)) - set(b" \t\n"))).decode()
    at = 0
    while at < len(signs):
        form = next(form for form in WHITESPACE if signs.startswith(form.rstrip("NB"), at))
        at += len(form.rstrip("NB"))
        number = None
        if form[-1] in "NB":
            end = signs.index("L", at)
            if form[-1] == "N":
                digits = signs[at + 1 : end].replace("S", "0").replace("T", "1")
                number = int(digits or "0", 2) * (-1 if signs[at] == "T" else 1)
            at = end + 1
        yield form, number


def of_whitespace(program):
    found = set(instructions_of(program.content))
    forms = {form for form, _ in found}
    rules = {WHITESPACE[form] for form in forms}
    if any(form[-1] == "N" for form in forms):
        rules.add("numbers")
    if set(program.content) - set(b" \t\n"):
        rules.add("comments")
    leans = points_of_bytes(program, "TLTS" in forms, "TLSS" in forms)
    if "division" in rules:
        leans["division"] = "floored"
    if program.needs.get("lowest", 0) < 0:
        leans["heap-below-zero"] = "allowed"
    if "TTT" in forms:
        leans["not-stored"] = "zero"
    if "read-number" in rules:
        leans["number-ends"] = "first other byte"
    if any(number is not None and not is_narrow(number) for _, number in found):
        leans["width"] = "64|64 that wraps|wider"
    return rules, leans


def is_narrow(number):
    return -(1 << 31) <= number < 1 << 31


# SUBLEQ: the numbers of the text, and the ports and cells that the run came to.

def of_subleq(program):
    numbers = [int(number) for number in program.content.split()]
    rules = {"text", "step", "ended"} | {"own-code", "input", "output"} & program.met
    leans = {}
    if "past-the-text" in program.met:
        rules.add("cells")
        leans["past-the-text"] = "zero"
    if {"input", "output"} & program.met:
        leans["ports"] = "b writes"
    if "port-jumps" in program.met:
        leans["port-jumps"] = "goes on"
    if "input" in program.met and program.asks_past_the_end():
        leans["end-of-input"] = "zero"
    if any(not is_narrow(number) for number in numbers):
        leans["width"] = "64|64 that wraps|wider"
    return rules, leans


# Piet: the commands that ran.

PIET = {
    "push": "blocks", "pop": "stack", "duplicate": "stack", "not": "stack", "add": "arithmetic", "subtract": "arithmetic",
    "multiply": "arithmetic", "greater": "arithmetic", "divide": "division", "mod": "division", "pointer": "pointer", "switch": "switch",
    "roll": "roll", "in-number": "in-number", "in-character": "in-character", "out-number": "output", "out-character": "output",
    "too-few": "too-few", "roll-too-deep": "roll-ignored", "roll-negative-depth": "roll-ignored", "division-by-zero": "division-by-zero",
    "attempts": "attempts", "slides": "slides", "slide-ends": "slide-ends",
}
PIET_POINTS = {"roll-too-deep": "ignored", "roll-negative-depth": "ignored", "division-by-zero": "ignored"}


def of_piet(program):
    rules = {"start", "exits", "colours", "image"} | {PIET[name] for name in program.met if name in PIET}
    leans = points_of_bytes(program, "in-character" in program.met, "out-character" in program.met)
    leans.update((point, convention) for point, convention in PIET_POINTS.items() if point in program.met)
    if "division" in rules:
        leans["division"] = "floored"
    if "in-number" in rules:
        leans["number-ends"] = "first other byte"
    if "out-number" in program.met:
        leans["number-output"] = "alone"
    return rules, leans


# WebAssembly: the instructions that stand in the module's bodies, and its sections.

WASM = {
    "unreachable": [0x00], "blocks": [0x02], "loops": [0x03], "if": [0x04], "branches": [0x0C, 0x0D], "br-table": [0x0E], "return": [0x0F],
    "stack": [0x1A, 0x1B], "locals": [0x20, 0x21, 0x22], "globals": [0x23, 0x24], "memory": range(0x28, 0x3F), "addresses": range(0x28, 0x3F),
    "growth": [0x3F, 0x40], "numbers": [0x41], "bits": [0x45, 0x67, 0x68, 0x69, 0x71, 0x72, 0x73], "comparisons": range(0x46, 0x50),
    "arithmetic": [0x6A, 0x6B, 0x6C], "division": range(0x6D, 0x71), "shifts": range(0x74, 0x79),
}
WASM_SECTIONS = {2: "host", 8: "start", 11: "data"}


def of_wasm(program):
    sections = hosts.sections_of(program.content)
    imports = len(hosts.items(sections.get(2), hosts.read_import))
    opcodes, calls = set(), set()
    for body in hosts.items(sections.get(10), hosts.Reader.sized):
        for opcode, number, _ in hosts.pieces_of(body):
            opcodes.add(opcode)
            if opcode == 0x10:
                calls.add(number)
    rules = {"modules", "format"} | {rule for rule, codes in WASM.items() if opcodes & set(codes)}
    rules |= {rule for section, rule in WASM_SECTIONS.items() if section in sections}
    if any(number >= imports for number in calls):
        rules.add("calls")
    return rules, {}


OF = {"brainfuck": of_brainfuck, "whitespace": of_whitespace, "subleq": of_subleq, "piet": of_piet, "wasm": of_wasm}


def found(target, names, program):
    """The rules, in the order of `names`, and the open points, each with the convention that the program wants."""
    rules, leans = OF[target](program)
    if "end-of-input" in names and "end-of-input" in leans:
        rules.add("end-of-input")
    return [name for name in names if name in rules], dict(sorted(leans.items()))
