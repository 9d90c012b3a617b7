#!/usr/bin/env python3
"""Compares the program that `--program` names, or that `./elvm` would run, with plain C interpreters (bench/peers), both on the
same programs in one run.

It prints a table: seconds of each, best of three, their ratio, and the ratio of the greatest memory in use. A step limit
is given to both. It needs cc for the peers; where cc is missing it says so and compares nothing.
`bench/ratios.py NAME..` takes these languages alone (brainfuck, eir, whitespace, subleq, wasm).
"""
import os
import shutil
import subprocess
import sys
import tempfile

from program import TOP, program

MEGABYTES = 5_000_000
BUBBLE = """s: mov A, 0
f: mov B, 200
sub B, A
store B, A
add A, 1
jlt f, A, 200
p: mov C, 0
mov A, 0
i: mov B, A
add B, 1
load D, A
load SP, B
jle k, D, SP
store SP, A
store D, B
mov C, 1
k: add A, 1
jlt i, A, 199
jeq s, C, 0
jmp p
"""
SIEVE = """s: mov A, 2
f: store A, A
add A, 1
jlt f, A, 10000
mov A, 2
n: load B, A
jeq z, B, 0
mov B, A
add B, A
jge z, B, 10000
mov C, 0
m: store C, B
add B, A
jlt m, B, 10000
z: add A, 1
jlt n, A, 10000
jmp s
"""
PROGRAMS = {
    "arithmetic": "l: add A, 3\nsub A, 1\nadd B, A\njmp l\n",
    "1,000 addresses": "l: add A, 1\njlt m, A, 1000\nmov A, 0\nm: store B, A\nload B, A\nadd B, 1\njmp l\n",
    "10^6 addresses": "l: add A, 1\njlt m, A, 1000000\nmov A, 0\nm: store B, A\nload B, A\nadd B, 1\njmp l\n",
    "sieve": SIEVE,
    "register jumps": "".join(f"b{k}: mov A, {(7 * k + 3) % 1000}\njmp A\n" for k in range(1000)),
    "bubble sort": BUBBLE,
    "print": f"l: putc 65\nadd B, 1\njlt l, B, {MEGABYTES}\nexit\n",
    "copy": "l: getc A\njeq e, A, 0\nputc A\njmp l\ne: exit\n",
}
# Brainfuck written by hand: loops within loops, and a cell that is copied again and again
BY_HAND = {
    "loops": "++++++++++[>++++++++++" * 7 + "[>+<-]" + "<-]" * 7,
    "copies": "++++++++++[>++++++++++" * 3 + "[>" + "-[->+>+<<]>>[-<<+>>]<<" + "+<-]" + "<-]" * 3,
}
STEPS = {"brainfuck": 500_000_000, "eir": 200_000_000, "whitespace": 200_000_000, "subleq": 100_000_000, "wasm": 200_000_000}


def leb(n):
    made = bytearray()
    while True:
        low, n = n & 127, n >> 7
        made.append(low | (128 if n else 0))
        if not n:
            return bytes(made)


def signed_leb(n):
    made = bytearray()
    while True:
        low, n = n & 127, n >> 7
        done = (n == 0 and not low & 64) or (n == -1 and low & 64)
        made.append(low | (0 if done else 128))
        if done:
            return bytes(made)


REGISTERS = ["A", "B", "C", "D", "SP", "BP"]
COMPARE = {"eq": 0x46, "ne": 0x47, "lt": 0x49, "gt": 0x4B, "le": 0x4D, "ge": 0x4F}


def blocks_of(text):
    blocks, labels = [[]], {}
    for line in text.splitlines():
        words = line.replace(",", " ").split()
        while words and words[0].endswith(":"):
            if blocks[-1]:
                blocks.append([])
            labels[words.pop(0)[:-1]] = len(blocks) - 1
        if words:
            blocks[-1].append(words)
            if words[0][0] == "j":
                blocks.append([])
    if not blocks[-1]:
        blocks.pop()
    return blocks, labels


def module_of(text):
    """One loop round a nest of blocks with one br_table, registers as locals, word a at byte 4 * a."""
    blocks, labels = blocks_of(text)
    mask = b"\x41" + signed_leb(0xFFFFFF) + b"\x71"

    def value(word):
        if word in REGISTERS:
            return b"\x20" + leb(REGISTERS.index(word))
        return b"\x41" + signed_leb(labels.get(word) if word in labels else int(word) % 2**24)

    def place(word):
        return leb(REGISTERS.index(word))

    def operation(words, inner):
        name, given = words[0], words[1:]
        if name in ("mov", "add", "sub"):
            if name == "mov":
                return value(given[1]) + b"\x21" + place(given[0])
            return value(given[0]) + value(given[1]) + (b"\x6a" if name == "add" else b"\x6b") + mask + b"\x21" + place(given[0])
        if name == "load":
            return value(given[1]) + b"\x41\x02\x74\x28\x02\x00\x21" + place(given[0])
        if name == "store":
            return value(given[1]) + b"\x41\x02\x74" + value(given[0]) + b"\x36\x02\x00"
        if name == "putc":
            return value(given[0]) + b"\x10\x01"
        if name == "getc":
            return b"\x10\x00\x21" + place(given[0])
        if name == "exit":
            return b"\x0f"
        if name == "jmp":
            return value(given[0]) + b"\x21\x06\x0c" + leb(inner)
        return value(given[0]) + b"\x21\x06" + value(given[1]) + value(given[2]) + bytes([COMPARE[name[1:]]]) + b"\x0d" + leb(inner)

    count = len(blocks)
    code = b"\x02\x40\x03\x40" + b"\x02\x40" * count + b"\x20\x06\x0e" + leb(count) + b"".join(leb(k) for k in range(count)) + leb(count + 1)
    for k, block in enumerate(blocks):
        code += b"\x0b" + b"".join(operation(words, count - 1 - k) for words in block)
    code += b"\x0b\x0b\x0b"
    body = b"\x01\x07\x7f" + code

    def section(number, contents):
        return bytes([number]) + leb(len(contents)) + contents

    function = leb(len(body)) + body
    return (b"\0asm\1\0\0\0" + section(1, b"\3\x60\0\0\x60\0\1\x7f\x60\1\x7f\0")
            + section(2, b"\2\3env\7getchar\0\1\3env\7putchar\0\2") + section(3, b"\1\0") + section(5, b"\1\0" + leb(1024))
            + section(7, b"\1\4main\0\2") + section(10, b"\1" + function))


def timed(watch, words, given):
    """Seconds, greatest memory in bytes and status of one call."""
    seconds, kilobytes, status = subprocess.run([watch, given, *words], capture_output=True, check=True).stdout.split()
    return float(seconds), int(kilobytes) * 1024, int(status)


def best(watch, words, given):
    runs = [timed(watch, words, given) for _ in range(3)]
    return min(r[0] for r in runs), min(r[1] for r in runs), runs[0][2]


def compare(watch, language, name, path, peer, given):
    steps = str(STEPS[language])
    words = ["eir", "--steps", steps, path] if language == "eir" else ["run", "--target", language, "--steps", steps, path]
    ours, memory, status = best(watch, [program(), *words], given)
    theirs, their_memory, their_status = best(watch, [peer, path, steps], given)
    agree = "" if status == their_status else f"  (status {status}, the peer's {their_status})"
    print(f"  {name:16} {language:10} {ours:8.2f} s {theirs:8.2f} s  ratio {ours / theirs:6.2f}  memory {memory / 2**20:7.1f} MB, ratio {memory / their_memory:5.2f}{agree}", flush=True)


def main():
    compiler = shutil.which("cc") or shutil.which("gcc")
    if compiler is None:
        print("no C compiler is here, so there is nothing to compare with")
        return 0
    program()
    chosen = sys.argv[1:] or list(STEPS)
    with tempfile.TemporaryDirectory() as room:
        given = os.path.join(room, "given")
        with open(given, "wb") as file:
            file.write(b"a" * MEGABYTES)
        watch = os.path.join(room, "watch")
        subprocess.run([compiler, "-O2", "-o", watch, os.path.join(TOP, "bench", "peers", "watch.c")], check=True)
        for language in chosen:
            peer = os.path.join(room, "peer-" + language)
            subprocess.run([compiler, "-O2", "-o", peer, os.path.join(TOP, "bench", "peers", language + ".c")], check=True)
            for name, text in BY_HAND.items() if language == "brainfuck" else PROGRAMS.items():
                source = os.path.join(room, "source.eir")
                with open(source, "w") as file:
                    file.write(text)
                path = source
                if language not in ("brainfuck", "eir"):
                    path = os.path.join(room, "program." + language)
                    with open(path, "wb") as file:
                        if language == "wasm":
                            file.write(module_of(text))
                        else:
                            file.write(subprocess.run([program(), "emit", "--target", language, source], capture_output=True, check=True).stdout)
                compare(watch, language, name, path, peer, given)
    return 0


if __name__ == "__main__":
    sys.exit(main())
