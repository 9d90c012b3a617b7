#!/usr/bin/env python3
"""Runs the program that `--program` names, or that `./elvm` would run, at the limits of what it takes, and one past them: files
of 2^29 bytes, programs of the largest size for each target, images of 2^26 codels, and texts of C with 1,000,000 tokens,
nesting of 256, weight 65,536 and 2^22 words.

It needs 2 GB of disk for temporary files, and some minutes. For each row it prints the status and the seconds, and it fails
where a status isn't the one that is stated here.
"""
import os
import subprocess
import sys
import tempfile
import time

from program import program

MOST_BYTES = 2**29
MOST_SIZE = {"brainfuck": 2**14, "whitespace": 2**17, "subleq": 2**16, "piet": 2**12, "wasm": 2**16}
MOST_CODELS = 2**26
MOST_TOKENS = 1_000_000
MOST_NESTING = 256
MOST_WEIGHT = 65_536
MOST_WORDS = 2**22
# `main` does nothing
MODULE = bytes.fromhex("0061736d01000000" "010401600000" "03020100" "070801046d61696e0000" "0a0401" "02000b")


def leb(number, width):
    """A number in LEB128 of so many bytes."""
    made = [number >> (7 * k) & 127 | 128 for k in range(width)]
    made[-1] &= 127
    return bytes(made)


def padded_module(length):
    """The module with a custom section behind it that brings it to so many bytes."""
    inside = length - len(MODULE) - 6
    return MODULE + b"\0" + leb(inside, 5) + b"\0" + bytes(inside - 1)


def padded(text, filler, length):
    return text + filler * (length - len(text))


def of_length(length):
    """A file of so many bytes for each verb that reads one, one by one, each a program that ends at once and writes nothing."""
    yield ("eir",), padded(b"exit\n#", b"x", length)
    yield ("run", "--target", "brainfuck"), padded(b"+", b"x", length)
    yield ("run", "--target", "whitespace"), padded(b"\n\n\n", b"x", length)
    yield ("run", "--target", "subleq"), padded(b"0 0 -1", b" ", length)
    yield ("run", "--target", "piet"), padded(b"P3 1 1 255 255 0 0", b" ", length)
    yield ("run", "--target", "wasm"), padded_module(length)
    yield ("c",), padded(body(b""), b" ", length)


def body(text):
    """A C program whose only function has this body: 7 tokens and a weight of 3 (the item, its type and its block) beside it."""
    return b"int main(void){" + text + b"}"


def in_brackets(depth):
    """A statement of 2 * depth + 2 tokens, of a weight of 2."""
    return b"(" * depth + b"1" + b")" * depth + b";"


def of_tokens(count):
    """A C program of so many tokens that is within each other limit: statements of 402 tokens, one that is shorter, and empty ones."""
    whole, rest = divmod(count - 7, 402)
    shorter = in_brackets((rest - 2) // 2) + b";" * (rest % 2) if rest >= 2 else b";" * rest
    return body(in_brackets(200) * whole + shorter)


def of_c(over):
    """A C program at each limit, or one past it. A body is one level of nesting; an empty statement weighs 1."""
    yield f"{MOST_TOKENS + over} tokens", of_tokens(MOST_TOKENS + over)
    yield f"nesting of {MOST_NESTING + over}", body(in_brackets(MOST_NESTING - 1 + over))
    yield f"weight {MOST_WEIGHT + over}", body(b";" * (MOST_WEIGHT - 3 + over))
    yield f"a type of {MOST_WORDS + over} words", b"struct S{int a[%d];int b;};" % (MOST_WORDS - 1 + over) + body(b"")
    yield f"{MOST_WORDS + over} words at file scope", b"int a[%d];int b;" % (MOST_WORDS - 1 + over) + body(b"")


def of_size(size):
    """An EIR program of one block that has this size."""
    return b"mov A, 1\n" * (size - 1)


def image(width, height):
    """One red codel, with black ones around it."""
    return b"P3 %d %d 255\n255 0 0\n" % (width, height) + b"0 0 0\n" * (width * height - 1)


def show(what, words, text, wanted, room):
    path = os.path.join(room, "file")
    with open(path, "wb") as file:
        file.write(text)
    begun = time.monotonic()
    process = subprocess.Popen([program(), *words, path], stdin=subprocess.DEVNULL, stdout=subprocess.DEVNULL, stderr=subprocess.PIPE)
    line = process.stderr.read()
    status = process.wait()
    seconds = time.monotonic() - begun
    said = line.decode(errors="replace").replace(path, "FILE").strip()
    mark = "" if status == wanted else f"  WANTED {wanted}"
    print(f"{what}: status {status} {said!r}, {seconds:.1f} s{mark}", flush=True)
    return status == wanted


def rows():
    for over in (0, 1):
        wanted = 8 if over else 0
        for words, text in of_length(MOST_BYTES + over):
            yield f"{' '.join(words)}, a file of 2^29{' + 1' * over} bytes", words, text, wanted
        for target, most in MOST_SIZE.items():
            yield f"emit to {target}, size {most + over}", ("emit", "--target", target), of_size(most + over), wanted
        yield f"eir, size {2**21 + over}", ("eir",), of_size(2**21 + over), wanted
        for what, text in of_c(over):
            yield f"c, {what}", ("c",), text, wanted
    yield "an image of 2^26 codels", ("run", "--target", "piet"), image(8192, 8192), 0
    yield "an image of more", ("run", "--target", "piet"), b"P3 8192 8193 255\n255 0 0\n", 8


def main():
    program()
    with tempfile.TemporaryDirectory() as room:
        held = [show(*row, room) for row in rows()]
    print(f"{sum(held)} of {len(held)} as stated")
    return 0 if all(held) else 1


if __name__ == "__main__":
    sys.exit(main())
