#!/usr/bin/env python3
"""Measures the program that `--program` names, or that `./elvm` would run, and prints five tables.

1. Steps a second of EIR, Whitespace, SUBLEQ and WebAssembly, on a loop of arithmetic and on a loop of loads and stores.
2. Seconds and bytes of `emit` for growing programs.
3. Target steps for one EIR step, over small programs: the median and the worst, beside the proved bound.
4. Seconds of `sample`.
5. Of Piet: seconds in which an image of a million codels is read and prepared, and steps a second on the column of a board.
"""
import os
import random
import sys
import tempfile

from program import program, run

ARITHMETIC = "l: add A, 3\nsub A, 1\nadd B, A\njmp l\n"
MEMORY = "l: add A, 1\njlt m, A, 1000\nmov A, 0\nm: store B, A\nload B, A\nadd B, 1\njmp l\n"
SMALL = {
    "hi": ("mov A, 72\nputc A\nmov A, 105\nputc A\nexit\n", b""),
    "copy": ("l: getc A\njeq e, A, 0\nputc A\njmp l\ne: exit\n", b"the quick brown fox"),
    "wrap": ("sub A, 1\nputc A\nexit\n", b""),
    "ends": ("mov A, 99\njmp A\n", b""),
    "memory": ("mov A, 65\nstore A, 0\nmov A, 66\nstore A, 16777215\nload B, 0\nputc B\nload B, 16777215\nputc B\nexit\n", b""),
    "compare": ("mov A, 8388608\nlt A, 1\nadd A, 48\nputc A\nexit\n", b""),
    "jump": ("mov A, 3\neq A, 3\njmp A\nputc 88\nmov B, 89\nputc B\nexit\n", b""),
    "count": ("mov A, 200\nl: sub A, 1\njne l, A, 0\nexit\n", b""),
    # a jump by a register among 1,000 blocks
    "blocks": ("mov A, 990\njmp A\n" + "".join(f"b{k}: mov B, {k}\njmp b{k + 1}\n" for k in range(1000)) + "b1000: exit\n", b""),
}
FACTORS = {"whitespace": 2**8, "subleq": 2**13}
EMITTED = ("brainfuck", "whitespace", "subleq", "piet")

# a module with an endless loop: local 0 becomes 3 * local 0 + 1, again and again
LOOP = bytes.fromhex(
    "0061736d01000000" "010401600000" "03020100" "0708" "01046d61696e0000"
    "0a15" "01" "13" "01017f" "0340" "2000" "4103" "6c" "4101" "6a" "2100" "0c00" "0b" "0b"
)


def steps_to_end(verb, path, given):
    """The least number of steps after which a run has ended, by doubling and halving."""
    high = 1
    while run([*verb, "--steps", str(high), path], given)[0] == 3:
        high *= 2
    low = high // 2
    while low + 1 < high:
        middle = (low + high) // 2
        if run([*verb, "--steps", str(middle), path], given)[0] == 3:
            low = middle
        else:
            high = middle
    return high


def speed(room):
    print("steps a second")
    for name, text in (("arithmetic", ARITHMETIC), ("memory", MEMORY)):
        path = os.path.join(room, name + ".eir")
        open(path, "w").write(text)
        print(f"  {name:12} eir        {rate(['eir'], path):12,.0f}")
        for target in FACTORS:
            emitted = os.path.join(room, name + "." + target)
            status, text_out, _ = run(["emit", "--target", target, path])
            open(emitted, "wb").write(text_out)
            print(f"  {name:12} {target:10} {rate(['run', '--target', target], emitted):12,.0f}")
    path = os.path.join(room, "loop.wasm")
    open(path, "wb").write(LOOP)
    print(f"  {'loop':12} {'wasm':10} {rate(['run', '--target', 'wasm'], path):12,.0f}")


def rate(verb, path):
    count = 1000
    while True:
        _, _, seconds = run([*verb, "--steps", str(count), path])
        if seconds > 2:
            return count / seconds
        count *= 4


def emission(room):
    print("emit: operations, seconds, bytes; 8 is the status of a program above the target's limit")
    for target in EMITTED:
        for count in (10, 100, 1000, 10_000, 100_000):
            path = os.path.join(room, f"ops{count}.eir")
            open(path, "w").write("mov A, 7\nadd A, 12345\nputc A\nsub B, A\n" * (count // 4) + "exit\n")
            status, text, seconds = run(["emit", "--target", target, path])
            print(f"  {target:10} {count:8,} {seconds:8.2f} {len(text):12,}  status {status}")


def ratios(room):
    print("target steps for one EIR step: median, worst program, the bound for one step")
    for target, factor in FACTORS.items():
        found = []
        for name, (text, given) in SMALL.items():
            path = os.path.join(room, name + ".eir")
            open(path, "w").write(text)
            emitted = os.path.join(room, name + "." + target)
            open(emitted, "wb").write(run(["emit", "--target", target, path])[1])
            source = steps_to_end(["eir"], path, given)
            goal = steps_to_end(["run", "--target", target], emitted, given)
            found.append((goal / source, name))
            print(f"  {target:10} {name:10} {source:8,} {goal:10,} {goal / source:10.1f}")
        found.sort()
        print(f"  {target:10} median {found[len(found) // 2][0]:.1f}, worst {found[-1][0]:.1f} ({found[-1][1]}); proved: {factor} * (size + 1)")


HUES = [(255, 0, 0), (255, 255, 0), (0, 255, 0), (0, 255, 255), (0, 0, 255), (255, 0, 255)]
# what the column of a board does between its lanes, as changes of hue and of lightness
COLUMN = [(4, 0), (2, 2), (3, 1), (0, 1), (1, 1)]
# a change for each command of a lane
CHANGES = {"pop": (0, 2), "push": (0, 1), "add": (1, 0), "duplicate": (4, 0)}


def pixel(hue, light):
    """A hue, light (0), normal (1) or dark (2)."""
    low, high = ((192, 255), (0, 255), (0, 192))[light]
    return " ".join(str(high if part else low) for part in HUES[hue])


def moved(shade, change):
    return ((shade[0] + change[0]) % 6, (shade[1] + change[1]) % 3)


def number(n):
    """The commands that push a number above 0."""
    out = ["push"]
    for digit in bin(n)[3:]:
        out += ["duplicate", "add"] + (["push", "add"] if digit == "1" else [])
    return out


def board(count):
    """A board of so many lanes, of which the last goes to itself for ever: each time the run comes down the whole column."""
    lane = number(count - 1)
    reach, black, white = len(lane), "0 0 0", "255 255 255"
    start = 6 + 5 * (count - 1)
    rows = [[white] * (reach + 5)]
    for y in range(1, 5 * count + 6):
        row = [black] * (reach + 5)
        i, below = divmod(y - 3, 5)
        if y == 2:
            row = [white] * (reach + 5)
        elif y >= 5 * count + 4:
            row[reach + 1] = row[reach + 2] = white
        elif y >= 3:
            shade = (4 * i % 6, 2 * i % 3)
            for change in COLUMN[:below]:
                shade = moved(shade, change)
            row[reach + 2] = pixel(*shade)
            if y < 5 * count + 3:
                row[0] = white
            if below == 3:
                row[: reach + 2] = [white] * (reach + 2)
                for k, command in enumerate(["pop"] + (lane if i == count - 1 else [])):
                    shade = moved(shade, CHANGES[command])
                    row[reach + 1 - k] = pixel(*shade)
        row[reach + 3] = white if y == start else black
        row[reach + 4] = white if y <= start else black
        rows.append(row)
    return f"P3\n{reach + 5} {len(rows)}\n255\n" + "\n".join(" ".join(row) for row in rows) + "\n"


def images(room):
    print("Piet")
    path = os.path.join(room, "million.ppm")
    chance = random.Random(1)
    with open(path, "w") as file:
        file.write("P3 1000 1000 255\n")
        for _ in range(1000):
            file.write(" ".join(pixel(chance.randrange(6), chance.randrange(3)) for _ in range(1000)) + "\n")
    _, _, seconds = run(["run", "--target", "piet", "--steps", "1", path])
    print(f"  a million codels read and prepared in {seconds:.2f} s (wanted: below 1)")
    path = os.path.join(room, "board.ppm")
    open(path, "w").write(board(4000))
    _, _, ready = run(["run", "--target", "piet", "--steps", "1", path])
    count = 1_000_000
    while True:
        _, _, seconds = run(["run", "--target", "piet", "--steps", str(count), path])
        if seconds - ready > 2:
            break
        count *= 4
    print(f"  {count / (seconds - ready):,.0f} steps a second on a column (wanted: 20,000,000)")


def main():
    program()
    with tempfile.TemporaryDirectory() as room:
        speed(room)
        emission(room)
        ratios(room)
        images(room)
    print("sample")
    for count in (3, 2000, 20_000):
        status, line, seconds = run(["sample", str(count)])
        print(f"  {seconds:8.2f} s  {line.decode().strip()}")


if __name__ == "__main__":
    sys.exit(main())
