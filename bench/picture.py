#!/usr/bin/env python3
"""Turns an image in the text form of PPM (P3) into a PNG, each pixel enlarged. It needs python3 alone.

Usage: bench/picture.py [--scale N] FILE.ppm FILE.png
"""
import argparse
import re
import struct
import sys
import zlib


def read_image(text):
    """Width, height and the rows of a P3 text, three bytes a pixel."""
    words = re.sub(r"#[^\n]*", " ", text).split()
    if words[:1] != ["P3"] or words[3:4] != ["255"]:
        sys.exit("this is no P3 text with 255 as its greatest value")
    width, height = int(words[1]), int(words[2])
    values = bytes(int(word) for word in words[4:])
    if len(values) != 3 * width * height:
        sys.exit(f"{width} times {height} pixels want {3 * width * height} numbers, and there are {len(values)}")
    return width, height, [values[3 * width * y : 3 * width * (y + 1)] for y in range(height)]


def chunk(name, data):
    return struct.pack(">I", len(data)) + name + data + struct.pack(">I", zlib.crc32(name + data))


def png(width, height, rows, scale):
    """The bytes of a PNG with 8 bits a colour, in which each pixel is a square of `scale` by `scale`."""
    wide = [b"".join(row[3 * x : 3 * x + 3] * scale for x in range(width)) for row in rows]
    lines = b"".join((b"\0" + row) * scale for row in wide)
    header = struct.pack(">IIBBBBB", width * scale, height * scale, 8, 2, 0, 0, 0)
    return b"\x89PNG\r\n\x1a\n" + chunk(b"IHDR", header) + chunk(b"IDAT", zlib.compress(lines, 9)) + chunk(b"IEND", b"")


def main():
    words = argparse.ArgumentParser(description=__doc__.splitlines()[0])
    words.add_argument("--scale", type=int, default=1)
    words.add_argument("source")
    words.add_argument("goal")
    given = words.parse_args()
    with open(given.source) as file:
        width, height, rows = read_image(file.read())
    with open(given.goal, "wb") as file:
        file.write(png(width, height, rows, given.scale))


if __name__ == "__main__":
    main()
