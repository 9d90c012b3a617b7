"""Images: the text form of PPM (P3), and PNG."""
import re
import struct
import zlib


def ppm(rows):
    """P3 text of rows of pixels, three bytes each."""
    lines = [" ".join(f"{pixel[0]} {pixel[1]} {pixel[2]}" for pixel in row) for row in rows]
    return f"P3\n{len(rows[0])} {len(rows)}\n255\n{chr(10).join(lines)}\n".encode()


def read_ppm(text):
    """The rows of a P3 text, each as bytes, three for a pixel; None where it is none."""
    words = re.sub(rb"#[^\n]*", b" ", text).split()
    try:
        width, height, most = (int(word) for word in words[1:4])
        values = bytes(map(int, words[4:]))
    except ValueError:
        return None
    if words[0] != b"P3" or most != 255 or width < 1 or height < 1 or len(values) != 3 * width * height:
        return None
    return [values[3 * width * y : 3 * width * (y + 1)] for y in range(height)]


def enlarged(rows, size):
    """Rows in which each pixel is a square of `size` by `size`."""
    if size == 1:
        return rows
    wide = [b"".join(row[k : k + 3] * size for k in range(0, len(row), 3)) for row in rows]
    return [row for row in wide for _ in range(size)]


def ppm_of(rows):
    """P3 text of rows of bytes."""
    return f"P3\n{len(rows[0]) // 3} {len(rows)}\n255\n".encode() + b"".join(" ".join(map(str, row)).encode() + b"\n" for row in rows)


def chunk(name, data):
    return struct.pack(">I", len(data)) + name + data + struct.pack(">I", zlib.crc32(name + data))


def png(rows):
    """A PNG of 8 bits a colour."""
    header = struct.pack(">IIBBBBB", len(rows[0]) // 3, len(rows), 8, 2, 0, 0, 0)
    pixels = zlib.compress(b"".join(b"\0" + row for row in rows), 9)
    return b"\x89PNG\r\n\x1a\n" + chunk(b"IHDR", header) + chunk(b"IDAT", pixels) + chunk(b"IEND", b"")
