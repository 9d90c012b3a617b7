#!/usr/bin/env python3
"""Modules over env.getchar and env.putchar, written again for engines with another host.

Usage: suite/host/hosts.py FROM.wasm TO.wasm     for WASI

A module that isn't well-formed, or whose imports are others, stays as it is: an engine refuses it.
"""
import sys

I32, FUNC = b"\x7f", b"\x60"


def leb(number):
    made = bytearray()
    while number > 127:
        made.append(number & 127 | 128)
        number >>= 7
    made.append(number)
    return bytes(made)


def vector(items):
    return leb(len(items)) + b"".join(items)


def sized(content):
    return leb(len(content)) + content


def name(text):
    return sized(text.encode())


class Reader:
    """Bytes that are read from the front. What isn't there raises IndexError."""

    def __init__(self, content):
        self.content, self.at = content, 0

    def byte(self):
        self.at += 1
        return self.content[self.at - 1]

    def number(self):
        number, shift = 0, 0
        while True:
            byte = self.byte()
            number |= (byte & 127) << shift
            shift += 7
            if byte < 128:
                return number

    def take(self, size):
        self.at += size
        if self.at > len(self.content):
            raise IndexError
        return self.content[self.at - size : self.at]

    def sized(self):
        return self.take(self.number())

    def is_done(self):
        return self.at >= len(self.content)


def sections_of(content):
    reader, found = Reader(content), {}
    if reader.take(8) != b"\0asm\1\0\0\0":
        raise ValueError
    while not reader.is_done():
        number = reader.byte()
        if number in found:
            raise ValueError
        body = reader.sized()
        if number != 0:
            found[number] = body
    return found


def items(content, read):
    """What a section's vector holds, each item by `read`."""
    if content is None:
        return []
    reader = Reader(content)
    return [read(reader) for _ in range(reader.number())]


def read_type(reader):
    begin = reader.at
    reader.byte()
    reader.sized()
    reader.sized()
    return reader.content[begin : reader.at]


def read_import(reader):
    module, field, kind = reader.sized(), reader.sized(), reader.byte()
    if kind != 0 or module != b"env" or field not in (b"getchar", b"putchar"):
        raise ValueError
    return field.decode(), reader.number()


def read_export(reader):
    return reader.sized(), reader.byte(), reader.number()


def pieces_of(body):
    """A body's locals and then its instructions: the opcode, of a call the function's number, and the bytes."""
    reader = Reader(body)
    for _ in range(reader.number()):
        reader.number()
        reader.byte()
    yield None, None, body[: reader.at]
    while not reader.is_done():
        begin, opcode, called = reader.at, reader.byte(), None
        if opcode == 0x10:
            called = reader.number()
        elif opcode in (0x02, 0x03, 0x04, 0x3F, 0x40):
            reader.byte()
        elif opcode in (0x0C, 0x0D, 0x41) or 0x20 <= opcode <= 0x24:
            reader.number()
        elif opcode == 0x0E:
            for _ in range(reader.number() + 1):
                reader.number()
        elif 0x28 <= opcode <= 0x3E:
            reader.number()
            reader.number()
        yield opcode, called, body[begin : reader.at]


def moved_code(body, moved):
    """A body's bytes with the numbers of the functions that it calls moved."""
    return b"".join(content if called is None else b"\x10" + leb(moved(called)) for _, called, content in pieces_of(body))


def const(number):
    """i32.const of a number from 0 to 2^31 - 1."""
    made = bytearray()
    while number > 63:
        made.append(number & 127 | 128)
        number >>= 7
    return b"\x41" + bytes(made) + bytes([number])


NOTHING, GETCHAR, PUTCHAR = FUNC + vector([]) + vector([]), FUNC + vector([]) + vector([I32]), FUNC + vector([I32]) + vector([])
READ_WRITE = FUNC + vector([I32] * 4) + vector([I32])


class Wasi:
    """fd_read and fd_write, and _start, which runs the start function and then main: an engine may know of _start alone.

    A call takes sixteen bytes of memory, which are put back after it; so a module that begins with a memory of no page stays as it is.
    """

    imports = [("wasi_snapshot_preview1", "fd_read", READ_WRITE), ("wasi_snapshot_preview1", "fd_write", READ_WRITE)]
    needs_memory, has_start = True, True

    def getchar(self, counter):
        return host_call(True, 0)

    def putchar(self):
        return host_call(False, 1)

    def exports(self, main, others):
        """`main` is the function that is appended last."""
        names = [field for field, _, _ in others]
        return others + [(b"_start", 0, main)] + ([] if b"memory" in names else [(b"memory", 2, 0)])


class Baked:
    """env.putchar alone: the input stands in the module. It exports main and nothing else, for engines that run all exports."""

    imports = [("env", "putchar", PUTCHAR)]
    needs_memory, has_start = False, False

    def __init__(self, given):
        self.given = given

    def getchar(self, counter):
        """A global counts what was taken."""
        at = b"\x23" + leb(counter)
        code = at + b"\x21\x00" + at + const(1) + b"\x6a\x24" + leb(counter)
        for place, byte in enumerate(self.given):
            code += b"\x20\x00" + const(place) + b"\x46\x04\x40" + const(byte) + b"\x0f\x0b"
        return b"\x01\x01" + I32 + code + const(0) + b"\x0b"

    def putchar(self):
        return b"\x00\x20\x00\x10\x00\x0b"

    def exports(self, main, others):
        return [(b"main", 0, main)]


def host_call(is_read, given):
    """The body of a function that moves one byte by WASI: the byte stands at 8, its address and count at 0, and the answer at 12.
    What stood there is kept in locals, from `given` on, and put back."""
    code = b"".join(const(4 * k) + b"\x28\x02\x00\x21" + bytes([given + k]) for k in range(4))
    byte = const(0) if is_read else b"\x20\x00"
    for place, value in ((0, const(8)), (4, const(1)), (8, byte), (12, const(0))):
        code += const(place) + value + b"\x36\x02\x00"
    code += const(0 if is_read else 1) + const(0) + const(1) + const(12) + b"\x10" + (b"\x00" if is_read else b"\x01") + b"\x1a"
    if is_read:
        code += const(8) + b"\x2d\x00\x00\x21\x04"
    code += b"".join(const(4 * k) + b"\x20" + bytes([given + k]) + b"\x36\x02\x00" for k in range(4))
    return b"\x01" + leb(5 if is_read else 4) + I32 + code + (b"\x20\x04" if is_read else b"") + b"\x0b"


class Parts:
    """What a module is made of, and where its functions stand once its imports are the host's."""

    def __init__(self, content, host):
        self.sections = sections = sections_of(content)
        self.types = items(sections.get(1), read_type)
        self.imports = items(sections.get(2), read_import)
        self.functions = items(sections.get(3), Reader.number)
        self.exports = items(sections.get(7), read_export)
        self.before, self.added = len(self.imports), len(host.imports)
        places = {"getchar": self.added + len(self.functions), "putchar": self.added + len(self.functions) + 1}
        self.places = [places[field] for field, _ in self.imports]
        wanted = {"getchar": GETCHAR, "putchar": PUTCHAR}
        if any(self.types[kind] != wanted[field] for field, kind in self.imports):
            raise ValueError

    def moved(self, index):
        """Where a function stands now. What wasn't there isn't there."""
        if index < self.before:
            return self.places[index]
        return self.added + index - self.before if index < self.before + len(self.functions) else 0xFFFFFFF

    def main(self):
        found = [index for field, kind, index in self.exports if kind == 0 and field == b"main"]
        if not found or self.types[self.functions[found[0] - self.before]] != NOTHING:
            raise ValueError
        return self.moved(found[0])

    def memory(self, host):
        found = self.sections.get(5, b"\x01\x00\x01" if host.needs_memory else None)
        if host.needs_memory and found[2:3] == b"\0":
            raise ValueError
        return found


def code_of(parts, host, counter):
    """The bodies: those that there were, the host's two, and one that runs what is to be run first and then main."""
    bodies = [moved_code(body, parts.moved) for body in items(parts.sections.get(10), Reader.sized)]
    first = [parts.main()]
    if 8 in parts.sections and host.has_start:
        first.insert(0, parts.moved(Reader(parts.sections[8]).number()))
    last = b"\0" + b"".join(b"\x10" + leb(index) for index in first) + b"\x0b"
    return bodies + [host.getchar(counter), host.putchar(), last]


def rewritten(content, host):
    parts = Parts(content, host)
    sections, kinds = parts.sections, len(parts.types)
    types = parts.types + [GETCHAR, PUTCHAR, NOTHING] + [kind for _, _, kind in host.imports]
    globals_ = Reader(sections.get(6, b"\0"))
    counter = globals_.number()
    bodies = code_of(parts, host, counter)
    exports = [(field, kind, parts.moved(index) if kind == 0 else index) for field, kind, index in parts.exports]
    made = {
        1: vector(types),
        2: vector([name(module) + name(field) + b"\0" + leb(types.index(kind)) for module, field, kind in host.imports]),
        3: vector([leb(kind) for kind in parts.functions + [kinds, kinds + 1, kinds + 2]]),
        5: parts.memory(host),
        6: leb(counter + 1) + globals_.content[globals_.at :] + I32 + b"\x01" + const(0) + b"\x0b",
        7: vector([sized(field) + bytes([kind]) + leb(index) for field, kind, index in host.exports(parts.added + len(bodies) - 1, exports)]),
        8: leb(parts.moved(Reader(sections[8]).number())) if 8 in sections and not host.has_start else None,
        10: vector([sized(body) for body in bodies]),
        11: sections.get(11),
    }
    return content[:8] + b"".join(bytes([number]) + sized(body) for number, body in made.items() if body is not None)


def for_host(content, host):
    """The module for another host, or the same bytes where there is none."""
    try:
        return rewritten(content, host)
    except (IndexError, ValueError, KeyError):
        return content


if __name__ == "__main__":
    with open(sys.argv[1], "rb") as file:
        module = for_host(file.read(), Wasi())
    with open(sys.argv[2], "wb") as file:
        file.write(module)
