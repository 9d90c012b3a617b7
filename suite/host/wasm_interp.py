#!/usr/bin/env python3
"""A host for wabt's wasm-interp, which has none of its own:   suite/host/wasm_interp.py PROGRAM.wasm

wasm-validate, of wabt too, says whether the module is one. wasm-interp tells each call of an imported function in a line; those of
env.putchar are written as bytes. The input is built into the module. The status is 0 for an end, 1 for a module that is refused and 4 for a trap.
"""
import os
import re
import subprocess
import sys
import tempfile

import hosts


def main():
    checked = subprocess.run(["wasm-validate", sys.argv[1]], capture_output=True)
    if checked.returncode != 0:
        sys.stderr.buffer.write(checked.stderr)
        return 1
    with open(sys.argv[1], "rb") as file:
        given = file.read()
    module = hosts.for_host(given, hosts.Baked(sys.stdin.buffer.read()))
    # A module that stays as it is has functions of another host, or can't be read: none are made up for it then.
    flags = ["--dummy-import-func"] if module != given else []
    with tempfile.TemporaryDirectory() as room:
        path = os.path.join(room, "program.wasm")
        with open(path, "wb") as file:
            file.write(module)
        run = subprocess.run(["wasm-interp", *flags, "--run-all-exports", path], capture_output=True)
    for line in run.stdout.split(b"\n"):
        called = re.match(rb"called host env\.putchar\(i32:(\d+)\) =>", line)
        if called:
            sys.stdout.buffer.write(bytes([int(called[1]) & 255]))
    sys.stdout.buffer.flush()
    sys.stderr.buffer.write(run.stderr)
    if run.returncode != 0:
        return run.returncode if run.returncode > 0 else 128 - run.returncode
    return 1 if module == given else 4 if b"=> error:" in run.stdout else 0


if __name__ == "__main__":
    sys.exit(main())
