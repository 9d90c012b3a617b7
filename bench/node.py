#!/usr/bin/env python3
"""Runs each program of examples/ as a WebAssembly module in node, and compares what it writes with what `eir` writes.

The modules are made by the program that `--program` names, or that `./elvm` would run. It needs node on the path: where node
isn't there it says so, skips all and succeeds.
"""
import os
import shutil
import subprocess
import sys
import tempfile

from examples import beside
from program import TOP, run

HOST = """
const fs = require("fs");
const input = fs.readFileSync(0);
const output = [];
let at = 0;
const env = {
  getchar: () => (at < input.length ? input[at++] : 0),
  putchar: (byte) => { output.push(byte & 255); },
};
const module = new WebAssembly.Module(fs.readFileSync(process.argv[1]));
new WebAssembly.Instance(module, { env }).exports.main();
fs.writeSync(1, Buffer.from(output));
"""


def in_node(node, path, given):
    made = subprocess.run([node, "-e", HOST, path], input=given, capture_output=True, timeout=120)
    return made.stdout if made.returncode == 0 else made.stderr


def show(node, name, path, room):
    given = beside(os.path.join(TOP, "examples", name + ".eir"), ".in")
    wanted = run(["eir", path], given)[1]
    status, module, _ = run(["emit", "--target", "wasm", path])
    if status != 0:
        print(f"{name}: emit answers {status}")
        return False
    emitted = os.path.join(room, name + ".wasm")
    with open(emitted, "wb") as file:
        file.write(module)
    got = in_node(node, emitted, given)
    print(f"{name}: {len(module)} bytes, {'same' if got == wanted else got}")
    return got == wanted


def main():
    node = shutil.which("node")
    if node is None:
        print("skipped: node isn't there")
        return 0
    folder = os.path.join(TOP, "examples")
    names = sorted(file[:-4] for file in os.listdir(folder) if file.endswith(".eir"))
    with tempfile.TemporaryDirectory() as room:
        shown = [show(node, name, os.path.join(folder, name + ".eir"), room) for name in names]
    return 0 if all(shown) else 1


if __name__ == "__main__":
    sys.exit(main())
