// A host of env.getchar and env.putchar for node:   node suite/host/node.js PROGRAM.wasm
// It writes what the module has written also where that then traps, and the status is 0 for an end, 1 for a module that is refused
// and 4 for a trap.
"use strict";
const fs = require("fs");

let input = null, at = 0;
let room = Buffer.alloc(65536), size = 0;

function flush() {
  for (let from = 0; from < size;) from += fs.writeSync(1, room, from, size - from);
  size = 0;
}

const env = {
  // The input is read at once, when the first byte of it is wanted. Past its end there are zeros.
  getchar() {
    flush();
    if (input === null) input = fs.readFileSync(0);
    return at < input.length ? input[at++] : 0;
  },
  putchar(byte) {
    if (size === room.length) flush();
    room[size++] = byte & 255;
  },
};

function refuse(why) {
  console.error(`${process.argv[2]}: ${why}`);
  process.exit(1);
}

let compiled;
try {
  compiled = new WebAssembly.Module(fs.readFileSync(process.argv[2]));
} catch (error) {
  refuse(error.message);
}
if (!WebAssembly.Module.exports(compiled).some((item) => item.name === "main" && item.kind === "function")) refuse("it exports no function main");
try {
  const { main } = new WebAssembly.Instance(compiled, { env }).exports;
  if (main.length !== 0) refuse("main takes values");
  main();
  flush();
} catch (error) {
  flush();
  console.error(`${process.argv[2]}: ${error.message}`);
  process.exit(error instanceof WebAssembly.LinkError ? 1 : 4);
}
