// The WASI form of a module in node, as an example of an engine that has WASI alone:
//   node --no-warnings --no-turbo-fast-api-calls suite/host/wasi.js PROGRAM.wasm
// Without that flag node 20 crashes in its own short way from compiled code to fd_write, once a module has been compiled.
"use strict";
const fs = require("fs");
const { WASI } = require("wasi");

const wasi = new WASI({ version: "preview1" });
const compiled = new WebAssembly.Module(fs.readFileSync(process.argv[2]));
const instance = new WebAssembly.Instance(compiled, { wasi_snapshot_preview1: wasi.wasiImport });
process.exit(wasi.start(instance));
