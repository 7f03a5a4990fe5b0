// portable/web/run.js MODULE SYSTEM: runs words in Node as the page does, one a line of standard input.
//
// A line is { words, files }, where files has a path by name. The answer is a line of { status, output, errors, written }, each of bytes in
// base64; written has them by name. The script writes none of it to files.
"use strict";
const fs = require("fs"), readline = require("readline");

const [moduleFile, systemFile] = process.argv.slice(2);
const module_ = new WebAssembly.Module(fs.readFileSync(moduleFile));
const System = new Function(`${fs.readFileSync(systemFile, "utf8")}; return System;`)();

class Held {
  constructor(path) {
    this.bytes = fs.readFileSync(path);
    this.size = this.bytes.length;
  }

  read(at, length) {
    return this.bytes.subarray(at, at + length);
  }
}

class Output {
  constructor() {
    this.pieces = [];
    this.size = 0;
  }

  write(bytes) {
    this.pieces.push(Buffer.from(bytes));
    this.size += bytes.length;
  }

  text() {
    return Buffer.concat(this.pieces).toString("base64");
  }
}

function answer({ words, files }) {
  const held = new Map(Object.entries(files).map(([name, path]) => [name, new Held(path)]));
  const system = new System(["pcapfile", ...words], held, () => new Output());
  let status = null;
  try {
    status = system.run(module_);
  } catch (fault) {
    status = String(fault);
  }
  const written = Object.fromEntries([...system.written].map(([name, output]) => [name, output.text()]));
  return { status, output: system.output.text(), errors: system.errors.text(), written, memory: system.memory.buffer.byteLength };
}

readline.createInterface({ input: process.stdin }).on("line", (line) => {
  process.stdout.write(`${JSON.stringify(answer(JSON.parse(line)))}\n`);
});
