// The system that one run of the program sees, in a Worker or in Node: its arguments, the files that it reads, and what it writes.
"use strict";

// Linux's numbers, which system.c passes on.
const ENOENT = 2, EIO = 5, EBADF = 9, EACCES = 13, EEXIST = 17, EINVAL = 22;
const ACCESS = 3, CREATE = 0o100, EXCLUSIVE = 0o200, APPEND = 0o2000;
const REGULAR = 0o100644, PIPE = 0o010600;
const STANDARD_OUTPUT = 1, STANDARD_ERROR = 2;
const NOTHING = { size: 0, read: () => new Uint8Array(0) };

/** Returns the name for a path of the program. The page passes a name that begins with a hyphen as "./-name". */
function nameOf(path) {
  return path.startsWith("./") ? path.slice(2) : path;
}

/**
 * The calls of system.c. `files` has a { size, read(at, length) } by name, and `read` returns at most `length` bytes. `createOutput()`
 * makes what takes written bytes: a { size, write(bytes) }. `progress(length)` is called with each length that is read.
 */
class System {
  constructor(args, files, createOutput, progress = () => {}) {
    this.arguments = args.map((word) => new TextEncoder().encode(word));
    this.files = files;
    this.createOutput = createOutput;
    this.progress = progress;
    this.written = new Map();
    this.output = createOutput(STANDARD_OUTPUT);
    this.errors = createOutput(STANDARD_ERROR);
    const streams = [{ input: NOTHING }, { output: this.output }, { output: this.errors }];
    this.open = streams.map((it) => ({ ...it, at: 0, isPipe: true }));
    this.memory = null;
  }

  /** Runs the program to its end, and returns its status. Throws if WebAssembly stops. */
  run(module) {
    const names = ["argument", "open", "read", "readAt", "write", "close", "duplicate", "rename", "unlink", "stat", "clock"];
    const host = Object.fromEntries(names.map((name) => [name, (...numbers) => this[name === "open" ? "openFile" : name](...numbers)]));
    const instance = new WebAssembly.Instance(module, { host });
    this.memory = instance.exports.memory;
    return instance.exports.run();
  }

  bytes(at, length) {
    return new Uint8Array(this.memory.buffer, at, length);
  }

  name(at, length) {
    return nameOf(new TextDecoder().decode(this.bytes(at, length)));
  }

  argument(index, to, room) {
    const word = this.arguments[index];
    if (!word) return -1;
    this.bytes(to, room).set(word.subarray(0, room));
    return word.length <= room ? word.length : -2;
  }

  openFile(at, length, flags) {
    const name = this.name(at, length);
    const opened = (flags & ACCESS) === 0 ? this.openInput(name) : this.openOutput(name, flags);
    return typeof opened === "number" ? opened : this.numberOf(opened);
  }

  /** Returns a free descriptor for what is now open. */
  numberOf(opened) {
    const free = this.open.findIndex((it, number) => number > STANDARD_ERROR && !it);
    const number = free < 0 ? this.open.length : free;
    this.open[number] = opened;
    return number;
  }

  duplicate(number) {
    return this.open[number] ? this.numberOf(this.open[number]) : -EBADF;
  }

  openInput(name) {
    const input = this.files.get(name);
    return input ? { input, at: 0 } : this.written.has(name) ? -EACCES : -ENOENT;
  }

  openOutput(name, flags) {
    const isThere = this.files.has(name) || this.written.has(name);
    if ((flags & ACCESS) === ACCESS || flags & APPEND) return -EINVAL;
    if (isThere && flags & EXCLUSIVE) return -EEXIST;
    if (this.files.has(name)) return -EACCES;
    if (!isThere && !(flags & CREATE)) return -ENOENT;
    const output = this.createOutput(name);
    this.written.set(name, output);
    return { output };
  }

  read(number, to, room) {
    const file = this.open[number];
    const length = this.readAt(number, to, room, file?.at);
    if (length >= 0) {
      file.at += length;
      this.progress(length);
    }
    return length;
  }

  /** Reads at a place of the file, and leaves its position as it is. */
  readAt(number, to, room, place) {
    const file = this.open[number];
    if (!file?.input) return -EBADF;
    let bytes;
    try {
      bytes = file.input.read(place, room);
    } catch (fault) {
      this.unreadable = fault;
      return -EIO;
    }
    this.bytes(to, bytes.length).set(bytes);
    return bytes.length;
  }

  write(number, from, length) {
    const output = this.open[number]?.output;
    if (!output) return -EBADF;
    output.write(this.bytes(from, length));
    return length;
  }

  close(number) {
    if (!this.open[number]) return -EBADF;
    this.open[number] = null;
    return 0;
  }

  rename(from, fromLength, to, toLength) {
    const name = this.name(from, fromLength), output = this.written.get(name);
    if (!output) return -ENOENT;
    this.written.delete(name);
    this.written.set(this.name(to, toLength), output);
    return 0;
  }

  unlink(at, length) {
    return this.written.delete(this.name(at, length)) ? 0 : -ENOENT;
  }

  stat(number, at, length, to) {
    const file = length ? this.named(this.name(at, length)) : this.open[number];
    if (!file) return length ? -ENOENT : -EBADF;
    new Float64Array(this.memory.buffer, to, 2).set(file.isPipe ? [PIPE, 0] : [REGULAR, (file.input ?? file.output).size]);
    return 0;
  }

  named(name) {
    if (this.files.has(name)) return { input: this.files.get(name) };
    return this.written.has(name) ? { output: this.written.get(name) } : null;
  }

  clock(which) {
    return which === 0 ? Date.now() : performance.now();
  }
}
