// A Worker unpacks the program, or runs one word of it. For the first the page sends { packed, length }, and receives the compiled module.
// For the other it sends { module, args, files, rowsAtOnce }, and receives messages about the run.
"use strict";

// The Worker holds this many bytes of files at once, in equal shares.
const HELD = 4 << 20;
const LEAST_HELD = 64 << 10;
// Written bytes go to the browser in pieces of this many bytes.
const PIECE = 1 << 20;
const BETWEEN_REPORTS = 60;
const LINE_END = 10;

const nowhere = new MessageChannel().port1;
nowhere.close();

/** A file of the page, read by pieces. */
class Input {
  constructor(file, room) {
    this.file = file;
    this.size = file.size;
    this.room = room;
    this.reader = new FileReaderSync();
    this.start = 0;
    this.held = new Uint8Array(0);
  }

  read(at, length) {
    if (at >= this.size) return new Uint8Array(0);
    if (at < this.start || at >= this.start + this.held.length) this.hold(at);
    return this.held.subarray(at - this.start, at - this.start + length);
  }

  hold(at) {
    // A sent buffer is freed at once. Otherwise it would wait for a collection of memory, and there is no time for that while the program
    // runs.
    nowhere.postMessage(null, [this.held.buffer]);
    this.start = at;
    this.held = new Uint8Array(this.reader.readAsArrayBuffer(this.file.slice(at, at + this.room)));
  }
}

/** What the program writes, as a Blob. The browser keeps a large one on disk. */
class Output {
  constructor() {
    this.size = 0;
    this.blobs = [];
    this.empty();
  }

  empty() {
    this.pieces = [];
    this.pending = 0;
  }

  write(bytes) {
    this.pieces.push(bytes.slice());
    this.size += bytes.length;
    this.pending += bytes.length;
    if (this.pending >= PIECE) this.settle();
  }

  settle() {
    if (this.pending) this.blobs.push(new Blob(this.pieces));
    this.empty();
  }

  blob() {
    this.settle();
    return new Blob(this.blobs);
  }
}

/** Lines of a list, which go to the page in Blobs of this many. */
class Rows extends Output {
  constructor(atOnce) {
    super();
    this.atOnce = atOnce;
    this.rows = 0;
  }

  write(bytes) {
    let start = 0;
    for (let at = bytes.indexOf(LINE_END); at >= 0; at = bytes.indexOf(LINE_END, at + 1)) {
      if (++this.rows < this.atOnce) continue;
      this.pieces.push(bytes.slice(start, at + 1));
      this.send();
      start = at + 1;
    }
    if (start < bytes.length) this.pieces.push(bytes.slice(start));
  }

  send() {
    if (this.rows) postMessage({ rows: this.rows, blob: new Blob(this.pieces) });
    this.rows = 0;
    this.empty();
  }

  blob() {
    this.send();
    return new Blob();
  }
}

/** Reports to the page how many bytes were read, not too often. */
function reporter() {
  let read = 0, last = performance.now();
  return (length) => {
    read += length;
    const now = performance.now();
    if (now - last < BETWEEN_REPORTS) return;
    last = now;
    postMessage({ read });
  };
}

function compiled({ packed, length }) {
  return new WebAssembly.Module(unpack(Uint8Array.from(atob(packed), (sign) => sign.charCodeAt(0)), length));
}

function run({ module, args, files, rowsAtOnce }) {
  const begun = performance.now();
  const room = Math.max(LEAST_HELD, Math.floor(HELD / files.length));
  const inputs = new Map(files.map(({ name, file }) => [name, new Input(file, room)]));
  const createOutput = (to) => (rowsAtOnce && to === STANDARD_OUTPUT ? new Rows(rowsAtOnce) : new Output());
  const system = new System(["pcapfile", ...args], inputs, createOutput, reporter());
  let status = null, stopped = null;
  try {
    status = system.run(module);
  } catch (fault) {
    stopped = String(fault);
  }
  postMessage({
    done: true, status, stopped,
    unreadable: system.unreadable ? String(system.unreadable.message) : null,
    output: system.output.blob(),
    errors: system.errors.blob(),
    written: [...system.written].map(([name, output]) => ({ name, blob: output.blob() })),
    milliseconds: performance.now() - begun,
    memory: (system.memory?.buffer.byteLength ?? 0) + room * files.length,
  });
}

onmessage = ({ data }) => (data.packed ? postMessage(compiled(data)) : run(data));
