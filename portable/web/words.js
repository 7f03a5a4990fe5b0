// Runs words of the program, each in a Worker of its own. A stop ends it at once.

/** Compiles the program that the page holds. */
function compile(script) {
  const it = byId("module"), worker = new Worker(script);
  it.remove();
  worker.postMessage({ packed: it.textContent, length: Number(it.dataset.bytes) });
  return new Promise((settle, fail) => {
    worker.onmessage = ({ data }) => settle(data);
    worker.onerror = ({ message }) => fail(message);
  }).finally(() => worker.terminate());
}

/** Returns one line that says what this browser lacks, or null. */
function whatIsMissing() {
  if (typeof WebAssembly === "undefined") return "This browser cannot run WebAssembly, which this page needs.";
  if (typeof Worker === "undefined") return "This browser has no Workers, which this page needs.";
  return null;
}

class Program {
  constructor() {
    this.script = URL.createObjectURL(new Blob([byId("worker").textContent], { type: "text/javascript" }));
    this.module = compile(this.script);
  }

  /** Starts a word over captures. Their names are in `args`, as `argument` gives them. */
  start(args, captures, options = {}) {
    return new Run(this, args, captures, options);
  }
}

/** A word that runs. `result` settles once; until then the run calls `onRead(read, total)` and `onRows(blob, rows)`. */
class Run {
  constructor(program, args, captures, { onRows = null } = {}) {
    this.args = args;
    this.total = captures.reduce((sum, capture) => sum + capture.file.size, 0);
    this.onRead = () => {};
    this.onRows = onRows;
    this.ended = false;
    this.result = new Promise((settle) => (this.settle = settle));
    const files = captures.map(({ name, file }) => ({ name, file }));
    program.module.then(
      (module) => this.work(program.script, { module, args, files, rowsAtOnce: onRows ? ROWS_AT_ONCE : 0 }),
      (fault) => this.fail(fault),
    );
  }

  work(script, order) {
    if (this.ended) return;
    this.worker = new Worker(script);
    this.worker.onmessage = ({ data }) => this.hear(data);
    this.worker.onerror = (event) => this.fail(event.message);
    this.worker.postMessage(order);
  }

  hear(message) {
    if (this.ended) return;
    if (message.read) this.onRead(Math.min(message.read, this.total), this.total);
    if (message.rows) this.onRows(message.blob, message.rows);
    if (message.done) this.end(message);
  }

  fail(fault) {
    this.end({ status: null, stopped: String(fault), output: new Blob(), errors: new Blob(), written: [] });
  }

  /** Ends the run at once. What it wrote until then is lost, except rows. */
  stop() {
    this.end({ status: null, byUser: true, output: new Blob(), errors: new Blob(), written: [] });
  }

  end(result) {
    if (this.ended) return;
    this.ended = true;
    this.worker?.terminate();
    this.settle(result);
  }
}

/** Returns a name as an argument. A name that begins with a hyphen must not be an option. */
function argument(name) {
  return name.startsWith("-") ? `./${name}` : name;
}

/** Returns the command that does the same at a shell. */
function commandOf(args) {
  const quoted = args.map((word) => (/^[\w@%+=:,./-]+$/.test(word) ? word : `'${word.replaceAll("'", "'\\''")}'`));
  return ["pcapfile", ...quoted].join(" ");
}

/** Returns the text at the front of a Blob, and whether that is all of it. */
async function frontOf(blob, most) {
  const text = await blob.slice(0, most).text();
  return { text: blob.size > most ? text.slice(0, text.lastIndexOf("\n") + 1) : text, isAll: blob.size <= most };
}

/** Returns the program's messages, without its own name before each line. */
async function messagesOf(result, most = 20000) {
  const { text, isAll } = await frontOf(result.errors, most);
  const lines = text.split("\n").filter(Boolean).map((line) => line.replace(/^pcapfile: /, ""));
  return { lines, isAll };
}

const UNREADABLE =
  "The browser could not read the file. It may have been moved, changed or deleted since you opened it: open it again.";

/** Returns the reason why a word failed, in one sentence. Returns null if it succeeded or found a fault in a capture. */
function failureOf(result) {
  if (result.byUser) return "You stopped it.";
  if (result.stopped && /memory/i.test(result.stopped)) return "Memory ran out.";
  if (result.stopped) return `The program stopped, which is a fault of the program (${result.stopped}).`;
  if (result.unreadable) return UNREADABLE;
  if (result.status === 4) return "Memory ran out.";
  if (result.status === 3) return "A file could not be read or written.";
  if (result.status === 2) return "The program did not understand what it was asked for.";
  return null;
}
