// Makes captures from others: the forms, the progress, and the results.

/** Splits "name.pcap" into ["name", ".pcap"]. */
function splitName(name) {
  const dot = name.lastIndexOf(".");
  return dot > 0 ? [name.slice(0, dot), name.slice(dot)] : [name, ""];
}

/** The statuses of runs that wrote all of their output: a repair of a damaged capture ends with 5, or with 6 if a part of it is a guess. */
const WROTE_ALL = [0, 5, 6];

const BEFORE_FAULT = "The capture has a fault. What stands before it was written.";
const NOTHING_WRITTEN = "The capture has a fault, and nothing was written.";

/** A file that the page makes: its progress, then the result. */
class Job {
  /** `words` are the word and its arguments, before the output's name. */
  constructor(page, { title, words, captures, name }) {
    this.page = page;
    this.captures = captures;
    this.name = name;
    this.args = [...words, "-o", argument(name), ...captures.map((it) => argument(it.name))];
    this.run = page.program.start(this.args, captures);
    this.body = make("div.job-body", new Activity(this.run, "Reading").element);
    this.element = make(
      "li.job",
      make("div.job-head", make("h4", title), button("Dismiss", () => this.dismiss(), "button.quiet")),
      this.body,
      make("code.command", commandOf(this.args)),
    );
    this.run.result.then((result) => this.end(result));
  }

  dismiss() {
    this.run.stop();
    release(this.element);
    this.element.remove();
  }

  async end(result) {
    const failure = failureOf(result), { lines, isAll } = await messagesOf(result);
    const isWhole = !failure && WROTE_ALL.includes(result.status);
    const said = failure ?? (isWhole ? null : result.written.length ? BEFORE_FAULT : NOTHING_WRITTEN);
    this.body.replaceChildren(
      ...(said ? [make("p.note", said)] : []),
      ...this.files(result.written),
      ...this.messages(lines, isAll, result.errors),
      ...(failure ? [] : [cost(result)]));
    this.element.classList.add(isWhole ? "done" : "failed");
    say(said ?? `${this.name} is ready`);
  }

  files(written) {
    const rows = written.map(({ name, blob }) => make("div.made",
      make("span.made-name", name), make("span.muted", bytes(blob.size)),
      make("div.actions", saveLink(name, blob, "Download"), button("Open here", () => this.page.addFiles([new File([blob], name)])))));
    if (written.length < 3) return rows;
    return [
      make("p", `${grouped(written.length)} files`),
      make("div.made-list", rows),
      button("Download all", () => rows.forEach((row) => row.querySelector("a").click())),
    ];
  }

  messages(lines, isAll, errors) {
    if (!lines.length) return [];
    const shown = lines.slice(0, 100), isShort = isAll && lines.length <= 4;
    const list = make("ul.messages", shown.map((textContent) => make("li", { textContent })));
    const all = isAll && shown.length === lines.length ? null : saveLink(
      `${this.name}-messages.txt`,
      errors,
      "Save all messages",
      "a.button",
    );
    const title = isAll ? counted(lines.length, "message") : "What was changed";
    return [make("details", { open: isShort }, make("summary", title), list, all ?? "")];
  }
}

function field(label, input) {
  return make("label.field", make("span", label), input);
}

function choices(values) {
  return make("select", Object.entries(values).map(([value, textContent]) => make("option", { value, textContent })));
}

/** A form with a heading, a sentence and a button. `submit()` returns a job's order, or a text that says what is missing. */
function formCard(title, text, fields, action, submit) {
  const fault = make("p.form-fault", { role: "alert", hidden: true });
  const press = make("button.primary", { type: "submit", textContent: action });
  const form = make(
    "form.card.form",
    make("h3", title),
    make("p.muted", text),
    make("div.fields", fields),
    fault,
    make("div.actions", press),
  );
  form.onsubmit = (event) => {
    event.preventDefault();
    const missing = submit();
    fault.hidden = !missing;
    fault.textContent = missing ?? "";
  };
  return form;
}

/** What a form about one capture and a form about several share: the list of what was made. */
class Maker {
  constructor(page) {
    this.page = page;
    this.jobs = make("ul.jobs");
  }

  start(order) {
    const job = new Job(this.page, { ...order, name: this.page.freeName(order.name) });
    this.jobs.prepend(job.element);
    job.element.scrollIntoView({ block: "nearest", behavior: "smooth" });
    return null;
  }

  /** Returns the checkbox for repairing faults while a capture is read. It is checked for a capture that has any. */
  asRepaired(checked = false) {
    return make("input", { type: "checkbox", checked });
  }

  asRepairedField(input) {
    return make("label.check", input, make("span", "Repair while reading"));
  }
}
