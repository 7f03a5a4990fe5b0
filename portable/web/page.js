// The page: the opened captures, the one that it shows, and how files come in.

const TITLE = document.title;

class Capture {
  constructor(file, name) {
    this.file = file;
    this.name = name;
    this.info = null;
    this.run = null;
  }
}

class Page {
  constructor() {
    this.program = new Program();
    this.captures = [];
    this.selected = null;
    this.combine = new CombinePanel(this);
    this.queue = Promise.resolve();
  }

  /** Returns a visible name that no capture has. It replaces control characters and slashes. */
  freeName(wanted) {
    const clean = (wanted.toWellFormed?.() ?? wanted).replaceAll(/[\p{Cc}/]/gu, "_") || "capture";
    const [stem, ending] = splitName(clean), taken = new Set(this.captures.map((it) => it.name));
    for (let count = 1; ; count++) {
      const name = count === 1 ? clean : `${stem} (${count})${ending}`;
      if (!taken.has(name) && !taken.has(`${name}.part`) && name !== "-") return name;
    }
  }

  addFiles(files) {
    const added = [...files].sort((one, other) => one.name.localeCompare(other.name, "en", { numeric: true })).map((file) => {
      const capture = new Capture(file, this.freeName(file.name));
      this.captures.push(capture);
      return capture;
    });
    if (!added.length) return;
    document.body.classList.remove("empty");
    for (const capture of added) this.queue = this.queue.then(() => this.inform(capture));
    this.select(added[0]);
    say(`${counted(added.length, "file")} opened`);
  }

  /** Runs `info` of a capture. Only one runs at a time. */
  async inform(capture) {
    if (!this.captures.includes(capture)) return;
    capture.failure = null;
    capture.run = this.program.start(["info", "--json", argument(capture.name)], [capture]);
    this.drawRail();
    if (this.selected === capture) this.draw();
    const result = await capture.run.result;
    const text = await result.output.text();
    const info = text ? parseInfo(text) : null;
    if (info && !isNoCapture(info)) [capture.info, capture.cost] = [info, result];
    else capture.failure = await this.whyUnread(capture, result, info);
    capture.run = null;
    if (!this.captures.includes(capture)) return;
    this.drawRail();
    if (this.selected === capture) this.draw();
    if (this.selected === capture && capture.info) say(`${capture.name}: ${capture.info.check}`);
  }

  async whyUnread(capture, result, info) {
    const { lines } = await messagesOf(result);
    if (info) lines.push(info.check);
    return {
      failure: failureOf(result) ?? "This file could not be read as a capture.",
      lines: lines.map((line) => this.withoutName(line, capture)),
      hint: await hintOf(capture.file),
      byUser: result.byUser,
    };
  }

  withoutName(line, capture) {
    const name = argument(capture.name);
    return line.startsWith(`${name}: `) ? line.slice(name.length + 2) : line;
  }

  /** Shows a message at the top of the page until the user dismisses it. */
  warn(text) {
    const warning = make("p.warning", { role: "alert" }, make("span", text), button("Dismiss", () => warning.remove(), "button.quiet"));
    byId("warnings").replaceChildren(warning);
  }

  remove(capture) {
    capture.run?.stop();
    capture.packets?.stop();
    release(capture.tabs?.element);
    const at = this.captures.indexOf(capture);
    this.captures.splice(at, 1);
    if (!this.captures.length) document.body.classList.add("empty");
    this.select(this.captures[Math.min(at, this.captures.length - 1)] ?? null);
  }

  select(it) {
    this.selected = it === this.combine && this.captures.length < 2 ? this.captures[0] ?? null : it;
    this.drawRail();
    this.draw();
  }

  drawRail() {
    byId("captures").replaceChildren(...this.captures.map((it) => this.railItem(it)));
    byId("combine").hidden = this.captures.length < 2;
    byId("combine").setAttribute("aria-current", String(this.selected === this.combine));
  }

  railItem(capture) {
    const { kind, text } = this.stateOf(capture);
    const isSelected = String(this.selected === capture);
    const open = make("button.capture", { type: "button", "aria-current": isSelected, onclick: () => this.select(capture) },
      make(`span.dot.${kind}`, { "aria-hidden": "true" }), make("span.capture-name", capture.name), make("span.capture-more.muted", text));
    return make(
      "li",
      open,
      make(
        "button.remove",
        {
          type: "button",
          textContent: "×",
          title: "Remove from this page",
          "aria-label": `Remove ${capture.name}`,
          onclick: () => this.remove(capture),
        },
      ),
    );
  }

  stateOf(capture) {
    const size = bytes(capture.file.size);
    if (capture.info) return { kind: verdictOf(capture.info).kind, text: `${counted(capture.info.packets, "packet")}, ${size}` };
    if (capture.failure) return { kind: "refused", text: capture.failure.byUser ? `stopped, ${size}` : `not read, ${size}` };
    return { kind: "waiting", text: `${capture.run ? "reading" : "waiting"}, ${size}` };
  }

  draw() {
    const main = byId("main");
    document.title = this.selected?.name ? `${this.selected.name}: pcapfile` : TITLE;
    if (!this.selected) return main.replaceChildren();
    if (this.selected === this.combine) {
      main.replaceChildren(make("h1", "Merge or join captures"), this.combine.element);
      return this.combine.show();
    }
    main.replaceChildren(...this.captureView(this.selected));
  }

  captureView(capture) {
    const title = make("h1.title", capture.name);
    if (capture.info) return [title, this.verdict(capture), this.tabsOf(capture).element];
    if (capture.failure) return [title, this.unread(capture)];
    return [title, capture.run ? new Activity(capture.run, "Reading").element : make("p.muted", "Waiting for the captures before it.")];
  }

  unread(capture) {
    const { failure, lines, hint, byUser } = capture.failure;
    return make("section.verdict.refused", make("h3", byUser ? "Stopped" : "This is not a capture that can be read"),
      make("p", hint ?? failure), ...lines.map((line) => make("p.muted", line)),
      make("div.actions", button("Read it again", () => this.inform(capture)), button("Remove", () => this.remove(capture))));
  }

  verdict(capture) {
    const { kind, title, text } = verdictOf(capture.info);
    const actions = kind === "sound" ? null : make(
      "div.actions",
      button("Show each fault", () => capture.tabs.show("check")),
      button("Repair it", () => this.repair(capture), "button.primary"),
    );
    return make(`section.verdict.${kind}`, make("h2", title), make("p", text.replaceAll(/\d{5,}/g, grouped)), actions);
  }

  tabsOf(capture) {
    if (capture.tabs) return capture.tabs;
    capture.packets = new PacketPanel(this, capture);
    capture.check = new CheckPanel(this, capture);
    capture.save = new SavePanel(this, capture);
    const panel = (element) => make("div.panel", element);
    capture.tabs = new Tabs(`Views of ${capture.name}`, {
      overview: { title: "Overview", panel: panel(new OverviewPanel(this, capture).element) },
      packets: { title: "Packets", panel: panel(capture.packets.element) },
      check: { title: "Check", panel: panel(capture.check.element) },
      save: { title: "Export", panel: panel(capture.save.element) },
    });
    capture.tabs.onshow = (name) => capture[name]?.show?.();
    capture.tabs.show("overview");
    return capture.tabs;
  }

  repair(capture) {
    capture.tabs.show("save");
    capture.save.repair();
  }

  cutPackets(capture, values) {
    capture.tabs.show("save");
    capture.save.fillCut(values);
  }

  cutSpan(capture, since, until) {
    capture.tabs.show("save");
    capture.save.fillCut({ since: cutTime(since), until: cutTime(until) });
  }
}

/** Returns the files of a drop, and the names of folders among them, which can't be opened. */
function filesOf(transfer) {
  const items = [...transfer.items].filter((it) => it.kind === "file"), entries = items.map((it) => it.webkitGetAsEntry?.());
  const folders = entries.filter((it) => it?.isDirectory).map((it) => it.name);
  return { files: items.filter((_, at) => !entries[at]?.isDirectory).map((it) => it.getAsFile()), folders };
}

function listenToDrops(page) {
  let inside = 0;
  const holdsFiles = (event) => event.dataTransfer?.types.includes("Files");
  const mark = (change) => {
    inside = Math.max(0, inside + change);
    document.body.classList.toggle("dragging", inside > 0);
  };
  addEventListener("dragenter", (event) => holdsFiles(event) && (event.preventDefault(), mark(1)));
  addEventListener("dragleave", (event) => holdsFiles(event) && mark(-1));
  addEventListener("dragover", (event) => holdsFiles(event) && event.preventDefault());
  addEventListener("drop", (event) => {
    if (!holdsFiles(event)) return;
    event.preventDefault();
    mark(-inside);
    const { files, folders } = filesOf(event.dataTransfer);
    page.addFiles(files);
    if (folders.length) page.warn(`“${folders[0]}” is a folder. Drop the files in it.`);
  });
}

function listenToButtons(page) {
  const input = byId("files"), choose = () => input.click();
  byId("choose").onclick = choose;
  byId("add").onclick = choose;
  byId("combine").onclick = () => page.select(page.combine);
  byId("home").onclick = (event) => event.preventDefault();
  // The page forgets a chosen file, or the input would report nothing if the user chose it again.
  input.onchange = () => {
    page.addFiles(input.files);
    input.value = "";
  };
  byId("about").onclick = () => byId("licences").showModal();
  byId("close").onclick = () => byId("licences").close();
}

const missing = whatIsMissing();
if (missing) {
  byId("unsupported").hidden = false;
  byId("unsupported").textContent = missing;
  byId("choose").disabled = true;
} else {
  const page = new Page();
  listenToDrops(page);
  listenToButtons(page);
}
