// The panel of a capture's packets: what `list --as-is` writes.

const TIMES = {
  utc: "Date and time (UTC)",
  first: "Seconds since the first",
  before: "Seconds since the one before",
  epoch: "Seconds since 1970",
};

const FLAW_WORDS = { utf8: "a text in it is no UTF-8", short: "a value in it is too short" };

/** Describes a flaw of a packet. RULES, with which the page is built, has the place where each rule is broken. */
function flawText(flaw) {
  return FLAW_WORDS[flaw] ?? `rule ${flaw} (${RULES[flaw] ?? "unknown"})`;
}

function lengthText({ stored, original }) {
  return stored === original ? grouped(original) : `${grouped(stored)} of ${grouped(original)}`;
}

class PacketPanel {
  constructor(page, capture) {
    this.page = page;
    this.capture = capture;
    this.store = new RowStore();
    this.first = null;
    this.told = make("span.muted");
    this.activity = make("div.compact");
    this.detail = make("div.detail", { hidden: true });
    this.times = make(
      "select",
      { onchange: () => this.retitle() },
      Object.entries(TIMES).map(([value, textContent]) => make("option", { value, textContent })),
    );
    this.table = new PacketTable(this.store, this.columns(), (index) => this.describe(index));
    this.notes = make("div.notes");
    this.element = make("div.packet-panel", this.toolbar(), this.notes, this.table.element, this.detail);
  }

  columns() {
    const linked = this.capture.info.format === "pcapng";
    return [
      { name: "No.", className: "number", text: ({ number }, _, index) => grouped(number || index + 1) },
      { name: TIMES.utc, className: "time", text: (packet, before) => this.time(packet, before) },
      { name: "Bytes", className: "length", text: (packet) => (packet.refused ? "cannot be read" : lengthText(packet)) },
      ...(linked ? [{ name: "Interface", className: "interface", text: (packet) => packet.interface ?? "" }] : []),
      { name: "", className: "flaws", text: ({ flaws }) => flaws.map((it) => (it in FLAW_WORDS ? `!${it}` : `rule ${it}`)).join(" ") },
    ];
  }

  time(packet, before) {
    if (packet.time === null || packet.time === undefined) return packet.refused ? "" : "no time";
    const way = this.times.value;
    if (way === "utc") return utcText(packet.time);
    if (way === "epoch") return decimal(packet.time);
    if (way === "first") return this.first === null ? "" : decimal(packet.time - this.first);
    return before?.time === undefined || before?.time === null ? "" : decimal(packet.time - before.time);
  }

  retitle() {
    this.table.head.children[1].textContent = TIMES[this.times.value];
    this.table.draw();
  }

  toolbar() {
    const number = make("input", { type: "number", min: 1, placeholder: "Packet", "aria-label": "Number of a packet" });
    const go = make(
      "form.go",
      { onsubmit: (event) => (event.preventDefault(), this.go(Number(number.value))) },
      number,
      make("button", { type: "submit", textContent: "Go" }),
    );
    return make("div.toolbar", make("label.choice", make("span.unseen", "Time"), this.times), go, this.activity, this.told);
  }

  go(number) {
    if (!this.store.count || !(number >= 1)) return;
    this.table.select(Math.min(Math.floor(number), this.store.count) - 1);
    this.table.scroller.focus();
  }

  /** Begins the list when the panel is first in sight. */
  show() {
    if (!this.run) this.begin();
    else this.table.draw();
  }

  begin() {
    this.run = this.page.program.start(
      ["list", "--as-is", argument(this.capture.name)],
      [this.capture],
      { onRows: (blob, rows) => this.take(blob, rows) },
    );
    this.activity.replaceChildren(new Activity(this.run, "Listing packets").element);
    this.run.result.then((result) => this.end(result));
  }

  async take(blob, rows) {
    const isFirst = this.store.count === 0;
    this.store.add(blob, rows);
    this.told.textContent = counted(this.store.count, "packet");
    if (isFirst) {
      await this.store.load(0);
      this.first = this.firstTime();
    }
    this.table.grow();
  }

  /** Returns the time of the first packet that has one, among the first rows. */
  firstTime() {
    for (let index = 0; index < Math.min(ROWS_AT_ONCE, this.store.count); index++) {
      const time = this.store.at(index)?.time;
      if (time !== null && time !== undefined) return time;
    }
    return null;
  }

  async end(result) {
    const failure = failureOf(result), { lines, isAll } = await messagesOf(result, 4000);
    this.element.dataset.memory = result.memory;
    const notes = failure ? [failure] : [];
    if (failure && this.store.count) notes.push(`The list has the first ${counted(this.store.count, "packet")}.`);
    const shown = lines.slice(0, 5).map((line) => this.page.withoutName(line, this.capture));
    if (lines.length > shown.length || !isAll) shown.push("There is more: see Check.");
    if (!failure && !this.store.count) notes.push("There is no packet to list.");
    this.notes.replaceChildren(...[...notes, ...shown].map((textContent) => make("p.note", { textContent })));
    if (result.byUser) this.notes.append(button("List again", () => this.again()));
    say(`${counted(this.store.count, "packet")} listed`);
  }

  again() {
    const { page, capture, element } = this;
    const anew = new PacketPanel(page, capture);
    capture.packets = anew;
    element.replaceWith(anew.element);
    anew.begin();
  }

  async describe(index) {
    await this.store.load(Math.floor(index / ROWS_AT_ONCE));
    const packet = this.store.at(index);
    if (!packet || this.table.selected !== index) return;
    const parts = packet.refused ? [`Packet ${grouped(packet.number)} cannot be read.`] : [
      `Packet ${grouped(packet.number)}`, packet.time === null ? "no time" : `${utcText(packet.time)} UTC`,
      packet.stored === packet.original ? counted(packet.original, "byte") : `${lengthText(packet)} bytes stored`,
      packet.interface === undefined ? null : `interface ${packet.interface}`].filter(Boolean);
    this.detail.hidden = false;
    this.detail.replaceChildren(
      make("p", parts.join(" · ")),
      packet.flaws.length ? make("p.flaw", `At fault: ${packet.flaws.map(flawText).join(", ")}.`) : "",
      this.cuts(packet));
    say(this.detail.textContent);
  }

  /** Offers cuts. A repair may leave out a block with a packet, and then its numbers of packets differ from the list's. */
  cuts({ number }) {
    const { format, status } = this.capture.info;
    if (format === "pcapng" && status !== 0) return "";
    return make("div.actions", button("Cut from here", () => this.page.cutPackets(this.capture, { from: number })),
      button("Cut up to here", () => this.page.cutPackets(this.capture, { to: number })));
  }

  stop() {
    this.run?.stop();
  }
}
