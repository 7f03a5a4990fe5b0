// Draws what a capture has: the figures of `pcapfile info --json`.

/** Returns the object that `info --json` wrote. The number of the first span may have more digits than a double keeps. */
function parseInfo(text) {
  return JSON.parse(text.replace(/\{"first":(-?\d+)/g, '{"first":"$1"'));
}

/** Returns what `check` found: { kind: "sound" | "cut" | "refused", title, text }. */
function verdictOf(info) {
  if (info.status === 0) return { kind: "sound", title: "No fault found", text: info.check };
  if (info.check.includes("cut short")) return { kind: "cut", title: "Cut short", text: info.check };
  return { kind: "refused", title: "At fault", text: info.check };
}

/** Returns whether a file has a fault in its first byte. */
function isNoCapture({ status, check }) {
  return status !== 0 && / at byte 0\b/.test(check);
}

/** Bytes at the front of other kinds of files, and what the user can do with such a file. */
const OTHER_FILES = [
  [[0x1f, 0x8b], "It is compressed by gzip. Unpack it first, and open what is in it."],
  [[0x28, 0xb5, 0x2f, 0xfd], "It is compressed by zstd. Unpack it first, and open what is in it."],
  [[0xfd, 0x37, 0x7a, 0x58, 0x5a], "It is compressed by xz. Unpack it first, and open what is in it."],
  [[0x42, 0x5a, 0x68], "It is compressed by bzip2. Unpack it first, and open what is in it."],
  [[0x04, 0x22, 0x4d, 0x18], "It is compressed by lz4. Unpack it first, and open what is in it."],
  [[0x50, 0x4b, 0x03, 0x04], "It is a zip archive. Unpack it first, and open what is in it."],
];

async function hintOf(file) {
  if (file.size === 0) return "It is empty.";
  const front = new Uint8Array(await file.slice(0, 8).arrayBuffer().catch(() => new ArrayBuffer(0)));
  const found = OTHER_FILES.find(([signs]) => signs.every((sign, at) => front[at] === sign));
  return found ? found[1] : null;
}

function figure(name, value, more = null) {
  return make("div.figure", make("dt", name), make("dd", make("strong", value), more && make("span.muted", more)));
}

function dateFigure(name, text) {
  if (text === null) return figure(name, "unknown");
  const { date, time } = utc(nanoseconds(text));
  return date ? figure(name, time.slice(0, 12), `${date} ${time} UTC`) : figure(name, time);
}

/** Draws the figures of all packets, or of an interface's. */
function figures(part) {
  const stored = part.stored === part.original ? "all of it stored" : `${bytes(part.stored)} stored`;
  return make("dl.figures",
    figure("Packets", grouped(part.packets), part.average === null ? null : `${rate(part.average)} bytes on average`),
    figure("Data", bytes(part.original), stored),
    figure(
      "Duration",
      part.duration === null ? "unknown" : span(nanoseconds(part.duration)),
      part.duration === null ? null : `${part.duration} s`,
    ),
    part.packets_per_second === null ? null : figure(
      "Rate",
      `${rate(part.packets_per_second)} packets/s`,
      `${bytes(Math.round(Number(part.bytes_per_second)))}/s`,
    ),
    part.earliest === null ? null : dateFigure("Earliest packet", part.earliest),
    part.latest === null ? null : dateFigure("Latest packet", part.latest));
}

function charts(part, onChoose) {
  return [
    part.over_time && make("section.card", make("h3", "Packets over time"), new TimeChart(part.over_time, onChoose).element),
    part.packets > 0 ? make("section.card", make("h3", "Packet sizes in bytes"), sizeChart(part.sizes)) : null,
  ];
}

/** Describes the format of the file. */
function formatFacts(info) {
  const facts = [
    [
      "File type",
      [info.format && `${info.format} ${info.version ?? ""}`, info.order, info.resolution && `times in ${info.resolution}`].filter(Boolean).join(", "),
    ],
    [info.status ? "Bytes read" : "File size", bytes(info.bytes)],
    ["Link type", info.link === undefined || info.link === null ? null : `${info.link_name ?? "unknown"} (${info.link})`],
    ["Frame check", typeof info.fcs_len === "number" ? `${info.fcs_len} bytes at the end of each packet` : null],
    ["Packet size limit", info.snaplen ? `${grouped(info.snaplen)} bytes` : null],
    ["Sections", info.format === "pcapng" ? grouped(info.sections) : null],
    ["Interfaces", info.format === "pcapng" ? grouped(info.interfaces.length) : null],
  ].filter(([, value]) => value);
  return make("dl.facts-list", facts.map(([name, value]) => make("div", make("dt", name), make("dd", value))));
}

function comments(list, what) {
  if (!list?.length) return null;
  return make("section.card", make("h3", what), list.map((text) => make("blockquote", text)));
}

function interfaceName(it, info) {
  const name = it.name ? `${it.number}: ${it.name}` : `${it.number}`;
  return info.sections > 1 ? `section ${it.section}, ${name}` : name;
}

function interfaceTable(info) {
  const cells = (it) => [
    interfaceName(it, info),
    `${it.link_name ?? "unknown"} (${it.link})`,
    grouped(it.packets),
    bytes(it.original),
    it.snaplen ? grouped(it.snaplen) : "none",
  ];
  const heads = ["Interface", "Link type", "Packets", "Data", "Size limit"];
  const table = make("table",
    make("thead", make("tr", heads.map((text) => make("th", { scope: "col", textContent: text })))),
    make(
      "tbody",
      info.interfaces.map((it) => make("tr", cells(it).map((text, at) => make("td", { textContent: text, "data-name": heads[at] })))),
    ));
  return make("section.card", make("h3", "Interfaces"), make("div.scrolls", table));
}

/** Returns the parts of the panel of a capture's figures, if `info` gave some. */
function overview(info, actions) {
  const shown = make("div.part");
  const show = (part) => shown.replaceChildren(figures(part), make("div.charts", ...charts(part, actions.cutSpan).filter(Boolean)));
  const several = info.interfaces.length > 1;
  const choice = several ? partChoice(info, show) : null;
  show(info);
  const why = info.refused === 1 ? "its block breaks a rule" : "their blocks break rules";
  const refused = info.refused ? make("p.note.cut", `${counted(info.refused, "packet")} cannot be read: ${why}.`) : null;
  return [
    refused, formatFacts(info), choice, shown,
    info.interfaces.length ? interfaceTable(info) : null,
    comments(info.comments, "Comments"),
    ...info.interfaces.map((it) => comments(it.comments, `Comments of interface ${interfaceName(it, info)}`)),
  ].filter(Boolean);
}

/** The panel that shows them. For a malformed capture it also shows what comes after the fault, on request. */
class OverviewPanel {
  constructor(page, capture) {
    this.page = page;
    this.capture = capture;
    this.actions = { cutSpan: (since, until) => page.cutSpan(capture, since, until) };
    const { info } = capture;
    const note = info.status === 0 ? null : make(
      "div.note.offer",
      make("span", "These are the figures of what stands before the fault."),
      button("Read on behind it", () => this.readOn()),
    );
    this.element = make("div.stack");
    this.fill(info, capture.cost, note);
  }

  fill(info, result, note) {
    this.element.replaceChildren(...(note ? [note] : []), ...overview(info, this.actions), cost(result));
  }

  /** Runs `info --repair`, which reads what a repair would write. */
  async readOn() {
    const { page, capture } = this;
    const run = page.program.start(["info", "--json", "--repair", argument(capture.name)], [capture]);
    this.element.prepend(new Activity(run, "Reading").element);
    const result = await run.result, failure = failureOf(result), text = await result.output.text();
    if (failure || !text) return this.element.prepend(make("p.note", failure ?? "Nothing more can be read."));
    const { lines, isAll } = await messagesOf(result, 4000);
    const said = make(
      "details",
      make("summary", "What a repair changes"),
      make("ul.messages", lines.slice(0, 50).map((line) => make("li", page.withoutName(line, capture)))),
    );
    if (lines.length > 50 || !isAll) said.append(make("p.muted", "There is more, which a repair tells in whole."));
    this.fill(
      parseInfo(text),
      result,
      make("div.note", make("p", "These are the figures of all that can be read, as a repair would write it."), said),
    );
  }
}

function partChoice(info, show) {
  const options = [make("option", { value: "", textContent: "all interfaces" }),
    ...info.interfaces.map((it, at) => make("option", { value: String(at), textContent: `interface ${interfaceName(it, info)}` }))];
  const select = make("select", { onchange: () => show(select.value === "" ? info : info.interfaces[Number(select.value)]) }, options);
  return make("label.choice", "Packets of ", select);
}
