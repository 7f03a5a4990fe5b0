// The panel of what the page can make of one capture: repaired, converted, cut, and tables.

const CUTS = {
  packets: "Packets by number",
  time: "Packets by time",
  every: "Parts of so many packets",
  bytes: "Parts of so many bytes",
  parts: "So many equal parts",
};

const CUT_FIELDS = {
  packets: [["From packet", "from"], ["To packet", "to"]],
  time: [["From", "since"], ["Until, not included", "until"]],
  every: [["Packets", "count"]],
  bytes: [["Bytes", "count"]],
  parts: [["Parts", "count"]],
};

/** The panel of what the page can make of one capture. */
class SavePanel extends Maker {
  constructor(page, capture) {
    super(page);
    this.capture = capture;
    this.isFaulty = capture.info.status !== 0;
    [this.stem, this.ending] = splitName(capture.name);
    this.cutCard = this.cut();
    this.cutCard.classList.add("tall");
    this.element = make("div.stack", this.jobs, make("div.cards", this.repairCard(), this.convertCard(), this.cutCard), this.tablesCard());
  }

  show() {}

  order(title, words, name) {
    return this.start({ title, words, captures: [this.capture], name });
  }

  repair() {
    return this.order("Repaired", ["repair"], `${this.stem}-repaired${this.ending}`);
  }

  repairCard() {
    return formCard(
      "Repair",
      "Writes what can be read as a capture that breaks no rule, and says what it changes.",
      [],
      "Repair",
      () => this.repair(),
    );
  }

  convertCard() {
    const to = choices({ pcapng: "pcapng", pcap: "pcap" }), mended = this.asRepaired(this.isFaulty);
    to.value = this.capture.info.format === "pcapng" ? "pcap" : "pcapng";
    const submit = () => this.order(
      `Converted to ${to.value}`,
      ["convert", "--to", to.value, ...(mended.checked ? ["--repair"] : [])],
      `${this.stem}.${to.value}`,
    );
    return formCard(
      "Convert",
      "Writes the packets in the other format, with times in nanoseconds.",
      [field("To", to), this.asRepairedField(mended)],
      "Convert",
      submit,
    );
  }

  cut() {
    const way = choices(CUTS), mended = this.asRepaired(this.isFaulty), variable = make("div.fields");
    const number = (placeholder = "") => make("input", { type: "text", inputMode: "numeric", placeholder });
    const time = (placeholder) => make("input", { type: "text", placeholder });
    const inputs = {
      from: number("first"),
      to: number("last"),
      since: time("2026-11-14T22:13:20Z"),
      until: time("2026-11-14T22:15:00Z"),
      count: number(),
    };
    const choose = () => variable.replaceChildren(...CUT_FIELDS[way.value].map(([label, name]) => field(label, inputs[name])));
    way.onchange = choose;
    choose();
    Object.assign(this, { way, inputs, chooseWay: choose });
    const text = "Writes a part of the capture, or all of it in parts. Times are UTC, or seconds since 1970.";
    return formCard(
      "Cut",
      text,
      [field("By", way), variable, this.asRepairedField(mended)],
      "Cut",
      () => this.cutOrder(way.value, inputs, mended.checked),
    );
  }

  cutOrder(way, inputs, isMended) {
    const words = { packets: cutPacketWords, time: cutTimeWords }[way]?.(inputs) ?? cutPartWords(way, inputs);
    if (typeof words === "string") return words;
    if (isMended && way === "parts") return "Equal parts ask for the capture's length, which is not known while it is repaired.";
    return this.order("Cut", ["cut", ...words, ...(isMended ? ["--repair"] : [])], `${this.stem}-cut${this.ending}`);
  }

  tablesCard() {
    const name = argument(this.capture.name), made = make("div.actions");
    const write = (text, words, ending) => button(text, () => {
      const run = this.page.program.start([...words, name], [this.capture]), activity = new Activity(run, "Writing").element;
      made.append(activity);
      run.result.then((result) => made.append(...this.table(result, ending)));
    });
    const buttons = [
      write("Packets as CSV", ["list", "--csv"], ".csv"),
      write("Packets as JSON lines", ["list", "--json"], ".jsonl"),
      write("Figures as JSON", ["info", "--json"], "-info.json"),
      write("Figures as text", ["info"], "-info.txt"),
    ];
    return make(
      "section.card",
      make("h3", "Tables"),
      make("p.muted", "Writes the packets or the figures for other programs."),
      make("div.actions", buttons),
      made,
    );
  }

  table(result, ending) {
    const failure = failureOf(result);
    if (failure) return [make("p.note", failure)];
    const file = `${this.capture.name}${ending}`;
    return [saveLink(file, result.output, `Download ${file} (${bytes(result.output.size)})`)];
  }

  /** Fills in the form of cuts: { from, to } of packets, or { since, until } of times. */
  fillCut(values) {
    this.way.value = "since" in values || "until" in values ? "time" : "packets";
    this.chooseWay();
    for (const [name, value] of Object.entries(values)) this.inputs[name].value = value;
    this.cutCard.scrollIntoView({ block: "nearest" });
    this.cutCard.querySelector("button").focus();
  }
}

const WHOLE = /^[1-9]\d{0,18}$/;

function cutPacketWords({ from, to }) {
  const first = from.value.replaceAll(/[,\s]/g, ""), last = to.value.replaceAll(/[,\s]/g, "");
  if (!first && !last) return "Give the number of the first packet, or of the last, or both.";
  for (const it of [first, last]) if (it && !WHOLE.test(it)) return `“${it}” is no number of a packet.`;
  if (first && last && BigInt(first) > BigInt(last)) return "The first packet is behind the last one.";
  return ["--packets", `${first}-${last}`];
}

function cutTimeWords({ since, until }) {
  const from = timeWord(since.value), to = timeWord(until.value);
  if (!from && !to) return "Give the time of the first packet, or the time before which the part ends, or both.";
  const wrong = from === "?" ? since.value : to === "?" ? until.value : null;
  if (wrong !== null) return `“${wrong}” is no time. Write it as 2026-11-14T22:13:20Z, or in seconds since 1970.`;
  return [...(from ? ["--from", from] : []), ...(to ? ["--until", to] : [])];
}

/** Returns nanoseconds as the form of cuts takes them. */
function cutTime(nanos) {
  const { date, time } = utc(nanos);
  return date ? `${date}T${time}Z` : decimal(nanos);
}

/** Returns a time as the program takes it: seconds, or RFC 3339 with a space or a missing Z corrected. Returns "?" for anything else. */
function timeWord(text) {
  const given = text.trim();
  if (!given || /^\d+(\.\d{1,9})?$/.test(given)) return given;
  const found = /^(\d{4}-\d\d-\d\d)[T ](\d\d:\d\d)(:\d\d(?:\.\d{1,9})?)?(Z|[+-]\d\d:\d\d)?$/i.exec(given);
  return found ? `${found[1]}T${found[2]}${found[3] ?? ":00"}${found[4] ?? "Z"}` : "?";
}

function cutPartWords(way, { count }) {
  const number = count.value.replaceAll(/[,\s]/g, "");
  if (!WHOLE.test(number)) return "Give a whole number above 0.";
  return [`--${way}`, number];
}
