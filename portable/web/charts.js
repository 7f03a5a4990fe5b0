// Draws the histograms of `pcapfile info --json`.

const SIZES = [0, 20, 40, 80, 160, 320, 640, 1280, 2560, 5120];

/** Draws how many packets have which size on the wire: a bar for each range between the first and the last that has any. */
function sizeChart(counts) {
  const last = counts.findLastIndex((count) => count > 0), first = counts.findIndex((count) => count > 0);
  const most = Math.max(...counts), all = counts.reduce((sum, count) => sum + count, 0);
  const rows = counts.slice(first, last + 1).map((count, at) => sizeRow(first + at, count, most, all));
  return make("div.sizes", { role: "table", "aria-label": "Packets by size in bytes" }, rows);
}

function sizeRow(at, count, most, all) {
  const range = at < SIZES.length - 1 ? `${SIZES[at]} to ${SIZES[at + 1] - 1}` : `${SIZES[at]} or more`;
  const fill = make("span.fill");
  fill.style.width = `${count ? Math.max(0.5, (count / most) * 100) : 0}%`;
  const share = (count / all) * 100;
  return make("div.size", { role: "row" },
    make("span.size-range", { role: "rowheader", textContent: range }),
    make("span.size-bar", { "aria-hidden": "true" }, fill),
    make("span.size-count", { role: "cell", textContent: grouped(count) }),
    make("span.size-share.muted", { role: "cell", textContent: count === 0 ? "" : share < 0.1 ? "< 0.1 %" : `${share.toFixed(1)} %` }));
}

/** Packets over time. The user can choose a span by dragging over it. */
class TimeChart {
  /** Calls `onChoose(from, until)` with nanoseconds when the user chose a span. */
  constructor({ first, width, packets }, onChoose) {
    this.first = BigInt(first);
    this.width = BigInt(width);
    this.packets = packets;
    this.onChoose = onChoose;
    this.most = Math.max(...packets);
    this.told = make("p.told.muted");
    this.bars = packets.map((count) => this.bar(count));
    this.plot = make("div.plot", { role: "img", "aria-label": this.summary() }, this.bars);
    this.chosen = make("div.chosen", { hidden: true });
    this.element = make("figure.time-chart",
      make("div.plot-frame", make("span.most.muted", grouped(this.most)), this.plot), this.axis(), this.told, this.chosen);
    this.listen();
    this.tell(null);
  }

  summary() {
    const busiest = this.packets.indexOf(this.most);
    const most = `the busiest begins at ${shortUtc(this.start(busiest))} and has ${grouped(this.most)}`;
    return `Packets over time, ${this.packets.length} spans of ${span(this.width)}; ${most}.`;
  }

  bar(count) {
    const fill = make("span.bar-fill");
    fill.style.height = count ? `max(2px, ${(count / this.most) * 100}%)` : "0";
    return make("span.bar", fill);
  }

  start(at) {
    return (this.first + BigInt(at)) * this.width;
  }

  axis() {
    const from = utc(this.start(0)), until = utc(this.start(this.packets.length));
    const name = ({ date, time }) => (date && from.date === until.date ? time.slice(0, 12) : `${date} ${time.slice(0, 8)}`);
    return make("div.axis.muted", { "aria-hidden": "true" }, make("span", name(from)), make("span", name(until)));
  }

  tell(at) {
    if (at === null) this.told.textContent = `Each bar is ${span(this.width)}. Drag over bars to choose a span.`;
    else this.told.textContent = `${shortUtc(this.start(at))}, ${span(this.width)}: ${counted(this.packets[at], "packet")}`;
  }

  indexAt(event) {
    const { left, width } = this.plot.getBoundingClientRect();
    const at = Math.floor(((event.clientX - left) / width) * this.packets.length);
    return Math.min(Math.max(at, 0), this.packets.length - 1);
  }

  listen() {
    this.plot.onpointermove = (event) => this.hover(this.indexAt(event));
    this.plot.onpointerleave = () => this.tell(null);
    this.plot.onpointerdown = (event) => {
      this.plot.setPointerCapture(event.pointerId);
      this.anchor = this.indexAt(event);
      this.mark(this.anchor, this.anchor);
    };
    this.plot.onpointerup = (event) => this.choose(event);
    this.plot.onpointercancel = () => this.clear();
  }

  hover(at) {
    this.tell(at);
    if (this.anchor !== undefined) this.mark(Math.min(this.anchor, at), Math.max(this.anchor, at));
  }

  mark(from, to) {
    this.bars.forEach((bar, at) => bar.classList.toggle("marked", at >= from && at <= to));
  }

  choose(event) {
    if (this.anchor === undefined) return;
    const at = this.indexAt(event), from = Math.min(this.anchor, at), to = Math.max(this.anchor, at);
    this.anchor = undefined;
    this.mark(from, to);
    const begins = this.start(from), ends = this.start(to + 1);
    const count = this.packets.slice(from, to + 1).reduce((sum, it) => sum + it, 0);
    this.chosen.hidden = false;
    this.chosen.replaceChildren(
      make("span", `${shortUtc(begins)} to ${shortUtc(ends)}: ${counted(count, "packet")}`),
      button("Cut out this span", () => this.onChoose(begins, ends)), button("Clear", () => this.clear(), "button.quiet"));
  }

  clear() {
    this.anchor = undefined;
    this.mark(1, 0);
    this.chosen.hidden = true;
  }
}
