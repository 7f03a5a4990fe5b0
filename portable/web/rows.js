// The list of packets: rows that `list` wrote. The page draws only those in sight.

const ROWS_AT_ONCE = 4096;
const ROW_HEIGHT = 30;
// No browser lays out an element that is higher than about 17 million pixels, so a longer list scrolls through a window of it.
const MOST_HEIGHT = 8_000_000;
const READ_AT_ONCE = 6;
const LINE = /^(\d+) (?:(-?\d+\.\d{9}|-) (\d+)\/(\d+)(?: (\d+))?|refused)((?: !\w+)*)$/;

/** Reads a line of `list --as-is`, such as "4 1700000002.000005000 42/41 !5". */
function packetOf(line) {
  const found = LINE.exec(line);
  if (!found) return { number: "", refused: true, flaws: [], text: line };
  const [, number, time, stored, original, linked, flaws] = found;
  const parsed = { number: Number(number), refused: stored === undefined, flaws: flaws.split(" !").slice(1) };
  return { ...parsed, time: time && time !== "-" ? nanoseconds(time) : null, stored, original, interface: linked };
}

/** The rows so far, as Blobs of ROWS_AT_ONCE, and the lines of the few Blobs that were read last. */
class RowStore {
  constructor() {
    this.blobs = [];
    this.count = 0;
    this.read = new Map();
    this.reading = new Map();
  }

  add(blob, rows) {
    this.blobs.push(blob);
    this.count += rows;
  }

  /** Returns the packet of a row, undefined if its piece has not been read. */
  at(index) {
    const line = this.read.get(Math.floor(index / ROWS_AT_ONCE))?.[index % ROWS_AT_ONCE];
    return line === undefined ? undefined : packetOf(line);
  }

  /** Reads a piece, only once at a time. */
  load(piece) {
    if (this.read.has(piece)) return Promise.resolve();
    if (!this.reading.has(piece)) this.reading.set(piece, this.take(piece));
    return this.reading.get(piece);
  }

  async take(piece) {
    const text = await this.blobs[piece].text().catch(() => "");
    this.reading.delete(piece);
    this.read.set(piece, text.split("\n").slice(0, -1));
    for (const oldest of this.read.keys()) {
      if (this.read.size <= READ_AT_ONCE) break;
      this.read.delete(oldest);
    }
  }
}

/** A table of packets that scrolls through any number of rows. `columns` are { name, className, text(packet, before) }. */
class PacketTable {
  constructor(store, columns, onSelect) {
    this.store = store;
    this.columns = columns;
    this.onSelect = onSelect;
    this.selected = null;
    this.offset = 0;
    this.last = 0;
    this.head = make(
      "div.packet-row.packet-head",
      { role: "row" },
      columns.map(({ name, className }) => make(`span.${className}`, { role: "columnheader", textContent: name })),
    );
    this.rows = make("div.packet-window", { role: "rowgroup" });
    this.space = make("div.packet-space", this.rows);
    this.scroller = make(
      "div.packets",
      { tabIndex: 0, role: "grid", "aria-label": "Packets", "aria-readonly": "true" },
      make("div.packet-top", { role: "rowgroup" }, this.head),
      this.space,
    );
    this.scroller.classList.toggle("linked", columns.some(({ className }) => className === "interface"));
    this.element = this.scroller;
    this.scroller.onscroll = () => this.scrolled();
    this.scroller.onkeydown = (event) => this.key(event);
    this.rows.onclick = (event) => this.clicked(event);
    this.resized = new ResizeObserver(() => this.draw());
    this.resized.observe(this.scroller);
  }

  /** Makes the table longer, since there are more rows. */
  grow() {
    this.height = this.store.count * ROW_HEIGHT;
    this.space.style.height = `${Math.min(this.height, MOST_HEIGHT)}px`;
    this.scroller.setAttribute("aria-rowcount", String(this.store.count + 1));
    this.draw();
  }

  get view() {
    return Math.max(0, this.scroller.clientHeight - ROW_HEIGHT);
  }

  /** Returns the pixel of the whole list at the top of the view. */
  get top() {
    return this.scroller.scrollTop + this.offset;
  }

  get farthest() {
    return Math.max(0, this.height - this.view);
  }

  /** Scrolls a short way pixel by pixel. A long way, by the bar, goes to the same share of the whole list. */
  scrolled() {
    const at = this.scroller.scrollTop, isLong = Math.abs(at - this.last) > 4 * this.view;
    const end = MOST_HEIGHT - this.view;
    if (this.height > MOST_HEIGHT && isLong) this.offset = (at / end) * this.farthest - at;
    else if (this.height > MOST_HEIGHT && (at <= 0 || at >= end - 1)) this.goTo(this.top);
    this.last = this.scroller.scrollTop;
    this.draw();
  }

  /** Puts a pixel of the whole list at the top of the view. */
  goTo(top) {
    const to = Math.min(Math.max(0, top), this.farthest);
    const at = this.height > MOST_HEIGHT ? (to / this.farthest) * (MOST_HEIGHT - this.view) : to;
    this.offset = to - Math.round(at);
    this.scroller.scrollTop = this.last = Math.round(at);
  }

  draw() {
    if (!this.height) return;
    const top = Math.min(this.top, this.farthest), first = Math.max(0, Math.floor(top / ROW_HEIGHT));
    const end = Math.min(this.store.count, first + Math.ceil(this.view / ROW_HEIGHT) + 2);
    this.fetch(first, end);
    this.rows.style.transform = `translateY(${first * ROW_HEIGHT - this.offset}px)`;
    while (this.rows.childElementCount < end - first) this.rows.append(this.emptyRow());
    while (this.rows.childElementCount > end - first) this.rows.lastElementChild.remove();
    for (let index = first; index < end; index++) this.fill(this.rows.children[index - first], index);
    this.scroller.setAttribute("aria-activedescendant", this.selected === null ? "" : `packet-${this.selected}`);
  }

  /** Reads the pieces of these rows, and draws again after each that was missing. */
  fetch(first, end) {
    for (let piece = Math.floor(Math.max(0, first - 1) / ROWS_AT_ONCE); piece * ROWS_AT_ONCE < end; piece++) {
      const { read, reading } = this.store;
      if (!read.has(piece) && !reading.has(piece)) this.store.load(piece).then(() => this.draw());
    }
  }

  emptyRow() {
    return make("div.packet-row", { role: "row" }, this.columns.map(({ className }) => make(`span.${className}`, { role: "gridcell" })));
  }

  fill(row, index) {
    const packet = this.store.at(index), before = index ? this.store.at(index - 1) : null;
    row.id = `packet-${index}`;
    row.dataset.index = index;
    row.setAttribute("aria-rowindex", String(index + 2));
    row.setAttribute("aria-selected", String(index === this.selected));
    row.classList.toggle("flawed", Boolean(packet && (packet.refused || packet.flaws.length)));
    this.columns.forEach(({ text }, at) => {
      const shown = packet ? text(packet, before, index) : at ? "" : grouped(index + 1);
      if (row.children[at].textContent !== shown) row.children[at].textContent = shown;
    });
  }

  clicked(event) {
    const row = event.target.closest(".packet-row");
    if (row) this.select(Number(row.dataset.index));
  }

  key(event) {
    const page = Math.max(1, Math.floor(this.view / ROW_HEIGHT) - 1), at = this.selected ?? -1;
    const ways = { ArrowDown: at + 1, ArrowUp: at - 1, PageDown: at + page, PageUp: at - page, Home: 0, End: this.store.count - 1 };
    const to = ways[event.key];
    if (to === undefined || event.ctrlKey || event.metaKey || event.altKey || !this.store.count) return;
    event.preventDefault();
    this.select(Math.min(Math.max(0, to), this.store.count - 1));
  }

  /** Selects a row, and scrolls so that it is in sight. */
  select(index) {
    this.selected = index;
    const at = index * ROW_HEIGHT;
    if (at < this.top) this.goTo(at);
    else if (at + ROW_HEIGHT > this.top + this.view) this.goTo(at + ROW_HEIGHT - this.view);
    this.draw();
    this.onSelect(index);
  }
}
