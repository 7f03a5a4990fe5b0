// The panel that makes several captures into one, merged by time or joined from parts.

/** Several captures made into one. */
class CombinePanel extends Maker {
  constructor(page) {
    super(page);
    this.left = new Set();
    this.list = make("ol.order");
    const merge = formCard(
      "Merge by time",
      "Writes the packets of all chosen captures by time into one pcapng capture. Each interface stays its own.",
      [this.asRepairedField((this.mended = this.asRepaired()))],
      "Merge",
      () => this.merge(),
    );
    const join = formCard(
      "Join parts",
      "Joins the parts of a capture that was cut, in the order above, into the capture that they were.",
      [],
      "Join",
      () => this.join(),
    );
    this.element = make(
      "div.stack",
      make("section.card", make("h3", "Captures in this order"), this.list),
      make("div.cards", merge, join),
      this.jobs,
    );
  }

  show() {
    this.list.replaceChildren(...this.page.captures.map((capture, at) => this.row(capture, at)));
  }

  row(capture, at) {
    const box = make(
      "input",
      {
        type: "checkbox",
        checked: !this.left.has(capture),
        onchange: () => (box.checked ? this.left.delete(capture) : this.left.add(capture)),
      },
    );
    const move = (text, way, label) => make(
      "button.quiet",
      {
        type: "button",
        textContent: text,
        disabled: !this.page.captures[at + way],
        "aria-label": `${label} ${capture.name}`,
        onclick: () => this.move(at, way),
      },
    );
    return make(
      "li",
      make("label.check", box, make("span", capture.name)),
      make("span.actions", move("↑", -1, "Move up"), move("↓", 1, "Move down")),
    );
  }

  move(at, way) {
    const { captures } = this.page;
    [captures[at], captures[at + way]] = [captures[at + way], captures[at]];
    this.page.drawRail();
    this.show();
    this.list.children[at + way].querySelectorAll("button")[way < 0 ? 0 : 1].focus();
  }

  chosen() {
    return this.page.captures.filter((it) => !this.left.has(it));
  }

  merge() {
    const captures = this.chosen();
    if (!captures.length) return "Choose at least one capture.";
    const words = ["merge", ...(this.mended.checked ? ["--repair"] : [])];
    return this.start({ title: `Merged ${counted(captures.length, "capture")}`, words, captures, name: "merged.pcapng" });
  }

  join() {
    const captures = this.chosen();
    if (!captures.length) return "Choose at least one part.";
    const [stem, ending] = splitName(captures[0].name);
    const name = `${stem.replace(/-\d{5}$/, "")}-joined${ending}`;
    return this.start({ title: `Joined ${counted(captures.length, "part")}`, words: ["join"], captures, name });
  }
}
