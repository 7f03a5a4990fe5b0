// The panel of what `check --as-is` finds: each flaw, and how many there are.

const MOST_SHOWN = 1000;
const SOUND = {
  pcap: "No packet breaks a rule.",
  pcapng: "No block's frame, no section and no interface breaks a rule. Packets are looked at by the list of packets.",
};

class CheckPanel {
  constructor(page, capture) {
    this.page = page;
    this.capture = capture;
    this.activity = make("div");
    this.found = make("div.found");
    this.element = make("div.check-panel", this.activity, this.found);
  }

  show() {
    if (!this.run) this.begin();
  }

  begin() {
    this.found.replaceChildren();
    this.run = this.page.program.start(["check", "--as-is", argument(this.capture.name)], [this.capture]);
    this.activity.replaceChildren(new Activity(this.run, "Checking").element);
    this.run.result.then((result) => this.end(result));
  }

  async end(result) {
    const failure = failureOf(result);
    if (failure) {
      const { lines } = await messagesOf(result);
      this.found.replaceChildren(
        make("p.note", failure),
        ...lines.map((line) => make("p.muted", line)),
        button("Check again", () => this.begin()),
      );
      return;
    }
    const { text, isAll } = await frontOf(result.output, 200 * MOST_SHOWN);
    const lines = text.split("\n").filter(Boolean).map((line) => this.page.withoutName(line, this.capture));
    const last = isAll ? lines.pop() : await this.lastLine(result.output);
    this.found.replaceChildren(this.summary(result, last), ...this.flaws(lines, isAll, result.output));
    say(last);
  }

  async lastLine(blob) {
    const end = await blob.slice(-4096).text();
    return this.page.withoutName(end.trimEnd().split("\n").pop(), this.capture);
  }

  summary(result, last) {
    const isSound = result.status === 0;
    const advice = isSound ? SOUND[this.capture.info.format] : "A repair writes a capture without these flaws, and says what it changes.";
    return make(`section.verdict.${isSound ? "sound" : "cut"}`,
      make("h3", isSound ? "No fault found" : "Faults were found"), make("p", last.replaceAll(/\d{5,}/g, grouped)), make("p.muted", advice),
      isSound ? null : make("div.actions", button("Repair it", () => this.page.repair(this.capture), "button.primary")));
  }

  flaws(lines, isAll, output) {
    if (!lines.length) return [];
    const shown = lines.slice(0, MOST_SHOWN), rest = !isAll || lines.length > shown.length;
    const list = make("ol.flaw-list", shown.map((textContent) => make("li", { textContent })));
    const save = saveLink(`${this.capture.name}-check.txt`, output, rest ? "Save all lines" : "Save as text", "a.button");
    const title = rest ? `The first ${grouped(shown.length)} flaws` : counted(shown.length, "flaw");
    return [make("section.card", make("h3", title), list, save)];
  }
}
