// Makes elements. The content of captures is only ever inserted as text.

function byId(id) {
  return document.getElementById(id);
}

/** Returns an element of a tag with classes, as "button.primary", and children. If the first thing is an object, it has properties of
 * the element. */
function make(what, ...things) {
  const [tag, ...classes] = what.split(".");
  const it = document.createElement(tag);
  if (classes.length) it.className = classes.join(" ");
  const properties = things[0]?.constructor === Object ? things.shift() : {};
  for (const [name, value] of Object.entries(properties)) {
    if (name.includes("-") || name === "role" || name === "for") it.setAttribute(name, value);
    else it[name] = value;
  }
  it.append(...things.flat().filter((child) => child !== null && child !== undefined));
  return it;
}

function button(text, press, what = "button") {
  return make(what, { type: "button", textContent: text, onclick: press });
}

/** Says a text to users who do not see the page. */
function say(text) {
  byId("said").textContent = text;
}

/** Returns a link that saves a Blob under a name. */
function saveLink(name, blob, text, what = "a.button.primary") {
  const link = make(what, { download: name, textContent: text });
  link.href = URL.createObjectURL(blob);
  return link;
}

/** Lets the browser forget what the links in an element would save. */
function release(element) {
  for (const link of element?.querySelectorAll("a[download]") ?? []) URL.revokeObjectURL(link.href);
}

/** Returns what a run cost, if it came to its end. */
function cost({ milliseconds, memory }) {
  const it = make("p.cost.muted", `${(milliseconds / 1000).toFixed(2)} s, ${bytes(memory)} of memory`);
  it.dataset.memory = memory;
  return it;
}

/** Shows how far a run is, with a button that stops it. */
class Activity {
  constructor(run, what) {
    this.bar = make("progress", { max: 1, value: 0, "aria-label": what });
    this.text = make("span.muted", what);
    this.element = make("div.activity", this.bar, make("div.activity-line", this.text, button("Stop", () => run.stop())));
    const begun = performance.now();
    run.onRead = (read, total) => {
      const seconds = (performance.now() - begun) / 1000;
      this.bar.value = total ? read / total : 1;
      this.text.textContent = `${what}: ${bytes(read)} of ${bytes(total)}, ${bytes(read / seconds)} a second`;
    };
    run.result.then(() => this.element.remove());
  }
}

/** Tabs with their panels. Arrow keys move between them, and `show(name)` opens one. */
class Tabs {
  constructor(label, panels) {
    this.panels = new Map(Object.entries(panels));
    this.list = make("div.tabs", { role: "tablist", "aria-label": label });
    this.element = make("div.tabbed", this.list);
    const id = `tabs${Tabs.count++}`;
    for (const [name, { title, panel }] of this.panels) {
      const tab = make(
        "button",
        { type: "button", role: "tab", id: `${id}-${name}`, "aria-controls": `${id}-${name}-panel`, textContent: title },
      );
      tab.onclick = () => this.show(name);
      tab.onkeydown = (event) => this.move(event, name);
      panel.id = `${id}-${name}-panel`;
      panel.setAttribute("role", "tabpanel");
      panel.setAttribute("aria-labelledby", tab.id);
      this.panels.get(name).tab = tab;
      this.list.append(tab);
      this.element.append(panel);
    }
    this.shown = null;
    this.onshow = () => {};
  }

  show(name) {
    for (const [it, { tab, panel }] of this.panels) {
      tab.setAttribute("aria-selected", String(it === name));
      tab.tabIndex = it === name ? 0 : -1;
      panel.hidden = it !== name;
    }
    this.shown = name;
    this.onshow(name);
  }

  move(event, name) {
    const names = [...this.panels.keys()], at = names.indexOf(name);
    const to = { ArrowRight: at + 1, ArrowLeft: at - 1, Home: 0, End: names.length - 1 }[event.key];
    if (to === undefined) return;
    event.preventDefault();
    const next = names[(to + names.length) % names.length];
    this.show(next);
    this.panels.get(next).tab.focus();
  }
}
Tabs.count = 0;
