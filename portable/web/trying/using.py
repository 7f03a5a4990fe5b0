"""Checks the use of the page: other files, drops, keys, widths, and what its policy forbids."""
import os

from .page import DATA


def try_other_files(tally, page):
    """Checks that the page refuses files that are no captures in words, and goes on."""
    folder = page.browser.folder
    for name, content, said in (
        ("packed.pcap.gz", b"\x1f\x8b\x08\x00" + bytes(40), "compressed by gzip"),
        ("nothing.pcap", b"", "empty"),
        ("text.txt", b"This is no capture, but a text of some length.\n", "not a capture that can be read"),
    ):
        path = os.path.join(folder, name)
        with open(path, "wb") as file:
            file.write(content)
        page.give(path)
        page.select(name)
        shown = page.value("document.querySelector('main').textContent")
        tally.note(f"what is said of {name}", said not in shown and f"it says {shown!r}")


POLICY_TRIES = """(async () => {
  const refused = [], there = 'https://example.invalid/';
  addEventListener('securitypolicyviolation', (event) => refused.push(event.effectiveDirective));
  const ends = (it, good, bad) => new Promise((done) => { it[good] = () => done('went'); it[bad] = () => done('refused'); });
  const put = (tag, properties) => document.body.appendChild(Object.assign(document.createElement(tag), properties));
  const tries = {
    fetch: () => fetch(there).then(() => 'went', () => 'refused'),
    blob: () => fetch(URL.createObjectURL(new Blob(['x']))).then(() => 'went', () => 'refused'),
    socket: () => ends(new WebSocket(there.replace('https', 'wss')), 'onopen', 'onerror'),
    image: () => { const it = new Image(), end = ends(it, 'onload', 'onerror'); it.src = there; return end; },
    beacon: () => (navigator.sendBeacon(there, 'x'), 'refused'),
    script: () => (put('script', { textContent: 'window.ran = 1' }), window.ran ? 'went' : 'refused'),
    form: () => (put('form', { action: there }).submit(), 'refused'),
  };
  const told = {};
  for (const [name, run] of Object.entries(tries)) {
    try { told[name] = await run(); } catch (fault) { told[name] = 'refused'; }
  }
  await new Promise((done) => setTimeout(done, 100));
  return { told, refused };
})()"""
IN_WORKER = """new Promise((done) => {
  const text = "fetch('https://example.invalid/').then(() => postMessage('went'), () => postMessage('refused'))";
  const it = new Worker(URL.createObjectURL(new Blob([text], { type: 'text/javascript' })));
  it.onmessage = (event) => done(event.data);
})"""


def try_policy(tally, page):
    """Checks that the page's policy forbids each way out that the test tries, also those of a Worker, and that nothing used a network before."""
    found = page.value(POLICY_TRIES)
    wanted = {"connect-src", "img-src", "script-src-elem"}
    tally.note(
        "the policy",
        page.value("location.protocol") != "file:" and "the page was left",
        any(it == "went" for it in found["told"].values()) and f"something went out: {found['told']}",
        not wanted <= set(found["refused"]) and f"only {found['refused']} were refused",
        found["refused"].count("connect-src") < 4 and f"connect-src was refused {found['refused'].count('connect-src')} times",
    )
    in_worker = page.value(IN_WORKER)
    tally.note("the policy in a Worker", in_worker != "refused" and f"a fetch there {in_worker}")
    page.browser.call("Runtime.evaluate", expression="0")
    asked = [it["params"]["request"]["url"] for it in page.browser.events if it.get("method") == "Network.requestWillBeSent"]
    out = [it for it in asked if not it.startswith(("file:", "blob:", "data:", "about:", "https://example.invalid/"))]
    tally.note("requests", out and f"the page asked for {out}")

def try_drop(tally, page):
    """Checks that the page shows where dragged files may be dropped, and opens them there."""
    path = os.path.join(page.browser.folder, "dropped.pcap")
    with open(os.path.join(DATA, "classic.pcap"), "rb") as given, open(path, "wb") as file:
        file.write(given.read())
    data = {"items": [], "files": [path], "dragOperationsMask": 1}
    shown = "getComputedStyle(document.querySelector('.target')).display !== 'none'"
    before = page.value(shown)
    for kind in ("dragEnter", "dragOver"):
        page.browser.call("Input.dispatchDragEvent", type=kind, x=600, y=400, data=data)
    during = page.value(shown)
    page.browser.call("Input.dispatchDragEvent", type="drop", x=600, y=400, data=data)
    page.until(
        "[...document.querySelectorAll('.capture-name')].some((it) => it.textContent === 'dropped.pcap') && !document.querySelector('.dot.waiting')"
    )
    after = page.value(shown)
    tally.note(
        "a drop", (before, during, after) != (False, True, False) and f"the target was shown {before} before, {during} during and {after} after it"
    )


def try_keyboard(tally, page):
    """Checks that arrow keys move between tabs, and that the keyboard reaches each button in sight."""
    page.give(os.path.join(DATA, "classic.pcap"))
    page.select("classic.pcap")
    page.tab("Overview")
    key = "document.activeElement.dispatchEvent(new KeyboardEvent('keydown', {{ key: '{}', bubbles: true }}))"
    page.value("document.querySelector('[role=tab][aria-selected=true]').focus()")
    walked = []
    for name in ("ArrowRight", "ArrowRight", "End", "ArrowRight", "ArrowLeft", "Home"):
        page.value(key.format(name))
        walked.append(page.value("document.activeElement.textContent"))
    tally.note("tabs by keys", walked != ["Packets", "Check", "Export", "Overview", "Export", "Overview"] and f"they went {walked}")


def try_widths(tally, page):
    """Checks that nothing is wider than the window."""
    for width in (1280, 768, 400, 320):
        page.browser.look(width, 800)
        for title in ("Overview", "Packets", "Check", "Export"):
            page.tab(title)
            wide = page.value("document.documentElement.scrollWidth")
            tally.note(f"{title} at {width} pixels", wide > width and f"it is {wide} wide")
    page.browser.look(1280, 860)
