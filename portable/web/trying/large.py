"""Measures large captures: how long the page takes, and how much memory."""
import json
import os
import struct
import time

from .page import grouped

MILLION = 10**6
MOST_MEMORY = 10 * MILLION


def write_small_packets(path, count):
    """Writes a capture of this many packets. Each has 84 bytes and a head of 16, which are 100 bytes."""
    with open(path, "wb") as file:
        file.write(struct.pack("<IHHiIII", 0xA1B23C4D, 2, 4, 0, 0, 65535, 1))
        filler = bytes(84)
        for start in range(0, count, 10000):
            rows = (
                struct.pack("<IIII", 1_700_000_000 + k // 1000, k % 1000 * 1_000_000, 84, 84) + filler
                for k in range(start, min(count, start + 10000))
            )
            file.write(b"".join(rows))


READ_ALONE = """new Promise((done) => {
  const text = `onmessage = ({ data }) => {
    const reader = new FileReaderSync();
    for (let at = 0; at < data.size; at += 4 << 20) reader.readAsArrayBuffer(data.slice(at, at + (4 << 20)));
    postMessage(0);
  }`;
  const it = new Worker(URL.createObjectURL(new Blob([text], { type: 'text/javascript' })));
  const begun = performance.now();
  it.onmessage = () => (it.terminate(), done((performance.now() - begun) / 1000));
  it.postMessage(new Blob([new Uint8Array(100 * 1000 * 1000)]));
})"""


def seconds_of_info(page, path):
    """Returns how long the page takes from the choice of a file until it shows its figures."""
    page.empty()
    begun = time.monotonic()
    page.give(path)
    page.until("Boolean(document.querySelector('.figures'))")
    return time.monotonic() - begun


def try_large(tally, native, page):
    """Checks 100 MB with a million packets: figures within two seconds, a list that scrolls, and memory that remains small."""
    path = os.path.join(page.browser.folder, "million.pcap")
    write_small_packets(path, MILLION)
    seconds = min(seconds_of_info(page, path) for _ in range(3))
    # If other work keeps the machine busy, the test measures what the browser takes for reading alone.
    alone = page.value(READ_ALONE)
    info = json.loads(native.run(["info", "--json", "in"], {"in": path})["output"])
    cost = page.value("JSON.stringify({ ...document.querySelector('.cost').dataset })")
    memory = int(json.loads(cost)["memory"])
    tally.note(
        "info of 100 MB",
        seconds > max(2, 3 * alone) and f"it took {seconds:.2f} s, and a Worker that only reads as much {alone:.2f} s",
        page.figures()["Packets"][0] != grouped(info["packets"]) and f"it shows {page.figures()}",
        memory > MOST_MEMORY and f"it took {memory} bytes",
    )
    print(f"info of {os.path.getsize(path) / 1e6:.0f} MB: {seconds:.2f} s until it is shown, {memory / 1e6:.1f} MB of memory")
    try_rows(tally, page, alone)
    for button, name in (("Repair", "million-repaired.pcap"), ("Convert", "million.pcapng")):
        page.tab("Export")
        page.press(button)
        page.job()
        memory = int(page.value("document.querySelector('.job .cost').dataset.memory"))
        word = button.lower()
        wanted = native.run([word, "million.pcap", "-o", name], {"million.pcap": path})["written"][name]
        tally.note(f"{word} of 100 MB", page.made() != {name: wanted} and "it made other bytes", memory > MOST_MEMORY and f"it took {memory} bytes")
    os.remove(path)


SCROLL = """(async () => {
  const list = document.querySelector('.packets'), gaps = [], rows = () => all('.packet-window .packet-row');
  const frame = () => new Promise(requestAnimationFrame);
  const numbers = () => rows().map((it) => Number(it.children[0].textContent.replaceAll(',', '')));
  const isWhole = (found) => found.length > 5 && found.every((it, at) => at === 0 || it === found[at - 1] + 1);
  let last = await frame(), broken = 0, empty = 0;
  for (let step = 0; step < 240; step++) {
    list.scrollTop = step % 60 === 30 ? list.scrollHeight * ((step * 37) % 240) / 240 : list.scrollTop + 90;
    const now = await frame();
    gaps.push(now - last);
    last = now;
    if (!isWhole(numbers())) broken++;
    if (rows().some((it) => !it.children[1].textContent)) empty++;
  }
  gaps.sort((one, other) => one - other);
  return { median: gaps[120], worst: gaps[239], broken, empty };
})()"""


def try_rows(tally, page, alone):
    """Checks a million rows: each can be reached, neighbours remain together however far one scrolls, and frames come without a gap."""
    page.tab("Packets")
    begun = time.monotonic()
    page.until("document.querySelector('.packet-window .packet-row')?.children[1].textContent")
    first = time.monotonic() - begun
    page.until("document.querySelector('.toolbar').textContent.includes('1,000,000 packets')")
    page.until("!isBusy()")
    whole = time.monotonic() - begun
    memory = int(page.value("document.querySelector('.packet-panel').dataset.memory"))
    scrolled = page.value(SCROLL)
    page.value("(() => { const it = document.querySelector('.packets'); it.scrollTop = it.scrollHeight; })()")
    page.until("textsOf(document.querySelector('.packet-window').lastElementChild)[0] === '1,000,000'")
    page.until("Boolean(textsOf(document.querySelector('.packet-window').lastElementChild)[1])")
    end = page.rows()[-1]
    page.value("document.querySelector('[aria-label=\"Number of a packet\"]').value = 654321")
    page.press("Go")
    page.until("all('.packet-row' + isChosen)[0]?.children[1].textContent")
    selected = page.value("textsOf(all('.packet-row' + isChosen)[0])")
    page.value("document.querySelector('.packets').dispatchEvent(new KeyboardEvent('keydown', { key: 'ArrowDown', bubbles: true }))")
    page.until("all('.packet-row' + isChosen)[0].children[0].textContent === '654,322'")
    tally.note(
        "a million rows",
        end[0] != "1,000,000" and f"the last row is {end}",
        end[1] != "2023-11-14 22:29:59.999000000" and f"its time is {end[1]}",
        selected[:2] != ["654,321", "2023-11-14 22:24:14.320000000"] and f"packet 654321 is {selected}",
        scrolled["broken"] and f"rows were torn apart in {scrolled['broken']} frames",
        scrolled["median"] > max(50, 100 * alone) and f"frames came each {scrolled['median']:.0f} ms",
        memory > MOST_MEMORY and f"it took {memory} bytes",
    )
    told = f"frames each {scrolled['median']:.0f} ms, the longest {scrolled['worst']:.0f}, rows not yet read in {scrolled['empty']} of 240"
    print(f"a million rows: the first after {first:.2f} s, all after {whole:.2f} s, {memory / 1e6:.1f} MB of memory; {told}")


def resident(browser, kind):
    """Returns the bytes that the processes of a kind have in memory now, and at most since the last call."""
    session, browser.session = browser.session, None
    processes = browser.call("SystemInfo.getProcessInfo")["processInfo"]
    browser.session = session
    now = most = 0
    for it in processes:
        if it["type"] == kind:
            with open(f"/proc/{it['id']}/status", encoding="ascii", errors="replace") as file:
                fields = dict(line.split(":", 1) for line in file)
            now += int(fields["VmRSS"].split()[0]) * 1024
            most += int(fields["VmHWM"].split()[0]) * 1024
            with open(f"/proc/{it['id']}/clear_refs", "w", encoding="ascii") as file:
                file.write("5")
    return now, most


WATCH = """(() => {
  const main = document.querySelector('main');
  window.seen = [];
  window.watcher = new MutationObserver(() => seen.push(...inSight('main progress').map((it) => it.value)));
  watcher.observe(main, { subtree: true, childList: true, attributes: true });
})()"""


def try_progress(tally, page):
    """Checks that the page shows how far it has read a large file, that a stop ends the reading, and that it can read the file again.
    The program's memory must not grow with the file."""
    path = os.path.join(page.browser.folder, "large.pcap")
    page.empty()
    with open(path, "wb") as file:
        piece = struct.pack("<IIII", 1_700_000_000, 5, 1500, 1500) + bytes(1500)
        file.write(struct.pack("<IHHiIII", 0xA1B23C4D, 2, 4, 0, 0, 65535, 1))
        for _ in range(300):
            file.write(piece * 1000)
    before, _ = resident(page.browser, "renderer")
    page.value(WATCH)
    page.browser.give(path)
    page.until("document.querySelector('main progress')?.value > 0")
    page.press("Stop")
    page.until("document.querySelector('main').textContent.includes('You stopped it')")
    stopped = page.value("document.querySelector('.capture-more').textContent")
    page.press("Read it again")
    page.until("Boolean(document.querySelector('.figures'))")
    seen = page.value("watcher.disconnect(), seen")
    memory = int(page.value("document.querySelector('.cost').dataset.memory"))
    now, most = resident(page.browser, "renderer")
    tally.note(
        "progress and stop",
        "stopped" not in stopped and f"the page reports {stopped!r}",
        len({it for it in seen if 0 < it < 1}) < 3 and f"progress was {seen}",
        any(not 0 <= it <= 1 for it in seen) and f"progress was {seen}",
        page.figures()["Packets"][0] != "300,000" and f"then it shows {page.figures()}",
        memory > MOST_MEMORY and f"it took {memory} bytes",
        most - before > os.path.getsize(path) and f"the page's process grew by {most - before} bytes, which is more than the file",
    )
    grown = f"the page's process grew by {(most - before) / 1e6:.0f} MB at most"
    print(f"info of {os.path.getsize(path) / 1e9:.2f} GB: {memory / 1e6:.1f} MB of memory; {grown}")
    os.remove(path)
