"""Checks that the page makes of captures what the program makes."""
import json
import os

from .page import DATA, grouped


def compare(tally, native, page, name, words, files):
    """Compares what the newest job made, and its messages, with the program's."""
    said, made = page.job(), page.made()
    wanted = native.run(words, files)
    lines = [it.removeprefix("pcapfile: ") for it in wanted["errors"].decode().splitlines()]
    tally.note(
        name,
        made != wanted["written"]
        and f"it made {({k: len(v) for k, v in made.items()})}, and not {({k: len(v) for k, v in wanted['written'].items()})}",
        said != lines and f"it said {said}, and not {lines}",
    )
    return made


def try_making(tally, native, page):
    """Checks repair, convert and cut for each open capture."""
    for name in page.names():
        files = {name: os.path.join(DATA, name)}
        stem, ending = os.path.splitext(name)
        other = "pcap" if ending == ".pcapng" else "pcapng"
        free = f"{stem}.{other}" if f"{stem}.{other}" not in page.names() else f"{stem} (2).{other}"
        mended = ["--repair"] if native.run(["check", name], files)["status"] else []
        page.select(name)
        page.tab("Export")
        page.press("Repair")
        compare(tally, native, page, f"repair of {name}", ["repair", name, "-o", f"{stem}-repaired{ending}"], files)
        page.press("Convert")
        compare(tally, native, page, f"convert of {name}", ["convert", *mended, name, "-o", free], files)
        page.set("By", "packets")
        page.set("From packet", "2")
        page.set("To packet", "3")
        page.press("Cut")
        compare(tally, native, page, f"cut of {name} by number", ["cut", *mended, name, "--packets", "2-3", "-o", f"{stem}-cut{ending}"], files)
        page.set("By", "time")
        page.set("From", "2023-11-14 22:13:20.2Z")
        page.set("Until", "1700000001")
        page.press("Cut")
        times = ["--from", "2023-11-14T22:13:20.2Z", "--until", "1700000001"]
        compare(tally, native, page, f"cut of {name} by time", ["cut", *mended, name, *times, "-o", f"{stem}-cut{ending}"], files)


def try_span(tally, native, page):
    """Checks that dragging the mouse over bars of time cuts them out."""
    name = "classic.pcap"
    files = {name: os.path.join(DATA, name)}
    time_ = json.loads(native.run(["info", "--json", name], files)["output"])["over_time"]
    begin, end = 5, len(time_["packets"]) - 20
    page.select(name)
    page.tab("Overview")
    page.value("inSight('.plot')[0].scrollIntoView({ block: 'center' })")
    left, top, width = page.value("(({ left, top, width }) => [left, top, width])(inSight('.plot')[0].getBoundingClientRect())")
    step = width / len(time_["packets"])
    for kind, bar in (("mousePressed", begin), ("mouseMoved", begin + 7), ("mouseMoved", end), ("mouseReleased", end)):
        page.browser.call("Input.dispatchMouseEvent", type=kind, x=left + (bar + 0.5) * step, y=top + 40, button="left", buttons=1, clickCount=1)
    counted = sum(time_["packets"][begin : end + 1])
    told = page.texts(".chosen span")[0]
    page.press("Cut out this span")
    page.press("Cut")
    nanoseconds = [(time_["first"] + it) * time_["width"] for it in (begin, end + 1)]
    since, until = (f"{it // 10**9}.{it % 10**9:09}" for it in nanoseconds)
    compare(tally, native, page, "cut of a span", ["cut", name, "--from", since, "--until", until, "-o", "classic-cut.pcap"], files)
    tally.note("the packet count of a time span", not told.endswith(f": {counted} packet{'' if counted == 1 else 's'}") and f"{told!r}, and not {counted}")


def try_several(tally, native, page):
    """Checks that parts from a cut join to the capture again, and that captures are merged."""
    path = os.path.join(DATA, "classic.pcap")
    page.select("classic.pcap")
    page.tab("Export")
    page.set("By", "every")
    page.set("Packets", "1")
    page.press("Cut")
    made = compare(tally, native, page, "cut into parts", ["cut", "classic.pcap", "--every", "1", "-o", "classic-cut.pcap"], {"classic.pcap": path})
    page.empty()
    parts = []
    for name, content in made.items():
        parts.append(os.path.join(page.browser.folder, name))
        with open(parts[-1], "wb") as file:
            file.write(content)
    page.give(*reversed(parts))
    page.press("Merge or join captures")
    page.press("Join")
    page.job()
    with open(path, "rb") as file:
        whole = file.read()
    tally.note("join gives the capture back", page.made() != {"classic-cut-joined.pcap": whole} and f"it made {page.made()}")
    files = {os.path.basename(it): it for it in parts}
    page.press("Merge")
    compare(tally, native, page, "merge", ["merge", *files, "-o", "merged.pcapng"], files)


def try_names(tally, native, page):
    """Checks that two files of one name, and a name that begins with a hyphen, are each their own."""
    folder, paths = page.browser.folder, []
    for place, source in (("a", "classic.pcap"), ("b", "torn.pcap")):
        os.makedirs(os.path.join(folder, place))
        paths.append(os.path.join(folder, place, "same.pcap"))
        with open(os.path.join(DATA, source), "rb") as given, open(paths[-1], "wb") as file:
            file.write(given.read())
    strange = os.path.join(folder, "-o <b>'&amp;\" é.pcap")
    os.symlink(os.path.join(DATA, "classic.pcap"), strange)
    before = page.names()
    for path in (*paths, strange):
        page.give(path)
    found = page.names()[len(before) :]
    tally.note("names twice", found != ["same.pcap", "same (2).pcap", os.path.basename(strange)] and f"they are {found}")
    for name, path in zip(found, (*paths, strange)):
        page.select(name)
        page.tab("Overview")
        info = json.loads(native.run(["info", "--json", "in"], {"in": path})["output"])
        shown = page.figures()["Packets"][0]
        tally.note(f"packets of {name}", shown != grouped(info["packets"]) and f"{shown}, and not {info['packets']}")
    page.tab("Export")
    page.press("Repair")
    page.job()
    wanted = native.run(["repair", "in", "-o", "out"], {"in": strange})["written"]["out"]
    tally.note("repair of a strange name", list(page.made().values()) != [wanted] and f"it made {page.made()}")
