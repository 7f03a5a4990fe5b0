"""Checks that the page shows of captures what the program writes."""
import json
import os
import time

from .page import DATA, grouped, verdict_text


def try_info(tally, native, page):
    """Checks that the page shows for each stored capture what `info --json` writes."""
    paths = [
        os.path.join(DATA, it)
        for it in (
            "blocks.pcapng",
            "classic.pcap",
            "longer_than_original.pcap",
            "name.pcapng",
            "short_speed.pcapng",
            "torn.pcap",
            "two_sections.pcapng",
        )
    ]
    page.give(*paths)
    for path in paths:
        name = os.path.basename(path)
        page.select(name)
        page.tab("Overview")
        info = json.loads(native.run(["info", "--json", name], {name: path})["output"])
        shown, verdict = page.figures(), page.texts("main > .verdict p")
        sizes = [int(it.replace(",", "")) for it in page.texts(".size-count")]
        counts = info["sizes"]
        used = [k for k, it in enumerate(counts) if it]
        wanted = counts[used[0] : used[-1] + 1] if used else []
        bars = page.value("inSight('.plot').map((it) => it.children.length)")
        tally.note(
            f"what is shown of {name}",
            shown["Packets"][0] != grouped(info["packets"]) and f"packets are {shown['Packets']}",
            verdict[:1] != [verdict_text(info["check"])] and f"the verdict is {verdict}, and not {info['check']!r}",
            shown["Duration"][-1] != (f"{info['duration']} s" if info["duration"] else "unknown") and f"the duration is {shown['Duration']}",
            sizes != wanted and f"sizes are {sizes}, and not {wanted}",
            bars != ([len(info["over_time"]["packets"])] if info["over_time"] else []) and f"there are {bars} bars over time",
        )
        if info["status"]:
            page.press("Read on behind it")
            page.until("inSight('.note').some((it) => it.textContent.includes('as a repair would'))")
            wanted = json.loads(native.run(["info", "--json", "--repair", name], {name: path})["output"])["packets"]
            tally.note(
                f"what is read behind the fault of {name}",
                page.figures()["Packets"][0] != grouped(wanted) and f"{page.figures()['Packets']}, and not {wanted}",
            )
        page.tab("Export")
        for button, words, ending in (
            ("Figures as JSON", ["info", "--json"], "-info.json"),
            ("Figures as text", ["info"], "-info.txt"),
            ("Packets as CSV", ["list", "--csv"], ".csv"),
            ("Packets as JSON lines", ["list", "--json"], ".jsonl"),
        ):
            found, wanted = page.table(button, name + ending), native.run([*words, name], {name: path})["output"]
            tally.note(f"{button} of {name}", found != wanted and f"{found!r:.300}, and not {wanted!r:.300}")


def row_of(line, linked):
    """Returns what a row shows of a line of `list --as-is`: number, lengths, interface and flaws."""
    words = line.split(" ")
    flaws = " ".join(it if it in ("!utf8", "!short") else f"rule {it[1:]}" for it in words if it.startswith("!"))
    if words[1] == "refused":
        return [words[0], "cannot be read", *([""] if linked else []), flaws]
    stored, original = (grouped(int(it)) for it in words[2].split("/"))
    lengths = original if stored == original else f"{stored} of {original}"
    return [words[0], lengths, *([words[3]] if linked else []), flaws]


def try_packets(tally, native, page):
    for name in page.names():
        path = os.path.join(DATA, name)
        page.select(name)
        page.tab("Packets")
        page.until("!isBusy()")
        time.sleep(0.1)
        lines = native.run(["list", "--as-is", name], {name: path})["output"].decode().splitlines()
        linked = name.endswith("ng")
        found, wanted = page.rows(), [row_of(it, linked) for it in lines]
        times = [it.split(" ")[1] for it in lines]
        page.set("Time", "epoch")
        shown = [it[1] for it in page.rows()]
        told = [it if it not in ("-", "refused") else {"-": "no time", "refused": ""}[it] for it in times]
        tally.note(
            f"packets of {name}",
            [[it[0], *it[2:]] for it in found] != wanted and f"{found}, and not {wanted}",
            shown != told and f"times are {shown}, and not {told}",
        )


def try_check(tally, native, page):
    for name in page.names():
        path = os.path.join(DATA, name)
        page.select(name)
        page.tab("Check")
        page.until("inSight('.check-panel .verdict').length > 0")
        wanted = native.run(["check", "--as-is", name], {name: path})
        lines = [it.removeprefix(f"{name}: ") for it in wanted["output"].decode().splitlines()]
        lines[-1] = verdict_text(lines[-1])
        found = page.texts(".flaw-list li") + page.texts(".check-panel .verdict p")[:1]
        title = page.texts(".check-panel .verdict h3")[0]
        tally.note(
            f"check of {name}",
            found != lines and f"{found}, and not {lines}",
            (title == "No fault found") != (wanted["status"] == 0) and f"the page reports {title!r}",
        )
