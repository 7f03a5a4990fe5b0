"""Checks what `pcapfile info` writes. The test makes captures and counts their figures itself, and compares files with capinfos if that
is installed."""
import hashlib
import itertools
import json
import os
import struct
import subprocess
import tempfile
from datetime import datetime, timezone

import every_block
import left_out

DONE, AT_FAULT, FAILED = 0, 1, 3
SECONDS = 60
BILLION = 10**9
LEAST = (0, 20, 40, 80, 160, 320, 640, 1280, 2560, 5120)
HEIGHTS = " ▁▂▃▄▅▆▇█"
COLUMNS = (
    "file", "format", "packets", "bytes", "original", "stored", "earliest", "latest", "duration", "average", "packets_per_second",
    "bytes_per_second", "interfaces", "link", "refused", "status", "check",
)  # fmt: skip
# The kinds of other blocks, with the label of each and the numbers of its types.
KINDS = {
    "names": ("Name blocks:", {4}),
    "statistics": ("Statistics blocks:", {5}),
    "journal": ("Journal blocks:", {9}),
    "secrets": ("Secrets blocks:", {10}),
    "custom": ("Custom blocks:", {0xBAD, 0x40000BAD}),
    "unknown": ("Unknown blocks:", set()),
}
NO_OTHERS = {0x0A0D0D0A, 1, 2, 3, 6}


def utc(time):
    return datetime.fromtimestamp(time // BILLION, timezone.utc).strftime("%Y-%m-%dT%H:%M:%S") + f".{time % BILLION:09}Z"


def hundredths(number):
    return f"{number // 100}.{number % 100:02}"


def part_of(count, largest, whole):
    """Returns the part of the whole that the count is of the largest, rounded up."""
    return -(-count * whole // largest)


def sizes(packets):
    counts = [sum(1 for _, wire, _ in packets if low <= wire < above) for low, above in zip(LEAST, (*LEAST[1:], 2**32))]
    for k, count in enumerate(counts):
        if count:
            range_ = f"{LEAST[k]:>6} to {LEAST[k + 1] - 1:<6}" if k < 9 else f"{LEAST[k]:>6} or more "
            yield f"  {range_} {count:>12} {'#' * part_of(count, max(counts), 40)}"


def counts_over_time(times):
    """Returns the packets of each span, and the span: the smallest power of two of nanoseconds with which they take at most 64 spans."""
    if not times:
        return None
    width = 1
    while max(times) // width - min(times) // width >= 64:
        width *= 2
    first = min(times) // width
    counts = [0] * (max(times) // width - first + 1)
    for time in times:
        counts[time // width - first] += 1
    return {"width": width, "first": first, "packets": counts}


def spans(times):
    """Yields the line of spans, with a sign for each."""
    width, counts = (counts_over_time(times)[it] for it in ("width", "packets"))
    yield f"  Packets over time: each sign is {width // BILLION}.{width % BILLION:09} seconds"
    yield f"  |{''.join(HEIGHTS[part_of(it, max(counts), 8)] for it in counts)}|"


def is_in_order(times):
    return times == sorted(times)


def figures(packets):
    """Yields the lines of figures for packets of (nanoseconds since 1970 or None, length on the wire, data)."""
    wire, stored = sum(it[1] for it in packets), sum(len(it[2]) for it in packets)
    yield f"  Packets:           {len(packets)}"
    yield f"  Data size:         {wire} bytes, of which {stored} are stored"
    if packets:
        yield f"  Average size:      {hundredths(wire * 100 // len(packets))} bytes"
    times = [it[0] for it in packets if it[0] is not None]
    if times:
        duration = max(times) - min(times)
        yield f"  Earliest packet:   {utc(min(times))}"
        yield f"  Latest packet:     {utc(max(times))}"
        yield f"  Time order:        {'in order' if is_in_order(times) else 'not in order'}"
        yield f"  Duration:          {duration // BILLION}.{duration % BILLION:09} seconds"
        if duration:
            yield f"  Packet rate:       {hundredths(len(packets) * 100 * BILLION // duration)} packets a second"
            yield f"  Data rate:         {hundredths(wire * 100 * BILLION // duration)} bytes a second"
    if packets:
        yield "  Packet sizes in bytes:"
        yield from sizes(packets)
    if times:
        yield from spans(times)


def shows(tally, help, name, capture, lines, status=DONE):
    with tempfile.TemporaryDirectory() as folder:
        help.put(folder, "in", capture)
        code, written, told = tally.run(folder, ["in"], word="info")
        again = tally.run(folder, ["-"], given=capture, word="info")
    wanted = "".join(f"{it}\n" for it in lines)
    tally.note(
        f"info of {name}",
        (code, told) != (status, "") and f"it ended with {code} and said {told!r}",
        written.decode() != wanted and f"it wrote\n{written.decode()}and not\n{wanted}",
        again != (code, b"-" + written[2:], told) and f"of standard input it wrote {again}",
    )


def decimals(number, digits):
    return f"{number // 10**digits}.{number % 10**digits:0{digits}}"


def members(packets):
    """Returns the figures of packets as --json has them."""
    times = [it[0] for it in packets if it[0] is not None]
    wire = sum(it[1] for it in packets)
    duration = max(times) - min(times) if times else None
    rates = [decimals(it * 100 * BILLION // duration, 2) if duration else None for it in (len(packets), wire)]
    return {
        "packets": len(packets),
        "original": wire,
        "stored": sum(len(it[2]) for it in packets),
        "average": decimals(wire * 100 // len(packets), 2) if packets else None,
        "sizes": [sum(1 for it in packets if low <= it[1] < above) for low, above in zip(LEAST, (*LEAST[1:], 2**32))],
        "earliest": decimals(min(times), 9) if times else None,
        "latest": decimals(max(times), 9) if times else None,
        "duration": decimals(duration, 9) if times else None,
        "in_order": is_in_order(times) if times else None,
        "packets_per_second": rates[0],
        "bytes_per_second": rates[1],
        "over_time": counts_over_time(times),
    }


def tells_json(tally, help, name, capture, wanted, status=DONE):
    with tempfile.TemporaryDirectory() as folder:
        help.put(folder, "in", capture)
        code, written, told = tally.run(folder, ["--json", "in"], word="info")
    found = json.loads(written)
    tally.note(
        f"info --json of {name}",
        (code, told) != (status, "") and f"it ended with {code} and said {told!r}",
        written.count(b"\n") != 1 and f"it wrote {written!r}",
        *(f"{it} is {found.get(it)!r}, and not {wanted[it]!r}" for it in wanted if found.get(it) != wanted[it]),
    )


# The texts of an interface on its device: the code of each, its label here, and that of capinfos.
DEVICE = {
    "description": (3, "Description:", "Description"),
    "hardware": (15, "Hardware:", "Hardware"),
    "os": (12, "Operating system:", "Operating system"),
}
# The texts of a section on how it was made.
MACHINE = {
    "application": (4, "Application:", "Capture application"),
    "hardware": (2, "Hardware:", "Capture hardware"),
    "os": (3, "Operating system:", "Capture oper-sys"),
}
PACKETS = [(1700000000 * BILLION + k * k * 777_000_000, 60 + 37 * k % 1500, bytes(k % 60)) for k in range(300)]


def try_classic(tally, help):
    """Checks captures of both orders and resolutions, with and without packets, a truncated one, and one without a header."""
    for order, order_name in (("<", "little-endian"), (">", "big-endian")):
        for magic, fraction, unit in ((0xA1B2C3D4, 1000, "microseconds"), (0xA1B23C4D, 1, "nanoseconds")):
            for count in (0, 1, 2, 300):
                packets = PACKETS[:count]
                capture, ends = help.classic(order, magic, fraction, help.ETHERNET, packets)
                made = [
                    f"  File type:         pcap 2.4, {order_name}, times in {unit}",
                    "  Link type:         ETHERNET (1)",
                    "  Packet size limit: 65535 bytes",
                ]
                first = f"in: pcap, {count} packets, {len(capture)} bytes"
                name = f"{count} packets, {order_name}, {unit}"
                shows(tally, help, name, capture, [first, *made, *figures(packets)])
                file = {"file": "in", "format": "pcap", "check": first[4:], "status": 0, "bytes": len(capture), "version": "2.4"}
                link = {"order": order_name, "resolution": unit, "link": 1, "link_name": "ETHERNET", "fcs_len": None, "snaplen": 65535}
                rest = {"sections": 1, "refused": 0, "blocks": dict.fromkeys(KINDS, 0), "comments": [], "interfaces": [], **dict.fromkeys(MACHINE)}
                tells_json(tally, help, name, capture, {**file, **link, **rest, **members(packets)})
                if count > 1:
                    first = f"in: pcap, {count - 1} packets, cut short at byte {ends[-2]}"
                    shows(tally, help, f"{name}, torn", capture[:-1], [first, *made, *figures(packets[:-1])], AT_FAULT)
    shows(tally, help, "a torn header", bytes(23), ["in: pcap, 0 packets, cut short at byte 0", *figures([])], AT_FAULT)


# The field of a link type, and the link type and the length of the frame check sequences that it has ('File Header', LinkType).
LINK_FIELDS = ((1 << 26 | 2 << 28 | 1, 1, "ETHERNET", 4), (1 << 26 | 101, 101, "RAW", 0), (15 << 28 | 1, 1, "ETHERNET", None), (0x3FF << 16 | 105, 105, "IEEE802_11", None))


def try_link_fields(tally, help):
    """Checks that the link type is the low 16 bits of its field, and that the length of frame check sequences is in the upper ones."""
    for field, link, link_name, fcs_len in LINK_FIELDS:
        capture, _ = help.classic("<", 0xA1B23C4D, 1, field, PACKETS[:2])
        lines = [f"in: pcap, 2 packets, {len(capture)} bytes", "  File type:         pcap 2.4, little-endian, times in nanoseconds", f"  Link type:         {link_name} ({link})"]
        lines += [f"  Frame check:       {fcs_len} bytes at the end of each packet"] * (fcs_len is not None)
        name = f"a link field of {field:#x}"
        shows(tally, help, name, capture, [*lines, "  Packet size limit: 65535 bytes", *figures(PACKETS[:2])])
        _, written, _ = tally.run(None, ["--json", "-"], given=capture, word="info")
        said = {it: json.loads(written)[it] for it in ("link", "link_name", "fcs_len")}
        tally.note(f"info --json of {name}", said != {"link": link, "link_name": link_name, "fcs_len": fcs_len} and f"it tells {said}")
        _, written, _ = tally.run(None, ["--table", "-"], given=capture, word="info")
        shown = written.decode().splitlines()[1].split("\t")[COLUMNS.index("link")]
        tally.note(f"info --table of {name}", shown != f"{link_name} ({link})" and f"it shows {shown}")


ORDERS = (((5, 5, 5), True), ((5, 6, 5), False), ((6, 5, 7), False), ((5, 7, 6, 8), False), ((BILLION - 1, BILLION), True), ((BILLION, BILLION - 1), False))


def told_order(tally, help, capture):
    """Returns whether times are in order according to `info --json`, `info` and, if it is installed, capinfos."""
    with tempfile.TemporaryDirectory() as folder:
        help.put(folder, "in", capture)
        found = [json.loads(tally.run(folder, ["--json", "in"], word="info")[1])["in_order"]]
        lines = tally.run(folder, ["in"], word="info")[1].decode().splitlines()
        if left_out.has("capinfos", "the order of times beside capinfos, in tests/files/run"):
            words = ["capinfos", "-T", "-r", "-o", os.path.join(folder, "in")]
            theirs = subprocess.run(words, capture_output=True, timeout=SECONDS, check=True).stdout.decode().split("\t")[1].strip()
            found += [{"True": True, "False": False, "Unknown": None}[theirs]]
    shown = {"  Time order:        in order": True, "  Time order:        not in order": False}
    return [*found, *(shown[it] for it in lines if it in shown)]


def try_order(tally, help):
    """Checks whether times are in order: in both formats, by nanoseconds and by seconds, and with a packet that has no time."""
    for times, wanted in ORDERS:
        packets = [(it, 60, bytes(60)) for it in times]
        capture, _ = help.classic("<", 0xA1B23C4D, 1, help.ETHERNET, packets)
        parts = [help.interface("<", help.ETHERNET, 0, True), *(help.enhanced("<", 0, *it) for it in packets)]
        for name, text in (("packets", capture), ("blocks", help.blocks("<", parts)[0])):
            found = told_order(tally, help, text)
            tally.note(f"info, order of {name} at {times}", set(found) != {wanted} and f"it is {found}, and not {wanted}")
        untimed = help.SIMPLE, (60).to_bytes(4, "little") + bytes(60)
        found = told_order(tally, help, help.blocks("<", [*parts[:2], untimed, *parts[2:]])[0])
        tally.note(f"info, order at {times} and a packet without a time", found[0] is not wanted and f"it is {found[0]}")


def try_blocks(tally, help):
    """Checks two interfaces, one of them in nanoseconds, and packets of both. One packet has no time, and one names a missing interface."""
    for order, order_name in (("<", "little-endian"), (">", "big-endian")):
        own = [(time, wire, data) for time, wire, data in PACKETS[:40]]
        parts = [help.interface(order, help.ETHERNET, 96), help.interface(order, help.RAW, 0, True)]
        for k, (time, wire, data) in enumerate(own):
            units = time if k % 2 else time // 1000
            parts.append(help.enhanced(order, k % 2, units, wire, data))
        parts.append((help.SIMPLE, int.to_bytes(70, 4, "little" if order == "<" else "big") + bytes(70)))
        parts.append(help.enhanced(order, 7, 5, 50, bytes(50)))
        capture, _ = help.blocks(order, parts)
        simple, lost = (None, 70, bytes(70)), (None, 50, bytes(50))
        lines = [
            f"in: pcapng, {len(parts) + 1} blocks, {len(capture)} bytes",
            f"  File type:         pcapng 1.0, {order_name}",
            "  Sections:          1",
            "  Interfaces:        2",
            "  No interface:      1 packets",
            *figures([*own, simple, lost]),
            "Interface 0 of section 1: link type ETHERNET (1), at most 96 bytes of a packet",
            *figures([*own[::2], simple]),
            "Interface 1 of section 1: link type RAW (101)",
            *figures(own[1::2]),
        ]
        shows(tally, help, f"blocks, {order_name}", capture, lines)
        both = [
            {"number": 0, "snaplen": 96, "link": 1, "link_name": "ETHERNET", **members([*own[::2], simple])},
            {"number": 1, "snaplen": 0, "link": 101, "link_name": "RAW", **members(own[1::2])},
        ]
        both = [{"section": 1, "name": None, "comments": [], **dict.fromkeys(DEVICE), **it} for it in both]
        file = {"file": "in", "format": "pcapng", "check": lines[0][4:], "status": 0, "bytes": len(capture)}
        file |= {"version": "1.0", "order": order_name}
        rest = {"sections": 1, "refused": 0, "blocks": dict.fromkeys(KINDS, 0), "comments": [], "interfaces": both, **dict.fromkeys(MACHINE)}
        tells_json(tally, help, f"blocks, {order_name}", capture, {**file, **rest, **members([*own, simple, lost])})


def texts_of(order, texts, chosen):
    """Returns the options with these texts. The text of each is its name."""
    return b"".join(struct.pack(order + "HH", texts[it][0], len(it)) + it.encode() + bytes(-len(it) % 4) for it in chosen)


def try_texts(tally, help):
    """Checks what the first section says of how it was made, and what an interface says of its device: each text alone, and all of them, in
    any order, beside capinfos if that is installed."""
    for order in "<>":
        for texts, is_section in ((MACHINE, True), (DEVICE, False)):
            for chosen in ((), *((it,) for it in texts), tuple(texts), tuple(reversed(texts))):
                options = texts_of(order, texts, chosen)
                number, body = help.interface(order, help.ETHERNET, 0)
                parts = [(number, body + options * (not is_section)), help.enhanced(order, 0, 5, 60, bytes(60))]
                magic = struct.pack(order + "IHHq", 0x1A2B3C4D, 1, 0, -1)
                section = help.block(order, 0x0A0D0D0A, magic + options * is_section)
                second = help.block(order, 0x0A0D0D0A, magic + texts_of(order, MACHINE, MACHINE))
                capture = section + b"".join(help.block(order, *it) for it in parts)
                for behind in (b"", second):
                    try_told(tally, help, capture + behind, texts, chosen, is_section, not behind)


def try_told(tally, help, capture, texts, chosen, is_section, is_compared):
    with tempfile.TemporaryDirectory() as folder:
        help.put(folder, "in", capture)
        told = json.loads(tally.run(folder, ["--json", "in"], word="info")[1])
        lines = tally.run(folder, ["in"], word="info")[1].decode().splitlines()
        theirs = texts_by_capinfos(folder, texts) if is_compared and left_out.has("capinfos", "texts beside capinfos, in tests/files/run") else None
    told = told if is_section else told["interfaces"][0]
    shown = [it for it in lines if it.strip().startswith(tuple(label for _, label, _ in texts.values()))]
    wanted = [f'  {label:<18} "{name}"' for name, (_, label, _) in texts.items() if name in chosen]
    found = {it: told[it] for it in texts}
    tally.note(
        f"info, texts {chosen}",
        found != {it: it if it in chosen else None for it in texts} and f"it has {found}",
        shown != wanted and f"it wrote {shown}, and not {wanted}",
        theirs not in (None, {it: it for it in texts if it in chosen}) and f"capinfos has {theirs}",
    )


def texts_by_capinfos(folder, texts):
    """Returns what capinfos says of the first section and the only interface of the file `in`."""
    ran = subprocess.run(["capinfos", os.path.join(folder, "in")], capture_output=True, timeout=SECONDS, check=True)
    said = {}
    for line in ran.stdout.decode().splitlines():
        label, _, text = line.replace(" = ", ":", 1).partition(":")
        said.setdefault(label.strip(), text.strip())
    return {name: said[theirs] for name, (_, _, theirs) in texts.items() if theirs in said}


def types_of(capture):
    """Yields the type of each block, with both byte orders tried at each section."""
    at, order = 0, "<"
    while at < len(capture):
        if capture[at : at + 4] == b"\n\r\r\n":
            order = "<" if capture[at + 8] == 0x4D else ">"
        number, length = struct.unpack_from(order + "II", capture, at)
        yield number
        at += length


def kinds_of(capture):
    """Returns how many blocks of each kind a capture has."""
    others = [it for it in types_of(capture) if it not in NO_OTHERS]
    named = {kind: sum(1 for it in others if it in numbers) for kind, (_, numbers) in KINDS.items()}
    return {**named, "unknown": len(others) - sum(named.values())}


def kinds(capture):
    """Yields the lines on kinds of blocks that a capture has."""
    yield from (f"  {KINDS[kind][0]:<18} {count}" for kind, count in kinds_of(capture).items() if count)


def try_kinds(tally, help):
    """Checks the counts of blocks by kind, in captures with every block of the draft, and in one with an unknown block alone."""
    alone, _ = help.blocks("<", [help.interface("<", help.ETHERNET), (0xBADBAD, b"")])
    for name, capture in (*((order, every_block.capture_of(order)) for order in ("<", ">", "<>")), ("one unknown block", alone)):
        wanted = kinds_of(capture)
        with tempfile.TemporaryDirectory() as folder:
            help.put(folder, "in", capture)
            found = json.loads(tally.run(folder, ["--json", "in"], word="info")[1])["blocks"]
            lines = tally.run(folder, ["in"], word="info")[1].decode().splitlines()
        labels = [it[0] for it in KINDS.values()]
        shown = [it for it in lines if it.strip().startswith(tuple(labels))]
        is_other = shown != [*kinds(capture)]
        tally.note(f"info, kinds of blocks, {name}", found != wanted and f"they are {found}, and not {wanted}", is_other and f"it wrote {shown}")


def try_files(tally, help):
    """Checks a missing file, a folder, and the captures of several files one after another."""
    capture, _ = help.classic("<", 0xA1B23C4D, 1, help.ETHERNET, PACKETS[:2])
    with tempfile.TemporaryDirectory() as folder:
        help.put(folder, "a", capture)
        code, written, told = tally.run(folder, ["missing", "a", ".", "a"], word="info")
    tally.note(
        "info of several files",
        code != FAILED and f"it ended with {code}",
        [it for it in written.decode().split("\n") if it[:1] == "a"] != [f"a: pcap, 2 packets, {len(capture)} bytes"] * 2
        and f"it wrote {written!r}",
        [it.split(": ")[:2] for it in told.splitlines()] != [["pcapfile", "missing"], ["pcapfile", "."]] and f"it said {told!r}",
    )


def told_by_capinfos(path):
    """Returns how many packets capinfos counts, the sum of their lengths, and the first and the last time."""
    words = ["capinfos", "-T", "-r", "-S", "-c", "-d", "-a", "-e", path]
    return subprocess.run(words, capture_output=True, timeout=SECONDS, check=True).stdout.decode().split("\t")[1:]


def try_capinfos(tally, help):
    """Compares the figures of a capture with those of capinfos."""
    if not left_out.has("capinfos", "info beside capinfos, in tests/files/run"):
        return
    for order, magic, fraction in (("<", 0xA1B2C3D4, 1000), (">", 0xA1B23C4D, 1)):
        capture, _ = help.classic(order, magic, fraction, help.ETHERNET, PACKETS)
        with tempfile.TemporaryDirectory() as folder:
            help.put(folder, "in", capture)
            packets, size, first, last = told_by_capinfos(os.path.join(folder, "in"))
            _, written, _ = tally.run(folder, ["in"], word="info")
            _, shown_in_table, _ = tally.run(folder, ["--table", "in"], word="info")
        lines = [f"Packets:           {packets}", f"Data size:         {size} bytes"]
        shown = written.decode()
        wanted = [utc(int(it.split(".")[0]) * BILLION + int(it.strip().split(".")[1].ljust(9, "0"))) for it in (first, last)]
        tally.note("info beside capinfos", [f"it has no {it!r}" for it in (*lines, *wanted) if it not in shown])
        columns = dict(zip(COLUMNS, shown_in_table.decode().splitlines()[1].split("\t")))
        found = [columns[it] for it in ("packets", "original", "earliest", "latest")]
        tally.note("info --table beside capinfos", found != [packets, size, *wanted] and f"it has {found}")


def table(rows):
    """Returns the lines of a table with these rows. Unknown values are hyphens."""
    shown = [COLUMNS, *(["-" if row[it] is None else str(row[it]) for it in COLUMNS] for row in rows)]
    return "".join("\t".join(it) + "\n" for it in shown)


def row(name, size, packets, rest):
    """Returns a row of a table: its file, the number of bytes, these packets' figures, and the other columns."""
    times = [it[0] for it in packets if it[0] is not None]
    dates = {"earliest": utc(min(times)), "latest": utc(max(times))} if times else {}
    return {"file": name, "bytes": size, **members(packets), **dates, **dict(zip(("format", "interfaces", "link", "refused", "status", "check"), rest))}


def tabled(help):
    """Yields captures for a table: the name, the capture, its packets, the bytes that are read, and the columns that are no figures."""
    for name, count, link, link_name in (("one\ttab", 300, help.ETHERNET, "ETHERNET (1)"), ("raw", 1, help.RAW, "RAW (101)"), ("none", 0, help.ETHERNET, "ETHERNET (1)")):
        capture, _ = help.classic(">", 0xA1B23C4D, 1, link, PACKETS[:count])
        yield name, capture, PACKETS[:count], len(capture), ("pcap", 1, link_name, 0, 0, f"pcap, {count} packets, {len(capture)} bytes")
    capture, ends = help.classic("<", 0xA1B2C3D4, 1000, help.ETHERNET, PACKETS[:3])
    yield "torn", capture[:-1], PACKETS[:2], ends[-2], ("pcap", 1, "ETHERNET (1)", 0, AT_FAULT, f"pcap, 2 packets, cut short at byte {ends[-2]}")
    yield "begun", bytes(23), [], 0, ("pcap", 0, None, 0, AT_FAULT, "pcap, 0 packets, cut short at byte 0")
    early = [(1600000000 * BILLION, 60, bytes(60)), (1800000000 * BILLION + 1, 90, bytes(40))]
    for name, links, link_name in (("same", (help.RAW, help.RAW), "RAW (101)"), ("mixed", (help.ETHERNET, help.RAW), "several"), ("empty", (), None)):
        parts = [help.interface("<", it, 0, True) for it in links]
        packets = early if links else []
        parts += [help.enhanced("<", k, *it) for k, it in enumerate(packets)]
        if links:
            parts += [(help.SIMPLE, int.to_bytes(70, 4, "little") + bytes(70)), (help.PACKET, bytes(12) + int.to_bytes(99, 4, "little") * 2)]
            packets = [*packets, (None, 70, bytes(70))]
        capture, _ = help.blocks("<", parts)
        said = f"pcapng, {len(parts) + 1} blocks, {len(capture)} bytes"
        yield name, capture, packets, len(capture), ("pcapng", len(links), link_name, len(links) // 2, 0, said)


def try_tables(tally, help):
    """Checks the table of captures of both formats, and the totals in each form. A file that can't be read has a message and no row."""
    captures = list(tabled(help))
    every = [packet for it in captures for packet in it[2]]
    rows = [row(name.replace("\t", "\\u{9}"), size, packets, rest) for name, _, packets, size, rest in captures]
    sums = {it: sum(one[it] for one in rows) for it in ("bytes", "interfaces", "refused")}
    total = row("total", sums["bytes"], every, (None, sums["interfaces"], None, sums["refused"], FAILED, f"{len(rows)} files"))
    names = [it[0] for it in captures]
    with tempfile.TemporaryDirectory() as folder:
        for name, capture, *_ in captures:
            help.put(folder, name, capture)
        for place, name in enumerate(names):
            code, written, _ = tally.run(folder, ["--table", name], word="info")
            tally.note(f"info --table of {name!r}", code != rows[place]["status"] and f"it ended with {code}", written.decode() != table(rows[place : place + 1]) and f"it wrote {written!r}")
        words = ["--total", names[0], "missing", *names[1:]]
        ran = [tally.run(folder, [*form, *words], word="info") for form in (["--table"], ["--json"], [])]
        piped = tally.run(folder, ["--table", "-"], given=captures[0][1], word="info")
        both = tally.run(folder, ["--table", "--json", "none"], word="info")
    for code, _, told in ran:
        tally.note("info --total of several files", code != FAILED and f"it ended with {code}", "pcapfile: missing: " not in told and f"it said {told!r}")
    tally.note("info --table of several files", ran[0][1].decode() != table([*rows, total]) and f"it wrote {ran[0][1].decode()}")
    tally.note("info --table of a pipe", piped[1].decode() != table([{**rows[0], "file": "-"}]) and f"it wrote {piped[1]!r}")
    tally.note("info --table --json", both[0] != 2 and f"it ended with {both[0]}")
    wanted = {"files": len(rows), "status": FAILED, "bytes": sums["bytes"], "refused": sums["refused"], **members(every)}
    del wanted["over_time"]
    found = [json.loads(it) for it in ran[1][1].decode().splitlines()]
    tally.note("info --json --total", len(found) != len(rows) + 1 and f"it wrote {len(found)} lines", found[-1] != wanted and f"it ended with {found[-1]}")
    amounts = [f"total: {len(rows)} files, {sums['bytes']} bytes", f"  Interfaces:        {sums['interfaces']}", f"  Refused packets:   {sums['refused']}"]
    wanted = [*amounts, *list(figures(every))[:-2]]
    found = ran[2][1].decode().splitlines()[-len(wanted) :]
    tally.note("info --total in lines", found != wanted and f"it ended with {found}")
    try_no_total(tally, help)


def try_no_total(tally, help):
    """Checks that `--total` counts each file with a row, also one that is not a capture, and no missing file."""
    with tempfile.TemporaryDirectory() as folder:
        help.put(folder, "zip", b"\x1f\x8b\x08" + bytes(60))
        for form, word, files in (("--table", "zip", 1), ("--table", "missing", 0), ("--json", "missing", 0)):
            code, written, told = tally.run(folder, [form, "--total", word], word="info")
            lines = written.decode().splitlines()
            last = json.loads(lines[-1])["files"] if form == "--json" else int(lines[-1].split("\t")[-1].split()[0])
            count = len(lines) - 1 - (form == "--table")
            tally.note(f"info {form} --total {word}", not code and "it ended with 0", (last, count) != (files, files) and f"it wrote {written!r}", not told and "it said nothing")


def hashed(help):
    """Yields files: a name, the bytes, and the status of `info`."""
    packets = [(k * 1000, 60, bytes(60)) for k in range(9000)]
    sound, _ = help.classic("<", 0xA1B2C3D4, 1000, help.ETHERNET, packets)
    blocks, _ = help.blocks("<", [help.interface("<", help.ETHERNET), help.enhanced("<", 0, 1, 9, b"123456789")])
    yield "sound", sound, DONE
    yield "blocks", blocks, DONE
    yield "corrupt", sound[:100] + b"\xff" * 16 + sound[100:], AT_FAULT
    yield "truncated", blocks[:-2], AT_FAULT
    yield "long", blocks + b"\xff" * 600_000, AT_FAULT


def try_digests(tally, help):
    """Checks that `--hash` gives the SHA-256 of each whole file in all forms, also of one that is malformed or repaired."""
    with tempfile.TemporaryDirectory() as folder:
        for name, content, status in hashed(help):
            help.put(folder, name, content)
            digest = hashlib.sha256(content).hexdigest()
            for options in ([], ["--repair"]):
                wanted = DONE if options else status
                for form, piped in itertools.product(([], ["--json"], ["--table", "--total"]), (False, True)):
                    words = [*form, *options, "--hash", "-" if piped else name]
                    code, written, _ = tally.run(folder, words, given=content if piped else b"", word="info")
                    lines = written.decode().splitlines()
                    found = digest_in(form, lines)
                    tally.note(f"info {words} of {name}", code != wanted and f"it ended with {code}", found != digest and f"it shows {found}")


def digest_in(form, lines):
    """Returns the digest in a report, or what is wrong with it."""
    if not form:
        return next((it.split()[1] for it in lines if it.startswith("  SHA-256:           ")), None)
    if form == ["--json"]:
        return json.loads(lines[0]).get("sha256")
    names, row, total = (it.split("\t") for it in lines)
    if names[-1] != "sha256" or total[-1] != "-" or not len(names) == len(row) == len(total) == len(COLUMNS) + 1:
        return lines
    return row[-1]


def peak_of(tally, help, options, capture):
    """Returns the peak memory of a report on this capture, in bytes."""
    with tempfile.TemporaryDirectory() as folder:
        help.put(folder, "in", capture)
        ran = subprocess.Popen([tally.program, "info", *options, f"{folder}/in"], stdout=subprocess.DEVNULL)
        _, status, used = os.wait4(ran.pid, 0)
        ran.returncode = os.waitstatus_to_exitcode(status)
    tally.note(f"info {options} of many interfaces", ran.returncode != DONE and f"it ended with {ran.returncode}")
    return used.ru_maxrss * 1024


def try_memory(tally, help):
    """Checks that an interface without packets, whose block has 20 bytes, takes at most 300 bytes of memory, also with a section of its own."""
    capture, (section, _) = help.blocks("<", [help.interface("<", help.ETHERNET, 0)])
    many = 100_000
    for options, front in itertools.product(([], ["--json"], ["--table"]), (section, 0)):
        few, all_ = (peak_of(tally, help, options, capture[:front] + capture[front:] * count) for count in (1, many))
        each = (all_ - few) // many
        tally.note(f"info {options}, memory of {'interfaces' if front else 'sections'}", each > 300 and f"one takes {each} bytes")


def try_all(tally, help):
    for tries in (try_classic, try_link_fields, try_order, try_blocks, try_texts, try_kinds, try_files, try_tables, try_digests, try_capinfos, try_memory):
        tries(tally, help)
