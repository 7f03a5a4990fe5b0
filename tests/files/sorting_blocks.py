"""Checks what `pcapfile sort` writes of PcapNg captures, beside a stable sort of the blocks by struct alone.

The test makes sections of both byte orders with interfaces of many clocks, before and after their packets, and packets of all three kinds.
It reads them again itself: no expectation comes from the program. A damaged capture must print the place and the rule of its first damaged
block, leave nothing, and spare the file that had the name.
"""
import itertools
import os
import random
import re
import shutil
import struct
import subprocess
import sys
import tempfile
from fractions import Fraction

from sorting import AT_FAULT, BASE, DONE, EACH, FAILED, MEASURE, in_folder, refuses, try_changing

SECTION, INTERFACE, OLD, SIMPLE, NAMES, STATISTICS, ENHANCED, JOURNAL, SECRETS, CUSTOM = 0x0A0D0D0A, 1, 2, 3, 4, 5, 6, 9, 10, 0xBAD
PACKETS = (OLD, SIMPLE, ENHANCED)
BILLION = 10**9


def block(order, number, body):
    body += bytes(-len(body) % 4)
    length = struct.pack(order + "I", 12 + len(body))
    return struct.pack(order + "I", number) + length + body + length


def section(order, length=-1):
    return block(order, SECTION, struct.pack(order + "IHHq", 0x1A2B3C4D, 1, 0, length))


def option(order, code, value):
    return struct.pack(order + "HH", code, len(value)) + value + bytes(-len(value) % 4)


def interface(order, resolution=None, offset=None, snaplen=0, link=1):
    options = b"" if resolution is None else option(order, 9, bytes([resolution]))
    options += b"" if offset is None else option(order, 14, struct.pack(order + "q", offset))
    return block(order, INTERFACE, struct.pack(order + "HHI", link, 0, snaplen) + options + (options and bytes(4)))


def halves(units):
    return units >> 32, units & 0xFFFFFFFF


def enhanced(order, number, units, data=b"", options=b""):
    head = struct.pack(order + "IIIII", number, *halves(units), len(data), len(data))
    return block(order, ENHANCED, head + data + bytes(-len(data) % 4) + options)


def old(order, number, units, data=b""):
    return block(order, OLD, struct.pack(order + "HHIIII", number, 0xFFFF, *halves(units), len(data), len(data)) + data)


def simple(order, data=b""):
    return block(order, SIMPLE, struct.pack(order + "I", len(data)) + data)


def statistics(order, number, units):
    return block(order, STATISTICS, struct.pack(order + "III", number, *halves(units)))


def others(order):
    """Returns blocks without a packet: names, a journal entry, secrets, and a block of no known type."""
    names = struct.pack(order + "HH4s", 1, 7, b"\x0a\0\0\1") + b"ab\0\0" + bytes(4)
    return [block(order, NAMES, names), block(order, JOURNAL, b"A=B\n"), block(order, SECRETS, struct.pack(order + "II", 0x544C534B, 4) + b"keys"), block(order, CUSTOM, b"body")]


# ---- what is wanted


def options_of(order, body):
    found = {}
    while len(body) >= 4:
        code, length = struct.unpack_from(order + "HH", body)
        if code == 0:
            break
        found.setdefault(code, body[4 : 4 + length])
        body = body[4 + length + -length % 4 :]
    return found


def clock_of(order, body):
    """Returns the seconds of a unit, and the offset in seconds."""
    options = options_of(order, body[8:])
    byte = options.get(9, b"\x06")[0]
    base = 10 if byte < 128 else 2
    return Fraction(1, base ** (byte & 127)), struct.unpack(order + "q", options.get(14, bytes(8)))[0]


def time_of(order, number, body, clocks):
    """Returns the nanoseconds since 1970 of a packet, or None if it has no time."""
    if number == SIMPLE:
        return None
    which, high, low = struct.unpack_from(order + ("III" if number == ENHANCED else "HxxII"), body)
    if which >= len(clocks):
        return None
    unit, offset = clocks[which]
    return int((high << 32 | low) * unit * BILLION // 1) + offset * BILLION


def sections_of(capture):
    """Returns the blocks of each section: whether the block has a packet, the packet's time, and the block's bytes."""
    at, order, found, clocks = 0, "<", [], []
    while at < len(capture):
        if capture[at : at + 4] == bytes.fromhex("0a0d0d0a"):
            order, clocks = ("<" if capture[at + 8] == 0x4D else ">"), []
            found.append([])
        number, length = struct.unpack_from(order + "II", capture, at)
        body = capture[at + 8 : at + length - 4]
        if number == INTERFACE:
            clocks.append(clock_of(order, body))
        time = time_of(order, number, body, clocks) if number in PACKETS else None
        found[-1].append((number in PACKETS, time, capture[at : at + length]))
        at += length
    return found


def wanted_of(capture):
    """Returns the sorted capture. Python's sort is stable."""
    out = b""
    for blocks in sections_of(capture):
        out += b"".join(text for has_packet, _, text in blocks if not has_packet)
        packets = [(time, text) for has_packet, time, text in blocks if has_packet]
        out += b"".join(text for time, text in packets if time is None)
        out += b"".join(text for _, text in sorted((it for it in packets if it[0] is not None), key=lambda it: it[0]))
    return out


def said_of(capture):
    count = len(sections_of(capture))
    return f"pcapfile: in: the capture has {count} sections; the packets of each are in order of time\n" if count > 1 else ""


# ---- captures


def clocks(order):
    """Yields a section whose interfaces have clocks of all kinds: the same instants at other units and offsets, and the extremes."""
    rows = [(None, None), (9, None), (3, 0), (0, -5), (6, 2**62), (0x80 | 10, None), (0x80 | 63, 7), (19, -(2**63)), (127, 1), (0xFF, 2), (9, 2**63 - 1), (0, 2**63 - 1), (0, -(2**63))]
    yield from (interface(order, *row) for row in rows)
    units = (0, 1, 5, 10**6, 10**9, 2**32 - 1, 2**63, 2**64 - 1)
    for k, (number, unit) in enumerate(itertools.product(range(len(rows) + 1), units)):
        yield enhanced(order, number, unit, struct.pack("<I", k))


def rounded(order):
    """Yields packets whose times differ by less than a nanosecond, and so are equal, and by one nanosecond."""
    yield from (interface(order, 12), interface(order, 9))
    for units in (1999, 1000, 2000, 1500, 999, 0):
        yield enhanced(order, 0, units, b"%d" % units)
    for units in (1, 2, 0, 1):
        yield enhanced(order, 1, units, b"%d" % units)


def mixed(order, chance, count):
    """Yields blocks of all kinds in any order, some of which name interfaces that are described later or never."""
    for k in range(count):
        choice = chance.randrange(12)
        data = bytes([k & 255]) * chance.randrange(40)
        units = chance.choice([chance.randrange(2**64), chance.randrange(4) * 10**6, chance.randrange(8)])
        if choice < 2:
            yield interface(order, chance.choice([None, 0, 3, 6, 9, 0x94]), chance.choice([None, 0, -1, 5]), chance.choice([0, 8]))
        elif choice < 7:
            yield enhanced(order, chance.randrange(4), units, data, chance.choice([b"", option(order, 1, b"comment") + bytes(4)]))
        elif choice < 9:
            yield old(order, chance.randrange(4), units, data)
        elif choice < 10:
            yield simple(order, data)
        elif choice < 11:
            yield statistics(order, 0, units)
        else:
            yield chance.choice(others(order))


def captures():
    chance = random.Random(58)
    for order, other in (("<", ">"), (">", "<")):
        one = interface(order, 9)
        yield "a section header", section(order)
        yield "no packet", section(order) + one + b"".join(others(order))
        yield "one packet", section(order) + one + enhanced(order, 0, 5, b"data")
        yield "sorted", section(order) + one + b"".join(enhanced(order, 0, k, bytes([k])) for k in range(50))
        yield "reversed", section(order) + one + b"".join(enhanced(order, 0, 50 - k, bytes([k])) for k in range(50))
        yield "equal times", section(order) + one + b"".join((enhanced, old)[k % 2](order, 0, 7, bytes([k])) for k in range(50))
        yield "simple packets", section(order) + one + b"".join(simple(order, bytes([k])) + enhanced(order, 0, 9 - k, bytes([k])) for k in range(9))
        late = [enhanced(order, 1, 3, b"early"), enhanced(order, 0, 9, b"late"), interface(order, 0), enhanced(order, 1, 0, b"now"), enhanced(order, 0, 1, b"first")]
        yield "an interface after its packets", section(order) + one + b"".join(late)
        yield "clocks", section(order) + b"".join(clocks(order))
        yield "rounded times", section(order) + b"".join(rounded(order))
        yield "blocks between", section(order) + one + b"".join(it + enhanced(order, 0, 9 - k, b"x") for k, it in enumerate(others(order) * 2))
        sections = [section(it, length) + b"".join(mixed(it, chance, 60)) for it, length in ((order, -1), (other, -1), (order, 64), (order, -1), (other, -1))]
        yield "several sections", b"".join(sections)
        yield "sections without packets", section(order) + section(other) + section(order) + one + enhanced(order, 0, 2) + enhanced(order, 0, 1)
        for k in range(20):
            yield f"blocks in any order, {k}", section(order) + b"".join(mixed(order, chance, chance.randrange(120)))
        long = [enhanced(order, 0, 9 - k, bytes([k]) * size) for k, size in enumerate((262144, 0, 65536, 300000, 1, 65503, 65504))]
        yield "long blocks", section(order) + one + b"".join(long)
        many = [enhanced(order, 0, chance.randrange(10**6), bytes([k % 256]) * chance.randrange(300)) for k in range(20000)]
        yield "many packets", section(order) + one + b"".join(many)


def try_orders(tally, help):
    for name, capture in captures():
        wanted = wanted_of(capture)
        said = said_of(capture)
        ended, left = in_folder(help, tally, ["sort", "in", "-o", "out"], {"in": capture})
        written, _ = in_folder(help, tally, ["sort", "in", "-o", "-"], {"in": capture})
        tally.note(
            f"{name}, {'big' if capture[8] == 0x1A else 'little'}",
            ended != (DONE, b"", said) and f"it ended with {ended}",
            left != {"in": capture, "out": wanted} and f"it left {sorted(left)}, or other bytes",
            written != (DONE, wanted, said) and f"on standard output it ended with {written[0]} and {len(written[1])} bytes",
            sorted(text for it in sections_of(capture) for _, _, text in it) != sorted(text for it in sections_of(wanted) for _, _, text in it) and "the test loses a block",
        )


def damaged():
    """Yields damaged captures, each with the place of the damaged block and what is said of it. Of the sound blocks before, none is written."""
    for order in "<>":
        whole = [section(order), interface(order, 9), enhanced(order, 0, 5, b"data"), enhanced(order, 0, 4, b"data")]
        starts = [0, *itertools.accumulate(map(len, whole))]
        one, packet = b"".join(whole), enhanced(order, 0, 3, b"data")
        yield from ((one[:end], max(it for it in starts if it < end), "cut short at byte {}") for end in range(1, len(one)) if end not in starts)
        flawed = {
            "Block initial_length != trailer_length": packet[:-4] + struct.pack(order + "I", len(packet) + 4),
            "Block: (initial_len % 4) != 0": struct.pack(order + "II", ENHANCED, 14),
            "Block: initial_len < 12": struct.pack(order + "II", ENHANCED, 8),
            "EnhancedPacketBlock: block length length < 20": block(order, ENHANCED, bytes(16)),
            "EnhancedPacketBlock: captured_len + padding > block length": block(order, ENHANCED, struct.pack(order + "IIIII", 0, 0, 1, 9, 9) + bytes(8)),
            "SimplePacketBlock: block length < 4": block(order, SIMPLE, b""),
            "EnhancedPacketOption: Flags length != 4": enhanced(order, 0, 3, b"data", struct.pack(order + "HH", 2, 3) + bytes(4)),
            "Option: length + pad.len() > slice.len()": enhanced(order, 0, 3, b"data", struct.pack(order + "HH", 1, 40)),
            "InterfaceDescriptionBlock: block length < 8": block(order, INTERFACE, bytes(4)),
            "NameResolutionBlock: Ipv4Record len < 6": block(order, NAMES, struct.pack(order + "HH", 1, 3) + b"abc\0"),
            "InterfaceStatisticsBlock: block length < 12": block(order, STATISTICS, bytes(8)),
        }
        for rule, text in flawed.items():
            yield one + text + packet, len(one), "refused at byte {} by rule [0-9]+: " + re.escape(rule)
        yield one + block(order, OLD, struct.pack(order + "HHIIII", 0, 0, 0, 1, 5, 5) + bytes(4)) + packet, len(one), "refused at byte {} by rule [0-9]+: .*captured_len.*"


def try_refused(tally, help):
    words = ["sort", "in", "-o", "out"]
    for content, place, said in damaged():
        held = {"in": content, "out": b"old"}
        ended, left = in_folder(help, tally, words, held)
        wanted = "pcapfile: in: " + said.format(place) + "\n"
        tally.note(
            f"a sort of {content[-40:]!r}",
            ended[:2] != (AT_FAULT, b"") and f"it ended with {ended}",
            not re.fullmatch(wanted, ended[2]) and f"it said {ended[2]!r}, and not {wanted!r}",
            left != held and f"it left {sorted(left)}, or other bytes",
        )
    capture = section("<") + interface("<") + b"".join(enhanced("<", 0, 9 - k, bytes(k)) for k in range(4))
    refuses(tally, help, "too long an output", words, {"in": capture, "out": b"old"}, FAILED, "pcapfile: out: File too large (os error 27)\n", most=60)
    misnamed = "pcapfile: out.pcap: the format is PcapNg, but the extension is that of the other format\n"
    ended, left = in_folder(help, tally, ["sort", "in", "-o", "out.pcap"], {"in": capture})
    tally.note("another extension", ended != (DONE, b"", misnamed) and f"it ended with {ended}", left.get("out.pcap") != wanted_of(capture) and "it has other bytes")


def changed(capture, size):
    """Yields what may become of the last of the blocks of this size, while the file is sorted."""
    front, last = capture[:-size], capture[-size:]
    yield "another length", front + last[:4] + struct.pack("<I", size - 4) + last[8:-8] + struct.pack("<I", size - 4) + last[-4:]
    yield "another length at the end", capture[:-4] + struct.pack("<I", size - 4)
    yield "no bytes", capture[:-1]
    yield "other data", capture[:-5] + b"\xff" + capture[-4:]


def try_changes(tally, _help):
    packet = enhanced("<", 0, 0, bytes(1000))
    capture = section("<") + interface("<") + b"".join(enhanced("<", 0, k, bytes(1000)) for k in range(1000))
    try_changing(tally, capture, len(packet), changed(capture, len(packet)))


def try_memory(tally, _help):
    count = 300_000
    capture = section("<") + interface("<", 9) + b"".join(enhanced("<", 0, (k * 7919) % count) for k in range(count))
    with tempfile.TemporaryDirectory() as folder:
        with open(f"{folder}/in", "wb") as it:
            it.write(capture)
        words = [sys.executable, "-c", MEASURE, tally.program, "sort", "in", "-o", "out"]
        status, most_used = map(int, subprocess.run(words, cwd=folder, capture_output=True, check=True).stdout.split())
        with open(f"{folder}/out", "rb") as it:
            out = it.read()
    most = EACH * count + BASE
    tally.note("memory", status and f"it ended with {status}", out != wanted_of(capture) and "it has other bytes", most_used * 1024 > most and f"it took {most_used} KiB")


def try_peer(tally, _help):
    """Checks the times of a sorted capture beside those that reordercap writes, if that is installed. It merges all sections."""
    if not shutil.which("reordercap"):
        return
    chance = random.Random(59)
    capture = section("<") + interface("<", 9) + b"".join(enhanced("<", 0, chance.randrange(10**12), struct.pack("<I", k)) for k in range(500))
    with tempfile.TemporaryDirectory() as folder:
        with open(f"{folder}/in", "wb") as it:
            it.write(capture)
        subprocess.run([tally.program, "sort", "in", "-o", "out"], cwd=folder, check=True)
        subprocess.run(["reordercap", "in", "theirs"], cwd=folder, check=True, capture_output=True)
        found = []
        for name in ("out", "theirs"):
            with open(os.path.join(folder, name), "rb") as it:
                found.append([(time, text[28:32]) for blocks in sections_of(it.read()) for has_packet, time, text in blocks if has_packet])
    tally.note("beside reordercap", found[0] != found[1] and "the packets have another order")


def try_all(tally, help):
    for tries in (try_orders, try_refused, try_changes, try_memory, try_peer):
        tries(tally, help)
