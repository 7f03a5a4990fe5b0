"""Checks what `pcapfile repair` makes of captures of blocks, and that other words with `--repair` read what it makes of captures of
either format. The test states again what becomes of a block, over `as_is`, which takes blocks with struct alone."""
import itertools
import json
import os
import random
import re
import struct
import subprocess
import tempfile
import time

import as_is
import left_out
import tshark
import undescribed
from as_is import DONE, ENHANCED, GUESSED, INTERFACE, MOST, OBSOLETE, REPAIRED, SECTION, SIMPLE, options_flaws, sound_options

UNSTATED = b"\xff" * 8
USAGE, FAILED = 2, 3
LEFT = "options that break rules are left out"


def with_options(order, number, body, front):
    """Returns a body without the options that break rules, which begin after this many bytes, and whether there are any."""
    if not options_flaws(order, number, body[front:]):
        return body, False
    return body[:front] + sound_options(order, number, body[front:]), True


def mended(order, number, body):
    """Returns the body of a block after the repair, or None, and the messages about it."""
    if number == SECTION:
        made, is_flawed = with_options(order, number, body, 16)
        stated = ["the length of its section is stated no more"] * (body[8:16] != UNSTATED)
        return made[:8] + UNSTATED + made[16:], ", and ".join([LEFT] * is_flawed + stated)
    if number == INTERFACE and len(body) < 8:
        return body + bytes(8 - len(body)), "its body is too short for an interface, and is filled up with zeros, so that its packets get a link type and times"
    front = 8
    if number in (OBSOLETE, SIMPLE, ENHANCED):
        packet, _ = as_is.packet_in(order, number, body, [])
        if not packet:
            return None, "its body breaks a rule, and it is left out"
        front = 20 + packet[2] + -packet[2] % 4
    if number not in (INTERFACE, OBSOLETE, ENHANCED):
        return body, ""
    made, is_flawed = with_options(order, number, body, front)
    return made, LEFT * is_flawed


def broken_rule(it):
    """Returns the text with the rule of a block's first flaw, if a rule names it."""
    flaws = [flaw for _, flaw in it.flaws]
    if it.type in (OBSOLETE, SIMPLE, ENHANCED):
        flaws = as_is.packet_in(it.order, it.type, it.body, [])[1]
    return f" breaks rule {flaws[0]}" if flaws and not isinstance(flaws[0], str) else ""


def block(order, number, body):
    return struct.pack(order + "II", number, len(body) + 12) + body + struct.pack(order + "I", len(body) + 12)


def repaired(name, capture, supposed=None):
    """Returns the repaired capture, or None, the messages, and the status. `supposed` describes interfaces in sections that describe none."""
    kind, items, refused = as_is.stands_in(capture)
    if kind == "pcap" or refused:
        return as_is.repaired(name, capture)
    is_lost = not supposed and as_is.rows_without_section(capture) is not None
    out, said, outcomes, gaps, others = b"", [as_is.NO_SECTION] * is_lost, [], [], 0
    next_one = of_section = DONE
    for it in undescribed.settled(items, len(capture), supposed):
        if isinstance(it, undescribed.Described):
            said.append(it.text)
            out += it.blocks
            next_one, of_section = max(next_one, it.outcome), max(of_section, it.outcome * (it.outcome == GUESSED))
            continue
        if isinstance(it, undescribed.LeftOut):
            others += 1
            next_one = DONE
            continue
        if isinstance(it, as_is.Gap):
            said.append(as_is.left_out(it) + as_is.by_rule(it.rule))
            gaps.append(it)
            continue
        if isinstance(it, as_is.Mending):
            said.append(as_is.mending(it))
            next_one = max(next_one, GUESSED if it.is_guess else REPAIRED)
            continue
        of_section = DONE if it.type == SECTION else of_section
        made, change = mended(it.order, it.type, it.body)
        said += [f"block {it.number} at byte {it.place}{broken_rule(it)}: {change}"] * bool(change)
        is_sound = not change or it.type == SECTION and not it.flaws
        if made is None:
            others += 1
        else:
            outcomes.append(max(next_one, of_section, DONE if is_sound else REPAIRED))
            out += block(it.order, it.type, made)
        next_one = DONE
    last, status = as_is.summary("block", outcomes, gaps, others)
    return out, "".join(f"pcapfile: {name}: {it}\n" for it in (*said, last)), status


def section(order, options=b"", length=-1):
    return block(order, SECTION, struct.pack(order + "IHHq", 0x1A2B3C4D, 1, 0, length) + options)


def option(order, code, value):
    return struct.pack(order + "HH", code, len(value)) + value + bytes(-len(value) % 4)


def enhanced(order, number, units, data, options=b""):
    head = struct.pack(order + "IIIII", number, units >> 32, units & 0xFFFFFFFF, len(data), len(data))
    return block(order, ENHANCED, head + data + bytes(-len(data) % 4) + options)


def with_others(order, options, place, code, value):
    """Returns good options with a bad one of this code before, between or after them. The repair keeps all good ones."""
    return options[:place] + option(order, code, value) + options[place:]


def said_last(counts):
    """Returns the last message of a repair, and its status, by the numbers of blocks that it kept, repaired, guessed and left out, and of the
    bytes that it skipped."""
    kept, repaired, guessed, left, skipped = counts
    blocks = f"{as_is.counted(kept, 'block')} kept"
    if not any(counts[1:]):
        return f"pcapfile: in: no damage found; {blocks}\n", DONE
    told = f"{blocks}, {repaired} repaired, {guessed} guessed, {left} left out, {as_is.counted(skipped, 'byte')} skipped"
    return f"pcapfile: in: {told}\n", GUESSED if guessed else REPAIRED


def flawed_options(order):
    """Yields captures with an option that breaks a rule before, between and after good ones, what they become, the messages,
    and the counts of `said_last`."""
    good = option(order, 1, b"good") + option(order, 1, b"and good")
    clock = option(order, 9, b"\x09")
    head, packet = struct.pack(order + "HHI", 1, 0, 0), enhanced(order, 0, 1700000000000000001, b"data")
    interface = block(order, INTERFACE, head + clock)
    for place, where in ((0, "before"), (8, "between"), (20, "behind")):
        broken, whole = (section(order, it) + interface + packet for it in (with_others(order, good, place, 4, b"\xff"), good))
        yield f"an option {where} others of a section", broken, whole, """\
pcapfile: in: block 1 at byte 0: options that break rules are left out
""", (2, 1, 0, 0, 0)
        bodies = (head + it + clock for it in (with_others(order, good, place, 8, b"short"), good))
        broken, whole = (section(order) + block(order, INTERFACE, it) + packet for it in bodies)
        yield f"an option {where} others of an interface", broken, whole, """\
pcapfile: in: block 2 at byte 28 breaks rule 1905: options that break rules are left out
""", (2, 1, 0, 0, 0)
        packets = (enhanced(order, 0, 5, b"x", it) for it in (with_others(order, good, place, 2, b"\1\2"), good))
        broken, whole = (section(order) + interface + it + packet for it in packets)
        yield f"an option {where} others of a packet", broken, whole, """\
pcapfile: in: block 3 at byte 56 breaks rule 1911: options that break rules are left out
""", (3, 1, 0, 0, 0)


# The last packet of captures by hand that is obsolete, or simple and without a time: what tshark shows of it.
LAST = {"a block of type 2": "0.000000005\t4\t4", "a block of type 3": "\t4\t4"}
LAST |= {f"of type 2 that had {it} bytes": f"0.000000005\t4\t{it}" for it in (MOST, MOST + 1)}


def by_hand(order):
    """Yields captures, what they become, the messages, and the counts of `said_last`. They have a section of 28 bytes, an
    interface of 28 and four packets of 36."""
    interface = block(order, INTERFACE, struct.pack(order + "HHI", 1, 0, 0) + option(order, 9, b"\x09"))
    packets = [enhanced(order, 0, 1700000000000000001 + k, bytes([k] * (k + 1))) for k in range(4)]
    sound = section(order) + interface + b"".join(packets)
    other = enhanced(order, 1, 5, b"data")
    packet = enhanced(order, 0, 5, b"datadata", option(order, 1, b"text"))
    yield "a sound capture", sound, sound, "", (6, 0, 0, 0, 0)
    described = block(order, INTERFACE, struct.pack(order + "HHI", 1, 0, 0) + option(order, 9, b"\x09") + bytes(4))
    like = "interface 1 is not described: a description of link type 1, like those of the other interfaces of its section, is written before it"
    yield "a packet of an unknown interface", sound + other, sound + described + other, f"pcapfile: in: block 7 at byte 200: {like}\n", (6, 1, 0, 0, 0)
    past, kept = (sound + enhanced(order, 0, 5, b"data", it) for it in (struct.pack(order + "HH", 1, 5) + b"1234", b""))
    yield "an option that goes on past the body", past, kept, """\
pcapfile: in: block 7 at byte 200 breaks rule 18: options that break rules are left out
""", (6, 1, 0, 0, 0)
    short, filled = (block(order, INTERFACE, b"\1\0\0\0" + it) for it in (b"", bytes(4)))
    yield "an interface too short", sound[:28] + short + interface + other, sound[:28] + filled + interface + other, """\
pcapfile: in: block 2 at byte 28 breaks rule 12: its body is too short for an interface, and is filled up with zeros, so that its packets get a link type and times
""", (3, 1, 0, 0, 0)
    yield "packets with no room", sound + block(order, ENHANCED, bytes(16)) + block(order, SIMPLE, b"") + other, sound + described + other, f"""\
pcapfile: in: block 7 at byte 200 breaks rule 13: its body breaks a rule, and it is left out
pcapfile: in: block 8 at byte 228 breaks rule 15: its body breaks a rule, and it is left out
pcapfile: in: block 9 at byte 240: {like}
""", (6, 1, 0, 2, 0)
    yield "a section that states its length", section(order, length=172) + sound[28:], sound, """\
pcapfile: in: block 1 at byte 0: the length of its section is stated no more
""", (6, 0, 0, 0, 0)
    yield "garbage between blocks", sound[:92] + b"\xff" * 21 + sound[92:164] + b"text" * 5 + sound[164:], sound, """\
pcapfile: in: 21 bytes at byte 92 are no blocks, and are left out by rule 7: Block: (initial_len % 4) != 0
pcapfile: in: 20 bytes at byte 185 are no blocks, and are left out
""", (6, 0, 0, 0, 41)
    yield "a wrong length", sound[:96] + struct.pack(order + "I", 40) + sound[100:], sound, """\
pcapfile: in: block 4 at byte 92: its stored length is 36 and not 40
""", (5, 1, 0, 0, 0)
    for name, place, length in (("long", 20, 300), ("short", 20, 1), ("huge", 20, 0xFFFFFFFF)):
        broken = sound[:200] + packet + sound[200:]
        at = 200 + place
        yield f"a stored length that is too {name}", broken[:at] + struct.pack(order + "I", length) + broken[at + 4 :], broken, f"""\
pcapfile: in: block 7 at byte 200: its stored length is 8 and not {length}
""", (6, 1, 0, 0, 0)
    at = 200 + 20
    longer = sound + enhanced(order, 0, 5, b"data", option(order, 1, b"text"))
    broken, guess = (longer[:at] + struct.pack(order + "II", it, 999) + longer[at + 8 :] for it in (99, 12))
    yield "a stored length that nothing replaces", broken, guess, """\
pcapfile: in: block 7 at byte 200: its stored length is 12 and not 99, by a guess
""", (6, 0, 1, 0, 0)
    limited = section(order) + block(order, INTERFACE, struct.pack(order + "HHI", 1, 0, 8))
    kept, broken = (limited + block(order, ENHANCED, struct.pack(order + "IQII", 0, 5, it, 1 << 20) + b"datadata") for it in (8, 1 << 30))
    yield "two wrong lengths", broken, kept, """\
pcapfile: in: block 3 at byte 48: its stored length is 8 and not 1073741824, by a guess
""", (2, 0, 1, 0, 0)
    zeros, without_data = block(order, ENHANCED, bytes(24) + b"data"), block(order, ENHANCED, bytes(20)) + block(order, ENHANCED, bytes(24))
    yield "a packet of zero bytes", sound + zeros, sound, "pcapfile: in: 40 bytes at byte 200 are no blocks, and are left out\n", (6, 0, 0, 0, 40)
    for number, length in itertools.product((OBSOLETE, ENHANCED), (MOST, MOST + 1)):
        long = sound + block(order, number, struct.pack(order + "IIIII", 0, 0, 5, 4, length) + b"data")
        told = f"pcapfile: in: block 7 at byte 200: kept, a guess: its original length is above {MOST}\n" * (length > MOST)
        yield f"a packet of type {number} that had {length} bytes", long, long, told, (7 - (length > MOST), 0, int(length > MOST), 0, 0)
    yield "packets without data at the time 0", sound + without_data, sound + without_data, "", (8, 0, 0, 0, 0)
    yield "garbage before the first section", b"no" * 9 + sound, sound, "pcapfile: in: 18 bytes at byte 0 are no blocks, and are left out by rule 10: SectionHeader missing\n", (6, 0, 0, 0, 18)
    yield "garbage at the end", sound + bytes(40), sound, "pcapfile: in: 40 bytes at byte 200 are no blocks, and are left out by rule 8: Block: initial_len < 12\n", (6, 0, 0, 0, 40)
    yield "a torn last block", sound[:-5], sound[:164], """\
pcapfile: in: 31 bytes at byte 164 are of a block that is cut short, and are left out
""", (5, 0, 0, 1, 31)
    end = "its end is missing: its packet is kept, without options that are cut off or break rules"
    for size in (32, 33, 34, 35):
        yield f"{size} bytes of a last block", sound[: 164 + size], sound, f"pcapfile: in: block 6 at byte 164: {end}\n", (5, 1, 0, 0, 0)
    texts = [option(order, 1, it) for it in (b"good", b"and good")]
    with_two = enhanced(order, 0, 5, b"dat", b"".join(texts))
    for size in range(31, len(with_two)):
        kept = enhanced(order, 0, 5, b"dat", b"".join(texts[: (size >= 40) + (size >= 52)]))
        yield f"{size} bytes of a block with options", sound + with_two[:size], sound + kept, f"pcapfile: in: block 7 at byte 200: {end}\n", (6, 1, 0, 0, 0)
    for number, body in ((OBSOLETE, struct.pack(order + "HHIIII", 0, 0, 0, 5, 4, 4)), (SIMPLE, struct.pack(order + "I", 4))):
        other = block(order, number, body + b"data")
        for size in range(len(other) - 4, len(other)):
            yield f"{size} bytes of a block of type {number}", sound + other[:size], sound + other, f"pcapfile: in: block 7 at byte 200: {end}\n", (6, 1, 0, 0, 0)
    yield "three bytes of a last block", sound[:167], sound[:164], """\
pcapfile: in: 3 bytes at byte 164 are of a block that is cut short, and are left out
""", (5, 0, 0, 1, 3)


def captures(help):
    """Yields captures of blocks: broken at random and at each byte, and with gaps longer than what the program looks at in one go."""
    yield from as_is.block_captures(help)
    draw = random.Random(34)
    for count in range(40):
        orders = [draw.choice("<>") for _ in range(draw.choice((1, 2, 3)))]
        whole = b"".join(as_is.some_blocks(draw, help, order) for order in orders)
        for _ in range(draw.randrange(1, 4)):
            at = draw.randrange(len(whole))
            junk = draw.choice((b"", b"\0" * 7, b"\0" * 40, b"\xff" * 33, b"some text", draw.randbytes(50)))
            whole = whole[:at] + junk + whole[at + draw.choice((0, 0, 1, 12)) :]
        yield f"broken blocks {count}", whole
    few = section("<") + block("<", INTERFACE, bytes(8)) + enhanced("<", 0, 1, b"data")
    for order in "<>":
        yield f"a section that states its length and more, {order}", section(order, option(order, 1, b"\xff"), 99) + few
    for size in (MOST - 3, MOST + 1):
        yield f"a block of {size} bytes that is cut short", few + struct.pack("<III", 9, size, 0) + few
    yield "a block of more bytes", few + block("<", 9, bytes(MOST)) + few
    yield "a block of more bytes that contains blocks", few + block("<", 9, few[28:] * 2 + bytes(MOST)) + few
    for size in (2097152 - 524320 - 9, 2097152 - 524320 + 3, 2621440):
        yield f"a gap of {size} bytes", few + b"\xff" * size + few[28:] + b"\xff" * 77 + few
        yield f"{size} bytes before a section", b"\0" * size + few
    yield "no section", b"\n\x0d\x0d\n" + few[4:12] + few[28:] * 3
    yield "a byte of a section", b"\n"
    yield "a line", b"\nthis is text"


def repair(tally, help, capture):
    """Returns how a repair of a file ended, what its folder then has, and what a check and a list print of the repaired one."""
    with tempfile.TemporaryDirectory() as folder:
        help.put(folder, "in", capture)
        help.put(folder, "out", b"old")
        ended = as_is.ran(tally, folder, "repair", "in", "-o", "out")
        left = help.files(folder)
        return ended, left, as_is.ran(tally, folder, "check", "out"), as_is.ran(tally, folder, "list", "out")


def try_blocks(tally, help):
    """Checks each capture of blocks: it is read leniently, and repaired into a file and through pipes. Strict reading takes the repaired
    one, and lists its packets."""
    for name, capture in captures(help):
        as_is.tell(tally, help, name, capture)
        out, said, status = repaired("in", capture)
        ended, left, check, list_ = repair(tally, help, capture)
        with tempfile.TemporaryDirectory() as folder:
            piped = as_is.ran(tally, folder, "repair", "-", "-o", "-", given=capture)
        lines = as_is.listed("out", out)[0].encode() if out else b""
        tally.note(
            f"repair of {name}",
            ended != (status, b"", said) and f"it gave {str(ended)[-300:]}, and not {str((status, said))[-300:]}",
            left != {"in": capture, "out": b"old" if out is None else out} and f"it left {sorted(left)}, and not the capture",
            piped != (status, out or b"", said.replace("pcapfile: in: ", "pcapfile: -: ")) and f"through pipes it gave {str(piped)[-300:]}",
            out and (check[0] != DONE or list_ != (DONE, lines, "")) and f"the strict reading says {check} and {list_}",
        )


def try_by_hand(tally, help):
    """Checks the captures that are broken by hand: what they become, and the messages."""
    for order in "<>":
        for name, capture, wanted, said, counts in (*by_hand(order), *flawed_options(order)):
            ended, left, check, _ = repair(tally, help, capture)
            last, status = said_last(counts)
            tally.note(
                f"repair of {name}, {order}",
                ended != (status, b"", said + last) and f"it gave {ended}, and not {(status, said + last)}",
                left["out"] != wanted and f"it wrote {left['out'].hex()}, and not {wanted.hex()}",
                check[0] != DONE and f"a check gives {check}",
                shown_by_tshark(left["out"]) not in (None, shown_with_last(help, name, left["out"])) and "tshark reads other packets",
            )


def change_in(message):
    """Returns the JSON object of a change, by the message on it."""
    found = re.fullmatch(r"(?:packet|block) (\d+) at byte (\d+)(?: breaks rule (\d+))?: (.*)", message)
    if found:
        number, place, rule, action = found.groups()
        return {"number": int(number), "offset": int(place), "skipped": None, "rule": rule and int(rule), "action": action, "guess": "guess" in action}
    if message == as_is.NO_SECTION:
        return {"number": None, "offset": 0, "skipped": None, "rule": None, "action": message, "guess": False}
    size, place, rule = re.fullmatch(r"(\d+) bytes at byte (\d+) are .*, and are left out(?: by rule (\d+): .*)?", message).groups()
    action = message.partition(" by rule ")[0]
    return {"number": None, "offset": int(place), "skipped": int(size), "rule": rule and int(rule), "action": action, "guess": False}


def report_of(name, capture, said, status):
    """Returns the JSON report of a repair, by its messages."""
    *changes, last = [it.removeprefix(f"pcapfile: {name}: ") for it in said.splitlines()]
    kept, repaired, guessed, left, skipped = (int(it) for it in [*re.findall(r"\d+", last), 0, 0, 0, 0][:5])
    counts = {"kept": kept, "repaired": repaired, "guessed": guessed, "left_out": left, "skipped": skipped}
    outcome = {DONE: "sound", REPAIRED: "repaired", GUESSED: "guessed"}[status]
    return {"file": name, "format": as_is.stands_in(capture)[0], "changes": [change_in(it) for it in changes], "outcome": outcome, **counts}


def try_reports(tally, help):
    """Checks the JSON reports of repairs, and that such a repair writes what another one writes."""
    draw = random.Random(36)
    both = (*as_is.captures(), *as_is.gaps(), *captures(help))
    by_chance = [it for it in both if len(it[1]) < 300000 and draw.randrange(3) == 0]
    for name, capture in (*by_chance, *((it[0], it[1]) for order in "<>" for it in by_hand(order))):
        out, said, status = repaired('a "name"', capture)
        with tempfile.TemporaryDirectory() as folder:
            help.put(folder, 'a "name"', capture)
            ended = as_is.ran(tally, folder, "repair", "--json", 'a "name"', "-o", "out")
            left = help.files(folder)
        wanted = None if out is None else report_of('a "name"', capture, said, status)
        found = json.loads(ended[1] or "null")
        tally.note(
            f"repair --json of {name}",
            (ended[0], ended[2]) != (status, said * (out is None)) and f"it ended with {ended[0]} and said {ended[2]!r}",
            found != wanted and f"it gave {found}, and not {wanted}",
            ended[1].count(b"\n") != (out is not None) and "it wrote no line, or several",
            left.get("out") != out and "it wrote another capture",
        )
    with tempfile.TemporaryDirectory() as folder:
        help.put(folder, "in", section("<"))
        ended = as_is.ran(tally, folder, "repair", "--json", "in", "-o", "-")
    tally.note("repair --json to standard output", (ended[:2] != (USAGE, b"") or not ended[2].startswith("error: ")) and f"it gave {ended}")


def shown(help, capture):
    """Returns time, stored length and length on the wire of each packet, if each has an interface."""
    try:
        return [f"{time // 10**9}.{time % 10**9:09}\t{len(data)}\t{wire}" for _, time, wire, data in help.packets_of(capture)]
    except IndexError:
        return None


def shown_with_last(help, name, capture):
    """Returns the same as `shown`, and behind it the packet of another type that the capture by hand of this name has last."""
    last = [line for ending, line in LAST.items() if name.endswith(ending)]
    return shown(help, capture) + last if last else shown(help, capture)


def shown_by_tshark(capture):
    """Returns the same as tshark shows it, if tshark is installed and takes the capture."""
    if not left_out.has("tshark", "repaired captures as tshark reads them, in tests/files/run"):
        return None
    with tempfile.TemporaryDirectory() as folder:
        with open(f"{folder}/out", "wb") as it:
            it.write(capture)
        fields = [word for field in ("frame.time_epoch", "frame.cap_len", "frame.len") for word in ("-e", field)]
        ran = tshark.read(folder, "out", "-T", "fields", *fields)
    return None if ran.returncode else ran.stdout.decode().splitlines()


WORDS = (
    ("info", "in"),
    ("info", "--json", "in"),
    ("info", "--table", "--total", "in"),
    ("convert", "in", "-o", "out"),
    ("convert", "--to", "pcapng", "in", "-o", "out"),
    ("convert", "in", "-o", "-"),
    ("cut", "in", "-o", "out"),
    ("cut", "in", "--packets", "2-3", "-o", "out"),
    ("cut", "in", "--from", "1700000000", "-o", "out"),
    ("cut", "in", "--every", "2", "-o", "out"),
    ("cut", "in", "--bytes", "300", "-o", "out"),
    ("merge", "in", "-o", "out"),
    ("merge", "in", "sound", "in", "-o", "out"),
)


def as_repaired(tally, help, words, capture, out, said, status):
    """Returns the faults of a word that reads a repaired capture. With `--repair` it must do what it does without it on `out`."""
    sound = as_is.capture_of("<", 0xA1B2C3D4, [((1700000001, 2, 3, 3), b"abc")])
    with tempfile.TemporaryDirectory() as folder:
        help.put(folder, "in", capture)
        help.put(folder, "sound", sound)
        ended = as_is.ran(tally, folder, *words, "--repair")
        left = help.files(folder)
    if out is None:
        # Only `repair` names its options.
        said = said.replace(f"pcapfile: in: {as_is.NO_HEADER}\n", "")
        is_wrong = ended[0] != status or said not in ended[2] or not set(left) <= {"in", "sound", "out"}
        return (is_wrong and f"it ended with {ended} and left {sorted(left)}",)
    with tempfile.TemporaryDirectory() as folder:
        help.put(folder, "in", out)
        help.put(folder, "sound", sound)
        wanted = as_is.ran(tally, folder, *words)
        wanted_left = {**help.files(folder), "in": capture}
    said = "".join(it for it in said.splitlines(True) if ": no damage found; " not in it)
    lines, told = sorted(ended[2].splitlines()), sorted(said.splitlines() * words.count("in") + wanted[2].splitlines())
    is_whole = "--packets" not in words
    return (
        ended[:2] != wanted[:2] and f"it gave {str(ended)[-300:]}, and not {str(wanted)[-300:]}",
        left != wanted_left and f"it left {sorted(left)}, and of {sorted(wanted_left)} others",
        (lines != told if is_whole else not set(lines) <= set(told)) and f"it said {ended[2][-300:]!r}, and not {told[-3:]}",
    )


def try_words(tally, help):
    """Checks each word with `--repair` over broken captures of both formats, and the older spelling with its notice."""
    draw = random.Random(35)
    classic = [it for it in (*as_is.captures(), *as_is.gaps()) if len(it[1]) < 100000 and (len(it[1]) > 300 or draw.randrange(20) == 0)]
    blocks = [it for it in captures(help) if len(it[1]) < 100000 and (" blocks " in it[0] or draw.randrange(8) == 0)]
    for name, capture in (*classic, *blocks):
        out, said, status = repaired("in", capture)
        for words in WORDS:
            tally.note(f"{' '.join(words)} --repair of {name}", *as_repaired(tally, help, words, capture, out, said, status))


def try_older_spelling(tally, help):
    """Checks that `--as-is` of these words does what `--repair` does, with a notice on standard error."""
    capture = as_is.capture_of("<", 0xA1B2C3D4, [((1700000001, 2, 3, 3), b"abc")]) + b"torn"
    for words in WORDS:
        ends = []
        for spelling in ("--repair", "--as-is"):
            with tempfile.TemporaryDirectory() as folder:
                for name in ("in", "sound"):
                    help.put(folder, name, capture)
                ends.append((*as_is.ran(tally, folder, *words, spelling), help.files(folder)))
        (status, written, said, left), older = ends
        notice = f"pcapfile: '{words[0]} --as-is' is now '{words[0]} --repair', and will be removed in version 0.3\n"
        wanted = status, written, notice + said, left
        tally.note(f"{' '.join(words)} by the older spelling", older != wanted and f"it ended with {older}", status != DONE and f"it ended with {status}")


def try_parts(tally, help):
    """Checks parts of equal length. They need the length of the capture, and that of a repaired one is unknown."""
    with tempfile.TemporaryDirectory() as folder:
        help.put(folder, "in", section("<"))
        ended = as_is.ran(tally, folder, "cut", "in", "--parts", "2", "--repair", "-o", "out")
        left = help.files(folder)
    is_refused = ended[0] == USAGE and ended[2].startswith("error: ") and sorted(left) == ["in"]
    tally.note("cut --parts --repair", not is_refused and f"it gave {ended} and left {sorted(left)}")


def try_unwritten(tally, help):
    """Checks that a repair whose output can't get its name ends as a failure, although the capture is repaired."""
    with tempfile.TemporaryDirectory() as folder:
        words = [tally.program, "repair", "-", "-o", "out"]
        with subprocess.Popen(words, cwd=folder, stdin=subprocess.PIPE, stdout=subprocess.PIPE, stderr=subprocess.PIPE) as ran:
            end = time.monotonic() + 30
            while not os.path.exists(f"{folder}/out.part") and time.monotonic() < end:
                time.sleep(0.01)
            os.mkdir(f"{folder}/out")
            _, said = ran.communicate(section("<") + b"garbage", timeout=30)
        left = help.files(folder)
    tally.note("a folder with the name of the output", ran.returncode != FAILED and f"it ended with {ran.returncode} and said {said!r}", left.get("out") and "it made a file")


def try_all(tally, help):
    for tries in (try_blocks, try_by_hand, try_reports, try_words, try_older_spelling, try_parts, try_unwritten):
        tries(tally, help)
