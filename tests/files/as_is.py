"""Checks what `pcapfile check --as-is` and `list --as-is` write, and `repair` of classic captures. The test finds packets, blocks and
the gaps between them with struct alone, and states the rules again."""
import collections
import functools
import itertools
import random
import re
import struct
import subprocess
import sys
import tempfile

import lenient
from sorting import MEASURE

DONE, AT_FAULT, FAILED, REPAIRED, GUESSED = 0, 1, 3, 5, 6
LONGEST, MOST = 262144, 16777216
BILLION = 10**9
# The most bytes of memory that a check takes for each byte of options in a block.
EACH = 4
MAGICS = {0xA1B2C3D4: 1000, 0xA1B23C4D: 1}
MESSAGES = {
    1: "PcapHeader wrong magic number",
    2: "PacketHeader ts_usec * 1000 > 0xFFFFFFFF",
    3: "PacketHeader incl_len > 0x40000",
    4: "PacketHeader orig_len > 0x40000",
    5: "PacketHeader incl_len > orig_len",
    6: "SectionHeaderBlock: invalid magic number",
    7: "Block: (initial_len % 4) != 0",
    8: "Block: initial_len < 12",
    9: "Block initial_length != trailer_length",
    10: "SectionHeader missing",
    11: "SectionHeaderBlock: block length < 16",
    12: "InterfaceDescriptionBlock: block length < 8",
    17: "Option: slice.len() < 4",
    18: "Option: length + pad.len() > slice.len()",
    1901: "InterfaceDescriptionOption: IfIpv4Addr length != 8",
    1905: "InterfaceDescriptionOption: IfSpeed length != 8",
    1906: "InterfaceDescriptionOption: IfTsResol length != 1",
    1909: "InterfaceDescriptionOption: IfFcsLen length != 1",
    1910: "InterfaceDescriptionOption: IfTsOffset length != 8",
    1911: "EnhancedPacketOption: Flags length != 4",
    1912: "EnhancedPacketOption: DropCount length != 8",
    1913: "PacketOption: Flags length != 4",
}
SECTION, INTERFACE, OBSOLETE, SIMPLE, ENHANCED = 0x0A0D0D0A, 1, 2, 3, 6
# The types of blocks that the library knows.
KNOWN = (*range(1, 7), 9, SECTION)
NO_HEADER = "if its header is lost, --guess guesses one, and --header ORDER,RESOLUTION,LINK gives one"
TOO_FEW = "--guess finds no four packets or two blocks in a row; --header ORDER,RESOLUTION,LINK gives a header"
NO_SECTION = "begins with blocks that have no section header; 'pcapfile repair --guess' or --header keeps them"
# The number of bytes at its front at which a repair looks for blocks without a section header.
WINDOW = 2097152
MAGIC, CUT = b"\n\r\r\n", "cut short"
# The options that are strings, except comments, by the block's type and their codes.
STRINGS = {(SECTION, 2), (SECTION, 4), (INTERFACE, 2)}
# The rule and the length of each option that has one length, by the block's type and the option's code.
LENGTHS = {
    (INTERFACE, 4): (1901, 8),
    (INTERFACE, 8): (1905, 8),
    (INTERFACE, 9): (1906, 1),
    (INTERFACE, 13): (1909, 1),
    (INTERFACE, 14): (1910, 8),
    (OBSOLETE, 2): (1913, 4),
    (ENHANCED, 2): (1911, 4),
    (ENHANCED, 4): (1912, 8),
}


class Packet:
    """A packet as it is: its number, its offset, its time, its lengths, and the rules that it breaks. It may be one of a short run behind
    corrupt bytes (`is_found`), or have no data in a damaged capture or at the time 0 (`is_empty`), or nothing may confirm its end."""

    def __init__(self, number, place, unit, numbers, stated=None, is_guess=False):
        self.number, self.place, self.stated, self.is_guess, self.is_found, self.is_unconfirmed = number, place, stated, is_guess, False, False
        self.is_empty = self.is_by_search = False
        self.seconds, self.fraction, self.stored, self.wire = numbers
        self.time = self.seconds * BILLION + self.fraction * unit
        broken = self.fraction * unit > 0xFFFFFFFF, self.stored > LONGEST, self.wire > LONGEST, self.stored > self.wire
        self.flaws = [number + 2 for number, it in enumerate(broken) if it]


def opened(capture):
    """Returns the order and the unit of the fraction, or None if the magic number is not one of the four."""
    for order in "<>":
        unit = MAGICS.get(struct.unpack_from(order + "I", capture)[0])
        if unit:
            return order, unit
    return None


# Bytes that are left out: their offset, how many they are, what they are, and the rule that they break at their beginning.
Gap = collections.namedtuple("Gap", "place size what rule")
# A changed length of the block with this number at this offset; without a stated one its packet is a guess for its original length.
Mending = collections.namedtuple("Mending", "number place length stated is_guess")


class Packets:
    """Finds the packets of a classic capture, and the gaps between them."""

    def __init__(self, capture, kind):
        self.capture, self.kind, self.reading = capture, kind, lenient.Reading(capture, *kind)
        self.items, self.time, self.longest = [], None, lenient.USUAL
        # Whether the next packet was found behind corrupt bytes, the end of a short run of packets there, and the last packet's number.
        self.is_found, self.end_of_run, self.count = False, 0, 0
        # How many bytes behind the last packet its stored length claimed, whether that was reported as found or empty, whether nothing confirms
        # where it ends, and whether anything was changed or left out.
        self.claimed, self.was_reported, self.is_open, self.is_damaged = 0, False, False, False

    def packet_at(self, at, numbers, size, is_confirmed, is_guess):
        self.count, stored = self.count + 1, numbers[2]
        if size != stored:
            numbers = *numbers[:2], size, size if numbers[3] > LONGEST else max(numbers[3], size)
        is_doubted = self.was_reported and size != stored
        packet = Packet(self.count, at, self.kind[1], numbers, stored, is_guess or is_doubted)
        packet.is_found = at < self.end_of_run and not is_doubted
        self.is_damaged |= packet.is_found or size != stored
        is_zero = not any(numbers) and (self.time or 0) > lenient.DAY
        packet.is_empty = (self.is_damaged or is_zero) and not packet.is_found and lenient.Head(numbers).is_empty()
        packet.is_unconfirmed = is_confirmed is False and not packet.is_found
        packet.is_by_search = is_guess and is_confirmed is None
        self.is_found = packet.is_by_search or is_doubted
        self.is_open = packet.is_unconfirmed
        self.time, self.longest, self.was_reported = numbers[0], max(self.longest, size), packet.is_found or packet.is_empty
        self.claimed = stored - size if packet.is_by_search and stored <= self.reading.limit else 0
        return packet

    def item_at(self, at):
        """Returns the item at this offset and where the next one is."""
        numbers = struct.unpack_from(self.kind[0] + "IIII", self.capture, at) if len(self.capture) - at >= 16 else None
        if numbers and self.is_found:
            self.time, self.is_found = numbers[0], False
            self.end_of_run = at + max(self.reading.short_run(at, self.longest), self.claimed)
        size, way, is_guess = self.reading.size_at(at, self.time, self.was_reported or self.is_damaged and self.is_open)
        if size is not None:
            return self.packet_at(at, numbers, size, way, is_guess), at + 16 + size
        if way is None:
            return Gap(at, len(self.capture) - at, "of a packet that is cut short", None), len(self.capture)
        self.is_found, self.is_damaged, self.claimed, self.end_of_run = True, True, 0, 0
        flaws = Packet(0, at, self.kind[1], numbers).flaws
        return Gap(at, way - at, "no packets", 3 if numbers[2] > MOST else next(iter(flaws), None)), way

    def all(self):
        at = 24
        while at < len(self.capture):
            item, at = self.item_at(at)
            self.items.append(item)
        for item, behind in zip(self.items, [*self.items[1:], None]):
            if isinstance(item, Packet):
                item.is_unconfirmed &= isinstance(behind, Gap) and CUT not in behind.what or isinstance(behind, Packet) and behind.is_by_search
        return self.items


def packets_and_gaps(capture, kind):
    """Returns the packets of a classic capture, and the gaps between them."""
    return Packets(capture, kind).all()


@functools.cache
def stands_in(capture):
    """Returns the format of a capture, and its packets or blocks with the gaps between them. If the capture is refused, it also returns
    the rule, or that the capture is truncated."""
    kind = opened(capture) if len(capture) >= 24 else None
    if kind:
        return "pcap", packets_and_gaps(capture, kind), None
    at = next((it.start() for it in re.finditer(b"(?=%b)" % MAGIC, capture) if is_section(capture, it.start())), None)
    if at is None and capture[:1] != b"\n":
        return "pcap", [], CUT if len(capture) < 24 else 1
    refusal = framed(capture, 0, ">") if capture[:4] == MAGIC[: len(capture)] else 10
    if at is None:
        return "pcapng", [], refusal
    front = [Gap(0, at, "no blocks", None if refusal == CUT else refusal)] * (at > 0)
    return "pcapng", [*front, *blocks_and_gaps(capture, at)], None


def is_torn(item):
    """Returns whether a gap is the beginning of a packet or a block."""
    return isinstance(item, Gap) and CUT in item.what


def by_rule(rule):
    return f" by rule {rule}: {MESSAGES[rule]}" if rule else ""


def left_out(gap):
    return f"{gap.size} bytes at byte {gap.place} are {gap.what}, and are left out"


def changed_length(packet):
    """Returns the message on the changed length of a packet, if it has one."""
    if packet.stated in (None, packet.stored):
        return []
    guess = ", by a guess" * packet.is_guess
    return [f"packet {packet.number} at byte {packet.place}: its stored length is {packet.stored} and not {packet.stated}{guess}"]


def said_before(packet):
    """Returns the messages on a packet before those on its flaws."""
    guess = f"packet {packet.number} at byte {packet.place}: kept, a guess: "
    return changed_length(packet) + [f"{guess}it may lie inside another packet"] * packet.is_found + [f"{guess}it has no data"] * packet.is_empty


def said_behind(packet):
    return [f"packet {packet.number} at byte {packet.place}: kept, a guess: nothing confirms where it ends"] * packet.is_unconfirmed


def mending(it):
    """Returns the message on a changed length or a missing end of a block."""
    if it.length is None:
        return f"block {it.number} at byte {it.place}: its end is missing: its packet is kept, without options that are cut off or break rules"
    if it.stated is None:
        return f"block {it.number} at byte {it.place}: kept, a guess: its original length is above {MOST}"
    return f"block {it.number} at byte {it.place}: its stored length is {it.length} and not {it.stated}{', by a guess' * it.is_guess}"


def said_on(item):
    """Returns the messages of a list on a packet, a block, a changed length or a gap. A list doesn't count blocks, and names no number of
    one."""
    if isinstance(item, Gap):
        return [f"{CUT} at byte {item.place}" if is_torn(item) else left_out(item)]
    if isinstance(item, Mending):
        return [mending(item).replace(f"block {item.number} ", "a block ")]
    return [*said_before(item), *said_behind(item)] if isinstance(item, Packet) else []


def counted(number, word):
    """Returns a number of things with the word for one of them or for several."""
    return f"{number} {word}{'s' * (number != 1)}"


def summary(item, outcomes, gaps, others=0, opening=DONE):
    """Returns the last message of a repair, and its status: `outcomes` are those of the packets or blocks that it wrote, `gaps` are the
    bytes that it skipped, and it left out `others` beside these. The word for an item is `item`."""
    left, skipped = sum(map(is_torn, gaps)) + others, sum(it.size for it in gaps)
    worst = max([opening, *outcomes, REPAIRED * (left + skipped > 0)])
    kept = f"{counted(outcomes.count(DONE), item)} kept"
    if worst == DONE:
        return f"no damage found; {kept}", DONE
    repaired, guessed = outcomes.count(REPAIRED), outcomes.count(GUESSED)
    return f"{kept}, {repaired} repaired, {guessed} guessed, {left} left out, {counted(skipped, 'byte')} skipped", worst


def outcome_of(packet):
    """Returns what becomes of a packet, as the status of a repair of it alone."""
    is_guess = packet.is_found or packet.is_empty or packet.is_unconfirmed or packet.is_guess and changed_length(packet)
    return GUESSED if is_guess else REPAIRED if packet.flaws or changed_length(packet) else DONE


def flaw_lines(name, item):
    """Returns the lines for the flaws of a packet or a block, or for a gap."""
    if isinstance(item, Gap):
        return [] if is_torn(item) else [f"{name}: {left_out(item)}{by_rule(item.rule)}\n"]
    if isinstance(item, Mending):
        return [f"{name}: {mending(item)}\n"]
    if isinstance(item, Packet):
        broken = [f"packet {item.number} at byte {item.place} breaks rule {it}: {MESSAGES[it]}" for it in item.flaws]
        return [f"{name}: {it}\n" for it in (*said_before(item), *broken, *said_behind(item))]
    return [flaw_line(name, item.number, item.place, code, flaw) for code, flaw in item.flaws]


def is_doubt(item):
    """Returns whether an item is a guess for its numbers alone, in which nothing was changed."""
    return isinstance(item, Mending) and item.stated is None and item.length is not None


def checked(name, capture):
    """Returns the lines of a check, and its status."""
    kind, items, refused = stands_in(capture)
    lines = [line for it in items for line in flaw_lines(name, it)]
    found = [it for it in items if not isinstance(it, (Gap, Mending))]
    gone = sum(it.size for it in items if isinstance(it, Gap) and not is_torn(it))
    flawed, torn = sum(bool(it.flaws) for it in found), next(filter(is_torn, items), None)
    flawed += sum(bool(changed_length(it)) for it in found if isinstance(it, Packet)) + sum(isinstance(it, Mending) and not is_doubt(it) for it in items)
    if refused:
        end = f"{CUT} at byte 0" if refused == CUT else f"refused at byte 0{by_rule(refused)}"
    else:
        end = f"{CUT} at byte {torn.place}" if torn else f"{len(capture)} bytes"
    units = "packets" if kind == "pcap" else "blocks"
    lines.append(f"{name}: {kind}, {len(found)} {units}, {end}; {flawed} with flaws{f', {gone} bytes left out' * (gone > 0)}\n")
    return "".join(lines), AT_FAULT if flawed or gone or refused or torn else DONE


def option_flaw(number, code, value):
    """Returns what is wrong with the value of an option, for the codes that the test draws."""
    if code == 2988 and len(value) < 4:
        return "is too short"
    if code == 1 or (number, code) in STRINGS:
        return None if value.isascii() else "is not UTF-8"
    rule, length = LENGTHS.get((number, code), (None, len(value)))
    return rule if len(value) != length else None


def options_in(order, left):
    """Returns options as codes and values, up to their mark or the end, and the rule by which no further one is found."""
    options = []
    while left:
        if len(left) < 4:
            return options, 17
        code, length = struct.unpack_from(order + "HH", left)
        if code == 0:
            break
        end = 4 + length + -length % 4
        if end > len(left):
            return options, 18
        options.append((code, left[4 : 4 + length]))
        left = left[end:]
    return options, None


def options_flaws(order, number, left):
    """Returns what is wrong with options: the code of one, or None for the list, and the rule or the message."""
    options, cut = options_in(order, left)
    flaws = [(code, option_flaw(number, code, value)) for code, value in options]
    return [it for it in [*flaws, (None, cut)] if it[1]]


def body_flaws(order, number, body):
    """Returns the flaws of a block's body. Only the bodies of sections and interfaces are read."""
    if number == SECTION:
        return options_flaws(order, number, body[16:])
    if number != INTERFACE:
        return []
    return options_flaws(order, number, body[8:]) if len(body) >= 8 else [(None, 12)]


def framed(capture, at, order):
    """Returns the order, the number of the type, and the body of the block at this offset, or why there is none."""
    left = len(capture) - at
    if left < 12:
        return "cut short"
    if capture[at : at + 4] == b"\x0a\x0d\x0d\x0a":
        order = {b"\x1a\x2b\x3c\x4d": ">", b"\x4d\x3c\x2b\x1a": "<"}.get(bytes(capture[at + 8 : at + 12]))
        if not order:
            return 6
    number, length = struct.unpack_from(order + "II", capture, at)
    if length % 4 or length < 12:
        return 7 if length % 4 else 8
    if length > left:
        return "cut short"
    end = at + length
    if capture[end - 4 : end] != capture[at + 4 : at + 8]:
        return 9
    return 11 if number == SECTION and length < 28 else (order, number, bytes(capture[at + 8 : end - 4]))


def flaw_line(name, count, at, code, flaw):
    within = "" if code is None else f" in option {code}"
    if isinstance(flaw, str):
        return f"{name}: block {count} at byte {at} {flaw}{within}\n"
    return f"{name}: block {count} at byte {at} breaks rule {flaw}{within}: {MESSAGES[flaw]}\n"


class Block:
    """A block as it is: its number, its offset, the number of its type, its body, and its flaws."""

    def __init__(self, number, place, order, type_, body):
        self.number, self.place, self.order, self.type, self.body = number, place, order, type_, body
        self.flaws = body_flaws(order, type_, body)


def is_section(capture, at):
    return capture.startswith(MAGIC, at) and isinstance(framed(capture, at, ">"), tuple)


def stand(capture, at, order):
    """Returns whether a section header is at this offset, or two blocks in a row, or one that reaches to the end."""
    if is_section(capture, at):
        return True
    for _ in range(2):
        found = framed(capture, at, order)
        if not isinstance(found, tuple):
            return False
        order, at = found[0], at + len(found[2]) + 12
        if at == len(capture):
            return True
    return True


@functools.cache
def may_stand(order, most):
    """Returns a pattern of the offsets at which `stand` can find a block: with a section's number, or with a length that is a multiple of 4,
    not 0, and has at most this number as its highest byte. Python looks at no other offset by itself."""
    low, high = (b"[%b]" % b"".join(re.escape(bytes([it])) for it in numbers) for numbers in (range(0, 256, 4), range(most + 1)))
    length = low + b".." + high if order == "<" else high + b".." + low
    return re.compile(b"(?=%b|.{4}(?!\\0{4})%b)" % (MAGIC, length), re.S)


def stands_behind(capture, start, order):
    """Returns the first offset from this one on at which blocks go on, or None; or if the first of them has an unknown type, the first
    offset inside it at which blocks go on with one of a known type."""
    places = (it.start() for it in may_stand(order, len(capture) >> 24).finditer(capture, start))
    standing = ((it, framed(capture, it, order)) for it in places if stand(capture, it, order))
    first = next(standing, None)
    if first is None or first[1][1] in KNOWN:
        return first and first[0]
    inside = itertools.takewhile(lambda it: it[0] < first[0] + len(first[1][2]) + 12, standing)
    return next((at for at, found in inside if found[1] in KNOWN), first[0])


def rows_without_section(capture):
    """Returns the byte order of two or more blocks in a row before a first section header, and where they begin, or None."""
    if is_section(capture, 0):
        return None
    shown, rows = capture[:WINDOW], []
    for order in "<>":
        start, count, interfaces = stands_behind(shown, 0, order), 0, 0
        at = start
        while at is not None and not shown.startswith(MAGIC, at) and isinstance(found := framed(shown, at, order), tuple):
            _, number, body = found
            if number in (ENHANCED, 5, OBSOLETE) and len(body) >= 4 and struct.unpack_from(order + ("H" if number == OBSOLETE else "I"), body)[0] >= interfaces + 16:
                break
            count, interfaces, at = count + 1, interfaces + (number == INTERFACE), at + len(body) + 12
        if count >= 2:
            rows.append((at == len(shown) or shown.startswith(MAGIC, at), count, order == "<", order, start))
    return max(rows)[3:] if rows else None


def may_be_cut(capture, at, order):
    """Returns whether the truncated block at this offset states no length that is too large."""
    if len(capture) - at < 12:
        return True
    if capture.startswith(MAGIC, at):
        order = ">" if capture[at + 8 : at + 12] == b"\x1a\x2b\x3c\x4d" else "<"
    return struct.unpack_from(order + "I", capture, at + 4)[0] <= MOST


def mended_frame(capture, number, at, order):
    """Puts the right length into the block at this offset, if one of its two lengths says where the next blocks begin, and returns the change."""
    end = stands_behind(capture, at + 12, order) or len(capture)
    size = end - at
    if size % 4 or size < 8:
        return None
    lengths = [struct.unpack_from(order + "I", capture, it)[0] for it in (at + 4, end - 4)]
    if lengths.count(size) != 1:
        return None
    for it in (at + 4, end - 4):
        struct.pack_into(order + "I", capture, it, size)
    return Mending(number, at, size, next(it for it in lengths if it != size), False)


def fits(order, rest, size):
    """Returns whether data of this size, its padding and well-formed options fill the rest of a body."""
    end = size + -size % 4
    return end <= len(rest) and options_in(order, rest[end:])[1] is None


def mended_stored(capture, number, at, found, interfaces):
    """Puts the right stored length into the enhanced packet at this offset, if its own one fits its block badly, and returns the change."""
    order, type_, body = found
    if type_ != ENHANCED or len(body) < 20:
        return None
    interface, _, _, stored, wire = struct.unpack_from(order + "IIIII", body)
    snaplen = interfaces[interface][0] if interface < len(interfaces) and interfaces[interface] else 0
    whole, rest = min(wire, snaplen or wire), body[20:]
    if fits(order, rest, stored):
        return None
    is_guess = not (whole and fits(order, rest, whole))
    if is_guess and (stored <= len(rest) or not whole or not rest):
        return None
    size = min(whole, len(rest)) if is_guess else whole
    struct.pack_into(order + "I", capture, at + 20, size)
    return Mending(number, at, size, stored, is_guess or wire > LONGEST)


def oversized(number, at, found):
    """Returns a guess if the block at this offset is a packet with an original length that no packet has."""
    order, type_, body = found
    if type_ not in (OBSOLETE, ENHANCED) or len(body) < 20 or struct.unpack_from(order + "I", body, 16)[0] <= MOST:
        return None
    return Mending(number, at, 0, None, True)


def sound_options(order, number, left):
    """Returns the bytes of the options whose values break no rule."""
    kept = b""
    while len(left) >= 4:
        code, length = struct.unpack_from(order + "HH", left)
        end = 4 + length + -length % 4
        if code == 0 or end > len(left):
            break
        kept += b"" if option_flaw(number, code, left[4 : 4 + length]) else left[:end]
        left = left[end:]
    return kept


def begin_options(order, left, room):
    """Returns whether these bytes begin options that fill this many bytes."""
    while len(left) >= 4:
        code, length = struct.unpack_from(order + "HH", left)
        end = 4 + length + -length % 4
        if code == 0 or end > room:
            return code == 0
        left, room = left[end:], room - end
    return len(left) <= room


def data_end(order, number, left, interfaces):
    """Returns how many bytes of a packet's block its data end behind, or None for other blocks and too few bytes."""
    if number == SIMPLE and len(left) >= 12:
        snaplen = interfaces[0][0] if interfaces and interfaces[0] else 0
        return 12 + min(it for it in (*struct.unpack_from(order + "I", left, 8), snaplen or 1 << 32))
    return 28 + struct.unpack_from(order + "I", left, 20)[0] if number in (ENHANCED, OBSOLETE) and len(left) >= 24 else None


def completed(capture, number, at, order, interfaces):
    """Completes the truncated block at this offset, if all data of its packet are there and nothing speaks against its options and its
    end, and returns the change."""
    left = bytes(capture[at:])
    if len(left) < 12:
        return None
    type_, length = struct.unpack_from(order + "II", left)
    end = data_end(order, type_, left, interfaces)
    if end is None or end > len(left) or left.endswith(left[4:8]) or stands_behind(capture, at + end, order) is not None:
        return None
    options, room = left[end + -end % 4 : length - 4], length - 4 - end - -end % 4
    if room < 0 or (type_ == SIMPLE and room) or not left[4:8].startswith(left[length - 4 :]) or not begin_options(order, options, room):
        return None
    body = left[8:end] + bytes(-end % 4) + (sound_options(order, type_, options) if type_ != SIMPLE else b"")
    size = struct.pack(order + "I", len(body) + 12)
    capture[at:] = left[:4] + size + body + size
    return Mending(number, at, None, None, False)


def contains_blocks(capture, at, order, found):
    """Returns whether the block at this offset is longer than the longest packet, and blocks go on inside its first bytes."""
    return isinstance(found, tuple) and len(found[2]) + 12 > MOST and stands_behind(bytes(capture[at : at + WINDOW]), 1, order) is not None


def blocks_and_gaps(whole, at):
    """Yields the blocks from the section header at this offset on, their changed lengths, and the gaps between them."""
    capture, order, count, interfaces, reported = bytearray(whole), ">", 0, [], None
    while at < len(capture):
        found = framed(capture, at, order)
        if contains_blocks(capture, at, order, found):
            found = CUT
        if isinstance(found, tuple):
            change = mended_stored(capture, count + 1, at, found, interfaces) or (at != reported and oversized(count + 1, at, found))
            reported = at if change and change.is_guess else reported
        elif found == CUT and may_be_cut(capture, at, order):
            change = mended_frame(capture, count + 1, at, order) or completed(capture, count + 1, at, order, interfaces)
            if not change and stands_behind(capture, at + 1, order) is None:
                yield Gap(at, len(capture) - at, "of a block that is cut short", None)
                break
        else:
            change = mended_frame(capture, count + 1, at, order)
        if isinstance(found, tuple) and found[1] == ENHANCED and len(found[2]) > 24 and not any(found[2][12:24]):
            yield Gap(at, len(found[2]) + 12, "no blocks", None)
            at += len(found[2]) + 12
        elif change:
            yield change
        elif isinstance(found, tuple):
            order, count = found[0], count + 1
            interfaces = [] if found[1] == SECTION else [*interfaces, interface_in(order, found[2])] if found[1] == INTERFACE else interfaces
            yield Block(count, at, *found)
            at += len(found[2]) + 12
        else:
            behind = stands_behind(capture, at + 1, order) or len(capture)
            yield Gap(at, behind - at, "no blocks", None if found == CUT else found)
            at = behind


def refusal(capture, refused):
    """Returns the message on a file that is no capture."""
    if refused == CUT:
        return f"{CUT} at byte 0" if capture else "is empty"
    is_text = all(it in b" \t\r\n" or 33 <= it < 127 for it in capture[:512])
    return "is a text file, not a capture" if is_text and capture[:4] != MAGIC[: len(capture)] else f"Invalid field value: {MESSAGES[refused]}"


def listed(name, capture):
    """Returns the lines of a list, the messages about the capture, and the status."""
    _, items, refused = stands_in(capture)
    found = [it for it in items if not isinstance(it, (Gap, Mending))]
    flawed = any(it.flaws for it in found if isinstance(it, Packet))
    lines = [packet_line(it) for it in found if isinstance(it, Packet)]
    if any(isinstance(it, Block) for it in found):
        lines, flawed = block_lines(found)
    said = [line for it in items for line in said_on(it)]
    flawed |= any(changed_length(it) if isinstance(it, Packet) else said_on(it) and not is_doubt(it) for it in items)
    if refused:
        said.append(refusal(capture, refused))
    return "".join(lines), "".join(f"pcapfile: {name}: {it}\n" for it in said), AT_FAULT if refused or flawed else DONE


def packet_line(packet):
    time, lengths = f"{packet.time // BILLION}.{packet.time % BILLION:09}", f"{packet.stored}/{packet.wire}"
    return f"{packet.number} {time} {lengths}{marks(packet.flaws)}\n"


def packet_in(order, number, body, interfaces):
    """Returns the packet in a body (its interface, its units, its lengths) and its flaws. The packet is None if the body has no room for it."""
    if number == SIMPLE:
        if len(body) < 4:
            return None, [15]
        wire, snaplen = struct.unpack_from(order + "I", body)[0], interfaces[0][0] if interfaces and interfaces[0] else 0
        return (0, None, min(wire, snaplen or wire, len(body) - 4), wire), []
    if len(body) < 20:
        return None, [13]
    interface = struct.unpack_from(order + ("I" if number == ENHANCED else "H"), body)[0]
    high, low, stored, wire = struct.unpack_from(order + "IIII", body, 4)
    end = 20 + stored + -stored % 4
    if end > len(body):
        return None, [14]
    return (interface, high << 32 | low, stored, wire), [flaw for _, flaw in options_flaws(order, number, body[end:])]


def interface_in(order, body):
    """Returns the snapshot length, the units in a second and the offset of an interface, or None if the body has no room for its head."""
    if len(body) < 8:
        return None
    options, _ = options_in(order, body[8:])
    units = [value[0] for code, value in options if code == 9 and len(value) == 1] + [6]
    offsets = [value for code, value in options if code == 14 and len(value) == 8] + [bytes(8)]
    per = 2 ** (units[0] & 127) if units[0] & 128 else 10 ** units[0]
    return struct.unpack_from(order + "I", body, 4)[0], per, struct.unpack(order + "q", offsets[0])[0]


def shown_time(interfaces, number, units):
    """Returns the time of this many units by the clock of an interface, or a hyphen."""
    if units is None or number >= len(interfaces) or not interfaces[number]:
        return "-"
    _, per, offset = interfaces[number]
    seconds, nanoseconds = divmod(offset * BILLION + units * BILLION // per, BILLION)
    return f"{seconds}.{nanoseconds:09}" if 0 <= seconds < 1 << 64 else "-"


def marks(flaws):
    return "".join(" !utf8" if it == "is not UTF-8" else " !short" if it == "is too short" else f" !{it}" for it in flaws)


def block_lines(blocks):
    """Returns the lines of the packets in blocks, and whether anything has a flaw."""
    interfaces, lines, flawed = [], [], False
    for it in blocks:
        interfaces, flaws = [] if it.type == SECTION else interfaces, [flaw for _, flaw in it.flaws]
        if it.type == INTERFACE:
            interfaces = [*interfaces, interface_in(it.order, it.body)]
        if it.type in (OBSOLETE, SIMPLE, ENHANCED):
            packet, flaws = packet_in(it.order, it.type, it.body, interfaces)
            told = "refused"
            if packet:
                interface, units, stored, wire = packet
                told = f"{shown_time(interfaces, interface, units)} {stored}/{wire} {interface}"
            lines.append(f"{len(lines) + 1} {told}{marks(flaws)}\n")
        flawed |= bool(flaws)
    return lines, flawed


def mended(packet, unit, data):
    """Returns the numbers and the bytes of the packet after the repair, and for each change the rule and a message."""
    seconds, nanoseconds, changes = packet.seconds, packet.fraction * unit, []
    if 2 in packet.flaws:
        seconds, nanoseconds = min(divmod(packet.time, BILLION), (0xFFFFFFFF, 999999000))
        changes.append((2, f"a fraction of {packet.fraction} is too large, so its time is {seconds}.{nanoseconds:09}"))
    kept = data[:LONGEST]
    if len(kept) < len(data):
        changes.append((3, f"the first {len(kept)} of its {len(data)} bytes are kept"))
    wire = max(min(packet.wire, LONGEST), len(kept))
    if wire != packet.wire:
        changes.append((4 if packet.wire > LONGEST else 5, f"its original length is {wire} and not {packet.wire}"))
    return (seconds, nanoseconds // unit, len(kept), wire), kept, changes


def repaired(name, capture):
    """Returns the repaired classic capture, or None, the messages, and the status."""
    prefix = f"pcapfile: {name}: "
    _, items, refused = stands_in(capture)
    if refused:
        why = refusal(capture, refused)
        said = [why] + [NO_HEADER] * why.startswith("Invalid")
        return None, "".join(f"{prefix}{it}\n" for it in said), AT_FAULT
    (order, unit), out, said, outcomes = opened(capture), [capture[:24]], [], []
    for it in items:
        if isinstance(it, Gap):
            said.append(left_out(it) + by_rule(it.rule))
            continue
        said += said_before(it)
        numbers, data, changes = mended(it, unit, capture[it.place + 16 : it.place + 16 + it.stored])
        out.append(struct.pack(order + "IIII", *numbers) + data)
        said += [f"packet {it.number} at byte {it.place} breaks rule {rule}: {change}" for rule, change in changes] + said_behind(it)
        outcomes.append(outcome_of(it))
    last, status = summary("packet", outcomes, [it for it in items if isinstance(it, Gap)])
    return b"".join(out), "".join(f"{prefix}{it}\n" for it in (*said, last)), status


def capture_of(order, magic, packets, snaplen=65535):
    capture = struct.pack(order + "IHHiIII", magic, 2, 4, 0, 0, snaplen, 1)
    for numbers, data in packets:
        capture += struct.pack(order + "IIII", *numbers) + data
    return capture


def some_packets(draw, count):
    """Returns packets, some of which break rules."""
    packets = []
    for k in range(count):
        data = bytes([k % 256]) * draw.choice((0, 1, 15, 60, 300))
        wire = draw.choice((len(data), len(data) + 7, max(len(data) - 1, 0), LONGEST, LONGEST + 1, 0xFFFFFFFF, 0))
        seconds = draw.choice((0, 1700000000 + k, 0xFFFFFFFF))
        fraction = draw.choice((0, 999999, 1000000, 4294967, 4294968, 999999999, 0xFFFFFFFF))
        packets.append(((seconds, fraction, len(data), wire), data))
    return packets


def captures():
    """Yields captures with their names."""
    draw = random.Random(30)
    for order, kind in (("<", "little"), (">", "big")):
        for magic in MAGICS:
            for count in (0, 1, 40, 3000):
                yield f"{count} packets, {kind} {magic:x}", capture_of(order, magic, some_packets(draw, count))
    long = [((1, 2, size, size), bytes(size)) for size in (LONGEST, LONGEST + 1, 3 * LONGEST)]
    capture = capture_of("<", 0xA1B2C3D4, long)
    yield "long packets", capture
    for stored in (MOST, MOST + 1, 0xFFFFFFFF):
        yield f"a packet of {stored} bytes", capture + struct.pack("<IIII", 1, 2, stored, stored) + bytes(100)
    few = capture_of(">", 0xA1B2C3D4, some_packets(draw, 5))
    for size in range(len(few)):
        yield f"{size} bytes", few[:size]
    yield "no capture", b"these are 24 or more bytes"


def some_options(draw, order):
    """Returns options up to a mark, to the end of the body, or to where no next one is found. Some of their values break rules."""
    options = b""
    for _ in range(draw.randrange(4)):
        code, size = draw.choice((1, 2, 4, 8, 9, 13, 14, 77)), draw.choice((0, 1, 2, 4, 8, 9))
        value = (b"\xff" if draw.randrange(3) == 0 else b"a") * size
        options += struct.pack(order + "HH", code, size) + value + bytes(-size % 4)
    return options + draw.choice((b"", bytes(4), b"\0\1\0", struct.pack(order + "HH", 1, 200), bytes(4) + b"more"))


def some_packet(draw, order):
    """Returns a block that holds a packet, or has no room for one."""
    number, size = draw.choice((OBSOLETE, SIMPLE, ENHANCED)), draw.choice((0, 1, 4, 7))
    if number == SIMPLE:
        return number, draw.choice((b"", struct.pack(order + "I", draw.choice((0, 3, 9))) + bytes(size)))
    head = struct.pack(order + ("I" if number == ENHANCED else "HH"), draw.randrange(4), *([] if number == ENHANCED else [7]))
    time = draw.choice((0, 1700000000123456, 1 << 63, (1 << 64) - 1))
    head += struct.pack(order + "IIII", time >> 32, time & 0xFFFFFFFF, size, size + draw.randrange(3))
    whole = head + bytes(size + -size % 4) + some_options(draw, order)
    return number, whole[: draw.choice((12, 20, len(whole), len(whole), len(whole)))]


def some_blocks(draw, help, order):
    """Returns a section with blocks after it."""
    parts = [(SECTION, struct.pack(order + "IHHq", 0x1A2B3C4D, 1, 0, -1) + some_options(draw, order))]
    for _ in range(draw.randrange(12)):
        head = draw.choice((struct.pack(order + "HHI", 1, 0, 0), bytes(8), bytes(8), bytes(4), b""))
        interface = INTERFACE, head + (some_options(draw, order) if len(head) == 8 else b"")
        parts.append(draw.choice((interface, some_packet(draw, order), some_packet(draw, order), (99, b"abcd"))))
    return b"".join(help.block(order, *part) for part in parts)


def block_captures(help):
    """Yields captures of blocks with their names."""
    draw = random.Random(32)
    for count in range(60):
        orders = [draw.choice("<>") for _ in range(draw.choice((1, 1, 2, 3)))]
        yield f"blocks {count}", b"".join(some_blocks(draw, help, order) for order in orders)
    whole = some_blocks(random.Random(33), help, "<")
    for size in range(4, len(whole)):
        yield f"{size} bytes of blocks", whole[:size]
    for name, wrong in (("zeros", bytes(40)), ("a short block", b"\1\0\0\0\4\0\0\0" + bytes(8)), ("text", b"this is no block, at all")):
        yield f"blocks and {name}", whole + wrong + whole
    for order in "<>":
        yield f"many blocks of one length, order {order}", blocks_of_one_length(help, order)
    yield "two lengths", whole + struct.pack("<III", 99, 12, 16)
    yield "a section that gives no order", whole + help.block("<", SECTION, bytes(16))
    yield "a section with no room", whole + help.block("<", SECTION, struct.pack("<III", 0x1A2B3C4D, 1, 0))


def blocks_of_one_length(help, order):
    """Returns a capture of 600 packets of one size that end in zero bytes. One of them has two wrong lengths."""
    numbers = [struct.pack(order + "IIIII", 0, 0, k, 60, 60) for k in range(600)]
    blocks = [help.block(order, ENHANCED, it + bytes([1]) * 42 + bytes(18)) for it in numbers]
    blocks[3] = blocks[3][:4] + b"\xff" * 4 + blocks[3][8:-4] + b"\xff" * 4
    section = help.block(order, SECTION, struct.pack(order + "IHHq", 0x1A2B3C4D, 1, 0, -1))
    return b"".join((section, help.block(order, INTERFACE, struct.pack(order + "HHI", 1, 0, 65535)), *blocks))


def gaps():
    """Yields captures with bytes between packets that are no packets."""
    draw = random.Random(31)
    few = [((1700000000 + k, k, size, size), bytes([k]) * size) for k, size in enumerate((9, 1, 300, 0, 70, 40))]
    whole = capture_of("<", 0xA1B2C3D4, few)
    for size in (1, 15, 16, 17, 1000):
        for kind in (b"\xff", b"\0\0\0\xff"):
            yield f"a gap of {size} bytes {kind.hex()}", whole + (kind * size)[:size] + whole[24:]
    yield "a gap at the end", whole + b"\xff" * 100
    torn = struct.pack("<IIII", 1, 2, 1000, 999)
    yield "a torn packet that breaks a rule", whole + torn + whole[24:]
    yield "a torn packet that breaks none", whole + struct.pack("<IIII", 1, 2, 1000, 1000) + whole[24:]
    for count in range(3):
        # Packets as long as possible, at the end of what the program looks at in one go.
        long = [((k, 1, LONGEST, LONGEST), bytes(LONGEST)) for k in range(count + 1)]
        size = 2097152 - 524320 + draw.randrange(-300, 66000)
        yield f"a gap of {size} bytes", whole + b"\xff" * size + capture_of("<", 0xA1B2C3D4, long)[24:] + whole[24:]
    yield "two gaps", whole + b"\xff" * 2621440 + whole[24:] + b"\xff" * 77 + whole[24:]
    for size in (30, 2097152, 3000000):
        few, more = (capture_of("<", 0xA1B2C3D4, of_random_times(seed, 40, (1, 60, 300))) for seed in (37, 38))
        yield f"a gap of {size} bytes between packets of random times", few + b"\xff" * size + more[24:]


def ran(tally, folder, *words, given=b""):
    return tally.run(folder, list(words), given, word=None)


def tell(tally, help, name, capture):
    """Checks a check of the capture, as a file and through a pipe, and a list of it."""
    with tempfile.TemporaryDirectory() as folder:
        help.put(folder, "in", capture)
        check = ran(tally, folder, "check", "--as-is", "in")
        piped = ran(tally, folder, "check", "--as-is", "-", given=capture)
        rows = ran(tally, folder, "list", "--as-is", "in")
    for named, ended in (("in", check), ("-", piped)):
        lines, status = checked(named, capture)
        wanted = status, lines.encode(), ""
        tally.note(f"check --as-is of {name}, {named}", ended != wanted and f"it gave {str(ended)[-300:]}, and not {str(wanted)[-300:]}")
    lines, said, status = listed("in", capture)
    wanted = status, lines.encode(), said
    tally.note(f"list --as-is of {name}", rows != wanted and f"it gave {str(rows)[-300:]}, and not {str(wanted)[-300:]}")


def try_each(tally, help):
    for name, capture in (*captures(), *gaps()):
        tell(tally, help, name, capture)


def by_hand(help):
    """Yields captures with bytes between packets or blocks, the lines of their check, the lines of their list, and the messages."""
    few = capture_of("<", 0xA1B2C3D4, [((k, 5, 4, 4), b"data") for k in range(3)])
    yield few + b"\xff" * 30 + few[24:44] + few[24:44] + few[24:30], """\
in: packet 3 at byte 64: kept, a guess: nothing confirms where it ends
in: 30 bytes at byte 84 are no packets, and are left out by rule 3: PacketHeader incl_len > 0x40000
in: packet 4 at byte 114: kept, a guess: it may lie inside another packet
in: packet 5 at byte 134: kept, a guess: it may lie inside another packet
in: pcap, 5 packets, cut short at byte 154; 0 with flaws, 30 bytes left out
""", "".join(f"{k + 1} {k % 3}.000005000 4/4\n" for k in range(3)) + "4 0.000005000 4/4\n5 0.000005000 4/4\n", """\
pcapfile: in: packet 3 at byte 64: kept, a guess: nothing confirms where it ends
pcapfile: in: 30 bytes at byte 84 are no packets, and are left out
pcapfile: in: packet 4 at byte 114: kept, a guess: it may lie inside another packet
pcapfile: in: packet 5 at byte 134: kept, a guess: it may lie inside another packet
pcapfile: in: cut short at byte 154
"""
    section = help.block("<", SECTION, struct.pack("<IHHq", 0x1A2B3C4D, 1, 0, -1))
    packet = help.block("<", ENHANCED, struct.pack("<IIIII", 0, 0, 7000000, 4, 5) + b"data")
    whole = section + help.block("<", INTERFACE, struct.pack("<HHI", 1, 0, 0)) + packet * 2
    yield b"\n of text" + whole + b"\xff" * 16 + packet * 2 + bytes(12), """\
in: 9 bytes at byte 0 are no blocks, and are left out by rule 10: SectionHeader missing
in: 16 bytes at byte 129 are no blocks, and are left out by rule 7: Block: (initial_len % 4) != 0
in: 12 bytes at byte 217 are no blocks, and are left out by rule 8: Block: initial_len < 12
in: pcapng, 6 blocks, 229 bytes; 0 with flaws, 37 bytes left out
""", "".join(f"{k} 7.000000000 4/5 0\n" for k in (1, 2, 3, 4)), """\
pcapfile: in: 9 bytes at byte 0 are no blocks, and are left out
pcapfile: in: 16 bytes at byte 129 are no blocks, and are left out
pcapfile: in: 12 bytes at byte 217 are no blocks, and are left out
"""


def try_by_hand(tally, help):
    for capture, lines, rows, said in by_hand(help):
        with tempfile.TemporaryDirectory() as folder:
            help.put(folder, "in", capture)
            check = ran(tally, folder, "check", "--as-is", "in")
            list_ = ran(tally, folder, "list", "--as-is", "in")
        tally.note(
            f"by hand, {lines}",
            check != (AT_FAULT, lines.encode(), "") and f"a check gave {check}",
            list_ != (AT_FAULT, rows.encode(), said) and f"a list gave {list_}",
        )


# Captures of thousands of random times and lengths: where the first repair changed lengths, the second one may find other packets.
DRIFTING = ("3000 packets, little a1b2c3d4", "3000 packets, big a1b23c4d")


def try_repairs(tally, help):
    """Repairs each capture into a file and through pipes, and checks that a second repair does what the rules say: nothing, but for the
    captures that drift."""
    for name, capture in (*captures(), *gaps()):
        out, said, status = repaired("in", capture)
        wanted = {"in": capture, "out": b"old" if out is None else out}
        out_again, said_again, status_again = repaired("out", out or b"")
        with tempfile.TemporaryDirectory() as folder:
            help.put(folder, "in", capture)
            help.put(folder, "out", b"old")
            ended = ran(tally, folder, "repair", "in", "-o", "out")
            left = help.files(folder)
            again = ran(tally, folder, "repair", "out", "-o", "-")
            check = ran(tally, folder, "check", "out")
        with tempfile.TemporaryDirectory() as folder:
            piped = ran(tally, folder, "repair", "-", "-o", "-", given=capture)
        tally.note(
            f"repair of {name}",
            ended != (status, b"", said) and f"it gave {str(ended)[-300:]}, and not {str((status, said))[-300:]}",
            left != wanted and f"it left {sorted(left)}, and not the capture of {len(out or b'')} bytes",
            piped != (status, out or b"", said.replace("pcapfile: in: ", "pcapfile: -: ")) and f"through pipes it gave {str(piped)[-300:]}",
            out is not None and (again != (status_again, out_again, said_again) or check[0] != DONE) and f"again it gave {str(again)[-300:]}, and {check}",
            name not in DRIFTING and out_again != out and "a second repair changes it",
        )


def of_random_times(seed, count, sizes=(0, 0, 1, 60, 300)):
    """Returns packets without a flaw of these sizes, whose times are mostly more than a day apart."""
    draw = random.Random(seed)
    sizes = draw.choices(sizes, k=count)
    return [((draw.randrange(1, 1 << 31), k, size, size), bytes([k % 255 + 1]) * size) for k, size in enumerate(sizes)]


def sound():
    """Yields packets that break no rule, with their names and the snapshot length of their capture."""
    yield "sound packets", 65535, [((1700000000 + k, k % 1000000, k % 90, k % 90 + k % 3), bytes(k % 90)) for k in range(2000)]
    for seed, count in ((34, 5), (35, 60), (36, 1000)):
        yield f"{count} packets of random times", 65535, of_random_times(seed, count)
    jumps = {"a jump": lambda k: -k // 20, "a jump before the last": lambda k: k // 39, "a jump before two": lambda k: k // 38, "jumps everywhere": lambda k: k % 7 * 2}
    for (name, days), size in itertools.product(jumps.items(), (60, 200)):
        sizes = [size if k < 20 else 200 for k in range(40)]
        packets = [((1700000000 + 100000 * days(k) + k, k, it, it), bytes([k + 1]) * it) for k, it in enumerate(sizes)]
        yield f"{name}, and packets of {size} bytes", 96, packets


def try_sound(tally, help):
    """Checks that no packet of a sound capture is changed: a lenient list is the strict list, and a repair copies."""
    for (name, snaplen, packets), order, magic in itertools.product(sound(), "<>", MAGICS):
        capture = capture_of(order, magic, packets, snaplen)
        with tempfile.TemporaryDirectory() as folder:
            help.put(folder, "in", capture)
            strict, tolerant = ran(tally, folder, "list", "in"), ran(tally, folder, "list", "--as-is", "in")
            code, copy, said = ran(tally, folder, "repair", "in", "-o", "-")
        tally.note(
            f"{name}, {order}{magic:x}",
            (strict != tolerant or strict[0] != DONE or not strict[1]) and f"it gave {str(tolerant)[-300:]}, and not {str(strict)[-300:]}",
            (code, copy == capture) != (DONE, True) and f"a repair ended with {code}, {said[-300:]}",
        )


def try_several(tally, help):
    """Checks that several files give the worst of their statuses, and their lines in order, whatever failed."""
    flawed = capture_of("<", 0xA1B23C4D, [((1, 2, 3, 2), b"abc")])
    sound = capture_of("<", 0xA1B23C4D, [((1, 2, 3, 3), b"abc")])
    blocks = help.blocks("<", [])[0]
    with tempfile.TemporaryDirectory() as folder:
        for name, content in (("flawed", flawed), ("sound", sound), ("blocks", blocks), ("folder", None)):
            help.put(folder, name, content)
        names = ["flawed", "blocks", "missing", "folder", "sound"]
        check = ran(tally, folder, "check", "--as-is", *names)
        rows = ran(tally, folder, "list", "--as-is", *names)
        worst = [ran(tally, folder, "check", "--as-is", *it)[0] for it in (["flawed", "sound"], ["sound", "flawed"], ["sound", "sound"])]
    lines = checked("flawed", flawed)[0] + checked("blocks", blocks)[0] + checked("sound", sound)[0]
    listing = f"flawed:\n{listed('', flawed)[0]}blocks:\nsound:\n{listed('', sound)[0]}"
    for name, ended, wanted in (("check", check, lines), ("list", rows, listing)):
        told = ended[2].splitlines()
        starts = ["missing: No such file", {"check": "folder: is a folder; --recursive", "list": "folder: Is a directory"}[name]]
        said = len(told) == len(starts) and all(line.startswith(f"pcapfile: {it}") for line, it in zip(told, starts))
        tally.note(f"{name} --as-is of several", (ended[:2] != (FAILED, wanted.encode()) or not said) and f"it gave {ended}")
    tally.note("the worst of several", worst != [AT_FAULT, AT_FAULT, DONE] and f"it gave {worst}")


def statuses(help):
    """Yields captures with the statuses of their lenient check and list."""
    section = help.block("<", SECTION, struct.pack("<IHHq", 0x1A2B3C4D, 1, 0, -1))
    interface = struct.pack("<HHI", 1, 0, 0)
    sound, flawed = (help.block("<", INTERFACE, interface + it) for it in (b"", option_of(9, b"two")))
    packet = struct.pack("<IIIII", 0, 0, 7, 4, 4) + b"data"
    flagged = help.block("<", ENHANCED, packet + option_of(2, b"flags of eight"))
    packet = help.block("<", ENHANCED, packet)
    yield "a sound capture", section + sound + packet, DONE, DONE
    yield "a packet whose options are flawed", section + sound + packet + flagged, DONE, AT_FAULT
    yield "an interface that is flawed, without a packet", section + flawed, AT_FAULT, AT_FAULT
    yield "an interface that is flawed, and its packet", section + flawed + packet, AT_FAULT, AT_FAULT
    yield "bytes that are left out", section + sound + packet * 2 + b"\xff" * 8 + packet * 2, AT_FAULT, AT_FAULT
    yield "a classic packet that is flawed", capture_of("<", 0xA1B23C4D, [((1, 2, 3, 2), b"abc")]), AT_FAULT, AT_FAULT


def option_of(code, value):
    return struct.pack("<HH", code, len(value)) + value + bytes(-len(value) % 4)


def try_statuses(tally, help):
    """Checks the statuses of lenient checks and lists. A lenient check reads the body of no PcapNg packet, and a list does. So their
    statuses differ there, and nowhere else."""
    for name, capture, checks, lists in statuses(help):
        with tempfile.TemporaryDirectory() as folder:
            help.put(folder, "in", capture)
            ended = [ran(tally, folder, word, "--as-is", "in")[0] for word in ("check", "list")]
        tally.note(f"the statuses of {name}", ended != [checks, lists] and f"they are {ended}, and not {[checks, lists]}")


def many_options(help):
    """Yields captures with a block of many options of 4 bytes, their number, and the lines of a check."""
    head = struct.pack("<IHHq", 0x1A2B3C4D, 1, 0, -1)
    section, interface = help.block("<", SECTION, head), struct.pack("<HHI", 1, 0, 0)
    count = 4194304
    comments = help.block("<", SECTION, head + option_of(1, b"") * count)
    yield "comments of a section", comments, count, f"in: pcapng, 1 blocks, {len(comments)} bytes; 0 with flaws\n"
    count = 1048576
    for code, rule in ((9, 1906), (14, 1910)):
        capture = section + help.block("<", INTERFACE, interface + option_of(code, b"") * count)
        line = f"in: block 2 at byte 28 breaks rule {rule} in option {code}: {MESSAGES[rule]}\n"
        yield f"flawed options of an interface, {code}", capture, count, line * count + f"in: pcapng, 2 blocks, {len(capture)} bytes; 1 with flaws\n"


def try_memory(tally, help):
    """Checks that a check takes at most EACH bytes of memory for each byte of the options of a block, whatever flaws these have."""
    for name, capture, count, wanted in many_options(help):
        with tempfile.TemporaryDirectory() as folder:
            help.put(folder, "in", capture)
            words = [sys.executable, "-c", MEASURE, tally.program, "check", "--as-is", "in"]
            ended = subprocess.run(words, cwd=folder, capture_output=True, check=True).stdout.decode()
        lines, end = ended[: len(wanted)], ended[len(wanted) :]
        status, most_used = map(int, end.split()[-2:])
        most = EACH * 4 * count
        tally.note(f"the lines for {name}", lines != wanted and f"they are {lines[-300:]!r}", status != (AT_FAULT if "flawed" in name else DONE) and f"the status is {status}")
        tally.note(f"the memory for {name}", most_used * 1024 > most and f"it is {most_used} KiB, and not at most {most} bytes")


def try_long_block(tally, help):
    """Checks that a wrong length above the longest packet's, behind which a long capture goes on, costs no more memory than what is looked at
    at once."""
    head = help.block("<", SECTION, struct.pack("<IHHq", 0x1A2B3C4D, 1, 0, -1)) + help.block("<", INTERFACE, struct.pack("<HHI", 1, 0, 0))
    draw = random.Random(25)
    sizes = [draw.randrange(100, 1500, 4) for _ in range(700)]
    packets = [help.block("<", ENHANCED, struct.pack("<IIIII", 0, 0, k, size, size) + bytes(size)) for k, size in enumerate(sizes)]
    packet, count = packets[0], 100 * len(packets)
    wrong = packet[:4] + struct.pack("<I", len(packet) | 1 << 25) + packet[8:]
    capture = head + wrong + b"".join(packets) * 100
    with tempfile.TemporaryDirectory() as folder:
        help.put(folder, "in", capture)
        words = [sys.executable, "-c", MEASURE, tally.program, "check", "--as-is", "in"]
        ended = subprocess.run(words, cwd=folder, capture_output=True, check=True).stdout.decode()
    *lines, end = ended.splitlines()
    status, most_used = map(int, end.split())
    mended = f"in: block 3 at byte {len(head)}: its stored length is {len(packet)} and not {len(packet) | 1 << 25}"
    sound = f"in: pcapng, {count + 3} blocks, {len(capture)} bytes; 1 with flaws"
    tally.note("a wrong length of a long capture", lines != [mended, sound] and f"its lines are {lines}", status != AT_FAULT and f"the status is {status}")
    tally.note("the memory for a wrong length", most_used > 16384 and f"it is {most_used} KiB")


def try_all(tally, help):
    for tries in (try_each, try_by_hand, try_repairs, try_sound, try_several, try_statuses, try_memory, try_long_block):
        tries(tally, help)
