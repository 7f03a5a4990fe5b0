"""Reads PcapNg captures leniently: the flaws of each section, interface and packet, and the times of packets."""
import os
import re

from blocks import TYPES, at_least
from conversion import time_of
from frames import frame
from left import Left, padding
from options import option
from refusals import Lacks, Refused, rule
from shown import Value, shown

TOP = os.path.dirname(os.path.dirname(os.path.dirname(os.path.abspath(__file__))))
SECTION, INTERFACE, ENHANCED = 0x0A0D0D0A, 1, 6


def rule_names():
    """Returns the name of each rule, by its message, from docs/REFUSALS.md."""
    with open(f"{TOP}/docs/REFUSALS.md", encoding="utf-8") as page:
        rows = re.findall(r"^\| V[0-9.]+ \| \d+ \| `(\w+)` \|.*\| ([^|]+) \|$", page.read(), re.M)
    return {message: name for name, message in rows}


NAMES = rule_names()
NOT_RULES = {"io": Value("TooShort"), "utf8": Value("NotUtf8")}


def flaw(why, code=None):
    """Returns the flaw of the value of an option of this code, or of a whole body."""
    text = str(why)
    broken = NOT_RULES[text] if text in NOT_RULES else Value("Rule", Value(NAMES[text.removeprefix("invalid ")]))
    return Value("Flaw", code=Value("None") if code is None else Value("Some", code), broken=broken)


def options_as_is(kind, left):
    """Returns the options whose values break no rule, and the flaws: those of the other options, and that of the list's end."""
    found, flaws = [], []
    while left:
        if len(left) < 4:
            return found, [*flaws, flaw(rule("Option: slice.len() < 4"))]
        code, length = left.number(2), left.number(2)
        if code == 0:
            break
        if length + padding(length) > len(left):
            return found, [*flaws, flaw(rule("Option: length + pad.len() > slice.len()"))]
        value = left.take(length)
        left.take(padding(length))
        try:
            found.append(option(kind, code, value, left.order))
        except Refused as why:
            flaws.append(flaw(why, code))
    return found, flaws


def section(left):
    """Returns the flaws of a section. A section that gives no order is refused."""
    at_least(left, 16, "SectionHeaderBlock: block length < 16")
    left.take(16)
    return options_as_is("SectionHeaderOption", left)[1]


def interface(left):
    """Returns an interface, or None if the body has no room for its head, and its flaws."""
    if len(left) < 8:
        return None, [flaw(rule("InterfaceDescriptionBlock: block length < 8"))]
    left.take(8)
    found, flaws = options_as_is("InterfaceDescriptionOption", left)
    return {"options": found}, flaws


def enhanced(left, interfaces):
    """Returns the flaws of a packet, and its time by its interface's clock, if it has one."""
    if len(left) < 20:
        return [flaw(rule("EnhancedPacketBlock: block length length < 20"))], None
    number, units, stored, _ = left.number(4), left.time(), left.number(4), left.number(4)
    if stored + padding(stored) > len(left):
        return [flaw(rule("EnhancedPacketBlock: captured_len + padding > block length"))], None
    left.take(stored + padding(stored))
    _, flaws = options_as_is("EnhancedPacketOption", left)
    by = interfaces[number] if number < len(interfaces) else None
    return flaws, time_of(by, units) if by else None


def shown_time(time):
    if time is None:
        return "None"
    return shown(Value("Some", Value("Timestamp", seconds=time[0], nanoseconds=time[1])))


class Reading:
    """Keeps what was read of a capture so far: the order of its section, and the section's interfaces."""

    def __init__(self):
        self.order, self.interfaces = None, []

    def flaws_of(self, block):
        """Returns the flaws of the body of a section or an interface, which applies from then on."""
        body = Left(block.body, block.order)
        if block.number == SECTION:
            flaws = section(body)
            self.order, self.interfaces = block.order, []
            return flaws
        if self.order is None:
            raise rule("SectionHeader missing")
        if block.number != INTERFACE:
            return []
        kept, flaws = interface(body)
        self.interfaces.append(kept)
        return flaws

    def told(self, block):
        """Describes a block: its type, its flaws, and for a packet its time."""
        text = f"{block_type(block.number)} {shown(self.flaws_of(block))}"
        if block.number == ENHANCED:
            wrong, time = enhanced(Left(block.body, block.order), self.interfaces)
            text += f" {shown(wrong)} {shown_time(time)}"
        return text


def block_type(number):
    return TYPES[number][0] if number in TYPES else f"Unknown({number})"


def told(bytes_):
    """Describes a capture: each block, and why no other follows if bytes are left."""
    left, reading, words = Left(bytes_, "big"), Reading(), []
    while left or not words:
        try:
            left.order = reading.order or "big"
            words.append(reading.told(frame(left)))
        except (Lacks, Refused) as why:
            words.append(str(why))
            break
    return "; ".join(words)


def run_told(bytes_):
    """Describes a run over a capture: how many blocks there are, how many of them have flaws, the first of these with its place, how
    many bytes all take, and what follows."""
    left, reading, flaws, ends = Left(bytes_, "big"), Reading(), [], [0]
    end = "clean"
    while left or not flaws:
        try:
            left.order = reading.order or "big"
            flaws.append(reading.flaws_of(frame(left)))
            ends.append(len(bytes_) - len(left))
        except (Lacks, Refused) as why:
            end = str(why)
            break
    if not flaws:
        return end
    flawed = [number for number, wrong in enumerate(flaws) if wrong]
    first = f"{flawed[0]} at {ends[flawed[0]]}" if flawed else "none"
    return f"{len(flaws)} blocks, {len(flawed)} flawed, first {first}, {ends[-1]} bytes, {end}"


def row(bytes_, order, count):
    """Returns whether this many blocks in a row are in front of these bytes, each in the order of the one before it, or fewer, at least
    one, up to their end. A section header that gives no order does not count."""
    if count == 0:
        return True
    left = Left(bytes_, order)
    try:
        block = frame(left)
        if block.number == SECTION:
            section(Left(block.body, block.order))
    except (Lacks, Refused):
        return False
    return not left or row(left.bytes, block.order, count - 1)


def header(bytes_):
    """Returns whether a section header is in front of these bytes."""
    return bytes_.startswith(SECTION.to_bytes(4, "big")) and row(bytes_, "big", 1)


def again_told(bytes_):
    """Returns the places after the first block at which blocks follow, by rows of one, of two and of three, or a section header. The
    last place is that of a section header."""
    left = Left(bytes_, "big")
    order, behind = frame(left).order, left.bytes
    places = range(len(behind))

    def first(count):
        return next((at for at in places if header(behind[at:]) or row(behind[at:], order, count)), "none")

    section_at = next((at for at in places if header(behind[at:])), "none")
    return ", ".join(str(at) for at in (first(1), first(2), first(3), section_at))
