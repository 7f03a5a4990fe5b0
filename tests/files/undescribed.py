"""States again how `pcapfile repair` describes the interfaces that their section doesn't describe."""
import collections
import copy
import struct

import as_is
from as_is import DONE, ENHANCED, GUESSED, INTERFACE, OBSOLETE, REPAIRED, SECTION, SIMPLE

STATISTICS = 5
# The most interfaces that a repair describes at once.
MOST = 16
OTHERS = ", like those of the other interfaces of its section,"
FATES = {
    "kept": "packets are kept without a description; 'pcapfile repair --guess' writes one, with the link type of --link LINK",
    "differ": "its packets are left out, since the interfaces of its section differ in link type or in how they count time",
    "high": "its packets are left out, since its number is far above those of the described interfaces",
    "disputed": "its packets are left out, since a later description differs from that written before",
}
# A description: its link type, its snapshot length, its resolution and its offset as bytes, and where it comes from.
Description = collections.namedtuple("Description", "link snaplen resolution offset how")
# A message on an undescribed interface, what it makes of the next block as the status of a repair of it alone, and the descriptions before it.
Described = collections.namedtuple("Described", "text outcome blocks")
# A block that is left out.
LeftOut = collections.namedtuple("LeftOut", "")


def supposed(link, resolution, how):
    """Returns the description for sections that describe no interface."""
    return Description(link, 0, resolution, bytes(8), how)


def first_value(order, options, code, otherwise):
    while options:
        number, size = struct.unpack_from(order + "HH", options)
        if number == code:
            return options[4 : 4 + size]
        options = options[4 + size + -size % 4 :]
    return otherwise


def description_in(order, body):
    """Returns the description in the body of an interface, or None if the body has no room for it."""
    if len(body) < 8:
        return None
    link, _, snaplen = struct.unpack_from(order + "HHI", body)
    options = as_is.sound_options(order, INTERFACE, body[8:])
    offset = first_value(order, options, 14, bytes(8))
    return Description(link, snaplen, first_value(order, options, 9, b"\6")[0], swapped(order, offset), OTHERS)


def swapped(order, value):
    return value if order == ">" else value[::-1]


def text_of(order, it):
    """Returns a description as a block. Microseconds and no offset need no option."""
    options = b""
    if it.resolution != 6:
        options += struct.pack(order + "HHB3x", 9, 1, it.resolution)
    if it.offset != bytes(8):
        options += struct.pack(order + "HH", 14, 8) + swapped(order, it.offset)
    body = struct.pack(order + "HHI", it.link, 0, it.snaplen) + options + bytes(4 * bool(options))
    return block(order, INTERFACE, body)


def block(order, number, body):
    return struct.pack(order + "II", number, len(body) + 12) + body + struct.pack(order + "I", len(body) + 12)


def interface_of(it):
    """Returns the interface of a packet or of statistics, or None."""
    if len(it.body) < 4 or it.type not in (OBSOLETE, SIMPLE, ENHANCED, STATISTICS):
        return None
    return 0 if it.type == SIMPLE else struct.unpack_from(it.order + ("H" if it.type == OBSOLETE else "I"), it.body)[0]


class Section:
    """What is known of the interfaces of a section, and the last report on it."""

    def __init__(self, supposed):
        self.supposed = supposed
        self.begin()

    def begin(self):
        self.count, self.common, self.first, self.is_disputed, self.reported = 0, None, None, False, None

    def add(self, found):
        both = found and self.common
        if both and self.common != "different" and self.common._replace(snaplen=0, how="") == found._replace(snaplen=0, how=""):
            self.common = found._replace(snaplen=found.snaplen if found.snaplen == self.common.snaplen else 0)
        else:
            self.common = found if found and not self.common else "different"
        self.count += 1
        self.is_disputed = self.first is not None and self.common == "different"

    def follow(self, it):
        if it.type == SECTION:
            self.begin()
        elif it.type == INTERFACE:
            self.add(description_in(it.order, it.body))

    def fate(self, number):
        """Returns what becomes of a block of this interface, or None if the interface is described: a description or a key of FATES."""
        if number < self.count:
            return "disputed" if self.is_disputed and number >= self.first else None
        if not self.common and not self.supposed:
            return "kept"
        if number >= self.count + MOST:
            return "high"
        return "differ" if self.common == "different" else self.common or self.supposed

    def judge(self, it):
        """Returns whether a block is kept, the message before it, and the descriptions before it."""
        number = interface_of(it)
        fate = None if number is None else self.fate(number)
        if fate is None or fate == "kept" and self.reported:
            return True, "", b""
        if isinstance(fate, Description):
            first, self.first, self.common = self.count, self.count if self.first is None else self.first, fate
            self.count = number + 1
            said = f"a description of link type {fate.link}{fate.how} is written before it"
            return True, f"interface {number} is not described: {said}", text_of(it.order, fate) * (self.count - first)
        is_kept, is_new = fate == "kept", self.reported != (number, fate == "kept")
        self.reported = number, is_kept
        return is_kept, f"interface {number} is not described: {FATES[fate]}" if is_new else "", b""


def outcome_of(said):
    """Returns what a message makes of the next block, as the status of a repair of it alone."""
    if "guess" in said:
        return GUESSED
    return REPAIRED if "is written" in said else DONE


def settled(items, size, supposed=None):
    """Yields the blocks of a capture of this size, their changes, the gaps between them, what undescribed interfaces become, and where blocks
    are left out. These have no number."""
    section, gone, gap, is_over = Section(supposed), 0, None, False
    for at, it in enumerate(items):
        if is_over:
            break
        is_torn = isinstance(it, as_is.Mending) and it.length is None
        judged = items[at + 1] if is_torn else it
        kept, said, text = section.judge(judged) if isinstance(judged, as_is.Block) else (True, "", b"")
        is_silent = isinstance(it, as_is.Block) and not kept and not said
        if gap and not is_silent:
            yield gap
            gap = None
        if said:
            yield Described(f"block {it.number - gone} at byte {it.place}: {said}", outcome_of(said), text)
        if is_torn and not kept:
            yield as_is.Gap(it.place, size - it.place, "of a block that is cut short", None)
            is_over = True
        elif isinstance(it, as_is.Block) and not kept:
            length = len(it.body) + 12
            gap = as_is.Gap(gap.place if gap else it.place, length + (gap.size if gap else 0), "blocks of an interface that is not described", None)
            gone += 1
            yield LeftOut()
        elif isinstance(it, as_is.Gap):
            yield it
        elif isinstance(it, as_is.Mending):
            yield it._replace(number=it.number - gone)
        else:
            section.follow(it)
            same = copy.copy(it)
            same.number -= gone
            yield same
    if gap:
        yield gap
