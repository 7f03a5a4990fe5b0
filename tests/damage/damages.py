"""Damages sound captures at random places, in each way that captures get damaged, and says which packets still exist.

A packet exists as long as the bytes of its time and of its data are there in one piece. Its lengths may be wrong.
"""
import struct

from captures import BILLION, MAGICS, Capture, Packet, Place, front, sound


# The size of the section header of `captures`.
SECTION_SIZE = 28


class Damaged:
    """A damaged capture. `exists` are the packets that still exist, `was` all packets before the damage, `words` the options of
    `repair` that the kind of damage needs."""

    def __init__(self, capture, words=()):
        self.bytes, self.words = bytearray(capture.bytes), words
        self.was, self.places = list(capture.packets), list(capture.places)
        self.alive = [True] * len(self.was)
        self.is_blocks, self.order = capture.is_blocks, capture.order

    @property
    def exists(self):
        return [packet for packet, is_there in zip(self.was, self.alive) if is_there]

    def spoil(self, start, end):
        """Notes that the bytes of this range changed. Only the second length of a block may change and its packet exists."""
        for at, place in enumerate(self.places):
            if place.start < end and start < place.past:
                self.alive[at] = False

    def overwrite(self, start, junk):
        self.bytes[start : start + len(junk)] = junk
        self.spoil(start, start + len(junk))

    def remove(self, start, size):
        self.spoil(start, start + size)
        del self.bytes[start : start + size]
        self.move(start + size, -size)

    def insert(self, start, junk):
        self.spoil(start, start + 1) if any(it.start < start < it.past for it in self.places) else None
        self.bytes[start:start] = junk
        self.move(start, len(junk))

    def move(self, start, by):
        self.places = [Place(*(it + by for it in place)) if place.start >= start else place for place in self.places]


def place_in(draw, it):
    """Returns a random offset behind the capture's front."""
    return draw.randrange(it.places[0].start, len(it.bytes))


def padded(size):
    return size + -size % 4


def are_options(order, left):
    """Returns whether bytes have the form of a block's options."""
    while left:
        code, size = struct.unpack_from(order + "HH", left) if len(left) >= 4 else (1, len(left))
        if code == 0:
            return True
        if 4 + padded(size) > len(left):
            return False
        left = left[4 + padded(size) :]
    return True


def is_sound(capture, place, offset, value):
    """Returns whether a block breaks no rule if its packet has this stored length at this offset. No reader can find such damage: the
    packet is one of fewer bytes, and what follows them is padding or options."""
    if not capture.is_blocks or offset != place.start + 20:
        return False
    end = place.data + padded(value)
    return end <= place.end - 4 and are_options(capture.order, bytes(capture.bytes[end : place.end - 4]))


def wrong_lengths(draw, capture, values):
    """Puts wrong values into the lengths of some packets."""
    it = Damaged(capture)
    lengths = capture.lengths()
    for at in draw.sample(range(len(lengths)), draw.randrange(1, 4)):
        offset, value = draw.choice(lengths[at]), values(draw, len(capture.packets[at].data)) & 0xFFFFFFFF
        if not is_sound(capture, capture.places[at], offset, value):
            struct.pack_into(capture.order + "I", it.bytes, offset, value)
    return it


def huge_length(draw, capture):
    return wrong_lengths(draw, capture, lambda draw, size: draw.choice((300000, 1 << 24, 1 << 31, 0xFFFFFFFF, draw.randrange(262145, 1 << 32))))


def large_length(draw, capture):
    return wrong_lengths(draw, capture, lambda draw, size: draw.choice((100000, 4000, 65535, draw.randrange(size + 1, 262145))))


def small_length(draw, capture):
    return wrong_lengths(draw, capture, lambda draw, size: draw.randrange(size) if size else 1)


def zeros(draw, capture):
    it = Damaged(capture)
    for _ in range(draw.randrange(1, 3)):
        start = place_in(draw, it)
        it.overwrite(start, bytes(min(draw.choice((512, 4096, 16384, draw.randrange(32, 30000))), len(it.bytes) - start)))
    return it


def zero_tail(draw, capture):
    it = Damaged(capture)
    start = place_in(draw, it)
    it.overwrite(start, bytes(len(it.bytes) - start + draw.choice((0, 65536))))
    return it


def removed(draw, capture):
    it = Damaged(capture)
    for _ in range(draw.randrange(1, 4)):
        start = place_in(draw, it)
        it.remove(start, min(draw.choice((1, 2, 4, 512, 1460, draw.randrange(1, 5000))), len(it.bytes) - start))
    return it


def inserted(draw, capture):
    it = Damaged(capture)
    for _ in range(draw.randrange(1, 4)):
        size = draw.choice((1, 2, 4, 512, draw.randrange(1, 5000)))
        it.insert(place_in(draw, it), draw.choice((bytes(size), draw.randbytes(size), b"text " * (size // 5 + 1))))
    return it


def garbage(draw, capture):
    it = Damaged(capture)
    for _ in range(draw.randrange(1, 4)):
        start = place_in(draw, it)
        size = min(draw.choice((1, 4, 16, 512, draw.randrange(1, 20000))), len(it.bytes) - start)
        it.overwrite(start, draw.randbytes(size))
    return it


def truncated(draw, capture):
    it = Damaged(capture)
    start = place_in(draw, it)
    it.remove(start, len(it.bytes) - start)
    return it


def concatenated(draw, capture):
    """Appends another capture, which may have another byte order or resolution."""
    order, per = draw.choice(((capture.order, capture.per), (draw.choice("<>"), draw.choice((10**6, BILLION)))))
    per = min(per, capture.per)
    second = sound(draw, order, per, capture.is_blocks, len(capture.packets) // 2)
    it = Damaged(capture)
    size = len(it.bytes)
    it.bytes += second.bytes
    it.was += second.packets
    it.places += [Place(*(number + size for number in place)) for place in second.places]
    it.alive += [True] * len(second.packets)
    return it


def header_lost(draw, capture):
    """Removes the first header, or spoils its magic number."""
    it = Damaged(capture, ("--guess", "--link", "1"))
    it.is_blocks = False
    if draw.randrange(2):
        it.remove(0, 24)
    else:
        it.bytes[:4] = draw.choice((bytes(4), draw.randbytes(4)))
    return it


def header_words(capture):
    """Returns the options that give a capture's byte order, resolution and link type."""
    order, unit = {"<": "little", ">": "big"}[capture.order], {10**6: "micro", BILLION: "nano"}[capture.per]
    return "--header", f"{order},{unit},1"


def interface_lost(draw, capture):
    """Removes or overwrites the description of the interface."""
    it = Damaged(capture, header_words(capture))
    size = it.places[0].start - SECTION_SIZE
    if draw.randrange(2):
        it.remove(SECTION_SIZE, size)
    else:
        it.overwrite(SECTION_SIZE, draw.choice((bytes(size), draw.randbytes(size))))
    return it


def section_lost(draw, capture):
    """Removes the section header, or overwrites it, or cuts the capture within the description of the interface."""
    kind = draw.randrange(3)
    it = Damaged(capture, header_words(capture) if kind == 2 else ("--guess",))
    if kind == 0:
        it.remove(0, SECTION_SIZE)
    elif kind == 1:
        it.overwrite(0, draw.choice((bytes(SECTION_SIZE), draw.randbytes(SECTION_SIZE))))
    else:
        it.remove(0, draw.randrange(SECTION_SIZE + 1, it.places[0].start))
    return it


def lines_of_text(draw, capture):
    """Replaces each line feed by a carriage return and a line feed, as a transfer of text does."""
    it = Damaged(capture, ("--guess",))
    it.bytes = it.bytes.replace(b"\n", b"\r\n")
    return it


KINDS = {
    "a huge length": huge_length,
    "a large length": large_length,
    "a small length": small_length,
    "zero bytes": zeros,
    "a zero tail": zero_tail,
    "bytes removed": removed,
    "bytes inserted": inserted,
    "random bytes": garbage,
    "truncated": truncated,
    "concatenated": concatenated,
    "header lost": header_lost,
    "LF to CRLF": lines_of_text,
    "interface lost": interface_lost,
    "section header lost": section_lost,
}
CLASSIC_ONLY = {"header lost"}
BLOCKS_ONLY = {"interface lost", "section header lost"}
