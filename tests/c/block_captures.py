"""block_captures.py FOLDER: writes small PcapNg captures, sound and malformed, into the folder. Beside each sound one it writes the
lines that `blocks -p` must print for it, in a file NAME.packets."""

import struct
import sys
from fractions import Fraction
from pathlib import Path

BIG, LITTLE = ">", "<"


class Made:
    """A capture, and the lines of its packets."""

    def __init__(self, order=LITTLE):
        self.order, self.data, self.lines, self.count, self.interfaces = order, b"", [], 0, []

    def block(self, number, body):
        body += bytes(-len(body) % 4)
        length = struct.pack(self.order + "I", len(body) + 12)
        self.data += struct.pack(self.order + "I", number) + length + body + length
        self.count += 1
        return self

    def option(self, code, value):
        return struct.pack(self.order + "HH", code, len(value)) + value + bytes(-len(value) % 4)

    def section(self, order=None, options=()):
        self.order, self.interfaces = order or self.order, []
        body = struct.pack(self.order + "IHHq", 0x1A2B3C4D, 1, 0, -1) + b"".join(self.option(*o) for o in options)
        return self.block(0x0A0D0D0A, body)

    def interface(self, link=1, snaplen=262144, resolution=None, offset=None, options=()):
        options = [*options]
        if resolution is not None:
            options.append((9, bytes([resolution])))
        if offset is not None:
            options.append((14, struct.pack(self.order + "q", offset)))
        exponent = 6 if resolution is None else resolution
        unit = Fraction(1, 2 ** (exponent - 128) if exponent >= 128 else 10**exponent)
        self.interfaces.append((link, unit, offset or 0))
        body = struct.pack(self.order + "HHI", link, 0, snaplen) + b"".join(self.option(*o) for o in options)
        return self.block(1, body)

    def line(self, number, ticks, original, data, has_time=True):
        told = "none none"
        if number < len(self.interfaces):
            link, unit, offset = self.interfaces[number]
            nanoseconds = int(ticks * unit * 10**9)
            seconds = nanoseconds // 10**9 + offset
            fits = has_time and -(2**63) <= seconds < 2**63
            told = f"{seconds}.{nanoseconds % 10**9:09} {link}" if fits else f"none {link}"
        self.lines.append(f"{self.count} {number} {ticks} {told} {len(data)}/{original} {data.hex()}")

    def enhanced(self, number, ticks, data, original=None, options=()):
        original = len(data) if original is None else original
        self.line(number, ticks, original, data)
        head = struct.pack(self.order + "IIIII", number, ticks >> 32, ticks & 0xFFFFFFFF, len(data), original)
        return self.block(6, head + data + bytes(-len(data) % 4) + b"".join(self.option(*o) for o in options))

    def old(self, number, ticks, data, options=()):
        self.line(number, ticks, len(data), data)
        head = struct.pack(self.order + "HHIIII", number, 3, ticks >> 32, ticks & 0xFFFFFFFF, len(data), len(data))
        return self.block(2, head + data + bytes(-len(data) % 4) + b"".join(self.option(*o) for o in options))

    def simple(self, data, original):
        self.line(0, 0, original, data, has_time=False)
        return self.block(3, struct.pack(self.order + "I", original) + data)

    def refused(self, number, body):
        """Adds a block whose body can't be read. It has no line."""
        return self.block(number, body)


def good():
    for name, order in (("big", BIG), ("little", LITTLE)):
        made = Made(order).section().interface().enhanced(0, 1_335_958_313_152_630, b"abcde", 98)
        yield f"packets_{name}", made.simple(b"xyz", 3).old(0, 7_000_001, b"q")
    made = Made().section().interface(snaplen=6).simple(b"snaple", 60)
    yield "cut_packets", made.section().simple(b"no interface", 12)
    made = Made().section(options=[(1, b"made"), (4, b"by hand")]).interface(resolution=9, options=[(2, b"eth0"), (1, b"hm")])
    yield "options", made.enhanced(0, 5, b"ab", options=[(1, b"seen"), (2, bytes(4)), (4, bytes(8))]).old(0, 1, b"", [(3, b"\0h")])
    made = Made().section().interface(resolution=0x8A, offset=-3600).interface(link=113, resolution=3, offset=10)
    yield "units", made.enhanced(0, 2048 + 511, b"a").enhanced(1, 12345, b"b").enhanced(7, 9, b"c")
    yield "far_times", Made().section().interface(resolution=0).interface(offset=2**63 - 1).enhanced(0, 2**64 - 1, b"").enhanced(1, 10**6, b"")
    made = Made().section().interface().enhanced(0, 1, b"one").section(BIG).interface(link=101, snaplen=60)
    yield "two_sections", made.enhanced(0, 2, b"two").section(LITTLE).enhanced(0, 3, b"three")
    made = Made().section().interface().block(4, struct.pack("<HH", 0, 0)).block(5, bytes(12)).block(9, b"A=1\n")
    yield "other_blocks", made.block(0x0BAD, b"what").block(0x80000001, b"").enhanced(0, 1, b"z")
    made = Made(BIG).section().interface()
    records = made.option(1, b"\x7f\0\0\1localhost\0me\0") + made.option(9, b"other") + bytes(4)
    yield "names", made.block(4, records + made.option(6, b"!")).enhanced(0, 1, b"z")
    made = Made().section().interface().refused(6, bytes(16)).refused(3, bytes(0)).refused(5, bytes(8))
    made = made.refused(6, bytes(20) + made.option(1, b"\xff\xfe")).refused(6, bytes(20) + made.option(2989, b"ab"))
    made.enhanced(0, 2, b"a").enhanced(0, 3, b"b").refused(6, bytes(16)).enhanced(0, 4, b"c")
    yield "refused_bodies", made.refused(4, struct.pack("<HH", 1, 3) + b"abcd").enhanced(0, 1, b"z")
    made = Made().section().interface()
    for n in range(300):
        made.enhanced(0, n * 10**6, bytes([n % 256]) * (n % 9))
    yield "many", made
    yield "section_alone", Made(BIG).section()


def bad():
    begun = lambda: Made().section().interface().enhanced(0, 1, b"good")
    head = begun().data
    yield "bad_lengths", head + struct.pack("<III", 1, 16, 0) + struct.pack("<I", 20)
    yield "bad_unaligned", head + struct.pack("<III", 6, 17, 0) + bytes(8)
    yield "bad_short", head + struct.pack("<III", 6, 8, 8)
    yield "bad_magic", head + struct.pack("<III", 0x0A0D0D0A, 28, 7) + bytes(16)
    yield "bad_interface", begun().block(1, bytes(4)).data
    yield "bad_string", begun().interface(options=[(2, b"\xff")]).data
    yield "bad_value", begun().interface(options=[(2989, b"ab")]).data
    yield "bad_option", begun().interface(options=[(9, b"ab")]).data
    yield "bad_section", begun().section(options=[(1, b"\xff")]).data
    yield "no_section", b"\x0a\x0d\x0d\x0a" + b"\xd4\xc3\xb2\xa1" * 6
    yield "torn", begun().data[:-3]


folder = Path(sys.argv[1])
for name, made in good():
    (folder / f"{name}.pcapng").write_bytes(made.data)
    (folder / f"{name}.pcapng.packets").write_text("".join(f"{line}\n" for line in made.lines))
for name, data in bad():
    (folder / f"{name}.pcapng").write_bytes(data)
