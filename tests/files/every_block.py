"""Makes captures with every block and every option of the draft, in either byte order."""
import struct

SECTION, INTERFACE, OBSOLETE, SIMPLE, NAMES, STATISTICS, ENHANCED, JOURNAL, SECRETS = 0x0A0D0D0A, 1, 2, 3, 4, 5, 6, 9, 10
CUSTOM, CUSTOM_UNCOPIED, UNKNOWN = 0xBAD, 0x40000BAD, 0x1234
ETHERNET, RAW = 1, 101
# 2023-11-14 22:13:20 UTC.
START = 1_700_000_000


class Maker:
    """Makes blocks in one byte order."""

    def __init__(self, order):
        self.order = order

    def pack(self, form, *numbers):
        return struct.pack(self.order + form, *numbers)

    def block(self, number, body):
        body += bytes(-len(body) % 4)
        length = self.pack("I", len(body) + 12)
        return self.pack("I", number) + length + body + length

    def options(self, *options):
        """Returns a list of options, each a code and its value."""
        texts = (self.pack("HH", code, len(value)) + value + bytes(-len(value) % 4) for code, value in options)
        return b"".join(texts) + bytes(4)

    def any_options(self):
        """Returns the options that each block may have: a comment, and custom ones with texts and bytes, to copy or not."""
        number = self.pack("I", 32473)
        return [(1, "naïve".encode()), (2988, number + b"text"), (2989, number + b"\xff\x00"), (19372, number + b"text"), (19373, number + b"\xff")]

    def section(self, comment):
        head = self.pack("IHHq", 0x1A2B3C4D, 1, 0, -1)
        return self.block(SECTION, head + self.options((1, comment), (2, b"hardware"), (3, b"system"), (4, b"program"), *self.any_options()))

    def interface(self, link, *more):
        every = [
            (2, b"eth0"), (3, b"an interface"), (4, bytes([192, 0, 2, 1, 255, 255, 255, 0])), (5, bytes(16) + b"\x40"), (6, b"\0\1\2\3\4\5"),
            (7, b"\0\1\2\3\4\5\6\7"), (8, self.pack("Q", 10**9)), (10, self.pack("I", 1)), (11, b"\0udp"), (12, b"Linux"), (13, b"\x20"),
            (15, b"hardware"), (16, self.pack("Q", 1)), (17, self.pack("Q", 2)), *more,
        ]
        return self.block(INTERFACE, self.pack("HHI", link, 0, 262144) + self.options(*self.any_options(), *every))

    def enhanced(self, interface, units, data, *options):
        head = self.pack("IIIII", interface, units >> 32, units & 0xFFFFFFFF, len(data), len(data) + 4)
        return self.block(ENHANCED, head + data + bytes(-len(data) % 4) + (self.options(*options) if options else b""))

    def obsolete(self, interface, units, data):
        head = self.pack("HHIIII", interface, 0, units >> 32, units & 0xFFFFFFFF, len(data), len(data))
        return self.block(OBSOLETE, head + data + bytes(-len(data) % 4) + self.options((1, b"old"), (2, self.pack("I", 1)), (3, b"\2\1\2\3\4")))

    def packet_options(self):
        pack = self.pack
        return [
            *self.any_options(), (2, pack("I", 0x203)), (3, b"\2\1\2\3\4"), (4, pack("Q", 7)), (5, pack("Q", 1 << 40)), (6, pack("I", 3)),
            (7, b"\0verdict"), (7, b"\1" + pack("Q", 5)), (7, b"\2" + pack("Q", 2)), (8, pack("II", 4711, 4712)),
        ]

    def names(self, name):
        records = self.pack("HH", 1, 4 + len(name) + 1) + b"\xc0\0\2\1" + name + b"\0" + bytes(-(len(name) + 5) % 4)
        records += self.pack("HH", 2, 16 + len(name) + 1) + bytes(15) + b"\1" + name + b"\0" + bytes(-(len(name) + 17) % 4)
        server = (2, b"dns"), (3, b"\xc0\0\2\2"), (4, bytes(16))
        return self.block(NAMES, records + bytes(4) + self.options(*self.any_options(), *server))

    def secrets(self, secret):
        body = self.pack("II", 0x544C534B, len(secret)) + secret + bytes(-len(secret) % 4)
        return self.block(SECRETS, body + self.options(*self.any_options()))

    def statistics(self, interface):
        counts = [(code, self.pack("Q", code)) for code in (4, 5, 6, 7, 8)]
        times = [(code, self.pack("II", 0, code)) for code in (2, 3)]
        return self.block(STATISTICS, self.pack("III", interface, 0, 5) + self.options(*self.any_options(), *times, *counts))

    def others(self):
        number = self.pack("I", 32473)
        yield self.block(JOURNAL, b"__REALTIME_TIMESTAMP=1\nMESSAGE=text\n")
        yield self.block(CUSTOM, number + b"data")
        yield self.block(CUSTOM_UNCOPIED, number + b"data")
        yield self.block(UNKNOWN, b"of no known type")


def section_of(maker, number):
    """Yields a section: packets with every option, and every other block before, between and after them."""
    clock = START * 10**6 + number
    nanoseconds = START * 10**9
    yield maker.section(f"section {number}".encode())
    yield maker.interface(ETHERNET)
    yield maker.secrets(b"CLIENT_RANDOM 1 2\n")
    yield maker.names(b"first")
    for k in range(3):
        yield maker.enhanced(0, clock + k, bytes([k]) * (14 + k), *maker.packet_options())
    yield from maker.others()
    yield maker.obsolete(0, clock + 3, b"obsolete packet")
    yield maker.block(SIMPLE, maker.pack("I", 16) + b"a simple packet.")
    yield maker.statistics(0)
    yield maker.interface(ETHERNET, (9, b"\x09"), (14, maker.pack("Q", 0)))
    yield maker.interface(RAW, (9, b"\x09"))
    yield maker.secrets(b"CLIENT_RANDOM 3 4\n")
    yield maker.names(b"second")
    for k in range(4, 8):
        yield maker.enhanced(1 + k % 2, nanoseconds + k, bytes([k]) * (20 + k), *maker.packet_options()[: k - 4])
    yield maker.statistics(1)
    yield from maker.others()


def capture_of(orders):
    """Returns a capture with a section in each of these byte orders, and one without a packet at its end."""
    found = [text for number, order in enumerate(orders) for text in section_of(Maker(order), number)]
    return b"".join([*found, Maker(orders[0]).section(b"the last section")])
