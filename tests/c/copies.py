"""copies.py PROGRAM: gives tests/c/copies captures with every kind of block and option, and compares the copies with them.

Each capture is made here from numbers and texts, in both byte orders. Its interfaces begin with their clock, as the library writes them.
The copies must have the same bytes. A capture of random options of any codes and lengths follows.
"""

import random
import struct
import subprocess
import sys

# Options of each type of block, without the mark: the code, and the value or the form of a number.
OF_ALL = [(1, b"a comment"), (2988, b"\1\2\3\4text"), (2989, b"\1\2\3\4bytes"), (19372, b"\1\2\3\4x"), (19373, b"\1\2\3\4"), (40000, b"unknown")]
SECTION = [(2, b"hardware"), (3, b"system"), (4, b"program")]
INTERFACE = [
    (2, b"eth0"), (3, b"description"), (4, bytes(8)), (5, bytes(17)), (6, b"sixbyt"), (7, b"eightbyt"), (8, 8), (10, 4), (11, b"\0filter"),
    (12, b"Linux"), (13, b"\4"), (15, b"hardware"), (16, 8), (17, 8), (18, b"UTC"),
]  # fmt: skip
PACKET = [(2, 4), (3, b"\2hash"), (4, 8), (5, 8), (6, 4), (7, b"\0verdict"), (8, 8)]
OLD_PACKET = [(2, 4), (3, b"\2hash")]
NAMES = [(2, b"server"), (3, bytes(4)), (4, bytes(16))]
STATISTICS = [(2, bytes(8)), (3, bytes(8)), (4, 8), (5, 8), (6, 8), (7, 8), (8, 8)]


class Capture:
    """The bytes of a capture in a byte order."""

    def __init__(self, mark):
        self.mark, self.data = mark, b""

    def number(self, width, n):
        return struct.pack(self.mark + {2: "H", 4: "I", 8: "Q"}[width], n)

    def option(self, code, value):
        if isinstance(value, int):
            value = self.number(value, code)
        return self.number(2, code) + self.number(2, len(value)) + value + bytes(-len(value) % 4)

    def options(self, options):
        return b"".join(self.option(*each) for each in options) + (bytes(4) if options else b"")

    def block(self, kind, body):
        length = self.number(4, len(body) + 12)
        self.data += self.number(4, kind) + length + body + length

    def section(self, options):
        self.block(0x0A0D0D0A, self.number(4, 0x1A2B3C4D) + self.number(2, 1) + self.number(2, 0) + b"\xff" * 8 + self.options(options))

    def interface(self, options, clock=((9, b"\6"),)):
        self.block(1, self.number(2, 1) + bytes(2) + self.number(4, 96) + self.options([*clock, *options]))

    def stored(self, data):
        return self.number(4, 7) + self.number(4, 8) + self.number(4, len(data)) + self.number(4, 98) + data + bytes(-len(data) % 4)

    def packet(self, data, options):
        self.block(6, self.number(4, 0) + self.stored(data) + self.options(options))

    def names(self, options):
        record = self.number(2, 1) + self.number(2, 9) + b"\x7f\0\0\1host\0" + bytes(3)
        self.block(4, record + bytes(4) + self.options(options))


def every(mark):
    """Returns a capture with every kind of block, without options and with all of them."""
    capture = Capture(mark)
    for options in (False, True):
        wanted = lambda of: [*of, *OF_ALL] if options else []
        capture.section(wanted(SECTION))
        capture.interface(wanted(INTERFACE))
        capture.interface(wanted(INTERFACE), ((9, b"\x8a"), (14, capture.number(8, 2**64 - 7))))
        for length in range(5):
            capture.packet(b"abcd"[:length], wanted(PACKET)[length:])
        capture.block(2, capture.number(2, 1) + capture.number(2, 9) + capture.stored(b"abc") + capture.options(wanted(OLD_PACKET)))
        capture.block(3, capture.number(4, 3) + b"abc\0")
        capture.names(wanted(NAMES))
        capture.block(5, capture.number(4, 1) + bytes(8) + capture.options(wanted(STATISTICS)))
        capture.block(9, b"entry=1\n")
        capture.block(10, b"KSLT" + capture.number(4, 6) + b"secret\0\0" + capture.options(wanted([])))
        capture.block(0x00000BAD, b"\1\2\3\4custom\0\0")
        capture.block(0x40000BAD, b"")
        capture.block(77, bytes(range(256)))
    return capture.data


def mixed(seed):
    """Returns a capture of packets and names with random options, most of which no draft defines."""
    made, capture = random.Random(seed), Capture("<>"[seed % 2])
    any_options = lambda: [(made.randrange(3000, 19000), made.randbytes(made.choice([0, 1, 2, 3, 4, 5, 60, 65535]))) for _ in range(made.randrange(5))]
    capture.section(any_options())
    for _ in range(8):
        capture.interface(any_options())
        capture.packet(made.randbytes(made.randrange(9)), any_options())
        capture.names(any_options())
        capture.block(made.randrange(100, 2**32), made.randbytes(4 * made.randrange(9)))
    return capture.data


def main():
    captures = {"every little": every("<"), "every big": every(">"), **{f"mixed {seed}": mixed(seed) for seed in range(8)}}
    for name, data in captures.items():
        done = subprocess.run([sys.argv[1]], input=data, capture_output=True, check=False)
        if done.returncode != 0 or done.stdout != data:
            sys.exit(f"copies.py: {name}: the copy differs, or status {done.returncode}")


main()
