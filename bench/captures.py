"""Makes captures and block bodies to measure on: the same bytes in each run."""

import os
import random
import struct

SIZES = (60, 66, 90, 154, 342, 590, 1514)
WEIGHTS = (30, 25, 15, 10, 8, 4, 8)


def mixed(chance):
    """Returns a size of a packet, about 250 bytes on average."""
    return chance.choices(SIZES, WEIGHTS)[0] + chance.randrange(100)


def larger(chance):
    """Returns a size with which a million packets take half a gigabyte."""
    return mixed(chance) + 200


def sized(size):
    return lambda _: size


def packets(count, size, longest):
    """Yields the time in microseconds and the data of each packet."""
    chance = random.Random(1)
    filler = chance.randbytes(longest + 2048)
    for k in range(count):
        start = chance.randrange(2048)
        yield 1_600_000_000_000_000 + k * 1000, filler[start : start + size(chance)]


def write_pcap(path, count, size=mixed, order="<", longest=2048):
    """Writes a capture in microseconds."""
    head = struct.Struct(order + "IIII")
    with open(path, "wb") as out:
        out.write(struct.pack(order + "IHHiIII", 0xA1B2C3D4, 2, 4, 0, 0, 65535, 1))
        for time, data in packets(count, size, longest):
            out.write(head.pack(time // 1_000_000, time % 1_000_000, len(data), len(data)) + data)


def read_back(path):
    """Removes a file from the cache and reads it. So it is in the cache as a file that was read from the disk, and not in as many pieces
    as it was written in."""
    with open(path, "rb", buffering=0) as file:
        os.fsync(file.fileno())
        os.posix_fadvise(file.fileno(), 0, 0, os.POSIX_FADV_DONTNEED)
        while file.read(1 << 20):
            pass


def option(code, value):
    return struct.pack("<HH", code, len(value)) + value + bytes(-len(value) % 4)


END = option(0, b"")


def block(kind, body):
    length = struct.pack("<I", len(body) + 12)
    return struct.pack("<I", kind) + length + body + length


def enhanced(time, data, options=b""):
    head = struct.pack("<IIIII", 0, time >> 32, time & 0xFFFFFFFF, len(data), len(data))
    return head + data + bytes(-len(data) % 4) + options


def write_pcapng(path, count, size=mixed, longest=2048):
    """Writes a section, an interface, and an enhanced packet for each packet. Every 16th has an option."""
    flags = option(2, struct.pack("<I", 1)) + END
    with open(path, "wb") as out:
        out.write(block(0x0A0D0D0A, struct.pack("<IHHq", 0x1A2B3C4D, 1, 0, -1)))
        out.write(block(1, struct.pack("<HHI", 1, 0, 65535)))
        for k, (time, data) in enumerate(packets(count, size, longest)):
            out.write(block(6, enhanced(time, data, b"" if k % 16 else flags)))


def record(kind, value):
    return struct.pack("<HH", kind, len(value)) + value + bytes(-len(value) % 4)


def bodies(count=64):
    """Returns this many bodies of each kind: the call that parses them, what they have, and a function that makes one."""
    chance = random.Random(5)

    def text(length):
        return bytes(chance.choice(b"abcdefghij klmno") for _ in range(length))

    def names(length):
        return b"".join(text(12).replace(b" ", b".") + b"\0" for _ in range(length))

    def packet(options):
        return enhanced(chance.randrange(1 << 50), chance.randbytes(chance.randrange(60, 600)), options)

    flags = option(2, b"\1\0\0\0")
    three = option(1, text(20)) + flags + option(4, chance.randbytes(8)) + END
    custom = option(2988, chance.randbytes(4) + text(12)) + option(2989, chance.randbytes(14))
    eight = option(3, chance.randbytes(17)) + custom + option(77, chance.randbytes(9)) + option(1, text(33)) + three
    described = option(2, text(20)) + option(3, text(30)) + option(4, text(25)) + END
    kinds = [
        ("enhanced", "no option", lambda: packet(b"")),
        ("enhanced", "1 option", lambda: packet(flags + END)),
        ("enhanced", "3 options", lambda: packet(three)),
        ("simple", "100 bytes", lambda: struct.pack("<I", 100) + chance.randbytes(100)),
        ("section", "3 options", lambda: struct.pack("<IHHq", 0x1A2B3C4D, 1, 0, -1) + described),
        ("interface", "3 options", lambda: struct.pack("<HHI", 1, 0, 65535) + option(2, text(8)) + option(9, b"\6") + option(12, text(40)) + END),
        ("statistics", "2 options", lambda: struct.pack("<III", 0, 5, 6) + option(2, bytes(8)) + option(4, bytes(8)) + END),
        ("options", "8 options", lambda: eight),
        ("record", "5 names", lambda: record(1, chance.randbytes(4) + names(5))),
        ("names", "2 records", lambda: record(1, chance.randbytes(4) + names(2)) + record(2, chance.randbytes(16) + names(1)) + record(0, b"")),
    ]
    return [(call, what, [make() for _ in range(count)]) for call, what, make in kinds]


def write_bodies(path, made):
    with open(path, "wb") as out:
        for body in made:
            out.write(struct.pack("<I", len(body)) + body)
