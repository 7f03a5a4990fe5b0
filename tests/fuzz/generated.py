"""Makes random captures of both formats, sound and damaged, and finds the packets of sound ones as a reader made with struct does."""
import collections
import glob
import os
import struct

SECTION, INTERFACE, OBSOLETE, SIMPLE, NAMES, STATISTICS, ENHANCED, JOURNAL, SECRETS = 0x0A0D0D0A, 1, 2, 3, 4, 5, 6, 9, 10
MICROSECONDS, NANOSECONDS = 0xA1B2C3D4, 0xA1B23C4D
MAGICS = {struct.pack(order + "I", magic): (order, magic) for order in "<>" for magic in (MICROSECONDS, NANOSECONDS)}
ORDERS = {b"\x4d\x3c\x2b\x1a": "<", b"\x1a\x2b\x3c\x4d": ">"}
LONGEST = 262144
# Numbers at which the formats or their readers change their behaviour.
EDGES = [0, 1, 3, 4, 7, 8, 11, 12, 16, 20, 28, 32, 255, 256, 65535, 65536, 999_999, 1_000_000, 4_294_967, 4_294_968, LONGEST - 1, LONGEST,
         LONGEST + 1, 524_320, 524_324, 16_777_216, 16_777_217, 999_999_999, 1_000_000_000, 2**31 - 1, 2**31, 2**32 - 4, 2**32 - 1]
TEXTS = [b"", b"hello", "f\u00fcr \u202e\u2028\ufeff".encode(), b"\x1b[31m", b"\xff\xfe", b"\x9b31m", b'"q\\"\n\r\t', b"\xed\xa0\x80", b"x" * 300]
# The time of a packet in nanoseconds since 1970, its length on the wire, its stored bytes, and its link type.
Packet = collections.namedtuple("Packet", "time wire data link")


def block(order, number, body):
    body += bytes(-len(body) % 4)
    length = struct.pack(order + "I", len(body) + 12)
    return struct.pack(order + "I", number) + length + body + length


def option(order, code, value):
    return struct.pack(order + "HH", code, len(value)) + value + bytes(-len(value) % 4)


def classic(order, magic, link, packets):
    """Returns a classic capture of packets whose times its unit of time can express."""
    unit = 1 if magic == NANOSECONDS else 1000
    capture = struct.pack(order + "IHHiIII", magic, 2, 4, 0, 0, LONGEST, link)
    for packet in packets:
        seconds, rest = divmod(packet.time, 10**9)
        capture += struct.pack(order + "IIII", seconds, rest // unit, len(packet.data), packet.wire) + packet.data
    return capture


def blocks(order, resolution, packets):
    """Returns a PcapNg capture of one section, with an interface for each link type of the packets, or one interface if there are no packets."""
    links = sorted({packet.link for packet in packets}) or [1]
    capture = block(order, SECTION, struct.pack(order + "IHHq", 0x1A2B3C4D, 1, 0, -1))
    for link in links:
        capture += block(order, INTERFACE, struct.pack(order + "HHI", link, 0, 0) + option(order, 9, bytes([resolution])) + option(order, 0, b""))
    for packet in packets:
        units = packet.time * 10**resolution // 10**9
        head = struct.pack(order + "IIIII", links.index(packet.link), units >> 32, units & 0xFFFFFFFF, len(packet.data), packet.wire)
        capture += block(order, ENHANCED, head + packet.data)
    return capture


def packets(random, unit, links):
    """Returns packets with times that are whole multiples of `unit` nanoseconds, in the order of time or in none."""
    count, time, found = random.choice([0, 1, 2, 5, 20, 80]), 1_700_000_000 * 10**9, []
    is_ordered = random.random() < 0.7
    for _ in range(count):
        time += random.choice([0, 1, unit, 10**6, 10**9]) * random.randrange(3) if is_ordered else random.randrange(-(10**9), 10**9)
        length = random.choice([0, 1, 4, 60, 61, 200, 1500])
        found.append(Packet(time // unit * unit, length + random.choice([0, 0, 7]), random.randbytes(length), random.choice(links)))
    return found


def sound(random):
    """Returns a sound capture, and its packets. A classic one has one link type."""
    order = random.choice("<>")
    if random.random() < 0.5:
        magic, link = random.choice([MICROSECONDS, NANOSECONDS]), random.choice([1, 101, 113])
        found = packets(random, 1 if magic == NANOSECONDS else 1000, [link])
        return classic(order, magic, link, found), found
    resolution = random.choice([6, 9])
    found = packets(random, 10 ** (9 - resolution), random.choice([[1], [1, 113]]))
    return blocks(order, resolution, found), found


def odd_block(random, order):
    """Returns a block of any kind, with options that may be odd."""
    options = b"".join(option(order, random.choice([1, 2, 3, 4, 5, 9, 14, 2988, 2989, 0x7777]), random.choice(TEXTS + [bytes([9]), bytes(8)]))
                       for _ in range(random.choice([0, 0, 1, 3]))) + option(order, 0, b"") * random.randrange(2)
    units, length = random.choice([0, 2**64 - 1, 1_700_000_000 * 10**6]), random.choice([0, 1, 5, 60])
    data = random.randbytes(length)
    numbers = (random.choice([0, 0, 1, 2**32 - 1]), units >> 32, units & 0xFFFFFFFF, length, length + random.choice([0, 9]))
    bodies = [
        (SECTION, struct.pack(order + "IHHq", 0x1A2B3C4D, random.choice([1, 2]), 0, random.choice([-1, 0, 100])) + options),
        (INTERFACE, struct.pack(order + "HHI", random.choice([1, 113, 65535]), 0, random.choice([0, 10, 65535])) + options),
        (ENHANCED, struct.pack(order + "IIIII", *numbers) + data + bytes(-length % 4) + options),
        (OBSOLETE, struct.pack(order + "HHIIII", numbers[0] & 0xFFFF, 0, *numbers[1:]) + data + bytes(-length % 4) + options),
        (SIMPLE, struct.pack(order + "I", random.choice([0, 4, 60, 2**32 - 1])) + data),
        (NAMES, struct.pack(order + "HH", 1, random.choice([5, 6, 8])) + b"\1\2\3\4ab\0\0" + bytes(4) * random.randrange(2) + options),
        (STATISTICS, struct.pack(order + "III", 0, 5, 5) + option(order, random.choice([2, 4, 5]), bytes(random.choice([3, 8]))) + options),
        (JOURNAL, b"A=B\n\xff"),
        (SECRETS, struct.pack(order + "II", 0x544C534B, 3) + b"abc"),
        (random.choice([0x0BAD, 0x40000BAD, 0x80000001, 0, 2**32 - 1]), random.randbytes(random.randrange(40))),
    ]
    return block(order, *random.choice(bodies))


def odd(random):
    """Returns a capture of blocks of any kind, in several sections."""
    capture = b""
    for _ in range(random.choice([1, 1, 2, 3])):
        order = random.choice("<>")
        capture += block(order, SECTION, struct.pack(order + "IHHq", 0x1A2B3C4D, 1, 0, -1))
        capture += b"".join(odd_block(random, order) for _ in range(random.choice([0, 1, 4, 20])))
    return capture


def items(capture):
    """Yields (offset, order, offsets of its lengths) of each packet or block with a sound frame, up to the first that has none."""
    if capture[:4] in MAGICS:
        order, at = MAGICS[capture[:4]][0], 24
        while at + 16 <= len(capture):
            yield at, order, (8, 12)
            at += 16 + struct.unpack_from(order + "I", capture, at + 8)[0]
        return
    order, at = "<", 0
    while at + 12 <= len(capture):
        if capture[at : at + 4] == b"\x0a\x0d\x0d\x0a":
            order = ORDERS.get(capture[at + 8 : at + 12], order)
        length = struct.unpack_from(order + "I", capture, at + 4)[0]
        if length < 12 or length % 4 or at + length > len(capture):
            return
        yield at, order, (4, length - 4)
        at += length


def damaged(random, capture, others):
    """Returns the capture with one thing wrong."""
    if not capture:
        return random.randbytes(random.randrange(40))
    at, known = random.randrange(len(capture)), list(items(capture))
    ways = ["flip", "byte", "number", "insert", "delete", "repeat", "cut", "join", "magic"] + ["length"] * 3 * bool(known)
    match random.choice(ways):
        case "flip":
            return capture[:at] + bytes([capture[at] ^ 1 << random.randrange(8)]) + capture[at + 1 :]
        case "byte":
            return capture[:at] + random.choice([b"\0", b"\xff", b"\x7f", b"\x80"]) + capture[at + 1 :]
        case "number":
            return capture[:at] + struct.pack(random.choice("<>") + "I", random.choice(EDGES)) + capture[at + 4 :]
        case "insert":
            return capture[:at] + random.randbytes(random.choice([1, 3, 4, 16, 300, 3000])) + capture[at:]
        case "delete":
            return capture[:at] + capture[at + random.choice([1, 4, 16, 100]) :]
        case "repeat":
            return capture[:at] + capture[at : at + random.randrange(200)] + capture[at:]
        case "cut":
            return capture[:at]
        case "join":
            return capture + random.choice(others)
        case "magic":
            return random.choice([*MAGICS, b"\x0a\x0d\x0d\x0a", b"\x34\xcd\xb2\xa1", bytes(4)]) + capture[4:]
        case "length":
            place, order, offsets = random.choice(known)
            at = place + random.choice(offsets)
            return capture[:at] + struct.pack(order + "I", random.choice(EDGES)) + capture[at + 4 :]


def any_capture(random, stored):
    """Returns a capture that may have anything wrong."""
    capture = random.choice([lambda: sound(random)[0], lambda: odd(random), lambda: random.choice(stored)])()
    for _ in range(random.choice([0, 1, 1, 2, 3, 6])):
        capture = damaged(random, capture, stored)
    return capture[: 1 << 17]


def stored(folders):
    """Returns the captures of these folders that are small enough to be tried often."""
    paths = sorted(path for folder in folders for path in glob.glob(f"{folder}/**/*", recursive=True))
    small = [path for path in paths if os.path.isfile(path) and os.path.getsize(path) < 20_000]
    return [open(path, "rb").read() for path in small if not path.endswith((".json", ".py", ".txt"))]
