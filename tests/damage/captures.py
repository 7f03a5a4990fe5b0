"""Makes sound captures of both formats, and knows the place of each of their packets."""
import collections
import struct

ETHERNET = 1
LARGEST = 262144
# The magic numbers of classic captures, and how many units of their fraction a second has.
MAGICS = {0xA1B2C3D4: 10**6, 0xA1B23C4D: 10**9}
SECTION, INTERFACE, PACKET = 0x0A0D0D0A, 1, 6
BILLION = 10**9
# How many times as many packets a uniform capture has: 256 of them may look like one that begins a byte before.
UNIFORM = 6
# A packet: its time in nanoseconds, its length on the wire, and its data.
Packet = collections.namedtuple("Packet", "time wire data")
# The place of a packet: its first byte, the first byte of its data and the byte after them, and its end.
Place = collections.namedtuple("Place", "start data past end")


class Capture:
    """A capture: its bytes, its packets and their places. `order` is '<' or '>', and `per` is the number of units in a second."""

    def __init__(self, order, per, is_blocks):
        self.order, self.per, self.is_blocks = order, per, is_blocks
        self.bytes, self.packets, self.places = bytearray(), [], []

    def put(self, packet):
        """Appends a packet. Its time must be whole units."""
        start, units = len(self.bytes), packet.time * self.per // BILLION
        if self.is_blocks:
            head = struct.pack(self.order + "IIIII", 0, units >> 32, units & 0xFFFFFFFF, len(packet.data), packet.wire)
            self.bytes += block(self.order, PACKET, head + packet.data)
            data = start + 28
        else:
            self.bytes += struct.pack(self.order + "IIII", units // self.per, units % self.per, len(packet.data), packet.wire) + packet.data
            data = start + 16
        self.packets.append(packet)
        self.places.append(Place(start, data, data + len(packet.data), len(self.bytes)))

    def lengths(self):
        """Returns the offsets of each packet's lengths that say where it ends, and of the block's second length."""
        if self.is_blocks:
            return [(it.start + 4, it.start + 20, it.end - 4) for it in self.places]
        return [(it.start + 8,) for it in self.places]


def block(order, number, body):
    body += bytes(-len(body) % 4)
    return struct.pack(order + "II", number, len(body) + 12) + body + struct.pack(order + "I", len(body) + 12)


def front(order, per, is_blocks, link=ETHERNET, snaplen=65535):
    """Returns the bytes before the first packet."""
    if not is_blocks:
        magic = next(it for it, units in MAGICS.items() if units == per)
        return struct.pack(order + "IHHiIII", magic, 2, 4, 0, 0, snaplen, link)
    clock = struct.pack(order + "HHB3xHH", 9, 1, 9, 0, 0) if per == BILLION else b""
    section = block(order, SECTION, struct.pack(order + "IHHq", 0x1A2B3C4D, 1, 0, -1))
    return section + block(order, INTERFACE, struct.pack(order + "HHI", link, 0, snaplen) + clock)


def some_data(draw, size):
    """Returns data of one of the kinds that packets have, some of which look like heads of packets."""
    kind = draw.randrange(8)
    if kind == 0:
        return bytes(size)
    if kind == 1:
        return bytes(draw.randrange(32, 127) for _ in range(size))
    if kind == 2:
        return (struct.pack("<I", draw.randrange(1, 400)) * (size // 4 + 1))[:size]
    if kind == 3:
        return b"".join(struct.pack("<I", draw.randrange(2000)) for _ in range(size // 4 + 1))[:size]
    return draw.randbytes(min(size, 54)) + draw.choice((bytes, draw.randbytes))(max(0, size - 54))


def sound(draw, order, per, is_blocks, count, begin=None, snaplens=(65535, 262144, 96)):
    """Returns a sound capture with this many packets of the sizes that networks have. Times go on by up to two seconds."""
    made = Capture(order, per, is_blocks)
    snaplen = draw.choice(snaplens)
    made.bytes += front(order, per, is_blocks, snaplen=snaplen)
    time = begin or draw.randrange(1, 1_900_000_000) * per
    for _ in range(count):
        time += draw.randrange(2 * per) if draw.randrange(4) == 0 else draw.randrange(per // 100)
        wire = draw.choice((42, 60, 66, 66, 98, 590, 1514, draw.randrange(1, 1515)))
        made.put(Packet(time * (BILLION // per), wire, some_data(draw, min(wire, snaplen))))
    return made


def uniform(draw, order, per, is_blocks, count):
    """Returns a sound capture of many packets of one size that end in zero bytes, as short frames of Ethernet do."""
    made = Capture(order, per, is_blocks)
    made.bytes += front(order, per, is_blocks)
    time = draw.randrange(1, 1_900_000_000) * per
    size, step = draw.choice((60, 64, draw.randrange(20, 100))), draw.choice((per, draw.randrange(per)))
    for _ in range(UNIFORM * count):
        time += step
        made.put(Packet(time * (BILLION // per), size, draw.randbytes(size - 18) + bytes(18)))
    return made


def with_a_capture_in_it(draw, order, per, is_blocks, count):
    """Returns a sound capture, some of whose packets carry parts of another one, as when a capture is copied over the network."""
    other = sound(draw, order, per, False, count)
    made = sound(draw, order, per, is_blocks, count // 2, other.packets[0].time * per // BILLION, (65535,))
    at = 24
    while at < len(other.bytes):
        time = made.packets[-1].time + 1000 * (BILLION // per)
        made.put(Packet(time, 1448, bytes(other.bytes[at : at + 1448])))
        at += 1448
    return made


def maker(draw):
    """Returns one of the functions here that make a sound capture."""
    return draw.choice((sound,) * 6 + (uniform, with_a_capture_in_it))
