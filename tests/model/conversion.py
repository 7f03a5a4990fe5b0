"""Converts captures to the other format: the bytes that it writes, and how it ends."""
from captures import LONGEST_PACKET, MAGICS, capture_header, packet
from frames import first_state, frame
from left import Left
from refusals import Lacks, Refused
from shown import Value, shown
from written import Writer

LITTLE = Writer("little")
HEADER = 24
NANOSECONDS = 9
EARLY = "IoError"
# The numbers of the blocks that hold a packet.
HOLDS_PACKET = (2, 3, 6)


class Run:
    """A conversion of these bytes."""

    def __init__(self, data):
        self.data, self.left, self.out, self.packets, self.fault = data, Left(data, "big"), b"", 0, "none"

    def take(self, count):
        """Takes the next bytes: this many, or all that are left."""
        return Left(self.left.take(min(count, len(self.left))), "big")

    def told(self):
        """Returns how many packets were written, how many bytes were taken, and why the conversion ended."""
        taken = len(self.data) if self.fault == EARLY else len(self.data) - len(self.left)
        return f"{self.packets} {taken} {self.fault}"


def to_pcapng(data, most):
    """Converts a classic capture to blocks: a section, an interface, and an enhanced packet for each packet."""
    run = Run(data)
    try:
        front = run.take(HEADER)
        header = capture_header(front)
        run.left.order = front.order
        run.out = b"".join(map(LITTLE.block, opening(header)))
        resolution = MAGICS[header.fields["magic_number"].to_bytes(4, "big")][1]
        while len(run.left) and run.packets < most:
            run.out += LITTLE.block(enhanced(packet(run.left, resolution)))
            run.packets += 1
    except Lacks:
        run.fault = EARLY
    except Refused as why:
        run.fault = str(why).removeprefix("invalid ")
    return run


def opening(header):
    """Returns the section and the interface of a capture with this header."""
    link = header.fields["datalink"]
    if link.name == "Unknown" and link.parts[0] >= 1 << 16:
        raise Refused("invalid InterfaceDescriptionBlock: linktype > 65535")
    section = Value("SectionHeaderBlock", magic=0x4D3C2B1A, major_version=1, minor_version=0, section_length=-1, options=[])
    snaplen = header.fields["snaplen"]
    unit = [Value("IfTsResol", NANOSECONDS)]
    interface = Value("InterfaceDescriptionBlock", linktype=link, reserved=0, snaplen=snaplen, options=unit)
    return [Value("SectionHeader", section), Value("InterfaceDescription", interface)]


def enhanced(packet):
    """Returns the block of a packet, whose time is in nanoseconds."""
    header, data = packet.fields["header"].fields, packet.fields["data_"]
    block = Value(
        "EnhancedPacketBlock",
        interface_id=0,
        timestamp=header["ts_sec"] * 10**9 + header["ts_nsec"],
        captured_len=len(data),
        original_len=header["orig_len"],
        data_=data,
        options=[],
    )
    return Value("EnhancedPacket", block)


class Unplaced(Refused):
    """A packet that has no place in a classic capture."""


def to_pcap(data, header, leaves_out, most):
    """Converts the blocks of a capture to packets. This header of the classic one was written before."""
    front = Left(header, "big")
    link = capture_header(front).fields["datalink"]
    writer = Packets(front.order, MAGICS[header[:4]][1], link)
    run = BlockRun(data)
    state = first_state(run.left)
    try:
        while len(run.left) and run.blocks < most:
            run.left.order = state.order
            block = frame(run.left)
            state = state.after(block)
            if block.number in HOLDS_PACKET:
                run.add(writer, block.value(), state.interfaces, leaves_out)
            run.blocks += 1
    except Lacks:
        run.fault = EARLY
    except Refused as why:
        run.fault = str(why).removeprefix("invalid ")
    return run


class BlockRun(Run):
    """A conversion of the blocks of these bytes."""

    def __init__(self, data):
        super().__init__(data)
        self.blocks = self.left_out = 0

    def add(self, writer, body, interfaces, leaves_out):
        """Writes the packet of a body, or leaves it out."""
        try:
            self.out += writer.record(body, interfaces)
            self.packets += 1
        except Unplaced:
            if not leaves_out:
                raise
            self.left_out += 1

    def told(self):
        """Returns the numbers of blocks, of packets and of packets that were left out, and why the conversion ended."""
        return f"{self.blocks} {self.packets} {self.left_out} {self.fault}"


class Packets:
    """Makes packets of a classic capture, in one order, resolution and link type."""

    def __init__(self, order, resolution, link):
        self.order, self.resolution, self.link = order, resolution, shown(link)

    def record(self, body, interfaces):
        """Returns the bytes of the packet of a body."""
        if body.name == "SimplePacket":
            raise Unplaced("SimplePacketBlock: no time")
        fields = body.parts[0].fields
        if fields["interface_id"] >= len(interfaces):
            raise Unplaced("Block: interface_id is not described")
        interface = interfaces[fields["interface_id"]].fields
        if shown(interface["linktype"]) != self.link:
            raise Unplaced("Block: interface of another linktype")
        seconds, nanoseconds = time_of(interface, fields["timestamp"])
        if not 0 <= seconds < 1 << 32:
            raise Unplaced("Block: seconds of no 32 bits")
        original, data = fields["original_len"], bytes(fields["data_"])
        if original > LONGEST_PACKET:
            raise Unplaced("PacketHeader orig_len > 0x40000")
        if len(data) > original:
            raise Unplaced("PacketHeader incl_len > orig_len")
        fraction = nanoseconds // 1000 if self.resolution == "micro" else nanoseconds
        return b"".join(it.to_bytes(4, self.order) for it in (seconds, fraction, len(data), original)) + data


def time_of(interface, units):
    """Returns the seconds and nanoseconds of this many units of an interface's clock."""
    unit, offset = first(interface, "IfTsResol", 6), first(interface, "IfTsOffset", 0)
    in_second = 10**unit if unit < 128 else 2 ** (unit - 128)
    seconds, nanoseconds = divmod(units * 10**9 // in_second, 10**9)
    return seconds + offset - (offset >> 63 << 64), nanoseconds


def first(interface, name, otherwise):
    """Returns the number in the first option of this name."""
    return next((it.parts[0] for it in interface["options"] if it.name == name), otherwise)
