"""Reads classic captures: their header and packets."""
from left import Left
from links import link_type
from refusals import Lacks, rule
from shown import Lent, Value

MAGICS = {
    b"\xa1\xb2\xc3\xd4": ("big", "micro"),
    b"\xa1\xb2\x3c\x4d": ("big", "nano"),
    b"\xd4\xc3\xb2\xa1": ("little", "micro"),
    b"\x4d\x3c\xb2\xa1": ("little", "nano"),
}
LONGEST_PACKET = 262144


def capture_header(left):
    """Reads the header. From then on numbers have its order."""
    if len(left) < 24:
        raise Lacks(24 - len(left))
    magic = left.take(4)
    if magic not in MAGICS:
        raise rule("PcapHeader wrong magic number")
    left.order, _ = MAGICS[magic]
    return Value(
        "PcapHeader",
        magic_number=int.from_bytes(magic, "big"),
        version_major=left.number(2),
        version_minor=left.number(2),
        ts_correction=left.number(4, signed=True),
        ts_accuracy=left.number(4),
        snaplen=left.number(4),
        datalink=link_type(left.number(4)),
    )


def packet_header(left, resolution):
    if len(left) < 16:
        raise Lacks(16 - len(left))
    seconds, fraction, included, original = (left.number(4) for _ in range(4))
    nanoseconds = fraction * 1000 if resolution == "micro" else fraction
    if nanoseconds >= 1 << 32:
        raise rule("PacketHeader ts_usec * 1000 > 0xFFFFFFFF")
    for name, length in (("incl_len", included), ("orig_len", original)):
        if length > LONGEST_PACKET:
            raise rule(f"PacketHeader {name} > {LONGEST_PACKET:#x}")
    if included > original:
        raise rule("PacketHeader incl_len > orig_len")
    return Value("PacketHeader", ts_sec=seconds, ts_nsec=nanoseconds, incl_len=included, orig_len=original)


def packet(left, resolution):
    header = packet_header(left, resolution)
    length = header.fields["incl_len"]
    if len(left) < length:
        raise Lacks(length - len(left))
    return Value("Packet", header=header, data_=Lent(left.take(length)))
