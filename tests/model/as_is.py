"""Reads classic captures leniently: the flaw of each packet, and where packets follow after corrupt bytes."""
from captures import LONGEST_PACKET, MAGICS, capture_header, packet
from left import Left
from refusals import Lacks, Refused


def first_flaw(resolution, fraction, included, original):
    """Returns the message of the first rule that these numbers break, or that there is no flaw."""
    nanoseconds = fraction * 1000 if resolution == "micro" else fraction
    broken = {
        "PacketHeader ts_usec * 1000 > 0xFFFFFFFF": nanoseconds.bit_length() > 32,
        "PacketHeader incl_len > 0x40000": included > LONGEST_PACKET,
        "PacketHeader orig_len > 0x40000": original > LONGEST_PACKET,
        "PacketHeader incl_len > orig_len": original < included,
    }
    return next((message for message, holds in broken.items() if holds), "no flaw")


def stands(bytes_, order, resolution, count):
    """Returns whether this many packets with data and without a flaw are in front of these bytes, or fewer, at least one, up to their end."""
    left = Left(bytes_, order)
    for _ in range(count):
        try:
            if packet(left, resolution).fields["header"].fields["incl_len"] == 0:
                return False
        except (Lacks, Refused):
            return False
        if len(left) == 0:
            return True
    return True


def passed_over(bytes_, order, resolution, count):
    """Returns how many bytes come before such packets: all of them if there are none."""
    return next((at for at in range(len(bytes_)) if stands(bytes_[at:], order, resolution, count)), len(bytes_))


def line(left, resolution):
    """Returns the line of the packet in front of the bytes that are left, and takes it. Raises the reason if there is none."""
    if len(left) < 16:
        raise Lacks(16 - len(left))
    seconds, fraction, included, original = (left.number(4) for _ in range(4))
    if included > LONGEST_PACKET:
        raise Refused("Invalid field value: PacketHeader incl_len > 0x40000")
    if len(left) < included:
        raise Lacks(included - len(left))
    left.take(included)
    flaw = first_flaw(resolution, fraction, included, original)
    billionths = seconds * 10**9 + fraction * (1000 if resolution == "micro" else 1)
    return f"{billionths // 10**9}.{billionths % 10**9:09} {included} of {original} bytes: {flaw}"


def answers(bytes_):
    """Returns what calling_as_is prints for a capture."""
    left = Left(bytes_, "big")
    capture_header(left)
    _, resolution = MAGICS[bytes_[:4]]
    lines = []
    while left:
        before = left.bytes
        try:
            lines.append(line(left, resolution))
        except (Lacks, Refused) as why:
            at = passed_over(before, left.order, resolution, 2)
            text = f"Need at least {why.count} more bytes" if isinstance(why, Lacks) else str(why)
            lines.append(f"no packet: {text}; {at} bytes are passed over")
            left.bytes = before[at:]
    return lines
