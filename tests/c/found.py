"""Prints the packets and gaps of damaged captures by the package for Python, as `open -l` of tests/c/open.c does: `found.py [-s] FILE..`.

With -s it reads each file as a stream of small pieces. Before the lines of each file it prints `file`, and after them `status N`. A block
whose packet cannot be read, which Python returns as a packet without data, is a gap here.
"""

import io
import struct
import sys

import pcapfile

# The status of a packet whose stored length is wrong.
WRONG_LENGTH = 25


class Pieces(io.RawIOBase):
    """A stream that gives few bytes a read."""

    def __init__(self, data):
        self._data = io.BytesIO(data)

    def readinto(self, room):
        data = self._data.read(min(len(room), 70001))
        room[: len(data)] = data
        return len(data)


def gap_numbers(gap):
    missing = int(gap.text.split()[0]) if gap.text.endswith("missing") else 0
    texts = {"a value in the block is too short": 2, "a string in the block is not UTF-8": 4}
    status = 3 if gap.rule is not None else 1 if missing else texts.get(gap.text, 0)
    return status, 0 if gap.rule is None else int(gap.rule), missing


def block_length(data, begin):
    """Returns the length of the block there, in the byte order in which its two lengths are the same."""
    for order in "<>":
        (length,) = struct.unpack_from(order + "I", data, begin + 4)
        if begin + length <= len(data) and data[begin + 4 : begin + 8] == data[begin + length - 4 : begin + length]:
            return length
    raise ValueError("no block is there")


def is_unread(packet):
    numbers = (packet.timestamp, packet.interface_id, packet.original_length, len(packet.data)) if hasattr(packet, "timestamp") else (1,)
    return packet.flaws and not any(numbers) and packet.seconds is None and packet.flaws[0].code is None


def flaw_numbers(flaw):
    if isinstance(flaw, pcapfile.Rule):
        return 3, int(flaw)
    return (3, int(flaw.rule)) if flaw.rule is not None else (4 if "UTF-8" in flaw.text else 2, 0)


def line_of(packet, data):
    if isinstance(packet, pcapfile.Gap):
        status, rule, missing = gap_numbers(packet)
        return f"gap {packet.offset} {packet.length} {status} {rule} {missing}"
    status, rule = flaw_numbers(packet.flaws[0]) if packet.flaws else (0, 0)
    if packet.has_wrong_length:
        status, rule = WRONG_LENGTH, 0
    if is_unread(packet):
        return f"gap {packet.offset - 8} {block_length(data, packet.offset - 8)} {status} {rule} 0"
    time = "none" if packet.seconds is None else f"{packet.seconds}.{packet.nanoseconds:09}"
    link = "none" if packet.link is None else packet.link
    number = getattr(packet, "interface_id", 0)
    return f"packet {status} {rule} {number} {time} {link} {packet.length}/{packet.original_length} {bytes(packet.data).hex()}"


def main(words):
    is_stream = words[0] == "-s"
    for name in words[is_stream:]:
        print("file")
        status = 0
        try:
            with open(name, "rb") as file:
                data = file.read()
            for packet in pcapfile.open(Pieces(data) if is_stream else name, strict=False, gaps=True):
                print(line_of(packet, data))
        except pcapfile.CaptureError as error:
            status = 3 if error.status == 1 else 1
        print(f"status {status}")


main(sys.argv[1:])
