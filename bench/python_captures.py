"""Makes captures of IP for the ways through Python: packets of other captures, whose links remain as they are."""

import mmap
import random
import struct

ADDRESSES, SIXTH = 4096, 10
_V4, _V6 = struct.Struct(">HBBHHHBBH4s4sHH"), struct.Struct(">HIHBB16s16sHH")


def over_ip(path):
    """Writes heads of IP and ports after the link's head of each packet: IPv4, and for every tenth IPv6, of some thousand addresses."""
    chosen = random.Random(4)
    with open(path, "r+b") as file, mmap.mmap(file.fileno(), 0) as text:
        for number, (at, length) in enumerate(_places(text)):
            ends = [chosen.randrange(ADDRESSES).to_bytes(4, "big") for _ in range(2)]
            ports = chosen.randrange(1024, 65536), chosen.choice((53, 80, 443))
            protocol = 17 if ports[1] == 53 else 6
            if number % SIXTH == 0:
                six = [b"\x20\x01\x0d\xb8" + bytes(8) + end for end in ends]
                _V6.pack_into(text, at + 12, 0x86DD, 6 << 28, length - 54, protocol, 64, *six, *ports)
            else:
                four = [b"\x0a" + end[1:] for end in ends]
                _V4.pack_into(text, at + 12, 0x0800, 0x45, 0, length - 14, number & 0xFFFF, 0, 64, protocol, 0, *four, *ports)


def _places(text):
    """Yields where the bytes of each packet begin, and how many there are. Numbers have their low byte first."""
    is_classic = text[:4] != b"\x0a\x0d\x0d\x0a"
    at = 24 if is_classic else 0
    while at < len(text):
        if is_classic:
            length = int.from_bytes(text[at + 8 : at + 12], "little")
            yield at + 16, length
            at += 16 + length
        else:
            kind, whole = struct.unpack_from("<II", text, at)
            if kind == 6:
                yield at + 28, int.from_bytes(text[at + 20 : at + 24], "little")
            at += whole
