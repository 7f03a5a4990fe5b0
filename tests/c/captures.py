"""captures.py FOLDER: writes small captures, sound and malformed, into the folder."""

import struct
import sys
from pathlib import Path

MAGICS = {"big_micro": 0xA1B2C3D4, "little_micro": 0xD4C3B2A1, "big_nano": 0xA1B23C4D, "little_nano": 0x4D3CB2A1}
LIMIT = 262144


def header(kind, link=1):
    order = ">" if kind.startswith("big") else "<"
    return struct.pack(">I", MAGICS[kind]) + struct.pack(order + "HHiIII", 2, 4, -3600, 1, 65535, link)


def packet(kind, seconds, fraction, stored, original, data):
    order = ">" if kind.startswith("big") else "<"
    return struct.pack(order + "IIII", seconds, fraction, stored, original) + data


def good(kind):
    return (
        header(kind)
        + packet(kind, 7, 8, 3, 5, b"abc")
        + packet(kind, 0xFFFFFFFF, 999_999, 0, 0, b"")
        + packet(kind, 0, 4_294_967, 1, LIMIT, b"z")
    )


def captures():
    for kind in MAGICS:
        yield kind, good(kind)
    kind = "little_micro"
    yield "no_packets", header(kind, link=113)
    yield "nothing", b""
    yield "other_magic", b"\x0a\x0d\x0d\x0a" + good(kind)[4:]
    yield "many", header(kind) + b"".join(packet(kind, n, n, 1, 1, b"x") for n in range(1000))
    yield "large", header(kind) + packet(kind, 1, 1, LIMIT, LIMIT, bytes(LIMIT))
    bad = {
        "fraction_too_large": (4_294_968, 1, 1),
        "included_too_long": (1, LIMIT + 1, LIMIT + 1),
        "original_too_long": (1, 1, LIMIT + 1),
        "included_past_original": (1, 2, 1),
    }
    for name, (fraction, stored, original) in bad.items():
        yield name, header(kind) + packet(kind, 1, 1, 1, 1, b"x") + packet(kind, 1, fraction, stored, original, b"xy")


folder = Path(sys.argv[1])
for name, data in captures():
    (folder / f"{name}.pcap").write_bytes(data)
