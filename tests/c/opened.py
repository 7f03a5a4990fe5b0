"""Prints the first COUNT packets of a classic capture, read by struct, as tests/c/open.c does: `opened.py FILE COUNT`.

tests/c/run takes COUNT from `capcopy list`, which says where strict reading ends.
"""

import struct
import sys

ORDERS = {0xA1B2C3D4: (">", 1000), 0xD4C3B2A1: ("<", 1000), 0xA1B23C4D: (">", 1), 0x4D3CB2A1: ("<", 1)}


def main() -> None:
    with open(sys.argv[1], "rb") as file:
        capture = file.read()
    order, unit = ORDERS[int.from_bytes(capture[:4], "big")] if capture[3:4] else ("<", 1)
    at = 24
    for _ in range(int(sys.argv[2])):
        seconds, fraction, stored, original = struct.unpack_from(order + "4I", capture, at)
        (link,) = struct.unpack_from(order + "I", capture, 20)
        data = capture[at + 16 : at + 16 + stored]
        print(f"0 {seconds}.{fraction * unit:09} {link} {stored}/{original} {data.hex()}")
        at += 16 + stored


main()
