"""moves.py PROGRAM FOLDER: checks how often tests/c/moves moves bytes, for given packets, pieces and buffers.

The library moves the held bytes to the front of the buffer only if the missing bytes don't fit after them. The first rows are worked out by
hand, and show that the model agrees with them. The model then works out the others, whose sizes are random.
"""

import random
import struct
import subprocess
import sys
from pathlib import Path

HEADER, HEAD = 24, 16

# Sizes of packets, piece, buffer, and by hand: how often bytes move, and how many in all.
BY_HAND = [
    # All 1044 bytes have room.
    ([84] * 10 + [4], 7, 1044, 0, 0),
    # Header and packets fill a buffer of three packets, each time to its end: of 250 bytes 26 are left, then 50 three times.
    ([84] * 10, 1000, 250, 4, 26 + 3 * 50),
    # Packets fill the buffer: at its end it holds nothing, so nothing moves.
    ([8] * 5, 1000, 24, 0, 0),
    # The buffer grows for the one packet, after which there is no other. The header was taken, so the packet's bytes are in front.
    ([1000], 1, 24, 0, 0),
    # By tens into 60: at 60 bytes it holds 36, a packet of 36. Nothing is left after it, and the next packet begins in front.
    ([20] * 2, 10, 60, 0, 0),
    # At 40 bytes it holds a head of 16 after the header. The 20 bytes of data have no room in the 10 that are left: 16 move, once.
    ([20], 10, 50, 1, 16),
]


def capture(sizes):
    """Yields a capture in pieces: little-endian, microseconds, Ethernet."""
    yield struct.pack("<IHHiIII", 0xA1B2C3D4, 2, 4, 0, 0, 65535, 1)
    for size in sizes:
        yield struct.pack("<IIII", 0, 0, size, size) + bytes(size)


def model(sizes, piece, room):
    """Returns how often bytes move, and how many. The walk asks for exactly what is missing of the header, of a packet's head, and of its data."""
    texts = [HEADER] + [HEAD + size for size in sizes]
    left, held, end, moves, moved = sum(texts), 0, 0, 0, 0
    opened = False
    while left:
        while texts and held >= texts[0]:
            held -= texts.pop(0)
            opened = True
        known = texts[0] if not opened or held >= HEAD else HEAD
        if end + known - held > room:
            if held < end and held > 0:
                moves, moved = moves + 1, moved + held
            end, room = held, max(room, known)
        came = min(piece, room - end, left)
        left, held, end = left - came, held + came, end + came
    return moves, moved


def drawn(count):
    draw = random.Random(27)
    for _ in range(count):
        sizes = [draw.choice([0, 1, 40, draw.randrange(200), draw.randrange(2000)]) for _ in range(draw.randrange(1, 60))]
        piece, room = draw.choice([1, 7, 100, 4096]), draw.choice([24, 64, 100, 500, 3000])
        yield sizes, piece, room, *model(sizes, piece, room)


def main() -> None:
    program, folder = sys.argv[1], Path(sys.argv[2])
    for sizes, piece, room, moves, moved in [*BY_HAND, *drawn(60)]:
        assert model(sizes, piece, room) == (moves, moved), f"the model: {sizes} {piece} {room}: {model(sizes, piece, room)}"
        file = folder / "moves.pcap"
        file.write_bytes(b"".join(capture(sizes)))
        told = subprocess.run([program, str(piece), str(room), str(file)], stdout=subprocess.PIPE, text=True)
        assert told.returncode == 0, f"moves {piece} {room}: status {told.returncode}"
        assert told.stdout == f"{moves} {moved}\n", f"moves {piece} {room}, {sizes}: {told.stdout} for {moves} {moved}"
        file.unlink()


main()
