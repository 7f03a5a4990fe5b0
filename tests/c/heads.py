"""heads.py PROGRAM FOLDER CAPTURES: checks that tests/c/open prints the head and the blocks of captures that tests/model finds in them.

The captures are those in the second folder, and random and damaged ones of tests/fuzz, which the script puts into the first. After the head
come the same packets as without it.
"""

import random
import struct
import subprocess
import sys
from pathlib import Path

sys.dont_write_bytecode = True
TESTS = Path(__file__).resolve().parents[1]
sys.path[:0] = [str(TESTS / "model"), str(TESTS / "fuzz")]
import generated  # noqa: E402
from captures import MAGICS, capture_header  # noqa: E402
from frames import SECTION, first_state, frame  # noqa: E402
from left import Left, padding  # noqa: E402
from refusals import Lacks, Refused  # noqa: E402

ORDERS = {"big": ">", "little": "<"}
PACKETS, INTERFACE, SECTION_TYPE = (2, 3, 6), 1, 0x0A0D0D0A
RANDOM = 150


def status_of(why):
    """Returns the number of an error in docs/REFUSALS.md."""
    return 1 if isinstance(why, Lacks) else {"io": 2, "utf8": 4}.get(str(why), 3)


def interface_line(block):
    """Returns the line of an interface: its fields, and its first resolution and first offset."""
    link, _, snaplen = struct.unpack(ORDERS[block.order] + "HHI", block.body[:8])
    left, found = Left(block.body[8:], block.order), {}
    while left and (code := left.number(2)):
        length = left.number(2)
        found.setdefault(code, left.take(length))
        left.take(padding(length))
    unit = found.get(9, b"\x06")[0]
    offset = int.from_bytes(found.get(14, bytes(8)), block.order, signed=True)
    return f"interface {link} {snaplen} {2 if unit > 127 else 10} {unit % 128} {offset}"


class Walk:
    """A walk over the blocks of a capture."""

    def __init__(self, capture):
        self.left, self.state, self.section, self.interfaces = Left(capture, "big"), None, "", []

    def next(self):
        if self.state is None:
            state, block = first_state(Left(self.left.bytes, "big")), frame(self.left)
        else:
            self.left.order = self.state.order
            block = frame(self.left)
            state = self.state.after(block)
        self.state = state
        if block.number == SECTION_TYPE:
            major, minor = struct.unpack(ORDERS[block.order] + "HH", block.body[4:8])
            self.section, self.interfaces = f"{block.body[:4].hex()} {major} {minor}", []
        if block.number == INTERFACE:
            self.interfaces.append(interface_line(block))
        return block

    def is_before_packet(self):
        if self.state is None:
            return False
        return len(self.left) == 0 or (len(self.left) >= 4 and int.from_bytes(self.left.bytes[:4], self.state.order) in PACKETS)


def block_lines(capture):
    """Returns the lines of the blocks, and the status of the program."""
    walk, lines = Walk(capture), []
    if not capture.startswith(SECTION):
        if len(capture) >= 24 and capture[:4] in MAGICS:
            return [], 0
        return ["refused"], 3 if len(capture) < 24 else 1
    try:
        while walk.left or walk.state is None:
            block = walk.next()
            lines.append(f"block {block.number} {walk.section} {len(walk.interfaces)} {block.body.hex()}")
            lines += walk.interfaces[-1:] if block.number == INTERFACE else []
    except (Lacks, Refused) as why:
        return [*lines, "refused"], 3 if status_of(why) in (1, 2) else 1
    return lines, 0


def classic_head(capture):
    capture_header(Left(capture, "big"))
    order = ORDERS[MAGICS[capture[:4]][0]]
    return [f"pcap {capture[:4].hex()} {' '.join(map(str, struct.unpack(order + 'HHiIII', capture[4:24])))}"]


def ng_head(capture):
    walk = Walk(capture)
    while not walk.is_before_packet():
        walk.next()
    return [f"pcapng {walk.section} {len(walk.interfaces)}", *walk.interfaces]


def head_lines(capture):
    try:
        return ng_head(capture) if capture.startswith(SECTION) else classic_head(capture)
    except (Lacks, Refused) as why:
        return [f"no head {status_of(why)}"]


def listed(program, path, *way):
    done = subprocess.run([*program.split(" "), *way, str(path)], capture_output=True, check=False)
    if done.stderr:
        sys.exit(f"heads.py: {path}: {done.stderr.decode()}")
    return done.stdout.decode().split("\n")[:-1], done.returncode


def random_captures(folder):
    stored = generated.stored([str(TESTS / "files/stored")])
    for seed in range(RANDOM):
        path = folder / f"random_{seed}"
        path.write_bytes(generated.any_capture(random.Random(seed), stored)[:20000])
        yield path


def main():
    program, folder, captures = sys.argv[1], Path(sys.argv[2]), Path(sys.argv[3])
    given = (path for path in sorted(captures.rglob("*")) if path.is_file() and path.suffix != ".packets")
    kinds = set()
    for path in [*given, *random_captures(folder)]:
        capture = path.read_bytes()
        packets, status = listed(program, path)
        head, blocks = head_lines(capture), block_lines(capture)
        kinds |= {head[0].split(" ")[0], f"blocks {blocks[1]}"}
        for way, wanted in (("-h", (head + packets, status)), ("-k", blocks)):
            for most in ((), ("1",), ("100",)) if len(capture) < 4000 else ((),):
                got = listed(program, path, way, *most)
                if got != wanted:
                    where = next((i for i, pair in enumerate(zip(got[0], wanted[0])) if pair[0] != pair[1]), min(len(got[0]), len(wanted[0])))
                    sys.exit(f"heads.py: {path} {way} {most}: line {where + 1}: {got[0][where : where + 1]} {got[1]}, and not "
                             f"{wanted[0][where : where + 1]} {wanted[1]}")
    if kinds != {"pcap", "pcapng", "no", "blocks 0", "blocks 1", "blocks 3"}:
        sys.exit(f"heads.py: only {sorted(kinds)} came")


main()
