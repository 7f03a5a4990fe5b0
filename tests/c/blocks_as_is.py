"""blocks_as_is.py PROGRAM FOLDER CAPTURES: checks that tests/c/blocks_as_is prints for PcapNg captures what tests/model finds by lenient
reading.

The captures are those in the second folder, and some that the script makes and puts into the first. It makes whole ones, and then
overwrites their bytes and cuts them anywhere. Others have every option with a value of any length.
"""

import random
import struct
import subprocess
import sys
from pathlib import Path

sys.dont_write_bytecode = True
sys.path.insert(0, str(Path(__file__).resolve().parents[1] / "model"))
from as_is_blocks import ENHANCED, INTERFACE, Reading, enhanced, interface  # noqa: E402
from conversion import first  # noqa: E402
from frames import SECTION, frame  # noqa: E402
from left import Left  # noqa: E402
from refusals import Lacks, Refused  # noqa: E402

ORDERS = {"big": ">", "little": "<"}


def flaw_line(flaw):
    """Returns the name of the flaw, and the code of the option, or 0."""
    code, broken = flaw.fields["code"], flaw.fields["broken"]
    return f"flaw {broken.parts[0].name if broken.parts else broken.name} {code.parts[0] if code.parts else 0}"


def interface_line(block):
    """Yields the line of an interface, or nothing if the body has no room for its head."""
    kept, _ = interface(Left(block.body, block.order))
    if kept is None:
        return
    link, _, snaplen = struct.unpack(ORDERS[block.order] + "HHI", block.body[:8])
    unit, offset = first(kept, "IfTsResol", 6), first(kept, "IfTsOffset", 0)
    yield f"interface {link} {snaplen} {2 if unit > 127 else 10} {unit % 128} {offset - (offset >> 63 << 64)}"


def packet_lines(block, interfaces):
    wrong, time = enhanced(Left(block.body, block.order), interfaces)
    yield from map(flaw_line, wrong)
    if len(block.body) < 20:
        return
    number, _, _, stored, original = struct.unpack(ORDERS[block.order] + "IIIII", block.body[:20])
    if stored + -stored % 4 > len(block.body) - 20:
        return
    fits = time is not None and -(2**63) <= time[0] < 2**63
    told = f"{time[0]}.{time[1]:09}" if fits else "none"
    yield f"packet {number} {told} {stored}/{original} {block.body[20 : 20 + stored].hex()}"


def lines(capture):
    left, reading, index = Left(capture, "big"), Reading(), 0
    while left:
        try:
            left.order = reading.order or "big"
            block = frame(left)
            flaws = reading.flaws_of(block)
        except (Lacks, Refused) as why:
            yield f"refused {why}"
            return
        index += 1
        yield f"{index} {block.number}"
        yield from map(flaw_line, flaws)
        if block.number == INTERFACE:
            yield from interface_line(block)
        elif block.number == ENHANCED:
            yield from packet_lines(block, reading.interfaces)


class Made:
    """A capture in this order, of blocks with options that `choose` makes."""

    def __init__(self, order, choose):
        self.order, self.choose = ORDERS[order], choose
        self.data = self.block(0x0A0D0D0A, self.pack("IHHq", 0x1A2B3C4D, 1, 0, -1) + self.options(range(1, 6), 3))

    def pack(self, form, *values):
        return struct.pack(self.order + form, *values)

    def block(self, number, body):
        body += bytes(-len(body) % 4)
        length = self.pack("I", len(body) + 12)
        return self.pack("I", number) + length + body + length

    def options(self, codes, most):
        """Returns some of these codes and custom ones, ended, cut, or neither. Their values have any length, and some are no strings."""
        found = b""
        for _ in range(self.choose.randrange(most + 1)):
            code = self.choose.choice([*codes, 2988, 2989, 19372, 65535])
            length = self.choose.choice([0, 1, 1, 2, 4, 4, 6, 8, 8, 17, 30])
            value = self.choose.choice([self.choose.randbytes(length), b"text" * 8, bytes(32)])[:length]
            found += self.pack("HH", code, length) + value + bytes(-length % 4)
        return found + self.choose.choice([b"", bytes(4), self.pack("HH", 0, 7), bytes(4) + b"more", self.pack("HH", 1, 99)])

    def any(self):
        kind = self.choose.randrange(8)
        if kind == 0:
            return self.block(0x0A0D0D0A, self.pack("IHHq", 0x1A2B3C4D, 1, 0, -1) + self.options(range(1, 6), 3))
        if kind < 4:
            body = self.pack("HHI", self.choose.randrange(300), 0, 60) + self.options(range(1, 16), 6)
            return self.block(1, self.cut(body))
        if kind == 4:
            return self.block(self.choose.choice([2, 3, 4, 5, 9, 77]), self.choose.randbytes(24))
        stored = self.choose.randrange(9)
        units = self.choose.choice([self.choose.randrange(1 << 50), (1 << 64) - 1])
        head = self.pack("IIIII", self.choose.randrange(4), units >> 32, units & 0xFFFFFFFF, stored, 98)
        return self.block(6, self.cut(head + self.choose.randbytes(stored + -stored % 4) + self.options(range(1, 8), 5)))

    def cut(self, body):
        """Returns this body, or now and then a shorter one, or one with a byte changed."""
        if self.choose.random() < 0.2:
            return body[: self.choose.randrange(len(body) + 1) // 4 * 4]
        if self.choose.random() < 0.2:
            place = self.choose.randrange(len(body))
            return body[:place] + self.choose.randbytes(1) + body[place + 1 :]
        return body


def made_captures(folder):
    for order in ORDERS:
        for seed in range(20):
            choose = random.Random(seed)
            made = Made(order, choose)
            data = made.data + b"".join(made.any() for _ in range(60))
            if seed % 4 == 3:
                place = choose.randrange(len(data))
                data = data[:place] + choose.randbytes(4) + data[place + 4 :]
            if seed % 4 == 2:
                data = data[: -choose.randrange(1, 9)]
            path = folder / f"as_is_{order}_{seed}.pcapng"
            path.write_bytes(data)
            yield path


def main():
    program, folder, captures = sys.argv[1], Path(sys.argv[2]), Path(sys.argv[3])
    count = {"block": 0, "flaw": 0, "interface": 0, "packet": 0, "refused": 0}
    given = (path for path in sorted(captures.rglob("*")) if path.is_file() and path.suffix != ".packets")
    for path in [*given, *made_captures(folder)]:
        capture = path.read_bytes()
        if not capture.startswith(SECTION):
            continue
        wanted = list(lines(capture))
        for line in wanted:
            count[line.split(" ")[0] if line[0].isalpha() else "block"] += 1
        done = subprocess.run([*program.split(" "), str(path)], capture_output=True, check=False)
        got = done.stdout.decode().split("\n")[:-1]
        if got != wanted or done.returncode or done.stderr:
            where = next((i for i, (a, b) in enumerate(zip(got, wanted)) if a != b), min(len(got), len(wanted)))
            sys.exit(f"blocks_as_is.py: {path}: line {where + 1}: {got[where : where + 1]}, and not {wanted[where : where + 1]} {done.stderr.decode()}")
    if 0 in count.values():
        sys.exit(f"blocks_as_is.py: only {count} came")


if __name__ == "__main__":
    main()
