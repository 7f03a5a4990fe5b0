"""options.py PROGRAM FOLDER CAPTURES: checks that tests/c/options prints for PcapNg captures what tests/model finds in their blocks.

The captures are those in the second folder, and some that the script makes and puts into the first. These have blocks of each kind with
options and names, whole, and truncated and overwritten at any place of their bodies.
"""

import random
import struct
import subprocess
import sys
from pathlib import Path

sys.dont_write_bytecode = True
sys.path.insert(0, str(Path(__file__).resolve().parents[1] / "model"))
from blocks import record  # noqa: E402
from frames import SECTION, first_state, frame  # noqa: E402
from left import Left, padding  # noqa: E402
from refusals import Lacks, Refused, rule  # noqa: E402

ORDERS = {"big": ">", "little": "<"}
FIXED = {
    0x0A0D0D0A: (16, "SectionHeaderBlock: block length < 16"),
    1: (8, "InterfaceDescriptionBlock: block length < 8"),
    5: (12, "InterfaceStatisticsBlock: block length < 12"),
}
PACKETS, NAMES = (2, 6), 4


def names_of(left):
    """Yields the lines of the records before their end, which is taken too."""
    while (found := record(left)).name != "End":
        held = found.parts[0].fields
        if found.name == "Unknown":
            yield f"name {held['type_']} {held['value'].hex()}"
            continue
        start = f"name {1 if found.name == 'Ipv4' else 2} {held['ip_addr'].hex()}"
        for name in held["names"]:
            yield f"{start} {name.encode().hex()}"
        if not held["names"]:
            yield start


def before_options(number, left):
    """Yields the lines of what comes before the options, which is taken. The function judges nothing else of it."""
    if number in FIXED:
        length, text = FIXED[number]
        if len(left) < length:
            raise rule(text)
        left.take(length)
    elif number in PACKETS:
        if len(left) < 20:
            raise rule("EnhancedPacketBlock: block length length < 20")
        left.take(12)
        stored = left.number(4)
        left.take(4)
        if len(left) < stored + padding(stored):
            raise rule("EnhancedPacketBlock: captured_len + padding > block length")
        left.take(stored + padding(stored))
    else:
        yield from names_of(left)


def options_of(left):
    while left:
        if len(left) < 4:
            raise rule("Option: slice.len() < 4")
        code, length = left.number(2), left.number(2)
        if code == 0:
            return
        if length + padding(length) > len(left):
            raise rule("Option: length + pad.len() > slice.len()")
        yield f"option {code} {left.take(length).hex()}"
        left.take(padding(length))


def block_lines(block):
    left = Left(block.body, block.order)
    if block.number not in (*FIXED, *PACKETS, NAMES):
        return
    try:
        yield from before_options(block.number, left)
        yield from options_of(left)
    except Refused as refused:
        yield f"refused {refused}"


def lines(capture):
    """Yields the lines for a capture, up to the first block that is refused."""
    left, state, index = Left(capture, "big"), None, 0
    while left:
        index += 1
        try:
            if state is None:
                state, block = first_state(Left(left.bytes, "big")), frame(left)
            else:
                left.order = state.order
                block = frame(left)
                state = state.after(block)
        except (Lacks, Refused):
            return
        yield f"{index} {block.number}"
        yield from block_lines(block)


class Blocks:
    """A capture in this order, of blocks with options and names that `made` chooses."""

    def __init__(self, order, made):
        self.order, self.made = ORDERS[order], made
        self.data = self.block(0x0A0D0D0A, self.pack("IHHq", 0x1A2B3C4D, 1, 0, -1) + self.texts())
        self.data += self.block(1, self.pack("HHI", 1, 0, 0))

    def pack(self, form, *values):
        return struct.pack(self.order + form, *values)

    def block(self, number, body):
        body += bytes(-len(body) % 4)
        length = self.pack("I", len(body) + 12)
        return self.pack("I", number) + length + body + length

    def padded(self, code, value):
        return self.pack("HH", code, len(value)) + value + bytes(-len(value) % 4)

    def texts(self):
        """Returns some options with good texts, so that no section is refused because of them."""
        codes = self.made.choices(range(1, 5), k=self.made.randrange(4))
        return b"".join(self.padded(code, b"text"[: self.made.randrange(5)]) for code in codes)

    def options(self):
        found = b""
        for _ in range(self.made.randrange(5)):
            code = self.made.choice([1, 2, 3, 4, 9, 2988, 2989, 65535])
            found += self.padded(code, self.made.randbytes(self.made.choice([0, 1, 2, 3, 4, 5, 8, 30])))
        return found + self.made.choice([b"", bytes(4), self.pack("HH", 0, 7), bytes(4) + b"behind"])

    def names(self):
        found = b""
        for _ in range(self.made.randrange(4)):
            kind = self.made.choice([1, 1, 2, 3, 65535])
            address = self.made.randbytes({1: 4, 2: 16}.get(kind, self.made.randrange(6)))
            names = [b"a", b"host.example", "zo\u00eb".encode(), b""][: self.made.randrange(5)] if kind < 3 else []
            found += self.padded(kind, address + b"".join(name + b"\0" for name in names))
        return found + bytes(4)

    def body(self, number):
        stored = self.made.randbytes(self.made.randrange(9))
        if number in PACKETS:
            head = self.pack("IIIII", 0, 0, 1, len(stored), 98)
            return head + stored + bytes(-len(stored) % 4) + self.options()
        return {3: b"\0\0\0\2ab", NAMES: self.names(), 5: bytes(12)}.get(number, b"journal") + self.options()

    def any(self):
        """Returns a block that is whole, or whose body is cut or has a byte of any value somewhere."""
        number = self.made.choice([2, 3, NAMES, NAMES, 5, 6, 6, 9, 77])
        body = bytearray(self.body(number))
        if self.made.random() < 0.4:
            del body[self.made.randrange(len(body) + 1) // 4 * 4 :]
        if body and self.made.random() < 0.4:
            body[self.made.randrange(len(body))] = self.made.randrange(256)
        return self.block(number, bytes(body))


def made_captures(folder):
    for order in ORDERS:
        for seed in range(20):
            blocks = Blocks(order, random.Random(seed))
            path = folder / f"options_{order}_{seed}.pcapng"
            path.write_bytes(blocks.data + b"".join(blocks.any() for _ in range(60)))
            yield path


def main():
    program, folder, captures = sys.argv[1], Path(sys.argv[2]), Path(sys.argv[3])
    kinds = set()
    given = (path for path in sorted(captures.rglob("*")) if path.is_file() and path.suffix != ".packets")
    for path in [*given, *made_captures(folder)]:
        capture = path.read_bytes()
        if not capture.startswith(SECTION):
            continue
        wanted = list(lines(capture))
        kinds |= {line.split(" ")[0] if line[0].isalpha() else "block" for line in wanted}
        done = subprocess.run([*program.split(" "), str(path)], capture_output=True, check=False)
        got = done.stdout.decode().split("\n")[:-1]
        if got != wanted or done.stderr:
            where = next((i for i, (a, b) in enumerate(zip(got, wanted)) if a != b), min(len(got), len(wanted)))
            sys.exit(f"options.py: {path}: line {where + 1}: {got[where : where + 1]}, and not {wanted[where : where + 1]} {done.stderr.decode()}")
    if kinds != {"block", "name", "option", "refused"}:
        sys.exit(f"options.py: only {sorted(kinds)} came")


main()
