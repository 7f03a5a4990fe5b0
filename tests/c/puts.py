"""puts.py PROGRAM FOLDER: gives tests/c/puts rows, and compares what it writes with the texts that tests/model makes for them.

The captures go into the folder. Beside each are the lines that `blocks -p` must print for it, in a file NAME.packets. If tshark is
installed, it must read the same packets.
"""

import random
import shutil
import subprocess
import sys
from fractions import Fraction
from pathlib import Path
from types import SimpleNamespace

sys.dont_write_bytecode = True
sys.path.insert(0, str(Path(__file__).resolve().parents[1] / "model"))
from written import Writer  # noqa: E402

MAGICS = {"big": 0x1A2B3C4D, "little": 0x4D3C2B1A}
SECTION_MAGIC, RESOLUTION_LENGTH, LINK_TOO_LARGE, INTERFACE_MISSING = 6, 1906, 2001, 2002


class Model:
    """The bytes that the model writes for rows, and the packets' lines."""

    def __init__(self):
        self.rows, self.data, self.lines, self.refused, self.blocks, self.interfaces = [], b"", [], [], 0, []

    def block(self, number, body):
        length = self.writer.number(4, len(body) + 12)
        self.data += self.writer.number(4, number) + length + body + length
        self.blocks += 1

    def section(self, order, major=1, minor=0):
        self.rows.append(f"s {MAGICS[order]:x} {major} {minor}")
        self.writer, self.interfaces = Writer(order), []
        fields = {"magic": MAGICS[order], "major_version": major, "minor_version": minor, "section_length": -1}
        self.block(0x0A0D0D0A, self.writer.section(fields))

    def interface(self, link=1, snaplen=65535, base=10, exponent=9, offset=0):
        self.rows.append(f"i {link} {snaplen} {base} {exponent} {offset}")
        self.interfaces.append((link, Fraction(1, (2 if base == 2 else 10) ** exponent), offset))
        fields = {"linktype": SimpleNamespace(name="Unknown", parts=[link]), "reserved": 0, "snaplen": snaplen}
        options = self.writer.coded(9, bytes([exponent + 128 * (base == 2)]))
        if offset:
            options += self.writer.coded(14, self.writer.number(8, offset, signed=True))
        self.block(1, self.writer.interface(fields) + options + bytes(4))

    def packet(self, number, timestamp, original, length, byte):
        self.rows.append(f"p {number} {timestamp} {original} {length} {byte}")
        data = bytes([byte]) * length
        fields = {"interface_id": number, "timestamp": timestamp, "captured_len": length, "original_len": original, "data_": data}
        self.block(6, self.writer.enhanced_packet(fields))
        link, unit, offset = self.interfaces[number]
        nanoseconds = int(timestamp * unit * 10**9)
        seconds = nanoseconds // 10**9 + offset
        told = f"{seconds}.{nanoseconds % 10**9:09}" if -(2**63) <= seconds < 2**63 else "none"
        self.lines.append(f"{self.blocks - 1} {number} {timestamp} {told} {link} {length}/{original} {data.hex()}")

    def refuses(self, row, rule):
        self.rows.append(row)
        self.refused.append(rule)


def plain(order):
    """Returns a section, two interfaces and packets of each length of padding."""
    model = Model()
    model.section(order)
    model.interface()
    model.interface(link=113, snaplen=0, base=2, exponent=20, offset=-7)
    for length in range(9):
        model.packet(length % 2, 1_335_958_313_152_630_000 + length, 98, length, 65 + length)
    return model


def refused(order):
    """Returns refused rows between others. They leave the section as it was."""
    model = Model()
    model.refuses("i 1 65535 10 6 0", SECTION_MAGIC)
    model.refuses("p 0 0 0 0 0", SECTION_MAGIC)
    model.refuses("s 7 1 0", SECTION_MAGIC)
    model.section(order)
    model.refuses("p 0 0 0 0 0", INTERFACE_MISSING)
    model.refuses("i 65536 65535 10 6 0", LINK_TOO_LARGE)
    model.refuses("i 1 65535 10 128 0", RESOLUTION_LENGTH)
    model.interface(link=65535, exponent=127)
    model.refuses("p 1 0 0 0 0", INTERFACE_MISSING)
    model.packet(0, 2**64 - 1, 2**32 - 1, 3, 0)
    model.section(order)
    model.refuses("p 0 0 0 0 0", INTERFACE_MISSING)
    model.interface()
    model.packet(0, 1, 1, 1, 1)
    return model


def mixed(seed):
    """Returns sections of either order with interfaces and packets of any values."""
    made, model = random.Random(seed), Model()
    for _ in range(4):
        model.section(made.choice(list(MAGICS)), made.randrange(2**16), made.randrange(2**16))
        for count in range(1, 5):
            offset = made.choice([0, 1, -1, 2**63 - 1, -(2**63), made.randrange(-(2**63), 2**63)])
            model.interface(made.randrange(2**16), made.randrange(2**32), made.choice([2, 10]), made.randrange(128), offset)
            for _ in range(3):
                length = made.choice([0, 1, 2, 3, 4, 60, 1514, 65536])
                model.packet(made.randrange(count), made.randrange(2**64), made.randrange(2**32), length, made.randrange(256))
    return model


def agrees_with_tshark(path, model):
    """Returns whether tshark reads the packets' times, stored and original lengths."""
    words = ["tshark", "-r", str(path), "-T", "fields", "-e", "frame.time_epoch", "-e", "frame.cap_len", "-e", "frame.len"]
    read = subprocess.run(words, capture_output=True, text=True, check=True).stdout.split("\n")[:-1]
    wanted = []
    for line in model.lines:
        _, _, _, time, _, lengths, *_ = line.split(" ")
        wanted.append("\t".join([time, *lengths.split("/")]))
    return read == wanted


def main():
    program, folder = sys.argv[1], Path(sys.argv[2])
    models = {f"put_{order}": plain(order) for order in MAGICS}
    models |= {f"put_refused_{order}": refused(order) for order in MAGICS}
    models |= {f"put_mixed_{seed}": mixed(seed) for seed in range(8)}
    for name, model in models.items():
        done = subprocess.run([program], input="".join(f"{row}\n" for row in model.rows).encode(), capture_output=True, check=False)
        if done.returncode != 0 or done.stdout != model.data:
            sys.exit(f"puts.py: {name}: other bytes than the model's")
        if done.stderr.decode() != "".join(f"refused {rule}\n" for rule in model.refused):
            sys.exit(f"puts.py: {name}: {done.stderr.decode()!r}")
        (folder / f"{name}.pcapng").write_bytes(done.stdout)
        (folder / f"{name}.pcapng.packets").write_text("".join(f"{line}\n" for line in model.lines))
        if shutil.which("tshark") and name in ("put_big", "put_little") and not agrees_with_tshark(folder / f"{name}.pcapng", model):
            sys.exit(f"puts.py: {name}: tshark reads other packets")


main()
