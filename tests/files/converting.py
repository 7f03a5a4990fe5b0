"""Checks what `pcapfile convert` writes. Other parts use the captures that are made here, and the functions that read captures.

A capture is made and read by struct alone. Each conversion has a folder of its own, so that the test sees a file that is left over. The
captures of stored/ must become each other byte for byte. Captures are truncated at each byte, and writes fail by a limit of the length of
files. Each failure must print its line and leave nothing, and must spare the file that had the name.
"""
import os
import resource
import struct
import subprocess
import tempfile

import streams

TOP = os.path.dirname(os.path.dirname(os.path.dirname(os.path.abspath(__file__))))
STORED = os.path.join(TOP, "tests", "files", "stored")
SECONDS = 60
SECTION, INTERFACE, SIMPLE, NAMES, PACKET = 0x0A0D0D0A, 1, 3, 4, 6
ETHERNET, RAW = 1, 101
DONE, AT_FAULT, USAGE, FAILED = 0, 1, 2, 3


def classic(order, magic, fraction, link, packets):
    """Returns a capture of (nanoseconds since 1970, length on the wire, data), and where each of its items ends."""
    capture = struct.pack(order + "IHHiIII", magic, 2, 4, 0, 0, 65535, link)
    ends = [len(capture)]
    for time, wire, data in packets:
        seconds, rest = divmod(time, 10**9)
        capture += struct.pack(order + "IIII", seconds, rest // fraction, len(data), wire) + data
        ends.append(len(capture))
    return capture, ends


def block(order, number, body):
    body += bytes(-len(body) % 4)
    return struct.pack(order + "II", number, len(body) + 12) + body + struct.pack(order + "I", len(body) + 12)


def blocks(order, parts):
    """Returns a capture of a section header and these blocks, and where each block ends."""
    capture = block(order, SECTION, struct.pack(order + "IHHq", 0x1A2B3C4D, 1, 0, -1))
    ends = [len(capture)]
    for number, body in parts:
        capture += block(order, number, body)
        ends.append(len(capture))
    return capture, ends


def interface(order, link, snaplen=0, nanoseconds=False):
    options = struct.pack(order + "HHB3xHH", 9, 1, 9, 0, 0) if nanoseconds else b""
    return INTERFACE, struct.pack(order + "HHI", link, 0, snaplen) + options


def enhanced(order, number, units, wire, data):
    return PACKET, struct.pack(order + "IIIII", number, units >> 32, units & 0xFFFFFFFF, len(data), wire) + data


def packets_of(capture):
    """Returns (link type, nanoseconds since 1970, length on the wire, data) of each packet of a capture of either format."""
    return list((blocks_read if capture[:4] == bytes.fromhex("0a0d0d0a") else classic_read)(capture))


def classic_read(capture):
    magics = {0xA1B2C3D4: 1000, 0xA1B23C4D: 1}
    order = "<" if struct.unpack_from("<I", capture)[0] in magics else ">"
    magic, _, _, _, _, _, link = struct.unpack_from(order + "IHHiIII", capture)
    at = 24
    while at < len(capture):
        seconds, rest, stored, wire = struct.unpack_from(order + "IIII", capture, at)
        data = capture[at + 16 : at + 16 + stored]
        assert len(data) == stored, "a packet is torn"
        yield link, seconds * 10**9 + rest * magics[magic], wire, data
        at += 16 + stored


def blocks_read(capture):
    at, order, links = 0, "<", []
    while at < len(capture):
        if capture[at : at + 4] == bytes.fromhex("0a0d0d0a"):
            order, links = ("<" if capture[at + 8] == 0x4D else ">"), []
        number, length = struct.unpack_from(order + "II", capture, at)
        assert struct.unpack_from(order + "I", capture, at + length - 4)[0] == length, "a block has two lengths"
        body = capture[at + 8 : at + length - 4]
        if number == INTERFACE:
            links.append((struct.unpack_from(order + "H", body)[0], nanoseconds_of_unit(order, body)))
        elif number == PACKET:
            which, high, low, stored, wire = struct.unpack_from(order + "IIIII", body)
            link, unit = links[which]
            yield link, (high << 32 | low) * unit, wire, body[20 : 20 + stored]
        at += length


def nanoseconds_of_unit(order, body):
    """Returns how long a unit of an interface lasts. Its resolution is a power of ten not below nanoseconds."""
    at = 8
    while at + 4 <= len(body):
        code, length = struct.unpack_from(order + "HH", body, at)
        if code == 9:
            return 10 ** (9 - body[at + 4])
        at += 4 + length + -length % 4
    return 1000


class Tally:
    def __init__(self, program):
        self.program = program
        self.passed = self.failed = 0

    def note(self, name, *faults):
        faults = [it for it in faults if it]
        for fault in faults:
            print(f"{name}: {fault}")
        self.passed += not faults
        self.failed += bool(faults)

    def run(self, folder, words, given=b"", most=None, word="convert"):
        """Returns the program's status, its output and its messages. No file may be longer than `most` bytes."""

        def limit():
            resource.setrlimit(resource.RLIMIT_FSIZE, (most, most))

        # If that signal stays ignored, as Python leaves it, a write that is too long fails. Without a function to call, Python starts a
        # process much faster.
        ran = subprocess.run(
            [self.program, *filter(None, [word]), *words],
            input=given, cwd=folder, capture_output=True, timeout=SECONDS, preexec_fn=None if most is None else limit, restore_signals=False,
        )
        return ran.returncode, ran.stdout, streams.without_remedy(ran.returncode, ran.stderr.decode())

    def converts(self, name, capture, wanted, begins, words=(), said=""):
        """Checks that a file becomes one with these packets and this beginning, and that pipes give the same."""
        with tempfile.TemporaryDirectory() as folder:
            put(folder, "in", capture)
            ended = self.run(folder, [*words, "in", "-o", "out"])
            left = files(folder)
            piped = self.run(folder, [*words, "-", "-o", "-"], capture)
        out = left.get("out", b"")
        self.note(
            name,
            ended != (DONE, b"", said.format("in")) and f"it ended with {ended}",
            sorted(left) != ["in", "out"] and f"it left {sorted(left)}",
            not out.startswith(begins) and f"it begins with {out[:48].hex()}",
            packets_of(out) != wanted and f"it has {packets_of(out)}, and not {wanted}",
            piped != (DONE, out, said.format("-")) and f"through pipes it ended with {piped}",
        )
        return out

    def fails(self, name, words, held, status, said, most=None, alone=False):
        """Checks that a conversion ends with this status and this line, and that the folder holds what it held before."""
        with tempfile.TemporaryDirectory() as folder:
            for path, content in held.items():
                put(folder, path, content)
            code, written, told = self.run(folder, words, most=most)
            left = files(folder)
        self.note(
            name,
            code != status and f"it ended with {code}: {told!r}",
            written and f"it wrote {written!r}",
            (not told.startswith(said) if alone else told != said) and f"it said {told!r}, and not {said!r}",
            left != held and f"it left {sorted(left)}",
        )


def put(folder, path, content):
    path = os.path.join(folder, path)
    if content is None:
        os.mkdir(path)
        return
    with open(path, "wb") as it:
        it.write(content)


def files(folder):
    """Returns what a folder has: the content of each file, and None for a folder."""
    found = {}
    for it in os.scandir(folder):
        found[it.name] = None
        if not it.is_dir():
            with open(it.path, "rb") as opened:
                found[it.name] = opened.read()
    return found


FEW = [(1335958313152630000, 60, bytes(range(60))), (5000, 1500, b"cut"), (4294967295999999000, 0, b"")]
MANY = [(k * 1000003000, k % 1500 + 40, bytes([k & 255]) * (k % 1500)) for k in range(1200)]


def of_link(link, packets):
    return [(link, *it) for it in packets]


def try_both_ways(tally):
    """Checks each kind of classic capture as PcapNg and back, and in its own format."""
    for order, kind in (("<", "little"), (">", "big")):
        for magic, fraction, unit in ((0xA1B2C3D4, 1000, "micro"), (0xA1B23C4D, 1, "nano")):
            for packets in ([], FEW, MANY):
                name = f"{len(packets)} packets, {kind} {unit}"
                capture, _ = classic(order, magic, fraction, RAW, packets)
                wanted = of_link(RAW, packets)
                section = struct.pack("<III", SECTION, 28, 0x1A2B3C4D)
                made = tally.converts(f"{name}, to blocks", capture, wanted, section)
                back, _ = classic("<", 0xA1B23C4D, 1, RAW, packets)
                tally.converts(f"{name}, and back", made, wanted, back)
                tally.converts(f"{name}, as it is", capture, wanted, capture, ["--to", "pcap"])
                tally.converts(f"{name}, blocks as they are", made, wanted, made, ["--to", "pcapng"])


def try_stored(tally):
    """Checks the captures of stored/. editcap made its blocks.pcap of blocks.pcapng, and the public draft its packets.pcapng of packets.pcap."""
    held = files(STORED)
    said = ONE_BLOCK.format("sections") + BLOCKS.format(3, "interfaces") + OPENING
    for given, made, said in (("blocks.pcapng", "blocks.pcap", said), ("packets.pcap", "packets.pcapng", "")):
        wanted = held[made]
        out = tally.converts(f"the stored {given}", held[given], packets_of(wanted), wanted, said=said)
        tally.note(f"the stored {made}", out != wanted and f"it has {len(out)} bytes, and not {len(wanted)}")
        tally.converts(f"the stored {made}, as it is", wanted, packets_of(wanted), wanted, ["--to", made.partition(".")[2]])


def try_left_out(tally):
    """Checks that blocks without a place in a classic capture are left out with a message."""
    for order in "<>":
        few = [enhanced(order, 0, time // 1000, wire, data) for time, wire, data in FEW]
        begins = struct.pack("<IHHiIII", 0xA1B23C4D, 2, 4, 0, 0, 262144, ETHERNET)
        wanted = of_link(ETHERNET, FEW)
        ethernet = interface(order, ETHERNET)
        capture, _ = blocks(order, [ethernet, *few])
        tally.converts("blocks in microseconds", capture, wanted, begins)
        other = enhanced(order, 1, 1, 1, b"1")
        capture, _ = blocks(order, [ethernet, interface(order, RAW, 96, True), few[0], other, *few[1:]])
        tally.converts("two link types", capture, wanted, begins, said=ONE_PACKET + ONE_BLOCK.format("interfaces"))
        simple = SIMPLE, struct.pack(order + "I", 4) + b"data"
        capture, _ = blocks(order, [(NAMES, bytes(4)), ethernet, simple, simple, *few])
        tally.converts("simple packets and names", capture, wanted, begins, said=PACKETS.format(2) + ONE_BLOCK.format("names"))
        capture, _ = blocks(order, [])
        tally.converts("a section alone", capture, [], begins)
        short = interface(order, ETHERNET, 96)
        capture, _ = blocks(order, [short, *few])
        tally.converts("a snaplen", capture, wanted, begins[:16] + struct.pack("<II", 96, ETHERNET))


ONE_PACKET = "pcapfile: {0}: 1 packet has no place there, and is left out\n"
PACKETS = "pcapfile: {{0}}: {} packets have no place there, and are left out\n"
BLOCKS = "pcapfile: {{0}}: {} blocks of {} are left out\n"
ONE_BLOCK = "pcapfile: {{0}}: 1 block of {} is left out\n"
OPENING = "pcapfile: {0}: options of the first section and interface are left out\n"
TORN, EMPTY = "pcapfile: in: cut short at byte {}\n", "pcapfile: in: is empty\n"
REFUSED = "refused at byte {} by rule {}: {}"
WORDS = ["in", "-o", "out"]


def try_faults(tally):
    """Checks captures that are truncated at each byte, and that break a rule. They must leave no file, and spare one of that name."""
    order = ">"
    few = [enhanced(order, 0, time // 1000, wire, data) for time, wire, data in FEW]
    captures = classic(order, 0xA1B2C3D4, 1000, ETHERNET, FEW), blocks(order, [interface(order, ETHERNET), *few])
    for capture, ends in captures:
        for to in ("pcap", "pcapng"):
            for at in (it for it in range(len(capture)) if it not in ends):
                words = ["--to", to, *WORDS]
                said = TORN.format(max((it for it in ends if it <= at), default=0)) if at else EMPTY
                tally.fails(f"{len(capture)} bytes cut at {at}, to {to}", words, {"in": capture[:at]}, AT_FAULT, said)
    longer = struct.pack(">IIII", 1, 0, 2, 1) + b"hi"
    rows = (
        ("a packet longer than on the wire", captures[0][0], longer, REFUSED.format(len(captures[0][0]), 5, "PacketHeader incl_len > orig_len")),
        ("no capture", b"", b"\1these are 24 or more bytes", "Invalid field value: PcapHeader wrong magic number"),
        ("a block of 13 bytes", captures[1][0], struct.pack(">III", 255, 13, 0), REFUSED.format(len(captures[1][0]), 7, "Block: (initial_len % 4) != 0")),
    )
    for name, before, refused, said in rows:
        for held in ({"in": before + refused}, {"in": before + refused, "out": b"old"}):
            tally.fails(name, WORDS, held, AT_FAULT, f"pcapfile: in: {said}\n")


def try_files(tally):
    """Checks files that can't be opened, written or named."""
    capture, _ = classic("<", 0xA1B2C3D4, 1000, ETHERNET, MANY)
    made, _ = blocks("<", [interface("<", ETHERNET), *(enhanced("<", 0, t // 1000, w, d) for t, w, d in MANY)])
    for name, given in (("packets", capture), ("blocks", made)):
        for most in (0, 1, 65535, 65536, 200000):
            held = {"in": given, "out": b""}
            tally.fails(f"{name} where {most} bytes have room", WORDS, held, FAILED, "pcapfile: out: ", most, True)
            to = ["--to", name.replace("packets", "pcap").replace("blocks", "pcapng"), *WORDS]
            tally.fails(f"{name} as they are, {most} bytes", to, held, FAILED, "pcapfile: out: ", most, True)
    held = {"in": capture}
    for name, words, before, said in (
        ("no input", WORDS, {"out": b"old"}, "in: "),
        ("an input that is a folder", WORDS, {"in": None}, "in: "),
        ("no folder", ["in", "-o", "no/out"], held, "no/out.part: "),
        ("a folder where the part stands", WORDS, {**held, "out.part": None}, "out.part: "),
        ("a folder of that name", WORDS, {**held, "out": None}, "out: "),
        ("the capture itself", ["in", "-o", "in"], held, "in: is one of the inputs; choose another name for the output\n"),
    ):
        tally.fails(name, words, before, FAILED, f"pcapfile: {said}", alone=True)
    for name, words in (("no output", ["in"]), ("no such format", ["--to", "cap", *WORDS]), ("two inputs", ["in", *WORDS])):
        tally.fails(name, words, held, USAGE, "error: ", alone=True)


def try_replaced(tally):
    """Checks that the program replaces a file of that name when the new one is whole."""
    capture, _ = classic("<", 0xA1B2C3D4, 1000, ETHERNET, FEW)
    with tempfile.TemporaryDirectory() as folder:
        put(folder, "in", capture)
        put(folder, "out", b"old")
        ended = tally.run(folder, WORDS)
        left = files(folder)
    tally.note(
        "a file that is replaced",
        ended != (DONE, b"", "") and f"it ended with {ended}",
        sorted(left) != ["in", "out"] and f"it left {sorted(left)}",
        packets_of(left["out"]) != of_link(ETHERNET, FEW) and "it has other packets",
    )


def try_all(tally, help):
    for tries in (try_both_ways, try_stored, try_left_out, try_faults, try_files, try_replaced):
        tries(tally)
