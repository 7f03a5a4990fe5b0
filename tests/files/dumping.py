"""Checks what `pcapfile list --hex` writes: lines as listing.py makes them, and rows of bytes as Python makes them. If tshark is installed,
its rows must be the same. Packets have every byte, and lengths around those of a row and of one more digit in the offsets."""
import itertools
import os
import re
import select
import struct
import subprocess
import tempfile

import left_out
import listing
from listing import AT_FAULT, BILLION, DONE, ENHANCED, INTERFACE, OLD, SECTION, SIMPLE, USAGE

FAILED = 3
EVERY_BYTE = bytes(range(256))
# A number of a link type that is free for private use, so that tshark shows the bytes and no more.
USER = 147


def rows(data):
    """Returns the rows of a packet's bytes in the layout of `tshark -x`, and the empty line."""
    digits = max(4, len(f"{max(len(data) - 1, 0):x}"))
    lines = []
    for at in range(0, len(data), 16):
        part = data[at : at + 16]
        shown = "".join(chr(it) if 0x20 <= it <= 0x7E else "." for it in part)
        lines.append(f"{at:0{digits}x}  {part.hex(' '):<47}   {shown}\n")
    return "".join(lines) + "\n"


def classic_data(capture):
    order, at = ("<" if struct.unpack_from("<I", capture)[0] in listing.MAGICS else ">"), 24
    while at < len(capture):
        (stored,) = struct.unpack_from(order + "8xI", capture, at)
        yield capture[at + 16 : at + 16 + stored]
        at += 16 + stored


def block_data(capture):
    """Yields the stored bytes of each packet. A malformed body has none."""
    at, order, snaplens = 0, "<", []
    while at < len(capture):
        if struct.unpack_from("<I", capture, at)[0] == SECTION:
            order, snaplens = ("<" if capture[at + 8] == 0x4D else ">"), []
        number, length = struct.unpack_from(order + "II", capture, at)
        body = capture[at + 8 : at + length - 4]
        if number == INTERFACE:
            snaplens.append(struct.unpack_from(order + "4xI", body)[0])
        elif number == SIMPLE:
            (wire,) = struct.unpack_from(order + "I", body)
            yield body[4:][: min(wire, snaplens[0] if snaplens and snaplens[0] else wire)]
        elif number in (OLD, ENHANCED):
            (stored,) = struct.unpack_from(order + "12xI", body)
            yield body[20 : 20 + stored] if stored <= len(body) - 20 else b""
        at += length


def plain(capture):
    """Returns the line of each packet with its time in seconds."""
    lines = []
    for (index, seconds, nanoseconds, captured, original, interface), _ in listing.rows_of(capture):
        time = "-" if seconds is None else f"{seconds}.{nanoseconds:09}"
        behind = "" if interface is None else f" {interface}"
        lines.append(f"{index} refused\n" if captured is None else f"{index} {time} {captured}/{original}{behind}\n")
    return lines


def dumps(capture, words=()):
    """Returns the text of each packet of a capture."""
    lines = listing.utc(capture) if "--utc" in words else plain(capture)
    data = block_data(capture) if capture[:4] == b"\n\r\r\n" else classic_data(capture)
    return [line + rows(it) for line, it in itertools.zip_longest(lines, data)]


class Dumps:
    def __init__(self, tally, lib):
        self.tally, self.lib, self.lists = tally, lib, listing.Lists(tally, lib)

    def shows(self, name, capture, status=DONE, said="", whole=None):
        """Checks the text of a capture, from a file and from a pipe. If only a part has packets, `whole` is that part."""
        whole = capture if whole is None else whole
        refused = sum(row[3] is None for row, _ in listing.rows_of(whole))
        status, said = max(status, AT_FAULT * (refused > 0)), listing.malformed(refused) + said
        for words, piped in itertools.product((["--hex"], ["--hex", "--utc"]), (False, True)):
            told = re.sub("cut short at byte .*", "cut short", said.format("-")) if piped else said.format("in")
            code, out, found = self.lists.run({"in": capture}, words, piped)
            self.tally.note(
                f"list {' '.join(words)}, {name}, {'a pipe' if piped else 'a file'}",
                (code, found) != (status, told) and f"it ended with {code}, {found!r}",
                differing(out, "".join(dumps(whole, words))),
                re.search(r"[^\n\x20-\x7e]", out) and "it has a character that is not printable",
            )


def differing(out, wanted):
    """Returns the first line that differs, or None."""
    for number, (found, line) in enumerate(itertools.zip_longest(out.splitlines(True), wanted.splitlines(True)), 1):
        if found != line:
            return f"line {number} is {found!r}, and not {line!r}"
    return None


def of_lengths(lib, lengths):
    return [(k * BILLION + k, length + 3, (EVERY_BYTE * (length // 256 + 1))[k : k + length]) for k, length in enumerate(lengths)]


def try_classic(dumped):
    lib = dumped.lib
    few = of_lengths(lib, [*range(36), 255, 256, 257, 1500])
    for order, magic in itertools.product("<>", listing.MAGICS):
        dumped.shows(f"lengths, {order} {magic:x}", lib.classic(order, magic, listing.MAGICS[magic], lib.RAW, few)[0])
    dumped.shows("no packets", lib.classic("<", 0xA1B23C4D, 1, lib.RAW, [])[0])
    dumped.shows("many packets", lib.classic("<", 0xA1B23C4D, 1, lib.RAW, lib.MANY)[0])
    dumped.shows("long packets", lib.classic("<", 0xA1B23C4D, 1, lib.RAW, of_lengths(lib, [65535, 65536, 65537, 65552, 262141]))[0])
    past = struct.pack("<IIII", 5, 3 * BILLION + 1, 2, 2) + b"\x00\xff"
    dumped.shows("a fraction past a second", lib.classic("<", 0xA1B23C4D, 1, lib.RAW, few)[0] + past)


def try_blocks(dumped):
    lib = dumped.lib
    for order in "<>":
        few = [lib.enhanced(order, k % 2, k * BILLION, length + 1, EVERY_BYTE[k : k + length]) for k, length in enumerate((0, 1, 15, 16, 17, 33))]
        odd = [(SIMPLE, struct.pack(order + "I", 70) + b"s" * 64), (SIMPLE, struct.pack(order + "I", 3) + b"abc")]
        odd += [(OLD, struct.pack(order + "HHIIII", 1, 0, 1, 2, 5, 40) + b"abcde"), (ENHANCED, struct.pack(order + "IIIII", 0, 0, 1, 9, 9) + b"short")]
        # Rows and lines with this end must not be counted as malformed.
        odd += [lib.enhanced(order, 0, 5, 99, b"12345678 refused"), lib.enhanced(order, 9, 5, 99, b" is refused")]
        long = [lib.enhanced(order, 0, 7, 70001, EVERY_BYTE * 273 + b"long"), lib.enhanced(order, 0, 7, 1, b"")]
        capture, _ = lib.blocks(order, [lib.interface(order, 1, 64, True), lib.interface(order, USER, 0), *few, *odd, *long])
        dumped.shows(f"blocks {order}", capture)
        dumped.shows(f"two sections {order}", capture + capture)


def try_cut(dumped):
    """Checks a truncated capture: the packets before come first."""
    lib = dumped.lib
    packets = of_lengths(lib, [5, 0, 17])
    parts = [lib.interface("<", 1), *(lib.enhanced("<", 0, time // 1000, wire, data) for time, wire, data in packets)]
    for capture, ends in (lib.classic("<", 0xA1B23C4D, 1, lib.RAW, packets), lib.blocks("<", parts)):
        for at in range(ends[0], len(capture)):
            if at not in ends:
                whole = capture[: max(it for it in ends if it <= at)]
                dumped.shows(f"cut at {at} of {len(capture)}", capture[:at], AT_FAULT, f"pcapfile: {{0}}: cut short at byte {len(whole)}\n", whole)


def try_counts(dumped):
    """Checks -n, several captures, and forms that --hex excludes."""
    lib, tally = dumped.lib, dumped.tally
    packets = of_lengths(lib, [3, 0, 40, 16, 9])
    one, _ = lib.classic("<", 0xA1B23C4D, 1, lib.RAW, packets)
    bad = (ENHANCED, struct.pack("<IIIII", 0, 0, 1, 9, 9) + b"short")
    two, _ = lib.blocks("<", [lib.interface("<", 1), bad, *(lib.enhanced("<", 0, 1, wire, data) for _, wire, data in packets)])
    captures = {"one": one, "two": two}
    for count, words in itertools.product(range(1, 8), (["--hex"], ["--hex", "--utc"])):
        wanted = "".join(f"{name}:\n{''.join(dumps(it, words)[:count])}" for name, it in captures.items())
        ended = dumped.lists.run(captures, [*words, "-n", str(count)])
        tally.note(f"list {' '.join(words)} -n {count}", ended != (AT_FAULT, wanted, listing.malformed(1).format("two")) and f"it gives {ended}, and not {wanted!r}")
    for other in ("--csv", "--json", "--as-is"):
        for words in (["--hex", other], [other, "--hex"]):
            code, out, said = dumped.lists.run(captures, words)
            named = all(it in said for it in ("--hex", other))
            tally.note(f"list {' '.join(words)}", (code, out, said[:7], named) != (USAGE, "", "error: ", True) and f"it gives {code}, {out!r}, {said!r}")


def try_live(dumped):
    """Checks that the program writes the packets of a live capture before it waits."""
    lib = dumped.lib
    capture, ends = lib.classic("<", 0xA1B23C4D, 1, lib.RAW, of_lengths(lib, [20, 30]))
    with subprocess.Popen([dumped.tally.program, "list", "--hex", "-"], stdin=subprocess.PIPE, stdout=subprocess.PIPE) as ran:
        os.write(ran.stdin.fileno(), capture[: ends[1]])
        came = b""
        while came.count(b"\n") < 4 and select.select([ran.stdout], [], [], 20)[0]:
            came += os.read(ran.stdout.fileno(), 65536)
        ran.stdin.close()
    dumped.tally.note("list --hex, live", came.decode() != dumps(capture)[0] and f"it has {came!r} before more comes")


def try_failing(dumped):
    """Checks a full disk."""
    lib = dumped.lib
    with tempfile.TemporaryDirectory() as folder:
        lib.put(folder, "in", lib.classic("<", 0xA1B23C4D, 1, lib.RAW, of_lengths(lib, [1500] * 400))[0])
        with open("/dev/full", "wb") as full:
            ended = subprocess.run([dumped.tally.program, "list", "--hex", f"{folder}/in"], stdout=full, stderr=subprocess.PIPE, timeout=lib.SECONDS)
    dumped.tally.note("list --hex on a full disk", ended.returncode != FAILED and f"it ended with {ended.returncode}, {ended.stderr!r}")


def try_memory(dumped):
    lib = dumped.lib
    few, _ = lib.classic("<", 0xA1B23C4D, 1, lib.RAW, of_lengths(lib, [1000] * 10))
    many = few + few[24:] * 400
    little, much = listing.memory_of(dumped.lists, "--hex", few), listing.memory_of(dumped.lists, "--hex", many)
    dumped.tally.note("list --hex, memory", much > little + 1024 and f"{much} KiB of 4010 packets, and {little} of 10")


def try_beside(dumped):
    """Checks that the rows are those of tshark."""
    if not left_out.has("tshark", "rows of bytes beside tshark, in tests/files/run"):
        return
    lib = dumped.lib
    packets = of_lengths(lib, [*range(1, 36), 255, 256, 257, 65535, 65536, 65537, 262141])
    parts = [lib.interface("<", USER, 0, True), *(lib.enhanced("<", 0, time, wire, data) for time, wire, data in packets)]
    for name, capture in (("classic", lib.classic(">", 0xA1B2C3D4, 1000, USER, packets)[0]), ("blocks", lib.blocks("<", parts)[0])):
        with tempfile.TemporaryDirectory() as folder:
            lib.put(folder, "in", capture)
            peer = subprocess.run(["tshark", "-x", "-r", "in"], cwd=folder, capture_output=True, text=True, timeout=lib.SECONDS)
        _, out, _ = dumped.lists.run({"in": capture}, ["--hex"])
        ours = re.sub(r"^\d+ \S+ \d+/\d+( \d+)?\n", "", out, flags=re.M)
        dumped.tally.note(f"list --hex beside tshark, {name}", peer.returncode != 0 and f"tshark ended with {peer.returncode}", differing(ours, peer.stdout))


def try_all(tally, help):
    dumped = Dumps(tally, help)
    for tries in (try_classic, try_blocks, try_cut, try_counts, try_live, try_failing, try_memory, try_beside):
        tries(dumped)
