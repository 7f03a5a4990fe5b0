"""Checks captures whose packets have further bytes in their headers: the modified format a1b2cd34 in both byte orders, and captures with
the plain magic number. The words with `--as-is` and `repair` read all of their packets, and the strict ones name them."""
import random
import struct
import subprocess
import tempfile

import cutting
import left_out

DONE, AT_FAULT, REPAIRED, GUESSED = 0, 1, 5, 6
PLAIN, MODIFIED = 0xA1B2C3D4, 0xA1B2CD34
FIRST = 1_600_000_000 * 10**9
# The magic number, the number of further bytes, and how a message names the variant.
NOKIA = "packet headers of 20 bytes, as in captures of Nokia"
LIBPCAP = "packet headers of {} bytes, as a modified libpcap writes them"
VARIANTS = ((PLAIN, 4, NOKIA), (PLAIN, 8, LIBPCAP.format(24)), (MODIFIED, 8, LIBPCAP.format(24)), (MODIFIED, 12, LIBPCAP.format(28)))


def further(order, magic, number):
    """Returns the further bytes of a header: an interface, a protocol, a type, and what is unused."""
    if number == 4:
        return struct.pack(order + "I", 0x0A000001)
    return struct.pack(order + "IHBB", 2, 0x0800, 4, 0) + bytes(number - 8)


def piece(order, magic, number, packet):
    """Returns the bytes of a packet (nanoseconds since 1970, length on the wire, data) in a capture with so many further bytes."""
    time, wire, data = packet
    seconds, rest = divmod(time, 10**9)
    return struct.pack(order + "IIII", seconds, rest // 1000, len(data), wire) + (further(order, magic, number) if number else b"") + data


def header(order, magic):
    return struct.pack(order + "IHHiIII", magic, 2, 4, 0, 0, 65535, 1)


def capture_of(order, magic, number, packets):
    return header(order, magic) + b"".join(piece(order, magic, number, it) for it in packets)


def some(count, size=900):
    draw = random.Random(count)
    return [(FIRST + k * 10**8, 70000, draw.randbytes(draw.randrange(size + 1))) for k in range(count)]


def each():
    for order in "<>":
        for magic, number, name in VARIANTS:
            yield order, magic, number, name


def left_out_line(number, name):
    return f"pcapfile: in: {name}: the {number} further bytes of each are left out, and bytes are counted without them\n"


def summary(count):
    return f"pcapfile: in: {count} packets kept, 0 repaired, 0 guessed, 0 left out, 0 bytes skipped\n"


def names_no_change(told):
    """Returns whether a repair names only the variant, and counts packets."""
    return told.count("\n") < 3


def ran(tally, help, capture, *words):
    with tempfile.TemporaryDirectory() as folder:
        help.put(folder, "in", capture)
        code, written, told = cutting.ran(tally, folder, *words)
        return code, written, help.files(folder).get("out", b""), told


def try_reading(tally, help):
    """Checks that the lenient words read all packets, however many there are, and write a plain capture."""
    for order, magic, number, name in each():
        # The last one is longer than what the program looks at at once.
        for count, size in ((3, 60), (10, 900), (300, 900), *([(90, 60000)] if (order, number) == ("<", 4) else [])):
            packets = some(count, size)
            capture, plain = capture_of(order, magic, number, packets), capture_of(order, PLAIN, 0, packets)
            line = left_out_line(number, name)
            title = f"{order}, {magic:x}, {number} further bytes, {count} packets"
            for words in (("repair", "in", "-o", "out"), ("repair", "--guess", "in", "-o", "out"), ("convert", "--repair", "in", "-o", "out", "--to", "pcap")):
                code, _, made, told = ran(tally, help, capture, *words)
                wanted = REPAIRED if words[0] == "repair" else DONE, line + summary(count)
                tally.note(f"{words[:2]} of {title}", (code, told) != wanted and f"it ended with {code} and said {told!r}", made != plain and f"it wrote {len(made)} bytes")
            for words in (("check", "--as-is", "in"), ("list", "--as-is", "in")):
                code, written, _, told = ran(tally, help, capture, *words)
                wanted = ran(tally, help, plain, *words)
                tally.note(f"{words} of {title}", (code, told) != (DONE, line) and f"it ended with {code} and said {told!r}", written != wanted[1] and f"it wrote {written[:200]}")
            code, _, made, told = ran(tally, help, plain, "repair", "in", "-o", "out")
            tally.note(f"repair of a plain capture, {title}", (code, told, made) != (DONE, f"pcapfile: in: no damage found; {count} packets kept\n", plain) and f"it ended with {code} and said {told!r}")


def try_pipe(tally, help):
    """Checks that a capture is recognized when it comes through a pipe, piece by piece."""
    for order, magic, number, name in each():
        packets = some(40)
        capture, plain = capture_of(order, magic, number, packets), capture_of(order, PLAIN, 0, packets)
        with tempfile.TemporaryDirectory() as folder:
            code, _, told = cutting.ran(tally, folder, "repair", "-", "-o", "out", given=capture)
            made = help.files(folder).get("out", b"")
        tally.note(f"a pipe, {order}, {number} further bytes", (code, made) != (REPAIRED, plain) and f"it ended with {code} and said {told!r}")


def try_names(tally, help):
    """Checks that the strict words refuse such a capture by name. With the plain magic number its first packet is read before."""
    for order, magic, number, name in each():
        capture = capture_of(order, magic, number, some(10))
        named = f"pcapfile: in: has {name}; 'pcapfile repair' makes it a plain capture\n"
        for words in (("check", "in"), ("info", "in"), ("list", "in"), ("convert", "in", "-o", "out"), ("cut", "in", "-o", "out"), ("merge", "in", "-o", "out"), ("join", "in", "-o", "out")):
            # `cut` and `join` name the rule that the second packet breaks.
            said = "pcapfile: in: refused at byte " if magic == PLAIN and words[0] in ("cut", "join") else named
            code, written, made, told = ran(tally, help, capture, *words)
            is_listed = magic == PLAIN and words[0] in ("list", "merge")
            tally.note(
                f"{words[0]} of {order}, {magic:x}, {number} further bytes",
                (code != AT_FAULT or not told.startswith(said)) and f"it ended with {code} and said {told!r}",
                (made or written) and not is_listed and f"it wrote {written!r} and {len(made)} bytes",
            )


def try_plain(tally, help):
    """Checks that plain captures stay what they are: also with a torn packet, a day without packets, or corrupt bytes behind the first."""
    packets = some(6)
    late = [(time + 3 * 86400 * 10**9 * k, wire, data) for k, (time, wire, data) in enumerate(packets)]
    for order in "<>":
        whole = capture_of(order, PLAIN, 0, packets)
        first = 24 + 16 + len(packets[0][2])
        for title, capture in (
            ("an empty one", whole[:24]), ("one packet", whole[:first]), ("late packets", capture_of(order, PLAIN, 0, late)),
            *((f"{more} bytes behind the first packet", whole[: first + more]) for more in (1, 4, 8, 12, 15, 16, 20)),
            *((f"{len(gap)} bytes between the first packets", whole[:first] + gap + whole[first:]) for gap in (b"\xff" * 4, bytes(4), b"\xff" * 8, b"\xff" * 40)),
        ):
            for words in (("repair", "in", "-o", "out"), ("check", "--as-is", "in"), ("check", "in")):
                _, _, made, told = ran(tally, help, capture, *words)
                tally.note(f"{words[:2]} of {title}, {order}", "further" in told and f"it said {told!r}", "packet headers" in told and f"it said {told!r}", words[0] == "repair" and not made.startswith(capture[: min(first, len(capture))]) and "it lost the first packet")


def try_damage(tally, help):
    """Checks that corrupt bytes, a wrong length and a truncated end cost no packet beside them."""
    for order, magic, number, name in each():
        packets = some(200)
        each_piece = [piece(order, magic, number, it) for it in packets]
        plain = [piece(order, PLAIN, 0, it) for it in packets]
        title = f"{order}, {magic:x}, {number} further bytes"
        start = header(order, PLAIN)
        for size in (1, 7, 100, 5000, 30_000):
            for gap in (b"\xff" * size, bytes(size), random.Random(size).randbytes(size)):
                capture = header(order, magic) + b"".join(each_piece[:90]) + gap + b"".join(each_piece[90:])
                code, _, made, told = ran(tally, help, capture, "repair", "in", "-o", "out")
                kept = made.endswith(b"".join(plain[91:])) and made.startswith(start + b"".join(plain[:89]))
                tally.note(f"{size} bytes {gap[:2]} in {title}", code not in (REPAIRED, GUESSED) and f"it ended with {code}", not kept and f"it lost packets: {told!r}", names_no_change(told) and "it reports no gap")
        for wrong in (0, 1, 40_000, 200_000, 0x7FFFFFFF):
            torn = bytearray(each_piece[90])
            torn[8:12] = struct.pack(order + "I", wrong)
            capture = header(order, magic) + b"".join(each_piece[:90]) + bytes(torn) + b"".join(each_piece[91:])
            code, _, made, told = ran(tally, help, capture, "repair", "in", "-o", "out")
            kept = made.endswith(b"".join(plain[91:])) and made.startswith(start + b"".join(plain[:90]))
            tally.note(f"the length {wrong} in {title}", code not in (REPAIRED, GUESSED) and f"it ended with {code}", not kept and f"it lost packets: {told!r}", names_no_change(told) and "it reports no change")
        whole = header(order, magic) + b"".join(each_piece)
        for less in (1, len(packets[-1][2]), len(packets[-1][2]) + number, len(each_piece[-1]) - 1):
            code, _, made, told = ran(tally, help, whole[:-less], "repair", "in", "-o", "out")
            torn = start + b"".join(plain)
            torn = torn[: -min(less, len(packets[-1][2]))]
            listed, wanted = (ran(tally, help, it, "list", "--as-is", "in") for it in (whole[:-less], torn))
            is_listed = (listed[0], listed[1], listed[3]) == (wanted[0], wanted[1], left_out_line(number, name) + wanted[3])
            tally.note(f"{less} bytes less in {title}", not is_listed and f"it ended with {listed[0]} and said {listed[3]!r}", code not in (REPAIRED, GUESSED) and f"it ended with {code}", not made.startswith(start + b"".join(plain[:-1])) and f"it lost packets: {told!r}", names_no_change(told) and "it reports no torn packet")


def try_tools(tally, help):
    """Checks that capinfos counts all packets of the repaired capture, and that tshark reads the same data in both."""
    if not left_out.has("capinfos", "repaired variants as capinfos reads them, in tests/files/run"):
        return
    for order, magic, number, name in each():
        packets = some(50)
        capture = capture_of(order, magic, number, packets)
        with tempfile.TemporaryDirectory() as folder:
            help.put(folder, "in", capture)
            cutting.ran(tally, folder, "repair", "in", "-o", "out")
            counted = [subprocess.run(["capinfos", "-T", "-r", "-S", "-c", "-d", "-a", "-e", f"{folder}/{it}"], capture_output=True, text=True, timeout=60).stdout.split("\t")[1:] for it in ("in", "out")]
        tally.note(f"capinfos of {order}, {magic:x}, {number} further bytes", counted[1][:1] != ["50"] and f"it counts {counted[1]}", magic == MODIFIED and counted[0] != counted[1] and f"it reads {counted[0]} before")


def try_all(tally, help):
    for tries in (try_reading, try_pipe, try_names, try_plain, try_damage, try_tools):
        tries(tally, help)
