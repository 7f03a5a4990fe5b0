"""Checks how `pcapfile cut` changes packets, by the same changes made with struct, and beside editcap if that is installed."""
import random
import struct

import cutting
import left_out

DONE, AT_FAULT, USAGE, FAILED = 0, 1, 2, 3
START, SECOND = 1700000000250000000, 10**9
ENHANCED, OLD, SIMPLE, NAMES, UNKNOWN = 6, 2, 3, 4, 0x12345
LENGTHS = (1, 3, 4, 5, 7, 8, 60, 2**32 - 1)
ORDERS = (("<", 0xA1B2C3D4, 1000), (">", 0xA1B23C4D, 1))
# The magic numbers of captures, by the nanoseconds in a unit of their times; for each unit the option of cut and the format of editcap.
MAGICS = {1000: 0xA1B2C3D4, 1: 0xA1B23C4D}
RESOLUTIONS = ((1000, "--microseconds"), (1, "--nanoseconds"))
FORMS = {1000: "pcap", 1: "nsecpcap"}
# A comment, and the end of the options.
COMMENT = {order: struct.pack(order + "HH", 1, 5) + b"notes\0\0\0" + bytes(4) for order in "<>"}


def refuses(tally, help, words, said="error: "):
    """Checks that the words are refused, and leave the file of that name as it is."""
    capture, _ = help.classic("<", 0xA1B2C3D4, 1000, 1, [(START, 90, b"data")])
    cutting.fails(tally, help, " ".join(words), {"in": capture, "out": b"old"}, ["cut", "in", *words, "-o", "out"], USAGE, said)


def sample():
    """Returns packets (nanoseconds, length on the wire, data) of several lengths."""
    return [(START + k * SECOND, 90 + k % 3, bytes(range(k * 5, k * 5 + k * 3 % 11))) for k in range(12)]


def packet_body(order, front, wire, data, padding, options):
    """Returns the body of an enhanced or an obsolete packet whose first twelve bytes are given."""
    filled = (padding * 3)[: -len(data) % 4]
    return front + struct.pack(order + "II", len(data), wire) + data + filled + options


def block_sample(order, shortest=None, padding=b"\xee"):
    """Returns the blocks of a section with packets of each kind. If a length is given, enhanced and obsolete packets are cut to it, and have
    zeros for padding if they were longer."""
    parts = [(1, struct.pack(order + "HHI", 1, 0, 65535)), (1, struct.pack(order + "HHI", 101, 0, 6))]
    for k, (time, wire, data) in enumerate(sample()):
        kept = data if shortest is None else data[:shortest]
        filling = padding if kept == data else b"\0"
        options = COMMENT[order] if k % 2 else b""
        units = time // 1000
        front = struct.pack(order + "III", k % 2, units >> 32, units & 0xFFFFFFFF)
        parts.append((ENHANCED, packet_body(order, front, wire, kept, filling, options)))
        front = struct.pack(order + "HHII", 1, k, units >> 32, units & 0xFFFFFFFF)
        parts.append((OLD, packet_body(order, front, wire, kept, filling, options)))
        parts.append((UNKNOWN, data))
    parts.append((NAMES, bytes(4)))
    return parts


def try_classic_lengths(tally, help):
    """Checks shortened packets of classic captures, with all tests of packets, which are made before the packets are shortened."""
    for order, magic, fraction in ORDERS:
        packets = sample()
        capture, _ = help.classic(order, magic, fraction, 101, packets)
        for most in LENGTHS:
            name = f"{most} bytes of packets, {order}{magic:x}"
            short = [(time, wire, data[:most]) for time, wire, data in packets]
            wanted, _ = help.classic(order, magic, fraction, 101, short)
            made = cutting.expects(tally, help, name, {"in": capture}, ["cut", "in", "--snaplen", str(most), "-o", "out"], {"out": wanted})
            cutting.expects(tally, help, f"{name}, again", {"in": wanted}, ["cut", "in", "--snaplen", str(most), "-o", "out"], {"out": wanted})
            if made and order == "<" and most < 2**31 and left_out.has("editcap", "shortened packets beside editcap, in tests/files/run"):
                given = help.packets_of(cutting.edited(capture, ["-s", str(most), "IN", "OUT"]))
                tally.note(f"editcap -s {most}", help.packets_of(made["out"]) != given and f"it has {given}")
        held = {"in": capture, "filter": b"4\n48 0 0 4\n21 0 1 34\n6 0 0 9\n6 0 0 0\n"}
        for words, chosen in (
            (["--packets", "2-4,9"], [packets[k] for k in (1, 2, 3, 8)]),
            (["--from", "+2s", "--until", "+5s", "--max-len", "91"], [it for it in packets[2:5] if it[1] <= 91]),
            (["--bpf", "filter"], [it for it in packets if it[2][4:5] == b"\x22"]),
            (["--interface", "1"], []),
        ):
            wanted, _ = help.classic(order, magic, fraction, 101, [(time, wire, data[:3]) for time, wire, data in chosen])
            cutting.expects(tally, help, f"3 bytes, {words}", held, ["cut", "in", *words, "--snaplen", "3", "-o", "out"], {"out": wanted})


def try_block_lengths(tally, help):
    """Checks shortened packets of blocks. Options and all other blocks stay, and so does the padding of packets that are short enough."""
    for order in "<>":
        given, _ = help.blocks(order, block_sample(order))
        for most in LENGTHS:
            wanted, _ = help.blocks(order, block_sample(order, most))
            words = ["cut", "in", "--snaplen", str(most), "-o", "out"]
            made = cutting.expects(tally, help, f"{most} bytes of blocks, {order}", {"in": given}, words, {"out": wanted})
            if order == "<" and "out" in made:
                checked = cutting.expects(tally, help, f"{most} bytes of blocks, again", {"in": made["out"]}, words, {"out": wanted})
                tally.note(f"{most} bytes of blocks are blocks", checked.get("out") != wanted and "they change again")
        other = "<" if order == ">" else ">"
        both = given + help.blocks(other, block_sample(other))[0]
        wanted = help.blocks(order, block_sample(order, 4))[0] + help.blocks(other, block_sample(other, 4))[0]
        cutting.expects(tally, help, "two sections", {"in": both}, ["cut", "in", "--snaplen", "4", "-o", "out"], {"out": wanted})


def try_kept_whole(tally, help):
    """Checks packets that can't be shortened: the program leaves them unchanged, and says how many there are."""
    for order in "<>":
        front = struct.pack(order + "III", 0, 0, 5)
        simple = [(SIMPLE, struct.pack(order + "I", wire) + data) for wire, data in ((3, b"abc\0"), (90, b"abcdefgh"), (5, b"abcde\0\0\0"), (4, b"abcd"))]
        torn = (ENHANCED, front + struct.pack(order + "II", 9, 9) + b"only")
        tiny = (OLD, bytes(16))
        interface = (1, struct.pack(order + "HHI", 1, 0, 8))
        whole = (ENHANCED, packet_body(order, front, 90, b"123456", b"\0", COMMENT[order]))
        short = (ENHANCED, packet_body(order, front, 90, b"1234", b"\0", COMMENT[order]))
        given, _ = help.blocks(order, [interface, *simple, whole, torn, tiny])
        wanted, _ = help.blocks(order, [interface, *simple, short, torn, tiny])
        said = "pcapfile: in: did not shorten 2 packets with a malformed body\npcapfile: in: did not shorten 2 packets in a simple block\n"
        cutting.expects(tally, help, f"whole packets, {order}", {"in": given}, ["cut", "in", "--snaplen", "4", "-o", "out"], {"out": wanted}, said=said)
        given, _ = help.blocks(order, [interface, simple[0], simple[1], whole])
        wanted, _ = help.blocks(order, [interface, simple[0], simple[1], short])
        said = "pcapfile: in: did not shorten 1 packet in a simple block\n"
        cutting.expects(tally, help, f"a simple packet, {order}", {"in": given}, ["cut", "in", "--snaplen", "4", "-o", "out"], {"out": wanted}, said=said)
        wanted, _ = help.blocks(order, [interface, short])
        cutting.expects(tally, help, f"a number and a length, {order}", {"in": given}, ["cut", "in", "--snaplen", "4", "--packets", "3", "-o", "out"], {"out": wanted})


def try_wrong_lengths(tally, help):
    for text in ("0", "-1", "", "a", "4294967296", "1.5", "1K"):
        refuses(tally, help, [f"--snaplen={text}"])
    for words in (["--every", "2"], ["--parts", "2"], ["--bytes", "1K"]):
        refuses(tally, help, ["--snaplen", "4", *words])


def resolved(order, capture, unit, to):
    """Returns a classic capture whose fractions are in units of `unit` nanoseconds with fractions in units of `to`, rounded down."""
    made, at = struct.pack(order + "I", MAGICS[to]) + capture[4:24], 24
    while at < len(capture):
        seconds, fraction, stored, wire = struct.unpack_from(order + "IIII", capture, at)
        made += struct.pack(order + "IIII", seconds, fraction * unit // to, stored, wire) + capture[at + 16 : at + 16 + stored]
        at += 16 + stored
    return made


def fractions_of(unit):
    """Returns fractions in units of so many nanoseconds: with one or more digits below a microsecond, of a second or more, and the largest."""
    return (0, 1, 999, 1000, 1999, 250000 // unit, SECOND // unit - 1, SECOND // unit, SECOND * 2 // unit + 1, (2**32 - 1) // unit)


def try_resolutions(tally, help):
    """Checks captures in the other resolution and in their own, and what the tests see. Each other field of the header keeps its bytes."""
    for order in "<>":
        for unit, magic in MAGICS.items():
            head = struct.pack(order + "IHHiIII", magic, 2, 3, -3600, 9, 96, 0x24000065)
            capture = head + b"".join(struct.pack(order + "IIII", START // SECOND + k, it, 4, 90) + b"data" for k, it in enumerate(fractions_of(unit)))
            for to, option in RESOLUTIONS:
                wanted, name = resolved(order, capture, unit, to), f"{option}, {order}{magic:x}"
                made = cutting.expects(tally, help, name, {"in": capture}, ["cut", "in", option, "-o", "out"], {"out": wanted})
                cutting.expects(tally, help, f"{name}, no packet", {"in": head}, ["cut", "in", option, "-o", "out"], {"out": wanted[:24]})
                tally.note(f"{name}, its own", to == unit and made.get("out") != capture and "it has other bytes")
                packets = sample()
                given = help.classic(order, magic, unit, 101, [(time + 1234567 * k, wire, data) for k, (time, wire, data) in enumerate(packets)])[0]
                made = cutting.expects(tally, help, f"{name}, a sample", {"in": given}, ["cut", "in", option, "-o", "out"], {"out": resolved(order, given, unit, to)})
                if left_out.has("editcap", "captures in another resolution beside editcap, in tests/files/run"):
                    theirs = cutting.edited(given, ["-F", FORMS[to], "IN", "OUT"])
                    other = help.packets_of(theirs) != help.packets_of(made.get("out", head)) and f"it has {help.packets_of(theirs)}"
                    tally.note(f"editcap -F {FORMS[to]}, {order}{magic:x}", other)


def try_resolved_choice(tally, help):
    """Checks that tests see the times before, and that packets are shortened and duplicates left out too."""
    for order in "<>":
        packets = [(START + k * 700, 90, bytes([k % 5]) * (k % 7)) for k in range(20)]
        capture = help.classic(order, MAGICS[1], 1, 1, packets)[0]
        kept = distinct(packets, 4)
        for words, wanted, said in (
            (["--from", "1700000000.2500021"], packets[3:], ""), (["--until", "1700000000.2500021"], packets[:3], ""), (["--packets", "2-4"], packets[1:4], ""),
            (["--snaplen", "3"], [(time, wire, data[:3]) for time, wire, data in packets], ""), (["--dedup"], kept, left_out_of(packets, kept)),
        ):
            wanted = help.classic(order, MAGICS[1000], 1000, 1, wanted)[0]
            words = ["cut", "in", *words, "--microseconds", "-o", "out"]
            cutting.expects(tally, help, f"{' '.join(words)}, {order}", {"in": capture}, words, {"out": wanted}, said=said)


def try_wrong_resolutions(tally, help):
    """Checks that the resolutions exclude each other and parts, and that captures of blocks are refused."""
    refuses(tally, help, ["--nanoseconds", "--microseconds"])
    for _, option in RESOLUTIONS:
        refuses(tally, help, [f"{option}=1"])
        for words in (["--every", "2"], ["--parts", "2"], ["--bytes", "1K"]):
            refuses(tally, help, [option, *words])
        held = {"in": help.blocks("<", block_sample("<"))[0], "out": b"old"}
        said = "error: --nanoseconds and --microseconds are for classic captures, and in is PcapNg"
        cutting.fails(tally, help, f"{option} of blocks", held, ["cut", "in", option, "-o", "out"], USAGE, said)


def repeating():
    """Returns packets (nanoseconds, length on the wire, data) of which many have the data of an earlier one, some with another length."""
    draw = random.Random(58)
    kinds = [(90, b""), (90, b"a"), (91, b"a"), (90, b"a\0"), (90, bytes(60)), (90, bytes(59) + b"\1"), (60, bytes(60))]
    return [(START + k * SECOND, *kinds[min(draw.randrange(14), 6)]) for k in range(60)]


def distinct(packets, most, mark=lambda it: it[1:]):
    """Returns the packets whose mark none of this many packets before them has."""
    marks = [mark(it) for it in packets]
    return [it for k, it in enumerate(packets) if marks[k] not in marks[max(0, k - most) : k]]


def left_out_of(packets, kept):
    """Returns what the program says of duplicates."""
    count = len(packets) - len(kept)
    return f"pcapfile: in: left out {count} packet{'s' * (count != 1)} {'as duplicates' if count != 1 else 'as a duplicate'}\n" * bool(count)


def try_classic_duplicates(tally, help):
    """Checks duplicates of classic captures. They are found among the packets that pass all tests, before these are shortened."""
    for order, magic, fraction in ORDERS:
        packets = repeating()
        capture, _ = help.classic(order, magic, fraction, 1, packets)
        for word, most in (("--dedup", 4), ("--dedup=1", 1), ("--dedup=2", 2), ("--dedup=4", 4), ("--dedup=17", 17), ("--dedup=1000000", 60)):
            kept = distinct(packets, most)
            wanted, _ = help.classic(order, magic, fraction, 1, kept)
            cutting.expects(tally, help, f"{word}, {order}", {"in": capture}, ["cut", "in", word, "-o", "out"], {"out": wanted}, said=left_out_of(packets, kept))
            if order == "<" and left_out.has("editcap", "duplicates beside editcap, in tests/files/run"):
                # editcap takes packets with other lengths on the wire for duplicates.
                alike = [(time, 90, data) for time, _, data in packets]
                given = help.packets_of(cutting.edited(help.classic(order, magic, fraction, 1, alike)[0], ["-D", str(most + 1), "IN", "OUT"]))
                tally.note(f"editcap -D {most + 1}", [it[1:] for it in given] != distinct(alike, most) and f"it has {given}")
        one = help.classic(order, magic, fraction, 1, packets[:1] * 2)[0]
        wanted = help.classic(order, magic, fraction, 1, packets[:1])[0]
        said = "pcapfile: in: left out 1 packet as a duplicate\n"
        cutting.expects(tally, help, "one duplicate", {"in": one}, ["cut", "in", "--dedup", "-o", "out"], {"out": wanted}, said=said)
        for words, test, most in (
            (["--packets", "3-20,40-"], lambda k, it: 3 <= k <= 20 or k >= 40, 4),
            (["--from", "+5s", "--max-len", "90"], lambda k, it: it[0] >= START + 5 * SECOND and it[1] <= 90, 1),
            (["--min-len", "1000"], lambda k, it: False, 4),
        ):
            passing = [it for k, it in enumerate(packets, 1) if test(k, it)]
            kept = distinct(passing, most)
            wanted, _ = help.classic(order, magic, fraction, 1, kept)
            words = ["cut", "in", *words, f"--dedup={most}", "-o", "out"]
            cutting.expects(tally, help, " ".join(words), {"in": capture}, words, {"out": wanted}, said=left_out_of(passing, kept))
        kept = distinct(packets, 4)
        wanted, _ = help.classic(order, magic, fraction, 1, [(time, wire, data[:1]) for time, wire, data in kept])
        words = ["cut", "in", "--dedup", "--snaplen", "1", "-o", "out"]
        cutting.expects(tally, help, "duplicates of short packets", {"in": capture}, words, {"out": wanted}, said=left_out_of(packets, kept))


def duplicated_blocks(order, packets):
    """Returns blocks of each kind with these packets, over two interfaces, each as (its part of a capture, its packet or None)."""
    parts = [((1, struct.pack(order + "HHI", link, 0, 0)), None) for link in (1, 101)]
    for k, (time, wire, data) in enumerate(packets):
        units, padding = time // 1000, bytes([k]) * (-len(data) % 4)
        if k % 3 == 0:
            front = struct.pack(order + "III", k % 2, units >> 32, units & 0xFFFFFFFF)
            body = ENHANCED, front + struct.pack(order + "II", len(data), wire) + data + padding + (COMMENT[order] if k % 2 else b"")
        elif k % 3 == 1 or len(data) != wire:
            front = struct.pack(order + "HHII", 1, k, units >> 32, units & 0xFFFFFFFF)
            body = OLD, front + struct.pack(order + "II", len(data), wire) + data + padding
        else:
            body = SIMPLE, struct.pack(order + "I", wire) + data + padding
        parts += [(body, (wire, data)), ((UNKNOWN, bytes([k, 0, 0, 0])), None)]
    return parts


def try_block_duplicates(tally, help):
    """Checks duplicates of blocks: neither interface nor kind of block nor options nor padding counts, and other blocks stay."""
    for order in "<>":
        packets = repeating()
        parts = duplicated_blocks(order, packets)
        given, _ = help.blocks(order, [part for part, _ in parts])
        for words, most, passes in ((["--dedup"], 4, lambda it: True), (["--dedup=9", "--max-len", "90"], 9, lambda it: it[0] <= 90)):
            passing = [it for it in parts if it[1] and passes(it[1])]
            kept = distinct(passing, most, lambda it: it[1])
            wanted, _ = help.blocks(order, [it[0] for it in parts if it[1] is None or any(it is one for one in kept)])
            words = ["cut", "in", *words, "-o", "out"]
            cutting.expects(tally, help, f"{words} of blocks, {order}", {"in": given}, words, {"out": wanted}, said=left_out_of(passing, kept))
        torn = (ENHANCED, struct.pack(order + "IIIII", 0, 0, 5, 9, 9) + b"only")
        whole = (ENHANCED, packet_body(order, struct.pack(order + "III", 0, 0, 5), 90, b"data", b"", b""))
        front = [(1, struct.pack(order + "HHI", 1, 0, 0))]
        given, _ = help.blocks(order, front + [whole, torn, torn, whole])
        wanted, _ = help.blocks(order, front + [whole, torn, torn])
        said = "pcapfile: in: left out 1 packet as a duplicate\npcapfile: in: did not compare 2 packets with a malformed body\n"
        cutting.expects(tally, help, f"malformed duplicates, {order}", {"in": given}, ["cut", "in", "--dedup=1", "-o", "out"], {"out": wanted}, said=said)


def try_wrong_duplicates(tally, help):
    for text in ("0", "-1", "", "a", "1000001", "1.5", "1K"):
        refuses(tally, help, [f"--dedup={text}"])
    refuses(tally, help, ["--dedup", "4"])
    for words in (["--every", "2"], ["--parts", "2"], ["--bytes", "1K"]):
        refuses(tally, help, ["--dedup", *words])


def try_all(tally, help):
    for tries in (try_classic_lengths, try_block_lengths, try_kept_whole, try_wrong_lengths, try_resolutions, try_resolved_choice,
                  try_wrong_resolutions, try_classic_duplicates, try_block_duplicates, try_wrong_duplicates):
        tries(tally, help)
