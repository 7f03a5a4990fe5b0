"""Checks `pcapfile cut --shift`, by the same change of times made with struct, and beside editcap if that is installed."""
import struct
from fractions import Fraction

import changing
import cutting
import left_out
from changing import COMMENT, ENHANCED, OLD, ORDERS, SECOND, SIMPLE, START, UNKNOWN

# Texts of a shift, and their nanoseconds.
SHIFTS = (
    ("3600", 3600 * SECOND), ("-3600", -3600 * SECOND), ("+0.000001", 1000), ("-1.25", -1250000000), ("1h 30m", 5400 * SECOND),
    ("-1h 30m", -5400 * SECOND), ("0", 0), ("-0.75", -750000000), ("1.5", 1500000000),
)
# The units in a second of some clocks, each with its options of an interface: its resolution, and for the last an offset too.
CLOCKS = (
    (10**6, b""), (10**9, bytes([9, 0, 1, 0, 9, 0, 0, 0])), (10**3, bytes([9, 0, 1, 0, 3, 0, 0, 0])), (2**10, bytes([9, 0, 1, 0, 0x8A, 0, 0, 0])),
    (1, bytes([9, 0, 1, 0, 0, 0, 0, 0])), (10**19, bytes([9, 0, 1, 0, 19, 0, 0, 0])), (2**127, bytes([9, 0, 1, 0, 0xFF, 0, 0, 0])),
    (10**127, bytes([9, 0, 1, 0, 0x7F, 0, 0, 0])), (10**6, bytes([14, 0, 8, 0, 100, 0, 0, 0, 0, 0, 0, 0])),
)
TIMES = (0, 1, 999, 1700000000250, 2**63, 2**64 - 1)


def said_of(count, why="to a time that the capture can't state"):
    """Returns what the program says of packets that it did not move."""
    return f"pcapfile: in: did not move {count} packet{'s' * (count != 1)} {why}\n" * bool(count)


def moved(packets, shift, unit):
    """Returns the packets of a classic capture with their times moved, and how many keep their time."""
    times = [time + shift for time, _, _ in packets]
    can = [0 <= time < 2**32 * SECOND and time % unit == 0 for time in times]
    new = [(time if fits else old[0], *old[1:]) for time, fits, old in zip(times, can, packets)]
    return new, can.count(False)


def words_of(text):
    return ["cut", "in", "--shift", text, "-o", "out"]


def try_classic_times(tally, help):
    """Checks moved packets of classic captures, up to both ends of the times that they can have."""
    ends = [("-1700000003", -1700000003 * SECOND), ("2594967293", 2594967293 * SECOND), ("0.000000001", 1), ("-0.0000005", -500)]
    ends += [("18446744073.709551615", 2**64 - 1), ("-18446744073.709551615", 1 - 2**64)]
    for order, magic, unit in ORDERS:
        packets = changing.sample()
        capture, _ = help.classic(order, magic, unit, 101, packets)
        for text, shift in (*SHIFTS, *ends):
            new, still = moved(packets, shift, unit)
            wanted, _ = help.classic(order, magic, unit, 101, new)
            name = f"{text} seconds, {order}{magic:x}"
            made = cutting.expects(tally, help, name, {"in": capture}, words_of(text), {"out": wanted}, said=said_of(still))
            if still == 0 and "." not in text and " " not in text and left_out.has("editcap", "moved packets beside editcap, in tests/files/run"):
                given = help.packets_of(cutting.edited(capture, ["-t", text, "IN", "OUT"]))
                tally.note(f"editcap -t {text}", "out" in made and help.packets_of(made["out"]) != given and f"it has {given}")


def try_large_fractions(tally, help):
    """Checks packets whose fraction is a second or more: the moved time has a fraction below a second."""
    for order, magic, unit in ORDERS:
        head = struct.pack(order + "IHHiIII", magic, 2, 4, 0, 0, 65535, 1)
        text = [struct.pack(order + "IIII", 10, 3500000000 // unit, 1, 60) + b"a"]
        for shift, seconds, fraction in (("1", 14, 500000000), ("-13", 0, 500000000), ("-13.5", 0, 0)):
            wanted = head + struct.pack(order + "IIII", seconds, fraction // unit, 1, 60) + b"a"
            cutting.expects(tally, help, f"a large fraction, {shift}, {order}", {"in": head + text[0]}, words_of(shift), {"out": wanted})
        cutting.expects(tally, help, f"a large fraction stays, {order}", {"in": head + text[0]}, words_of("-13.6"), {"out": head + text[0]}, said=said_of(1))


def try_moved_choice(tally, help):
    """Checks that tests see the time before, that only written packets are counted, and that packets are shortened too."""
    order, magic, unit = ORDERS[0]
    packets = changing.sample()
    capture, _ = help.classic(order, magic, unit, 1, packets)
    for words, chosen in (
        (["--from", "+2s", "--until", "+5s"], packets[2:5]), (["--packets", "1-2,12"], [*packets[:2], packets[11]]), (["--dedup"], packets), (["--snaplen", "3"], packets),
    ):
        shift = -1700000001 * SECOND
        new, still = moved(chosen, shift, unit)
        short = 3 if "--snaplen" in words else None
        wanted, _ = help.classic(order, magic, unit, 1, [(time, wire, data[:short]) for time, wire, data in new])
        words = ["cut", "in", *words, "--shift", "-1700000001", "-o", "out"]
        cutting.expects(tally, help, " ".join(words), {"in": capture}, words, {"out": wanted}, said=said_of(still))


def try_moved_resolutions(tally, help):
    """Checks times that are moved and converted: a capture in nanoseconds can state all of them, and microseconds are rounded down."""
    for order in "<>":
        for unit, magic in changing.MAGICS.items():
            packets = [(time + 999000 * k, wire, data) for k, (time, wire, data) in enumerate(changing.sample())]
            capture = help.classic(order, magic, unit, 1, packets)[0]
            for to, option in changing.RESOLUTIONS:
                for text, shift in (("0.000000001", 1), ("-0.0000005", -500), ("1.0000015", SECOND + 1500), ("-1700000003", -1700000003 * SECOND)):
                    new, still = moved(packets, shift, min(unit, to))
                    wanted = help.classic(order, changing.MAGICS[to], to, 1, new)[0]
                    words = ["cut", "in", "--shift", text, option, "-o", "out"]
                    cutting.expects(tally, help, f"{text} seconds, {option}, {order}{magic:x}", {"in": capture}, words, {"out": wanted}, said=said_of(still))


def clock_blocks(order, shift=None):
    """Returns a section with a packet of each kind for each clock and time. If a shift is given, their times are moved, and the number of
    packets that keep their time is returned too."""
    parts, still = [], 0
    for per_second, options in CLOCKS:
        if order == ">":
            options = bytes([options[1], options[0], options[3], options[2]]) + (options[4:8] if options[0] == 9 else options[4:][::-1]) if options else options
        parts.append((1, struct.pack(order + "HHI", 1, 0, 65535) + options))
    for number, (per_second, _) in enumerate(CLOCKS):
        for time in TIMES:
            units = Fraction(0 if shift is None else shift) * per_second / SECOND
            new = time + units
            fits = new.denominator == 1 and abs(units) < 2**64 and 0 <= new < 2**64
            still += 2 * (not fits)
            put = int(new) if fits else time
            for kind, front in ((ENHANCED, struct.pack(order + "I", number)), (OLD, struct.pack(order + "HH", number, 7))):
                front += struct.pack(order + "II", put >> 32, put & 0xFFFFFFFF)
                parts.append((kind, changing.packet_body(order, front, 90, b"12345", b"\xee", COMMENT[order])))
            parts.append((UNKNOWN, bytes(16)))
    parts.append((SIMPLE, struct.pack(order + "I", 4) + b"abcd"))
    return parts, still


def try_block_times(tally, help):
    """Checks moved packets of blocks by the clocks of their interfaces. All other bytes stay."""
    for order in "<>":
        given, _ = help.blocks(order, clock_blocks(order)[0])
        for text, shift in (*SHIFTS, ("0.000000001", 1), ("18446744073.709551615", 2**64 - 1)):
            parts, still = clock_blocks(order, shift)
            wanted, _ = help.blocks(order, parts)
            cutting.expects(tally, help, f"{text} seconds of blocks, {order}", {"in": given}, words_of(text), {"out": wanted}, said=said_of(still))
        shorter = [(kind, changing.packet_body(order, body[:12], 90, b"123", b"\0", COMMENT[order]) if kind in (ENHANCED, OLD) else body) for kind, body in clock_blocks(order, SECOND)[0]]
        wanted, _ = help.blocks(order, shorter)
        said = "pcapfile: in: did not shorten 1 packet in a simple block\n" + said_of(clock_blocks(order, SECOND)[1])
        words = ["cut", "in", "--shift", "1", "--snaplen", "3", "-o", "out"]
        cutting.expects(tally, help, f"moved and shortened blocks, {order}", {"in": given}, words, {"out": wanted}, said=said)


def try_unmoved_blocks(tally, help):
    """Checks packets that can't be moved, of no described interface or with a malformed body."""
    for order in "<>":
        front = struct.pack(order + "III", 0, 0, 5)
        interface = (1, struct.pack(order + "HHI", 1, 0, 0))
        whole = [(ENHANCED, changing.packet_body(order, front[:8] + struct.pack(order + "I", time), 90, b"1234", b"", b"")) for time in (5, 1000005)]
        torn = (ENHANCED, front + struct.pack(order + "II", 9, 9) + b"only")
        tiny = (OLD, bytes(8))
        other = (ENHANCED, changing.packet_body(order, struct.pack(order + "III", 3, 0, 5), 90, b"1234", b"", b""))
        given, _ = help.blocks(order, [interface, whole[0], torn, tiny, other])
        wanted, _ = help.blocks(order, [interface, whole[1], torn, tiny, other])
        said = said_of(2, "with a malformed body") + said_of(1)
        cutting.expects(tally, help, f"unmoved blocks, {order}", {"in": given}, words_of("1"), {"out": wanted}, said=said)


def try_wrong_shifts(tally, help):
    for text in ("", "a", "-", "--1", "1.0000000001", "18446744073.709551616", "99999999999999999999", "1e3", "1 2", "2023-11-14"):
        changing.refuses(tally, help, [f"--shift={text}"])
    for words in (["--every", "2"], ["--parts", "2"], ["--bytes", "1K"]):
        changing.refuses(tally, help, ["--shift", "4", *words])


def try_all(tally, help):
    for tries in (try_classic_times, try_large_fractions, try_moved_choice, try_moved_resolutions, try_block_times, try_unmoved_blocks, try_wrong_shifts):
        tries(tally, help)
