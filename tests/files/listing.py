"""Checks what `pcapfile list` writes with `--utc`, `--csv` and `--json`; dumping.py checks `--hex`. The test takes packets with struct alone, and times by datetime."""
import datetime
import itertools
import json
import os
import re
import select
import struct
import subprocess
import tempfile

DONE, AT_FAULT, USAGE = 0, 1, 2
BILLION = 10**9
COLUMNS = "index", "seconds", "nanoseconds", "captured", "original", "interface"
MAGICS = {0xA1B2C3D4: 1000, 0xA1B23C4D: 1}
SECTION, INTERFACE, OLD, SIMPLE, ENHANCED = 0x0A0D0D0A, 1, 2, 3, 6
EPOCH = datetime.datetime(1970, 1, 1)
# The calendar ends here, in seconds, since each earlier instant has a date everywhere on earth.
LAST = 253402207200


def classic_rows(capture):
    """Yields (time in nanoseconds, stored, on the wire, interface) of each packet of a classic capture."""
    order = "<" if struct.unpack_from("<I", capture)[0] in MAGICS else ">"
    unit = MAGICS[struct.unpack_from(order + "I", capture)[0]]
    at = 24
    while at < len(capture):
        seconds, fraction, stored, wire = struct.unpack_from(order + "IIII", capture, at)
        yield seconds * BILLION + fraction * unit, stored, wire, None
        at += 16 + stored


def clock_of(order, body):
    """Returns how many units a second of an interface has, its offset in seconds, and its snapshot length."""
    units, offset, at = 10**6, 0, 8
    while at + 4 <= len(body):
        code, length = struct.unpack_from(order + "HH", body, at)
        if code == 9:
            units = 2 ** (body[at + 4] - 128) if body[at + 4] > 127 else 10 ** body[at + 4]
        if code == 14:
            (offset,) = struct.unpack_from(order + "q", body, at + 4)
        at += 4 + length + -length % 4
    return units, offset, struct.unpack_from(order + "I", body, 4)[0]


def packet_in(order, number, body, clocks):
    """Returns the row of a packet in a block, or None if its body is refused."""
    if number == SIMPLE:
        (wire,) = struct.unpack_from(order + "I", body)
        snaplen = clocks[0][2] if clocks and clocks[0][2] else wire
        return None, min(wire, snaplen, len(body) - 4), wire, 0
    which, high, low, stored, wire = struct.unpack_from(order + ("IIIII" if number == ENHANCED else "HxxIIII"), body)
    if stored > len(body) - 20:
        return None
    if which >= len(clocks):
        return None, stored, wire, which
    units, offset, _ = clocks[which]
    return (high << 32 | low) * BILLION // units + offset * BILLION, stored, wire, which


def block_rows(capture):
    at, order, clocks = 0, "<", []
    while at < len(capture):
        if struct.unpack_from("<I", capture, at)[0] == SECTION:
            order, clocks = ("<" if capture[at + 8] == 0x4D else ">"), []
        number, length = struct.unpack_from(order + "II", capture, at)
        body = capture[at + 8 : at + length - 4]
        if number == INTERFACE:
            clocks.append(clock_of(order, body))
        elif number in (OLD, SIMPLE, ENHANCED):
            yield packet_in(order, number, body, clocks)
        at += length


def rows_of(capture):
    """Yields numbers without names: index, seconds, nanoseconds, captured, original, interface; and the time in nanoseconds."""
    rows = block_rows(capture) if capture[:4] == b"\n\r\r\n" else classic_rows(capture)
    for index, row in enumerate(rows, 1):
        time, *rest = row or (None,) * 4
        seconds = None if time is None or not 0 <= time < 2**64 * BILLION else time // BILLION
        yield (index, seconds, None if seconds is None else time % BILLION, *rest), time


def utc_text(time):
    if time is None or time // BILLION > LAST:
        return "-"
    date = EPOCH + datetime.timedelta(seconds=time // BILLION)
    return f"{date.isoformat()}.{time % BILLION:09}Z"


def utc(capture):
    lines = []
    for (index, _, _, captured, original, interface), time in rows_of(capture):
        behind = "" if interface is None else f" {interface}"
        told = "refused" if captured is None else f"{utc_text(time)} {captured}/{original}{behind}"
        lines.append(f"{index} {told}\n")
    return lines


def csv(capture):
    return [",".join("" if it is None else str(it) for it in row) + "\n" for row, _ in rows_of(capture)]


def utc_csv(capture):
    lines = []
    for (index, _, _, *rest), time in rows_of(capture):
        shown = "" if utc_text(time) == "-" else utc_text(time)
        lines.append(",".join("" if it is None else str(it) for it in (index, shown, *rest)) + "\n")
    return lines


def objects(capture):
    return [dict(zip(COLUMNS, row)) for row, _ in rows_of(capture)]


HEADING = ",".join(COLUMNS) + "\n"
UTC_HEADING = "index,time,captured,original,interface\n"
BOTH = ("--utc", "--csv")


def malformed(refused):
    """Returns the message that so many packets have a malformed body."""
    packets = "1 packet has" if refused == 1 else f"{refused} packets have"
    return f"pcapfile: {{0}}: {packets} a malformed body; 'pcapfile list --as-is' names the rules\n" if refused else ""


class Lists:
    def __init__(self, tally, lib):
        self.tally, self.lib = tally, lib

    def run(self, captures, words, piped=False):
        """Returns the status of a list of these files, its lines, and its messages."""
        with tempfile.TemporaryDirectory() as folder:
            for name, capture in captures.items():
                self.lib.put(folder, name, capture)
            if piped:
                (capture,) = captures.values()
                code, out, said = self.tally.run(folder, [*words, "-"], capture, word="list")
            else:
                code, out, said = self.tally.run(folder, [*words, *captures], word="list")
        return code, out.decode(), said

    def lists(self, name, capture, status=DONE, said="", whole=None):
        """Checks the lines of a capture in each form, from a file and from a pipe. If only a part has lines, `whole` is that part."""
        whole = capture if whole is None else whole
        refused = sum(row[3] is None for row, _ in rows_of(whole))
        status, said = max(status, AT_FAULT * (refused > 0)), malformed(refused) + said
        for piped in (False, True):
            told = without_byte(said.format("-")) if piped else said.format("in")
            dated, rows = UTC_HEADING + "".join(utc_csv(whole)), HEADING + "".join(csv(whole))
            for form, wanted in ((("--utc",), "".join(utc(whole))), (("--csv",), rows), (BOTH, dated)):
                ended = self.run({"in": capture}, form, piped)
                self.tally.note(f"list {form}, {name}", ended != (status, wanted, told) and f"it gives {ended}, and not {wanted!r}")
            code, out, stderr = self.run({"in": capture}, ["--json"], piped)
            found = [json.loads(it) for it in out.splitlines()]
            self.tally.note(
                f"list --json, {name}",
                (code, stderr) != (status, told) and f"it ended with {code}, {stderr!r}",
                found != objects(whole) and f"it has {found}, and not {objects(whole)}",
                out and not out.endswith("\n") and "its last line has no end",
            )


def without_byte(said):
    """Returns the message on a pipe, which can't be read again to find where its last packet begins."""
    return re.sub("refused at byte .* by rule .*?: ", "Invalid field value: ", re.sub("cut short at byte .*", "cut short", said))


def try_classic(lists):
    lib = lists.lib
    for order, magic in itertools.product("<>", MAGICS):
        for packets in ([], lib.FEW, lib.MANY):
            capture, _ = lib.classic(order, magic, MAGICS[magic], lib.RAW, packets)
            lists.lists(f"{len(packets)} packets, {order} {magic:x}", capture)
    past = struct.pack("<IIII", 5, 3 * BILLION + 1, 0, 0) + struct.pack("<IIII", 4294967295, 4294967295, 0, 9)
    capture, _ = lib.classic("<", 0xA1B23C4D, 1, lib.RAW, lib.FEW)
    lists.lists("fractions past a second", capture + past)


def clock(order, resolution, offset):
    """Returns the description of an interface with this clock."""
    options = struct.pack(order + "HHB3xHHqHH", 9, 1, resolution, 14, 8, offset, 0, 0)
    return INTERFACE, struct.pack(order + "HHI", 1, 0, 64) + options


def try_blocks(lists):
    lib = lists.lib
    for order in "<>":
        few = [lib.enhanced(order, k, units, wire, b"x" * k) for k, units, wire in ((0, 5, 9), (1, 10**18 + 7, 99), (2, 2**63, 999), (3, 1, 2))]
        odd = [(SIMPLE, struct.pack(order + "I", 70) + b"s" * 64), (SIMPLE, struct.pack(order + "I", 3) + b"abc")]
        odd += [(OLD, struct.pack(order + "HHIIII", 1, 0, 1, 2, 4, 40) + b"abcd"), (ENHANCED, struct.pack(order + "IIIII", 0, 0, 1, 9, 9) + b"short")]
        for resolution, offset in ((9, 0), (6, 1700000000), (0, -10), (138, -(10**10)), (191, 2**62), (12, LAST), (20, 5)):
            parts = [clock(order, resolution, offset), lib.interface(order, 101, 9, True), clock(order, 6, 0), *few, *odd]
            capture, _ = lib.blocks(order, parts)
            lists.lists(f"blocks {order}, clock {resolution} from {offset}", capture)
            again, _ = lib.blocks(">" if order == "<" else "<", [])
            lists.lists(f"two sections {order}, clock {resolution} from {offset}", capture + again + capture)


def try_cut(lists):
    """Checks a truncated or refused capture: the lines of the packets before come first."""
    lib = lists.lib
    parts = [lib.interface("<", 1), *(lib.enhanced("<", 0, time // 1000, wire, data) for time, wire, data in lib.FEW)]
    for capture, ends in (lib.classic("<", 0xA1B23C4D, 1, lib.RAW, lib.FEW), lib.blocks("<", parts)):
        for at in range(ends[0], len(capture)):
            if at not in ends:
                whole = capture[: max(it for it in ends if it <= at)]
                said = f"pcapfile: {{0}}: cut short at byte {len(whole)}\n"
                lists.lists(f"cut at {at} of {len(capture)}", capture[:at], AT_FAULT, said, whole)
    capture, _ = lib.classic("<", 0xA1B23C4D, 1, lib.RAW, lib.FEW)
    longer = struct.pack("<IIII", 1, 0, 2, 1) + b"hi"
    said = f"pcapfile: {{0}}: refused at byte {len(capture)} by rule 5: PacketHeader incl_len > orig_len\n"
    lists.lists("a packet longer than on the wire", capture + longer, AT_FAULT, said, capture)


def try_several(lists):
    """Checks several files: names come before lines, but not before rows and objects, which begin again at 1."""
    lib, tally = lists.lib, lists.tally
    one, _ = lib.classic("<", 0xA1B23C4D, 1, lib.RAW, lib.FEW)
    two, _ = lib.blocks(">", [lib.interface(">", 1), lib.enhanced(">", 0, 1, 2, b"3")])
    captures = {"one": one, "two": two}
    named = "".join(f"{name}:\n{''.join(utc(it))}" for name, it in captures.items())
    for form, wanted in ((BOTH, UTC_HEADING + "".join(utc_csv(one) + utc_csv(two))), (("--utc",), named), (("--csv",), HEADING + "".join(csv(one) + csv(two)))):
        ended = lists.run(captures, form)
        tally.note(f"list {form} of two", ended != (DONE, wanted, "") and f"it gives {ended}, and not {wanted!r}")
    code, out, said = lists.run(captures, ["--json"])
    found = [json.loads(it) for it in out.splitlines()]
    tally.note("list --json of two", (code, found, said) != (DONE, objects(one) + objects(two), "") and f"it gives {code}, {found}, {said!r}")
    for pair in itertools.combinations(("--utc", "--csv", "--json", "--hex", "--as-is"), 2):
        if pair in (BOTH, ("--utc", "--hex")):
            continue
        code, out, said = lists.run(captures, pair)
        tally.note(f"list {' '.join(pair)}", (code, out, said[:7]) != (USAGE, "", "error: ") and f"it gives {code}, {out!r}, {said!r}")


def try_live(lists):
    """Checks that the program writes the lines of a live capture before it waits."""
    lib = lists.lib
    capture, ends = lib.classic("<", 0xA1B23C4D, 1, lib.RAW, lib.FEW)
    for form, lines in (("--utc", utc(capture)), ("--csv", csv(capture)), ("--json", objects(capture))):
        pipes = {"stdin": subprocess.PIPE, "stdout": subprocess.PIPE}
        with subprocess.Popen([lists.tally.program, "list", form, "-"], **pipes) as ran:
            os.write(ran.stdin.fileno(), capture[: ends[1]])
            came = b""
            while came.count(b"\n") < 1 + (form == "--csv") and select.select([ran.stdout], [], [], 20)[0]:
                came += os.read(ran.stdout.fileno(), 65536)
            ran.stdin.close()
        found = came.decode().removeprefix(HEADING)
        found = json.loads(found or "null") if form == "--json" else found
        lists.tally.note(f"list {form}, live", found != lines[0] and f"it has {found!r} before more comes, and not {lines[0]!r}")


def memory_of(lists, form, capture):
    """Returns the peak memory of a list of this capture, in KiB."""
    with tempfile.TemporaryDirectory() as folder:
        lists.lib.put(folder, "in", capture)
        ran = subprocess.Popen([lists.tally.program, "list", form, f"{folder}/in"], stdout=subprocess.DEVNULL)
        _, status, used = os.wait4(ran.pid, 0)
        ran.returncode = status
    return used.ru_maxrss


def try_memory(lists):
    few, _ = lists.lib.classic("<", 0xA1B23C4D, 1, lists.lib.RAW, [(k, 9, b"") for k in range(1000)])
    many = few + few[24:] * 199
    for form in ("--utc", "--csv", "--json", "--hex", "--as-is"):
        little, much = memory_of(lists, form, few), memory_of(lists, form, many)
        lists.tally.note(f"list {form}, memory", much > little + 1024 and f"{much} KiB of 200000 packets, and {little} of 1000")


def try_all(tally, help):
    lists = Lists(tally, help)
    for tries in (try_classic, try_blocks, try_cut, try_several, try_live, try_memory):
        tries(lists)
