"""Compares the words of pcapfile with capinfos, tshark, editcap and mergecap, over captures: `compare(files, folder, tool)`.

For each capture these must agree:

- `check` and capinfos: whether it is whole or truncated, and after how many packets; for PcapNg only the former
- `info` and capinfos: packets, bytes, times, rates, and for each interface its snaplen and its packets
- `info` and tshark: for each interface of one section its packets, their bytes, lengths by classes, first and last time
- `list`, `list --utc`, `list --as-is` and tshark: each packet's time, lengths and interface
- `cut` and editcap: the packets that are left by numbers, by times and in parts of a third of them, as tshark reads them
- `join` of such parts: the capture's bytes; and by mergecap, which puts them after each other, the same packets
- `merge` and mergecap: the packets of the capture and of the next one, as tshark reads them
- `repair`: the packets that tshark reads from the capture, with the changes that a repair makes
- `list --as-is` and `repair`: the same packets, also after corrupt bytes, where the peers end

If pcapfile refuses a capture, what it shows before that must be a beginning. MEANT has the other intended differences, each with its
reason, and docs/DIFFERENCES.md has them too. written.py compares `convert` with editcap.
"""
import bisect
import collections
import concurrent.futures
import glob
import itertools
import json
import os
import re
import tempfile
from decimal import Decimal

import left_out

from examples import BEGINNING, DIFFERENT, SAME, fields, is_pcapng_file, output

FIELDS = ("frame.number", "frame.time_epoch", "_ws.col.Time", "frame.cap_len", "frame.len", "frame.interface_id", "frame.md5_hash")
TOOLS = ("capinfos", "tshark", "editcap", "mergecap")
ENDINGS = r"(\d+) bytes|(cut short) at byte \d+|refused at byte \d+ by rule (\d+)"
CHECKED = re.compile(rf"(?:pcap|pcapng), (\d+) (?:packets|blocks), (?:{ENDINGS})")
FIGURES = "-T -r -M -S -c -s -d -u -a -e -x -y -z -o".split()
TORN = re.compile(rb"An error occurred after reading (\d+) packets")
INTERFACE = re.compile(r"Interface #\d+ info:\n(?: +.*\n)*? +Capture length = (\d+)\n(?: +.*\n)*? +Number of packets = (\d+)")
LONGEST, WRAPS = 262144, Decimal(2**32) / 10**9
# The least length of each class of `info`.
LEAST = (0, 20, 40, 80, 160, 320, 640, 1280, 2560, 5120)
# The largest error of the difference of two times of this century, as capinfos shows them.
DOUBLE = Decimal(2) ** -21
MEANT = {
    "microseconds": "microseconds that 32 bits of nanoseconds don't hold refuse a capture; the peers read on",
    "rule": "a rule refuses the capture; the peers read on",
    "unread": "the peer reads no such capture",
    "wraps": "such microseconds are carried with --as-is and by repair; nanoseconds of the peers wrap",
    "untimed": "times and rates are of the packets that have a time; capinfos tells none where one has none",
    "carried": "microseconds that pass a second are carried in dates and sums; the peers show and compare them as they stand",
    "signed": "seconds past 31 bits are those after 2038; capinfos reckons with them as if they were before 1970",
    "doubles": "rates are of the exact duration; capinfos divides by one of doubles of seconds since 1970",
    "records": "parts are counted by packets; editcap counts blocks without a packet too",
    "rates": "packets of one time have no rate; capinfos tells 0",
    "sections": "an interface is told once; capinfos tells those of all sections in each",
    "empty": "a capture without a packet is one part; editcap writes none",
    "simple": "a simple packet has no time; editcap and mergecap give it the first second of 1970",
    "tie": "of packets of one time those of the first capture go first; mergecap gives those of the last",
    "repaired": "a packet with flaws has lengths that keep the rules",
}


def packets(path):
    """Returns the packets of a capture as tshark reads them. Blocks without a packet, which it shows too, have no interface."""
    rows = fields(path, *FIELDS, options=("-t", "ud", "-o", "frame.generate_md5_hash:TRUE"))
    kept = [row for row in rows if row[5]] if is_pcapng_file(path) else [[row[0], unsigned(row[1]), *row[2:]] for row in rows]
    return [Packet(int(record), time, date, int(stored), int(wire), *rest) for record, time, date, stored, wire, *rest in kept]


def unsigned(time):
    """Returns a time of a classic capture. tshark puts the sign of nanoseconds that wrapped below zero before the seconds."""
    whole, _, fraction = time.partition(".")
    return f"{Decimal(whole[1:]) - Decimal(fraction) / 10**9:.9f}" if time[:1] == "-" else time


class Packet(collections.namedtuple("Packet", "record shown date stored wire interface digest")):
    """A packet as tshark shows it, with the number that it has among all records."""

    @property
    def time(self):
        return seconds(self.shown)

    @property
    def is_carried(self):
        """Returns whether its fraction passes a second, which tshark and capinfos don't carry."""
        return len(self.shown.partition(".")[2]) > 9


def seconds(time):
    """Returns a time of tshark's, exactly. tshark doesn't carry microseconds that pass a second."""
    whole, _, fraction = time.partition(".")
    return Decimal(whole) + Decimal(fraction) / 10**9 if fraction and whole[0] != "-" else Decimal(time) if time else None


def unplaced(rows):
    """Returns packets without their interfaces."""
    return [(it.time, it.stored, it.wire, it.digest) for it in rows]


def dated(rows):
    """Returns packets with the time that editcap and mergecap give those that have none."""
    return [(row[0] or Decimal(0), *row[1:]) for row in rows]


class Capture:
    """A capture on which the tool runs, in a folder of its own, and the intended differences."""

    def __init__(self, tool, path, room, meant):
        self.tool, self.path, self.room, self.meant = tool, path, room, meant
        self.is_pcapng = is_pcapng_file(path)
        self.checked = CHECKED.search(self.run("check", path).stdout.decode())
        self.is_whole = bool(self.checked and self.checked[2])
        self.is_torn = bool(self.checked and self.checked[3])
        self.packets = packets(path)

    def run(self, *words):
        return output(self.tool, *words)

    def at(self, name):
        return os.path.join(self.room, name)

    def kept(self, name, ran):
        """Returns the packets of what the tool wrote to standard output, as tshark reads them."""
        with open(self.at(name), "wb") as it:
            it.write(ran.stdout)
        return packets(self.at(name)) if ran.stdout else []

    def means(self, name):
        self.meant[MEANT[name]] += 1
        return BEGINNING

    def refusal(self):
        """Returns the verdict for a tool that ends before the peers do, and counts the reason."""
        return self.means("microseconds" if self.checked and self.checked[4] == "2" else "rule")

    def beside(self, found, wanted):
        """Returns the verdict for lines that the tool printed, if the peer has these."""
        if self.is_whole or self.is_torn:
            return SAME if found == wanted else DIFFERENT
        return self.refusal() if found == wanted[: len(found)] else DIFFERENT

    def packets_beside(self, found, wanted):
        """Returns the same for packets, if the peer has written these."""
        if found and found != wanted and dated(found) == wanted:
            return self.means("simple")
        return self.beside(found, wanted)


def check(capture):
    if capture.checked is None:
        yield "check", DIFFERENT
        return
    ran = output("capinfos", "-T", "-r", "-c", "-s", capture.path)
    torn = TORN.search(ran.stderr)
    row = ran.stdout.decode().split("\t")[1:]
    if not row:
        yield "check", capture.means("unread") if capture.is_whole else SAME
    elif capture.is_torn or torn:
        is_same = capture.is_torn and torn and (capture.is_pcapng or capture.checked[1] == torn[1].decode())
        yield "check", SAME if is_same else DIFFERENT
    elif capture.is_whole:
        counts = (int(row[0]) if capture.is_pcapng else int(capture.checked[1]), int(capture.checked[2]))
        yield "check", SAME if counts == (int(row[0]), int(row[1])) else DIFFERENT
    else:
        yield "check", capture.refusal() if capture.is_pcapng or int(capture.checked[1]) < int(row[0]) else DIFFERENT


def is_near(ours, theirs, share=Decimal(0)):
    """Returns whether capinfos rounds to two decimals what the tool rounds down, except for a share of it."""
    return abs(Decimal(ours) - Decimal(theirs)) <= Decimal("0.01") + share * Decimal(theirs)


def is_time(ours, theirs):
    """Returns whether a time is capinfos', to as many decimals as capinfos shows."""
    return Decimal(ours).quantize(Decimal(theirs), "ROUND_FLOOR") == Decimal(theirs)


def info(capture):
    told = json.loads(capture.run("info", "--json", capture.path).stdout or "{}")
    row = output("capinfos", *FIGURES, capture.path).stdout.decode().strip().split("\t")[1:]
    if not row:
        yield "info", capture.means("unread") if capture.is_whole else SAME
        return
    if not (capture.is_whole or capture.is_torn):
        yield "info", capture.refusal() if told["packets"] <= int(row[0]) else DIFFERENT
        return
    yield "info, counts", SAME if [told["packets"], told["original"]] == [int(row[0]), int(row[2])] else DIFFERENT
    yield "info --table", SAME if has_row(capture, told, row) else DIFFERENT
    if told["packets"]:
        yield "info, average size", SAME if is_near(told["average"], row[7]) else DIFFERENT
        yield "info, times and rates", times_verdict(capture, told, row)
        yield "info, time order", order_verdict(capture, told, row[9])
    yield "info, interfaces", interfaces_verdict(capture, told)
    if told["sections"] < 2 and not told["refused"]:
        yield "info, by interface", SAME if all(has_figures(capture, *it) for it in told_by_interface(capture, told)) else DIFFERENT


def has_row(capture, told, row):
    """Returns whether the row of `info --table` has capinfos' counts and link type, and the other figures of `info --json`."""
    heads, values = (it.split("\t") for it in capture.run("info", "--table", capture.path).stdout.decode().splitlines())
    found = dict(zip(heads, values, strict=True))
    figures = [it for it in heads if it in told and it not in ("file", "earliest", "latest", "interfaces", "link")]
    links = {it["link"] for it in (told["interfaces"] if capture.is_pcapng else [told])}
    return (
        [found["packets"], found["original"]] == [row[0], row[2]]
        and all(found[it] == ("-" if told[it] is None else str(told[it])) for it in figures)
        and (found["link"] == "several") == (len(links) > 1)
        and (len(links) != 1 or found["link"].endswith(f" ({links.pop()})"))
    )


def times_verdict(capture, told, row):
    duration, first, last, byte_rate, _, rate = row[3:9]
    if any(it.is_carried for it in capture.packets):
        return capture.means("carried")
    if Decimal(told["latest"] or 0) >= 2**31:
        return capture.means("signed")
    if "n/a" in (first, last):
        return capture.means("untimed") if any(it.time is None for it in capture.packets) else DIFFERENT
    if not (is_time(told["earliest"], first) and is_time(told["latest"], last) and is_time(told["duration"], duration)):
        return DIFFERENT
    if Decimal(told["duration"]) == 0:
        return capture.means("rates") if told["packets_per_second"] is None and rate == byte_rate == "0.00" else DIFFERENT
    pairs = (told["bytes_per_second"], byte_rate), (told["packets_per_second"], rate)
    if all(is_near(*pair) for pair in pairs):
        return SAME
    return capture.means("doubles") if all(is_near(*pair, DOUBLE / Decimal(told["duration"])) for pair in pairs) else DIFFERENT


def order_verdict(capture, told, theirs):
    if any(it.is_carried for it in capture.packets):
        return capture.means("carried")
    if Decimal(told["latest"] or 0) >= 2**31:
        return capture.means("signed")
    if theirs == "Unknown" and told["in_order"] is not False:
        return capture.means("untimed") if any(it.time is None for it in capture.packets) else DIFFERENT
    return SAME if str(told["in_order"]) == theirs else DIFFERENT


def interfaces_verdict(capture, told):
    text = output("capinfos", "-M", "-I", capture.path).stdout.decode()
    theirs = [(int(snaplen), int(count)) for snaplen, count in INTERFACE.findall(text)]
    ours = [(it["snaplen"], it["packets"]) for it in (told["interfaces"] if capture.is_pcapng else [told])]
    if told["sections"] > 1:
        return capture.means("sections") if [it[0] for it in ours] == [it[0] for it in theirs][: len(ours)] else DIFFERENT
    return SAME if ours == theirs else DIFFERENT


def told_by_interface(capture, told):
    """Returns the figures of each interface, with its number."""
    return enumerate(told["interfaces"] if capture.is_pcapng else [told])


def has_figures(capture, number, told):
    """Returns whether these are the figures of tshark's packets by the interface of this number."""
    packets = [it for it in capture.packets if int(it.interface or 0) == number]
    classes = collections.Counter(bisect.bisect(LEAST, it.wire) - 1 for it in packets)
    wanted = [len(packets), sum(it.stored for it in packets), sum(it.wire for it in packets), [classes[row] for row in range(len(LEAST))]]
    if [told["packets"], told["stored"], told["original"], told["sizes"]] != wanted:
        return False
    times = [it.time for it in packets if it.time is not None]
    if not times or any(it.is_carried for it in packets):
        return bool(times) or told["earliest"] is told["latest"] is None
    return [Decimal(told["earliest"]), Decimal(told["latest"])] == [min(times), max(times)]


def lines(capture, shown):
    """Returns the lines of `list` with times as tshark shows them."""
    rows = enumerate(capture.packets, 1)
    return [f"{number} {shown(it) or '-'} {it.stored}/{it.wire}" + f" {it.interface}" * capture.is_pcapng for number, it in rows]


def date(packet):
    return packet.date and f"{packet.date[:19].replace(' ', 'T')}{packet.date[19:]:0<10}Z"


def listing(capture):
    found = capture.run("list", capture.path).stdout.decode().splitlines()
    yield "list", capture.beside(found, lines(capture, lambda it: it.shown))
    found = capture.run("list", "--utc", capture.path).stdout.decode().splitlines()
    is_carried = any(it.is_carried for it in capture.packets[: len(found)])
    yield "list --utc", capture.means("carried") if is_carried else capture.beside(found, lines(capture, date))
    rows = as_is_rows(capture)
    yield "list --as-is", as_is_verdict(capture, rows)
    yield "list --as-is, and repair", repaired_lines_verdict(capture, rows)


def as_is_rows(capture):
    """Returns the words of the lines of `list --as-is`, except packets for which their blocks have no room."""
    rows = [it.split(" ") for it in capture.run("list", "--as-is", capture.path).stdout.decode().splitlines()]
    return [it for it in rows if it[1] != "refused"]


def as_is_verdict(capture, rows):
    """Returns whether `list --as-is` has each packet that tshark has, with its time, except for nanoseconds that wrap in tshark."""
    if not capture.packets:
        return capture.means("unread") if rows else SAME
    if [it[2] for it in rows] != [f"{it.stored}/{it.wire}" for it in capture.packets]:
        return DIFFERENT
    if capture.is_pcapng and [it[3] for it in rows] != [it.interface for it in capture.packets]:
        return DIFFERENT
    times = [(time_in(row), it.time) for row, it in zip(rows, capture.packets)]
    if all(ours == theirs for ours, theirs in times):
        return SAME
    return capture.means("wraps") if all(is_wrapped(*pair) for pair in times) else DIFFERENT


def time_in(row):
    """Returns the time in the words of a line, exactly, also if its fraction isn't carried."""
    return None if row[1] == "-" else seconds(row[1])


def repaired_lines_verdict(capture, rows):
    """Returns whether the capture that `repair` writes has the packets of these lines, unchanged if nothing is wrong with them."""
    capture.kept("repaired", capture.run("repair", capture.path, "-o", "-"))
    found = [it.split(" ") for it in capture.run("list", capture.at("repaired")).stdout.decode().splitlines()]
    if len(found) != len(rows):
        return DIFFERENT
    pairs = [it for it in zip(rows, found) if "!" not in "".join(it[0])]
    return SAME if all((time_in(row), row[2:]) == (time_in(it), it[2:]) for row, it in pairs) else DIFFERENT


def is_wrapped(ours, theirs):
    """Returns whether the times are the same, except for nanoseconds that wrap at 32 bits."""
    return (ours - theirs) % WRAPS == 0


def cut(capture):
    middle = len(capture.packets) // 2
    if middle < 1:
        return
    wanted = capture.packets[middle - 1 : middle + 3]
    ours = capture.kept("numbers", capture.run("cut", "--packets", f"{middle}-{middle + 3}", capture.path, "-o", "-"))
    records = f"{wanted[0].record}-{wanted[-1].record}"
    yield "cut --packets", edited_verdict(capture, ours, "-r", capture.path, capture.at("theirs"), records)
    times = sorted(it.time for it in capture.packets if it.time is not None)
    if any(it.is_carried for it in capture.packets):
        yield "cut --from --until", capture.means("carried")
    elif times and 0 <= times[0] and times[-1] < 2**31:
        start, stop = times[len(times) // 3], times[-1]
        ours = capture.kept("times", capture.run("cut", "--from", str(start), "--until", str(stop), capture.path, "-o", "-"))
        asked = ("-A", str(start), "-B", str(stop), capture.path, capture.at("theirs"))
        yield "cut --from --until", edited_verdict(capture, ours, *asked)


def edited_verdict(capture, ours, *words):
    if os.path.exists(capture.at("theirs")):
        os.remove(capture.at("theirs"))
    output("editcap", *words)
    if not os.path.exists(capture.at("theirs")):
        return capture.means("unread")
    return capture.packets_beside(unplaced(ours), unplaced(packets(capture.at("theirs"))))


def parts(capture):
    """Compares parts of a third of the packets with editcap's, and what they become when they are joined."""
    count = str(max(1, len(capture.packets) // 3))
    ended = capture.run("cut", "--every", count, capture.path, "-o", capture.at("part.x"))
    ours = sorted(glob.glob(capture.at("part-*.x")))
    output("editcap", "-c", count, capture.path, capture.at("theirs.x"))
    theirs = [unplaced(packets(it)) for it in sorted(glob.glob(capture.at("theirs_*")))]
    found = [unplaced(packets(it)) for it in ours]
    if found == [[]] and not theirs:
        yield "cut --every", capture.means("empty")
    else:
        yield "cut --every", parts_verdict(capture, found, theirs)
    if ended.returncode == 0:
        yield from joined(capture, ours)


def parts_verdict(capture, found, theirs):
    if not theirs and capture.packets:
        return capture.means("unread")
    if capture.packets and capture.packets[-1].record > len(capture.packets):
        return capture.means("records")
    if capture.is_whole and found != theirs and list(map(dated, found)) == theirs:
        return capture.means("simple")
    return capture.beside(found, theirs[: len(found)] if capture.is_torn else theirs)


def joined(capture, names):
    capture.run("join", *names, "-o", capture.at("whole"))
    with open(capture.path, "rb") as one, open(capture.at("whole"), "rb") as other:
        yield "join", SAME if one.read() == other.read() else DIFFERENT
    if output("mergecap", "-a", "-w", capture.at("peer"), *names).returncode:
        yield "join, and mergecap -a", capture.means("unread")
    else:
        yield "join, and mergecap -a", capture.packets_beside(unplaced(capture.packets), unplaced(packets(capture.at("peer"))))


def merge(capture, other):
    if not os.path.exists(other) or capture.packets == []:
        return
    ran = capture.run("merge", capture.path, other, "-o", "-")
    ours = capture.kept("merged", ran)
    asked = output("mergecap", "-I", "none", "-w", capture.at("peer"), capture.path, other)
    if asked.returncode or not os.path.exists(capture.at("peer")):
        yield "merge", capture.means("unread")
        return
    theirs = packets(capture.at("peer"))
    yield "merge", merge_verdict(capture, ours, theirs, ran)


def placed(rows):
    return [(it.time, it.stored, it.wire, it.interface, it.digest) for it in rows]


def merge_verdict(capture, ours, theirs, ran):
    ours, theirs = placed(ours), placed(theirs)
    if ran.returncode == 0:
        if ours == theirs:
            return SAME
        if dated(ours) == theirs:
            return capture.means("simple")
        return capture.means("tie") if by_time(ours) == by_time(theirs) else DIFFERENT
    rest = collections.Counter(map(unnumbered, theirs))
    rest.subtract(map(unnumbered, ours))
    if any(count < 0 for count in rest.values()):
        return DIFFERENT
    return capture.refusal()


def unnumbered(row):
    return row[0] or Decimal(0), row[1], row[2], row[4]


def by_time(rows):
    """Returns the packets. Those of one time in a row are sorted, since their order is free."""
    return [sorted(group, key=str) for _, group in itertools.groupby(rows, key=lambda it: it[0])]


def repair(capture):
    ran = capture.run("repair", capture.path, "-o", "-")
    found, wanted = unplaced(capture.kept("repaired", ran)), unplaced(capture.packets)
    if not wanted:
        yield "repair", capture.means("unread") if found else SAME
        return
    if found == wanted:
        yield "repair", SAME
        return
    yield "repair", repaired_verdict(capture, found, wanted)


def repaired_verdict(capture, found, wanted):
    """Returns whether each packet is the peer's, except for what a repair changes."""
    if len(found) != len(wanted):
        return DIFFERENT
    for (time, stored, wire, digest), (was, were, had, sum_) in zip(found, wanted):
        kept = min(were, LONGEST)
        is_same = kept != were or digest == sum_
        if not (is_same and is_wrapped(time, was) and (stored, wire) == (kept, min(max(had, kept), LONGEST))):
            return DIFFERENT
    is_later = any(it[0] != row[0] for it, row in zip(found, wanted))
    return capture.means("wraps" if is_later else "repaired")


def verdicts(tool, path, other):
    """Returns the comparisons of a capture with their verdicts, and the intended differences."""
    meant = collections.Counter()
    with tempfile.TemporaryDirectory() as room:
        capture = Capture(tool, path, room, meant)
        words = (check, info, listing, cut, parts, repair)
        answers = [answer for word in words for answer in word(capture)]
        return answers + list(merge(capture, other)), meant


def compare(files, folder, tool):
    """Prints each difference, and a line of sums for each comparison. Returns whether there is no difference."""
    if not os.path.exists(tool):
        print(f"the words of pcapfile were not compared: {tool} must be built first")
        return False
    if not all([left_out.has(it, f"the words of pcapfile beside {it}, in tests/compare") for it in TOOLS]):
        return True
    counts, meant = collections.defaultdict(lambda: [0, 0, 0]), collections.Counter()
    with concurrent.futures.ThreadPoolExecutor(int(os.environ.get("JOBS", os.cpu_count() or 1))) as pool:
        asked = pool.map(lambda pair: verdicts(tool, *pair), zip(files, files[1:] + files[:1]))
        for path, (answers, reasons) in zip(files, asked):
            meant += reasons
            for name, answer in answers:
                counts[name][answer] += 1
                if answer == DIFFERENT:
                    print(f"{os.path.relpath(path, folder)}: {name}")
    for name, (same, part, different) in counts.items():
        print(f"{name}: {same} are the same, {part} differ as it is meant, {different} differ")
    for why, count in sorted(meant.items()):
        print(f"{count} answers: {why}")
    return any(same for same, _, _ in counts.values()) and not any(different for _, _, different in counts.values())
