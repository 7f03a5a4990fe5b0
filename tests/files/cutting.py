"""Checks what `pcapfile cut` and `pcapfile join` write. The test slices packets with struct alone, and also with editcap if that is installed."""
import itertools
import os
import stat
import struct
import subprocess
import tempfile

import left_out

DONE, AT_FAULT, USAGE, FAILED = 0, 1, 2, 3
SECONDS = 60


def ran(tally, folder, *words, given=b"", most=None):
    return tally.run(folder, list(words), given, most, None)


def pieces(capture, ends):
    """Returns the header of a classic capture, and each packet's bytes."""
    return capture[: ends[0]], [capture[a:b] for a, b in zip(ends, ends[1:])]


def expects(tally, help, name, held, words, wanted, status=DONE, said=""):
    """Checks that the words end with this status, and leave these files beside those that existed before."""
    with tempfile.TemporaryDirectory() as folder:
        for path, content in held.items():
            help.put(folder, path, content)
        code, written, told = ran(tally, folder, *words)
        left = help.files(folder)
    added = {path: content for path, content in left.items() if held.get(path) != content}
    gone = [path for path in held if path not in left]
    tally.note(
        name,
        (code, told) != (status, said) and f"it ended with {code} and said {told!r}, and not with {status} and {said!r}",
        written and f"it wrote {written!r}",
        gone and f"it took away {gone}",
        sorted(added) != sorted(wanted) and f"it made {sorted(added)}, and not {sorted(wanted)}",
        sorted(added) == sorted(wanted) and added != wanted and f"{[it for it in added if added[it] != wanted[it]]} have other bytes",
    )
    return added


def numbered(parts):
    return {f"out-{k + 1:05}.pcap": part for k, part in enumerate(parts)}


def joins(tally, help, name, parts, capture):
    expects(tally, help, name, parts, ["join", *sorted(parts), "-o", "all"], {"all": capture})


def try_parts(tally, help):
    """Checks parts by their number of packets, by their bytes, and by how many parts there are. Joined, they are the capture again."""
    for order, magic, fraction, counts in (("<", 0xA1B2C3D4, 1000, (0, 1, 9)), (">", 0xA1B23C4D, 1, (7,))):
        for count in counts:
            packets = [(k * 1000003000, 90, bytes([k]) * (k * k)) for k in range(count)]
            capture, ends = help.classic(order, magic, fraction, 101, packets)
            header, texts = pieces(capture, ends)
            for n in range(1, 10):
                name = f"{count} packets, {order}{magic:x}, {n}"
                each = [header + b"".join(texts[k : k + n]) for k in range(0, max(count, 1), n)]
                made = expects(tally, help, f"{name} each", {"in": capture}, ["cut", "in", "--every", str(n), "-o", "out.pcap"], numbered(each))
                joins(tally, help, f"{name} each, joined", made, capture)
                by_bytes = heaped(header, texts, 24 + 20 * n)
                made = expects(tally, help, f"{name} by bytes", {"in": capture}, ["cut", "in", "--bytes", str(24 + 20 * n), "-o", "out.pcap"], numbered(by_bytes))
                joins(tally, help, f"{name} by bytes, joined", made, capture)
                shared = shares(header, texts, n)
                made = expects(tally, help, f"{name} parts", {"in": capture}, ["cut", "in", "--parts", str(n), "-o", "out.pcap"], numbered(shared))
                joins(tally, help, f"{name} parts, joined", made, capture)


def try_left(tally, help):
    """Checks that a message names the part of an earlier run that has the next number, and that such parts stay."""
    capture, ends = help.classic("<", 0xA1B2C3D4, 1000, 1, help.FEW)
    header, texts = pieces(capture, ends)
    each = numbered([header + it for it in texts])
    behind = f"out-{len(texts) + 1:05}.pcap"
    for left, is_told in (({}, False), (dict.fromkeys(each, b"old"), False), ({behind: b"old"}, True), ({f"out-{len(texts) + 2:05}.pcap": b"old"}, False)):
        said = f"pcapfile: {behind}: is left from an earlier run, and is no part of in\n" if is_told else ""
        expects(tally, help, f"parts beside {sorted(left)}", {"in": capture, **left}, ["cut", "in", "--every", "1", "-o", "out.pcap"], each, DONE, said)


def heaped(header, texts, size):
    """Returns parts that end with the packet at which they reach this many bytes."""
    parts = [header]
    for k, text in enumerate(texts):
        parts[-1] += text
        if len(parts[-1]) >= size and k + 1 < len(texts):
            parts.append(header)
    return parts


def shares(header, texts, n):
    """Returns parts that end with the packet at which the next of n equal shares of the bytes ends."""
    total = sum(map(len, texts))
    share = (max(total, 1) - 1) // n + 1
    ends = [share * k for k in range(1, n)]
    parts, passed = [header], 0
    for k, text in enumerate(texts):
        parts[-1] += text
        before, passed = passed, passed + len(text)
        if k + 1 < len(texts) and any(before < end <= passed for end in ends):
            parts.append(header)
    return parts


def spanned(times, seconds):
    """Returns the number of each packet's part, from 0. A packet begins a part if its span is behind those of all packets before it. Spans are
    counted from the first time; packets without a time have None."""
    first = next((it for it in times if it is not None), 0)
    spans = [-1 if it is None else (it - first) // (seconds * 10**9) for it in times]
    latest = list(itertools.accumulate(spans, max))
    begun = sorted({it for it in latest if it >= 0})
    return [begun.index(it) if it >= 0 else 0 for it in latest]


def try_spans(tally, help):
    """Checks parts by time: packets at both ends of a span and earlier ones, spans without packets, and fractions of a second or more."""
    second = 10**9
    times = [it * second // 100 for it in (25, 25, 30, 124, 125, 50, 0, 224, 225, 1026, 25, 1024, 429496729500, 3)]
    for order, magic, unit in (("<", 0xA1B2C3D4, 1000), (">", 0xA1B23C4D, 1)):
        for asked in (times, times[:1], [], times[3:] + [0, 10**18], sorted(times)):
            capture, ends = help.classic(order, magic, unit, 1, [(time, 60, bytes([k]) * k) for k, time in enumerate(asked)])
            header, texts = pieces(capture, ends)
            for seconds in (1, 2, 3, 10, 2**32, 2**64 - 1):
                numbers = spanned(asked, seconds)
                each = [header + b"".join(text for text, it in zip(texts, numbers) if it == k) for k in range(max(numbers, default=0) + 1)]
                name = f"{len(asked)} packets, {order}{magic:x}, {seconds} seconds each"
                made = expects(tally, help, name, {"in": capture}, ["cut", "in", "--seconds", str(seconds), "-o", "out.pcap"], numbered(each))
                joins(tally, help, f"{name}, joined", made, capture)
        carried = [struct.pack(order + "IIII", at, fraction // unit, 0, 60) for at, fraction in ((10, 0), (9, 1999999000), (9, 2000000000), (10, 1500000000), (12, 0))]
        wanted = numbered([header + b"".join(carried[:2]), header + b"".join(carried[2:4]), header + carried[4]])
        held = {"in": header + b"".join(carried)}
        expects(tally, help, f"large fractions by seconds, {order}", held, ["cut", "in", "--seconds", "1", "-o", "out.pcap"], wanted)
    for words in (["--seconds", "0"], ["--seconds", "1.5"], ["--seconds=-1"], ["--seconds", "2", "--every", "2"], ["--seconds", "2", "--packets", "1-"]):
        fails(tally, help, " ".join(words), {"in": capture, "out": b"old"}, ["cut", "in", *words, "-o", "out"], USAGE, "error: ")
    try_torn_spans(tally, help)
    try_block_spans(tally, help)


def try_torn_spans(tally, help):
    """Checks truncated captures: the parts before the one that the error is in stay. A packet without a whole header is in no later part."""
    capture, ends = help.classic("<", 0xA1B2C3D4, 1000, 1, [(k * 10**9, 60, bytes(range(k))) for k in (3, 4, 9)])
    header, texts = pieces(capture, ends)
    for at in range(ends[1] + 1, ends[3]):
        if at not in ends:
            place = max(end for end in ends if end < at)
            whole = ends.index(place) - (at < place + 16)
            wanted = numbered([header + it for it in texts[:whole]])
            said = f"pcapfile: in: cut short at byte {place}\n"
            expects(tally, help, f"{at} bytes by seconds", {"in": capture[:at]}, ["cut", "in", "--seconds", "1", "-o", "out.pcap"], wanted, AT_FAULT, said)


def try_block_spans(tally, help):
    """Checks parts of blocks by time. Packets without a time stay in a part, and so do the blocks before the packet that ends it."""
    for order in "<>":
        interface, custom = help.interface(order, 1), (CUSTOM, struct.pack(order + "I", 32473) + b"any data")
        simple, torn = (SIMPLE, struct.pack(order + "I", 60) + b"data"), (PACKET, bytes(4))
        times = [None, 1700000000250000, None, 1700000001249999, 1700000000000000, 1700000001250000, None, None, 1700000009000000, 1700000002000000]
        packets = [simple if it is None else help.enhanced(order, k % 2, it, 60, bytes([k]) * k) for k, it in enumerate(times)]
        packets[6] = torn
        found = [interface, interface, *packets[:3], custom, *packets[3:5], interface, custom, packets[5], (NAMES, bytes(4)), *packets[6:9], custom, packets[9], custom]
        texts = [help.block(order, *it) for it in found]
        section = help.blocks(order, [])[0]
        for seconds in (1, 2, 8, 100):
            numbers = iter(spanned([it and it * 1000 for it in times], seconds))
            parts, in_force = [section], section
            for (number, _), text in zip(found, texts):
                if number in (PACKET, SIMPLE) and next(numbers) == len(parts):
                    parts.append(in_force)
                parts[-1] += text
                in_force += text if number in REPEATED else b""
            held, name = {"in": section + b"".join(texts)}, f"blocks of {seconds} seconds each, {order}"
            made = expects(tally, help, name, held, ["cut", "in", "--seconds", str(seconds), "-o", "out.pcap"], numbered(parts))
            joins(tally, help, f"{name}, joined", made, held["in"])


def try_sizes(tally, help):
    """Checks sizes with units, and that anything else is refused."""
    capture, ends = help.classic("<", 0xA1B2C3D4, 1000, 1, [(k, 1000, bytes(1000)) for k in range(60)])
    header, texts = pieces(capture, ends)
    for size, count in (("2000", 2000), ("2K", 2048), ("2KB", 2000), ("1M", 1 << 20), ("1GB", 10**9), ("1T", 1 << 40)):
        wanted = numbered(heaped(header, texts, count))
        expects(tally, help, f"parts of {size}", {"in": capture}, ["cut", "in", "--bytes", size, "-w", "out.pcap"], wanted)
    said = "error: the value of --bytes is wrong; write it as 5000, 100K, 1M or 2GB\nFor more information, try 'pcapfile cut --help'.\n"
    for size in ("", "0", "0K", "K", "1k", "1KiB", "+1", "1.5K", "1 K", "18446744073709551616", "18014398509481984K"):
        expects(tally, help, f"no size: {size!r}", {"in": capture}, ["cut", "in", f"--bytes={size}", "-o", "out.pcap"], {}, USAGE, said)


def try_ranges(tally, help):
    """Checks ranges of packets and of times, by slices and by editcap."""
    count = 6
    packets = [(1700000000250000000 + k * 500000000, 90, bytes([k]) * k) for k in range(count)]
    capture, ends = help.classic("<", 0xA1B2C3D4, 1000, 1, packets)
    header, texts = pieces(capture, ends)

    def part(*words, chosen, editcap=None):
        wanted = header + b"".join(chosen)
        made = expects(tally, help, " ".join(words), {"in": capture}, ["cut", "in", *words, "-o", "out"], {"out": wanted})
        if editcap and left_out.has("editcap", "cuts beside editcap, in tests/files/run"):
            given = edited(capture, editcap)
            found = help.packets_of(made.get("out", header))
            tally.note(f"editcap {editcap}", found != help.packets_of(given) and f"it has {help.packets_of(given)}, and not {found}")

    for first in range(1, count + 2):
        for last in range(first, count + 2):
            part("--packets", f"{first}-{last}", chosen=texts[first - 1 : last], editcap=["-r", "IN", "OUT", f"{first}-{last}"])
        part("--packets", f"{first}-", chosen=texts[first - 1 :])
        part(f"--packets=-{first}", chosen=texts[:first])
        part("--packets", f"{first}", chosen=texts[first - 1 : first], editcap=["-r", "IN", "OUT", f"{first}"])
    stamps = [f"{1700000000 + (250 + 500 * k) // 1000}.{(250 + 500 * k) % 1000:03}" for k in range(count)]
    for a in range(count):
        part("--from", stamps[a], chosen=texts[a:], editcap=["-A", stamps[a], "IN", "OUT"])
        part("--until", stamps[a], chosen=texts[:a], editcap=["-B", stamps[a], "IN", "OUT"])
        for b in range(a, count):
            part("--from", stamps[a], "--until", stamps[b], chosen=texts[a:b])
    part("--from", "2023-11-14T22:13:21.25Z", chosen=texts[2:])
    part("--until", "2023-11-14T23:13:21.25+01:00", chosen=texts[:2])
    part("--from", "1700000001", "--until", "1700000001.250000001", chosen=texts[2:3])
    part("--from", "1960-01-01T00:00:00Z", chosen=texts)
    part(chosen=texts)


def edited(capture, words):
    with tempfile.TemporaryDirectory() as folder:
        names = {"IN": os.path.join(folder, "in"), "OUT": os.path.join(folder, "out")}
        with open(names["IN"], "wb") as it:
            it.write(capture)
        words = ["editcap", "-F", "pcap", *(names.get(it, it) for it in words)]
        subprocess.run(words, check=True, capture_output=True, timeout=SECONDS, env={**os.environ, "TZ": "UTC"})
        with open(names["OUT"], "rb") as it:
            return it.read()


def try_faults(tally, help):
    """Checks a capture that is truncated at each byte or breaks a rule, and files that can't be opened, written, named or joined."""
    packets = [(k * 1000, 60, bytes(range(k))) for k in (3, 0, 9)]
    capture, ends = help.classic(">", 0xA1B2C3D4, 1000, 1, packets)
    header, texts = pieces(capture, ends)
    one = numbered([header + texts[0]])
    for at in range(len(capture)):
        if at in ends:
            continue
        before = [it for it in ends if it < at]
        said = f"pcapfile: in: cut short at byte {before[-1]}\n" if before else "pcapfile: in: cut short at byte 0\n" if at else "pcapfile: in: is empty\n"
        held = {"in": capture[:at], "out": b"old"}
        expects(tally, help, f"{at} bytes", held, ["cut", "in", "-o", "out"], {}, AT_FAULT, said)
        wanted = numbered([header + it for it in texts[: len(before) - 1]]) if before else {}
        expects(tally, help, f"{at} bytes, each", held, ["cut", "in", "--every", "1", "-o", "out.pcap"], wanted, AT_FAULT, said)
        if before:
            expects(tally, help, f"{at} bytes behind a part", {**one, **held}, ["join", *one, "in", "-o", "all"], {}, AT_FAULT, said)
    broken = capture[: ends[1]] + struct.pack(">IIII", 1, 0, 2, 1) + b"hi"
    other = help.classic(">", 0xA1B2C3D4, 1000, 2, packets)[0]
    in_range = ["cut", "in", "--packets", "1", "-o", "out"]
    held = {"in": capture}
    blocks = b"".join(text for _, text in sections(help, "<", 2))
    differs = "pcapfile: b: its format differs from that of the first part\n"
    rule = "pcapfile: in: refused at byte {} by rule ".format(ends[1])
    for name, before, words, status, said in (
        ("a rule", {"in": broken}, ["cut", "in", "-o", "out"], AT_FAULT, rule),
        ("no capture", {"in": b"\1these are 24 or more bytes"}, ["cut", "in", "-o", "out"], AT_FAULT, "pcapfile: in: Invalid field value: PcapHeader wrong"),
        ("no input", {}, in_range, FAILED, "pcapfile: in: "),
        ("no folder", held, ["cut", "in", "-o", "no/out"], FAILED, "pcapfile: no/out.part: "),
        ("a folder where the part stands", {**held, "out.part": None}, in_range, FAILED, "pcapfile: out.part: "),
        ("the capture itself", held, ["cut", "in", "-o", "in"], FAILED, "pcapfile: in: is one of the inputs; choose another name for the output\n"),
        ("no range", held, ["cut", "in", "--packets", "3-2", "-o", "out"], USAGE, "error: the value of --packets"),
        ("packet 0", held, ["cut", "in", "--packets", "0", "-o", "out"], USAGE, "error: the value of --packets"),
        ("no time", held, ["cut", "in", "--from", "noon", "-o", "out"], USAGE, "error: the value of --from"),
        ("ten digits", held, ["cut", "in", "--until", "1.1234567890", "-o", "out"], USAGE, "error: the value of --until"),
        ("two ways", held, ["cut", "in", "--every", "2", "--parts", "2", "-o", "out"], USAGE, "error: "),
        ("parts of no packet", held, ["cut", "in", "--every", "0", "-o", "out"], USAGE, "error: "),
        ("another header", {**held, "b": other}, ["join", "in", "b", "-o", "all"], AT_FAULT, "pcapfile: b: its header differs from that of the first part\n"),
        ("a part in the other format", {**held, "b": blocks}, ["join", "in", "b", "-o", "all"], AT_FAULT, differs),
        ("a part in the other format behind blocks", {**held, "a": blocks}, ["join", "a", "in", "-o", "all"], AT_FAULT, differs.replace("b:", "in:")),
        ("an empty part behind blocks", {"a": blocks, "b": b""}, ["join", "a", "b", "-o", "all"], AT_FAULT, "pcapfile: b: is empty\n"),
        ("an empty part", {**held, "b": b""}, ["join", "in", "b", "-o", "all"], AT_FAULT, "pcapfile: b: is empty\n"),
        ("no part", held, ["join", "in", "b", "-o", "all"], FAILED, "pcapfile: b: "),
        ("a part for the whole", held, ["join", "in", "-o", "in"], FAILED, "pcapfile: in: is one of the inputs; choose another name for the output\n"),
    ):
        fails(tally, help, name, before, words, status, said)
    expects(tally, help, "a range before a fault", {"in": broken}, in_range, {"out": header + texts[0]})
    long, _ = help.classic("<", 0xA1B2C3D4, 1000, 1, [(k, 1000, bytes(1000)) for k in range(200)])
    for most in (0, 1, 65536, 100000):
        fails(tally, help, f"{most} bytes of room", {"in": long, "out": b"old"}, ["cut", "in", "-o", "out"], FAILED, "pcapfile: out: ", most)
        fails(tally, help, f"{most} bytes of room, joined", {"in": long, "out": b"old"}, ["join", "in", "-o", "out"], FAILED, "pcapfile: out: ", most)


def fails(tally, help, name, held, words, status, said, most=None):
    """Checks that the words end with this status and this message, and leave the files that existed before."""
    with tempfile.TemporaryDirectory() as folder:
        for path, content in held.items():
            help.put(folder, path, content)
        code, written, told = ran(tally, folder, *words, most=most)
        left = help.files(folder)
    tally.note(
        name,
        (code != status or not told.startswith(said)) and f"it ended with {code} and said {told!r}",
        written and f"it wrote {written!r}",
        left != held and f"it left {sorted(left)}",
    )


def try_pipes(tally, help):
    """Checks standard input and output."""
    packets = [(k * 1000, 60, bytes(range(k))) for k in range(5)]
    capture, ends = help.classic("<", 0xA1B2C3D4, 1000, 1, packets)
    header, texts = pieces(capture, ends)
    with tempfile.TemporaryDirectory() as folder:
        ended = ran(tally, folder, "cut", "-", "--packets", "2-3", "-o", "-", given=capture)
        tally.note("through pipes", ended != (DONE, header + b"".join(texts[1:3]), "") and f"it ended with {ended}")
        ended = ran(tally, folder, "cut", "-", "--every", "2", "-o", "a.b/../x", given=capture)
        tally.note("no such folder", ended[0] != FAILED and f"it ended with {ended}")
        ended = ran(tally, folder, "cut", "-", "--every", "2", "-o", "x", given=capture)
        made = help.files(folder)
        tally.note("parts of standard input", (ended[0], sorted(made)) != (DONE, ["x-00001", "x-00002", "x-00003"]) and f"it made {sorted(made)}, {ended}")
        ended = ran(tally, folder, "join", *sorted(made), "-o", "-")
        tally.note("joined into a pipe", ended != (DONE, capture, "") and f"it ended with {ended[0]}")
        first, *others = sorted(made)
        for words in (["-", *others], [first, "-", others[1]]):
            given = made[first if words[0] == "-" else others[0]]
            ended = ran(tally, folder, "join", *words, "-o", "-", given=given)
            tally.note(f"a part through a pipe, {words}", ended != (DONE, capture, "") and f"it ended with {ended}")
        ended = ran(tally, folder, "join", "-", "-o", "all", given=capture)
        tally.note("a whole through a pipe", (ended, help.files(folder).get("all")) != ((DONE, b"", ""), capture) and f"it ended with {ended}")
        ended = ran(tally, folder, "cut", "-", "--parts", "2", "-o", "x", given=capture)
        tally.note("parts of a pipe", ended[0] != USAGE and f"it ended with {ended}")


def try_special(tally, help):
    """Checks an output whose name is that of something that is no regular file. The program writes into it, and leaves it in place."""
    capture, ends = help.classic("<", 0xA1B2C3D4, 1000, 1, [(k * 1000, 60, bytes(range(k))) for k in (3, 0, 9)])
    header, texts = pieces(capture, ends)
    held = {"in": capture, "a": header + texts[0], "b": header + texts[1]}
    for words in (["convert", "in"], ["merge", "in", "a"], ["cut", "in"], ["join", "a", "b"], ["repair", "in"]):
        with tempfile.TemporaryDirectory() as folder:
            for path, content in held.items():
                help.put(folder, path, content)
            wanted = ran(tally, folder, *words, "-o", "-")
            pipe = os.path.join(folder, "pipe")
            os.mkfifo(pipe)
            reader = subprocess.Popen(["cat", pipe], stdout=subprocess.PIPE)
            code, written, told = ran(tally, folder, *words, "-o", "pipe")
            came = reader.communicate(timeout=SECONDS)[0]
            is_pipe = stat.S_ISFIFO(os.lstat(pipe).st_mode)
            os.symlink("/dev/full", os.path.join(folder, "full"))
            full = ran(tally, folder, *words, "-o", "full")
            is_link = os.path.islink(os.path.join(folder, "full"))
            left = sorted(os.listdir(folder))
        tally.note(
            f"{words[0]} into a pipe",
            (code, came, told) != (wanted[0], wanted[1], wanted[2]) and f"it ended with {code}, said {told!r} and wrote {came!r}",
            not came and "nothing came",
            written and f"it wrote {written!r}",
            not is_pipe and "the pipe is replaced",
            (full[0] != FAILED or "No space left on device" not in full[2]) and f"on a full device it gave {full}",
            not is_link and "the device is replaced",
            left != sorted([*held, "pipe", "full"]) and f"it left {left}",
        )


SECTION, INTERFACE, SIMPLE, NAMES, STATISTICS, PACKET, SECRETS, CUSTOM = 0x0A0D0D0A, 1, 3, 4, 5, 6, 10, 0xBAD
# The blocks that packets after them may need.
REPEATED = (SECTION, INTERFACE, NAMES, SECRETS)


def sections(help, order, count):
    """Returns a capture of blocks as (number, text): two sections, interfaces, names and decryption secrets between packets, custom blocks,
    and statistics at the end."""
    def one(number, body):
        return number, help.block(order, number, body)

    def packet(k):
        return one(*help.enhanced(order, k % 2, 1700000000250000 + k * 500000, 60, bytes([k]) * k))

    head = struct.pack(order + "IHHq", 0x1A2B3C4D, 1, 0, -1)
    secrets = struct.pack(order + "II", 0x544C534B, 12) + b"CLIENT_RANDO"
    custom = one(CUSTOM, struct.pack(order + "I", 32473) + b"any data")
    found = [one(SECTION, head), one(*help.interface(order, 1)), one(NAMES, bytes(4)), one(*help.interface(order, 1))]
    for k in range(count):
        if k == 1:
            found += [one(SECRETS, secrets), custom]
        if k == 3:
            found += [one(SECTION, head + bytes(4)), one(*help.interface(order, 1, 96)), one(*help.interface(order, 101))]
        if k == 5:
            found.append(one(*help.interface(order, 105)))
        if k == 6:
            found += [one(NAMES, bytes(4)), one(SECRETS, secrets[:8] + b"SERVER_RANDO"), custom, one(STATISTICS, bytes(12))]
        found.append(packet(k))
    return [*found, one(STATISTICS, bytes(12))]


def block_parts(found, is_enough):
    """Returns parts that end before the packet at which is_enough(where the part began, its packets, its blocks' bytes, its opening's bytes)."""
    in_force, parts, passed = [found[0][1]], [found[0][1]], 0
    opening, begun, count, size = len(found[0][1]), 0, 0, 0
    for number, text in found[1:]:
        if number == PACKET:
            if count and is_enough(begun, count, size, opening):
                parts.append(b"".join(in_force))
                opening, begun, count, size = len(parts[-1]), passed, 0, 0
            count += 1
        parts[-1] += text
        passed, size = passed + len(text), size + len(text)
        if number == SECTION:
            in_force = []
        if number in REPEATED:
            in_force.append(text)
    return parts


def try_blocks(tally, help):
    """Checks parts of blocks, by what is in force where each begins. Joined, they are the capture again."""
    for order, counts in (("<", (0, 9)), (">", (7,))):
        for count in counts:
            found = sections(help, order, count)
            capture = b"".join(text for _, text in found)
            behind = len(capture) - len(found[0][1])
            for n in range(1, 10):
                share = (behind - 1) // n + 1
                ways = (
                    ("--every", n, lambda begun, packets, size, opening: packets >= n),
                    ("--bytes", 100 + 20 * n, lambda begun, packets, size, opening: opening + size >= 100 + 20 * n),
                    ("--parts", n, lambda begun, packets, size, opening: any(begun < share * k <= begun + size for k in range(1, n))),
                )
                for word, value, is_enough in ways:
                    name = f"{count} packets in blocks, {order}, {word} {value}"
                    wanted = numbered(block_parts(found, is_enough))
                    made = expects(tally, help, name, {"in": capture}, ["cut", "in", word, str(value), "-o", "out.pcap"], wanted)
                    joins(tally, help, f"{name}, joined", made, capture)
    try_block_ranges(tally, help, sections(help, ">", 7))


def try_block_ranges(tally, help, found):
    capture = b"".join(text for _, text in found)
    places = [at for at, (number, _) in enumerate(found) if number == PACKET]
    for first in range(1, 8):
        for last in range(first, 9):
            start = places[first - 1] if first > 1 else 1
            opens = max(at for at in range(start) if found[at][0] == SECTION)
            opening = [text for number, text in found[opens:start] if number in REPEATED]
            end = places[last - 1] + 1 if last <= 7 else len(found)
            wanted = b"".join([*opening, *(text for _, text in found[start:end])])
            expects(tally, help, f"blocks of packets {first}-{last}", {"in": capture}, ["cut", "in", "--packets", f"{first}-{last}", "-o", "out"], {"out": wanted})
    for k in range(7):
        stamp = f"{1700000000 + (250 + 500 * k) // 1000}.{(250 + 500 * k) % 1000:03}"
        later, before = set(places[k:]), set(places[:k])
        for word, those in (("--from", later), ("--until", before)):
            wanted = b"".join(text for at, (number, text) in enumerate(found) if number != PACKET or at in those)
            expects(tally, help, f"blocks {word} {stamp}", {"in": capture}, ["cut", "in", word, stamp, "-o", "out"], {"out": wanted})
    ends = [sum(len(text) for _, text in found[: k + 1]) for k in range(len(found))]
    for at in range(ends[0] + 1, len(capture), 3):
        if at not in ends:
            place = max(end for end in ends if end < at)
            fails(tally, help, f"{at} bytes of blocks", {"in": capture[:at]}, ["cut", "in", "-o", "out"], AT_FAULT, f"pcapfile: in: cut short at byte {place}\n")


def try_all(tally, help):
    for tries in (try_parts, try_left, try_spans, try_sizes, try_ranges, try_faults, try_pipes, try_special, try_blocks):
        tries(tally, help)
