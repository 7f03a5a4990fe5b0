"""Checks which packets `pcapfile cut` selects, by tests that Python makes of the same words, and by tcpdump if that is installed. `list`,
`info`, `convert` and `merge` must read with the same words what Python selects."""
import datetime
import itertools
import os
import re
import struct
import subprocess
import tempfile

import cutting
import left_out

DONE, AT_FAULT, USAGE, FAILED = 0, 1, 2, 3
SECONDS = 60
START = 1700000000250000000
SECOND = 10**9
# Lists of numbers, with the numbers out of ten that they have.
NUMBERS = (
    ("1-3,5", (1, 2, 3, 5)), ("5,1-3", (1, 2, 3, 5)), ("2,2,2-3", (2, 3)), ("9-", (9, 10)), ("9-,-2,5", (1, 2, 5, 9, 10)), ("3-8,4-5", range(3, 9)),
    ("7", (7,)), ("1,10,11,12-", (1, 10)), ("18446744073709551615", ()), ("4-4,18446744073709551615", (4,)),
)
NO_NUMBERS = ("", ",", "1,", ",1", "0", "0-3", "3-2", "-", "1--2", "1-2-3", "a", "1;2", "1, 2", "+1", "18446744073709551616", "1-3,0")
# Times that are one second after START.
SAME_TIMES = (
    "1700000001.25", "1700000001.250000000", "2023-11-14T22:13:21.25Z", "2023-11-14 22:13:21.25", "2023-11-14T22:13:21.25", "2023-11-14 22:13:21.25Z",
    "2023-11-14T23:13:21.25+01:00", "2023-11-14 16:43:21.25-05:30", "+1", "+1s", "+1.0", "+1000ms", "+1 second",
    "-3.5s", "-3500ms", "-3s 500ms",
)
NO_TIMES = (
    "", "noon", "+", "+-1s", "-", "--1", "1.", ".5", "1.1234567890", "2023-13-01", "2023-02-29", "2023-11-14 25:00", "2023-11-14 22:13:21.25 CET", "+1x", "1e9", "0x10",
    "-1x", "--1s", "-+1s", "-1h ago", "1s", "1h ago",
)
# Programs, as tcpdump prints them, with the packets (bytes, length on the wire) that they accept.
FILTERS = (
    ("1\n6 0 0 262144\n", lambda data, wire: True),
    ("1\n6 0 0 1", lambda data, wire: True),
    ("1\n6 0 0 0\n", lambda data, wire: False),
    ("4\n48 0 0 0\n21 0 1 7\n6 0 0 65535\n6 0 0 0\n", lambda data, wire: data[:1] == b"\x07"),
    ("4\n128 0 0 0\n37 0 1 93\n6 0 0 1\n6 0 0 0\n", lambda data, wire: wire > 93),
    ("2\n48 0 0 4\n6 0 0 1\n", lambda data, wire: len(data) > 4),
    ("3\n40 0 0 1\n2 0 0 15\n22 0 0 0\n", lambda data, wire: len(data) > 2 and data[1:3] != b"\0\0"),
)
# Texts that are no programs, with the line and the rule that they break.
NO_FILTERS = (
    (b"", 1, "the first line is the number of instructions"),
    (b"tcpdump: syntax error\n", 1, "the first line is the number of instructions"),
    (b"\xd4\xc3\xb2\xa1\x02\0\x04\0", 1, "the first line is the number of instructions"),
    (b"0\n", 1, "a program has an instruction"),
    (b"2\n6 0 0 0\n", 1, "the first line is the number of instructions that follow"),
    (b"1\n6 0 0 0\n6 0 0 0\n", 1, "the first line is the number of instructions that follow"),
    (b"2\n6 0 0 0\n6 0 0\n", 3, "an instruction is four numbers, its code, jt, jf and k"),
    (b"1\n6 0 0 -1\n", 2, "an instruction is four numbers, its code, jt, jf and k"),
    (b"2\n6 0 0 0\n6 0 \xff 0\n", 3, "an instruction is four numbers, its code, jt, jf and k"),
    (b"1\n65535 0 0 0\n", 2, "the code is that of no instruction"),
    (b"2\n96 0 0 16\n6 0 0 0\n", 2, "the memory has 16 cells"),
    (b"2\n52 0 0 0\n6 0 0 0\n", 2, "a constant divisor is not 0"),
    (b"2\n100 0 0 32\n6 0 0 0\n", 2, "a constant shift is below 32"),
    (b"2\n6 0 0 0\n21 1 0 0\n", 3, "a jump leads to an instruction of the program"),
    (b"2\n6 0 0 0\n48 0 0 0\n", 3, "the last instruction returns"),
    (b"4097\n" + b"6 0 0 0\n" * 4097, 4098, "a program has at most 4096 instructions"),
)
ASKS = "For a program, run 'tcpdump -ddd EXPRESSION'.\n"
# The commands that read the packets that cut would write.
READING = (
    ["list", "in"], ["list", "in", "--csv"], ["list", "in", "--json"], ["list", "in", "--hex", "--utc"], ["list", "in", "in"], ["list", "in", "-n", "2"],
    ["info", "in"], ["info", "in", "in", "--json", "--total"], ["convert", "in", "-o", "out"], ["convert", "in", "--to", "pcapng", "-o", "-"],
    ["merge", "in", "in", "-o", "out"], ["merge", "in", "--append", "in", "--to", "pcap", "-o", "-"],
)
# Each row of packets takes one of so many commands.
EACH, TURNS = 4, itertools.count()
TWICE = "error: a time before the latest packet needs a file and no --repair, because the program reads the capture twice\n"


def sample(help):
    """Returns captures of the same ten packets (number, nanoseconds, length on the wire, data, interface) with the bytes of each packet and
    those before the first: a classic capture, and one of blocks with two interfaces."""
    packets = [(k + 1, START + k * SECOND // 2, 90 + k % 5, bytes([k * 7 % 10]) * (k * 3 % 8), k % 3 % 2) for k in range(10)]
    capture, ends = help.classic(">", 0xA1B23C4D, 1, 1, [it[1:4] for it in packets])
    header, texts = cutting.pieces(capture, ends)
    parts = [help.interface("<", 1, 0, True), help.interface("<", 1, 0, True)]
    parts += [help.enhanced("<", interface, time, wire, data) for _, time, wire, data, interface in packets]
    stored, ends = help.blocks("<", parts)
    front, blocks = stored[: ends[2]], [stored[a:b] for a, b in zip(ends[2:], ends[3:])]
    return packets, ((header, texts), (front, blocks))


def selects(tally, help, words, test, held=None):
    """Checks that the words select, in both captures, the packets that pass the test."""
    packets, captures = sample(help)
    for kind, (front, texts) in zip(("packets", "blocks"), captures):
        is_classic = kind == "packets"
        wanted = front + b"".join(text for it, text in zip(packets, texts) if test(*(it[:4] + (0,) if is_classic else it)))
        given = {"in": front + b"".join(texts), **(held or {})}
        cutting.expects(tally, help, f"{kind} {' '.join(words)}", given, ["cut", "in", *words, "-o", "out"], {"out": wanted})
        numbers = [it[0] for it in packets if test(*(it[:4] + (0,) if is_classic else it))]
        reads(tally, help, f"{kind} {' '.join(words)}", given, words, wanted, numbers)


def numbered(listed, words, numbers):
    """Returns the lines of a list, with these numbers of its packets."""
    if "--hex" in words:
        parts = [it.split(b" ", 1)[1] for it in listed.split(b"\n\n")[:-1]]
        return b"".join(b"%d %s\n\n" % it for it in zip(numbers, parts, strict=True))
    before = rb'(^.*"index":)' if "--json" in words else rb"(^)"
    again = itertools.cycle(numbers)
    return re.sub(before + rb"\d+(?=[, ])", lambda it: it[1] + b"%d" % next(again), listed, flags=re.M)


def reads(tally, help, name, given, words, selected, numbers, status=DONE, said=""):
    """Checks that some of the commands, in turns, read with these words the selected packets, which have these numbers in their capture."""
    for command in READING[next(TURNS) % EACH :: EACH]:
        # A list that ends before the error doesn't report it.
        is_full = "-n" in command and len(numbers) >= 2
        ends_well = status == DONE or is_full
        command = [it for it in command if ends_well or it != "--total"]
        ends = []
        for held, more in ((given, words), ({**given, "in": selected}, [])):
            with tempfile.TemporaryDirectory() as folder:
                for path, content in held.items():
                    help.put(folder, path, content)
                ended = cutting.ran(tally, folder, *command, *more)
                ends.append((*ended, help.files(folder).get("out")))
        code, written, told, made = ends[1]
        if command[0] == "list":
            written = numbered(written, command, numbers[:2] if "-n" in command else numbers)
        if not ends_well:
            code, told = max(code, status), told + said * command.count("in")
            made = None if command[0] == "convert" else made
        elif status == DONE:
            told += said * command.count("in")
        wanted = (code, written, told, made)
        tally.note(f"{name} {' '.join(command)}", ends[0] != wanted and f"it ended with {ends[0]}, and not with {wanted}")


def refuses(tally, help, words, said, held=None):
    _, ((front, texts), _) = sample(help)
    given = {"in": front + b"".join(texts), "out": b"old", **(held or {})}
    cutting.fails(tally, help, " ".join(words)[:80], given, ["cut", "in", *words, "-o", "out"], USAGE, said)


def try_numbers(tally, help):
    for text, numbers in NUMBERS:
        selects(tally, help, [f"--packets={text}"], lambda number, *_, numbers=numbers: number in numbers)
    selects(tally, help, ["--packets", "-3"], lambda number, *_: number <= 3)
    for text in NO_NUMBERS:
        refuses(tally, help, [f"--packets={text}"], "error: the value of --packets is wrong; write it as ")


def try_times(tally, help):
    for text in SAME_TIMES:
        selects(tally, help, ["--from", text], lambda number, time, *_: time >= START + SECOND)
        selects(tally, help, ["--until", text], lambda number, time, *_: time < START + SECOND)
    selects(tally, help, ["--from", "2023-11-14"], lambda *_: True)
    selects(tally, help, ["--until", "2023-11-14"], lambda *_: False)
    selects(tally, help, ["--from", "2023-11-15"], lambda *_: False)
    selects(tally, help, ["--from", "+1.5", "--until", "+1h 30m"], lambda number, time, *_: time >= START + 3 * SECOND // 2)
    selects(tally, help, ["--from", "+1s", "--until", "+2s", "--packets", "4-"], lambda number, time, *_: number == 4)
    selects(tally, help, ["--from", "-1.5", "--until", "1969-12-31 23:59:59"], lambda *_: False)
    selects(tally, help, ["--from", "1960-01-01"], lambda *_: True)
    for name, text in itertools.product(("from", "until"), NO_TIMES):
        refuses(tally, help, [f"--{name}={text}"], f"error: the value of --{name} is wrong; write it as ")


def try_early(tally, help):
    """Checks times before 1970, which blocks can have by the offset of their interface, and those around them."""
    options = struct.pack("<HHB3xHHqHH", 9, 1, 9, 14, 8, -1000, 0, 0)
    parts = [(1, struct.pack("<HHI", 1, 0, 0) + options)]
    parts += [help.enhanced("<", 0, units, 4, b"data") for units in (0, 1, 500000000, 1000000000, 1000000000000)]
    capture, ends = help.blocks("<", parts)
    front, texts = capture[: ends[1]], [capture[a:b] for a, b in zip(ends[1:], ends[2:])]
    for words, chosen in (
        (["--from=-1000", "--until=-999.5"], texts[:2]),
        (["--from=-999.5", "--until=-999"], texts[2:3]),
        (["--until", "1969-12-31T23:43:20.000000001Z"], texts[:1]),
        (["--from", "1969-12-31 23:43:20.000000001", "--until", "0"], texts[1:4]),
        (["--from", "+1s"], texts[3:]),
        (["--from", "0"], texts[4:]),
    ):
        cutting.expects(tally, help, f"before 1970, {words}", {"in": capture}, ["cut", "in", *words, "-o", "out"], {"out": front + b"".join(chosen)})


def try_latest(tally, help):
    """Checks times before the latest packet, which is not the last one, in both formats and in a truncated capture. One block has no time."""
    times = [5 * SECOND, 9 * SECOND + SECOND // 4, 7 * SECOND, 2 * SECOND]
    latest = max(times)
    capture, ends = help.classic("<", 0xA1B23C4D, 1, 1, [(it, 60, b"data") for it in times])
    parts = [help.interface("<", 1, 0, True), (help.SIMPLE, struct.pack("<I", 4) + b"none"), *(help.enhanced("<", 0, it, 60, b"data") for it in times)]
    stored, block_ends = help.blocks("<", parts)
    for words, test in (
        (["--from", "-2s"], lambda time: time >= latest - 2 * SECOND),
        (["--until=-2s"], lambda time: time < latest - 2 * SECOND),
        (["--from", "-2.25s"], lambda time: time >= 7 * SECOND),
        (["--from", "-2.249999999s"], lambda time: time > 7 * SECOND),
        (["--until", "-2250ms"], lambda time: time < 7 * SECOND),
        (["--from", "-0s"], lambda time: time == latest),
        (["--until", "-0s"], lambda time: time < latest),
        (["--from", "-1h"], lambda time: True),
        (["--until", "-1h 30m"], lambda time: False),
        (["--from", "+1s", "--until", "-1s"], lambda time: 6 * SECOND <= time < latest - SECOND),
        (["--from", "-9s", "--packets", "2-3"], lambda time: time in times[1:3]),
    ):
        header, texts = cutting.pieces(capture, ends)
        wanted = header + b"".join(text for time, text in zip(times, texts) if test(time))
        cutting.expects(tally, help, f"packets {words}", {"in": capture}, ["cut", "in", *words, "-o", "out"], {"out": wanted})
        with tempfile.TemporaryDirectory() as folder:
            help.put(folder, "in", capture[:-1])
            ended = cutting.ran(tally, folder, "cut", "in", *words, "-o", "-")
        wanted = header + b"".join(text for time, text in zip(times[:-1], texts) if test(time))
        if "--packets" not in words:
            tally.note(f"torn packets {words}", ended != (AT_FAULT, wanted, f"pcapfile: in: cut short at byte {ends[-2]}\n") and f"it ended with {ended}")
        texts = [stored[a:b] for a, b in zip(block_ends[2:], block_ends[3:])]
        number = {"2-3": times[:2]}.get(words[-1])
        # The block without a time is the first packet, so the packets have other numbers than in the classic capture.
        chosen = number or [time for time in times if test(time)]
        wanted = stored[: block_ends[1]] + b"".join(text for time, text in zip(times, texts) if time in chosen)
        said = "pcapfile: in: left out 1 packet without a time\n"
        cutting.expects(tally, help, f"blocks {words}", {"in": stored}, ["cut", "in", *words, "-o", "out"], {"out": wanted}, said="" if number else said)
        numbers = [k + 2 for k, time in enumerate(times) if time in chosen]
        reads(tally, help, f"blocks {words}", {"in": stored}, words, wanted, numbers, said="" if number else said)
    try_not_twice(tally, help, capture)


def try_not_twice(tally, help, capture):
    """Checks captures that can't be read twice, and files that are no captures or have no packet. Each has one message."""
    for name in ("from", "until"):
        option = f"--{name}=-1s"
        for words in (["in", "--repair"], ["-"], ["/dev/stdin"]):
            for command, *others in (["cut", "-o", "out"], ["list"], ["info"], ["convert", "-o", "out"], ["merge", "in", "-o", "out"]):
                if (command, "--repair") == ("list", words[-1]):
                    continue
                with tempfile.TemporaryDirectory() as folder:
                    help.put(folder, "in", capture)
                    ended = cutting.ran(tally, folder, command, *words, option, *others, given=capture)
                    left = sorted(help.files(folder))
                tally.note(f"{command} {option} {words}", ended != (USAGE, b"", TWICE) and f"it ended with {ended}", left != ["in"] and f"it left {left}")
        for held, status, said in (
            ({}, FAILED, "pcapfile: in: No such file or directory (os error 2)\n"),
            ({"in": b""}, AT_FAULT, "pcapfile: in: is empty\n"),
            ({"in": b"\x1f\x8b" + capture}, AT_FAULT, "pcapfile: in: is a gzip file, not a capture; 'zcat FILE | pcapfile info -' reads it\n"),
            ({"in": capture[:9]}, AT_FAULT, "pcapfile: in: cut short at byte 0\n"),
            ({"in": help.blocks("<", [])[0][:20]}, AT_FAULT, "pcapfile: in: cut short at byte 0\n"),
        ):
            with tempfile.TemporaryDirectory() as folder:
                for path, content in held.items():
                    help.put(folder, path, content)
                ended = cutting.ran(tally, folder, "cut", "in", option, "-o", "out")
                left = help.files(folder)
            tally.note(f"{option} of {held}", ended != (status, b"", said) and f"it ended with {ended}", left != held and f"it left {sorted(left)}")
        cutting.expects(tally, help, f"{option} of no packet", {"in": capture[:24]}, ["cut", "in", option, "-o", "out"], {"out": capture[:24]})


def try_local(tally, help):
    """Checks times in the system's zone, which TZ names."""
    packets, ((front, texts), _) = sample(help)
    for zone, text in (("UTC", "2023-11-14 22:13:21.25"), ("EST5EDT,M3.2.0,M11.1.0", "2023-11-14 17:13:21.25"), ("Europe/Berlin", "2023-11-14 23:13:21.25")):
        if "/" in zone and not os.path.exists(f"/usr/share/zoneinfo/{zone}"):
            continue
        with tempfile.TemporaryDirectory() as folder:
            help.put(folder, "in", front + b"".join(texts))
            words = [tally.program, "cut", "--local", "in", "--from", text, "-o", "out"]
            ran = subprocess.run(words, cwd=folder, env={**os.environ, "TZ": zone}, capture_output=True, timeout=SECONDS)
            made = help.files(folder).get("out")
        tally.note(f"times in {zone}", ran.returncode != DONE and f"it said {ran.stderr}", made != front + b"".join(texts[2:]) and "it has other packets")
    since = datetime.datetime.fromtimestamp(START // SECOND + 1, datetime.timezone.utc)
    selects(tally, help, ["--local", "--from", since.isoformat()], lambda number, time, *_: time >= START // SECOND * SECOND + SECOND)


def try_lengths(tally, help):
    for least, most in ((0, 95), (91, 93), (92, 92), (94, 2**64 - 1), (95, 95), (93, 92)):
        words = ["--min-len", str(least), "--max-len", str(most)]
        selects(tally, help, words, lambda number, time, wire, *_, a=least, b=most: a <= wire <= b)
    for number in (0, 1, 2, 2**32 - 1):
        selects(tally, help, ["--interface", str(number)], lambda *it, number=number: it[4] == number)
    for words in (["--min-len", "-1"], ["--max-len", "a"], ["--interface", str(2**32)], ["--interface", "eth0"]):
        refuses(tally, help, words, "error: ")


def try_filters(tally, help):
    for text, accepts in FILTERS:
        held = {"filter": text.encode()}
        selects(tally, help, ["--bpf", "filter"], lambda number, time, wire, data, _, accepts=accepts: accepts(data, wire), held)
        both = ["--bpf", "filter", "--packets", "2-8", "--from", "+1s", "--max-len", "93"]
        selects(tally, help, both, lambda n, time, wire, data, _, accepts=accepts: 3 <= n <= 8 and wire <= 93 and accepts(data, wire), held)
    for text, line, rule in NO_FILTERS:
        refuses(tally, help, ["--bpf", "filter"], f"error: filter: line {line}: {rule}\n{ASKS}", {"filter": text})
    for words in (["--bpf", "filter", "--every", "2"], ["--bpf", "filter", "--parts", "2"], ["--packets", "1", "--bytes", "9"]):
        refuses(tally, help, words, "error: ", {"filter": b"1\n6 0 0 1\n"})
    _, ((front, texts), _) = sample(help)
    given = {"in": front + b"".join(texts), "filter": FILTERS[3][0].encode()}
    cutting.fails(tally, help, "no filter", given, ["cut", "in", "--bpf", "none", "-o", "out"], FAILED, "pcapfile: none: ")
    cutting.fails(tally, help, "a filter that is a folder", {**given, "f": None}, ["cut", "in", "--bpf", "f", "-o", "out"], FAILED, "pcapfile: f: ")
    cutting.fails(tally, help, "the filter itself", given, ["cut", "in", "--bpf", "filter", "-o", "filter"], FAILED, "pcapfile: filter: is one of the inputs; choose another name for the output\n")
    both = "error: the capture and the filter can't both be standard input\n"
    cutting.fails(tally, help, "both from standard input", given, ["cut", "-", "--bpf", "-", "-o", "out"], USAGE, both)
    with tempfile.TemporaryDirectory() as folder:
        help.put(folder, "in", given["in"])
        ended = cutting.ran(tally, folder, "cut", "in", "--bpf", "-", "-o", "-", given=given["filter"])
    kept = b"".join(it for it in texts if it[16:17] == b"\x07")
    tally.note("a filter from a pipe", ended != (DONE, front + kept, "") and f"it ended with {ended}")


def try_expressions(tally, help):
    """Checks filters of expressions over packets of common protocols, beside tcpdump."""
    if not left_out.has("tcpdump", "cuts by filters beside tcpdump, in tests/files/run"):
        return
    udp = bytes(12) + b"\x08\0" + bytes.fromhex("450000200000000040110000" + "0a0000010a000002" + "d43100350008") + bytes(10)
    dns, other = udp, udp.replace(bytes.fromhex("d4310035"), bytes.fromhex("d4310050"))
    packets = [(START + k * SECOND, 1500 if k % 2 else len(it), it) for k, it in enumerate((dns, other, dns[:30], b"", dns[:14], other + bytes(99)))]
    capture, _ = help.classic("<", 0xA1B2C3D4, 1000, 1, packets)
    for expression in ("udp port 53", "not udp port 53", "udp", "greater 60", "ip host 10.0.0.1", "ether[0] = 0", "less 50 or udp dst port 80"):
        with tempfile.TemporaryDirectory() as folder:
            help.put(folder, "in", capture)
            program = subprocess.run(["tcpdump", "-ddd", expression], cwd=folder, capture_output=True, timeout=SECONDS, check=True).stdout
            subprocess.run(["tcpdump", "-r", "in", "-w", "wanted", expression], cwd=folder, capture_output=True, timeout=SECONDS, check=True)
            help.put(folder, "filter", program)
            ended = cutting.ran(tally, folder, "cut", "in", "--bpf", "filter", "-o", "out")
            made = help.files(folder)
        same = help.packets_of(made.get("out", capture)) == help.packets_of(made["wanted"])
        tally.note(f"beside tcpdump {expression}", ended != (DONE, b"", "") and f"it ended with {ended}", not same and "it has other packets")


def try_damaged(tally, help):
    """Checks that the commands read the selected packets before a truncated or malformed item, and report its byte in the capture."""
    packets, captures = sample(help)
    big = struct.pack(">IIII", 0, 0, 4, 2) + b"data"
    for kind, (front, texts) in zip(("packets", "blocks"), captures):
        for rest, said in (
            (texts[8][:-1], "cut short at byte {}"),
            (big + texts[8] if kind == "packets" else struct.pack("<III", 6, 13, 0), "refused at byte {} by rule "),
        ):
            capture = front + b"".join(texts[:8]) + rest
            with tempfile.TemporaryDirectory() as folder:
                help.put(folder, "in", capture)
                code, written, told = cutting.ran(tally, folder, "cut", "in", "--packets", "3-", "-o", "-")
            selected = front + b"".join(texts[2:8])
            place = f"pcapfile: in: {said.format(len(capture) - len(rest))}"
            tally.note(f"cut of damaged {kind}", (code, written, told[: len(place)]) != (AT_FAULT, selected, place) and f"it ended with {(code, written, told)}")
            for words in (["--packets", "3-"], ["--packets=3-8,99"], ["--packets", "3-", "--min-len", "1"]):
                reads(tally, help, f"damaged {kind}", {"in": capture}, words, selected, range(3, 9), AT_FAULT, told)
            reads(tally, help, f"{kind} before the damage", {"in": capture}, ["--packets", "3-8"], selected, range(3, 9))


def try_both(tally, help):
    """Checks options that exclude tests, a filter and a capture that are both standard input, and a filter that would be the output."""
    for words in (["list", "in", "--as-is", "--packets", "1"], ["info", "in", "--hash", "--bpf", "in"]):
        cutting.fails(tally, help, " ".join(words), {"in": b""}, words, USAGE, "error: ")
    both = "error: the capture and the filter can't both be standard input\n"
    for words in (["list", "in", "-"], ["info", "-"], ["convert", "-", "-o", "out"], ["merge", "in", "-", "-o", "out"]):
        cutting.fails(tally, help, f"{words}, both from standard input", {"in": b""}, [*words, "--bpf", "-"], USAGE, both)
    held = {"in": sample(help)[1][0][0], "filter": FILTERS[0][0].encode()}
    said = "pcapfile: filter: is one of the inputs; choose another name for the output\n"
    for command in ("convert", "merge"):
        cutting.fails(tally, help, f"{command}, the filter itself", held, [command, "in", "--bpf", "filter", "-o", "filter"], FAILED, said)


def try_all(tally, help):
    for tries in (try_numbers, try_times, try_early, try_latest, try_local, try_lengths, try_filters, try_expressions, try_damaged, try_both):
        tries(tally, help)
