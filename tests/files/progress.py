"""Checks the progress that the program prints: on a terminal, after a second, but not with --quiet."""
import os
import pty
import re
import select
import struct
import subprocess
import tempfile
import time

MILLION = 10**6
# Bytes that come at once. After more than a second the program prints how many million it read, how many packets, and how many million a
# second. On a slow machine it may print that earlier as well.
HALF = 12 * MILLION
LINE = r"(\d+)(?: of (\d+))? MB read, (\d+) packets, (\d+) MB a second\x1b\[K\r"
REPAIRED, GUESSED = 5, 6
HEADER = struct.pack("<IHHiIII", 0xA1B23C4D, 2, 4, 0, 0, 262144, 1)
TAKEN_AWAY = "\x1b[K"


def packets(size):
    """Returns this many bytes of packets of 100000 bytes each."""
    text = struct.pack("<IIII", 1, 2, 100000 - 16, 100000) + bytes(100000 - 16)
    return text * (size // len(text))


def small_packets(order, count):
    """Returns this many packets of few bytes, some of which look like heads."""
    return b"".join(struct.pack(order + "IIII", 1, 2, k % 21, 21) + bytes([k]) * (k % 21) for k in range(count))


def block(order, number, body):
    body += bytes(-len(body) % 4)
    return struct.pack(order + "II", number, len(body) + 12) + body + struct.pack(order + "I", len(body) + 12)


def blocks(order):
    """Returns a section and an interface with seven packets: three enhanced ones, two simple ones and two of the obsolete kind."""
    section = block(order, 0x0A0D0D0A, struct.pack(order + "IHHq", 0x1A2B3C4D, 1, 0, -1))
    parts = [section, block(order, 1, struct.pack(order + "HHI", 1, 0, 0)), block(order, 4, bytes(4))]
    for k in range(3):
        parts.append(block(order, 6, struct.pack(order + "IIIII", 0, 0, k, 10 * k, 40) + bytes(10 * k)))
        if k:
            parts.append(block(order, 2, struct.pack(order + "HHIIII", 0, 0, 0, k, 5, 40) + b"12345"))
            parts.append(block(order, 3, struct.pack(order + "I", 4 * k) + bytes(4 * k)))
        parts.append(block(order, 5, struct.pack(order + "III", 0, 0, k)))
    return b"".join(parts)


def lines(said):
    """Returns the numbers of each line of the messages, or None if there is anything else."""
    return [it.groups() for it in re.finditer(LINE, said)] if re.fullmatch(f"(?:{LINE})*", said) else None


def taken(terminal):
    """Returns what the program printed on a terminal."""
    came = b""
    while select.select([terminal], [], [], 0)[0]:
        try:
            came += os.read(terminal, 65536)
        except OSError:
            break
    return came.decode()


def said_by(tally, words, folder, pause, on_terminal=True, first=(HEADER + packets(HALF),), then=packets(100000), last=packets(HALF)):
    """Returns what a word prints, and its status. These pieces of the capture come one by one, then one more after a pause, and then the last."""
    ours, theirs = pty.openpty()
    errors = {"stderr": theirs if on_terminal else subprocess.DEVNULL}
    with subprocess.Popen([tally.program, *words], stdin=subprocess.PIPE, stdout=subprocess.DEVNULL, cwd=folder, **errors) as ran:
        for piece in first:
            ran.stdin.write(piece)
            ran.stdin.flush()
            time.sleep(0 if len(first) == 1 else 0.001)
        time.sleep(pause)
        ran.stdin.write(then)
        ran.stdin.flush()
        time.sleep(0.3)
        before = taken(ours)
        ran.stdin.write(last)
        ran.stdin.close()
    os.close(theirs)
    behind = taken(ours)
    os.close(ours)
    return before, behind, ran.returncode


def try_words(tally, folder):
    """Checks that each word prints how many bytes and packets it read, and clears the line."""
    with open(f"{folder}/whole", "wb") as it:
        it.write(HEADER + packets(HALF))
    words = (
        ["check"], ["check", "--as-is"], ["info"], ["list"], ["list", "--as-is"], ["convert", "-o", "out"], ["cut", "-o", "out"],
        ["join", "-o", "out"], ["repair", "-o", "out"], ["merge", "-o", "out", "whole"],
    )
    for word in words:
        before, behind, status = said_by(tally, [*word, "-"], folder, 1.3)
        found, size = lines(before), 24 if "whole" in word else 12
        told = "pcapfile: -: no damage found; 241 packets kept\r\n" if word[0] == "repair" else ""
        tally.note(
            f"{' '.join(word)}, on a terminal",
            not (found and found[-1][:3] == (str(size), None, str(10 * size + 1)) and 0 < int(found[-1][3]) < size) and f"it said {before!r}",
            not behind.endswith(TAKEN_AWAY + told) and f"it left {behind!r}",
            status != 0 and f"it ended with {status}",
        )


def try_packets(tally, folder):
    """Checks that packets of each kind are counted, wherever the bytes are cut, up to where they make no sense."""
    big = struct.pack(">IHHiIII", 0xA1B2C3D4, 2, 4, 0, 0, 262144, 1)
    few = small_packets("<", 3)
    for name, capture, more, count, word, wanted in (
        ("little", HEADER + small_packets("<", 30), small_packets("<", 1), 31, ["check"], 0),
        ("big", big + small_packets(">", 30), small_packets(">", 1), 31, ["check"], 0),
        ("blocks", blocks("<") + blocks(">") + blocks("<"), block("<", 3, bytes(8)), 22, ["list"], 0),
        ("garbage", HEADER + few + b"\xff" * 100 + few, few, 3, ["repair", "-o", "out"], GUESSED),
    ):
        for size in (1, 5, 13, len(capture)):
            pieces = [capture[at : at + size] for at in range(0, len(capture), size)]
            before, _, status = said_by(tally, [*word, "-"], folder, 1.3, first=pieces, then=more, last=b"")
            found = lines(before)
            tally.note(
                f"packets of {name}, by {size} bytes",
                not (found and found[-1][2] == str(count)) and f"it said {before!r}, and not of {count}",
                status != wanted and f"it ended with {status}",
            )


def try_faults(tally, folder):
    """Checks that a message about a fault has a line of its own."""
    torn = struct.pack("<IIII", 1, 2, 10, 9) + bytes(10)
    for word in (["list"], ["convert", "-o", "out"], ["cut", "-o", "out"], ["join", "-o", "out"], ["merge", "-o", "out"], ["repair", "-o", "out"]):
        _, behind, status = said_by(tally, [*word, "-"], folder, 1.3, last=torn)
        said = behind.rpartition(TAKEN_AWAY)[2]
        told = said.startswith("pcapfile: -: ") and said.endswith("\r\n") and " MB " not in said
        wanted = REPAIRED if word[0] == "repair" else 1
        tally.note(f"{word[0]}, a fault behind it", not (told and TAKEN_AWAY in behind) and f"it said {behind!r}", status != wanted and f"it ended with {status}")


def try_all_lengths(tally, folder):
    """Checks that for several files the program prints how many bytes all have."""
    ours, theirs = pty.openpty()
    with subprocess.Popen([tally.program, "merge", "whole", "whole", "-o", "-"], stdout=subprocess.PIPE, cwd=folder, stderr=theirs) as ran:
        time.sleep(1.3)
        out = ran.stdout.read()
    os.close(theirs)
    said = taken(ours)
    os.close(ours)
    found = lines(said.removesuffix(TAKEN_AWAY).partition(TAKEN_AWAY + TAKEN_AWAY)[0])
    known = found and all(it[1] == "24" and int(it[0]) < 25 for it in found)
    tally.note("merge, of two files", not (known and len(out) > 2 * HALF) and f"it said {said!r}", ran.returncode != 0 and f"it ended with {ran.returncode}")


def try_silence(tally, folder):
    """Checks that the program prints no progress if it must not."""
    for name, more, pause, on_terminal in (("quiet", ["--quiet"], 1.3, True), ("at once", [], 0, True), ("on no terminal", [], 1.3, False)):
        before, behind, status = said_by(tally, ["check", *more, "-"], folder, pause, on_terminal)
        tally.note(f"check, {name}", (before, behind, status) != ("", "", 0) and f"it said {before!r}, {behind!r} and ended with {status}")


def try_all(tally):
    with tempfile.TemporaryDirectory() as folder:
        for tries in (try_words, try_packets, try_faults, try_all_lengths, try_silence):
            tries(tally, folder)
