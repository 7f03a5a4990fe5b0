"""Measures how long `--as-is` and `repair` take if a capture has many gaps. A large capture must take no longer per byte than a small
one. A capture with a block that states 16 MiB must take no longer than one without."""
import os
import resource
import struct
import subprocess
import tempfile

import streams
from outputs import HEADER, packet

SMALL, LARGE, LONG = 1_000_000, 4_000_000, 17_200_000
# Four times the bytes, or as many again, and as much for what else runs.
MOST = 8
# A run shorter than this many seconds shows nothing.
LEAST = 0.05
SECTION = streams.block(0x0A0D0D0A, struct.pack("<IHHq", 0x1A2B3C4D, 1, 0, -1)) + streams.block(1, struct.pack("<HHI", 1, 0, 0))
BLOCKS = streams.block(0x0BAD, bytes(200)) * 2 + b"\xff" * 4
PACKETS = packet(1, bytes(200)) * 2 + b"\xff" * 16


def seconds_of(words, folder):
    """Returns the processor seconds of a run."""
    before = resource.getrusage(resource.RUSAGE_CHILDREN)
    subprocess.run(words, cwd=folder, stdout=subprocess.DEVNULL, stderr=subprocess.DEVNULL, timeout=600)
    after = resource.getrusage(resource.RUSAGE_CHILDREN)
    return after.ru_utime + after.ru_stime - before.ru_utime - before.ru_stime


def filled(front, part, length):
    return front + part * (length // len(part))


def pairs():
    """Yields pairs of captures with a gap after every second packet or block: of few and of many bytes, or without and with a long block before."""
    yield "blocks", filled(SECTION, BLOCKS, SMALL), filled(SECTION, BLOCKS, LARGE)
    yield "packets", filled(HEADER, PACKETS, SMALL), filled(HEADER, PACKETS, LARGE)
    yield "a long block", filled(SECTION, BLOCKS, LONG), filled(SECTION + struct.pack("<II", 0x0BAD, 16_777_212), BLOCKS, LONG)


def try_all(tally):
    for name, small, large in pairs():
        with tempfile.TemporaryDirectory() as folder:
            for path, capture in (("small", small), ("large", large)):
                with open(os.path.join(folder, path), "wb") as it:
                    it.write(capture)
            for words in (["check", "--as-is"], ["list", "--as-is"], ["repair", "-o", "/dev/null"]):
                less, more = (seconds_of([tally.program, *words, it], folder) for it in ("small", "large"))
                tally.note(f"gaps of {name}, {' '.join(words)}", more > MOST * max(less, LEAST) and f"it took {less:.2f} s and {more:.2f} s")
