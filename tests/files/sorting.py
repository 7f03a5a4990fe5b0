"""Checks what `pcapfile sort` writes, beside a stable sort of the packet records by struct alone.

Each sort has a folder of its own, so that the test sees a file that is left over. A damaged capture must print the line that `cut` prints,
leave nothing, and spare the file that had the name. So must a file that changes between the two passes, and a pipe.
"""
import itertools
import os
import random
import struct
import subprocess
import sys
import tempfile


DONE, AT_FAULT, USAGE, FAILED = 0, 1, 2, 3
SECONDS = 60
KINDS = [("<", 0xA1B2C3D4, 1000), (">", 0xA1B2C3D4, 1000), ("<", 0xA1B23C4D, 1), (">", 0xA1B23C4D, 1)]
TWICE = "error: sort needs a file, because it reads the capture twice\n"
CHANGED = "pcapfile: in: the file changed while it was read; sort it again when no program writes it\n"
LONGEST = 262144
# Runs a program, and prints its status and its peak memory in KiB. A child's peak counts that of the process that starts it, so this one is
# small.
MEASURE = "import resource, subprocess, sys; print(subprocess.call(sys.argv[1:]), resource.getrusage(resource.RUSAGE_CHILDREN).ru_maxrss)"
# The most bytes of memory for each packet, and as much for everything else.
EACH, BASE = 64, 8_000_000


def header(order, magic, link=1):
    return struct.pack(order + "IHHiIII", magic, 2, 4, 0, 0, 65535, link)


def record(order, seconds, fraction, data, wire=None):
    return struct.pack(order + "IIII", seconds, fraction, len(data), len(data) if wire is None else wire) + data


def records_of(order, capture):
    """Returns the packet records of a capture."""
    at, found = 24, []
    while at < len(capture):
        end = at + 16 + struct.unpack_from(order + "I", capture, at + 8)[0]
        found.append(capture[at:end])
        at = end
    return found


def sorted_by_time(order, unit, capture):
    """Returns the capture with its records in order of time. Python's sort is stable."""

    def time(it):
        seconds, fraction = struct.unpack_from(order + "II", it)
        return seconds * 10**9 + fraction * unit

    return capture[:24] + b"".join(sorted(records_of(order, capture), key=time))


def captures(order, magic, unit):
    """Yields captures of all kinds of order, with the names of these kinds."""
    chance = random.Random(20)
    times = {
        "no packet": [],
        "one packet": [(7, 3)],
        "sorted": [(k, k) for k in range(50)],
        "reversed": [(50 - k, k) for k in range(50)],
        "equal times": [(5, 5)] * 40,
        "few times": [(chance.randrange(3), chance.randrange(2)) for _ in range(400)],
        "equal seconds": [(9, chance.randrange(10**9 // unit)) for _ in range(400)],
        "equal fractions": [(chance.randrange(2**32), 9) for _ in range(400)],
        "the first and the last time": [(2**32 - 1, 10**9 // unit - 1), (0, 0), (2**31, 0), (2**31 - 1, 1)],
        # A fraction may exceed a second: the time is the sum of both numbers.
        "long fractions": [(1, 2 * 10**9 // unit), (2, 5), (3, 0), (2, 10**9 // unit), (0, 4 * 10**9 // unit), (4, 0)],
    }
    for name, them in times.items():
        yield name, header(order, magic) + b"".join(record(order, *it, struct.pack("<I", k) * (k % 5), 100) for k, it in enumerate(them))
    longer = [bytes([k]) * size for k, size in enumerate((LONGEST, 0, 65536, LONGEST, 1, 65520, 65519))]
    yield "long packets", header(order, magic) + b"".join(record(order, 9 - k, 0, it) for k, it in enumerate(longer))
    many = [(chance.randrange(10**6), chance.randrange(1000), bytes([k % 256]) * chance.randrange(300)) for k in range(20000)]
    yield "many packets", header(order, magic) + b"".join(record(order, *it) for it in many)


def in_folder(help, tally, words, held, given=b"", most=None):
    """Returns how a run ended, and what its folder has then."""
    with tempfile.TemporaryDirectory() as folder:
        for path, content in held.items():
            help.put(folder, path, content)
        return tally.run(folder, words, given, most, word=None), help.files(folder)


def try_orders(tally, help):
    for order, magic, unit in KINDS:
        for name, capture in captures(order, magic, unit):
            wanted = sorted_by_time(order, unit, capture)
            for before, named in ((capture, name), (wanted, f"{name}, sorted")):
                ended, left = in_folder(help, tally, ["sort", "in", "-o", "out"], {"in": before})
                written, _ = in_folder(help, tally, ["sort", "in", "-o", "-"], {"in": before})
                tally.note(
                    f"{named}, {order} {magic:x}",
                    ended != (DONE, b"", "") and f"it ended with {ended}",
                    left != {"in": before, "out": wanted} and f"it left {sorted(left)}, or other bytes",
                    written != (DONE, wanted, "") and f"on standard output it ended with {written[0]} and {len(written[1])} bytes",
                )


def refuses(tally, help, name, words, held, status, said, **how):
    ended, left = in_folder(help, tally, words, held, **how)
    tally.note(name, ended != (status, b"", said) and f"it ended with {ended}, and not with {status} and {said!r}", left != held and f"it left {sorted(left)}")


def try_refused(tally, help):
    """Checks damaged captures beside `cut`, other files, pipes, and outputs that can't be written."""
    capture = header("<", 0xA1B23C4D) + b"".join(record("<", 9 - k, k, bytes(k)) for k in range(4))
    words = ["sort", "in", "-o", "out"]
    broken = [record("<", 1, 0, b"data", 3), record("<", 1, 0, b"data", LONGEST + 1), struct.pack("<IIII", 1, 0, LONGEST + 1, LONGEST + 1)]
    damaged = [capture[:end] for end in range(1, len(capture)) if end not in itertools.accumulate(map(len, records_of("<", capture)), initial=24)]
    damaged += [capture + it + capture[24:] for it in broken]
    micro = header("<", 0xA1B2C3D4)
    damaged += [micro + record("<", 1, 2**32 // 1000 + 1, b""), bytes(4) + capture[4:], b"", b"\n", b"this is no capture of packets"]
    for content in damaged:
        held = {"in": content, "out": b"old"}
        (status, _, said), _ = in_folder(help, tally, ["cut", "in", "-o", "out"], held)
        refuses(tally, help, f"a sort of {content[-30:]!r}", words, held, status, said)
        tally.note(f"a cut of {content[-30:]!r}", status != AT_FAULT and f"it ended with {status} and {said!r}")
    refuses(tally, help, "standard input", ["sort", "-", "-o", "out"], {"out": b"old"}, USAGE, TWICE, given=capture)
    refuses(tally, help, "no file", words, {"out": b"old"}, FAILED, "pcapfile: in: No such file or directory (os error 2)\n")
    refuses(tally, help, "too long an output", words, {"in": capture, "out": b"old"}, FAILED, "pcapfile: out: File too large (os error 27)\n", most=60)
    same = "pcapfile: in: is one of the inputs; choose another name for the output\n"
    refuses(tally, help, "output and input", ["sort", "in", "-o", "in"], {"in": capture}, FAILED, same)
    misnamed = "pcapfile: out.pcapng: the format is pcap, but the extension is that of the other format\n"
    ended, left = in_folder(help, tally, ["sort", "in", "-o", "out.pcapng"], {"in": capture})
    tally.note("another extension", ended != (DONE, b"", misnamed) and f"it ended with {ended}", left.get("out.pcapng") != sorted_by_time("<", 1, capture) and "it has other bytes")


def try_pipe(tally, _help):
    with tempfile.TemporaryDirectory() as folder:
        os.mkfifo(f"{folder}/in")
        with subprocess.Popen([tally.program, "sort", "in", "-o", "out"], cwd=folder, stdout=subprocess.PIPE, stderr=subprocess.PIPE) as ran:
            with open(f"{folder}/in", "wb"):
                ended = *ran.communicate(timeout=SECONDS), ran.returncode
        tally.note("a named pipe", ended != (b"", TWICE.encode(), USAGE) and f"it ended with {ended}", os.listdir(folder) != ["in"] and f"it left {os.listdir(folder)}")


def changed(capture, size):
    """Yields what may become of the last of the records of this size, while the file is sorted."""
    front, last = capture[:-size], capture[-size:]
    yield "another time", front + struct.pack("<I", 5) + last[4:]
    yield "another length", front + last[:8] + struct.pack("<II", size - 17, size - 17) + last[16:]
    yield "a malformed packet", front + last[:8] + struct.pack("<II", 9, 8) + last[16:]
    yield "no bytes", capture[:-1]
    yield "other data", capture[:-1] + b"\xff"


def try_changing(tally, capture, size, changes):
    """Checks a capture whose last record changes while the first ones are read again. Each record has this size. `changes` yields the name
    of each change and the capture after it. Only new data of a packet can't be noticed."""
    for name, other in changes:
        with tempfile.TemporaryDirectory() as folder:
            with open(f"{folder}/in", "wb") as it:
                it.write(capture)
            with subprocess.Popen([tally.program, "sort", "in", "-o", "-"], cwd=folder, stdout=subprocess.PIPE, stderr=subprocess.PIPE) as ran:
                # The program now waits in the second pass, since the pipe is full.
                out = ran.stdout.read(1)
                with open(f"{folder}/in", "r+b") as it:
                    it.write(other)
                    it.truncate(len(other))
                out += ran.stdout.read()
                said = ran.stderr.read().decode()
                status = ran.wait(SECONDS)
        wanted = (DONE, "") if name == "other data" else (FAILED, CHANGED)
        tally.note(f"a file that gets {name}", (status, said) != wanted and f"it ended with {status} and said {said!r}", out[:size] != capture[:size] and "the first bytes are others")


def try_changes(tally, _help):
    size = 16 + 1000
    capture = header("<", 0xA1B23C4D) + b"".join(record("<", 1000 + k, 0, bytes(1000)) for k in range(1000))
    try_changing(tally, capture, size, changed(capture, size))


def try_memory(tally, _help):
    count = 300_000
    capture = header("<", 0xA1B23C4D) + b"".join(struct.pack("<IIII", (k * 7919) % count, k, 0, 0) for k in range(count))
    with tempfile.TemporaryDirectory() as folder:
        with open(f"{folder}/in", "wb") as it:
            it.write(capture)
        words = [sys.executable, "-c", MEASURE, tally.program, "sort", "in", "-o", "out"]
        status, most_used = map(int, subprocess.run(words, cwd=folder, capture_output=True, check=True).stdout.split())
        with open(f"{folder}/out", "rb") as it:
            out = it.read()
    most = EACH * count + BASE
    tally.note("memory", status and f"it ended with {status}", out != sorted_by_time("<", 1, capture) and "it has other bytes", most_used * 1024 > most and f"it took {most_used} KiB")


def try_all(tally, help):
    for tries in (try_orders, try_refused, try_pipe, try_changes, try_memory):
        tries(tally, help)
