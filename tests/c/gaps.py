"""Compares lenient reading of damaged captures by C, Rust and Python with each other, with `pcapfile list --as-is`, and with the truth:
`gaps.py [--count N] [--seed N] PROGRAM FOLDER WAY..`.

For each kind of damage in tests/damage the script makes N captures (4 if left out) and writes them to FOLDER. Each WAY prints what it finds
in a file as `open -l` of tests/c/open.c does, or, if it begins with python3, in many files as found.py does. All ways must print the same.

The script adds N captures without damage whose blocks have flaws.

- Gaps and packets must follow each other, and a sound capture must have all packets and no gap. So must a classic one with one wrong
  length.
- All packets that the damage does not reach, and whose next packet it does not reach either, must be there.
- Where PROGRAM, the built pcapfile, skips exactly the bytes of the gaps and changes nothing, `list --as-is` must have the same packets.
- Over all captures whose beginning is known, 98 of 100 packets that exist must be there, and at most 1 of 100 others.

The last line counts captures, and those with the packets of the program.
"""
import argparse
import collections
import itertools
import os
import random
import re
import struct
import subprocess
import sys

HERE = os.path.dirname(os.path.abspath(__file__))
sys.path.insert(0, os.path.join(os.path.dirname(HERE), "damage"))
sys.dont_write_bytecode = True
import captures
from damages import BLOCKS_ONLY, CLASSIC_ONLY, KINDS, Damaged

PACKETS = 100
# Kinds whose captures have no beginning that lenient reading knows.
WITHOUT_BEGINNING = {"header lost", "section header lost", "LF to CRLF", "interface lost"}
LEAST, MOST_OTHERS = 0.98, 0.01
# The kind of captures whose packets have one length, with a wrong length of one of them.
UNIFORM = "packets of one length"

# A gap that C reports as too long.
TOO_LONG = re.compile(r"(gap \d+ \d+) 17 0 0")
SKIPPED = re.compile(r"(\d+) bytes? at byte (\d+) (?:begin|contain|are|is) .*")

# A capture. `sound` and `damaged` are None if its blocks have flaws, and `damaged` is None if it has no damage.
Sample = collections.namedtuple("Sample", "name kind sound damaged path")


def drawn(kind, number, seed):
    """Returns a sound capture, and the same with damage of this kind, or with none."""
    draw = random.Random(f"{seed} {kind} {number}")
    is_blocks = kind in BLOCKS_ONLY or kind not in CLASSIC_ONLY and draw.randrange(2) == 0
    sound = captures.maker(draw)(draw, draw.choice("<>"), draw.choice((10**6, 10**9)), is_blocks, PACKETS)
    return sound, KINDS[kind](draw, sound) if kind in KINDS else None


def flawed_options(draw, order):
    """Returns a few options, most of which have a value of a wrong length or text that is not UTF-8."""
    values = [draw.randbytes(draw.randrange(10)) for _ in range(draw.randrange(4))]
    return b"".join(struct.pack(order + "HH", draw.choice((1, 2, 4, 9, 14)), len(it)) + it + bytes(-len(it) % 4) for it in values)


def flawed_block(draw, order):
    """Returns a block that may have flaws: of an interface, of a packet of each type, or of another type."""
    data, options = draw.randbytes(draw.randrange(20)), flawed_options(draw, order)
    stored, number = draw.choice((len(data), len(data), draw.randrange(60))), draw.randrange(6)
    padded = data + bytes(-len(data) % 4)
    enhanced = struct.pack(order + "IIIII", number, draw.randrange(1 << 20), draw.randrange(1 << 32), stored, 60)
    old = struct.pack(order + "HHIIII", number, 0, draw.randrange(1 << 20), 5, stored, 60)
    kind, body = draw.choice(
        (
            (1, struct.pack(order + "HHI", draw.randrange(200), 0, draw.choice((0, 7, 65535))) + options),
            (1, draw.randbytes(draw.randrange(12))),
            (2, old + padded + options),
            (3, struct.pack(order + "I", draw.randrange(30)) + padded),
            (6, enhanced + padded + options),
            (6, enhanced + padded + options),
            (draw.choice((2, 3, 6)), draw.randbytes(draw.randrange(24))),
            (draw.choice((4, 5, 9, 99)), draw.randbytes(draw.randrange(24))),
        )
    )
    return captures.block(order, kind, body)


def uniform(seed, order, is_blocks):
    """Returns a sound capture of packets of one length, and the same with a wrong length of one packet."""
    sound = captures.uniform(random.Random(f"{seed} uniform {order}"), order, 10**6, is_blocks, PACKETS)
    damaged = Damaged(sound)
    place = sound.places[3]
    if is_blocks:
        for at in (place.start + 4, place.end - 4):
            damaged.overwrite(at, b"\xff" * 4)
    else:
        damaged.overwrite(place.start + 8, struct.pack(order + "I", 4000))
    return sound, damaged


def samples(asked):
    made = [(kind, number, *drawn(kind, number, asked.seed)) for kind in [*KINDS, "none"] for number in range(asked.count)]
    for number, (order, is_blocks) in enumerate(itertools.product("<>", (False, True))):
        made.append((UNIFORM, number, *uniform(asked.seed, order, is_blocks)))
    for kind, number, sound, damaged in made:
        path = os.path.join(asked.folder, f"{kind} {number}".replace(" ", "_"))
        with open(path, "wb") as file:
            file.write(sound.bytes if damaged is None else damaged.bytes)
        yield Sample(f"{kind} {number}", kind, sound, damaged, path)
    for number in range(asked.count):
        draw = random.Random(f"{asked.seed} flaws {number}")
        order, path = draw.choice("<>"), os.path.join(asked.folder, f"flaws_{number}")
        front = captures.front(order, draw.choice((10**6, captures.BILLION)), True)
        with open(path, "wb") as file:
            file.write(front + b"".join(flawed_block(draw, order) for _ in range(PACKETS)))
        yield Sample(f"flaws {number}", "flaws", None, None, path)


def same_form(line):
    """Returns a line without what the ways print differently."""
    return TOO_LONG.sub(r"\1 0 0 0", line)


def answers_by(way, paths):
    """Returns the lines and the status that a way prints for each file."""
    words = way.split()
    if words[0].endswith("python3"):
        told = subprocess.run([*words, *paths], capture_output=True, text=True, check=True).stdout
        return [[same_form(line) for line in part.splitlines()] for part in told.split("file\n")[1:]]
    answers = []
    for path in paths:
        ran = subprocess.run([*words, path], capture_output=True, text=True)
        lines = [same_form(line) for line in ran.stdout.splitlines() if line != "refused"]
        answers.append([*lines, f"status {ran.returncode}"])
    return answers


def packets_in(lines):
    """Returns the time, the lengths and the bytes of each packet in the lines of a way."""
    rows = [line.split(" ") for line in lines if line.startswith("packet ")]
    return [(row[4], row[6], row[7]) for row in rows]


def gaps_in(lines):
    return [tuple(map(int, line.split()[1:3])) for line in lines if line.startswith("gap ")]


def row_of(packet):
    seconds, nanoseconds = divmod(packet.time, captures.BILLION)
    return f"{seconds}.{nanoseconds:09}", f"{len(packet.data)}/{packet.wire}", packet.data.hex()


def first_damage(sample):
    """Returns the offset of the first byte that differs from the sound capture."""
    one, other = bytes(sample.sound.bytes), bytes(sample.damaged.bytes)
    return len(os.path.commonprefix([one, other]))


def untouched(sample):
    """Returns the packets before the damage whose next packet is before the damage too."""
    if sample.sound is None:
        return []
    if sample.damaged is None:
        return sample.sound.packets
    damage, places = first_damage(sample), sample.sound.places
    count = sum(place.end <= damage for place in places)
    return sample.sound.packets[: max(0, count - 1)]


def program_says(program, path):
    """Returns the packets that the program lists, and the bytes that it skips; None instead of these if it changes or guesses anything."""
    ran = subprocess.run([program, "list", "--as-is", path], capture_output=True, text=True)
    rows = [line.split(" ") for line in ran.stdout.splitlines()]
    listed = [("none" if row[1] == "-" else row[1], row[2]) for row in rows if row[1] != "refused"]
    skipped = []
    for line in ran.stderr.splitlines():
        found = SKIPPED.fullmatch(line.split(": ", 2)[2]) if line.count(": ") >= 2 else None
        if found is None:
            return listed, None
        skipped.append((int(found[2]), int(found[1])))
    return listed, skipped


def faults_of(sample, lines, program):
    """Returns what is wrong with the lines for a capture, and whether the program's packets were compared."""
    found = packets_in(lines)
    faults = []
    wanted = [row_of(packet) for packet in untouched(sample)]
    if sample.kind not in WITHOUT_BEGINNING and found[: len(wanted)] != wanted:
        faults.append("a packet before the damage differs")
    gaps = gaps_in(lines)
    if sample.kind == "none" and (gaps or len(found) != len(wanted)):
        faults.append("a sound capture has gaps")
    if sample.kind == UNIFORM and not sample.sound.is_blocks and found != [row_of(packet) for packet in sample.sound.packets]:
        faults.append("the packet of a wrong length is lost")
    if any(begin + length > after for (begin, length), (after, _) in zip(gaps, gaps[1:])):
        faults.append("gaps overlap")
    listed, skipped = program_says(program, sample.path)
    is_same = listed == [row[:2] for row in found]
    if skipped == gaps and not is_same:
        faults.append("list --as-is has other packets for the same gaps")
    return faults, is_same


def counts_of(sample, lines):
    """Returns how many packets exist, how many of them were found, and how many others."""
    exist, found = collections.Counter(row_of(packet) for packet in sample.damaged.exists), packets_in(lines)
    kept = sum((exist & collections.Counter(found)).values())
    return collections.Counter(exist=exist.total(), kept=kept, others=len(found) - kept)


def main():
    words = argparse.ArgumentParser()
    words.add_argument("--count", type=int, default=4)
    words.add_argument("--seed", type=int, default=random.randrange(1 << 32))
    words.add_argument("program")
    words.add_argument("folder")
    words.add_argument("ways", nargs="+")
    asked = words.parse_args()
    print(f"gaps.py: seed {asked.seed}, {asked.count} captures of each kind", flush=True)
    made = list(samples(asked))
    answers = [answers_by(way, [sample.path for sample in made]) for way in asked.ways]
    faults, alike, counts = [], 0, collections.Counter()
    for sample, lines, *others in zip(made, *answers):
        for way, other in zip(asked.ways[1:], others):
            if other != lines:
                faults.append(f"{sample.name}: {way} finds something else than {asked.ways[0]}")
        told, is_same = faults_of(sample, lines, asked.program)
        faults += [f"{sample.name}: {fault}" for fault in told]
        alike += is_same
        if sample.damaged and sample.kind not in WITHOUT_BEGINNING:
            counts += counts_of(sample, lines)
    if counts["kept"] < LEAST * counts["exist"] or counts["others"] > MOST_OTHERS * counts["exist"]:
        faults.append(f"{counts['kept']} of {counts['exist']} packets are kept, and {counts['others']} others")
    print("\n".join(faults[:40]), end="\n" * bool(faults))
    print(f"{len(made)} damaged captures by {len(asked.ways)} ways; {alike} have the packets of list --as-is")
    sys.exit(bool(faults))


main()
