"""Properties of the words of pcapfile that hold for every capture. A property is a function that runs words in a folder of its own and
fails by an assertion. tests/model is the independent reading of the strict grammar."""
import csv
import io
import itertools
import json
import os
import struct
import subprocess
import sys
import tempfile

from generated import ENHANCED, MAGICS, items, sound

TOP = os.path.dirname(os.path.dirname(os.path.dirname(os.path.abspath(__file__))))
sys.path.insert(0, f"{TOP}/tests/model")
import refusals  # noqa: E402
import runs  # noqa: E402

SECONDS = 20
DONE, AT_FAULT, USAGE, FAILED, NO_MEMORY, REPAIRED, GUESSED = range(7)
REPAIRS = DONE, REPAIRED, GUESSED
# What stays a guess in a repaired capture: packets of an interface that nothing describes, and packets whose numbers no packet has.
LASTING_GUESSES = b"is not described: packets are kept", b"kept, a guess: its original length is above", b"kept, a guess: it has no data"
# Bytes that no content of a capture may bring to a terminal: all controls of ASCII except tab and newline, DEL, and as UTF-8 the controls
# of Latin-1, the marks of direction and the separators of lines.
CONTROLS = [bytes([it]) for it in [*range(9), 11, 12, *range(14, 32), 127]]
CONTROLS += [chr(it).encode() for it in [*range(0x80, 0xA0), 0x061C, 0x200E, 0x200F, *range(0x2028, 0x202F), *range(0x2066, 0x206A)]]


class Folder:
    """A folder with captures, in which the program runs."""

    def __init__(self, program, room):
        self.program, self.room = program, room

    def write(self, name, capture):
        with open(f"{self.room}/{name}", "wb") as it:
            it.write(capture)

    def read(self, name):
        with open(f"{self.room}/{name}", "rb") as it:
            return it.read()

    def run(self, *words, statuses=(DONE, AT_FAULT)):
        """Returns the word's run. Checks that it ends with one of these statuses and prints no control character."""
        ran = subprocess.run([self.program, *words], cwd=self.room, capture_output=True, timeout=SECONDS, check=False)
        assert ran.returncode in statuses, f"{words}: status {ran.returncode}: {ran.stderr[-300:]}"
        for output in (ran.stdout, ran.stderr) if "-" not in words else (ran.stderr,):
            assert not any(it in output for it in CONTROLS), f"{words}: a control character in {output[:2000]}"
        assert all(line.startswith(b"pcapfile: ") for line in ran.stderr.splitlines()), f"{words}: {ran.stderr[:300]}"
        return ran


def is_stored(capture):
    """Returns the format in which tests/model reads the capture."""
    return runs.Packets() if capture[:4] in MAGICS else runs.Blocks()


def modelled(capture):
    """Returns the run of the model over the capture, or None if its beginning is refused or missing."""
    try:
        return runs.Run(is_stored(capture), capture)
    except (refusals.Lacks, refusals.Refused):
        return None


def packets_of(folder, name, *options, statuses=(DONE, AT_FAULT)):
    """Returns the rows of `list --csv`."""
    ran = folder.run("list", "--csv", *options, name, statuses=statuses)
    return list(csv.DictReader(io.StringIO(ran.stdout.decode())))


def check_is_the_model(folder, random, capture):
    """Checks that `check` counts the items that the model finds, and ends with status 0 exactly if nothing is left."""
    folder.write("in", capture)
    model, ran = modelled(capture), folder.run("check", "in", statuses=(DONE, AT_FAULT, FAILED))
    if model is None:
        assert ran.returncode in (AT_FAULT, FAILED), ran
        return
    # The first block of a PcapNg capture is an item of `check`.
    count = len(model.items) + (not isinstance(model.form, runs.Packets))
    assert (ran.returncode == DONE) == (model.rest is None), (ran, model.rest)
    assert f" {count} ".encode() in ran.stdout + ran.stderr, (ran, count)


def words_agree(folder, random, capture):
    """Checks that `check`, `info` and `list` agree about what a capture has and how it ends, and that their forms can be parsed."""
    folder.write("in", capture)
    listed = packets_of(folder, "in", statuses=(DONE, AT_FAULT, FAILED))
    lines = folder.run("list", "in", statuses=(DONE, AT_FAULT, FAILED)).stdout.splitlines()
    objects = [json.loads(it) for it in folder.run("list", "--json", "in", statuses=(DONE, AT_FAULT, FAILED)).stdout.splitlines()]
    assert len(lines) == len(listed) == len(objects)
    assert [int(it["index"]) for it in listed] == [it["index"] for it in objects] == list(range(1, len(lines) + 1))
    told = json.loads(folder.run("info", "--json", "in", statuses=(DONE, AT_FAULT, FAILED)).stdout or b"null")
    if told and told.get("packets") is not None:
        assert told["packets"] <= len(listed), (told["packets"], len(listed))
    rows = folder.run("info", "--table", "in", statuses=(DONE, AT_FAULT, FAILED)).stdout.decode().splitlines()
    rows = [dict(zip(rows[0].split("\t"), it.split("\t"), strict=True)) for it in rows[1:]]
    assert len(rows) == (told is not None), rows
    for row, name in itertools.product(rows, ("packets", "original", "stored", "bytes", "status", "average", "duration")):
        assert row[name] == ("-" if told[name] is None else str(told[name])), (name, row, told)


def lenient_is_strict_on_sound(folder, random, capture):
    """Checks that for a sound capture lenient reading gives what strict reading gives."""
    capture, found = sound(random)
    folder.write("in", capture)
    for word in ("check", "list"):
        strict, lenient = folder.run(word, "in", statuses=[DONE]), folder.run(word, "--as-is", "in", statuses=[DONE])
        assert lenient.stdout.replace(b"; 0 with flaws", b"") == strict.stdout, (strict, lenient)
    assert len(packets_of(folder, "in", statuses=[DONE])) == len(found)
    folder.run("repair", "in", "-o", "out", statuses=[DONE])
    assert folder.read("out") == capture


def repair_is_stable(folder, random, capture):
    """Checks that a repaired capture is sound, and that a second repair changes nothing."""
    folder.write("in", capture)
    if folder.run("repair", "in", "-o", "out", statuses=(AT_FAULT, FAILED, *REPAIRS)).returncode not in REPAIRS:
        assert not os.path.exists(f"{folder.room}/out")
        return
    folder.run("check", "out", statuses=[DONE])
    again = folder.run("repair", "out", "-o", "again", statuses=[DONE, GUESSED])
    assert again.returncode == DONE or any(it in again.stderr for it in LASTING_GUESSES), again.stderr[-300:]
    assert folder.read("again") == folder.read("out")


def parts_join(folder, random, capture):
    """Checks that the parts of a sound capture join to its bytes."""
    capture, found = sound(random)
    folder.write("in", capture)
    ways = [["--every", str(random.randrange(1, 30))], ["--bytes", str(random.randrange(1, 3000))], ["--parts", str(random.randrange(1, 9))]]
    way = random.choice([*ways, ["--seconds", str(2 ** random.randrange(32))]])
    folder.run("cut", "in", *way, "-o", "part", statuses=[DONE])
    parts = sorted(it for it in os.listdir(folder.room) if it.startswith("part-"))
    if parts:
        folder.run("join", *parts, "-o", "whole", statuses=[DONE])
        assert folder.read("whole") == capture, f"{way}: {len(parts)} parts"
    listed = sum(len(packets_of(folder, it, statuses=[DONE])) for it in parts)
    assert listed == len(found), (way, listed, len(found))


def seconds_of(row):
    return int(row["seconds"]) * 10**9 + int(row["nanoseconds"])


def duplicates_are_left_out(folder, random, capture):
    """Checks that `cut --dedup` leaves out exactly the packets whose length on the wire and data one of the packets before them has."""
    capture, found = sound(random)
    folder.write("in", capture)
    folder.run("join", "in", "in", "-o", "twice", statuses=[DONE])
    most = random.choice([1, 2, max(len(found), 1), 1000])
    folder.run("cut", "twice", f"--dedup={most}", "-o", "out", statuses=[DONE])
    marks = [(it.wire, it.data) for it in found + found]
    kept = [it for k, it in enumerate(found + found) if marks[k] not in marks[max(0, k - most) : k]]
    told = [(seconds_of(it), int(it["captured"]), int(it["original"])) for it in packets_of(folder, "out", statuses=[DONE])]
    assert told == [(it.time, len(it.data), it.wire) for it in kept], (most, told)


def shifts_go_back(folder, random, capture):
    """Checks that times that `cut --shift` moves exactly are moved, and move back to the same bytes."""
    capture, found = sound(random)
    folder.write("in", capture)
    text = random.choice(["1", "86400", "1000000000", "0.001", "0.000001", "1.000000001"])
    whole, _, fraction = text.partition(".")
    shift = int(whole) * 10**9 + int(fraction.ljust(9, "0"))
    moved = folder.run("cut", "in", "--shift", text, "-o", "there", statuses=[DONE])
    if moved.stderr:
        return
    times = [seconds_of(it) for it in packets_of(folder, "there", statuses=[DONE])]
    assert times == [it.time + shift for it in found], (text, times)
    folder.run("cut", "there", "--shift", f"-{text}", "-o", "back", statuses=[DONE])
    assert folder.read("back") == capture, text


def resolutions_round_down(folder, random, capture):
    """Checks that `cut --nanoseconds` keeps all times and `cut --microseconds` rounds them down, and that one of them gives a capture's bytes."""
    capture, found = sound(random)
    while capture[:4] not in MAGICS:
        capture, found = sound(random)
    folder.write("in", capture)
    for name, option, unit in (("fine", "--nanoseconds", 1), ("coarse", "--microseconds", 1000)):
        folder.run("cut", "in", option, "-o", name, statuses=[DONE])
        times = [seconds_of(it) for it in packets_of(folder, name, statuses=[DONE])]
        assert times == [it.time // unit * unit for it in found], (option, times)
    folder.run("cut", "fine", "--microseconds", "-o", "back", statuses=[DONE])
    assert folder.read("back") == folder.read("coarse")
    assert capture in (folder.read("fine"), folder.read("coarse"))


def conversion_goes_round(folder, random, capture):
    """Checks that a sound classic capture becomes blocks and packets again with the same times, lengths and bytes."""
    capture, found = sound(random)
    while capture[:4] not in MAGICS:
        capture, found = sound(random)
    folder.write("in", capture)
    folder.run("convert", "--to", "pcapng", "in", "-o", "blocks", statuses=[DONE])
    folder.run("convert", "--to", "pcap", "blocks", "-o", "back", statuses=[DONE])
    rows = packets_of(folder, "back", statuses=[DONE])
    assert [(seconds_of(it), int(it["captured"]), int(it["original"])) for it in rows] == [(it.time, len(it.data), it.wire) for it in found]
    data = b"".join(it.data for it in found)
    back, at, kept = folder.read("back"), 24, []
    for packet in found:
        kept.append(back[at + 16 : at + 16 + len(packet.data)])
        at += 16 + len(packet.data)
    assert b"".join(kept) == data and at == len(back)


def merge_is_the_sorted_union(folder, random, capture):
    """Checks that the packets of captures that are each in order are merged by time, and that none is lost."""
    every = []
    for number in range(random.choice([1, 2, 3])):
        capture, found = sound(random)
        while any(one.time > other.time for one, other in zip(found, found[1:])):
            capture, found = sound(random)
        folder.write(f"in{number}", capture)
        every.append(found)
    names = [f"in{number}" for number in range(len(every))]
    folder.run("merge", *names, "-o", "out", statuses=[DONE])
    rows = packets_of(folder, "out", statuses=[DONE])
    told = [(seconds_of(it), int(it["captured"]), int(it["original"])) for it in rows]
    assert [it[0] for it in told] == sorted(packet.time for found in every for packet in found)
    assert sorted(told) == sorted((it.time, len(it.data), it.wire) for found in every for it in found)


def append_keeps_the_captures_in_a_row(folder, random, capture):
    """Checks that the packets of each capture are appended to those of the captures before it."""
    every, names = [], [f"in{number}" for number in range(random.choice([1, 2, 3]))]
    for name in names:
        capture, found = sound(random)
        folder.write(name, capture)
        every += found
    folder.run("merge", "--append", *names, "-o", "out", statuses=[DONE])
    rows = packets_of(folder, "out", statuses=[DONE])
    assert [(seconds_of(it), int(it["captured"]), int(it["original"])) for it in rows] == [(it.time, len(it.data), it.wire) for it in every]


def data_of(capture):
    """Yields the place of the data of each packet of a capture whose packets are enhanced ones, or classic."""
    for at, order, _ in items(capture):
        if capture[:4] in MAGICS:
            yield at + 16
        elif capture[at : at + 4] == struct.pack(order + "I", ENHANCED):
            yield at + 28


def sort_is_stable(folder, random, capture):
    """Checks that a sound capture, twice in a row, is sorted by time and stable, each section by itself, and that any other capture spares
    the output."""
    folder.write("in", capture)
    folder.write("out", b"old")
    if folder.run("sort", "in", "-o", "out", statuses=(DONE, AT_FAULT, FAILED)).returncode != DONE:
        assert folder.read("out") == b"old"
    capture, found = sound(random)
    is_classic = capture[:4] in MAGICS
    folder.write("in", capture + capture[24 * is_classic :])
    folder.run("sort", "in", "-o", "out", statuses=[DONE])
    wanted = sorted(found + found, key=lambda it: it.time) if is_classic else sorted(found, key=lambda it: it.time) * 2
    told = [(seconds_of(it), int(it["captured"]), int(it["original"])) for it in packets_of(folder, "out", statuses=[DONE])]
    assert told == [(it.time, len(it.data), it.wire) for it in wanted]
    out = folder.read("out")
    places = list(data_of(out))
    assert len(places) == len(wanted) and len(out) == 2 * len(capture) - 24 * is_classic
    assert all(out[at : at + len(packet.data)] == packet.data for at, packet in zip(places, wanted))
    assert out[:24] == capture[:24]


def lenient_words_end(folder, random, capture):
    """Checks that words that read leniently end with a documented status, and that what they write is sound."""
    folder.write("in", capture)
    folder.run("check", "--as-is", "in", statuses=(DONE, AT_FAULT, FAILED))
    folder.run("list", "--as-is", "in", statuses=(DONE, AT_FAULT, FAILED))
    folder.run("info", "--repair", "in", statuses=(DONE, AT_FAULT, FAILED))
    words = random.choice([["convert", "in"], ["merge", "in"], ["cut", "in", "--packets", "2-"]])
    if folder.run(*words, "--repair", "-o", "out", statuses=(DONE, AT_FAULT, FAILED)).returncode == DONE:
        folder.run("check", "out", statuses=[DONE])


PROPERTIES = [check_is_the_model, words_agree, lenient_is_strict_on_sound, repair_is_stable, parts_join, duplicates_are_left_out, shifts_go_back,
              resolutions_round_down, conversion_goes_round, merge_is_the_sorted_union, append_keeps_the_captures_in_a_row, sort_is_stable, lenient_words_end]


def tried(program, random, capture, of):
    """Returns the message of a property that the capture breaks, or None."""
    with tempfile.TemporaryDirectory(prefix="fuzz-") as room:
        try:
            of(Folder(program, room), random, capture)
        except (AssertionError, subprocess.TimeoutExpired, ValueError, KeyError) as fault:
            return f"{of.__name__}: {type(fault).__name__}: {fault}"
    return None
