"""Reads the packets of repaired captures with struct alone, and compares them with the packets that exist."""
import collections
import re
import struct

from captures import BILLION, INTERFACE, MAGICS, PACKET, SECTION

# What became of a capture: the packets that exist and are kept, those kept whose time or data is damaged, those that never were, and
# those of the latter that the program calls guesses.
Judged = collections.namedtuple("Judged", "exist kept altered false guessed")
GUESSED = re.compile(r"packet (\d+) at byte \d+.*guess")
BLOCK_GUESSED = re.compile(r"block (\d+) at byte \d+.*guess")
BLOCK_LEFT_OUT = re.compile(r"block (\d+) at byte \d+.*it is left out")


def classic_packets(capture):
    """Yields time, length on the wire and data of each packet, up to the first that is torn."""
    for order in "<>":
        per = MAGICS.get(struct.unpack_from(order + "I", capture)[0]) if len(capture) >= 24 else None
        if per:
            break
    else:
        return
    at = 24
    while at + 16 <= len(capture):
        seconds, fraction, stored, wire = struct.unpack_from(order + "IIII", capture, at)
        if at + 16 + stored > len(capture):
            return
        yield seconds * BILLION + fraction * (BILLION // per), wire, bytes(capture[at + 16 : at + 16 + stored])
        at += 16 + stored


def blocks(capture):
    """Yields byte order, type and body of each block, up to the first that is torn or has two lengths."""
    at, order = 0, "<"
    while at + 12 <= len(capture):
        if capture[at : at + 4] == b"\n\r\r\n":
            order = "<" if capture[at + 8] == 0x4D else ">"
        number, length = struct.unpack_from(order + "II", capture, at)
        if length < 12 or at + length > len(capture) or capture[at + 4 : at + 8] != capture[at + length - 4 : at + length]:
            return
        yield order, number, bytes(capture[at + 8 : at + length - 4])
        at += length


def blocks_packets(capture):
    """Yields the same of the enhanced packets."""
    pers = []
    for order, number, body in blocks(capture):
        if number == SECTION:
            pers = []
        elif number == INTERFACE:
            pers.append(BILLION if body[8:12] == struct.pack(order + "HH", 9, 1) and body[12:13] == b"\t" else 10**6)
        elif number == PACKET and len(body) >= 20:
            which, high, low, stored, wire = struct.unpack_from(order + "IIIII", body)
            per = pers[which] if which < len(pers) else 10**6
            yield (high << 32 | low) * (BILLION // per), wire, body[20 : 20 + stored]


def packets_of(capture):
    return list((blocks_packets if capture[:4] == b"\n\r\r\n" else classic_packets)(capture))


def labelled_in(written, said):
    """Returns the numbers of the packets that the messages call guesses. A message on a block has its number among those before the repair."""
    labelled = {int(it) for it in GUESSED.findall(said)}
    guesses, gone = ({int(it) for it in what.findall(said)} for what in (BLOCK_GUESSED, BLOCK_LEFT_OUT))
    types = [number for _, number, _ in blocks(written)] if guesses else []
    for guess in guesses:
        at = guess - sum(it < guess for it in gone)
        labelled.add(types[:at].count(PACKET))
    return labelled


def judged(damaged, written, said=""):
    """Compares the packets of a repaired capture with those of the damaged one."""
    labelled = labelled_in(written, said)
    exists = collections.Counter((it.time, it.data) for it in damaged.exists)
    dead = [packet for packet, is_there in zip(damaged.was, damaged.alive) if not is_there]
    by_time, by_data = collections.Counter((it.time, len(it.data)) for it in dead), collections.Counter(it.data for it in dead)
    exist, kept, altered, false, guessed = sum(exists.values()), 0, 0, 0, 0
    for number, (time, _, data) in enumerate(packets_of(written), 1):
        if exists[time, data] > 0:
            exists[time, data] -= 1
            kept += 1
        elif by_time[time, len(data)] > 0 or by_data[data] > 0:
            by_time[time, len(data)] -= 1
            by_data[data] -= 1
            altered += 1
        elif number in labelled:
            guessed += 1
        else:
            false += 1
    return Judged(exist, kept, altered, false, guessed)
