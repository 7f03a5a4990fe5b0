"""Converts rows of PcapNg to rows of columns with numpy, and guesses where blocks begin."""

from typing import Any, Optional

from ._columns import KINDS, NO_LINK, NO_TIME, numpy
from ._source import IN_A_ROW

_SIMPLE_PACKET = 3


def guess_block(data: memoryview, order: str) -> Optional[int]:
    """Returns the first place in `data` from which blocks follow one another by their lengths, or None. The first block has a
    packet."""
    words = numpy.frombuffer(data[: len(data) // 4 * 4], order + "u4")
    first: int
    for first in numpy.flatnonzero((words == 6) | (words == 3) | (words == 2)).tolist():
        at, found = first, 0
        while found < IN_A_ROW and at + 1 < len(words):
            length = int(words[at + 1])
            last = at + length // 4 - 1
            if length % 4 > 0 or length < 12 or (last < len(words) and words[last] != length):
                break
            at, found = last + 1, found + 1
        else:
            if found > 0:
                return first * 4
    return None


def settle_blocks(rows: Any, known: Any) -> None:
    """Converts rows of PcapNg to rows of columns, in place: units of time to nanoseconds, and block types to link types."""
    if _settled_alike(rows, known):
        return
    numbers, is_simple = rows["interface"], rows["type"] == _SIMPLE_PACKET
    original, columns = rows.copy(), rows.view(KINDS)
    columns["time_ns"], columns["link"] = NO_TIME, NO_LINK
    if is_simple.any():
        columns["len"][is_simple] = numpy.minimum(original["len"], original["orig_len"])[is_simple]
    for number in numpy.unique(numbers):
        found = known.get(int(number))
        if found is None:
            continue
        here = numbers == number
        columns["link"][here] = found.interface.link
        if found.interface.snaplen > 0:
            cut = here & is_simple
            columns["len"][cut] = numpy.minimum(columns["len"][cut], found.interface.snaplen)
        timed = here & ~is_simple
        columns["time_ns"][timed] = _times(original["timestamp"][timed], found)


# A row of PcapNg, with the interface and the block type as one number.
_ALIKE = {"names": ["timestamp", "interface and type"], "formats": ["u8", "u8"], "offsets": [0, 16], "itemsize": 32}


def _settled_alike(rows: Any, known: Any) -> bool:
    """Converts rows to columns without copies, if all have one block type and one interface, and all times fit. Returns whether
    it did."""
    alike = rows.view(_ALIKE)
    kinds, units = alike["interface and type"], alike["timestamp"]
    only = known.get(int(rows["interface"][0]))
    if only is None or not only.per_second or rows["type"][0] == _SIMPLE_PACKET or (kinds != kinds[0]).any():
        return False
    if int(units.max()) > _most(only):
        return False
    units *= numpy.uint64(only.nanoseconds)
    rows["type"] = only.interface.link
    return True


def _most(known: Any) -> int:
    """Returns the largest number of an interface's units of time whose nanoseconds fit 64 bits."""
    return int((2**63 - 1) // known.nanoseconds)


def _times(units: Any, known: Any) -> Any:
    """Returns nanoseconds since 1970 for an array of an interface's units, with NO_TIME where 64 bits are too few."""
    if not known.per_second:
        return numpy.fromiter((_time(known, int(count)) for count in units), "i8", len(units))
    most = _most(known)
    times = (units * numpy.uint64(known.nanoseconds)).view("i8")
    if int(units.max(initial=0)) > most:
        times[units > numpy.uint64(most)] = NO_TIME
    return times


def _time(known: Any, units: int) -> int:
    seconds, nanoseconds = known.time(units)
    if seconds is None:
        return NO_TIME
    time: int = seconds * 1_000_000_000 + nanoseconds
    return time if abs(time) < 2**63 else NO_TIME
