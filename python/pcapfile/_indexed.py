"""Access to the packets of a capture by number."""

import ctypes
from array import array
from bisect import bisect_right
from collections.abc import Sequence
from itertools import islice
from typing import Any, Dict, Iterator, List, NamedTuple, Optional, Union

from . import _arguments, _library
from ._errors import CaptureError
from ._extension import native

# The number of rows in one call of the library, and of 64-bit numbers in a row.
_ROWS, _NUMBERS = 65536, 4
_SIMPLE_PACKET = 3

# The most bytes that are read at once for packets whose end is known. A longer range contains other blocks too.
_AT_ONCE = 1 << 20

# Up to this step a slice reads all packets in its range and chooses from them. With a larger step it reads each packet by itself.
_STEP = 16


def rows_of(count: int) -> Any:
    """Returns room for `count` rows in the library's layout, of either format."""
    return (ctypes.c_uint64 * (_NUMBERS * count))()


class _State(NamedTuple):
    """The state that PcapNg packets from some number on depend on: the section's interfaces, how many of them the capture has
    described by then, the section's magic number, and the interfaces for the extension."""

    known: Dict[int, Any]
    described: int
    magic_number: int
    clocks: Any


# The state of a classic capture: its packets depend only on the header.
_NO_STATE = _State({}, 0, 0, None)


class Indexed(Sequence[Any]):
    """The packets of a capture in memory or in a file, by number. Each access reads only the bytes that it needs.

    The constructor reads through the whole capture once, and keeps some 13 bytes a packet. A packet that one access gives keeps
    only its own bytes. If the capture is truncated or
    malformed, the packets before the fault have numbers, and `refusal` is the `CaptureError`; otherwise it is None. Iterating
    over all packets raises the error after the last one. The constructor raises a ValueError for a stream.

        >>> with pcapfile.open("capture.pcap") as capture:
        ...     packets = capture.indexed()
        ...     len(packets), packets[0].offset, len(packets[0:10])
        (1, 40, 1)
    """

    def __init__(self, capture: Any) -> None:
        if capture.is_stream:
            raise ValueError("the packets of a stream have no numbers, because they come only once")
        self._capture, self._source, self._has_states = capture, capture._source, capture.format == "pcapng"
        self._header = None if self._has_states else capture._header
        # The place of each packet's data, relative to its batch; the type of its block; the first packet of each batch; and the
        # offset of each batch in the capture.
        self._offsets, self._types, self._firsts, self._places = array("Q"), bytearray(), array("Q"), array("Q")
        # The states, the first packet of each, and the walk for the state that was used last.
        self._states: List[_State] = []
        self._state_firsts, self._last = array("Q"), (-1, None)  # type: Any, Any
        self.refusal: Optional[CaptureError] = None
        self._walk = capture._walk(lends=False)
        self._pass_over(self._walk)
        self._end: int = self._walk.window.offset

    def _pass_over(self, walk: Any) -> None:
        rows, taken, place = rows_of(_ROWS), ctypes.c_size_t(), 0
        view = memoryview(rows).cast("B")

        def take(left: _library.Bytes, error: _library.Error) -> int:
            nonlocal place
            place = walk.window.offset
            return int(walk.take_rows(left, ctypes.addressof(rows), _ROWS, taken, error))

        try:
            for _ in walk.batches(take):
                if taken.value > 0:
                    self._keep(walk, view[: 8 * _NUMBERS * taken.value], place)
        except CaptureError as error:
            self.refusal = error

    def _keep(self, walk: Any, rows: memoryview, place: int) -> None:
        """Keeps the places of packets, and the state that they depend on."""
        first = len(self._offsets)
        self._firsts.append(first)
        self._places.append(place)
        self._offsets.frombytes(rows.cast("Q")[_NUMBERS - 1 :: _NUMBERS].tobytes())
        if not self._has_states:  # a classic capture
            return
        self._types += rows.cast("I")[5 :: 2 * _NUMBERS].tobytes()[::4]
        last = self._states[-1] if self._states else None
        if last is None or last.known is not walk.known or last.described != walk.section.interfaces:
            self._state_firsts.append(first)
            self._states.append(_State(walk.known, walk.section.interfaces, walk.section.magic_number, walk.clocks))

    def __len__(self) -> int:
        return len(self._offsets)

    def __iter__(self) -> Iterator[Any]:
        return iter(self._capture)

    def __repr__(self) -> str:
        return f"<{len(self)} packets by number{'' if self.refusal is None else f', before: {self.refusal}'}>"

    def __getitem__(self, number: Union[int, slice]) -> Any:
        if not isinstance(number, slice):
            at, count = _arguments.whole("number", number), len(self._offsets)
            if not -count <= at < count:
                raise IndexError(f"number is {at}, and the capture has {count} packets")
            return self._one(at % count)
        begin, end, step = number.indices(len(self))
        if step < 0:
            chosen = range(begin, end, step)
            return self[chosen[-1] : chosen[0] + 1 : -step][::-1] if chosen else []
        if begin >= end:
            return []
        if step > _STEP:
            return [self[at] for at in range(begin, end, step)]
        return list(islice(self._between(begin, end), 0, end - begin, step))

    def _one(self, number: int) -> Any:
        """Returns the packet with this number."""
        begin, end = self._start(number), self._start(number + 1)
        if native is not None and end - begin <= _AT_ONCE:
            state = self._states[self._state_at(number)] if self._states else _NO_STATE
            around = self._header, state.magic_number, state.described, state.clocks
            packet = native.packet_at(self._source.view(begin, end), begin, *around)
            if packet is not None:
                return packet
        # A walk raises the error if the bytes have changed.
        for packet in self._between(number, number + 1):
            return packet
        raise ValueError(f"packet {number} is no longer there: the file has changed")

    def _between(self, begin: int, end: int) -> Iterator[Any]:
        """Iterates over the packets from number `begin` to at least `end`."""
        first, last = self._start(begin), self._start(end)
        source = self._source
        window = source.piece(first, last) if last - first <= _AT_ONCE else source.between(first, last)
        packets: Iterator[Any] = self._capture._packets_of(self._walk_from(begin, window))
        return packets

    def _start(self, number: int) -> int:
        """Returns the offset of the packet record or block of a packet, or behind the last one the offset at which the index ends."""
        if number == len(self._offsets):
            return self._end
        batch = bisect_right(self._firsts, number) - 1
        head = self._walk.HEAD
        if self._types and self._types[number] == _SIMPLE_PACKET:
            head = self._walk.SIMPLE_HEAD
        return self._places[batch] + self._offsets[number] - int(head)

    def _state_at(self, number: int) -> int:
        """Returns the index of the state that a packet depends on."""
        return bisect_right(self._state_firsts, number) - 1

    def _walk_from(self, number: int, window: Any) -> Any:
        """Returns a walk over the window, with the state that a packet depends on."""
        if not self._states:
            return self._walk.over(window)
        at = self._state_at(number)
        last, walk = self._last
        if last != at:
            walk, state = self._walk.over(window), self._states[at]
            walk.restore(state.known, state.described, state.magic_number)
            self._last = at, walk
        return walk.over(window)
