"""Columns of the packets of a capture."""

import ctypes
from array import array
from typing import Any, Dict, Iterator, List, Optional, Tuple

from . import _library
from ._errors import CaptureError
from ._extension import native
from ._extras import NOTHING, OFFSET, Wanted
from ._windows import Pieces

try:
    import numpy as numpy
except ImportError:
    numpy = None  # type: ignore[assignment]  # mypy has no optional modules

# The number of packets in one batch of columns.
COLUMNS = 65536

# The number of packets whose columns are joined at once to a DataFrame. Their rows fit the processor's cache.
JOINED = 16384

# The time of a packet without one, and of a packet whose nanoseconds exceed 64 bits. It is numpy's NaT.
NO_TIME = -(2**63)

# The link type of a packet whose interface is unknown. No registry assigns the number.
NO_LINK = 2**32 - 1

# Each column, its type in numpy, and its type code in `array`.
_TYPES = [
    ("time_ns", "i8", "q"),
    ("len", "u4", "I"),
    ("orig_len", "u4", "I"),
    ("interface", "u4", "I"),
    ("link", "u4", "I"),
    ("offset", "u8", "Q"),
]

# Each column and its type, as numpy describes a row.
KINDS = [(name, kind) for name, kind, _ in _TYPES]


class _Arrays:
    """Collects packets into columns, as arrays of the standard library."""

    def __init__(self, wanted: Wanted) -> None:
        self._wanted = wanted
        self.columns: Dict[str, Any] = {name: array(code) for name, _, code in _TYPES}
        if wanted.names:
            self.columns["interface_name"] = []
        if wanted.data:
            self.columns.update(data_offsets=array("q", [0]), data=bytearray())

    def __len__(self) -> int:
        return len(self.columns["offset"])

    def add(self, packet: Any) -> None:
        """Adds a packet if its time is in the wanted range."""
        time, link = packet.time_ns, packet.link
        if not self._wanted.takes(time):
            return
        fits = time is not None and abs(time) < 2**63
        row = (time if fits else NO_TIME, len(packet.data), packet.original_length, getattr(packet, "interface_id", 0))
        for (name, _, _), value in zip(_TYPES, (*row, NO_LINK if link is None else link, packet.offset)):
            self.columns[name].append(value)
        if self._wanted.names:
            self.columns["interface_name"].append(getattr(packet.interface, "name", None))
        if self._wanted.data:
            self.columns["data"] += packet.data
            self.columns["data_offsets"].append(len(self.columns["data"]))


def of_packets(packets: Iterator[Any], batch: int, wanted: Wanted = NOTHING) -> Iterator[Dict[str, Any]]:
    """Iterates over the columns of `batch` packets each, as arrays of the standard library."""
    arrays = _Arrays(wanted)
    refusal: Optional[Exception] = None
    while refusal is None:
        try:
            packet = next(packets)
        except StopIteration:
            break
        except Exception as error:  # also a BlockingIOError of a stream that has no bytes yet
            refusal = error
            break
        arrays.add(packet)
        if len(arrays) == batch:
            yield arrays.columns
            arrays = _Arrays(wanted)
    if len(arrays) > 0:
        yield arrays.columns
    if refusal is not None:
        raise refusal


def arrays_of(packets: Iterator[Any], batch: int, wanted: Wanted) -> Iterator[Any]:
    """Iterates over the columns of `batch` packets each, as arrays of numpy, out of packets that come one by one."""
    if wanted.decode:
        raise ValueError("lenient reading (strict=False) does not decode packets")
    for columns in of_packets(packets, batch, wanted):
        rows = numpy.zeros(len(columns["offset"]), KINDS)
        for name, _, _ in _TYPES:
            rows[name] = columns.pop(name)
        if not columns:
            yield rows
            continue
        kinds = {"interface_name": "O", "data": "u1", "data_offsets": OFFSET}
        yield {**_by_name(rows), **{name: numpy.array(column, kinds[name]) for name, column in columns.items()}}


def _by_name(rows: Any) -> Dict[str, Any]:
    return {name: rows[name] for name, _ in KINDS}


class _Rows:
    """A batch of rows that the library fills from one window after another."""

    def __init__(self, walk: Any, size: int, wanted: Wanted) -> None:
        self._walk, self._kind, self._size, self._wanted = walk, numpy.dtype(walk.rows), size, wanted
        self._extras = wanted.extras()
        self._taken = ctypes.c_size_t()
        # A 0-dimensional array, whose type numpy does not have to find out at each addition.
        self._place = numpy.zeros((), "u8")
        self._allocate()

    def _allocate(self) -> None:
        self._rows = numpy.empty(self._size, self._kind)
        self._offsets, self._at = self._rows["offset"], self._rows.ctypes.data
        for extra in self._extras:
            extra.begin(self._size)
        self.count = self._settled = 0

    def is_full(self) -> bool:
        return self.count == self._size

    def take(self, left: _library.Bytes, error: _library.Error) -> int:
        """Takes rows into the places after the filled ones. Returns the status of the library."""
        if not self._extras and self._wanted.times is None:
            return self._take(left, error)
        window, begin = self._walk.window, self.count
        place = window.offset - (left.ptr - window.start)
        status = self._take(left, error)
        if self.count > begin:
            # Now the window still has the bytes, and the walk still has the interfaces of these rows.
            self.settle()
            self._keep_wanted(begin)
            rows = self._rows[begin : self.count].view(KINDS)
            for extra in self._extras:
                extra.see(self._walk, place, begin, rows)
        return status

    def _keep_wanted(self, begin: int) -> None:
        """Drops the rows from `begin` on whose times are outside the wanted range."""
        if self._wanted.times is not None:
            since, until = self._wanted.times
            rows = self._rows[begin : self.count]
            times = rows.view(KINDS)["time_ns"]
            kept = rows[(since <= times) & (times < until)]
            rows[: len(kept)] = kept
            self.count = self._settled = begin + len(kept)

    def _take(self, left: _library.Bytes, error: _library.Error) -> int:
        walk, begin = self._walk, self.count
        if native is None:
            return self._take_by_ctypes(left, error)
        told = native.rows(walk.window, walk.head, walk.clocks, self._rows, begin, walk.window.offset)
        status, taken, error.rule, error.missing = told
        self.count = begin + taken
        return int(status)

    def _take_by_ctypes(self, left: _library.Bytes, error: _library.Error) -> int:
        begin, taken, place = self.count, self._taken, self._place
        place[()] = self._walk.window.offset
        at = self._at + begin * self._kind.itemsize
        status: int = self._walk.take_rows(left, at, self._size - begin, taken, error)
        self.count = begin + taken.value
        offsets = self._offsets[begin : self.count]
        numpy.add(offsets, place, offsets)
        return status

    def settle(self) -> None:
        """Converts new rows to columns by the current interfaces. With the extension they are columns already."""
        if self.count > self._settled and native is None:
            self._walk.settle(self._rows[self._settled : self.count])
            self._settled = self.count

    def given(self) -> Any:
        self.settle()
        rows = self._rows[: self.count].view(KINDS)
        given: Any = rows if not self._extras else _by_name(rows)
        for extra in self._extras:
            given.update(extra.given(rows))
        return given

    def begin(self) -> None:
        """Begins the next batch, in the same memory if the caller has copied this one."""
        if self._wanted.is_copied:
            self.count = self._settled = 0
        else:
            self._allocate()


def of_walk(walk: Any, batch: int, wanted: Wanted) -> Iterator[Any]:
    """Iterates over the columns of `batch` packets each of a walk. A stream gives smaller batches, as soon as their bytes arrive."""
    rows, refusal = _Rows(walk, batch, wanted), None
    comes = not isinstance(walk.window, Pieces)
    try:
        for stays in walk.batches(rows.take):
            if not stays:
                rows.settle()
            if rows.is_full() or (comes and rows.count > 0):
                yield rows.given()
                rows.begin()
    except CaptureError as error:
        refusal = error
    if rows.count > 0:
        yield rows.given()
    if refusal is not None:
        raise refusal


def _joined(batches: Iterator[Any], end: int, kinds: List[Tuple[str, Any]]) -> Dict[str, Any]:
    """Joins the columns of all batches, and adds what else the last batch has. `end` is the length of the capture: it serves to
    allocate room for all packets at once."""
    columns, count = {name: numpy.empty(0, kind) for name, kind in kinds}, 0
    rows: Any = None
    for rows in batches:
        begin, count = count, count + len(rows["len"])
        if count > len(columns["len"]):
            passed = int(rows["offset"][-1]) + 1
            room = min(count * max(end, passed) // passed + COLUMNS, 256 * count)
            columns = {name: _longer(column, begin, room) for name, column in columns.items()}
        for name, column in columns.items():
            column[begin:count] = rows[name]
    beside = {name: rows[name] for name in rows if name not in columns} if isinstance(rows, dict) else {}
    return {**{name: column[:count] for name, column in columns.items()}, **beside}


def copied(rows: Any) -> Any:
    """Returns a copy of rows, in no more memory than they need."""
    if hasattr(rows, "dtype"):
        return rows.copy()
    return {name: column.copy() if hasattr(column, "copy") else column for name, column in rows.items()}


def _longer(column: Any, count: int, room: int) -> Any:
    longer = numpy.empty(room, column.dtype)
    longer[:count] = column[:count]
    return longer


def to_pandas(batches: Iterator[Any], end: int = 0, wanted: Wanted = NOTHING) -> Any:
    """Returns a DataFrame of the columns of all batches. `time` is NaT for a packet without a time. It raises an ImportError if
    pandas is missing."""
    try:
        import pandas
    except ImportError as error:
        raise ImportError("to_pandas needs pandas: 'pip install pandas', or Debian's python3-pandas") from error
    columns = _joined(batches, end, KINDS + wanted.kinds)
    columns = {"time": columns.pop("time_ns").view("M8[ns]"), **columns}
    if wanted.names:
        columns["interface_name"] = pandas.Categorical(columns["interface_name"])
    if wanted.decode:
        from ._decode import TOLD, decoded_columns

        told = {name: columns.pop(name) for name in TOLD if name in columns}
        columns.update(decoded_columns(told))
    return pandas.DataFrame(columns, copy=False)
