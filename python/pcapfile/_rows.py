"""The rows of `columns` or of a DataFrame that a Writer writes."""

from typing import Any, List, Optional, Tuple

from . import _arguments, _columns
from ._extension import native

# The columns that a Writer needs, beside the time.
_WRITTEN = ("len", "orig_len", "link", "offset")

# The most rows that the extension writes at once, and the most bytes that it reads and writes for them.
_ROWS, _BYTES = 4096, 1 << 18

# The most bytes that a format adds to those of a packet.
_ADDED = 36


def columns_of(rows: Any) -> List[Any]:
    """Returns the times of rows in nanoseconds, and their lengths, original lengths, link types and offsets."""
    if not hasattr(rows, "dtype") and not hasattr(rows, "columns") and not isinstance(rows, dict):
        raise _arguments.wrong_type("rows", rows, "rows of `columns`, or a DataFrame of `to_pandas`")
    names = (rows.dtype.names or ()) if hasattr(rows, "dtype") else getattr(rows, "columns", rows)
    time = "time" if "time" in names else "time_ns"
    missing = [name for name in (time, *_WRITTEN) if name not in names]
    if missing:
        raise ValueError(f"rows has no column {missing[0]!r}")
    times = rows["time_ns"] if time == "time_ns" else rows["time"].astype("datetime64[ns]").astype("int64")
    return [times, *(rows[name] for name in _WRITTEN)]


def table_of(columns: List[Any]) -> Optional[Any]:
    """Returns the columns as rows in the library's layout. It returns None without numpy and the extension, and if a value does not
    fit."""
    numpy = _columns.numpy
    if numpy is None or native is None:
        return None
    table = numpy.zeros(len(columns[0]), _columns.KINDS)
    for name, column in zip(("time_ns", *_WRITTEN), columns):
        given = numpy.asarray(column)
        if given.dtype.kind not in "iu":
            return None
        table[name] = given
        if (table[name] != given).any():
            return None
    return table


def together(rows: Any, is_in_memory: bool) -> int:
    """Returns how many of the first rows are written at once. The bytes of the packets are near to one another, or in memory."""
    numpy = _columns.numpy
    begins = rows["offset"].astype("i8")
    fits = numpy.cumsum(rows["len"], dtype="i8") <= _BYTES
    if not is_in_memory:
        fits &= (begins >= begins[0]) & (begins + rows["len"] <= begins[0] + _BYTES)
    fits[0] = True
    return int(len(fits) if fits.all() else fits.argmin())


class Many:
    """Writes the packets of many rows at once. `view` returns the bytes of the capture that the rows come from."""

    def __init__(self, columns: List[Any], view: Any, is_in_memory: bool) -> None:
        self._table, self._view, self._is_in_memory = table_of(columns), view, is_in_memory

    def link_at(self, at: int) -> Optional[int]:
        """Returns the link type of a row, or None if the extension does not write the rows."""
        return None if self._table is None else int(self._table["link"][at])

    def text(self, at: int, head: Any, number: int) -> Tuple[int, memoryview]:
        """Returns how many rows from index `at` on can be written at once, and the bytes for them. `head` is the header of a classic
        capture, whose `number` is -1, or the section of an interface's number."""
        assert self._table is not None, "link_at returned a number"
        rows = self._table[at : at + _ROWS]
        rows = rows[: together(rows, self._is_in_memory)]
        begin, end = int(rows["offset"].min()), int((rows["offset"].astype("i8") + rows["len"]).max())
        room = bytearray(int(rows["len"].sum(dtype="i8")) + _ADDED * len(rows))
        count, length = native.put_rows(head, number, self._view(slice(begin, end)), rows, room, begin)
        return count, memoryview(room)[:length]
