"""The optional columns: interface names, data, and decoded headers. Also the range of times for which a caller asks."""

from typing import Any, Dict, List, NamedTuple, Optional, Tuple

from ._extension import native
from ._filter import Moment, nanoseconds_of, range_of

try:
    import numpy
except ImportError:
    numpy = None  # type: ignore[assignment]  # mypy has no optional modules

# The type in numpy of the places at which the bytes of packets begin and end.
OFFSET = "i8"


class Wanted(NamedTuple):
    """The optional columns that a caller wants: interface names, data, and decoded headers. `times` is the range of times in
    nanoseconds, or None for all packets. `is_copied` is True if the caller copies each batch before it asks for the next one."""

    names: bool = False
    data: bool = False
    decode: bool = False
    times: Optional[Tuple[int, int]] = None
    is_copied: bool = False

    @property
    def kinds(self) -> List[Tuple[str, Any]]:
        """The optional columns that hold numbers or texts, and their types in numpy."""
        return [kind for extra in self.extras() for kind in extra.kinds]

    def extras(self) -> List[Any]:
        """Returns the makers of the optional columns for one walk."""
        found: List[Any] = [Names()] if self.names else []
        if self.data:
            found.append(Data())
        if self.decode:
            from ._decode import Decoder

            found.append(Decoder())
        return found

    def takes(self, time: Optional[int]) -> bool:
        """Returns True if the range of times contains this time."""
        return self.times is None or (time is not None and self.times[0] <= time < self.times[1])


NOTHING = Wanted()


def wanted_of(names: bool, data: bool, decode: bool, since: Optional[Moment], until: Optional[Moment]) -> Wanted:
    times = range_of(nanoseconds_of("since", since), nanoseconds_of("until", until)) if since is not None or until is not None else None
    return Wanted(names, data, decode, times)


class Names:
    """The column of interface names, None where the name is unknown."""

    kinds = [("interface_name", "O")]

    def __init__(self) -> None:
        # The current interfaces, how many there were, and their names by number. The last entry of the table is None, for
        # interfaces that do not exist.
        self._known: Any = None
        self._count = 0
        self._table: Any = None

    def begin(self, size: int) -> None:
        self._names = numpy.empty(size, "O")

    def see(self, walk: Any, place: int, begin: int, rows: Any) -> None:
        """Reads the names of a batch's rows from number `begin` on, while the walk has their interfaces."""
        known = getattr(walk, "known", {})
        if known is not self._known or len(known) != self._count:
            self._known, self._count = known, len(known)
            self._table = numpy.full(max(known, default=-1) + 2, None, "O")
            for number, found in known.items():
                self._table[number] = found.interface.name
        numbers = numpy.minimum(rows["interface"], numpy.uint32(len(self._table) - 1))
        self._names[begin : begin + len(rows)] = self._table[numbers]

    def given(self, rows: Any) -> Dict[str, Any]:
        """Returns the column for these rows, which are all since the call of `begin`."""
        return {"interface_name": self._names[: len(rows)]}


class Data:
    """The column of data: the bytes of all packets one after another, and the places at which they begin and end, in Arrow's
    layout."""

    kinds: List[Tuple[str, Any]] = []

    def begin(self, size: int) -> None:
        self._texts: List[Any] = []

    def see(self, walk: Any, place: int, begin: int, rows: Any) -> None:
        shown = walk.window.data
        begins = rows["offset"].astype(OFFSET) - place
        ends = begins + rows["len"]
        if native is None:
            self._texts.append(b"".join([shown[first:last] for first, last in zip(begins.tolist(), ends.tolist())]))
        else:
            text = numpy.empty(int(rows["len"].sum(dtype=OFFSET)), "u1")
            native.gather(shown, rows, text, place)
            self._texts.append(text)

    def given(self, rows: Any) -> Dict[str, Any]:
        offsets = numpy.zeros(len(rows) + 1, OFFSET)
        numpy.cumsum(rows["len"], out=offsets[1:])
        texts = [numpy.frombuffer(text, "u1") for text in self._texts]
        return {"data_offsets": offsets, "data": numpy.concatenate(texts) if texts else numpy.zeros(0, "u1")}
