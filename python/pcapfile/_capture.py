"""Captures in the classic format."""

import ctypes
import struct
from typing import TYPE_CHECKING, Any, Iterator, List, NamedTuple, Optional, TypeVar

from . import _columns, _library
from ._common import BATCH, Packets, Take, make
from ._errors import error_of, refused
from ._extension import native
from ._filter import Filter
from ._interfaces import Interface
from ._links import fcs_len, link_type
from ._packets import Packet
from ._source import IN_A_ROW, File, Source, Stretch
from ._streams import Stream
from ._windows import Window

# A packet in the layout in which the library returns it: seconds, nanoseconds, original length, address of the data, and length
# of the data.
_PACKET = struct.Struct("@IIIPN")


class Header(NamedTuple):
    """The header of a classic capture: the fields of the format, in their order. `snaplen` is the snapshot length in bytes, and
    `link` the number of the link type.

        >>> with pcapfile.open("capture.pcap") as capture:
        ...     capture.header.snaplen
        65535
    """

    magic_number: int
    version_major: int
    version_minor: int
    ts_correction: int
    ts_accuracy: int
    snaplen: int
    link: int

    @property
    def link_type(self) -> int:
        """The link type in the low 16 bits of `link`.

            >>> pcapfile.open("capture.pcap").header.link_type
            1
        """
        return link_type(self.link)

    @property
    def fcs_len(self) -> Optional[int]:
        """The length in bytes of the frame check sequence, if `link` declares it, or None.

            >>> print(pcapfile.open("capture.pcap").header.fcs_len)
            None
        """
        return fcs_len(self.link)


class Walk:
    """A pass over the packets of a classic capture."""

    # How many bytes of a packet record precede its data.
    HEAD = 16

    # The state that the packets depend on. A classic capture has only its header, which never changes.
    state: Any = None

    # The rows that the library returns are rows of columns already. There are no interfaces.
    rows, clocks = _columns.KINDS, None

    def __init__(self, header: _library.Header, window: Window) -> None:
        self.head, self.window = header, window

    def over(self, window: Window) -> "Walk":
        """Returns a walk over other bytes of the same capture."""
        return Walk(self.head, window)

    def ahead(self, window: Window) -> "Walk":
        """Returns a walk over the same bytes that has the state at the first packet."""
        return self.over(window)

    def batches(self, take: Take) -> Iterator[bool]:
        """Calls `take` until the capture has no more packets, and yields True after each call. The state of a
        classic capture never changes."""
        window, error = self.window, _library.Error()
        while True:
            window.offset  # raises a ValueError if the capture is closed
            status = take(window.left, error)
            yield True
            if status not in (_library.OK, _library.INCOMPLETE):
                raise error_of(status, error, window.offset)
            if window.left.len > 0 and status == _library.OK:
                continue
            if not window.more(error.missing if status == _library.INCOMPLETE else 1):
                break
        if status != _library.OK:
            raise error_of(status, error, window.offset)

    def take_rows(self, left: _library.Bytes, rows: int, room: int, taken: ctypes.c_size_t, error: _library.Error) -> int:
        status: int = _library.take_rows(self.head, left, rows, room, taken, error)
        return status

    def settle(self, rows: Any) -> None:
        """Converts rows in the library's layout to rows of columns. Here they are the same."""

    def guess(self, data: memoryview, place: int) -> Optional[int]:
        """Returns a likely start of packets in `data`, or None. `place` is the offset of `data` in the capture."""
        found, bytes_here = ctypes.c_size_t(), _library.Bytes(_library.address_of(data), len(data))
        status = _library.resync(self.head, bytes_here, IN_A_ROW, found, _library.Error())
        return place + found.value if status == _library.OK else None


_Opened = TypeVar("_Opened", bound="Capture")


class Capture(Packets):
    """A classic capture. Iterating over it gives its packets, each as a `Packet`. If the capture is truncated or malformed, the
    packets before the fault come first, and then a `CaptureError`. A program can iterate again over a capture in memory or in
    a file, but only once over a stream.

        >>> with pcapfile.open("capture.pcap") as capture:
        ...     [packet.seconds for packet in capture]
        [1335958313]
    """

    if TYPE_CHECKING:

        def __iter__(self) -> Iterator[Packet]: ...

    format = "pcap"

    def __init__(self, source: Source, window: Window, stretch: Optional[Stretch] = None) -> None:
        super().__init__(source, stretch)
        header, error = _library.Header(), _library.Error()
        while (status := _library.take_header(window.left, header, error)) != _library.OK:
            if status != _library.INCOMPLETE or not window.more(error.missing):
                raise error_of(status, error, 0)
        self._header, self._begin = header, window.offset
        # A window holds bytes or a descriptor. Only a stream keeps it after the header was read.
        self._after_header = window if isinstance(source, Stream) else None
        self.header = Header(*(getattr(header, name) for name, _ in header._fields_))

    @property
    def byteorder(self) -> str:
        """The byte order of the numbers in the capture: "big" or "little".

            >>> with pcapfile.open("capture.pcap") as capture:
            ...     capture.byteorder
            'little'
        """
        return "big" if self.header.magic_number in (0xA1B2C3D4, 0xA1B23C4D) else "little"

    @property
    def has_nanoseconds(self) -> bool:
        """True if the capture stores times in nanoseconds, and False if it stores microseconds.

            >>> with pcapfile.open("capture.pcap") as capture:
            ...     capture.has_nanoseconds
            False
        """
        return self.header.magic_number in (0xA1B23C4D, 0x4D3CB2A1)

    @property
    def link(self) -> int:
        """The number of the link type of the packets.

            >>> with pcapfile.open("capture.pcap") as capture:
            ...     capture.link
            1
        """
        return self.header.link

    @property
    def link_type(self) -> int:
        """The link type in the low 16 bits of `link`. It is not `link` if the header declares a length of the frame check sequence.

            >>> with pcapfile.open("capture.pcap") as capture:
            ...     capture.link_type
            1
        """
        return self.header.link_type

    @property
    def fcs_len(self) -> Optional[int]:
        """The length in bytes of the frame check sequence with which each packet ends, or None if the header declares none.

            >>> with pcapfile.open("capture.pcap") as capture:
            ...     print(capture.fcs_len)
            None
        """
        return self.header.fcs_len

    def _walk(self, lends: bool = True) -> "Walk":
        if self._after_header is not None:
            return Walk(self._header, self._after_header)
        begin = self._begin if self._stretch is None else self._stretch.begin
        assert not isinstance(self._source, Stream), "a stream keeps its window"
        end = self._end()
        return Walk(self._header, self._source.between(begin, end) if lends else self._source.read(begin, end))

    @property
    def interfaces(self) -> List[Interface]:
        return []

    @property
    def link_types(self) -> List[int]:
        return [self.link]

    def _by_extension(self, walk: Any, chosen: Optional[Filter], are_pairs: bool) -> Iterator[Any]:
        packets: Iterator[Any] = native.packets(walk, self._header, refused, chosen, are_pairs)
        return packets

    def _one_by_one(self, walk: "Walk") -> Iterator[Packet]:
        packets = (_library.Packet * BATCH)(*[_library.Packet(0, 0, 0, _library.no_bytes())] * BATCH)
        fields = memoryview(packets).cast("B")
        taken, link = ctypes.c_size_t(), self.link
        window, is_open = walk.window, walk.window.open
        for _ in walk.batches(lambda left, error: int(_library.take_packets(self._header, left, packets, BATCH, taken, error))):
            data, start, base = window.data, window.start, window.base
            for seconds, nanoseconds, original, at, length in _PACKET.iter_unpack(fields[: taken.value * _PACKET.size]):
                if is_open.is_closed:
                    window.check()
                at -= start
                yield make(Packet, (seconds, nanoseconds, original, data[at : at + length], link, base + at))

    def _stretches(self, count: int, at_least: int) -> List[Stretch]:
        whole = self._source.mapped() if isinstance(self._source, File) else self._source
        window, cuts = whole.window(), (_library.Cut * count)()
        found, error = ctypes.c_size_t(), _library.Error()
        if at_least > 0:
            status = _library.cut_packets_at_least(window.left, at_least, cuts, count, found, error)
        else:
            status = _library.cut_packets(window.left, cuts, count, found, error)
        if status != _library.OK:
            raise error_of(status, error, 0)
        begins: List[int] = [cut.offset for cut in cuts[: found.value]]
        return [Stretch(begin, end) for begin, end in zip(begins, [*begins[1:], len(window.data)])]

    def __enter__(self: _Opened) -> _Opened:
        return self
