"""What captures of both formats have in common."""

import ctypes
from typing import Any, Callable, Iterator, List, Optional, Tuple

from . import _arguments, _library
from ._extension import native
from ._filter import Filter, Moment
from ._html import shown_as_html
from ._indexed import Indexed, rows_of
from ._interfaces import Interface
from ._source import Source, Stretch
from ._streams import Stream
from ._tables import Tables

# The number of packets that one call of the library returns.
BATCH = 512

# A function that takes packets from the front of the bytes, and returns a status of the library.
Take = Callable[[_library.Bytes, _library.Error], int]

# Makes a packet from its fields. Calling `Packet(..)` runs a Python function, and takes twice as long.
make = tuple.__new__


class Packets(Tables):
    """The packets of a capture in memory, in a file or in a stream, or of a stretch of a capture in memory or in a file.

    Threads may share a capture in memory or in a file, because each loop is a pass of its own. One iterator serves one thread at
    a time, and so does a stream. If a second thread asks it meanwhile, that thread gets a ValueError, and no packet is lost. A
    thread may close a capture while others iterate over it; these then get a ValueError."""

    def __init__(self, source: Source, stretch: Optional[Stretch] = None) -> None:
        self._source, self._stretch = source, stretch
        # The rows that a stream gave for a DataFrame before the stream had to wait for bytes.
        self._rows: List[Any] = []

    def __iter__(self) -> Iterator[Any]:
        return self._begun("packets", self._packets)

    def _begun(self, kind: Any, begin: Callable[[], Iterator[Any]]) -> Iterator[Any]:
        """Returns an iterator of this kind. For a stream it is the iterator that is in use, if there is one."""
        return self._source.walk(kind, begin) if isinstance(self._source, Stream) else begin()

    # The format: "pcap" or "pcapng".
    format: str

    # True if the extension makes the packets.
    _is_native = native is not None

    @property
    def is_stream(self) -> bool:
        """True if the packets come only once, because the capture is a stream or is compressed.

            >>> pcapfile.open("capture.pcap").is_stream
            False
        """
        return isinstance(self._source, Stream)

    @property
    def interfaces(self) -> List[Interface]:
        """The interfaces of a PcapNg capture, in the order of their descriptions, over all sections. The list of a classic
        capture is empty.

        For a capture in memory or in a file, each use reads the capture to its end, or to its first fault. For a stream these are
        the interfaces that have arrived so far.

            >>> with pcapfile.open("options.pcapng") as capture:
            ...     [interface.link for interface in capture.interfaces]
            [1]
        """
        raise NotImplementedError

    @property
    def link_types(self) -> List[int]:
        """The numbers of the link types, without repetitions: the one of a classic capture, or those of the `interfaces`.

            >>> with pcapfile.open("capture.pcap") as capture:
            ...     capture.link_types
            [1]
        """
        return list(dict.fromkeys(interface.link for interface in self.interfaces))

    def pairs(self) -> Iterator[Tuple[Optional[float], bytes]]:
        """Iterates over pairs: the time of each packet in seconds since 1970, or None, and a copy of its bytes.

            >>> with pcapfile.open("capture.pcap") as capture:
            ...     [(time, len(data)) for time, data in capture.pairs()]
            [(1335958313.15263, 98)]
        """
        return self._begun("pairs", self._pairs)

    def filter(
        self, expression: Optional[str] = None, *, since: Optional[Moment] = None, until: Optional[Moment] = None
    ) -> Iterator[Any]:
        """Iterates over the packets that match a filter expression and a range of times.

        `expression` is a filter of tcpdump, for example "udp port 53". libpcap compiles it for the link type of each packet.
        `since` and `until` are datetimes with a zone, or seconds since 1970: the range begins at `since`, and ends before
        `until`.

        It raises a ValueError for a wrong expression. A PcapNg capture raises it at the first packet of a link type. It also
        raises a ValueError for an expression with a NUL byte and for a datetime without a zone, and an ImportError if libpcap is
        missing.

        An expression skips packets of unknown interfaces. A range of times skips packets without a time, and those whose
        nanoseconds exceed 64 bits.

            >>> with pcapfile.open("capture.pcap") as capture:
            ...     [packet.length for packet in capture.filter(since=1335958313)]
            [98]
        """
        chosen = Filter(expression, since, until)
        for link in self.link_types if self.format == "pcap" and expression is not None else []:
            chosen.program(link)
        return self._begun(("filter", expression, since, until), lambda: self._filtered(chosen))

    def indexed(self) -> "Indexed":
        """Returns the packets by number, for `len`, `[5]`, `[-1]` and slices. It raises a ValueError for a stream, whose packets
        come only once.

            >>> with pcapfile.open("capture.pcap") as capture:
            ...     capture.indexed()[-1].offset
            40
        """
        return Indexed(self)

    def _passed_over(self) -> Any:
        """Returns a walk at the end of all packets. It raises a CaptureError if the capture is truncated or malformed."""
        walk = self._walk(lends=False)
        self._pass_over(walk)
        return walk

    def _pass_over(self, walk: Any) -> None:
        """Takes all packets of a walk, and drops them."""
        rows, taken = rows_of(BATCH), ctypes.c_size_t()
        for _ in walk.batches(lambda left, error: walk.take_rows(left, ctypes.addressof(rows), BATCH, taken, error)):
            pass

    def bytes_at(self, place: slice) -> memoryview:
        """Returns the bytes of the capture in a range of offsets, for example the offsets of a row of `columns`. It raises a ValueError
        for a stream, whose bytes come only once.

            >>> with pcapfile.open("capture.pcap") as capture:
            ...     bytes(capture.bytes_at(slice(40, 43)))
            b'\\x00\\x01\\x02'
        """
        if isinstance(self._source, Stream):
            raise ValueError("the bytes of a stream cannot be read again")
        if not isinstance(place, slice):
            raise _arguments.wrong_type("place", place, "a slice")
        begin, end, step = place.indices(len(self._source))
        if step != 1:
            raise ValueError(f"place has the step {step}, and must have none")
        return self._source.view(begin, max(begin, end))

    def _packets(self) -> Iterator[Any]:
        return self._packets_of(self._walk())

    def _packets_of(self, walk: Any) -> Iterator[Any]:
        """Iterates over the packets of a walk."""
        return self._by_extension(walk, None, False) if self._is_native else self._one_by_one(walk)

    def _pairs(self) -> Iterator[Tuple[Optional[float], bytes]]:
        if self._is_native:
            return self._by_extension(self._walk(), None, True)
        return ((packet.time, bytes(packet.data)) for packet in self._packets())

    def _filtered(self, chosen: Filter) -> Iterator[Any]:
        if self._is_native:
            return self._by_extension(self._walk(), chosen, False)
        return (packet for packet in self._packets() if chosen.takes(packet))

    def _by_extension(self, walk: Any, chosen: Optional[Filter], are_pairs: bool) -> Iterator[Any]:
        """Iterates by the extension over the packets of a walk that a filter accepts, or over their times and bytes."""
        raise NotImplementedError

    def _one_by_one(self, walk: Any) -> Iterator[Any]:
        """Iterates over the packets of a walk, without the extension."""
        raise NotImplementedError

    def _walk(self, lends: bool = True) -> Any:
        """Returns a walk over all packets, over the rest of a stream, or over the stretch. If `lends` is false, the walk may
        overwrite bytes when it goes on, so packets must not refer to them."""
        raise NotImplementedError

    def _end(self) -> int:
        """Returns the offset at which the capture or the stretch ends."""
        if self._stretch is not None:
            return self._stretch.end
        assert not isinstance(self._source, Stream), "a stream has no length"
        return len(self._source)

    def _stretches(self, count: int, at_least: int) -> List[Stretch]:
        """Cuts the capture into at most `count` stretches. They have equal lengths, or `at_least` bytes each if that is above 0."""
        raise NotImplementedError

    def __repr__(self) -> str:
        if self._is_closed:
            return f"<{self.format} capture, closed>"
        return f"<{self.format} capture, {'a stream' if self.is_stream else f'{self._length} bytes'}>"

    def _repr_html_(self) -> str:
        """Returns what a notebook shows of the capture."""
        return shown_as_html(self)

    @property
    def _is_closed(self) -> bool:
        return bool(self._source.open.is_closed)

    @property
    def _length(self) -> int:
        """The length of the capture or of the stretch, in bytes."""
        return self._end() - (0 if self._stretch is None else self._stretch.begin)

    def close(self) -> None:
        """Closes the capture, and its file or stream. The data of packets that the program keeps stays valid.

            >>> capture = pcapfile.open("capture.pcap")
            >>> capture.close()
        """
        self._source.close()

    def __exit__(self, *_: object) -> None:
        self.close()
