"""Captures in the PcapNg format."""

import ctypes
import struct
from typing import TYPE_CHECKING, Any, Iterator, List, Optional, TypeVar

from . import _library
from ._common import BATCH, Packets, make
from ._errors import CaptureError, error_of, refused
from ._extension import native
from ._interfaces import Interface
from ._options import Block
from ._packets import SIMPLE_PACKET, BlockPacket
from ._sections import UNKNOWN, Walk
from ._source import File, Source, Stretch
from ._streams import Stream
from ._windows import Window

# A packet in the layout in which the library returns it: block type, interface, original length, timestamp in the interface's
# units, address of the data, and length of the data.
_PACKET = struct.Struct("@IIIQPN")


_Opened = TypeVar("_Opened", bound="BlockCapture")


class BlockCapture(Packets):
    """A PcapNg capture. Iterating over it gives the packets of all sections, each as a `BlockPacket`. It skips other blocks, and
    packets whose block it cannot read. If the capture is truncated or malformed, the packets before the fault come first, and
    then a `CaptureError`.

    A program can iterate again over a capture in memory or in a file, but only once over a stream.

        >>> with pcapfile.open("options.pcapng") as capture:
        ...     [packet.comment for packet in capture]
        ['seen']
    """

    if TYPE_CHECKING:

        def __iter__(self) -> Iterator[BlockPacket]: ...

    format = "pcapng"

    _walks = Walk

    def __init__(self, source: Source, window: Window, stretch: Optional[Stretch] = None) -> None:
        super().__init__(source, stretch)
        walk = self._walks(window)
        walk.take()
        head = walk.shown()
        # A copy of the first block, which is a section header.
        self.section: Block = head._replace(body=memoryview(bytes(head.body)))
        # Only a stream keeps the first walk, and the first block until the caller reads on. For memory or a file the walk is
        # dropped here, because its window holds bytes or a descriptor.
        self._first: Optional[Walk] = walk if isinstance(source, Stream) else None
        self._head: Optional[Block] = head if isinstance(source, Stream) else None

    def _walk(self, lends: bool = True) -> Walk:
        """Returns a walk over the whole capture, over the rest of a stream, or over the stretch. A walk over a stretch first
        reads the section header and the interfaces that the stretch depends on."""
        source, stretch, self._head = self._source, self._stretch, None
        if self._first is not None:
            return self._first
        assert not isinstance(source, Stream), "a stream keeps its walk"
        begin, end = (0, len(source)) if stretch is None else (stretch.begin, stretch.end)
        window = source.between(begin, end) if lends else source.read(begin, end)
        if stretch is None:
            return self._walks(window)
        walk = self._walks(source.between(stretch.header))
        walk.take()
        for place in stretch.interfaces:
            walk.window = source.between(place)
            walk.take()
        walk.window = window
        return walk

    # Every interface has its own unit of time.
    has_nanoseconds = True

    @property
    def byteorder(self) -> str:
        """The byte order of the numbers in the first section: "big" or "little".

            >>> with pcapfile.open("options.pcapng") as capture:
            ...     capture.byteorder
            'little'
        """
        return self.section.byteorder

    @property
    def interfaces(self) -> List[Interface]:
        if self._first is not None:
            return list(self._first.described)
        walk = self._walk(lends=False)
        try:
            self._pass_over(walk)
        except CaptureError:
            pass
        return walk.described

    def _by_extension(self, walk: Any, chosen: Any, are_pairs: bool) -> Iterator[Any]:
        packets: Iterator[Any] = native.packets(walk, None, refused, chosen, are_pairs)
        return packets

    def _one_by_one(self, walk: Any) -> Iterator[BlockPacket]:
        taken = ctypes.c_size_t()
        packets = (_library.NgPacket * BATCH)(*[_library.NgPacket(0, 0, 0, 0, _library.no_bytes())] * BATCH)
        fields = memoryview(packets).cast("B")
        window, is_open = walk.window, walk.window.open
        for _ in walk.batches(lambda left, error: int(_library.take_ng_packets(walk.section, left, packets, BATCH, taken, error))):
            data, start, base, last = window.data, window.start, window.base, None
            for kind, number, original, units, at, length in _PACKET.iter_unpack(fields[: taken.value * _PACKET.size]):
                if is_open.is_closed:
                    window.check()
                if number != last:
                    last, known = number, walk.known.get(number, UNKNOWN)
                    interface, per_second, each = known.interface, known.per_second, known.nanoseconds
                if kind == SIMPLE_PACKET:
                    seconds, nanoseconds, length = None, 0, known.stored(length, original)
                elif per_second:
                    seconds, nanoseconds = units // per_second, units % per_second * each
                else:
                    seconds, nanoseconds = known.time(units)
                at -= start
                lent = data[at : at + length]
                yield make(BlockPacket, (seconds, nanoseconds, original, lent, units, number, interface, base + at))

    def blocks(self) -> Iterator[Block]:
        """Iterates over all blocks, including those of packets, as `Block`. It does not check the bodies. If the capture is
        truncated or malformed, the blocks before the fault come first, and then a `CaptureError`.

            >>> with pcapfile.open("options.pcapng") as capture:
            ...     [block.type for block in capture.blocks()]
            [168627466, 1, 6]
        """
        return self._begun("blocks", self._blocks)

    def _blocks(self) -> Iterator[Block]:
        head, walk = self._head, self._walk()
        if head is not None and walk is self._first:
            yield head
        while walk.window.left.len > 0 or walk.window.more(1):
            walk.take()
            yield walk.shown()

    def _stretches(self, count: int, at_least: int) -> List[Stretch]:
        whole = self._source.mapped() if isinstance(self._source, File) else self._source
        window, cuts, error = whole.window(), (_library.NgCut * count)(), _library.Error()
        found, known, places = ctypes.c_size_t(), ctypes.c_size_t(), (ctypes.c_size_t * 64)()
        while True:
            wanted = (cuts, count, found, places, len(places), known, error)
            if at_least > 0:
                status = _library.cut_blocks_at_least(window.left, at_least, *wanted)
            else:
                status = _library.cut_blocks(window.left, *wanted)
            if status != _library.NO_PLACE:
                break
            places = (ctypes.c_size_t * known.value)()
        if status != _library.OK:
            raise error_of(status, error, 0)
        here = cuts[: found.value]
        ends = [*(cut.at.offset for cut in here[1:]), len(window.data)]
        return [
            Stretch(cut.at.offset, end, cut.header, tuple(places[cut.first : cut.first + cut.interfaces]))
            for cut, end in zip(here, ends)
        ]

    def __enter__(self: _Opened) -> _Opened:
        return self
