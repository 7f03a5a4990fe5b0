"""Walks over the blocks of PcapNg captures, with the interfaces of the current section."""

import ctypes
from typing import Any, Dict, Iterator, List, Optional, Tuple

from . import _library, _settled
from ._common import Take
from ._errors import CaptureError, error_of
from ._extension import native
from ._interfaces import Interface, described
from ._options import Block
from ._windows import Window

# The magic number of a section in big-endian byte order, and the type of its header.
_BIG, _HEADER = 0x1A2B3C4D, 0x0A0D0D0A


class Unknown:
    """The stand-in for an interface that the section does not describe: its packets have no time."""

    interface: Optional[Interface] = None
    per_second, nanoseconds = 0, 0

    def time(self, units: int) -> Tuple[Optional[int], int]:
        return None, 0

    def stored(self, length: int, original: int) -> int:
        """Returns how many bytes of a simple packet block are data; the others are padding."""
        snaplen = self.interface.snaplen if self.interface else 0
        return min(length, original, snaplen or original)


UNKNOWN = Unknown()


class Known(Unknown):
    """An interface of the current section, and its clock.

    If the unit of time is a decimal fraction from a tenth to a billionth of a second, and the clock has no offset, the package
    divides the units itself. A second then has `per_second` of them, each of `nanoseconds`. Otherwise `per_second` is 0, and the library
    computes the times."""

    interface: Interface

    def __init__(self, shown: _library.Interface, block: Block) -> None:
        self.interface = described(block, *(getattr(shown, name) for name, _ in shown._fields_))
        self.shown = shown
        is_plain = shown.ts_base == 10 and 1 <= shown.ts_exponent <= 9 and shown.ts_offset == 0
        self.per_second = 10**shown.ts_exponent if is_plain else 0
        self.nanoseconds = 10 ** (9 - shown.ts_exponent) if is_plain else 0

    def time(self, units: int) -> Tuple[Optional[int], int]:
        """Returns seconds and nanoseconds, or None and 0 if the seconds exceed 64 bits."""
        time = _library.Time()  # each call has its own, because threads share an interface
        if _library.time_of(self.shown, units, time) != _library.OK:
            return None, 0
        return time.seconds, time.nanoseconds


class Walk:
    """A pass over the blocks of a capture, with the interfaces of the current section."""

    # How many bytes of the block precede the data: of an enhanced packet, and of a simple packet.
    HEAD, SIMPLE_HEAD = 28, 12

    # The rows as the library returns them, with timestamps in the interface's units, and with the block type where a column has
    # the link type.
    rows = [("timestamp", "u8"), ("len", "u4"), ("orig_len", "u4"), ("interface", "u4"), ("type", "u4"), ("offset", "u8")]

    def __init__(self, window: Window) -> None:
        self.window = window
        self.section, self.error = _library.Section(), _library.Error()
        self.block: Any = _library.Block(0, _library.no_bytes())
        self.known: Dict[int, Known] = {}
        # The offset of the current section's header.
        self.header = 0
        # The interfaces of all sections so far.
        self.described: List[Interface] = []
        # The interfaces of the current section, for the extension.
        self.clocks: Any = None if native is None else native.clocks()

    def take(self) -> None:
        """Takes the next block. If it describes an interface, the walk keeps the interface."""
        before = self.section.interfaces
        while (status := self._take()) != _library.OK:
            if status != _library.INCOMPLETE or not self.window.more(self.error.missing):
                raise error_of(status, self.error, self.window.offset)
        if self.section.interfaces == 0:
            self.known = {}
            self.clocks = None if native is None else native.clocks()
            if self.block.type == _HEADER:
                self.header = self.window.offset - self.block.body.len - 12
        elif self.section.interfaces != before:
            self._keep(before)

    def _take(self) -> int:
        self.window.offset  # raises a ValueError if the capture is closed
        status: int = _library.take_block(self.section, self.window.left, self.block, self.error)
        return status

    def shown(self) -> Block:
        """Returns the block that was taken last."""
        return self._block()

    def _block(self) -> Block:
        """Returns the block that was taken last, without its flaws."""
        window, length = self.window, self.block.body.len
        begin = self.block.body.ptr - window.start if length > 0 else 0
        body = window.data[begin : begin + length]
        return Block(self.block.type, body, window.offset - length - 4, self.section.magic_number)

    def _keep(self, number: int) -> None:
        shown = _library.Interface()
        if _library.read_interface(self.section, self.block, shown, self.error) == _library.OK:
            self._add(number, shown)

    def _add(self, number: int, shown: _library.Interface) -> None:
        known = self.known[number] = Known(shown, self._block())
        self.described.append(known.interface)
        if native is not None:
            self.clocks.add(number, shown, known.interface)

    @property
    def head(self) -> _library.Section:
        return self.section

    @property
    def state(self) -> Any:
        """The state that the packets depend on: the section's byte order, and its interfaces with the bodies of their blocks, which
        have the names."""
        interfaces = {number: known.interface for number, known in self.known.items()}
        bodies = [interface.block and bytes(interface.block.body) for interface in interfaces.values()]
        return self.section.magic_number, self.section.interfaces, interfaces, bodies

    def over(self, window: Window) -> "Walk":
        """Returns a walk over other bytes of the same capture, with a copy of this walk's section and interfaces."""
        walk = Walk(window)
        walk.section, walk.known = _library.Section.from_buffer_copy(self.section), dict(self.known)
        walk.clocks = None if native is None else self.clocks.copy()
        return walk

    def restore(self, known: Dict[int, Known], count: int, magic_number: int) -> None:
        """Makes a section current, with its first `count` interfaces."""
        self.section = _library.Section(magic_number, 1, 0, count)
        self.known = {number: found for number, found in known.items() if number < count}
        if native is not None:
            self.clocks = native.clocks()
            for number, found in self.known.items():
                self.clocks.add(number, found.shown, found.interface)

    def ahead(self, window: Window) -> "Walk":
        """Returns a walk over the same bytes that has the section and the interfaces at the first packet."""
        walk = self.over(window)
        packet, taken = _library.NgPacket(0, 0, 0, 0, _library.no_bytes()), ctypes.c_size_t()
        try:
            for _ in walk.batches(lambda left, error: int(_library.take_ng_packets(walk.section, left, packet, 1, taken, error))):
                if taken.value > 0:
                    break
        except CaptureError:
            pass
        return walk

    def batches(self, take: Take) -> Iterator[bool]:
        """Calls `take` until the capture has no more packets, and yields after each call. The value is False if the section or
        its interfaces may change next."""
        window = self.window
        while window.left.len > 0 or window.more(1):
            window.offset  # raises a ValueError if the capture is closed
            status = take(window.left, self.error)
            stays = status in (_library.OK, _library.INCOMPLETE)
            yield stays
            is_cut = status == _library.INCOMPLETE and not window.more(self.error.missing)
            if is_cut or status == _library.NO_MEMORY:
                raise error_of(status, self.error, window.offset)
            if not stays:
                # The next block is a section header, an interface, an unreadable packet, or malformed.
                self.take()

    def take_rows(self, left: _library.Bytes, rows: int, room: int, taken: ctypes.c_size_t, error: _library.Error) -> int:
        status: int = _library.take_ng_rows(self.section, left, rows, room, taken, error)
        return status

    def settle(self, rows: Any) -> None:
        """Converts rows in the library's layout to rows of columns, in place."""
        _settled.settle_blocks(rows, self.known)

    def guess(self, data: memoryview, place: int) -> Optional[int]:
        """Returns a likely start of blocks in `data`, or None. `place` is the offset of `data` in the capture."""
        order = ">" if self.section.magic_number == _BIG else "<"
        begin = -place % 4
        found = _settled.guess_block(data[begin:], order)
        return None if found is None else place + begin + found
