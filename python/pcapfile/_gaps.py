"""Gaps: the parts of a damaged capture that lenient reading skips.

The library decides what a packet or a block is and which rules it breaks, whether a packet's length can be trusted, and where packets or
blocks go on after corrupt bytes. The code here gives it the bytes, as `c/open.c` does."""

import ctypes
import warnings
from typing import Any, Callable, Iterator, NamedTuple, Optional

from . import _columns, _library
from ._common import Packets
from ._errors import CaptureError, CaptureWarning, flaw_of
from ._extras import Wanted
from ._rules import Rule
from ._source import Source, Stretch
from ._windows import Window

# The most bytes of data in one packet record, and the most bytes of a block, that lenient reading accepts: 16 MiB.
LIMIT = 1 << 24

# The length of a packet's header, and of a capture's.
PACKET_HEADER, CAPTURE_HEADER = 16, 24


class Gap(NamedTuple):
    """A part of a damaged capture that reading with `strict=False` skips: `length` bytes from `offset` on. `rule` is the `Rule` that
    its first bytes break, and `text` a message. `rule` is None if the capture ends within its first packet or block, and if its
    first bytes break no rule.

        >>> data = open("capture.pcap", "rb").read()
        >>> list(pcapfile.parse(data[:90], strict=False, gaps=True))
        [Gap(offset=24, length=66, rule=None, text='48 bytes are missing')]
    """

    offset: int
    length: int
    rule: Optional[Rule]
    text: str


class Search:
    """The gap in which a walk is, and the search for its end. A walk keeps it while a stream has no bytes yet."""

    def __init__(self, window: Window) -> None:
        self._window = window
        self._offset: Optional[int] = None
        self._rule: Optional[Rule] = None
        self._text = ""
        self._has_ended = False
        # Why the bytes end: the compressed ones are damaged or end early, or the file has become shorter.
        self._refusal: Optional[CaptureError] = None

    def more(self, missing: int) -> bool:
        """Reads more bytes, as the window does. After the end it reads nothing."""
        if not self._has_ended:
            try:
                self._has_ended = not self._window.more(missing)
            except CaptureError as error:
                self._has_ended, self._refusal = True, error
        return not self._has_ended

    def check_end(self) -> None:
        """Raises the error with which the bytes ended, after everything before it was returned."""
        if self._refusal is not None:
            raise self._refusal

    @property
    def is_on(self) -> bool:
        """True if the walk is in a gap."""
        return self._offset is not None

    def begin(self, text: str, rule: Optional[Rule] = None, length: int = 1) -> None:
        """Begins a gap with the next `length` bytes."""
        self._offset, self._text, self._rule = self._window.offset, text, rule
        skip(self._window, length)

    def refuse(self, status: int, error: Any, length: int = 1) -> None:
        """Begins a gap with the next `length` bytes, which the library refuses."""
        if status == _library.INCOMPLETE:
            missing = error.missing
            self.begin("1 byte is missing" if missing == 1 else f"{missing} bytes are missing", length=length)
        else:
            flaw = flaw_of(status, error.rule)
            self.begin(flaw.text, flaw.rule, length)

    def end(self) -> Gap:
        """Returns the gap up to the bytes that the walk takes next."""
        assert self._offset is not None
        begin, self._offset = self._offset, None
        return Gap(begin, self._window.offset - begin, self._rule, self._text)

    def whole(self, call: Callable[..., int], *state: Any) -> Gap:
        """Skips bytes up to the place where items go on, and returns the gap. `call` of the library finds it, in this state of the
        capture."""
        window, skipped, is_over, error = self._window, ctypes.c_size_t(), ctypes.c_uint8(), _library.Error()
        while not is_over.value:
            window.check()
            if call(*state, window.left, self._has_ended, skipped, is_over, error) == _library.OK:
                skip(window, skipped.value)
            else:
                self.more(error.missing)
        return self.end()


def skip(window: Window, length: int) -> None:
    window.left.ptr += length
    window.left.len -= length


def left_of(window: Window) -> memoryview:
    """Returns the bytes that are left."""
    begin = window.left.ptr - window.start
    return window.data[begin : begin + window.left.len]


def message_of(gap: Gap) -> str:
    return f"{gap.length} bytes at byte {gap.offset} are skipped: {gap.text}"


def without_gaps(found: Iterator[Any]) -> Iterator[Any]:
    """Iterates over packets or blocks, and warns of each gap between them."""
    for item in found:
        if isinstance(item, Gap):
            warnings.warn(message_of(item), CaptureWarning, stacklevel=2)
        else:
            yield item


class Lenient(Packets):
    """A capture that is read with `strict=False`."""

    _is_native = False

    def __init__(self, source: Source, window: Window, stretch: Optional[Stretch] = None, gives_gaps: bool = False) -> None:
        super().__init__(source, window, stretch)  # type: ignore[call-arg, arg-type]
        # True if loops return the gaps too.
        self._gives_gaps = gives_gaps

    def __iter__(self) -> Iterator[Any]:
        return self._begun("packets", lambda: self._found(self._walk()) if self._gives_gaps else self._packets())

    def indexed(self) -> Any:
        raise ValueError("lenient reading (strict=False) gives packets no numbers")

    def _found(self, walk: Any) -> Iterator[Any]:
        """Iterates over the packets and gaps of a walk."""
        raise NotImplementedError

    def _one_by_one(self, walk: Any) -> Iterator[Any]:
        return without_gaps(self._found(walk))

    def _arrays(self, batch: int, wanted: Wanted) -> Iterator[Any]:
        return _columns.arrays_of(self._packets(), batch, wanted)

    def _side_by_side(self, batch: int, threads: int, wanted: Wanted) -> Iterator[Any]:
        return self._arrays(batch, wanted)
