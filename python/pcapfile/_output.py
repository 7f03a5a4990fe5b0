"""The files that a Writer writes: one file, or numbered files."""

import io
import os
from builtins import open as _open
from typing import Any, List, Optional, Tuple, Union

from . import _arguments, _reading

Name = Union[str, bytes, "os.PathLike[Any]"]

# The length of a section that states none: -1, in both byte orders.
UNSPECIFIED = b"\xff" * 8


class Output:
    """A file that the Writer opened, or an object that has `write`. After a write has failed, each later one raises an OSError. After
    the end each raises a ValueError."""

    # True if several packets may be written together.
    joins = True

    def __init__(self, file: Any, is_mine: bool) -> None:
        self._file, self._is_mine, self._has_failed, self._is_closed = file, is_mine, False, False

    def front(self, text: bytes) -> None:
        """Writes a header, or a block that later packets need."""
        self._write(text)

    def section(self, text: bytes) -> None:
        """Writes the header of another section."""
        self._write(text)

    def block(self, text: bytes) -> None:
        """Writes a block that no other block needs."""
        self._write(text)

    def packets(self, text: memoryview) -> None:
        """Writes several packets, if the output joins them."""
        self._write(text)

    def packet(self, text: bytes, time: int) -> None:
        """Writes a packet with this time in nanoseconds."""
        self._write(text)

    @property
    def is_over(self) -> bool:
        """Whether an earlier write failed, or the output is closed."""
        return self._has_failed or self._is_closed

    def check(self) -> None:
        """Raises a ValueError if the output is closed, and an OSError if an earlier write failed."""
        if self._is_closed:
            raise ValueError("the Writer is closed")
        if self._has_failed:
            raise OSError("an earlier write failed")

    def _write(self, text: Union[bytes, memoryview]) -> None:
        self.check()
        self._has_failed = True
        left = memoryview(text)
        while len(left) > 0:
            count = self._file.write(left)
            if count is None and isinstance(self._file, io.RawIOBase) or count == 0:
                raise BlockingIOError("the file accepts no bytes now")
            left = left[len(left) if count is None else count :]
        self._has_failed = False

    def close(self) -> None:
        try:
            if not self.is_over and hasattr(self._file, "flush"):
                self._file.flush()
        finally:
            self.abandon()

    def abandon(self) -> None:
        """Closes the file without flushing it, if the Writer opened it."""
        self._is_closed = True
        if self._is_mine:
            self._file.close()


class Continued(Output):
    """A file that the Writer goes on with. If its last section states a length, `place` is the offset of that length. The first block
    makes the length unspecified. A section header leaves it, because the last section ends there."""

    def __init__(self, file: Any, place: Optional[int]) -> None:
        super().__init__(file, True)
        self._place = place

    def section(self, text: bytes) -> None:
        self._place = None
        super().section(text)

    def _write(self, text: Union[bytes, memoryview]) -> None:
        self.check()
        if self._place is not None:
            self._has_failed = True
            os.pwrite(self._file.fileno(), UNSPECIFIED, self._place)
            self._place, self._has_failed = None, False
        super()._write(text)


class Numbered(Output):
    """Files with a number before their extension, each a whole capture. Each file has at least one packet.

    The next file begins with the packet that would make the current one longer than `most_bytes`, or that is at least `most_time`
    nanoseconds later than its first packet."""

    joins = False

    def __init__(self, name: Name, most_bytes: Optional[int], most_time: Optional[int]) -> None:
        self._name, self._most_bytes, self._most_time = os.fsdecode(name), most_bytes, most_time
        self._front: List[bytes] = []
        self.files: List[str] = []
        # The length of the current file in bytes, and the time of its first packet.
        self._length, self._begin = 0, None  # type: int, Optional[int]
        super().__init__(self._opened(), True)

    def _opened(self) -> Any:
        stem, extension = os.path.splitext(self._name)
        name = f"{stem}-{len(self.files) + 1:05}{extension}"
        file = _emptied(name)
        self.files.append(name)
        return file

    def front(self, text: bytes) -> None:
        super().front(text)
        self._front.append(text)
        self._length += len(text)

    def section(self, text: bytes) -> None:
        super().section(text)
        self._front = [text]
        self._length += len(text)

    def block(self, text: bytes) -> None:
        super().block(text)
        self._length += len(text)

    def packet(self, text: bytes, time: int) -> None:
        self.check()
        if self._is_full(len(text), time):
            self._begin_next()
        super().packet(text, time)
        self._length += len(text)
        self._begin = time if self._begin is None else self._begin

    def _is_full(self, length: int, time: int) -> bool:
        if self._begin is None:
            return False
        is_long = self._most_bytes is not None and self._length + length > self._most_bytes
        return is_long or self._most_time is not None and time >= self._begin + self._most_time

    def _begin_next(self) -> None:
        """Begins the next file with the headers that packets need. If it cannot be opened, the current file stays in use."""
        following, last = self._opened(), self._file
        self._file = following
        try:
            last.close()
            self._write(b"".join(self._front))
        except BaseException:
            self._has_failed = True
            last.close()
            raise
        self._length, self._begin = sum(map(len, self._front)), None


def _emptied(name: Name) -> Any:
    """Opens a file for writing, and empties it. It raises a ValueError, and leaves the file as it is, if a capture reads it."""
    _reading.check(name)
    return _open(name, "wb")


def limits_of(file: Any, append: bool, max_bytes: Optional[int], max_seconds: Optional[float]) -> Tuple[Optional[int], Optional[int]]:
    """Checks the limits of a Writer's files. Returns the most bytes of a file, and the most nanoseconds from its first packet to the
    next file, or None."""
    is_numbered = max_bytes is not None or max_seconds is not None
    append = _arguments.truth("append", append)
    if (append or is_numbered) and not _arguments.is_name(file):
        raise _arguments.wrong_type("file", file, "the name of a file if append, max_bytes or max_seconds is given")
    if append and is_numbered:
        raise ValueError("append does not work with max_bytes or max_seconds")
    most_bytes = None if max_bytes is None else _arguments.whole("max_bytes", max_bytes, 1)
    most_time = None if max_seconds is None else _arguments.nanoseconds("max_seconds", max_seconds)
    if most_time is not None and most_time <= 0:
        raise ValueError(f"max_seconds is {max_seconds}, and must be above 0")
    return most_bytes, most_time


def output_of(file: Any, most_bytes: Optional[int], most_time: Optional[int]) -> Output:
    """Returns numbered files if there is a limit, and otherwise the one file."""
    if most_bytes is not None or most_time is not None:
        return Numbered(file, most_bytes, most_time)
    if _arguments.is_name(file):
        return Output(_emptied(file), True)
    return Output(_arguments.stream("file", file, ("write",), "a name, or an object that has `write`"), False)
