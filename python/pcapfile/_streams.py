"""Streams of bytes, which can be read once, and files that grow."""

import io
import os
import threading
import time
from typing import Any, Callable, Iterator, Optional

from . import _reading
from ._extension import Open
from ._windows import CHUNK, Rooms, Window

# How many seconds a reader waits before it looks again at a file that has not grown.
_PAUSE = 0.1


class Stream(Window):
    """The bytes of a stream, which can be read once. Before it reads more, it copies the bytes that are left to a new buffer, so
    that bytes which packets refer to stay the same.

    A stream has one walk: a second loop of the same kind goes on with it. `front` has bytes that were already read from the
    stream."""

    def __init__(self, stream: Any, front: bytes = b"") -> None:
        super().__init__(Open(), memoryview(front))
        self._stream, self.into, self._rooms = stream, _reading_into(stream), Rooms()
        self._lock = threading.Lock()
        self._kind: Any = None
        self._walk: Optional[Iterator[Any]] = None

    def own(self, stream: Any) -> None:
        """Closes this stream at the end, instead of the one that it reads."""
        self._stream = stream

    def window(self) -> Window:
        return self

    def walk(self, kind: Any, begun: Callable[[], Iterator[Any]]) -> Iterator[Any]:
        """Returns the walk over the stream if it is of this kind, or begins one if there is none. It raises a ValueError during a
        walk of another kind."""
        with self._lock:
            if self._walk is None or _is_over(self._walk):
                self._kind, self._walk = kind, begun()
            elif self._kind != kind:
                raise ValueError("another kind of loop reads this stream, and its packets would be lost")
            return self._walk

    def more(self, missing: int) -> bool:
        self.check()
        held = self.data[len(self.data) - self.left.len :]
        # It asks for a chunk, or for as many bytes as it already has. So a corrupt length takes no memory for bytes that never
        # come.
        view = memoryview(self._rooms.free(len(held) + max(CHUNK - len(held), min(missing, max(len(held), CHUNK)))))
        count = self.into(view[len(held) :])
        if count is None:
            raise BlockingIOError("the stream has no bytes yet")
        if count == 0:
            return False
        view[: len(held)] = held
        self._show(view[: len(held) + count].toreadonly(), self.offset)
        return True

    def close(self) -> None:
        self.open.close()
        self._stream.close()


class Growing:
    """A file that another process writes. At its end, a read waits until the file has grown, so it never ends by itself."""

    def __init__(self, name: Any) -> None:
        self._file = open(name, "rb", buffering=0)
        _reading.begin(self._file)

    def readinto(self, room: memoryview) -> int:
        while True:
            count = self._file.readinto(room)  # raises a ValueError if the file is closed
            if count:
                return int(count)
            if os.fstat(self._file.fileno()).st_size < self._file.tell():
                raise OSError("the file has become shorter")
            time.sleep(_PAUSE)

    def close(self) -> None:
        self._file.close()


def _is_over(walk: Any) -> bool:
    """Returns True if an iterator has ended. It is a generator or an iterator of the extension."""
    return bool(walk.is_over) if hasattr(walk, "is_over") else walk.gi_frame is None


def _reading_into(stream: Any) -> Callable[[memoryview], Optional[int]]:
    """Returns a function that reads from the stream into a view, without waiting for more than the stream has. It returns the
    number of bytes, or None if some may come later."""
    for name in ("readinto1", "readinto"):
        if hasattr(stream, name):
            into: Callable[[memoryview], Optional[int]] = getattr(stream, name)
            return _after_held(stream, into) if isinstance(stream, io.BufferedReader) else into
    read = getattr(stream, "read1", None) or stream.read

    def copied(view: memoryview) -> Optional[int]:
        data = read(len(view))
        if data is None:
            return None
        view[: len(data)] = data
        return len(data)

    return copied


def _after_held(stream: io.BufferedReader, into: Callable[[memoryview], Optional[int]]) -> Callable[[memoryview], Optional[int]]:
    """Returns such a function for a buffered stream. Given more room, `readinto1` waits for more than the buffered bytes, so the
    first call returns only those."""
    is_first = True

    def reading(view: memoryview) -> Optional[int]:
        nonlocal is_first
        held = stream.read1(len(view)) if is_first else b""
        is_first = False
        view[: len(held)] = held
        # An empty buffer may mean that no bytes have come yet. Only the other function distinguishes that from the end.
        return len(held) or into(view)

    return reading
