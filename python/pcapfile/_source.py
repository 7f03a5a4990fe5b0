"""The sources of a capture's bytes: memory, a file that is read piece by piece, or a stream."""

import io
import mmap
import os
import threading
from typing import Any, BinaryIO, NamedTuple, Optional, Tuple, Union

from . import _arguments
from ._extension import Open
from ._streams import Stream
from ._windows import Descriptor, Lent, Piece, Pieces, Window, room_of

Data = Union[bytes, bytearray, memoryview, mmap.mmap]

# How many bytes one read of a file asks for if packets do not refer to them.
PIECE = 1 << 18

# The same with several threads: each read, and each walk over a piece, acquires the interpreter's lock once.
PIECE_OF_MANY = 1 << 20

# The same if numpy decodes the packets.
PIECE_TO_DECODE = 1 << 22

# How many packets or blocks in a row a guessed beginning of a stretch must have.
IN_A_ROW = 4


class Stretch(NamedTuple):
    """Whole packets or blocks of a capture between two offsets; the last stretch also has the rest of the capture. For PcapNg it
    has the offsets of the section header and of the interfaces that the blocks depend on."""

    begin: int
    end: int
    header: int = 0
    interfaces: Tuple[int, ...] = ()


class Memory:
    """Bytes in memory. A walk begins at their start, or at that of a stretch."""

    def __init__(self, data: Data) -> None:
        self.open = Open()
        self._bytes = _arguments.bytes_in("data", data)

    def __len__(self) -> int:
        return len(self._bytes)

    def view(self, begin: int, end: int) -> memoryview:
        """Returns the bytes between two offsets."""
        if self.open.is_closed:
            raise ValueError("the capture is closed")
        return self._bytes[begin:end]

    def window(self) -> Window:
        return self.between(0, len(self))

    def between(self, begin: int, end: Optional[int] = None) -> Window:
        """Returns a window over the bytes between two offsets, or from an offset on. Packets may refer to its bytes."""
        if self.open.is_closed:
            raise ValueError("the capture is closed")
        data = self._bytes if end is None or end >= len(self) else self._bytes[:end]
        window = Window(self.open, memoryview(data))
        window.left.ptr, window.left.len = window.start + begin, len(data) - begin
        return window

    def read(self, begin: int, end: int, room: Optional[memoryview] = None) -> Window:
        """Returns a window over the bytes between two offsets. Packets must not refer to its bytes."""
        return self.between(begin, end)

    def piece(self, begin: int, end: int) -> Window:
        """Returns a window over the few bytes between two offsets."""
        return self.between(begin, end)

    def raw(self) -> Any:
        """Returns the bytes as a stream, from their start."""
        return io.BytesIO(self._bytes)

    def close(self) -> None:
        self.open.close()
        self._bytes.release()


class File:
    """A regular file. A walk begins at its start, or at that of a stretch. It reads no more bytes than the file had when it was
    opened. If the file is shorter by then, the walk ends with `Incomplete`."""

    def __init__(self, stream: BinaryIO) -> None:
        self.open = Open()
        self._stream, self._length = stream, os.fstat(stream.fileno()).st_size
        self._lock = threading.Lock()
        # The descriptor of `view`. Duplicating one takes as long as reading a packet does.
        self._own: Optional[Descriptor] = None

    def __len__(self) -> int:
        return self._length

    def descriptor(self) -> Descriptor:
        with self._lock:
            if self.open.is_closed:
                raise ValueError("the capture is closed")
            return Descriptor(self._stream.fileno())

    def view(self, begin: int, end: int) -> memoryview:
        """Returns the bytes between two offsets, or fewer if the file has become shorter. It reads them at once."""
        own = self._own  # another thread may close the file
        if own is None:
            own = self._own = self.descriptor()
            if self.open.is_closed:
                self._own = None
        return memoryview(own.read(end - begin, begin))

    def window(self) -> Window:
        return self.between(0)

    def between(self, begin: int, end: Optional[int] = None) -> Window:
        """Returns a window over the bytes between two offsets, or from an offset on. Packets may refer to its bytes."""
        return Lent(self, begin, len(self) if end is None else end)

    def read(self, begin: int, end: int, room: Optional[memoryview] = None) -> Window:
        """Returns a window over the bytes between two offsets. Packets must not refer to its bytes. It reads into `room`, if the
        caller gives one."""
        return Pieces(self, begin, end, room_of(PIECE) if room is None else room)

    def piece(self, begin: int, end: int) -> Window:
        """Returns a window over the few bytes between two offsets, which it reads at once."""
        return Piece(self.open, self.view(begin, end), begin, end)

    def mapped(self) -> Memory:
        """Returns the whole file as a mapping, for functions that need it in memory. The file must not become shorter meanwhile."""
        with self._lock:
            if self.open.is_closed:
                raise ValueError("the capture is closed")
            return Memory(mmap.mmap(self._stream.fileno(), self._length, access=mmap.ACCESS_READ) if self._length else b"")

    def raw(self) -> Any:
        """Returns the file as a stream, from its start. Nothing else moves the file's position."""
        return self._stream

    def close(self) -> None:
        with self._lock:
            self.open.close()
            self._own = None
            self._stream.close()


Source = Union[Memory, File, Stream]
