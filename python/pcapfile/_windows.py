"""Windows: the bytes of a capture that a walk has, in memory or in a file that is read piece by piece.

Every walk has a window with its own view of the bytes, and for a file its own descriptor. Only the walk releases them. So one
thread may close a capture while another one walks over it: the walk then ends with a ValueError."""

import mmap
import os
import sys
from typing import TYPE_CHECKING, Any, List

from . import _library
from ._errors import Incomplete

if TYPE_CHECKING:
    from ._source import File

# How many bytes one read of a file or a stream asks for, unless a packet needs more. So many fit the processor's cache.
CHUNK = 1 << 18

# How many bytes the first read of a file asks for if packets refer to them. This is enough for a program that wants one block or
# packet.
FIRST = 1 << 14

# The alignment of memory pages. The system copies bytes faster if they have the same place in a page as in the file.
PAGE = 4096

# How many buffers a walk keeps for reading, and whether it can find out that a buffer has no views.
_ROOMS = 4
_TELLS_VIEWS = sys.implementation.name == "cpython"


class Window:
    """Bytes of a capture in memory. `data` are all bytes; they begin at the address `start`, and at offset `base` of the capture.
    `left` are the bytes that the walk has not taken, as a struct of the library. `open` records whether the capture is open."""

    def __init__(self, open: Any, data: memoryview, base: int = 0) -> None:
        self.open = open
        self.left = _library.Bytes()
        self._show(data, base)

    def _show(self, data: memoryview, base: int) -> None:
        self.data, self.base = data, base
        self.start = _library.address_of(data)
        self.left.ptr, self.left.len = self.start, len(data)

    def check(self) -> None:
        """Raises a ValueError if the capture is closed."""
        if self.open.is_closed:
            raise ValueError("the capture is closed")

    @property
    def offset(self) -> int:
        """How many bytes of the capture the walk has taken. It raises a ValueError for a closed capture, before the library reads
        its bytes."""
        self.check()
        return self.base + len(self.data) - self.left.len

    def more(self, missing: int) -> bool:
        """Reads more bytes after those that are left, of which at least `missing` are needed. Returns False if there are none."""
        return False


class Piece(Window):
    """A window over the bytes of a file up to the offset `end`, which were read at once."""

    def __init__(self, open: Any, data: memoryview, begin: int, end: int) -> None:
        super().__init__(open, data, begin)
        self._end = end

    def more(self, missing: int) -> bool:
        """Returns False. It raises `Incomplete` if the file has become shorter and no bytes are left."""
        if self.left.len == 0 and self.offset < self._end:
            raise Incomplete(self._end - self.offset, self.offset)
        return False


class Descriptor:
    """A duplicate of a file's descriptor. Another thread may close the file, and open another one under the original number."""

    def __init__(self, number: int) -> None:
        self._number = os.dup(number)

    def __del__(self) -> None:
        if hasattr(self, "_number"):
            os.close(self._number)

    def read(self, length: int, place: int) -> bytes:
        """Reads at most `length` bytes of the file from an offset on."""
        return os.pread(self._number, length, place)

    def read_into(self, room: memoryview, place: int) -> int:
        """Reads bytes of the file from an offset into a buffer, and returns how many they are."""
        if hasattr(os, "preadv"):
            return os.preadv(self._number, [room], place)
        data = os.pread(self._number, len(room), place)
        room[: len(data)] = data
        return len(data)


def room_of(size: int) -> memoryview:
    """Returns a buffer of whole memory pages."""
    return memoryview(mmap.mmap(-1, size))


class Rooms:
    """The buffers that packets refer to. It uses a buffer again when no packet refers to it any more."""

    def __init__(self) -> None:
        self._rooms: List[bytearray] = []

    def free(self, size: int) -> bytearray:
        if size > CHUNK or not _TELLS_VIEWS:
            return bytearray(size)
        for room in self._rooms:
            try:
                # Python refuses to resize a buffer that has views. Counting references would not do: since 3.14 some are not
                # counted.
                room.append(0)
                room.pop()
                return room
            except BufferError:
                pass
        made = bytearray(CHUNK)
        if len(self._rooms) < _ROOMS:
            self._rooms.append(made)
        return made


class _OfFile(Window):
    """A window over the bytes of a file between two offsets, which it reads piece by piece."""

    def __init__(self, file: "File", begin: int, end: int, data: memoryview) -> None:
        # The walk keeps the file open, so that no Writer empties it.
        self._file = file
        self._descriptor, self._next, self._end = file.descriptor(), begin, end
        super().__init__(file.open, data, begin)
        self.left.len = 0

    @property
    def offset(self) -> int:
        self.check()
        return self._next - self.left.len

    def _read(self, room: memoryview) -> int:
        """Reads the next bytes into a buffer. It raises `Incomplete` if the file has become shorter and no bytes are left."""
        self.check()
        wanted = room[: self._end - self._next]
        count = self._descriptor.read_into(wanted, self._next) if len(wanted) > 0 else 0
        if count == 0 and self._next < self._end and self.left.len == 0:
            raise Incomplete(self._end - self._next, self._next)
        return count


class Lent(_OfFile):
    """A window of a file whose packets refer to its bytes: it keeps a buffer as long as packets refer to it."""

    def __init__(self, file: "File", begin: int, end: int) -> None:
        self._rooms, self._most = Rooms(), FIRST
        super().__init__(file, begin, end, memoryview(b""))

    def more(self, missing: int) -> bool:
        place, held = self._next, self.data[len(self.data) - self.left.len :]
        if place >= self._end:
            return False
        # It asks for a chunk, or for as many bytes as it already has. So a corrupt length takes no memory for bytes that do
        # not exist.
        wanted = max(min(self._most, CHUNK - len(held)), min(missing, max(len(held), CHUNK)))
        view = memoryview(self._rooms.free(len(held) + min(wanted, self._end - place)))
        view[: len(held)] = held
        count = self._read(view[len(held) : len(held) + wanted])
        if count == 0:
            return False
        self._show(view[: len(held) + count].toreadonly(), place - len(held))
        self._next, self._most = place + count, CHUNK
        return True


class Pieces(_OfFile):
    """A window of a file that reads into the same buffer again and again, so packets must not refer to its bytes."""

    def __init__(self, file: "File", begin: int, end: int, room: memoryview) -> None:
        super().__init__(file, begin, end, room)

    def more(self, missing: int) -> bool:
        left, room, place = self.left, self.data, self._next
        held, begin = left.len, left.ptr - self.start
        if 2 * held > len(room):
            self._show(room_of(2 * len(room)), 0)
        front = (place - held) % PAGE
        behind = front + held
        self.data[front:behind] = room[begin : begin + held]
        left.ptr, left.len = self.start + front, held
        count = self._read(self.data[behind:])
        left.len = held + count
        self._next = place + count
        return count > 0
