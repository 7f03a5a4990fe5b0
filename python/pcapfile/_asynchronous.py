"""Captures whose packets an asyncio program awaits."""

import asyncio
from builtins import open as _open
from typing import Any, AsyncIterator, Optional, Union

from . import _reading
from ._arguments import is_name, stream
from ._blocks import BlockCapture
from ._capture import Capture
from ._open import Name, open as _open_capture
from ._windows import CHUNK


class _Fed:
    """A stream that the program fills. If it is empty, reading returns None instead of waiting."""

    def __init__(self) -> None:
        self._data, self._has_ended = memoryview(b""), False

    def put(self, data: bytes) -> None:
        """Puts bytes into the stream after the earlier bytes have been read. Empty `data` ends the stream."""
        self._data, self._has_ended = memoryview(data), not data

    def readinto(self, room: memoryview) -> Optional[int]:
        count = min(len(room), len(self._data))
        if count == 0:
            return 0 if self._has_ended else None
        room[:count], self._data = self._data[:count], self._data[count:]
        return count

    def close(self) -> None:
        self.put(b"")


class AsyncCapture:
    """A capture for `async for`, which returns each packet as soon as its bytes have arrived. `capture` is the capture itself: it
    has the format, and the interfaces that have arrived so far. `async with` closes it at the end.

        >>> async def lengths(name):
        ...     async with await pcapfile.aopen(name) as capture:
        ...         return [packet.length async for packet in capture]
        >>> asyncio.run(lengths("capture.pcap"))
        [98]
    """

    def __init__(self, reader: Any, fed: _Fed, capture: Union[Capture, BlockCapture]) -> None:
        self._reader, self._fed, self.capture = reader, fed, capture

    async def __aiter__(self) -> AsyncIterator[Any]:
        while True:
            try:
                for packet in self.capture:
                    yield packet
                return
            except BlockingIOError:
                self._fed.put(await self._reader.read(CHUNK))

    async def __aenter__(self) -> "AsyncCapture":
        return self

    async def __aexit__(self, *_: object) -> None:
        self.close()

    def close(self) -> None:
        """Closes the capture, and the file if `aopen` opened it. A reader that the caller gave stays open.

            >>> async def opened_and_closed(name):
            ...     (await pcapfile.aopen(name)).close()
            >>> asyncio.run(opened_and_closed("capture.pcap"))
        """
        self.capture.close()
        if isinstance(self._reader, _InThread):
            self._reader.close()


class _InThread:
    """A file that the threads of asyncio's executor read."""

    def __init__(self, name: Name) -> None:
        self._file = _open(name, "rb", buffering=0)
        _reading.begin(self._file)
        self.close = self._file.close

    async def read(self, count: int) -> bytes:
        return await asyncio.get_running_loop().run_in_executor(None, self._file.read, count)


async def aopen(source: Union[Name, Any], *, strict: bool = True, gaps: bool = False) -> AsyncCapture:
    """Opens a capture for asyncio. `source` is the name of a file, or an object with an asynchronous `read`, for example
    asyncio's StreamReader. `strict` and `gaps` have the meanings that they have for `parse`.

    The call returns as soon as the header has arrived. It raises a `CaptureError` if the header is truncated or malformed. The
    caller must decompress a compressed stream first.

        >>> async def formats(name):
        ...     async with await pcapfile.aopen(name) as capture:
        ...         return capture.capture.format
        >>> asyncio.run(formats("options.pcapng"))
        'pcapng'
    """
    wanted = "a name, or an object with an asynchronous `read`"
    reader = _InThread(source) if is_name(source) else stream("source", source, ("read",), wanted)
    fed = _Fed()
    try:
        while True:
            try:
                return AsyncCapture(reader, fed, _open_capture(fed, strict=strict, gaps=gaps))
            except BlockingIOError:
                fed.put(await reader.read(CHUNK))
    except BaseException:
        if isinstance(reader, _InThread):
            reader.close()
        raise
