"""Compressed captures, which the package recognizes by their first bytes."""

import io
import zlib
from typing import Any, Callable, Dict, Optional

from ._errors import CaptureError

# The library's status for bytes that end too early.
_INCOMPLETE = 1


def _gzip(stream: Any) -> Any:
    import gzip

    return gzip.GzipFile(fileobj=stream, mode="rb")


def _bzip2(stream: Any) -> Any:
    import bz2

    return bz2.BZ2File(stream, "rb")


def _xz(stream: Any) -> Any:
    import lzma

    return lzma.LZMAFile(stream, "rb")


def _zstd(stream: Any) -> Any:
    try:
        from compression import zstd  # since Python 3.14
    except ImportError:
        pass
    else:
        return zstd.ZstdFile(stream, "rb")
    try:
        import zstandard
    except ImportError as error:
        said = "reading a capture compressed by zstd needs zstandard: 'pip install zstandard', or Debian's python3-zstandard"
        raise ImportError(said) from error
    return zstandard.ZstdDecompressor().stream_reader(stream, read_across_frames=True)


def _lz4(stream: Any) -> Any:
    try:
        import lz4.frame
    except ImportError as error:
        raise ImportError("reading a capture compressed by lz4 needs lz4: 'pip install lz4', or Debian's python3-lz4") from error
    return lz4.frame.LZ4FrameFile(stream, "rb")


# The first bytes of each compressed format. No capture begins with them: they are neither a magic number nor the type of a
# section header.
_MAGICS: Dict[bytes, Callable[[Any], Any]] = {
    b"\x1f\x8b": _gzip,
    b"BZh": _bzip2,
    b"\xfd7zXZ\0": _xz,
    b"\x28\xb5\x2f\xfd": _zstd,
    b"\x04\x22\x4d\x18": _lz4,
}


def decompressor(front: bytes) -> Optional[Callable[[Any], Any]]:
    """Returns the function that decompresses a stream with these first bytes, or None if it is not compressed. `front` has four
    bytes, or fewer if there are no more."""
    return next((made for magic, made in _MAGICS.items() if front[:4] == magic[:4] or front.startswith(magic)), None)


class _Behind(io.RawIOBase):
    """A stream, with bytes that were already read from it put back at its front."""

    def __init__(self, front: bytes, into: Callable[[memoryview], Optional[int]]) -> None:
        self._front, self._into = memoryview(front), into

    def readable(self) -> bool:
        return True

    def readinto(self, room: Any) -> Optional[int]:
        view = memoryview(room).cast("B")
        if len(self._front) == 0:
            count = self._into(view)
            if count is None:
                raise ValueError("a compressed stream must be blocking, and this one is not")
            return count
        count = min(len(view), len(self._front))
        view[:count], self._front = self._front[:count], self._front[count:]
        return count


class Decompressed:
    """The decompressed bytes of a stream. If the compressed bytes are damaged or end early, reading raises a CaptureError after
    all bytes that could be decompressed. Its offset counts decompressed bytes."""

    def __init__(
        self, made: Callable[[Any], Any], front: bytes, into: Callable[[memoryview], Optional[int]], close: Callable[[], None]
    ) -> None:
        inner = made(_Behind(front, into))
        self._inner, self._close, self._given = inner, close, 0
        self._read = inner.read1 if hasattr(inner, "read1") else inner.read

    def read(self, count: int) -> bytes:
        try:
            data: bytes = self._read(count)
        except EOFError as error:
            raise CaptureError("the compressed bytes end early", self._given, _INCOMPLETE) from error
        except (OSError, zlib.error, *_damages()) as error:
            if isinstance(error, OSError) and error.errno is not None:
                raise
            raise CaptureError(f"the compressed bytes are damaged: {error}", self._given, _INCOMPLETE) from error
        self._given += len(data)
        return data

    def close(self) -> None:
        self._inner.close()
        self._close()


def _damages() -> Any:
    """Returns the classes of errors of the decompressors that are loaded."""
    import sys

    modules = (("lzma", "LZMAError"), ("zstandard", "ZstdError"), ("compression.zstd", "ZstdError"))
    return tuple(getattr(sys.modules[module], name) for module, name in modules if module in sys.modules)
