"""Opens captures of either format."""

import os
import stat
import weakref
from builtins import open as _open
from typing import Any, Callable, Dict, Literal, Optional, Tuple, Union, overload

from . import _arguments, _reading
from ._as_is import CaptureAsIs
from ._blocks import BlockCapture
from ._blocks_as_is import BlockCaptureAsIs
from ._capture import Capture
from ._compressed import Decompressed, decompressor
from ._source import Data, File, Memory, Source, Stretch
from ._streams import Growing, Stream
from ._windows import Window

Name = Union[str, bytes, "os.PathLike[Any]"]

# The type of a section header, with which every PcapNg capture begins.
_SECTION = b"\x0a\x0d\x0d\x0a"


@overload
def parse(data: Data, *, strict: Literal[True] = True, gaps: bool = False) -> Union[Capture, BlockCapture]: ...
@overload
def parse(data: Data, *, strict: Literal[False], gaps: bool = False) -> Union[CaptureAsIs, BlockCaptureAsIs]: ...
@overload
def parse(data: Data, *, strict: bool, gaps: bool = False) -> Union[Capture, BlockCapture]: ...


def parse(data: Data, *, strict: bool = True, gaps: bool = False) -> Union[Capture, BlockCapture]:
    """Returns the capture that the bytes in `data` are. `data` must not change while the capture is in use. Closing the capture
    does not close a mapping that the caller gave.

    With `strict=False` reading is lenient. The capture returns malformed packets too, and each packet has `flaws`: the rules that
    it breaks, or for PcapNg each a `Flaw`. After corrupt bytes it goes on with the packets that follow them, and it skips a truncated
    end. With `gaps=True` a loop returns each part that it skips, as a `Gap` between the packets. Otherwise each is a `CaptureWarning`.

    Bytes that gzip, bzip2, xz, zstd or lz4 compressed are decompressed. The capture is then a stream, whose packets come only
    once.

    It raises `Incomplete` if the header is truncated, `Invalid` if it is malformed, and a ValueError for `gaps=True` without
    `strict=False`.

        >>> pcapfile.parse(open("capture.pcap", "rb").read())
        <pcap capture, 138 bytes>
    """
    return capture_of(Memory(data), strict=strict, gaps=gaps)


@overload
def open(
    file: Union[Name, int, Any], *, strict: Literal[True] = True, gaps: bool = False, follow: bool = False
) -> Union[Capture, BlockCapture]: ...
@overload
def open(
    file: Union[Name, int, Any], *, strict: Literal[False], gaps: bool = False, follow: bool = False
) -> Union[CaptureAsIs, BlockCaptureAsIs]: ...
@overload
def open(file: Union[Name, int, Any], *, strict: bool, gaps: bool = False, follow: bool = False) -> Union[Capture, BlockCapture]: ...


def open(
    file: Union[Name, int, Any], *, strict: bool = True, gaps: bool = False, follow: bool = False
) -> Union[Capture, BlockCapture]:
    """Opens a capture in a file, or reads one from a stream.

    `file` is the name of a file, the number of a descriptor, or an object that has `readinto` or `read`. Such objects are open
    files, pipes, and a socket's `makefile("rb")`. `strict` and `gaps` have the meanings that they have for `parse`.

    The package reads a regular file while the program asks for packets, and a program can iterate over it again. Everything else
    is a stream. The package reads it piece by piece, in memory that does not grow with the capture, and a program can iterate
    over it once. Closing the capture closes the stream. If gzip, bzip2, xz, zstd or lz4 compressed a file, the capture is a
    stream too.

    If a non-blocking stream has no bytes yet, reading raises a BlockingIOError. The same call or loop later goes on without
    losing bytes. A non-blocking named pipe or device must be given as an object, since another opening of it may get the same
    number. For its number the call raises a ValueError, reads nothing, and leaves it open.

    With `follow=True` the capture is a file by its name that another process writes. At the end of the file, reading waits until
    it grows, so the capture ends only when another thread closes it. If the file becomes shorter, reading raises an OSError.

    It raises an OSError if the file cannot be read, `Incomplete` if the header is truncated, and `Invalid` if the header is
    malformed.

        >>> with pcapfile.open("capture.pcap") as capture:
        ...     for packet in capture:
        ...         print(packet.time, packet.length)
        1335958313.15263 98
    """
    if follow:
        if not _arguments.is_name(file):
            raise _arguments.wrong_type("file", file, "the name of a file if follow=True is given")
        file = Growing(file)
    if isinstance(file, int):
        return _of_descriptor(file, strict, gaps)
    if not _arguments.is_name(file):
        wanted = "a name, the number of a descriptor, or an object with `readinto` or `read`"
        return _of_stream(_arguments.stream("file", file, ("readinto", "read"), wanted), strict, gaps)
    stream = _open(file, "rb", buffering=0)
    _reading.begin(stream)
    status = os.fstat(stream.fileno())
    try:
        if stat.S_ISREG(status.st_mode) and status.st_size > 0:
            return capture_of(File(stream), strict=strict, gaps=gaps)
        return capture_of(Stream(stream), strict=strict, gaps=gaps)
    except BaseException:
        stream.close()
        raise


# The streams that had too few bytes to show their format, and the bytes that were read from each.
_BEGUN: "weakref.WeakKeyDictionary[Any, bytes]" = weakref.WeakKeyDictionary()

# The same of sockets and of pipes without a name, by the number of the descriptor, and by the device and number of the file.
_BEGUN_BY_NUMBER: Dict[Tuple[int, int, int], bytes] = {}


def _decompressed(made: Callable[[Any], Any], source: Source) -> Stream:
    """Returns a stream of the decompressed bytes of a source. Closing it closes the source."""
    if isinstance(source, Stream):
        return Stream(Decompressed(made, bytes(source.data), source.into, source.close))
    return Stream(Decompressed(made, b"", source.raw().readinto, source.close))


def _of_descriptor(number: int, strict: bool, gaps: bool) -> Union[Capture, BlockCapture]:
    """Returns the capture in a descriptor, which belongs to the capture then. If the descriptor has no bytes yet, it stays open, and
    the same call goes on with the bytes that this one read. After any other error it is closed. It raises a ValueError, and leaves
    the descriptor as it is, if the same call could not tell it from another opening of the file."""
    lent = _open(number, "rb", buffering=0, closefd=False)
    status = os.fstat(number)
    if not (stat.S_ISREG(status.st_mode) or os.get_blocking(number) or _is_opened_once(status)):
        wanted = f"give an object, for example os.fdopen({number}, 'rb', buffering=0)"
        raise ValueError(f"file is {number}, the descriptor of a non-blocking named pipe or device; {wanted}")
    place = number, status.st_dev, status.st_ino
    begun = Stream(lent, _BEGUN_BY_NUMBER.pop(place, b""))
    try:
        capture = capture_of(begun, strict=strict, gaps=gaps)
    except BlockingIOError:
        _BEGUN_BY_NUMBER[place] = bytes(begun.data)
        raise
    except BaseException:
        os.close(number)
        raise
    own = _open(number, "rb", buffering=0)
    _reading.begin(own)
    begun.own(own)
    return capture


def _is_opened_once(status: os.stat_result) -> bool:
    """Returns True for a socket, and for a pipe without a name: no later one gets the same device and number. All pipes without a
    name are on one device, and a named pipe is on that of its folder."""
    if not stat.S_ISFIFO(status.st_mode):
        return stat.S_ISSOCK(status.st_mode)
    ends = os.pipe()
    try:
        return status.st_dev == os.fstat(ends[0]).st_dev
    finally:
        for end in ends:
            os.close(end)


def _of_stream(stream: Any, strict: bool, gaps: bool) -> Union[Capture, BlockCapture]:
    """Returns the capture in a stream. It goes on with the bytes that an earlier, interrupted call read."""
    begun = Stream(stream, _BEGUN.pop(stream, b"") if _is_remembered(stream) else b"")
    try:
        return capture_of(begun, strict=strict, gaps=gaps)
    except BlockingIOError:
        if _is_remembered(stream):
            _BEGUN[stream] = bytes(begun.data)
        raise


def _is_remembered(stream: Any) -> bool:
    try:
        weakref.ref(stream)
        hash(stream)
    except TypeError:
        return False
    return True


def in_file(path: Name, stretch: Optional[Stretch] = None) -> Union[Capture, BlockCapture]:
    """Returns the capture in a regular file, or a stretch of it. It raises a ValueError for other and for compressed files."""
    stream = _open(path, "rb", buffering=0)
    _reading.begin(stream)
    try:
        if not stat.S_ISREG(os.fstat(stream.fileno()).st_mode):
            raise ValueError("only a capture in a regular file has parts")
        capture = capture_of(File(stream), stretch)
        if not capture.is_stream:
            return capture
        raise ValueError("a compressed capture has no parts")
    except BaseException:
        stream.close()
        raise


def capture_of(
    source: Source, stretch: Optional[Stretch] = None, strict: bool = True, gaps: bool = False
) -> Union[Capture, BlockCapture]:
    if gaps and strict:
        raise ValueError("gaps=True needs strict=False")
    window = source.window()
    front = _front(window)
    made = decompressor(front)
    if made is not None:
        source = window = _decompressed(made, source)
        front = _front(window)
    if front != _SECTION:
        return Capture(source, window, stretch) if strict else CaptureAsIs(source, window, stretch, gaps)
    return BlockCapture(source, window, stretch) if strict else BlockCaptureAsIs(source, window, stretch, gaps)


def _front(window: Window) -> bytes:
    """Returns the first four bytes of a capture, or fewer if the capture is shorter."""
    while window.left.len < 4 and window.more(4 - window.left.len):
        pass
    return bytes(window.data[:4])
