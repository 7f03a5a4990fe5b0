"""Chooses packets by filter expressions of tcpdump, which libpcap compiles if it is installed, and by times."""

import ctypes
import datetime
import struct
import tempfile
import threading
from fractions import Fraction
from typing import Any, Dict, Optional, Protocol, Tuple, Union

from . import _arguments

# The most bytes of a packet that an expression examines.
_SNAPLEN = 262144

# The largest time in nanoseconds that 64 bits hold.
_LATE = 2**63 - 1

# The unit to which a float is rounded, in nanoseconds. Today's times as floats are about 240 nanoseconds apart.
_MICROSECOND = 1000

# The units of datetime64 that have a fixed length, in nanoseconds. The length of years and months varies.
_UNITS = {
    "W": Fraction(604800 * 10**9),
    "D": Fraction(86400 * 10**9),
    "h": Fraction(3600 * 10**9),
    "m": Fraction(60 * 10**9),
    "s": Fraction(10**9),
    "ms": Fraction(10**6),
    "us": Fraction(10**3),
    "ns": Fraction(1),
    "ps": Fraction(1, 10**3),
    "fs": Fraction(1, 10**6),
    "as": Fraction(1, 10**9),
}


class _Program(ctypes.Structure):
    _fields_ = [("length", ctypes.c_uint), ("instructions", ctypes.c_void_p)]


def _load() -> Any:
    import ctypes.util

    try:
        pcap = ctypes.CDLL(ctypes.util.find_library("pcap") or "libpcap.so.0.8")
    except OSError as error:
        raise ImportError("filter expressions need libpcap, for example Debian's libpcap0.8") from error
    pcap.pcap_open_offline.restype = ctypes.c_void_p
    pcap.pcap_open_offline.argtypes = [ctypes.c_char_p, ctypes.c_char_p]
    pcap.pcap_compile.argtypes = [ctypes.c_void_p, ctypes.POINTER(_Program), ctypes.c_char_p, ctypes.c_int, ctypes.c_uint32]
    pcap.pcap_geterr.restype, pcap.pcap_geterr.argtypes = ctypes.c_char_p, [ctypes.c_void_p]
    pcap.pcap_close.restype, pcap.pcap_close.argtypes = None, [ctypes.c_void_p]
    pcap.pcap_freecode.restype, pcap.pcap_freecode.argtypes = None, [ctypes.POINTER(_Program)]
    pcap.bpf_filter.restype = ctypes.c_uint
    pcap.bpf_filter.argtypes = [ctypes.c_void_p, ctypes.c_void_p, ctypes.c_uint, ctypes.c_uint]
    return pcap


class Datetime64(Protocol):
    """A datetime64 of numpy."""

    @property
    def dtype(self) -> Any: ...
    def astype(self, dtype: Any, /) -> Any: ...


Moment = Union[float, datetime.datetime, Datetime64]


def nanoseconds_of(name: str, moment: Optional[Moment]) -> Optional[int]:
    """Returns an argument that is a datetime, or seconds since 1970, as nanoseconds since 1970. It raises a ValueError for a datetime
    without a zone."""
    if moment is None:
        return None
    if getattr(getattr(moment, "dtype", None), "kind", None) == "M":
        return _of_numpy(name, moment)
    if not isinstance(moment, datetime.datetime):
        return _arguments.nanoseconds(name, moment, "a datetime with a zone, a datetime64, or seconds since 1970", _MICROSECOND)
    if moment.tzinfo is None:
        raise ValueError(f"{name} is {moment}, and has no time zone; use for example datetime.timezone.utc")
    since = moment - datetime.datetime(1970, 1, 1, tzinfo=datetime.timezone.utc)
    # A Timestamp of pandas is a datetime, and also counts nanoseconds.
    below = since.microseconds * 1000 + getattr(since, "nanoseconds", 0)
    return (since.days * 86400 + since.seconds) * 1_000_000_000 + below


def _of_numpy(name: str, moment: Any) -> int:
    """Returns a datetime64 of numpy, which has no zone and means UTC, as nanoseconds since 1970."""
    import numpy

    unit, count = numpy.datetime_data(moment.dtype)
    if unit not in _UNITS:
        moment, unit, count = moment.astype("M8[D]"), "D", 1
    units = int(moment.astype("int64"))
    if units == -_LATE - 1:
        raise ValueError(f"{name} is NaT, and must be a time")
    return units * count * _UNITS[unit] // 1


def range_of(since: Optional[int], until: Optional[int]) -> Tuple[int, int]:
    """Returns the range of times from `since` to before `until`, in 64 bits. None means no limit."""
    first, last = (end if time is None else max(-_LATE, min(time, _LATE)) for time, end in ((since, -_LATE), (until, _LATE)))
    return first, last


class Filter:
    """A filter of packets: an expression, which it compiles for each link type that occurs, and a range of times."""

    _pcap: Any = None
    _lock = threading.Lock()

    def __init__(self, expression: Optional[str], since: Optional[Moment] = None, until: Optional[Moment] = None) -> None:
        self._programs: Dict[int, _Program] = {}
        if not isinstance(expression, (str, type(None))):
            raise _arguments.wrong_type("expression", expression, "a text")
        if expression is not None and "\0" in expression:
            raise ValueError(f"expression is {expression!r}, and has a NUL byte, where libpcap would end it")
        if expression is not None and Filter._pcap is None:
            Filter._pcap = _load()
        self.expression = expression
        self._since, self._until = nanoseconds_of("since", since), nanoseconds_of("until", until)

    def told(self) -> Tuple[int, int, int, bool]:
        """Returns what the extension needs: the address of the function that runs a program, the range of times in 64 bits, and
        whether the caller gave a time."""
        run = 0 if self.expression is None else ctypes.cast(self._pcap.bpf_filter, ctypes.c_void_p).value or 0
        return (run, *range_of(self._since, self._until), self._since is not None or self._until is not None)

    def program(self, link: int) -> int:
        """Returns the address of the program for packets of this link type. It raises a ValueError if libpcap cannot compile the
        expression."""
        with self._lock:
            if link not in self._programs:
                self._programs[link] = self._compiled(link)
        return int(self._programs[link].instructions)

    def text(self, link: int) -> str:
        """Returns the program for packets of this link type as `tcpdump -ddd` prints it."""
        self.program(link)
        program = self._programs[link]
        rows = struct.iter_unpack("=HBBI", ctypes.string_at(program.instructions, 8 * program.length))
        return "".join(f"{' '.join(map(str, row))}\n" for row in [(program.length,), *rows])

    def takes(self, packet: Any) -> bool:
        """Returns True if the filter accepts a packet. An expression never accepts a packet whose link type is unknown."""
        _, since, until, has_times = self.told()
        time = packet.time_ns
        if has_times and (time is None or not since <= time < until):
            return False
        if self.expression is None:
            return True
        if packet.link is None:
            return False
        data = bytes(packet.data)
        return bool(self._pcap.bpf_filter(self.program(packet.link), data, packet.original_length, len(data)))

    def _compiled(self, link: int) -> _Program:
        # libpcap has its own numbers for some link types. It translates the number itself when it opens a capture.
        header, program, said = struct.pack("=IHHiIII", 0xA1B2C3D4, 2, 4, 0, 0, _SNAPLEN, link), _Program(), ctypes.create_string_buffer(256)
        with tempfile.NamedTemporaryFile() as file:
            file.write(header)
            file.flush()
            handle = self._pcap.pcap_open_offline(file.name.encode(), said)
        if not handle:
            raise ValueError(f"{self.expression!r}: {said.value.decode(errors='replace')}")
        try:
            if self._pcap.pcap_compile(handle, program, (self.expression or '').encode(), 1, 0xFFFFFFFF) != 0:
                raise ValueError(f"{self.expression!r}: {self._pcap.pcap_geterr(handle).decode(errors='replace')}")
        finally:
            self._pcap.pcap_close(handle)
        return program

    def __del__(self) -> None:
        for program in self._programs.values():
            self._pcap.pcap_freecode(program)
