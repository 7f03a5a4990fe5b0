"""Packets of both formats, and their attributes."""

import datetime as _datetime
import struct
from typing import TYPE_CHECKING, Any, Dict, Iterator, List, NamedTuple, Optional, Protocol, Tuple, final

from . import _library
from ._extension import native
from ._interfaces import Interface
from ._options import Block, Option

_EPOCH = _datetime.datetime(1970, 1, 1, tzinfo=_datetime.timezone.utc)

# The types of blocks whose packets have options, and the type whose packets have neither options nor times.
_WITH_OPTIONS = (6, 2)
SIMPLE_PACKET = 3

# The bytes of a block before the data, in little-endian and big-endian order, each with the magic number of such a section. They
# are the type, the block's length, the interface, both halves of the time, and both lengths.
_HEADS = ((struct.Struct("<7I"), 0x4D3C2B1A), (struct.Struct(">7I"), 0x1A2B3C4D))
_HEAD = 28

# The number of bytes of a block before its body.
_FRAME = 8


class _Shown(Protocol):
    """What the attributes of `Told` use: the fields of a packet, and one another."""

    @property
    def _fields(self) -> Tuple[str, ...]: ...
    @property
    def seconds(self) -> Optional[int]: ...
    @property
    def nanoseconds(self) -> int: ...
    @property
    def original_length(self) -> int: ...
    @property
    def data(self) -> memoryview: ...
    @property
    def offset(self) -> int: ...
    @property
    def link(self) -> Optional[int]: ...
    @property
    def time(self) -> Optional[float]: ...
    @property
    def length(self) -> int: ...
    @property
    def block(self) -> Optional[Block]: ...
    @property
    def _around(self) -> Tuple[memoryview, int]: ...
    def __iter__(self) -> Iterator[Any]: ...


class Told:
    """The attributes of packets of both formats beyond their fields."""

    __slots__ = ()

    @property
    def time(self: "_Shown") -> Optional[float]:
        """The time in seconds since 1970, as a float, or None if the packet has no time. `seconds` and `nanoseconds` are exact.

            >>> packet.time
            1700000000.0
        """
        return None if self.seconds is None else self.seconds + self.nanoseconds / 1e9

    @property
    def time_ns(self: "_Shown") -> Optional[int]:
        """The time in nanoseconds since 1970, or None if the packet has no time.

            >>> packet.time_ns
            1700000000000000000
        """
        return None if self.seconds is None else self.seconds * 1_000_000_000 + self.nanoseconds

    @property
    def datetime(self: "_Shown") -> Optional[_datetime.datetime]:
        """The time as a datetime in UTC, in whole microseconds, or None if the packet has no time. It raises an OverflowError if
        no datetime can represent the time, for example after the year 9999.

            >>> print(packet.datetime)
            2023-11-14 22:13:20+00:00
        """
        if self.seconds is None:
            return None
        return _EPOCH + _datetime.timedelta(seconds=self.seconds, microseconds=self.nanoseconds // 1000)

    @property
    def length(self: "_Shown") -> int:
        """The number of bytes that the capture stores of the packet.

            >>> packet.length, packet.original_length
            (3, 60)
        """
        return len(self.data)

    @property
    def block(self: "_Shown") -> Optional[Block]:
        """The `Block` that a PcapNg packet comes from. It is None for a classic packet, and for a simple packet, which has no
        options.

            >>> packet.block.type
            6
        """
        return _block_of(self)

    @property
    def options(self: "_Shown") -> List[Option]:
        """The options of the packet. A classic packet has none.

            >>> [(option.code, bytes(option.value)) for option in packet.options]
            [(1, b'seen')]
        """
        block = self.block
        return [] if block is None else block.options

    @property
    def comment(self: "_Shown") -> Optional[str]:
        """The first comment on the packet, or None.

            >>> packet.comment
            'seen'
        """
        block = self.block
        return None if block is None else block.comment

    @property
    def _around(self: "_Shown") -> Tuple[memoryview, int]:
        """The buffer that contains the data, and the place at which the data begins in it."""
        around = memoryview(self.data.obj).cast("B")
        return around, _library.place_of(self.data) - _library.place_of(around)

    def _asdict(self: "_Shown") -> Dict[str, Any]:
        return dict(zip(self._fields, self))

    def __bytes__(self: "_Shown") -> bytes:
        return bytes(self.data)

    def __hash__(self: "_Shown") -> int:
        return hash(tuple(bytes(field) if isinstance(field, memoryview) else field for field in self))

    def __repr__(self: "_Shown") -> str:
        told = f"{self.length} bytes, {self.original_length} on the wire, time {self.time}, link {self.link}"
        return f"<packet of {told}, at byte {self.offset}>"

    def __reduce__(self: "_Shown") -> Tuple[Any, ...]:
        """Pickles the packet's data and its block with the options, and nothing else of the capture."""
        around, at = self._around
        block, end = self.block, at + self.length
        begin = at if block is None else at - _HEAD
        if block is not None:
            end = begin + _FRAME + len(block.body) + 4
        fields = tuple(None if isinstance(field, memoryview) else field for field in self)
        return _restored, (type(self), bytes(around[begin:end]), at - begin, self.length, fields)


def _block_of(packet: _Shown) -> Optional[Block]:
    """Returns the block around a packet's data, or None.

    Before the data of an enhanced packet there is a type that has options, in one of the byte orders, and the packet's time.
    Before the data of a simple packet there may be another block, whose length is where the time would be. The time of a simple
    packet is 0, so it differs."""
    timestamp = getattr(packet, "timestamp", None)
    around, at = packet._around
    begin = at - _HEAD
    if timestamp is None or begin < 0:
        return None
    for head, magic_number in _HEADS:
        kind, length, _, high, low, _, _ = head.unpack_from(around, begin)
        if kind in _WITH_OPTIONS and high << 32 | low == timestamp:
            body = around[begin + _FRAME : begin + length - 4]
            return Block(kind, body, packet.offset - _HEAD + _FRAME, magic_number)
    return None


class _Fields(NamedTuple):
    seconds: int
    nanoseconds: int
    original_length: int
    data: memoryview
    link: int
    offset: int


class _BlockFields(NamedTuple):
    seconds: Optional[int]
    nanoseconds: int
    original_length: int
    data: memoryview
    timestamp: int
    interface_id: int
    interface: Optional[Interface]
    offset: int


class Timed(Told):
    """The attributes that a packet has by its interface."""

    __slots__ = ()

    interface: Optional[Interface]

    @property
    def link(self) -> Optional[int]:
        """The number of the packet's link type, or None if its interface is unknown.

            >>> packet.link
            1
        """
        return None if self.interface is None else self.interface.link


@final
class Packet(Told, _Fields):
    """A packet of a classic capture. `data` is a view of its bytes, which stay valid as long as the view exists. `link` is the
    number of its link type. `offset` is where `data` begins, in bytes from the capture's start.

        >>> with pcapfile.open("capture.pcap") as capture:
        ...     packet = next(iter(capture))
        >>> packet.seconds, packet.nanoseconds, packet.length, packet.link, bytes(packet)[:2]
        (1335958313, 152630000, 98, 1, b'\\x00\\x01')
    """

    __slots__ = ()

    interface = None


@final
class BlockPacket(Timed, _BlockFields):
    """A packet of a PcapNg capture. `data` is a view of its bytes, which stay valid as long as the view exists. For a simple
    packet the view ends at the original length, or at the interface's snapshot length, because padding follows. `offset` is
    where `data` begins, in bytes from the capture's start.

    `seconds` is None for a simple packet, for a packet of an unknown interface, and if the seconds exceed 64 bits.

        >>> with pcapfile.open("options.pcapng") as capture:
        ...     packet = next(iter(capture))
        >>> packet.interface_id, packet.timestamp, packet.comment, bytes(packet)
        (0, 1700000000000000000, 'seen', b'abc')
    """

    __slots__ = ()


def _lent_to(native_type: Any, like: Any) -> Any:
    """Returns the extension's type of packets, with the attributes that are written in Python."""
    native_type._fields, native_type.__doc__ = like._fields, like.__doc__
    for name in ("datetime", "block", "options", "comment", "_asdict", "__hash__", "__repr__", "__reduce__"):
        setattr(native_type, name, vars(Told)[name])
    return native_type


if not TYPE_CHECKING and native is not None:
    Packet, BlockPacket = _lent_to(native.Packet, Packet), _lent_to(native.BlockPacket, BlockPacket)


def _restored(kind: Any, text: bytes, at: int, length: int, fields: Tuple[Any, ...]) -> Any:
    """Returns a packet that was pickled, with or without the extension."""
    named: Dict[str, Any] = {**dict(zip(kind._fields, fields)), "data": memoryview(text)[at : at + length]}
    if native is None or kind not in (native.Packet, native.BlockPacket):
        return kind(*named.values())
    offset, original = named["offset"], named["original_length"]
    if kind is native.Packet:
        stamp = named["seconds"] << 32 | named["nanoseconds"]
        return native.packet(False, text, at, length, offset, stamp, original, 0, named["link"], None, None)
    interface = named["interface"]
    shown = None if interface is None else _library.Interface(*interface)
    block_type = SIMPLE_PACKET if at < _HEAD else _WITH_OPTIONS[0]
    told = (named["timestamp"], original, named["interface_id"], block_type, shown, interface)
    return native.packet(True, text, at, length, offset, *told)
