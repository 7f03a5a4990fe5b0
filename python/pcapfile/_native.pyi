"""The extension. _packets.py documents the attributes of its packets."""

import ctypes
import mmap
from typing import Any, Callable, Iterator, List, Optional, Protocol, Tuple, Union, final

from ._interfaces import Interface
from ._packets import BlockPacket as BlockPacket, Packet as Packet

_Buffer = Union[bytes, bytearray, memoryview, mmap.mmap]

@final
class Open:
    @property
    def is_closed(self) -> bool: ...
    def close(self) -> None: ...

class _Clocks(Protocol):
    def add(self, number: int, structure: ctypes.Structure, interface: Interface, /) -> None: ...
    def copy(self) -> "_Clocks": ...

class _Addresses(Protocol):
    def texts(self) -> List[str]: ...

class _Window(Protocol):
    """Bytes of a capture, as _windows.py has them."""

    open: Open
    left: ctypes.Structure
    data: memoryview
    base: int

    @property
    def offset(self) -> int: ...
    def more(self, missing: int, /) -> bool: ...

class _Walk(Protocol):
    """A walk of the package: of PcapNg it also has a section, interfaces, and `take`."""

    window: _Window

class _Filter(Protocol):
    def told(self) -> Tuple[int, int, int, bool]: ...
    def program(self, link: int, /) -> int: ...

# numpy arrays of rows are `Any`, because numpy is optional.
def packets(
    walk: _Walk,
    header: Optional[ctypes.Structure],
    refused: Callable[[int, int, int, int], Exception],
    filter: Optional[_Filter] = ...,
    are_pairs: bool = ...,
    /,
) -> Iterator[Any]: ...
def rows(
    window: _Window, head: ctypes.Structure, clocks: Optional[_Clocks], array: Any, begin: int, place: int, /
) -> Tuple[int, int, int, int]: ...
def decode(
    data: _Buffer, rows: Any, array: Any, place: int, sources: _Addresses, destinations: _Addresses, /
) -> None: ...
def gather(data: _Buffer, rows: Any, array: Any, place: int, /) -> None: ...
def put_rows(
    head: ctypes.Structure, number: int, data: _Buffer, rows: Any, room: Union[bytearray, memoryview], place: int, /
) -> Tuple[int, int]: ...
def address(view: _Buffer, /) -> int: ...
def addresses() -> _Addresses: ...
def clocks() -> _Clocks: ...
def packet(
    is_ng: bool,
    data: _Buffer,
    at: int,
    length: int,
    offset: int,
    stamp: int,
    original: int,
    number: int,
    kind: int,
    structure: Optional[ctypes.Structure],
    interface: Optional[Interface],
    /,
) -> Union[Packet, BlockPacket]: ...
def packet_at(
    data: _Buffer,
    place: int,
    header: Optional[ctypes.Structure],
    magic_number: int,
    interfaces: int,
    clocks: Optional[_Clocks],
    /,
) -> Union[Packet, BlockPacket, None]: ...
