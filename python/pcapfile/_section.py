"""The section of a PcapNg capture that a Writer writes: its interfaces, and copies of blocks."""

from typing import Any, Dict, Iterable, Iterator, Literal, Optional, Tuple, Union

from . import _arguments, _library
from ._columns import NO_LINK
from ._interfaces import Interface, described
from ._links import fcs_len, link_type
from ._options import Block, Option
from ._output import UNSPECIFIED, Output
from ._rules import Rule
from ._source import Data
from ._written import Maker, Unwritable

# The magic numbers of sections, as big-endian numbers.
MAGICS = {"big": 0x1A2B3C4D, "little": 0x4D3C2B1A}

# The codes of the options that describe an interface's clock, and the length of a section header's body without options.
CLOCK, _HEAD = (9, 14), 16

# The code of the option with the length of an interface's frame check sequences, in bits.
FCS_LEN = 13

# The clock of the interfaces that the Writer adds: the base and the exponent of the unit, and the seconds since 1970.
_NANOSECONDS = (10, 9, 0)

# The bytes for an interface's number in the blocks of packets that have options.
_WIDTHS = {6: 4, 2: 2}
_SECOND = 1_000_000_000

# The types of the blocks that a reader keeps: section headers and interfaces. Later packets also need names and secrets.
_HEADER, _INTERFACE = 0x0A0D0D0A, 1
_NEEDED = (4, 10)

# The most bytes of the body of a block.
_LONGEST = (1 << 32) - 13

Options = Iterable[Tuple[int, Union[str, Data]]]


def options_in(order: Literal["little", "big"], options: Options, own: Tuple[int, ...] = ()) -> bytes:
    """Returns a list of options as bytes, with the mark that ends it; nothing if there are no options. `own` are the codes of options
    that the Writer writes itself."""
    texts = []
    for code, value in options:
        code = _arguments.whole("the code of an option", code, 1, 65535)
        if code in own:
            raise ValueError(f"the code of an option is {code}, whose option the Writer writes itself")
        with _arguments.bytes_in("the value of an option", value.encode() if isinstance(value, str) else value) as view:
            if len(view) > 65535:
                raise ValueError(f"the value of an option has {len(view)} bytes, and must have at most 65535")
            texts.append(code.to_bytes(2, order) + len(view).to_bytes(2, order) + bytes(view) + bytes(-len(view) % 4))
    return b"".join([*texts, bytes(4)]) if texts else b""


# Options whose values change with the byte order in a known way: the code, and how many bytes at the beginning are a number. A custom
# option begins with the number of its enterprise.
_CUSTOM = (2988, 2989, 19372, 19373)
_OF_PACKETS = {1: 0, 2: 4, 4: 8, 5: 8, 6: 4}
_OF_INTERFACES = {**dict.fromkeys((1, 2, 3, 4, 5, 6, 7, 11, 12, 13, 15), 0), 8: 8, 10: 4, 16: 8, 17: 8}
_FILTER = 11


def _turned(options: Iterable[Option], numbers: Dict[int, int], order: str) -> Iterator[Tuple[int, bytes]]:
    """Iterates over options in the other byte order than `order`. It raises a ValueError for one whose numbers are unknown."""
    for code, value in options:
        width = 4 if code in _CUSTOM else numbers.get(code)
        is_short = width is not None and (len(value) < width or 0 < width < len(value) and code not in _CUSTOM)
        if width is None or is_short or code == _FILTER and bytes(value[:1]) != b"\0":
            raise ValueError(f"the packet has the option {code}, whose numbers are {order}-endian, and the capture is not")
        yield code, bytes(value[:width])[::-1] + bytes(value[width:])


class Section:
    """A section in an output. `shown` is the library's struct for it. Its header is written already if `is_begun`."""

    def __init__(self, shown: _library.Section, output: Output, is_begun: bool) -> None:
        self.shown, self._output, self._maker, self._is_begun = shown, output, Maker(output), is_begun
        # The numbers that the interfaces of other captures, and the link types, have in this section.
        self._numbers: Dict[Any, int] = {}
        # The clocks of the interfaces, by their numbers, that do not count nanoseconds since 1970.
        self._clocks: Dict[int, Tuple[int, ...]] = {}

    @property
    def order(self) -> Literal["little", "big"]:
        """The byte order of the section's numbers."""
        return "big" if self.shown.magic_number == MAGICS["big"] else "little"

    def begin(self) -> None:
        """Writes the section header, unless it is written already."""
        if not self._is_begun:
            self._output.front(self._maker.text(_library.put_section, self.shown))
            self._is_begun = True

    def begin_like(self, block: Block) -> None:
        """Writes a section header with the options and the byte order of another one. It leaves the length of the section
        unspecified."""
        body = bytes(block.body)
        if len(body) == _HEAD:
            self.begin()
        else:
            self._output.front(self._block(block.type, body[: _HEAD - 8] + UNSPECIFIED + body[_HEAD:]))
            self._is_begun = True

    def add(self, link: int, snaplen: int, options: bytes = b"") -> int:
        """Describes an interface that counts nanoseconds, with more options, and returns its number."""
        self.begin()
        self._describe(_library.Interface(link, snaplen, *_NANOSECONDS), options)
        return int(self.shown.interfaces - 1)

    def _describe(self, interface: _library.Interface, options: bytes = b"") -> None:
        """Writes the block of an interface. The options that follow those of its clock end with a mark of their own."""
        text = self._maker.text(_library.put_interface, self.shown, interface)
        if options:
            text = self._block(_INTERFACE, text[8:-8] + options)
        self._output.front(text)

    def of_link(self, link: int, snaplen: int) -> int:
        """Returns the number of the interface for a link type, or for the number in a classic header, which may also declare a length
        of the frame check sequence. It describes the interface first if necessary."""
        if link == NO_LINK:
            raise Unwritable(Rule.LINK_TOO_LARGE)
        if link not in self._numbers:
            length = fcs_len(link)
            options = [] if length is None else [(FCS_LEN, bytes([8 * length]))]
            self._numbers[link] = self.add(link_type(link), snaplen, options_in(self.order, options))
        return self._numbers[link]

    def keep_clock(self, number: int, interface: Interface) -> None:
        clock = (interface.ts_base, interface.ts_exponent, interface.ts_offset)
        if clock != _NANOSECONDS:
            self._clocks[number] = clock

    def put(self, number: int, time: int, original: int, lent: _library.Bytes, options: bytes = b"") -> None:
        """Writes a packet of an interface with options. The time is in nanoseconds since 1970."""
        self._put(_library.NgPacket(6, number, original, self._timestamp(number, time), lent), time, options)

    def _put(self, packet: _library.NgPacket, time: int, options: bytes = b"") -> None:
        self.begin()
        text = self._maker.text(_library.put_ng_packet, self.shown, packet)
        if options:
            text = self._block(packet.type, text[8:-4] + options)
        self._output.packet(text, time)

    def _timestamp(self, number: int, time: int) -> int:
        """Returns a time in the units of an interface and since its beginning."""
        units = time
        if number in self._clocks:
            base, exponent, offset = self._clocks[number]
            units = (time - offset * _SECOND) * base**exponent // _SECOND
        if not 0 <= units < 1 << 64:
            raise ValueError(f"seconds is {time // _SECOND}, and the clock of the interface has no such time")
        return int(units)

    def copy(self, packet: Any, has_options: bool) -> None:
        """Writes a packet of another PcapNg capture. If it has options in the same byte order, its block stays the same except for
        the interface's number."""
        if packet.interface is None:
            raise ValueError("the packet's interface is unknown")
        block = packet.block if has_options else None
        turned = b""
        if block is not None and block.magic_number != self.shown.magic_number:
            turned = options_in(self.order, _turned(block.options, _OF_PACKETS, block.byteorder))
        if packet.seconds is None:
            raise ValueError("the packet has no time")
        self.begin()
        number = self._number_of(packet.interface)
        if block is not None and not turned:
            self._copy_block(block, number, packet.time_ns)
            return
        with memoryview(packet.data) as data:
            lent = _library.Bytes(_library.address_of(data), len(data))
            self._put(_library.NgPacket(6, number, packet.original_length, packet.timestamp, lent), packet.time_ns, turned)

    def _copy_block(self, block: Block, number: int, time: int) -> None:
        width = _WIDTHS[block.type]
        if number >= 1 << 8 * width:
            raise ValueError("an obsolete packet block has only 16 bits for the number of its interface")
        body = number.to_bytes(width, block.byteorder) + bytes(block.body[width:])
        self._output.packet(self._block(block.type, body), time)

    def _number_of(self, interface: Interface) -> int:
        """Returns the number in this section of an interface of another capture. It describes the interface first if necessary."""
        block = interface.block
        key = (interface, None if block is None else (block.offset, bytes(block.body)))
        if key not in self._numbers:
            number = self.shown.interfaces
            if block is not None and block.magic_number == self.shown.magic_number and len(block.body) > 8:
                self._output.front(self._block(block.type, bytes(block.body)))
                self.shown.interfaces += 1
            else:
                others = [] if block is None else [option for option in block.options if option.code not in CLOCK]
                turned = _turned(others, _OF_INTERFACES, "" if block is None else block.byteorder)
                self._describe(_library.Interface(*interface), options_in(self.order, turned))
            self._numbers[key] = number
            self.keep_clock(number, interface)
        return self._numbers[key]

    def write(self, kind: int, body: Data, order: Optional[str], offset: Optional[int]) -> None:
        """Writes a block with this body, which has this byte order if it is known. A section header begins a section, and an interface
        belongs to the section. `offset` is the place of the body in another capture."""
        with _arguments.bytes_in("body", body) as view:
            text = bytes(view) + bytes(-len(view) % 4)
        if len(text) > _LONGEST:
            raise Unwritable(Rule.BLOCK_TOO_LONG)
        if kind == _HEADER:
            self._write_header(text)
            return
        if order not in (None, self.order):
            raise ValueError(f"the numbers in the block are {order}-endian, and the capture is not")
        self.begin()
        if kind == _INTERFACE:
            self._write_interface(text, offset)
        elif kind in _NEEDED:
            self._output.front(self._block(kind, text))
        else:
            self._output.block(self._block(kind, text))

    def _write_header(self, body: bytes) -> None:
        order: Literal["little", "big"] = "big" if body[:4] == MAGICS["big"].to_bytes(4, "big") else "little"
        text = _framed(_HEADER, body, order)
        self.shown = self._taken(_library.Section(), text)
        self._output.section(text)
        self._is_begun = True
        self._numbers.clear()
        self._clocks.clear()

    def _write_interface(self, body: bytes, offset: Optional[int]) -> None:
        text, number = self._block(_INTERFACE, body), self.shown.interfaces
        after = self._taken(self.shown, text)
        shown, error = _library.Interface(), _library.Error()
        block = Block(_INTERFACE, memoryview(body), 0 if offset is None else offset, self.shown.magic_number)
        with memoryview(body) as view:
            lent = _library.Block(_INTERFACE, _library.Bytes(_library.address_of(view), len(view)))
            _library.read_interface(self.shown, lent, shown, error)
        interface = described(block, shown.link, shown.snaplen, shown.ts_base, shown.ts_exponent, shown.ts_offset)
        self._output.front(text)
        self.shown = after
        self.keep_clock(number, interface)
        if offset is not None:
            self._numbers[interface, (offset, body)] = number

    def _taken(self, section: _library.Section, text: bytes) -> _library.Section:
        """Returns the section after this block. It raises `Unwritable` or a ValueError if a reader refuses the block."""
        after = _library.Section(section.magic_number, section.version_major, section.version_minor, section.interfaces)
        block, error = _library.Block(0, _library.no_bytes()), _library.Error()
        with memoryview(text) as view:
            status = _library.take_block(after, _library.Bytes(_library.address_of(view), len(view)), block, error)
        if status == _library.INVALID:
            raise Unwritable(error.rule)
        if status == _library.NO_MEMORY:
            raise MemoryError
        if status != _library.OK:
            raise ValueError("body is malformed: a value in it is too short, or a text is not UTF-8")
        return after

    def _block(self, kind: int, body: bytes) -> bytes:
        """Returns a block with this body, in the section's byte order."""
        return _framed(kind, body, self.order)


def _framed(kind: int, body: bytes, order: Literal["little", "big"]) -> bytes:
    length = (len(body) + 12).to_bytes(4, order)
    return kind.to_bytes(4, order) + length + body + length
