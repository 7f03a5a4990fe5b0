"""Interfaces of PcapNg captures."""

from typing import NamedTuple, Optional, Tuple

from ._options import Block

# The type of interface description blocks.
_DESCRIPTION = 1


class _Fields(NamedTuple):
    link: int
    snaplen: int
    ts_base: int
    ts_exponent: int
    ts_offset: int


class Interface(_Fields):
    """An interface of a PcapNg capture. `link` is the number of its link type, and `snaplen` its snapshot length in bytes, or 0
    for no limit. Its unit of time is `ts_base` to the power of minus `ts_exponent` seconds, and `ts_offset` is in seconds. Its
    `block` has its options.

        >>> with pcapfile.open("options.pcapng") as capture:
        ...     (interface,) = capture.interfaces
        >>> interface.link, interface.ts_exponent, interface.name, interface.comment
        (1, 9, None, 'hm')
    """

    # The body of the interface's block, the offset of the body in the capture, and the magic number of the section. It
    # distinguishes interfaces.
    _told: Optional[Tuple[bytes, int, int]] = None

    @property
    def block(self) -> Optional[Block]:
        """A copy of the block that describes the interface, or None if no capture described it.

            >>> packet.interface.block.type
            1
        """
        return None if self._told is None else Block(_DESCRIPTION, memoryview(self._told[0]), *self._told[1:])

    def _text(self, code: int) -> Optional[str]:
        block = self.block
        return None if block is None else block.text_of(code)

    @property
    def name(self) -> Optional[str]:
        """The name of the interface, for example "eth0", or None.

            >>> print(packet.interface.name)
            None
        """
        return self._text(2)

    @property
    def description(self) -> Optional[str]:
        """The description of the interface, or None.

            >>> print(packet.interface.description)
            None
        """
        return self._text(3)

    @property
    def os(self) -> Optional[str]:
        """The operating system of the machine that has the interface, or None.

            >>> print(packet.interface.os)
            None
        """
        return self._text(12)

    @property
    def hardware(self) -> Optional[str]:
        """The hardware of the interface, or None.

            >>> print(packet.interface.hardware)
            None
        """
        return self._text(15)

    @property
    def comment(self) -> Optional[str]:
        """The first comment on the interface, or None.

            >>> packet.interface.comment
            'hm'
        """
        return self._text(1)


def described(block: Block, *fields: int) -> Interface:
    """Returns the interface that a block describes, with a copy of the block."""
    interface = Interface(*fields)
    interface._told = bytes(block.body), block.offset, block.magic_number
    return interface
