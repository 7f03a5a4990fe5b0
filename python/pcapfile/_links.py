"""The number of a link type in the header of a classic capture."""

from typing import Optional

from . import _arguments, _library


def link_type(number: int) -> int:
    """Returns the link type in the number of a classic header: its low 16 bits. Above them the header may declare a length of the
    frame check sequence. The number of a PcapNg interface is the link type itself. It raises a ValueError if `number` does not
    fit 32 bits.

        >>> pcapfile.link_type(0x24000001)
        1
    """
    return int(_library.link_type(_arguments.of_32_bits("number", number)))


def fcs_len(number: int) -> Optional[int]:
    """Returns the length in bytes of the frame check sequence with which each packet ends, as the number of a link type in a classic
    header declares it: twice its bits 28 to 31 if bit 26 is set. It is None if the header declares no length. The bytes of a packet
    include the sequence. It raises a ValueError if `number` does not fit 32 bits.

        >>> pcapfile.fcs_len(0x24000001), pcapfile.fcs_len(1)
        (4, None)
    """
    length = int(_library.fcs_len(_arguments.of_32_bits("number", number)))
    return None if length < 0 else length
