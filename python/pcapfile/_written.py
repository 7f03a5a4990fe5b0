"""Bytes of captures, which functions of the library make, and the rules that they keep."""

import ctypes
from typing import Any, Callable, Tuple

from . import _library
from ._output import Output
from ._rules import Rule

# The most bytes that a packet of a classic capture may store, and that its original length may be: readers refuse more.
_PACKET_LIMIT = 262144

# The library's statuses for a buffer that is too small.
_NEEDS_ROOM = (_library.INCOMPLETE, _library.NO_ROOM)


class Unwritable(ValueError):
    """The Writer cannot write what the caller gave, because every reader would refuse it. `number` is the rule that it breaks as
    a `Rule`, `rule` the name of the rule, and `text` its message. The Writer has written nothing of it.

        >>> with pcapfile.Writer(io.BytesIO()) as writer:
        ...     try:
        ...         writer.write(bytes(9), 0, original_length=8)
        ...     except pcapfile.Unwritable as error:
        ...         error.rule
        'IncludedPastOriginal'
    """

    def __init__(self, number: int) -> None:
        self.number = Rule(number)
        self.rule = _library.rule_name(number)
        self.text = _library.rule_text(number)
        super().__init__(f"{self.rule}: {self.text}")

    def __reduce__(self) -> Tuple[Any, ...]:
        return type(self), (int(self.number),)


def check_lengths(stored: int, original: int) -> None:
    """Raises `Unwritable` for lengths that every reader of classic captures refuses."""
    if stored > _PACKET_LIMIT:
        raise Unwritable(Rule.INCLUDED_TOO_LONG)
    if original > _PACKET_LIMIT:
        raise Unwritable(Rule.ORIGINAL_TOO_LONG)
    if stored > original:
        raise Unwritable(Rule.INCLUDED_PAST_ORIGINAL)


class Maker:
    """Makes bytes for an output, in a buffer that grows."""

    def __init__(self, output: Output) -> None:
        self._output, self._room = output, (ctypes.c_uint8 * 4096)()
        self._written, self._error = ctypes.c_size_t(), _library.Error()

    def text(self, call: Callable[..., int], *told: ctypes.Structure) -> bytes:
        """Returns what a function of the library writes. It raises an OSError if an earlier write failed."""
        self._output.check()
        while (status := call(*told, self._room, len(self._room), self._written, self._error)) in _NEEDS_ROOM:
            self._room = (ctypes.c_uint8 * (len(self._room) + self._error.missing))()
        if status != _library.OK:
            raise Unwritable(self._error.rule)
        return bytes(memoryview(self._room)[: self._written.value])
