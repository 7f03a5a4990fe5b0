"""The errors and flaws of captures."""

from typing import Any, NamedTuple, Optional, Tuple

from . import _library
from ._rules import Rule


class CaptureError(Exception):
    """The capture is truncated or malformed at `offset`, in bytes from its start. Everything before that is valid. `status` is
    the number of the library's error.

        >>> try:
        ...     pcapfile.parse(bytes(24))
        ... except pcapfile.CaptureError as error:
        ...     print(error.offset, error)
        0 CaptureMagic: PcapHeader wrong magic number (at byte 0)
    """

    def __init__(self, message: str, offset: int, status: int) -> None:
        super().__init__(f"{message} (at byte {offset})")
        self.offset, self.status = offset, status
        self._made_of: Tuple[Any, ...] = (message, offset, status)

    def __reduce__(self) -> Tuple[Any, ...]:
        return type(self), self._made_of


class Incomplete(CaptureError):
    """The capture is truncated: it ends within a header, a packet record or a block. At least `missing` more bytes are needed.

        >>> try:
        ...     pcapfile.parse(bytes(20))
        ... except pcapfile.Incomplete as error:
        ...     error.missing
        4
    """

    def __init__(self, missing: int, offset: int) -> None:
        super().__init__(f"{missing} bytes are missing", offset, _library.INCOMPLETE)
        self.missing = missing
        self._made_of = (missing, offset)


class Invalid(CaptureError):
    """The capture is malformed: it breaks a rule of its format. `number` is the rule as a `Rule`, `rule` its name, and `text` its
    message.

        >>> try:
        ...     pcapfile.parse(bytes(24))
        ... except pcapfile.Invalid as error:
        ...     error.rule
        'CaptureMagic'
    """

    def __init__(self, number: int, offset: int) -> None:
        self.number = Rule(number)
        self.rule = _library.rule_name(number)
        self.text = _library.rule_text(number)
        super().__init__(f"{self.rule}: {self.text}", offset, _library.INVALID)
        self._made_of = (number, offset)


class CaptureWarning(UserWarning):
    """Warns that an output lacks a part of the captures or changes it, or that reading with `strict=False` skips a part. The text
    says what.

        >>> warnings.simplefilter("error", pcapfile.CaptureWarning)  # what is left out is an error
    """


class Flaw(NamedTuple):
    """A fault of a block's body, as reading with `strict=False` reports it. `rule` is the broken `Rule`, or None for text
    that is not UTF-8. `code` is the code of the malformed option, or None for the body as a whole and for the list of options.
    `text` is a message.

        >>> pcapfile.Flaw(pcapfile.Rule.OPTION_CUT, 1, pcapfile.Rule.OPTION_CUT.text).rule.name
        'OPTION_CUT'
    """

    rule: Optional[Rule]
    code: Optional[int]
    text: str


def flaw_of(status: int, rule: int, code: int = 0) -> Flaw:
    named = Rule(rule) if status == _library.INVALID else None
    text = _library.rule_text(rule) if status == _library.INVALID else _OTHERS.get(status, f"status {status}")
    return Flaw(named, code or None, text)


def error_of(status: int, error: Any, offset: int) -> CaptureError:
    if status == _library.INCOMPLETE:
        return Incomplete(error.missing, offset)
    if status == _library.INVALID:
        return Invalid(error.rule, offset)
    return CaptureError(_OTHERS.get(status, f"status {status}"), offset, status)


class _Told(NamedTuple):
    rule: int
    missing: int


def refused(status: int, rule: int, missing: int, offset: int) -> CaptureError:
    """Returns the error for a status that the extension reports."""
    return error_of(status, _Told(rule, missing), offset)


_OTHERS = {
    _library.BAD_VALUE: "a value in the block is too short",
    _library.NOT_UTF8: "a string in the block is not UTF-8",
    _library.NO_MEMORY: "memory was refused",
}
