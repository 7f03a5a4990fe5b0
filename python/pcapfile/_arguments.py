"""Checks of arguments. Every error names the argument: a TypeError for another type, and a ValueError for an impossible value."""

import io
import operator
import os
from decimal import Decimal
from fractions import Fraction
from numbers import Rational
from typing import Any, Optional, Tuple

_NAMES = (str, bytes, os.PathLike)

# The nanoseconds of a second.
_SECOND = 1_000_000_000


def wrong_type(name: str, value: Any, wanted: str) -> TypeError:
    """Returns the error for an argument of another type than is wanted."""
    return TypeError(f"{name} is of type {type(value).__name__}, and must be {wanted}")


def whole(name: str, value: Any, least: Optional[int] = None, most: Optional[int] = None) -> int:
    """Returns a whole number within the limits."""
    try:
        number = operator.index(value)
    except TypeError:
        raise wrong_type(name, value, "a whole number") from None
    if (least is not None and number < least) or (most is not None and number > most):
        limits = f"at least {least}" if most is None else f"from {least} to {most}"
        raise ValueError(f"{name} is {number}, and must be {limits}")
    return number


def of_32_bits(name: str, value: Any) -> int:
    """Returns a whole number that fits 32 bits."""
    return whole(name, value, 0, (1 << 32) - 1)


class Default:
    """The default of an argument, which differs from the same value that a caller gives."""

    def __init__(self, value: Any) -> None:
        self.value = value

    def __repr__(self) -> str:
        return repr(self.value)


def truth(name: str, value: Any) -> bool:
    """Returns True or False, also of numpy."""
    if isinstance(value, bool) or getattr(getattr(value, "dtype", None), "kind", None) == "b":
        return bool(value)
    raise wrong_type(name, value, "True or False")


def nanoseconds(name: str, value: Any, wanted: str = "a number of seconds", unit: int = 1) -> int:
    """Returns seconds as nanoseconds. It rounds a float to the nearest multiple of `unit` nanoseconds."""
    if isinstance(value, (str, bytes, bytearray)):
        raise wrong_type(name, value, wanted)
    try:
        if isinstance(value, (Rational, Decimal)):
            return round(Fraction(value) * _SECOND)
        return round(Fraction(float(value)) * _SECOND / unit) * unit
    except TypeError:
        raise wrong_type(name, value, wanted) from None
    except (ValueError, OverflowError):
        raise ValueError(f"{name} is {value!r}, and must be a finite number of seconds") from None


def one_of(name: str, value: Any, wanted: Tuple[str, ...]) -> str:
    """Returns one of some texts."""
    if value not in wanted:
        raise ValueError(f"{name} is {value!r}, and must be {' or '.join(map(repr, wanted))}")
    return str(value)


def bytes_in(name: str, value: Any) -> memoryview:
    """Returns a view of the bytes of a buffer."""
    try:
        return memoryview(value).cast("B")
    except TypeError:
        raise wrong_type(name, value, "bytes, or another contiguous buffer") from None


def is_name(value: Any) -> bool:
    """Returns True if an argument names a file."""
    return isinstance(value, _NAMES)


def name_of(name: str, value: Any) -> Any:
    """Returns the name of a file as a text or as bytes."""
    if not is_name(value):
        raise wrong_type(name, value, "the name of a file")
    return os.fspath(value)


def stream(name: str, value: Any, methods: Tuple[str, ...], wanted: str) -> Any:
    """Returns a stream of bytes that has one of these methods."""
    if isinstance(value, io.TextIOBase):
        raise TypeError(f"{name} is a text file, and must be a binary one")
    if not any(hasattr(value, method) for method in methods):
        raise wrong_type(name, value, wanted)
    return value
