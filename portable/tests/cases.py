"""Defines a case: a function of LLVM, inputs for it, and what it must write for each."""
from dataclasses import dataclass, field
from typing import Callable

SLOT = 16


@dataclass
class Case:
    """`body` reads 16-byte slots at %in and writes some at %out. `wanted` takes the numbers that it reads, and returns those that it
    must write. `more` is what the module also needs: declarations, data and other functions."""

    name: str
    body: str
    inputs: list
    wanted: Callable
    written: int = 1
    more: list = field(default_factory=list)


def number(at, bits, name):
    """Reads a slot as an integer of this many bits."""
    text = f"  %{name}.at = getelementptr inbounds nuw i8, ptr %in, i64 {SLOT * at}\n"
    if bits == 128:
        return text + f"  %{name} = load i128, ptr %{name}.at, align 16\n"
    return text + f"  %{name}.all = load i128, ptr %{name}.at, align 16\n  %{name} = trunc i128 %{name}.all to i{bits}\n"


def give(bits, name, at=0):
    """Writes an integer of this many bits into a slot."""
    text = f"  %out.{at} = getelementptr inbounds nuw i8, ptr %out, i64 {SLOT * at}\n"
    if bits == 128:
        return text + f"  store i128 %{name}, ptr %out.{at}, align 16\n"
    return text + f"  %wide.{at} = zext i{bits} %{name} to i128\n  store i128 %wide.{at}, ptr %out.{at}, align 16\n"


def edges(bits):
    """Returns numbers at which arithmetic of this many bits changes its behaviour, and some in between."""
    top = (1 << bits) - 1
    half = 1 << (bits - 1)
    odd = 0x9E3779B97F4A7C15F39CC0605CEDC835 & top
    found = [0, 1, 2, 3, 7, top, top - 1, half, half - 1, half + 1, odd, odd >> 1, odd >> (bits // 2)]
    return list(dict.fromkeys(it & top for it in found))


def signed(value, bits):
    return value - (1 << bits) if value >> (bits - 1) else value
