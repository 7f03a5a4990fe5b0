"""Reads the frames of blocks of PcapNg captures, and keeps what a parser knows after each."""
from blocks import SECTION_ORDERS, TYPES, parsed
from left import Left
from refusals import Lacks, rule

SECTION = b"\x0a\x0d\x0d\x0a"


class Block:
    """A framed block: its type, its length, its order and its body."""

    def __init__(self, number, length, order, body):
        self.number, self.length, self.order, self.body = number, length, order, body

    def value(self):
        """Returns the body's value. Raises the reason if the body is refused."""
        return parsed(self.number, Left(self.body, self.order))

    def kind(self):
        return TYPES[self.number][1] if self.number in TYPES else f"unknown:{self.number}"


def frame(left):
    """Takes the next block. A section has the order of its own magic number."""
    if len(left) < 12:
        raise Lacks(12 - len(left))
    order = left.order
    if left.bytes.startswith(SECTION):
        if left.bytes[8:12] not in SECTION_ORDERS:
            raise rule("SectionHeaderBlock: invalid magic number")
        order = SECTION_ORDERS[left.bytes[8:12]]
    inside = Left(left.bytes, order)
    number, length = inside.number(4), inside.number(4)
    if length % 4:
        raise rule("Block: (initial_len % 4) != 0")
    if length < 12:
        raise rule("Block: initial_len < 12")
    if length > len(left):
        raise Lacks(length - len(left))
    body = inside.take(length - 12)
    if inside.number(4) != length:
        raise rule("Block initial_length != trailer_length")
    left.take(length)
    return Block(number, length, order, body)


class State:
    """The section in force and its interfaces."""

    def __init__(self, order, section, interfaces=()):
        self.order, self.section, self.interfaces = order, section, interfaces

    def after(self, block):
        """Returns the state after a block. If its section or interface is refused, the block is refused."""
        if block.number == 0x0A0D0D0A:
            return State(block.order, block.value().parts[0])
        if block.number == 1:
            return State(self.order, self.section, (*self.interfaces, block.value().parts[0]))
        return self


def first_state(left):
    """Returns the state after the first block, which is a section header. The function parses its body whatever its type is."""
    block = frame(left)
    block.value()
    if block.number != 0x0A0D0D0A:
        raise rule("SectionHeader missing")
    return State(block.order, None).after(block)
