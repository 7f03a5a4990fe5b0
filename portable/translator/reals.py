"""Numbers with a point: literals, arithmetic and comparisons.

Each operation is a function of prelude.h that isn't inlined, so that no compiler joins two of them into one that rounds once.
"""
import math
import struct

from .expression import ATOM, UNARY, Expression, binary, call, cast, unary
from .failure import Unknown
from .layout import DOUBLE, FLOAT

COMPARISONS = {"oeq": "==", "olt": "<", "ole": "<=", "ogt": ">", "oge": ">=", "une": "!="}
OPPOSITES = {"ult": ">=", "ule": ">", "ugt": "<=", "uge": "<"}


def real_literal(bits, type_):
    """The number with these bits."""
    wide = type_ == DOUBLE
    number = struct.unpack("<d" if wide else "<f", bits.to_bytes(8 if wide else 4, "little"))[0]
    if math.isnan(number) or math.isinf(number):
        return Expression(f"{'double' if wide else 'float'}_of({bits}{'ull' if wide else 'u'})", ATOM)
    text = number.hex() + ("" if wide else "f")
    return Expression(text, UNARY if text[0] == "-" else ATOM)


def arithmetic(writer, instruction):
    type_ = instruction.type
    if type_ not in (FLOAT, DOUBLE):
        raise Unknown(f"{instruction.op} of {type_}", instruction.line)
    name = f"{type_.kind}_{instruction.op[1:]}"
    writer.define(instruction, call(name, *map(writer.expression, instruction.operands)))


def negate(writer, instruction):
    if instruction.type not in (FLOAT, DOUBLE):
        raise Unknown(f"fneg of {instruction.type}", instruction.line)
    writer.define(instruction, unary("-", writer.expression(instruction.operands[0])))


def compare(writer, instruction):
    condition = instruction.more["condition"]
    if instruction.operands[0].type not in (FLOAT, DOUBLE):
        raise Unknown(f"fcmp of {instruction.operands[0].type}", instruction.line)
    left, right = map(writer.expression, instruction.operands)
    if condition in COMPARISONS:
        made = binary(left, COMPARISONS[condition], right)
    elif condition in OPPOSITES:
        made = unary("!", Expression(f"({binary(left, OPPOSITES[condition], right).text})", ATOM, left.reads or right.reads))
    elif condition in ("one", "ueq"):
        made = unary("" if condition == "one" else "!", call("__builtin_islessgreater", left, right))
    elif condition in ("ord", "uno"):
        made = unary("" if condition == "uno" else "!", call("__builtin_isunordered", left, right))
    else:
        raise Unknown(f"fcmp {condition}", instruction.line)
    writer.define(instruction, made)


def from_integer(writer, instruction, signed):
    value = instruction.operands[0]
    if value.type.kind != "int" or instruction.type not in (FLOAT, DOUBLE):
        raise Unknown(f"{instruction.op} of {value.type}", instruction.line)
    writer.define(instruction, cast(instruction.type.kind, signed(writer, value)))


def between(writer, instruction):
    """fpext and fptrunc."""
    if instruction.type not in (FLOAT, DOUBLE):
        raise Unknown(f"{instruction.op} to {instruction.type}", instruction.line)
    writer.define(instruction, cast(instruction.type.kind, writer.expression(instruction.operands[0])))
