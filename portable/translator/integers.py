"""Arithmetic, comparisons and casts of integers and pointers.

A value of n bits is held by the next wider unsigned type of C, with all other bits 0. What has 32 bits or more has exactly
that type; what has fewer may be an int in C, so its results are cut where they could have more bits.
"""
from . import vectors
from .expression import Expression, binary, cast, comparison, conditional, literal, plain, tested, unary
from .failure import Unknown
from .layout import holder, is_odd
from .reader import signed_value

SIGNS = {"add": "+", "sub": "-", "mul": "*", "and": "&", "or": "|", "xor": "^", "udiv": "/", "urem": "%", "lshr": ">>"}
COMPARISONS = {"eq": "==", "ne": "!=", "gt": ">", "ge": ">=", "lt": "<", "le": "<="}
CANNOT_GROW = {"and", "or", "xor", "udiv", "urem", "lshr"}


def demand(condition, what, instruction):
    if not condition:
        raise Unknown(what, instruction.line)


def is_literal(operand):
    return operand.kind in ("int", "zero")


def mask(bits):
    return plain((1 << bits) - 1)


def wrapped(made, type_):
    """The result of arithmetic without the bits that its type has not."""
    if is_odd(type_):
        return binary(made, "&", mask(type_.bits))
    return cast(f"u{type_.bits}", made) if type_.bits < 32 else made


def signed(writer, operand):
    """An operand as a signed integer of C."""
    bits, wide = operand.type.bits, holder(operand.type.bits)
    if is_literal(operand):
        number = signed_value(operand)
        if bits > 64:
            return cast("s128", Expression(f"({literal(number % (1 << 128), 128).text})"))
        return Expression("INT64_MIN" if number == -(1 << 63) else str(number), 1 if number < 0 else 0)
    made = writer.expression(operand)
    if bits != wide:
        shifted = binary(cast("u32", made) if wide < 32 else made, "<<", plain(wide - bits))
        return binary(cast(f"s{wide}", shifted), ">>", plain(wide - bits))
    return cast(f"s{wide}", made)


def arithmetic(writer, instruction):
    op, type_ = instruction.op, instruction.type
    if type_.kind == "vector":
        vectors.arithmetic(writer, instruction)
        return
    left, right = instruction.operands
    if op in ("sdiv", "srem"):
        made = binary(signed(writer, left), "/" if op == "sdiv" else "%", signed(writer, right))
        made = wrapped(cast(writer.types.name(type_), made), type_)
    elif op in ("shl", "ashr", "lshr"):
        made = shifted(writer, op, left, right)
    elif op == "xor" and right.kind == "int" and right.value == (1 << type_.bits) - 1 and type_.bits in (1, 32, 64):
        made = unary("!" if type_.bits == 1 else "~", writer.expression(left))
    else:
        made = plain_arithmetic(writer, op, left, right)
    writer.define(instruction, made)


def plain_arithmetic(writer, op, left, right):
    type_ = left.type
    sign = SIGNS[op]
    if op == "add" and right.kind == "int" and signed_value(right) < 0 and type_.bits > 1:
        first, second, sign = writer.expression(left), plain(-signed_value(right)), "-"
    else:
        first, second = writer.exact(left), writer.expression(right)
    if op == "mul" and holder(type_.bits) == 16:
        first = cast("u32", first)
    made = binary(first, sign, second)
    return made if op in CANNOT_GROW else wrapped(made, type_)


def shifted(writer, op, left, right):
    type_ = left.type
    wide = holder(type_.bits)
    if right.kind in ("int", "zero"):
        if (right.value or 0) >= type_.bits:
            return plain(0)
        amount = plain(right.value or 0)
    else:
        amount = binary(writer.expression(right), "&", plain(wide - 1))
    if op == "ashr":
        first = signed(writer, left)
        made = binary(cast(f"s{wide}", first) if is_literal(left) else first, ">>", amount)
        return wrapped(cast(writer.types.name(type_), made), type_) if is_odd(type_) else cast(writer.types.name(type_), made)
    first = writer.exact(left)
    if op == "lshr":
        return binary(first, ">>", amount)
    return wrapped(binary(cast("u32", first) if wide < 32 else first, "<<", amount), type_)


def compare(writer, instruction):
    left, right = instruction.operands
    condition = instruction.more["condition"]
    if left.type.kind == "vector":
        vectors.compare(writer, instruction)
        return
    sign = COMPARISONS[condition[-2:]]
    if left.type.kind == "ptr":
        both = [writer.expression(it) for it in (left, right)]
        # The letter is u or s in a comparison of more and less. LLVM compares addresses there as numbers.
        if condition[0] in "us":
            both = [cast(f"{condition[0]}64", it) for it in both]
    elif condition[0] == "s":
        both = [signed(writer, it) for it in (left, right)]
    else:
        both = [writer.exact(left), writer.expression(right)]
    writer.define(instruction, comparison(both[0], sign, both[1]))


def select(writer, instruction):
    condition, left, right = instruction.operands
    if condition.type.kind == "vector":
        vectors.select(writer, instruction)
        return
    test = writer.expression(condition)
    if instruction.type.kind == "int" and instruction.type.bits == 1 and is_literal(right) and not right.value:
        made = binary(tested(test), "&&", tested(writer.expression(left)))
    elif instruction.type.kind == "int" and instruction.type.bits == 1 and left.kind == "int" and left.value:
        made = binary(tested(test), "||", tested(writer.expression(right)))
    elif instruction.type.kind == "int" and is_literal(left) and is_literal(right):
        made = conditional(test, writer.exact(left), writer.exact(right))
    else:
        made = conditional(test, writer.expression(left), writer.expression(right))
    writer.define(instruction, made)


def widen(writer, instruction):
    value, type_ = instruction.operands[0], instruction.type
    if type_.kind == "vector":
        vectors.convert(writer, instruction)
        return
    made = writer.expression(value)
    if holder(value.type.bits) != holder(type_.bits) and holder(type_.bits) > 16:
        made = cast(writer.types.name(type_), made)
    writer.define(instruction, made)


def widen_signed(writer, instruction):
    value, type_ = instruction.operands[0], instruction.type
    if type_.kind == "vector":
        vectors.convert(writer, instruction)
        return
    if value.type.bits == 1:
        bit = cast(writer.types.name(type_), writer.expression(value))
        made = binary(literal(0, holder(type_.bits)), "-", bit)
    else:
        made = cast(writer.types.name(type_), signed(writer, value))
    writer.define(instruction, wrapped(made, type_) if is_odd(type_) or type_.bits < 32 else made)


def narrow(writer, instruction):
    value, type_ = instruction.operands[0], instruction.type
    if type_.kind == "vector":
        vectors.convert(writer, instruction)
        return
    made = writer.expression(value)
    if is_odd(type_):
        made = binary(made, "&", mask(type_.bits))
        if holder(type_.bits) < 32 or holder(type_.bits) == holder(value.type.bits):
            writer.define(instruction, made)
            return
    writer.define(instruction, cast(writer.types.name(type_), made))


def to_number(writer, instruction):
    value, type_ = instruction.operands[0], instruction.type
    demand(value.type.kind == "ptr" and type_.kind == "int" and type_.bits == 64, f"{instruction.op} to {type_}", instruction)
    writer.define(instruction, cast("u64", writer.expression(value)))


def to_pointer(writer, instruction):
    value = instruction.operands[0]
    demand(value.type.kind == "int" and instruction.type.kind == "ptr", f"inttoptr of {value.type}", instruction)
    made = writer.exact(value)
    writer.define(instruction, cast("ptr", made if holder(value.type.bits) == 64 else cast("u64", made)))


def copy(writer, instruction):
    """freeze: any value is a good one where it was undefined."""
    made = writer.value(instruction.operands[0])
    if isinstance(made, Expression):
        writer.define(instruction, made)
    else:
        writer.values[instruction.result] = made
