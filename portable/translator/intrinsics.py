"""Intrinsics of LLVM."""
from . import memory, vectors
from .aggregates import Aggregate
from .expression import ATOM, Expression, binary, call, cast, conditional, literal, plain, unary
from .failure import Unknown
from .integers import signed, wrapped
from .layout import holder, is_odd

# They say something to LLVM alone.
SILENT = ("llvm.lifetime.", "llvm.assume", "llvm.experimental.noalias.scope.decl", "llvm.donothing", "llvm.invariant.")


def write(writer, instruction, name):
    if name.startswith(SILENT):
        return
    key = name.removeprefix("llvm.")
    for prefix, rule in RULES.items():
        if key == prefix or key.startswith(prefix + "."):
            rule(writer, instruction)
            return
    raise Unknown(f"the intrinsic {name}", instruction.line)


def of_integer(instruction, widths=None):
    type_ = instruction.operands[0].type
    if type_.kind != "int" or widths and type_.bits not in widths:
        raise Unknown("an intrinsic of this type", instruction.line)
    return type_


def smaller(sign, is_signed):
    """umin, umax, smin and smax."""

    def rule(writer, instruction):
        of_integer(instruction)
        left, right = instruction.operands
        names = [writer.named(left), writer.named(right)]
        if is_signed:
            test = binary(signed_again(left, names[0]), sign, signed_again(right, names[1]))
        else:
            test = binary(names[0], sign, names[1])
        writer.define(instruction, conditional(test, widened(left, names[0]), names[1]))

    return rule


def widened(operand, made):
    """A literal with its own type, so that what it is chosen against decides nothing."""
    if operand.kind in ("int", "zero"):
        return literal(operand.value or 0, holder(operand.type.bits))
    return made


def signed_again(operand, made):
    """The value of an operand that has a name as a signed integer."""

    class Named:
        expression = staticmethod(lambda _operand: made)

    return signed(Named, operand)


def absolute(writer, instruction):
    type_ = of_integer(instruction)
    operand = instruction.operands[0]
    made = writer.named(operand)
    test = binary(signed_again(operand, made), "<", Expression("0"))
    opposite = wrapped(binary(literal(0, holder(type_.bits)), "-", made), type_)
    writer.define(instruction, conditional(test, opposite, made))


def saturating(sign):
    """uadd.sat and usub.sat."""

    def rule(writer, instruction):
        if instruction.type.kind == "vector" and sign == "-":
            vectors.saturating_difference(writer, instruction)
            return
        type_ = of_integer(instruction)
        left, right = instruction.operands
        first, second = widened(left, writer.named(left)), writer.named(right)
        if sign == "-":
            made = conditional(binary(first, ">", second), wrapped(binary(first, "-", second), type_), plain(0))
        else:
            most = literal((1 << type_.bits) - 1, holder(type_.bits))
            total = wrapped(binary(first, "+", second), type_)
            made = conditional(binary(total, "<", first), most, total)
        writer.define(instruction, made)

    return rule


def signed_saturating(writer, instruction):
    """sadd.sat: the sum overflows if its sign differs from those of both operands."""
    type_ = of_integer(instruction)
    first, second = (widened(it, writer.named(it)) for it in instruction.operands)
    total = writer.variable(type_, wrapped(binary(first, "+", second), type_))
    highest = plain(type_.bits - 1)
    overflows = binary(binary(binary(total, "^", first), "&", binary(total, "^", second)), ">>", highest)
    most = literal((1 << type_.bits - 1) - 1, holder(type_.bits))
    limit = wrapped(binary(most, "+", binary(first, ">>", highest)), type_)
    writer.define(instruction, conditional(overflows, limit, total))


def overflowing(name, is_signed):
    """A sum, difference or product, and whether it overflowed."""

    def rule(writer, instruction):
        type_ = of_integer(instruction, (8, 16, 32, 64, 128))
        kind = "s" if is_signed else "u"
        both = [signed(writer, it) if is_signed else writer.exact(it) for it in instruction.operands]
        result, flag = writer.fresh(), writer.fresh()
        writer.declare(f"{kind}{type_.bits}", result)
        writer.declare("u8", f"{flag} = __builtin_{name}_overflow({both[0].text}, {both[1].text}, &{result})")
        made = Expression(result)
        if is_signed:
            made = writer.variable(type_, cast(f"u{type_.bits}", made))
        writer.values[instruction.result] = Aggregate(instruction.type, [made, Expression(flag)])

    return rule


def counted(name):
    """ctpop, ctlz and cttz, which answer the width for 0."""

    def rule(writer, instruction):
        type_ = of_integer(instruction)
        bits, full = type_.bits, 128 if type_.bits > 64 else 64
        made = writer.expression(instruction.operands[0])
        if name == "trailing_zeros" and bits != full:
            wide = cast(f"u{full}", made) if holder(bits) != full else made
            made = binary(wide, "|", literal(1 << bits, full))
        number = call(f"{name}128" if full == 128 else name, made)
        if name == "leading_zeros" and bits != full:
            number = binary(number, "-", plain(full - bits))
        writer.define(instruction, number if bits == 64 else cast(writer.types.name(type_), number))

    return rule


def swapped(writer, instruction):
    type_ = of_integer(instruction, (16, 32, 64))
    made = call(f"__builtin_bswap{type_.bits}", writer.expression(instruction.operands[0]))
    writer.define(instruction, cast(writer.types.name(type_), made))


def funnel(is_left):
    """fshl and fshr: a part of two words side by side."""

    def rule(writer, instruction):
        type_ = of_integer(instruction, (8, 16, 32, 64))
        name = f"{'shl' if is_left else 'shr'}{type_.bits}"
        writer.define(instruction, call(name, *map(writer.expression, instruction.operands)))

    return rule


def ordered(is_signed):
    """ucmp and scmp: -1, 0 or 1."""

    def rule(writer, instruction):
        of_integer(instruction)
        names = [writer.named(it) for it in instruction.operands]
        if is_signed:
            names = [signed_again(operand, made) for operand, made in zip(instruction.operands, names)]
        made = binary(binary(names[0], ">", names[1]), "-", binary(names[0], "<", names[1]))
        type_ = instruction.type
        if is_odd(type_):
            raise Unknown("a comparison of this type", instruction.line)
        writer.define(instruction, cast(writer.types.name(type_), made))

    return rule


def same(writer, instruction):
    """expect and arithmetic.fence: the first operand."""
    writer.define(instruction, writer.expression(instruction.operands[0]))


def without_sign(writer, instruction):
    if instruction.type.kind not in ("float", "double"):
        raise Unknown("fabs of this type", instruction.line)
    name = "__builtin_fabs" if instruction.type.kind == "double" else "__builtin_fabsf"
    writer.define(instruction, call(name, writer.expression(instruction.operands[0])))


def trap(writer, _instruction):
    writer.effect("__builtin_trap();")


def copier(name):
    return lambda writer, instruction: memory.copy(writer, instruction, name)


RULES = {
    "memcpy": copier("memcpy"),
    "memmove": copier("memmove"),
    "memset": copier("memset"),
    "umin": smaller("<", False),
    "umax": smaller(">", False),
    "smin": smaller("<", True),
    "smax": smaller(">", True),
    "abs": absolute,
    "uadd.sat": saturating("+"),
    "usub.sat": saturating("-"),
    "sadd.sat": signed_saturating,
    "uadd.with.overflow": overflowing("add", False),
    "usub.with.overflow": overflowing("sub", False),
    "umul.with.overflow": overflowing("mul", False),
    "sadd.with.overflow": overflowing("add", True),
    "ssub.with.overflow": overflowing("sub", True),
    "smul.with.overflow": overflowing("mul", True),
    "ctpop": counted("ones"),
    "ctlz": counted("leading_zeros"),
    "cttz": counted("trailing_zeros"),
    "bswap": swapped,
    "fshl": funnel(True),
    "fshr": funnel(False),
    "ucmp": ordered(False),
    "scmp": ordered(True),
    "expect": same,
    "arithmetic.fence": same,
    "fabs": without_sign,
    "trap": trap,
    "vector.reduce.or": vectors.bit_or,
    "x86.ssse3.pshuf.b.128": vectors.byte_shuffle,
}
