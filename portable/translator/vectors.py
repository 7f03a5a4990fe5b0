"""Vectors, by the vector types of gcc and clang. A lane of one bit is a byte of 0 or 1."""
from .expression import ATOM, BINARY, UNARY, Expression, binary, call, cast, unary
from .failure import Unknown
from .layout import holder, size

SIGNS = {"add": "+", "sub": "-", "mul": "*", "and": "&", "or": "|", "xor": "^", "udiv": "/", "urem": "%", "shl": "<<", "lshr": ">>"}
COMPARISONS = {"eq": "==", "ne": "!=", "gt": ">", "ge": ">=", "lt": "<", "le": "<="}


def of_integers(type_, instruction):
    if type_.of.kind != "int" or type_.of.bits not in (1, 8, 16, 32, 64):
        raise Unknown(f"{instruction.op} of {type_}", instruction.line)


def arithmetic(writer, instruction):
    op, type_ = instruction.op, instruction.type
    of_integers(type_, instruction)
    if type_.of.bits == 1 and op not in ("and", "or", "xor"):
        raise Unknown(f"{op} of {type_}", instruction.line)
    left, right = map(writer.expression, instruction.operands)
    if op in ("shl", "lshr", "ashr") and instruction.operands[1].kind == "local":
        right = binary(right, "&", splat(writer, type_, type_.of.bits - 1))
    if op == "ashr":
        name = writer.types.name(type_)
        made = cast(name, binary(cast(f"s{name}", left), ">>", cast(f"s{name}", right)))
    elif op in SIGNS:
        made = binary(left, SIGNS[op], right)
    else:
        raise Unknown(f"{op} of {type_}", instruction.line)
    writer.define(instruction, made)


def splat(writer, type_, number):
    lanes = ", ".join([str(number)] * type_.count)
    return Expression(f"({writer.types.name(type_)}){{{lanes}}}", UNARY)


def compare(writer, instruction):
    type_ = instruction.operands[0].type
    of_integers(type_, instruction)
    condition, name = instruction.more["condition"], writer.types.name(type_)
    both = [writer.expression(it) for it in instruction.operands]
    if condition[0] == "s":
        both = [cast(f"s{name}", it) for it in both]
    made = unary("-", Expression(f"({name})({binary(both[0], COMPARISONS[condition[-2:]], both[1]).text})", UNARY))
    if type_.of.bits > 8:
        made = call("__builtin_convertvector", made, Expression(writer.types.name(instruction.type)))
    writer.define(instruction, made)


def all_ones(writer, bits, like):
    """A vector of 0 and 1 as one of lanes like another's whose bits are all 0 or all 1."""
    name = writer.types.name(like)
    if holder(like.of.bits) > 8:
        bits = call("__builtin_convertvector", bits, Expression(name))
    return unary("-", bits)


def select(writer, instruction):
    of_integers(instruction.type, instruction)
    condition, left, right = instruction.operands
    mask = writer.variable(instruction.type, all_ones(writer, writer.expression(condition), instruction.type))
    first, second = writer.expression(left), writer.expression(right)
    writer.define(instruction, binary(binary(first, "&", mask), "|", binary(second, "&", unary("~", mask))))


def convert(writer, instruction):
    """zext, sext and trunc."""
    value, type_ = instruction.operands[0], instruction.type
    of_integers(value.type, instruction)
    of_integers(type_, instruction)
    made, name = writer.expression(value), Expression(writer.types.name(type_))
    if type_.of.bits == 1:
        raise Unknown("trunc to lanes of one bit", instruction.line)
    if instruction.op == "sext" and value.type.of.bits == 1:
        made = all_ones(writer, made, type_)
    elif instruction.op == "sext":
        signed = cast(f"s{writer.types.name(value.type)}", made)
        made = cast(name.text, call("__builtin_convertvector", signed, Expression(f"s{name.text}")))
    elif writer.types.name(value.type) != name.text:
        made = call("__builtin_convertvector", made, name)
    writer.define(instruction, made)


def bits_cast(writer, instruction):
    """bitcast, also of scalars."""
    value, type_ = instruction.operands[0], instruction.type
    if value.type == type_:
        writer.define(instruction, writer.expression(value))
    elif value.type.kind == "vector" and value.type.of.bits == 1:
        if type_.kind != "int" or type_.bits != value.type.count:
            raise Unknown("bitcast of lanes of one bit", instruction.line)
        made = call("bits_of_lanes", Expression(f"&{writer.named(value).text}"), Expression(str(value.type.count)))
        writer.define(instruction, cast(writer.types.name(type_), made))
    elif type_.kind == "vector" and type_.of.bits == 1 or size(value.type) != size(type_):
        raise Unknown(f"bitcast from {value.type} to {type_}", instruction.line)
    elif value.type.kind == type_.kind == "vector":
        writer.define(instruction, cast(writer.types.name(type_), writer.expression(value)))
    else:
        copied(writer, instruction)


def copied(writer, instruction):
    """The result has the bytes of the value."""
    value = writer.expression(instruction.operands[0])
    if value.text[0] != "v" or not value.is_simple():
        value = writer.variable(instruction.operands[0].type, value)
    name = writer.fresh()
    writer.declare(writer.types.name(instruction.type), name)
    writer.put(f"memcpy(&{name}, &{value.text}, {size(instruction.type)});")
    writer.values[instruction.result] = Expression(name)


def shuffle(writer, instruction):
    left, right = instruction.operands
    lanes, count = instruction.more["lanes"], left.type.count
    of_integers(left.type, instruction)
    first = writer.named(left).text
    second = writer.named(right).text if any(lane >= count for lane in lanes) else first
    each = ", ".join(f"{first}[{lane}]" if lane < count else f"{second}[{lane - count}]" for lane in lanes)
    numbers = ", ".join(map(str, lanes))
    text = f"SHUFFLE({writer.types.name(instruction.type)}, {first}, {second}, ({each}), {numbers})"
    writer.define(instruction, Expression(text, ATOM))


def extract(writer, instruction):
    whole, index = instruction.operands
    text = f"{writer.named(whole).text}[{writer.expression(index).text}]"
    writer.define(instruction, Expression(text, ATOM))


def insert(writer, instruction):
    whole, part, index = instruction.operands
    value, at = writer.expression(part).text, writer.expression(index).text
    made = writer.variable(instruction.type, writer.expression(whole))
    writer.put(f"{made.text}[{at}] = {value};")
    writer.values[instruction.result] = made


def saturating_difference(writer, instruction):
    left, right = (writer.named(it) for it in instruction.operands)
    name = writer.types.name(instruction.type)
    test = Expression(f"({name})({left.text} > {right.text})", UNARY)
    writer.define(instruction, binary(test, "&", binary(left, "-", right)))


def bit_or(writer, instruction):
    """vector.reduce.or of lanes of one bit."""
    value = instruction.operands[0]
    made = call("bits_of_lanes", Expression(f"&{writer.named(value).text}"), Expression(str(value.type.count)))
    writer.define(instruction, Expression(f"{made.text} != 0", BINARY))


def byte_shuffle(writer, instruction):
    """What x86-64 does by pshufb."""
    made = call("byte_shuffle", *map(writer.expression, instruction.operands))
    writer.define(instruction, made)
