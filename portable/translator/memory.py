"""Loads, stores, addresses, and copies of memory."""
from .aggregates import Aggregate, whole
from .expression import ATOM, BINARY, UNARY, Expression, binary, call, cast
from .failure import Unknown
from .integers import mask
from .layout import alignment, holder, is_odd, offsets, size, stored
from .reader import signed_value

ACCESSED = {"ptr": "p", "float": "f", "double": "d"}


def moved(base, offset):
    """An address some bytes from another, in the object that has it."""
    if base.base is not None:
        text, offset = base.base, base.offset + offset
    else:
        text = base.within(UNARY)
    if offset == 0:
        return base if base.base is None else Expression(text, ATOM if text.isidentifier() else UNARY, base.reads, text, 0)
    sign = "+" if offset > 0 else "-"
    return Expression(f"{text}{sign}{abs(offset)}", BINARY, base.reads, text, offset)


def suffix(type_):
    return str(holder(type_.bits)) if type_.kind == "int" else ACCESSED[type_.kind]


def is_aligned(type_, aligned):
    return aligned >= alignment(type_)


def odd_bytes(type_):
    """Whether an integer has another number of bytes in memory than the C integer that holds it."""
    return type_.kind == "int" and stored(type_) != holder(type_.bits) // 8


def read(writer, type_, place, aligned):
    """The value of a type that lies somewhere: an expression or an aggregate."""
    if type_.kind == "struct":
        parts = [
            read(writer, field, moved(place, at), min(aligned, at & -at) if at else aligned)
            for at, field in zip(offsets(type_), type_.fields)
        ]
        return whole(writer, Aggregate(type_, parts))
    if type_.kind == "array":
        wide = size(type_.of)
        parts = [read(writer, type_.of, moved(place, at * wide), min(aligned, wide & -wide)) for at in range(type_.count)]
        return whole(writer, Aggregate(type_, parts))
    if type_.kind == "vector":
        made = Expression(f"LOAD_VECTOR({writer.types.name(type_)}, {place.text})")
    elif odd_bytes(type_):
        made = cast(writer.types.name(type_), Expression(f"ld_bytes({place.text}, {stored(type_)})"))
    else:
        made = Expression(f"{'ld' if is_aligned(type_, aligned) else 'lu'}{suffix(type_)}({place.text})")
    if is_odd(type_) and type_.bits > 1:
        made = binary(made, "&", mask(type_.bits))
    return made._replace(reads=True)


def load(writer, instruction):
    place = writer.expression(instruction.operands[0])
    if instruction.type.kind in ("struct", "array") and not place.is_simple() and place.base is None:
        place = writer.variable(instruction.operands[0].type, place)
    made = read(writer, instruction.type, place, instruction.more["alignment"])
    writer.define(instruction, made)


def store(writer, instruction):
    value, target = instruction.operands
    made, place = writer.value(value), writer.expression(target)
    if value.type.kind in ("struct", "array") and not isinstance(made, Aggregate) and not made.is_simple():
        made = writer.variable(value.type, made)
    if value.type.kind in ("struct", "array") and not place.is_simple() and place.base is None:
        place = writer.variable(target.type, place)
    writer.flush()
    for text in stores(writer, value.type, made, place, instruction.more["alignment"]):
        writer.put(text)


def stores(writer, type_, value, place, aligned):
    """The statements that write a value."""
    if type_.kind in ("struct", "array"):
        if type_.kind == "struct":
            fields = list(zip(offsets(type_), type_.fields))
        else:
            fields = [(at * size(type_.of), type_.of) for at in range(type_.count)]
        for number, (at, field) in enumerate(fields):
            if isinstance(value, Aggregate):
                part = value.parts[number]
            elif value.text.endswith("{0}"):
                part = Expression("0" if field.is_scalar() else "{0}")
            else:
                part = Expression(value.text + (f".f{number}" if type_.kind == "struct" else f".f[{number}]"))
            if part is not None:
                yield from stores(writer, field, part, moved(place, at), min(aligned, at & -at) if at else aligned)
    elif type_.kind == "vector":
        yield f"STORE_VECTOR({writer.types.name(type_)}, {place.text}, ({value.text}));"
    elif odd_bytes(type_):
        yield f"st_bytes({place.text}, {value.text}, {stored(type_)});"
    else:
        yield f"{'st' if is_aligned(type_, aligned) else 'su'}{suffix(type_)}({place.text}, {value.text});"


def element(writer, instruction):
    """An address by indices."""
    base, *indices = instruction.operands
    steps = instruction.more["type"]
    made, constant, first = writer.expression(base), 0, True
    for index in indices:
        if not first and steps.kind == "struct":
            at = signed_value(index)
            constant += offsets(steps)[at]
            steps = steps.fields[at]
            continue
        steps = steps if first else steps.of
        first = False
        if index.kind in ("int", "zero"):
            constant += signed_value(index) * size(steps)
        else:
            made = indexed(writer, made, index, size(steps))
    writer.define(instruction, moved(made, constant))


def indexed(writer, base, index, wide):
    """An address at a distance that is calculated. LLVM may calculate one that leaves its object, and then not use it; C has no
    such pointers, so the sum is one of numbers."""
    if index.type.bits != 64:
        raise Unknown("an index that has not 64 bits", str(index))
    number = writer.exact(index)
    return call("at", base, number if wide == 1 else binary(number, "*", Expression(str(wide))))


def copy(writer, instruction, name):
    """memcpy, memmove and memset, which C does not define for no bytes at a null pointer."""
    target, source, count = (writer.expression(it) for it in instruction.operands[:3])
    if instruction.operands[2].kind in ("int", "zero") and not instruction.operands[2].value:
        return
    if name == "memset" and source.text == "0":
        writer.flush()
        if not writer.clears(target.text, count.text):
            writer.put(f"clear({target.text}, {count.text});")
    else:
        used = {"memcpy": "copy", "memmove": "move", "memset": "fill"}[name]
        writer.effect(f"{used}({target.text}, {source.text}, {count.text});")


def same(writer, instruction):
    """memcmp and bcmp."""
    made = call("compare", *map(writer.expression, instruction.operands))
    writer.define(instruction, cast("u32", made)._replace(reads=True))
