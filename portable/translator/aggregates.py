"""Structs and arrays as values."""
from .expression import ATOM, UNARY, Expression
from .failure import Unknown


class Aggregate:
    """A struct or an array of which each part is known: an expression, an aggregate, or None where it is undefined."""

    def __init__(self, type_, parts):
        self.type, self.parts = type_, parts

    def with_part(self, path, part):
        at, *rest = path
        inner = self.parts[at]
        if rest:
            inner_type = part_type(self.type, at)
            inner = inner or Aggregate(inner_type, [None] * count_of(inner_type))
            part = inner.with_part(rest, part)
        return Aggregate(self.type, [*self.parts[:at], part, *self.parts[at + 1 :]])


def count_of(type_):
    return len(type_.fields) if type_.kind == "struct" else type_.count


def part_type(type_, at):
    return type_.fields[at] if type_.kind == "struct" else type_.of


def whole(writer, made):
    """An aggregate as one expression of C."""
    texts, reads = [], False
    for at, part in enumerate(made.parts):
        if isinstance(part, Aggregate):
            part = whole(writer, part)
        if part is None:
            type_ = part_type(made.type, at)
            part = Expression("0" if type_.is_scalar() else f"({writer.types.name(type_)}){{0}}")
        texts.append(part.text)
        reads = reads or part.reads
    inside = ", ".join(texts) or "0"
    inside = f"{{{inside}}}" if made.type.kind == "array" else inside
    return Expression(f"({writer.types.name(made.type)}){{{inside}}}", UNARY, reads)


def step(type_, at):
    return f".f{at}" if type_.kind == "struct" else f".f[{at}]"


def extract(writer, instruction):
    operand = instruction.operands[0]
    made, type_ = writer.value(operand), operand.type
    path = list(instruction.more["path"])
    while path and isinstance(made, Aggregate):
        at = path.pop(0)
        made, type_ = made.parts[at], part_type(type_, at)
    if made is None:
        made = Expression("0")
    if isinstance(made, Aggregate):
        writer.values[instruction.result] = made
        return
    if path:
        if not made.is_simple():
            made = writer.variable(type_, made)
        text = made.text
        for at in path:
            text += step(type_, at)
            type_ = part_type(type_, at)
        made = Expression(text, ATOM)
    writer.define(instruction, made)


def insert(writer, instruction):
    into, part = instruction.operands
    made = writer.value(into)
    if not isinstance(made, Aggregate):
        parts = [None] * count_of(into.type)
        if into.kind != "zero":
            text = made if made.is_simple() else writer.variable(into.type, made)
            parts = [Expression(text.text + step(into.type, at), ATOM) for at in range(len(parts))]
        made = Aggregate(into.type, parts)
    value = writer.value(part)
    if not isinstance(value, Aggregate) and not value.is_simple():
        value = writer.variable(part.type, value)
    if into.type.kind not in ("struct", "array"):
        raise Unknown(f"insertvalue into {into.type}", instruction.line)
    writer.values[instruction.result] = nested(writer, made, instruction.more["path"]).with_part(instruction.more["path"], value)


def nested(writer, made, path):
    """The aggregate with each one along the path opened, so that a part can be put in."""
    at, *rest = path
    if not rest:
        return made
    inner = made.parts[at]
    if isinstance(inner, Expression):
        type_ = part_type(made.type, at)
        name = inner if inner.is_simple() else writer.variable(type_, inner)
        inner = Aggregate(type_, [Expression(name.text + step(type_, index), ATOM) for index in range(count_of(type_))])
        made = Aggregate(made.type, [*made.parts[:at], inner, *made.parts[at + 1 :]])
    if inner is None:
        return made
    return Aggregate(made.type, [*made.parts[:at], nested(writer, inner, rest), *made.parts[at + 1 :]])
