"""Types, and how they lie in memory on every processor that the C is for: 64-bit pointers, the low byte first."""
from dataclasses import dataclass

from .failure import Unknown


@dataclass(frozen=True)
class Type:
    """A type of LLVM: `kind` is int, ptr, void, float, double, struct, array or vector."""

    kind: str
    bits: int = 0
    count: int = 0
    of: "Type | None" = None
    fields: tuple = ()
    packed: bool = False

    def __str__(self):
        if self.kind == "int":
            return f"i{self.bits}"
        if self.kind == "struct":
            inside = ", ".join(map(str, self.fields))
            return f"<{{{inside}}}>" if self.packed else f"{{{inside}}}"
        if self.kind in ("array", "vector"):
            return f"{self.kind} of {self.count} {self.of}"
        return self.kind

    def is_scalar(self):
        return self.kind in ("int", "ptr", "float", "double")


PTR, VOID, FLOAT, DOUBLE, BIT = Type("ptr"), Type("void"), Type("float"), Type("double"), Type("int", bits=1)
SCALAR_SIZES = {"ptr": 8, "double": 8, "float": 4}


def integer(bits):
    return Type("int", bits=bits)


def holder(bits):
    """The width of the C integer that holds one of so many bits."""
    for width in (8, 16, 32, 64, 128):
        if bits <= width:
            return width
    raise Unknown("an integer of more than 128 bits", f"i{bits}")


def up(number, step):
    return (number + step - 1) // step * step


def size(type_):
    """The bytes that a value takes as an element of an array."""
    if type_.kind == "int":
        return holder(type_.bits) // 8
    if type_.kind in SCALAR_SIZES:
        return SCALAR_SIZES[type_.kind]
    if type_.kind in ("array", "vector"):
        if type_.kind == "vector" and (type_.of.kind == "int" and type_.of.bits not in (8, 16, 32, 64)):
            raise Unknown("the size of a vector", str(type_))
        return size(type_.of) * type_.count
    if type_.kind == "struct":
        end = max((at + size(field) for at, field in zip(offsets(type_), type_.fields)), default=0)
        return up(end, alignment(type_))
    raise Unknown("the size of a type", str(type_))


def alignment(type_):
    if type_.kind == "array":
        return alignment(type_.of)
    if type_.kind == "struct":
        return 1 if type_.packed else max(map(alignment, type_.fields), default=1)
    return size(type_)


def offsets(type_):
    """Where each field of a struct begins."""
    found, at = [], 0
    for field in type_.fields:
        at = at if type_.packed else up(at, alignment(field))
        found.append(at)
        at += size(field)
    return found


def stored(type_):
    """The bytes that a load or a store of an integer touches."""
    return (type_.bits + 7) // 8


def is_odd(type_):
    """Whether an integer is narrower than the C integer that holds it."""
    return type_.kind == "int" and holder(type_.bits) != type_.bits
