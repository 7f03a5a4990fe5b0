"""A module of LLVM as it was read."""
from dataclasses import dataclass, field

from .layout import Type


@dataclass(frozen=True)
class Operand:
    """A value that an instruction takes.

    `kind` is local (`value` is its name), int, real (its bits), zero (of any type; undefined values too), global (its name
    and `offset`), address (of a number), parts (operands of an aggregate) or text (bytes).
    """

    type: Type
    kind: str
    value: object = None
    offset: int = 0


@dataclass
class Instruction:
    """`type` is the result's; `more` is what the instruction has beside its operands."""

    op: str
    result: str | None
    type: Type
    operands: list
    line: str
    more: dict = field(default_factory=dict)


@dataclass
class Block:
    name: str
    instructions: list = field(default_factory=list)
    phis: list = field(default_factory=list)


@dataclass
class Function:
    name: str
    type: Type
    parameters: list  # of pairs of a type and a local's name
    is_local: bool
    attributes: set
    blocks: list = field(default_factory=list)


@dataclass
class Global:
    name: str
    type: Type
    is_constant: bool
    alignment: int
    value: Operand


@dataclass
class Declaration:
    name: str
    type: Type
    parameters: list  # of types
    is_variadic: bool


@dataclass
class Module:
    globals: list
    functions: list
    declarations: dict
