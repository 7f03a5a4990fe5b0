"""Writes a function: which values become variables, which stand where they are used, and in which order blocks come.

A value that is used once, in its own block, is written where it is used, unless it reads memory and something is written in
between. An address that is a constant away from another is written at each use. All other values are variables.
"""
import re
from collections import Counter

from . import flow
from .aggregates import Aggregate, whole
from .expression import ATOM, UNARY, Expression, binary, cast, literal, plain
from .failure import Unknown
from .layout import holder, size
from .reals import real_literal
from .writers import WRITERS

WORD = re.compile(r"\w+")
LONGEST_INSIDE = 90
LONGEST_AGAIN = 12
LONGEST_LINE = 100


class FunctionWriter:
    def __init__(self, file, function):
        self.file, self.function, self.types, self.names = file, function, file.types, file.names
        self.values, self.pending = {}, {}
        self.heads, self.rooms, self.cleared, self.lines, self.count = [], {}, set(), [], 0
        self.declared, self.jumps = None, {}
        self.uses, self.used_in = uses_of(function)
        self.block = self.following = None
        self.blocks = flow.ordered(function)
        self.labels = flow.labels_of(self.blocks)
        self.phis = {block.name: block.phis for block in self.blocks}

    # Values

    def fresh(self):
        self.count += 1
        return f"v{self.count}"

    def value(self, operand):
        """What an operand is in C: an expression, or an aggregate whose parts are known."""
        if operand.kind == "local":
            self.pending.pop(operand.value, None)
            if operand.value not in self.values:
                raise Unknown("a value before its definition", operand.value)
            return self.values[operand.value]
        return self.constant(operand)

    def expression(self, operand):
        made = self.value(operand)
        return whole(self, made) if isinstance(made, Aggregate) else made

    def constant(self, operand):
        type_ = operand.type
        if operand.kind == "int":
            return plain(operand.value)
        if operand.kind == "zero" and type_.kind == "int":
            return plain(0)
        if type_.kind == "ptr":
            return self.pointer(operand)
        if type_.kind in ("float", "double"):
            return real_literal(operand.value or 0, type_)
        if operand.kind == "zero":
            return Expression(f"({self.types.name(type_)}){{0}}", UNARY)
        if operand.kind == "number of":
            return cast("u64", self.pointer(operand.value))
        if operand.kind == "calculated" and type_.bits == 64:
            sign, left, right = operand.value
            return binary(self.exact(left), sign, self.exact(right))
        if operand.kind == "parts" and type_.kind == "vector":
            lanes = ", ".join(self.constant(it).text for it in operand.value)
            return Expression(f"({self.types.name(type_)}){{{lanes}}}", UNARY)
        if operand.kind == "parts" and type_.kind == "struct":
            return Aggregate(type_, [self.constant(it) for it in operand.value])
        raise Unknown("a constant in a function", f"{operand}")

    def pointer(self, operand):
        if operand.kind == "zero":
            return Expression("(ptr)0", UNARY)
        if operand.kind == "address":
            return Expression(f"(ptr){literal(operand.value, 64).text}", UNARY)
        return self.file.address(operand.value, operand.offset)

    def exact(self, operand):
        """An integer with its own type, also where it is a literal."""
        if operand.kind in ("int", "zero"):
            return literal(operand.value or 0, holder(operand.type.bits))
        return self.expression(operand)

    # Statements

    def put(self, text):
        self.declared = None
        self.lines.append(f"\t{text}")

    def declare(self, type_name, text):
        """Puts a declaration: into the one before it if that has the same type. Before C23, a label cannot stand before one."""
        last = self.lines[-1] if self.lines else ""
        if self.declared == type_name and len(last) + len(text) < LONGEST_LINE:
            self.lines[-1] = f"{last[:-1]}, {text};"
            return
        if last.endswith(":"):
            self.lines[-1] += ";"
        self.put(f"{type_name} {text};")
        self.declared = type_name

    def variable(self, type_, expression):
        """Puts the value into a variable of its own, and gives that."""
        name = self.fresh()
        self.declare(self.types.name(type_), f"{name} = {expression.text}")
        return Expression(name)

    def named(self, operand):
        """The operand where it has to be named more than once."""
        made = self.expression(operand)
        return made if made.is_simple() else self.variable(operand.type, made)

    def define(self, instruction, expression):
        """Notes what an instruction's result is, and writes a variable where it has to be one."""
        name = instruction.result
        uses = self.uses[name]
        if not uses:
            return
        again = not expression.reads and len(expression.text) <= LONGEST_AGAIN and (
            expression.base is not None or expression.level <= UNARY and "(" not in expression.text.removeprefix("(ptr)")
        )
        inside = uses == 1 and self.used_in[name] == self.block and len(expression.text) <= LONGEST_INSIDE
        if again or inside:
            self.values[name] = expression
            if expression.reads:
                self.pending[name] = instruction.type
        else:
            self.values[name] = self.variable(instruction.type, expression)

    def flush(self):
        """Reads what is still to be read, before something is written."""
        for name, type_ in list(self.pending.items()):
            self.values[name] = self.variable(type_, self.values[name])
        self.pending.clear()

    def effect(self, text):
        """A statement that may write memory, or leave the function."""
        self.flush()
        self.put(text)

    # The whole

    def text(self):
        head = self.head()
        for type_, name in self.function.parameters:
            self.values[name] = Expression(self.fresh())
        self.declare_phis()
        for at, block in enumerate(self.blocks):
            self.block = block.name
            self.pending.clear()  # what is left is read by nothing
            self.following = self.blocks[at + 1].name if at + 1 < len(self.blocks) else None
            if block.name in self.labels:
                self.lines.append(f"{self.labels[block.name]}:")
                self.declared = None
            for number, instruction in enumerate(block.instructions):
                self.next = block.instructions[number + 1] if number + 1 < len(block.instructions) else None
                self.write(instruction)
        return flow.with_starts(self, "\n".join([f"{head} {{", *self.heads, *self.rooms_declared(), *self.lines, "}"]))

    def write(self, instruction):
        if instruction.op not in WRITERS:
            raise Unknown(f"the instruction {instruction.op}", instruction.line)
        WRITERS[instruction.op](self, instruction)

    def declare_phis(self):
        """Variables for what each block takes from the one before it, those of one type in one line."""
        names = {}
        for block in self.blocks:
            for phi in block.phis:
                self.values[phi.result] = Expression(self.fresh())
                names.setdefault(self.types.name(phi.type), []).append(self.values[phi.result].text)
        for type_, found in names.items():
            self.heads.append(f"\t{type_} {', '.join(found)};")

    def head(self):
        """The function's declaration, without what follows it."""
        function = self.function
        parameters = ", ".join(f"{self.types.name(type_)} v{at + 1}" for at, (type_, _) in enumerate(function.parameters))
        marks = {"noinline": "APART ", "cold": "RARE "}
        words = "static " if function.is_local else ""
        words += "".join(macro for attribute, macro in marks.items() if attribute in function.attributes)
        result = self.types.name(function.type)
        if not function.is_local and result == "u32":
            result = "int32_t"
        return f"{words}{result} {self.names[function.name]}({parameters or 'void'})"

    def room(self, instruction):
        """A variable for what an alloca gives."""
        if flow.comes_again(self.function, self.block):
            raise Unknown("an alloca in a loop", instruction.line)
        wide = max(size(instruction.more["type"]), 1)
        name = self.fresh()
        self.rooms[name] = (instruction.more["alignment"], wide)
        self.values[instruction.result] = Expression(name, ATOM, False, name, 0)

    def clears(self, target, count):
        """Whether a room begins with zeros: the first block sets all of it to 0, before anything else uses it. Notes that it does."""
        if target not in self.rooms or str(self.rooms[target][1]) != count or self.block != self.blocks[0].name:
            return False
        if any(target in WORD.findall(line) for line in self.lines):
            return False
        self.cleared.add(target)
        return True

    def rooms_declared(self):
        found = {}
        for name, (aligned, wide) in self.rooms.items():
            found.setdefault(aligned, []).append(f"{name}[{wide}]{' = {0}' if name in self.cleared else ''}")
        return [f"\t_Alignas({aligned}) u8 {', '.join(names)};" for aligned, names in found.items()]


def uses_of(function):
    """How often each local is used, and in which block if it is one."""
    uses, used_in = Counter(), {}

    def note(name, block):
        uses[name] += 1
        used_in[name] = block if used_in.get(name, block) == block else None

    for block in function.blocks:
        for phi in block.phis:
            for operand, before in zip(phi.operands, phi.more["blocks"]):
                if operand.kind == "local":
                    note(operand.value, before)
        for instruction in block.instructions:
            for operand in instruction.operands:
                if operand.kind == "local":
                    note(operand.value, block.name)
            if instruction.more.get("callee", "")[:1] == "%":
                note(instruction.more["callee"], block.name)
    return uses, used_in
