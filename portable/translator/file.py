"""Writes a whole file of C."""
import os
import re

from . import data
from .c_types import Types
from .expression import UNARY, Expression
from .function import FunctionWriter
from .memory import moved
from .names import OF_C, OF_HEAP, Names

WORD = re.compile(r"\w+")
HERE = os.path.dirname(os.path.abspath(__file__))


class File:
    """What the functions of one file share: types, names and data."""

    def __init__(self, module):
        self.module, self.types, self.names = module, Types(), Names(module)
        self.data = {made.name: made for made in module.globals}

    def address(self, name, offset):
        """The address of a function or of a place in data."""
        text = self.names[name]
        is_struct = name in self.data and data.has_address(self.data[name].value)
        base = f"(ptr)&{text}" if is_struct else f"(ptr){text}"
        return moved(Expression(base, UNARY), offset)

    def arity(self, declared):
        """How many parameters a function of the system has, with those that it may be called without."""
        return len(declared.parameters) + 1

    def externs(self):
        """The functions of the system that the module calls."""
        for name, declared in self.module.declarations.items():
            plain = name[1:]
            if plain.startswith("llvm.") or plain in OF_C or plain in OF_HEAP:
                continue
            types = [self.types.name(it) for it in declared.parameters] + ["u32"] * declared.is_variadic
            yield f"{self.types.name(declared.type)} {self.names[name]}({', '.join(types) or 'void'});"

    def text(self, head):
        """The file, with the comment that it begins with."""
        functions = [FunctionWriter(self, function) for function in self.module.functions]
        bodies = {self.names[function.function.name]: function.text() for function in functions}
        heads = {self.names[function.function.name]: f"{function.head()};" for function in functions}
        externs = list(self.externs())
        defined = data.definitions(self)
        order = callees_first(bodies)
        shown = {self.names[function.name] for function in self.module.functions if not function.is_local}
        early = shown | used_early(order, bodies) | named_in("\n".join(defined), bodies)
        declared = [head for name, head in heads.items() if name in early]
        with open(f"{HERE}/prelude.h", encoding="utf-8") as it:
            prelude = it.read()
        parts = [head + prelude, *self.types.definitions, "", *externs, "", *declared, "", *defined, "", *map(bodies.get, order)]
        return "\n".join([*parts, "#endif"]) + "\n"


def named_in(text, names):
    """Those of the names that a text has as words, in the order of the text."""
    return {word: None for word in WORD.findall(text) if word in names}.keys()


def callees_first(bodies):
    """The names of functions, each behind those that its body names, as far as these do not lead back to it."""
    order, seen = [], set()
    for first in bodies:
        stack = [(first, None)]
        while stack:
            name, left = stack.pop()
            if left is None:
                if name in seen:
                    continue
                seen.add(name)
                left = list(named_in(bodies[name], bodies))[::-1]
            if left:
                stack += [(name, left[:-1]), (left[-1], None)]
            else:
                order.append(name)
    return order


def used_early(order, bodies):
    """The functions that another one names before they are defined."""
    defined, found = set(), set()
    for name in order:
        defined.add(name)
        found |= named_in(bodies[name], bodies) - defined
    return found
