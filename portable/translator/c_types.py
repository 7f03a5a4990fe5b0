"""How types of LLVM are called in C."""
from .failure import Unknown
from .layout import Type, holder, integer, size

SHORT = {"ptr": "p", "float": "f", "double": "d"}


def short(type_):
    """A scalar's part of a name."""
    return str(holder(type_.bits)) if type_.kind == "int" else SHORT[type_.kind]


class Types:
    """The types of one file, with a definition for each that prelude.h has not, in the order in which they are needed."""

    def __init__(self):
        pair, bytes_ = Type("struct", fields=(integer(64), integer(64))), Type("vector", count=16, of=integer(8))
        self.names, self.definitions = {pair: "t_64_64", bytes_: "v16u8"}, []

    def name(self, type_):
        if type_.kind == "int":
            return f"u{holder(type_.bits)}"
        if type_.kind in ("ptr", "void", "float", "double"):
            return type_.kind
        if type_ not in self.names:
            self.names[type_] = self.defined(type_)
        return self.names[type_]

    def defined(self, type_):
        if type_.kind == "vector":
            return self.vector(type_)
        inside = [self.name(it) for it in (type_.fields if type_.kind == "struct" else [type_.of])]
        few = type_.kind == "struct" and 0 < len(type_.fields) <= 4 and all(it.is_scalar() for it in type_.fields)
        made = "t_" + "_".join(map(short, type_.fields)) if few and not type_.packed else f"t{len(self.names)}"
        if made in self.names.values():
            made = f"t{len(self.names)}"
        if type_.kind == "struct":
            body = " ".join(f"{it} f{at};" for at, it in enumerate(inside)) or "u8 none;"
        elif type_.kind == "array":
            body = f"{inside[0]} f[{type_.count or 1}];"
        else:
            raise Unknown("a type", str(type_))
        self.definitions.append(f"typedef struct {{ {body} }} {made};")
        return made

    def vector(self, type_):
        """A vector, whose lanes of one bit are bytes of 0 or 1, and one with signed lanes."""
        lanes = self.name(type_.of)
        made = f"v{type_.count}{lanes}"
        if made in self.names.values():
            return made
        wide = type_.count * (holder(type_.of.bits) // 8 if type_.of.kind == "int" else size(type_.of))
        if wide & (wide - 1):
            raise Unknown("a vector whose length is no power of two", str(type_))
        self.definitions.append(f"typedef {lanes} {made} __attribute__((vector_size({wide})));")
        if lanes[0] == "u":
            self.definitions.append(f"typedef s{lanes[1:]} s{made} __attribute__((vector_size({wide})));")
        return made
