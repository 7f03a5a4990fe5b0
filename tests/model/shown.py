"""Makes the texts of values as `Debug` writes them."""


class Value:
    """A struct or a variant: its name, and its fields, each with a name or none."""

    def __init__(self, name, *parts, **fields):
        self.name, self.parts, self.fields = name, parts, fields


class Lent(bytes):
    """The bytes of `CowBytes::Borrowed`."""


ESCAPES = {"\0": r"\0", "\t": r"\t", "\n": r"\n", "\r": r"\r", '"': r"\"", "\\": r"\\"}


def character(one):
    if one in ESCAPES:
        return ESCAPES[one]
    return one if one.isprintable() else f"\\u{{{ord(one):x}}}"


def shown(it):
    """Returns the text of a number, a string, bytes, a list or a value."""
    if isinstance(it, Lent):
        return f"Borrowed({shown(list(it))})"
    if isinstance(it, bytes):
        return shown(list(it))
    if isinstance(it, str):
        return '"' + "".join(map(character, it)) + '"'
    if isinstance(it, list):
        return "[" + ", ".join(map(shown, it)) + "]"
    if isinstance(it, int):
        return str(it)
    if it.fields:
        return it.name + " { " + ", ".join(f"{name}: {shown(part)}" for name, part in it.fields.items()) + " }"
    if it.parts:
        return it.name + "(" + ", ".join(map(shown, it.parts)) + ")"
    return it.name
