"""Types and operands, out of the tokens of a line."""
import re
import struct

from .failure import Unknown
from .ir import Operand
from .layout import DOUBLE, FLOAT, PTR, VOID, Type, integer, offsets, size

INTEGER = re.compile(r"i\d+")
NUMBER = re.compile(r"-?\d+")
NAMED = {"ptr": PTR, "void": VOID, "float": FLOAT, "double": DOUBLE}
# Words before a parameter, a result or an argument that change neither its value nor how C passes it.
PLAIN = set(
    "noundef nonnull noalias readonly writeonly readnone returned immarg zeroext signext nofree writable nocapture noext"
    " dead_on_unwind dead_on_return".split()
)
NUMBERED = {"align"}
CALCULATED = {"add": "+", "sub": "-", "xor": "^"}
BRACKETED = {"captures", "range", "dereferenceable", "dereferenceable_or_null", "initializes", "memory"}


class Reader:
    """Goes over the tokens of a line."""

    def __init__(self, tokens, line):
        self.tokens, self.line, self.at = tokens, line, 0

    def peek(self, ahead=0):
        at = self.at + ahead
        return self.tokens[at] if at < len(self.tokens) else ""

    def next(self):
        self.at += 1
        if self.at > len(self.tokens):
            raise Unknown("the end of a line", self.line)
        return self.tokens[self.at - 1]

    def eat(self, *words):
        """Takes the next token if it is one of these words."""
        if self.peek() in words:
            self.at += 1
            return True
        return False

    def need(self, word):
        if not self.eat(word):
            raise Unknown(f"'{self.peek()}' in the place of '{word}'", self.line)

    def skip_brackets(self):
        """Takes what stands in brackets up to the one that closes."""
        self.need("(")
        depth = 1
        while depth:
            depth += {"(": 1, ")": -1}.get(self.next(), 0)

    def skip_attributes(self):
        """Takes the attributes of a parameter, a result or an argument."""
        while True:
            if self.eat(*PLAIN):
                continue
            if self.eat(*NUMBERED):
                if self.peek() == "(":
                    self.skip_brackets()
                else:
                    self.next()
            elif self.eat(*BRACKETED):
                self.skip_brackets()
            else:
                return

    def type(self):
        word = self.next()
        if word in NAMED:
            return NAMED[word]
        if INTEGER.fullmatch(word):
            return integer(int(word[1:]))
        if word == "{":
            return Type("struct", fields=self.types("}"))
        if word == "<" and self.eat("{"):
            made = Type("struct", fields=self.types("}"), packed=True)
            self.need(">")
            return made
        if word in "[<":
            count = int(self.next())
            self.need("x")
            made = Type("array" if word == "[" else "vector", count=count, of=self.type())
            self.need("]" if word == "[" else ">")
            return made
        raise Unknown(f"the type {word}", self.line)

    def types(self, end):
        found = []
        while not self.eat(end):
            found.append(self.type())
            self.eat(",")
        return tuple(found)

    def typed(self):
        """An operand with its type before it."""
        type_ = self.type()
        self.skip_attributes()
        return self.operand(type_)

    def operand(self, type_):
        word = self.next()
        if word[0] == "%":
            return Operand(type_, "local", word)
        if word in ("undef", "poison", "zeroinitializer", "null"):
            return Operand(type_, "zero")
        if type_.kind == "int" and (word in ("true", "false") or NUMBER.fullmatch(word)):
            number = {"true": 1, "false": 0}.get(word)
            return Operand(type_, "int", (int(word) if number is None else number) % (1 << type_.bits))
        if type_.kind in ("float", "double"):
            return Operand(type_, "real", self.real(word, type_))
        if type_.kind == "ptr":
            return self.address(word)
        return self.parts(word, type_)

    def real(self, word, type_):
        """The bits of a number with a point."""
        if word.startswith("0x") and word[2:3] not in "HKLMR":
            bits = int(word, 16)
        elif re.fullmatch(r"-?\d+\.\d+(e[+-]?\d+)?", word):
            bits = int.from_bytes(struct.pack("<d", float(word)), "little")
        else:
            raise Unknown(f"the number {word}", self.line)
        if type_ == FLOAT:
            exact = struct.unpack("<d", bits.to_bytes(8, "little"))[0]
            bits = int.from_bytes(struct.pack("<f", exact), "little")
        return bits

    def address(self, word):
        """A constant pointer."""
        if word[0] == "@":
            return Operand(PTR, "global", word)
        if word == "getelementptr":
            return self.constant_element()
        if word == "inttoptr":
            self.need("(")
            number = self.typed()
            self.need("to")
            self.type()
            self.need(")")
            if number.kind in ("int", "zero"):
                return Operand(PTR, "address", number.value or 0)
        raise Unknown(f"the address {word}", self.line)

    def constant_element(self):
        while self.peek() != "(":
            self.next()
        self.next()
        type_ = self.type()
        self.need(",")
        base = self.typed()
        step, offset = None, base.offset
        while self.eat(","):
            index = self.typed()
            number = signed_value(index)
            if step is None:
                step = type_
                offset += number * size(type_)
            elif step.kind == "struct":
                offset += offsets(step)[number]
                step = step.fields[number]
            else:
                step = step.of
                offset += number * size(step)
        self.need(")")
        if base.kind != "global":
            raise Unknown("an address of something that is not a global", self.line)
        return Operand(PTR, "global", base.value, offset)

    def parts(self, word, type_):
        """A constant aggregate."""
        if type_.kind == "array" and word.startswith('c"'):
            return Operand(type_, "text", unescaped(word[2:-1]))
        if word == "splat" and type_.kind == "vector":
            self.need("(")
            each = self.typed()
            self.need(")")
            return Operand(type_, "parts", (each,) * type_.count)
        ends = {"array": "[]", "struct": "{}", "vector": "<>"}
        if type_.kind in ends:
            opens, closes = ends[type_.kind]
            if type_.kind == "struct" and type_.packed and word == "<":
                word = self.next()
            if word == opens:
                found = []
                while not self.eat(closes):
                    found.append(self.typed())
                    self.eat(",")
                if type_.packed:
                    self.need(">")
                return Operand(type_, "parts", tuple(found))
        if word in ("ptrtoint", "ptrtoaddr") and type_.kind == "int":
            self.need("(")
            place = self.typed()
            self.need("to")
            self.type()
            self.need(")")
            return Operand(type_, "number of", place)
        if word in CALCULATED and type_.kind == "int":
            while self.peek() != "(":
                self.next()
            self.need("(")
            left = self.typed()
            self.need(",")
            right = self.typed()
            self.need(")")
            return Operand(type_, "calculated", (CALCULATED[word], left, right))
        raise Unknown(f"the constant {word} of the type {type_}", self.line)


def signed_value(operand):
    """A constant integer as a signed number."""
    if operand.kind == "zero":
        return 0
    half = 1 << (operand.type.bits - 1)
    return operand.value - 2 * half if operand.value >= half else operand.value


def unescaped(text):
    """The bytes of LLVM's text, where a byte may be a backslash and two digits."""
    pieces = re.split(r"\\([0-9A-Fa-f]{2}|\\)", text)
    found = pieces[0].encode("latin-1")
    for code, plain in zip(pieces[1::2], pieces[2::2]):
        found += (b"\\" if code == "\\" else bytes([int(code, 16)])) + plain.encode("latin-1")
    return found
