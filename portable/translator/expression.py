"""Expressions of C, with the brackets that they need and no more."""
from typing import NamedTuple

ATOM, UNARY, BINARY, CONDITIONAL = range(4)
SUMS, BITS, LOGICAL = ("+", "-"), ("&", "|", "^"), ("&&", "||")
OPPOSITES = {"==": "!=", "!=": "==", ">": "<=", "<=": ">", "<": ">=", ">=": "<"}


class Expression(NamedTuple):
    """C that has a value and changes nothing.

    `level` says what it may stand in without brackets. `reads` says whether it reads memory, and so has to come before the
    next write. An address that is a base with a constant added keeps both, so that the next constant joins this one. `sign`
    is the operator of a binary one, and `opposite` the text of a comparison's negation. `subject` is what a comparison
    compares with 0.
    """

    text: str
    level: int = ATOM
    reads: bool = False
    base: str | None = None
    offset: int = 0
    sign: str = ""
    opposite: str = ""
    subject: "Expression | None" = None

    def within(self, level):
        """The text, in brackets where they are needed at this level."""
        return self.text if self.level <= level else f"({self.text})"

    def is_simple(self):
        """Whether it may be written again at each use."""
        return self.level == ATOM and not self.reads and "(" not in self.text


def call(name, *arguments):
    return Expression(f"{name}({', '.join(it.text for it in arguments)})", ATOM, reads_any(arguments))


def reads_any(expressions):
    return any(it.reads for it in expressions)


def cast(c_type, inner):
    return Expression(f"({c_type}){inner.within(UNARY)}", UNARY, inner.reads)


def unary(sign, inner):
    if sign == "!":
        return negated(inner)
    return Expression(f"{sign}{inner.within(ATOM)}", UNARY, inner.reads)


def binary(left, sign, right):
    """A chain of sums and differences, or of one other operator, needs no brackets on its left."""
    chained = left.sign == sign and sign in (*BITS, *LOGICAL, "*") or left.sign in SUMS and sign in SUMS
    first = left.text if chained else beside(left, sign)
    return Expression(f"{first} {sign} {beside(right, sign)}", BINARY, left.reads or right.reads, sign=sign)


def beside(operand, sign):
    """An operand of a binary operator. Arithmetic binds more than a comparison, and a comparison more than a logical operator.
    Compilers warn of a negation beside an operator of bits, and of one logical operator inside the other."""
    if operand.level == BINARY and operand.sign:
        if sign in LOGICAL and operand.sign not in LOGICAL:
            return operand.text
        if sign in OPPOSITES and operand.sign not in (*LOGICAL, *BITS, *OPPOSITES):
            return operand.text
    return operand.within(ATOM if sign in BITS and operand.text[0] == "!" else UNARY)


def comparison(left, sign, right):
    """What compares integers or addresses, of which one order holds."""
    made = binary(left, sign, right)
    subject = left if sign in ("==", "!=") and right.text in ("0", "(ptr)0") and is_plain_condition(left) else None
    return made._replace(opposite=binary(left, OPPOSITES[sign], right).text, subject=subject)


def is_plain_condition(made):
    """Whether it may stand for a comparison of itself with 0. Compilers warn of products and shifts there."""
    return (made.level <= UNARY or made.sign == "&") and "*" not in made.text and "<<" not in made.text


def tested(condition):
    """What holds where a condition does, in the fewest signs: `x` for `x != 0`, and `!x` for `x == 0`."""
    if not condition.subject:
        return condition
    return condition.subject if condition.sign == "!=" else negated(condition.subject)


def negated(condition):
    if condition.opposite:
        return condition._replace(text=condition.opposite, opposite=condition.text, sign=OPPOSITES[condition.sign])
    if condition.text.startswith("!") and condition.level == UNARY:
        return Expression(condition.text[1:], ATOM, condition.reads)
    return Expression(f"!{condition.within(ATOM)}", UNARY, condition.reads)


def conditional(condition, left, right):
    condition = tested(condition)
    test = condition.within(UNARY if condition.sign in BITS else BINARY)
    text = f"{test} ? {left.within(BINARY)} : {right.within(BINARY)}"
    return Expression(text, CONDITIONAL, reads_any((condition, left, right)))


def literal(number, bits=32):
    """An unsigned literal, which has the type u32, or u64 where it is larger; with more than 32 bits, that type's own."""
    if bits > 64:
        low = f"{number & (1 << 64) - 1:#x}ull"
        if number >> 64 == 0:
            return cast("u128", Expression(low))
        return Expression(f"(u128){number >> 64:#x}ull << 64 | {low}", BINARY)
    if number == (1 << 64) - 1:
        return Expression("~0ull", UNARY)
    if number >> 32:
        return Expression(f"{number:#x}ull")
    return Expression(f"{number}ull" if bits > 32 else f"{number}u")


def plain(number):
    """A literal where the other operand, or the place that it goes to, decides the type: an int where it is one."""
    return Expression(str(number)) if number >> 31 == 0 else literal(number, 128 if number >> 64 else 32)
