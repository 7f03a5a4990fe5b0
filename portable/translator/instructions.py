"""Reads each instruction into its result, its type and its operands."""
from .failure import Unknown
from .ir import Instruction
from .layout import BIT, PTR, VOID, Type, alignment
from .lexer import tokens, without_metadata
from .reader import INTEGER, NAMED, Reader

FLAGS = set("nuw nsw exact disjoint nneg samesign nnan ninf nsz arcp contract afn reassoc fast".split())
ARITHMETIC = set("add sub mul udiv sdiv urem srem shl lshr ashr and or xor fadd fsub fmul fdiv".split())
CASTS = set(
    "trunc zext sext fptrunc fpext fptoui fptosi uitofp sitofp ptrtoint ptrtoaddr inttoptr bitcast".split()
)
CONVENTIONS = set("ccc fastcc coldcc preserve_mostcc preserve_allcc".split())
HARMLESS_ATTRIBUTES = set(
    "nounwind nobuiltin cold noreturn memory willreturn nofree nosync mustprogress speculatable nocallback noinline".split()
)


def instruction_of(line):
    """Reads a line of a function's block."""
    line = without_metadata(line)
    reader = Reader(tokens(line), line)
    result = None
    if reader.peek(1) == "=":
        result = reader.next()
        reader.next()
    op = reader.next()
    if op in ("tail", "notail"):
        op = reader.next()
    if op in ARITHMETIC:
        made = arithmetic(op, reader)
    elif op in CASTS:
        made = cast(op, reader)
    elif op in READERS:
        made = READERS[op](reader)
    else:
        raise Unknown(f"the instruction {op}", line)
    type_, operands, more = made
    if reader.peek() and op not in ("call", "load", "store", "alloca"):
        raise Unknown(f"'{reader.peek()}' behind an instruction", line)
    return Instruction(op, result, type_, operands, line, more)


def arithmetic(op, reader):
    skip_flags(reader)
    left = reader.typed()
    reader.need(",")
    return left.type, [left, reader.operand(left.type)], {}


def skip_flags(reader):
    """Takes what says which results LLVM leaves undefined: the C defines them."""
    while reader.eat(*FLAGS):
        pass


def cast(op, reader):
    skip_flags(reader)
    value = reader.typed()
    reader.need("to")
    return reader.type(), [value], {}


def compare(reader):
    skip_flags(reader)
    condition = reader.next()
    left = reader.typed()
    reader.need(",")
    right = reader.operand(left.type)
    type_ = Type("vector", count=left.type.count, of=BIT) if left.type.kind == "vector" else BIT
    return type_, [left, right], {"condition": condition}


def one(reader):
    skip_flags(reader)
    value = reader.typed()
    return value.type, [value], {}


def several(reader, count):
    """Operands with their types, with commas between."""
    found = [reader.typed()]
    for _ in range(count - 1):
        reader.need(",")
        found.append(reader.typed())
    return found


def select(reader):
    skip_flags(reader)
    found = several(reader, 3)
    return found[1].type, found, {}


def alloca(reader):
    type_ = reader.type()
    more = {"type": type_, "alignment": alignment(type_)}
    while reader.eat(","):
        if not reader.eat("align"):
            raise Unknown("an alloca of many", reader.line)
        more["alignment"] = int(reader.next())
    return PTR, [], more


def access(reader, kind):
    if reader.peek() in ("volatile", "atomic"):
        raise Unknown(f"a {kind} that is {reader.peek()}", reader.line)


def load(reader):
    access(reader, "load")
    type_ = reader.type()
    reader.need(",")
    place = reader.typed()
    return type_, [place], {"alignment": aligned_at(reader)}


def store(reader):
    access(reader, "store")
    found = several(reader, 2)
    return VOID, found, {"alignment": aligned_at(reader)}


def aligned_at(reader):
    reader.need(",")
    reader.need("align")
    return int(reader.next())


def element(reader):
    """getelementptr: the operands are the base and the indices."""
    while reader.eat("inbounds", "nuw", "nusw"):
        pass
    type_ = reader.type()
    found = []
    while reader.eat(","):
        found.append(reader.typed())
    return PTR, found, {"type": type_}


def phi(reader):
    skip_flags(reader)
    type_ = reader.type()
    operands, blocks = [], []
    while True:
        reader.need("[")
        operands.append(reader.operand(type_))
        reader.need(",")
        blocks.append(label(reader))
        reader.need("]")
        if not reader.eat(","):
            return type_, operands, {"blocks": blocks}


def label(reader):
    return reader.next()[1:].strip('"')


def branch(reader):
    if reader.eat("label"):
        return VOID, [], {"blocks": [label(reader)]}
    condition = reader.typed()
    blocks = []
    for _ in range(2):
        reader.need(",")
        reader.need("label")
        blocks.append(label(reader))
    return VOID, [condition], {"blocks": blocks}


def switch(reader):
    """The last block is where all other values lead."""
    value = reader.typed()
    reader.need(",")
    reader.need("label")
    other = label(reader)
    reader.need("[")
    cases, blocks = [], []
    while not reader.eat("]"):
        cases.append(reader.typed().value or 0)
        reader.need(",")
        reader.need("label")
        blocks.append(label(reader))
    return VOID, [value], {"cases": cases, "blocks": [*blocks, other]}


def return_(reader):
    if reader.eat("void"):
        return VOID, [], {}
    return VOID, [reader.typed()], {}


def unreachable(_reader):
    return VOID, [], {}


def path(reader):
    found = []
    while reader.eat(","):
        found.append(int(reader.next()))
    return found


def inside(type_, at):
    for index in at:
        type_ = type_.fields[index] if type_.kind == "struct" else type_.of
    return type_


def extract_value(reader):
    whole = reader.typed()
    at = path(reader)
    return inside(whole.type, at), [whole], {"path": at}


def insert_value(reader):
    whole, part = several(reader, 2)
    return whole.type, [whole, part], {"path": path(reader)}


def extract_element(reader):
    whole, index = several(reader, 2)
    return whole.type.of, [whole, index], {}


def insert_element(reader):
    found = several(reader, 3)
    return found[0].type, found, {}


def shuffle(reader):
    left, right, mask = several(reader, 3)
    lanes = [0] * mask.type.count
    if mask.kind == "parts":
        lanes = [lane.value or 0 for lane in mask.value]
    type_ = Type("vector", count=len(lanes), of=left.type.of)
    return type_, [left, right], {"lanes": lanes}


def call(reader):
    skip_flags(reader)
    reader.eat(*CONVENTIONS)
    reader.skip_attributes()
    type_ = reader.type()
    if reader.peek() == "(":
        reader.skip_brackets()
    callee = reader.next()
    if callee[0] not in "%@":
        raise Unknown(f"a call of {callee}", reader.line)
    reader.need("(")
    arguments = []
    while not reader.eat(")"):
        arguments.append(reader.typed())
        reader.eat(",")
    while reader.peek():
        word = reader.next()
        if word[0] != "#" and word not in HARMLESS_ATTRIBUTES:
            raise Unknown(f"'{word}' behind a call", reader.line)
        if reader.peek() == "(":
            reader.skip_brackets()
    return type_, arguments, {"callee": callee}


READERS = {
    "icmp": compare,
    "fcmp": compare,
    "fneg": one,
    "freeze": one,
    "select": select,
    "alloca": alloca,
    "load": load,
    "store": store,
    "getelementptr": element,
    "phi": phi,
    "br": branch,
    "switch": switch,
    "ret": return_,
    "unreachable": unreachable,
    "extractvalue": extract_value,
    "insertvalue": insert_value,
    "extractelement": extract_element,
    "insertelement": insert_element,
    "shufflevector": shuffle,
    "call": call,
}


def is_type(word):
    return word in NAMED or word in ("{", "[", "<") or bool(INTEGER.fullmatch(word))
