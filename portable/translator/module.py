"""Reads a whole module."""
import re

from .failure import Unknown
from .instructions import CONVENTIONS, HARMLESS_ATTRIBUTES, instruction_of, is_type
from .ir import Block, Declaration, Function, Global, Module
from .layout import alignment
from .lexer import tokens
from .reader import Reader

LABEL = re.compile(r'("[^"]*"|[-\w.$]+):')
SKIPPED = re.compile(r"source_filename|target |attributes |!|;|\s*$")
LINKAGES = set("internal private external dso_local unnamed_addr local_unnamed_addr hidden".split())
LOCAL = {"internal", "private"}


def module_of(text):
    """Reads the text of a module."""
    lines = text.split("\n")
    groups = {name: set(words.split()) for name, words in re.findall(r"^attributes (#\d+) = \{(.*)\}", text, re.M)}
    made = Module([], [], {})
    at = 0
    while at < len(lines):
        line = lines[at]
        if line.startswith("define "):
            end = lines.index("}", at)
            made.functions.append(function_of(line, lines[at + 1 : end], groups))
            at = end
        elif line.startswith("@"):
            made.globals.append(global_of(line))
        elif line.startswith("declare "):
            declared = declaration_of(line)
            made.declarations[declared.name] = declared
        elif not SKIPPED.match(line):
            raise Unknown("a line of a module", line)
        at += 1
    return made


def skip_head(reader):
    """Takes the words before a result's type, and returns which of them there were."""
    found = set()
    while not is_type(reader.peek()):
        before = reader.at
        reader.skip_attributes()
        if reader.peek() in LINKAGES | CONVENTIONS:
            found.add(reader.next())
        elif reader.at == before:
            raise Unknown(f"the word {reader.peek()} before a result", reader.line)
    return found


def function_of(line, body, groups):
    reader = Reader(tokens(line), line)
    reader.need("define")
    words = skip_head(reader)
    type_, name = reader.type(), reader.next()
    reader.need("(")
    parameters = []
    while not reader.eat(")"):
        parameter = reader.type()
        reader.skip_attributes()
        parameters.append((parameter, reader.next()))
        reader.eat(",")
    made = Function(name, type_, parameters, bool(words & LOCAL), tail_of(reader, groups))
    made.blocks = blocks_of(body, sum(local[1:].isdigit() for _, local in parameters))
    return made


def tail_of(reader, groups):
    """The attributes that stand behind a function's parameters."""
    found = set()
    while reader.peek() != "{":
        word = reader.next()
        if word in groups:
            found |= groups[word]
        elif word in HARMLESS_ATTRIBUTES:
            found.add(word)
        elif word == "align":
            reader.next()
        elif word not in LINKAGES:
            raise Unknown(f"'{word}' behind the parameters", reader.line)
    return found


def blocks_of(lines, numbered):
    """A block with no label, which only the first can be, has the number that follows those of the numbered parameters."""
    found, gathered = [], ""
    for line in lines:
        if not line.strip():
            continue
        if line[0] not in " \t":
            label = LABEL.match(line)
            if not label:
                raise Unknown("a label", line)
            found.append(Block(label[1].strip('"')))
            continue
        if not found:
            found.append(Block(str(numbered)))
        gathered += " " + line.strip()
        if gathered.startswith(" switch") and "]" not in gathered:
            continue
        made = instruction_of(gathered.strip())
        (found[-1].phis if made.op == "phi" else found[-1].instructions).append(made)
        gathered = ""
    return found


def declaration_of(line):
    reader = Reader(tokens(line), line)
    reader.need("declare")
    skip_head(reader)
    type_, name = reader.type(), reader.next()
    reader.need("(")
    parameters, is_variadic = [], False
    while not reader.eat(")"):
        if reader.eat("..."):
            is_variadic = True
            continue
        parameters.append(reader.type())
        reader.skip_attributes()
        if reader.peek()[:1] == "%":
            reader.next()
        reader.eat(",")
    return Declaration(name, type_, parameters, is_variadic)


def global_of(line):
    reader = Reader(tokens(line), line)
    name = reader.next()
    reader.need("=")
    while reader.peek() not in ("constant", "global"):
        if not reader.eat(*LINKAGES):
            raise Unknown(f"the word {reader.peek()} before a global", line)
    is_constant = reader.next() == "constant"
    type_ = reader.type()
    value = reader.operand(type_)
    aligned = alignment(type_)
    while reader.eat(","):
        if reader.eat("align"):
            aligned = int(reader.next())
        else:
            raise Unknown(f"'{reader.peek()}' behind a global", line)
    return Global(name, type_, is_constant, aligned, value)
