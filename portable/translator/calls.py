"""Calls of functions and intrinsics."""
from . import intrinsics, memory
from .expression import ATOM, Expression
from .failure import Unknown
from .ir import Operand
from .layout import PTR


def call(writer, instruction):
    callee = instruction.more["callee"]
    name = callee[1:].strip('"')
    if name.startswith("llvm."):
        intrinsics.write(writer, instruction, name)
        return
    if name in ("memcmp", "bcmp") and callee in writer.file.module.declarations:
        memory.same(writer, instruction)
        return
    texts = [writer.expression(it).text for it in instruction.operands]
    declared = writer.file.module.declarations.get(callee)
    if declared and declared.is_variadic:
        texts = (texts + ["0"])[: writer.file.arity(declared)]
    if callee[0] == "%":
        result = writer.types.name(instruction.type)
        types = ", ".join(writer.types.name(it.type) for it in instruction.operands) or "void"
        pointer = writer.value(Operand(PTR, "local", callee)).within(ATOM)
        text = f"(({result} (*)({types}))(u64){pointer})({', '.join(texts)})"
    elif callee[0] == "@":
        text = f"{writer.names[callee]}({', '.join(texts)})"
    else:
        raise Unknown("a call", instruction.line)
    finish(writer, instruction, text)


def finish(writer, instruction, text):
    """Writes the call, and gives its result a name where it has one."""
    writer.flush()
    following = writer.next
    if instruction.type.kind == "void" or not writer.uses[instruction.result]:
        writer.put(f"{text};")
    elif writer.uses[instruction.result] == 1 and following.op == "ret" and following.operands[0].value == instruction.result:
        writer.values[instruction.result] = Expression(text)
    else:
        writer.values[instruction.result] = writer.variable(instruction.type, Expression(text))
