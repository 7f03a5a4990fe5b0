"""The order of blocks, and how control goes from one to the next."""
import re

from .expression import negated, tested
from .failure import Unknown

VARIABLE = re.compile(r"\bv\d+\b")
# A number that is the same in every type of an integer.
SMALL = re.compile(r"\d{1,2};")
# Where a jump begins to which another one may lead. It becomes a label, or nothing.
START = "\0{}\0"
STARTS = re.compile("\0(\\d+)\0 ")


def successors(block):
    return block.instructions[-1].more.get("blocks", [])


def ordered(function):
    """The blocks that can be reached, each behind those through which every way to it leads."""
    blocks = {block.name: block for block in function.blocks}
    done, seen = [], set()
    stack = [(function.blocks[0].name, None)]
    while stack:
        name, left = stack.pop()
        if left is None:
            if name in seen:
                continue
            seen.add(name)
            left = list(dict.fromkeys(successors(blocks[name])))
        if left:
            stack.append((name, left[:-1]))
            stack.append((left[-1], None))
        else:
            done.append(blocks[name])
    return done[::-1]


def comes_again(function, name):
    """Whether a block leads back to itself."""
    if name == function.blocks[0].name:
        return False
    blocks = {block.name: block for block in function.blocks}
    seen, left = set(), [name]
    while left:
        for to in successors(blocks[left.pop()]):
            if to == name:
                return True
            if to not in seen:
                seen.add(to)
                left.append(to)
    return False


def labels_of(blocks):
    """A label for each block that something else than the block before it leads to."""
    jumped = set()
    for at, block in enumerate(blocks):
        following = blocks[at + 1].name if at + 1 < len(blocks) else None
        to = set(successors(block))
        jumped |= to if block.instructions[-1].op == "switch" else to - {following}
    return {block.name: f"L{at}" for at, block in enumerate(it for it in blocks if it.name in jumped)}


def moves(writer, to):
    """The assignments to what the block takes from here, in an order in which none is read after it was overwritten."""
    left = []
    for phi in writer.phis[to]:
        operand = next((it for it, name in zip(phi.operands, phi.more["blocks"]) if name == writer.block), None)
        if operand is None:
            raise Unknown("a phi without an arm", phi.line)
        if writer.uses[phi.result]:
            target, source = writer.values[phi.result].text, writer.expression(operand).text
            if target != source:
                left.append((target, source, writer.types.name(phi.type)))
    made = []
    while left:
        read = [set(VARIABLE.findall(source)) - {target} for target, source, _ in left]
        free = next((at for at, it in enumerate(left) if not any(it[0] in names for names in read)), None)
        if free is None:
            target, _, type_ = left[0]
            kept = f"n{target}"
            made.append(f"{type_} {kept} = {target};")
            left = [(to_, VARIABLE.sub(lambda it: kept if it[0] == target else it[0], source), each) for to_, source, each in left]
        else:
            target, source, _ = left.pop(free)
            made.append(f"{target} = {source};")
    return together(made)


def together(made):
    """The same with one statement for all that take the same small number. These read nothing, so they can come last."""
    found = {}
    for text in made:
        target, _, source = text.partition(" = ")
        found.setdefault(source if SMALL.fullmatch(source) else text, []).append(target)
    last = {source: targets for source, targets in found.items() if SMALL.fullmatch(source)}
    return [text for text in found if text not in last] + [" = ".join([*targets, source]) for source, targets in last.items()]


def jump(writer, to, last=False):
    """One statement that leads to a block; nothing where that is the next anyway."""
    made = moves(writer, to)
    if not last or to != writer.following:
        made = shared(writer, [*made, f"goto {writer.labels[to]};"])
    if last and not keeps(made):
        return " ".join(made)
    return made[0] if len(made) == 1 else f"{{ {' '.join(made)} }}"


def shared(writer, made):
    """The statements of a jump, or a jump to the place that has the same ones."""
    text = " ".join(made)
    if len(made) < 3 or keeps(made):
        return made
    if text not in writer.jumps:
        writer.jumps[text] = None
        return [START.format(len(writer.jumps) - 1), *made]
    place = list(writer.jumps).index(text)
    writer.jumps[text] = f"M{place}"
    return [f"goto M{place};"]


def keeps(made):
    """Whether a variable of their own keeps a value during the moves."""
    return any(" n" in text.split("=")[0] for text in made)


def branch(writer, instruction):
    to = instruction.more["blocks"]
    if len(set(to)) == 1:
        put(writer, jump(writer, to[0], last=True))
        return
    condition = writer.expression(instruction.operands[0])
    yes, no = to
    if yes == writer.following and no != yes:
        condition, yes, no = negated(condition), no, yes
    put(writer, f"if ({tested(condition).text}) {jump(writer, yes)}")
    put(writer, jump(writer, no, last=True))


def put(writer, text):
    if text:
        writer.put(text)


def with_starts(writer, text):
    """The text of a function with a label at each start that a jump leads to."""
    labels = list(writer.jumps.values())
    return STARTS.sub(lambda it: f"{labels[int(it[1])]}: " if labels[int(it[1])] else "", text)


def switch(writer, instruction):
    value = instruction.operands[0]
    *to, other = instruction.more["blocks"]
    if value.type.bits > 64:
        raise Unknown("a switch over more than 64 bits", instruction.line)
    writer.put(f"switch ({writer.expression(value).text}) {{")
    arms = {}
    for case, block in zip(instruction.more["cases"], to):
        arms.setdefault(block, []).append(case)
    for block, cases in arms.items():
        labels = " ".join(f"case {case}{'u' if case >> 31 else ''}:" for case in cases)
        writer.put(f"{labels} {' '.join(arm(writer, block))}")
    writer.put(f"default: {' '.join(arm(writer, other))}")
    writer.put("}")


def arm(writer, to):
    made = shared(writer, [*moves(writer, to), f"goto {writer.labels[to]};"])
    return ["{", *made, "}"] if keeps(made) else made


def give_back(writer, instruction):
    if not instruction.operands:
        writer.put("return;")
        return
    operand = instruction.operands[0]
    text = writer.expression(operand).text
    if not writer.function.is_local and operand.type.kind == "int" and operand.type.bits == 32:
        text = f"(int32_t)({text})"
    writer.put(f"return {text};")


def trap(writer, _instruction):
    writer.effect("__builtin_trap();")
