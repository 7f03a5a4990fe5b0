"""Global data: bytes, and addresses between them."""
from .failure import Unknown
from .layout import offsets, size

PER_LINE = 100


def pieces(file, value, type_):
    """What a constant is in memory: runs of bytes, and texts of addresses."""
    if value.kind == "zero":
        return [bytes(size(type_))]
    if type_.kind == "int":
        return [value.value.to_bytes(size(type_), "little")]
    if type_.kind in ("float", "double"):
        return [value.value.to_bytes(size(type_), "little")]
    if value.kind == "text":
        return [value.value]
    if value.kind == "global":
        return [file.address(value.value, value.offset).text]
    if value.kind == "address":
        return [f"(ptr){value.value}ull"]
    if value.kind == "parts":
        at = offsets(type_) if type_.kind == "struct" else [it * size(type_.of) for it in range(type_.count)]
        found, end = [], 0
        for begin, part in zip(at, value.value):
            found += [bytes(begin - end), *pieces(file, part, part.type)]
            end = begin + size(part.type)
        return [*found, bytes(size(type_) - end)]
    raise Unknown("a constant in data", str(value))


def joined(found):
    """The same with each run of bytes as long as it can be."""
    made = []
    for piece in found:
        if isinstance(piece, bytes) and made and isinstance(made[-1], bytes):
            made[-1] += piece
        elif piece:
            made.append(piece)
    return made


def text_of(run):
    """Bytes as a text of C, or as numbers where most of them are no letters."""
    if not any(run):
        return "{0}"
    plain = sum(32 <= byte < 127 for byte in run)
    if 2 * plain < len(run):
        numbers = ",".join(map(str, run))
        return "{" + broken(numbers, ",") + "}"
    signs = {34: '\\"', 92: "\\\\", 63: "\\?", 10: "\\n", 9: "\\t", 13: "\\r"}
    letters = [signs.get(byte) or (chr(byte) if 32 <= byte < 127 else f"\\{byte:03o}") for byte in run]
    lines, line = [], ""
    for letter in letters:
        line += letter
        if len(line) >= PER_LINE:
            lines.append(line)
            line = ""
    return "\n".join(f'"{it}"' for it in [*lines, line] if it)


def broken(text, sign):
    lines = [""]
    for part in text.split(sign):
        if len(lines[-1]) + len(part) > PER_LINE:
            lines.append("")
        lines[-1] += part + sign
    return "\n".join(lines)[: -len(sign)]


def runs_of(file, made):
    return joined(pieces(file, made.value, made.type)) or [b"\0"]


def has_address(value):
    return value.kind in ("global", "address") or value.kind == "parts" and any(map(has_address, value.value))


def fields_of(found):
    """The fields of data that holds addresses, and their values."""
    fields, values = [], []
    for at, piece in enumerate(found):
        is_run = isinstance(piece, bytes)
        fields.append(f"u8 f{at}[{len(piece)}];" if is_run else f"ptr f{at};")
        values.append(text_of(piece) if is_run else piece)
    return " ".join(fields), ", ".join(values)


def head_of(made):
    return f"static {f'_Alignas({made.alignment}) ' if made.alignment > 1 else ''}{'const ' if made.is_constant else ''}"


def definition(file, made):
    """The definition of data in one statement."""
    found, name = runs_of(file, made), file.names[made.name]
    if not has_address(made.value):
        return f"{head_of(made)}u8 {name}[{len(found[0])}] = {text_of(found[0])};"
    fields, values = fields_of(found)
    return f"{head_of(made)}struct __attribute__((packed)) {{ {fields} }} {name} = {{ {values} }};"


def declared_and_defined(file, circle):
    """Data whose addresses go in a circle: all of it is declared, and then defined."""
    declared, defined = [], []
    for made in circle:
        name = file.names[made.name]
        fields, values = fields_of(runs_of(file, made))
        declared += [f"struct __attribute__((packed)) of_{name} {{ {fields} }};", f"{head_of(made)}struct of_{name} {name};"]
        defined.append(f"{head_of(made)}struct of_{name} {name} = {{ {values} }};")
    return [*declared, *defined]


def addressed(value):
    """The names of the globals whose addresses a constant has."""
    if value.kind == "global":
        return {value.value}
    return set().union(*map(addressed, value.value)) if value.kind == "parts" else set()


def in_circles(needs):
    """The names whose needs lead back to them."""
    def reached(name, found):
        for it in needs[name] - found:
            found.add(it)
            reached(it, found)
        return found

    return {name for name in needs if name in reached(name, set())}


def definitions(file):
    """The definitions of all data, each behind that whose address it has."""
    left = {made.name: made for made in file.module.globals}
    needs = {name: addressed(made.value) & set(left) - {name} for name, made in left.items()}
    texts, done = [], set()
    while left:
        free = [name for name in left if needs[name] <= done]
        if free:
            texts += [definition(file, left[name]) for name in free]
        else:
            circles = in_circles({name: needs[name] - done for name in left})
            free = [name for name in left if name in circles and needs[name] - circles <= done]
            texts += declared_and_defined(file, [left[name] for name in free])
        for name in free:
            left.pop(name)
        done.update(free)
    return texts
