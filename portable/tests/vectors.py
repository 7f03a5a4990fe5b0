"""Cases of vectors. What is wanted is calculated lane by lane."""
from cases import Case, give, signed

BYTES = [bytes(range(16)), bytes(16), bytes([255] * 16), bytes((37 * it + 129) % 256 for it in range(16)), b"abcdABCD\x7f\x80\x81\xfe\0\1\2\3"]


def inputs(count):
    """Returns the bytes above as numbers: each slot, or each pair of slots."""
    found = [int.from_bytes(it, "little") for it in BYTES]
    return [(a,) for a in found] if count == 1 else [(a, b) for a in found for b in found]


def lanes(number, bits, count):
    return [number >> (bits * at) & (1 << bits) - 1 for at in range(count)]


def joined(values, bits):
    return sum((it % (1 << bits)) << (bits * at) for at, it in enumerate(values))


def read(type_, aligned=16):
    text = "  %b.at = getelementptr inbounds nuw i8, ptr %in, i64 16\n"
    return f"  %a = load {type_}, ptr %in, align {aligned}\n{text}  %b = load {type_}, ptr %b.at, align {aligned}\n"


def write(type_, name="r"):
    return f"  store {type_} %{name}, ptr %out, align 1\n"


def arithmetic():
    for bits in (8, 16, 32, 64):
        count = 128 // bits
        type_, top = f"<{count} x i{bits}>", (1 << bits) - 1
        rules = {
            "add": lambda a, b: a + b,
            "sub": lambda a, b: a - b,
            "mul": lambda a, b: a * b,
            "and": lambda a, b: a & b,
            "or": lambda a, b: a | b,
            "xor": lambda a, b: a ^ b,
        }
        for op, rule in rules.items():
            wanted = lambda a, b, r=rule, n=bits, k=count: [joined(map(r, lanes(a, n, k), lanes(b, n, k)), n)]
            yield Case(f"vector_{op}_{bits}", read(type_) + f"  %r = {op} {type_} %a, %b\n" + write(type_), inputs(2), wanted)
        for op, rule in {"shl": lambda a, n: a << n, "lshr": lambda a, n: a >> n, "ashr": lambda a, n, w=bits: signed(a, w) >> n}.items():
            wanted = lambda a, b, r=rule, n=bits, k=count: [joined([r(it, 3) for it in lanes(a, n, k)], n)]
            yield Case(f"vector_{op}_{bits}", read(type_) + f"  %r = {op} {type_} %a, splat (i{bits} 3)\n" + write(type_), inputs(2), wanted)
            masked = f"  %m = and {type_} %b, splat (i{bits} {bits - 1})\n  %r = {op} {type_} %a, %m\n"
            each = lambda a, b, r=rule, n=bits, k=count: [joined([r(x, y & n - 1) for x, y in zip(lanes(a, n, k), lanes(b, n, k))], n)]
            yield Case(f"vector_{op}_{bits}_by", read(type_) + masked + write(type_), inputs(2), each)
        wanted = lambda a, b, n=bits, k=count: [joined([max(x - y, 0) for x, y in zip(lanes(a, n, k), lanes(b, n, k))], n)]
        name = f"llvm.usub.sat.v{count}i{bits}"
        body = read(type_) + f"  %r = call {type_} @{name}({type_} %a, {type_} %b)\n" + write(type_)
        yield Case(f"vector_usub_sat_{bits}", body, inputs(2), wanted, more=[f"declare {type_} @{name}({type_}, {type_})"])
        yield from compared(bits, count, type_, top)


def compared(bits, count, type_, top):
    rules = {"eq": lambda a, b: a == b, "ult": lambda a, b: a < b, "sge": lambda a, b, n=bits: signed(a, n) >= signed(b, n)}
    for name, rule in rules.items():
        text = read(type_) + f"  %c = icmp {name} {type_} %a, %b\n"
        both = lambda a, b, r=rule, n=bits, k=count: list(map(r, lanes(a, n, k), lanes(b, n, k)))
        wide = text + f"  %r = zext <{count} x i1> %c to {type_}\n" + write(type_)
        yield Case(f"vector_icmp_{name}_{bits}", wide, inputs(2), lambda a, b, f=both, n=bits: [joined(map(int, f(a, b)), n)])
        full = text + f"  %r = sext <{count} x i1> %c to {type_}\n" + write(type_)
        yield Case(f"vector_icmp_sext_{name}_{bits}", full, inputs(2), lambda a, b, f=both, n=bits: [joined([-int(it) for it in f(a, b)], n)])
        chosen = text + f"  %r = select <{count} x i1> %c, {type_} %a, {type_} %b\n" + write(type_)
        pick = lambda a, b, f=both, n=bits, k=count: [joined([x if it else y for it, x, y in zip(f(a, b), lanes(a, n, k), lanes(b, n, k))], n)]
        yield Case(f"vector_select_{name}_{bits}", chosen, inputs(2), pick)
        if count > 2:
            packed = text + f"  %n = bitcast <{count} x i1> %c to i{count}\n" + give(count, "n")
            yield Case(f"vector_bits_{name}_{bits}", packed, inputs(2), lambda a, b, f=both: [joined(map(int, f(a, b)), 1)])
        anything = f"llvm.vector.reduce.or.v{count}i1"
        reduced = text + f"  %n = call i1 @{anything}(<{count} x i1> %c)\n" + give(1, "n")
        more = [f"declare i1 @{anything}(<{count} x i1>)"]
        yield Case(f"vector_any_{name}_{bits}", reduced, inputs(2), lambda a, b, f=both: [int(any(f(a, b)))], more=more)


def moved():
    """Yields cases of shuffles, single lanes, widths and bits of lanes."""
    type_ = "<16 x i8>"
    orders = {
        "turned": list(range(15, -1, -1)),
        "joined": [0, 16, 1, 17, 2, 18, 3, 19, 4, 20, 5, 21, 6, 22, 7, 23],
        "half": [8, 9, 10, 11, 12, 13, 14, 15],
        "same": [5] * 16,
    }
    for name, order in orders.items():
        mask = ", ".join(f"i32 {it}" for it in order)
        to = f"<{len(order)} x i8>"
        body = read(type_) + f"  %r = shufflevector {type_} %a, {type_} %b, <{len(order)} x i32> <{mask}>\n" + write(to)
        rule = lambda a, b, order=order: [joined([(lanes(a, 8, 16) + lanes(b, 8, 16))[it] for it in order], 8)]
        yield Case(f"shuffle_{name}", body, inputs(2), rule)
    body = read(type_) + "  %e = extractelement <16 x i8> %a, i64 3\n  %r = insertelement <16 x i8> %b, i8 %e, i64 9\n" + write(type_)
    rule = lambda a, b: [b & ~(255 << 72) | lanes(a, 8, 16)[3] << 72]
    yield Case("lane_put", body, inputs(2), rule)
    body = read(type_) + "  %i = extractelement <16 x i8> %a, i64 1\n  %j = and i8 %i, 15\n  %n = extractelement <16 x i8> %b, i8 %j\n" + give(8, "n")
    yield Case("lane_chosen", body, inputs(2), lambda a, b: [lanes(b, 8, 16)[lanes(a, 8, 16)[1] & 15]])
    body = "  %a = load <8 x i8>, ptr %in, align 1\n  %r = zext <8 x i8> %a to <8 x i16>\n" + write("<8 x i16>")
    yield Case("lanes_wider", body, inputs(1), lambda a: [joined(lanes(a, 8, 8), 16)])
    body = "  %a = load <8 x i8>, ptr %in, align 1\n  %r = sext <8 x i8> %a to <8 x i16>\n" + write("<8 x i16>")
    yield Case("lanes_wider_signed", body, inputs(1), lambda a: [joined([signed(it, 8) for it in lanes(a, 8, 8)], 16)])
    body = "  %a = load <8 x i16>, ptr %in, align 1\n  %r = trunc <8 x i16> %a to <8 x i8>\n" + write("<8 x i8>")
    yield Case("lanes_narrower", body, inputs(1), lambda a: [joined(lanes(a, 16, 8), 8)])
    body = read(type_) + "  %n = bitcast <16 x i8> %a to i128\n  %m = add i128 %n, 1\n  %r = bitcast i128 %m to <4 x i32>\n" + write("<4 x i32>")
    yield Case("lanes_as_number", body, inputs(2), lambda a, b: [(a + 1) % (1 << 128)])
    body = read(type_) + "  %c = bitcast <16 x i8> %a to <2 x i64>\n  %r = add <2 x i64> %c, <i64 1, i64 -1>\n" + write("<2 x i64>")
    yield Case("lanes_as_lanes", body, inputs(2), lambda a, b: [joined([lanes(a, 64, 2)[0] + 1, lanes(a, 64, 2)[1] - 1], 64)])


def tables():
    """Yields cases of pshufb of x86-64: the bytes of a table by their places, or 0 if the place has its highest bit."""
    name = "llvm.x86.ssse3.pshuf.b.128"
    body = read("<16 x i8>") + f"  %r = call <16 x i8> @{name}(<16 x i8> %a, <16 x i8> %b)\n" + write("<16 x i8>")
    rule = lambda a, b: [joined([0 if it & 128 else lanes(a, 8, 16)[it & 15] for it in lanes(b, 8, 16)], 8)]
    yield Case("byte_shuffle", body, inputs(2), rule, more=[f"declare <16 x i8> @{name}(<16 x i8>, <16 x i8>)"])
    bits = "  %c = icmp ne <16 x i8> %a, zeroinitializer\n  %d = icmp ult <16 x i8> %b, splat (i8 64)\n"
    for op, rule in {"and": lambda x, y: x & y, "or": lambda x, y: x | y, "xor": lambda x, y: x ^ y}.items():
        body = read("<16 x i8>") + bits + f"  %e = {op} <16 x i1> %c, %d\n  %n = bitcast <16 x i1> %e to i16\n" + give(16, "n")
        wanted = lambda a, b, r=rule: [joined([r(int(x != 0), int(y < 64)) for x, y in zip(lanes(a, 8, 16), lanes(b, 8, 16))], 1)]
        yield Case(f"vector_bits_{op}", body, inputs(2), wanted)


def cases():
    for made in (arithmetic, moved, tables):
        yield from made()
