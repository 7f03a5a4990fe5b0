"""Cases of floating-point numbers. Python's floats, which are doubles, calculate what is wanted."""
import math
import struct

from cases import Case, edges, give, number, signed

VALUES = [0.0, -0.0, 1.0, -1.0, 0.1, 1.5, -2.25, 3.0, 1e-300, -1e300, 5e-324, 2.0**53 + 2, 1 / 3, math.inf, -math.inf, math.nan]
KINDS = {"double": (64, "<d"), "float": (32, "<f")}


def bits_of(value, kind):
    bits, form = KINDS[kind]
    try:
        return int.from_bytes(struct.pack(form, value), "little")
    except OverflowError:
        return bits_of(math.copysign(math.inf, value), kind)


def value_of(bits, kind):
    return struct.unpack(KINDS[kind][1], bits.to_bytes(KINDS[kind][0] // 8, "little"))[0]


def values(kind):
    return list(dict.fromkeys(bits_of(it, kind) for it in VALUES))


def read(at, kind, name):
    bits = KINDS[kind][0]
    return number(at, bits, f"{name}.bits") + f"  %{name} = bitcast i{bits} %{name}.bits to {kind}\n"


def divided(a, b):
    if b == 0:
        return math.nan if a == 0 or math.isnan(a) else math.copysign(math.inf, math.copysign(1, a) * math.copysign(1, b))
    return a / b


RULES = {"fadd": lambda a, b: a + b, "fsub": lambda a, b: a - b, "fmul": lambda a, b: a * b, "fdiv": divided}
ORDERED = {
    "eq": lambda a, b: a == b,
    "gt": lambda a, b: a > b,
    "ge": lambda a, b: a >= b,
    "lt": lambda a, b: a < b,
    "le": lambda a, b: a <= b,
    "ne": lambda a, b: a != b,
}


def canonical(kind):
    """Writes the same bits for any not-a-number, since its sign and payload are open."""
    bits = KINDS[kind][0]
    text = f"  %is.nan = fcmp uno {kind} %r, %r\n  %r.all = bitcast {kind} %r to i{bits}\n"
    return text + f"  %r.bits = select i1 %is.nan, i{bits} 1, i{bits} %r.all\n" + give(bits, "r.bits")


def written(value, kind):
    return 1 if math.isnan(value) else bits_of(value, kind)


def arithmetic(kind):
    pairs = [(a, b) for a in values(kind) for b in values(kind)]
    both = read(0, kind, "a") + read(1, kind, "b")
    for op, rule in RULES.items():
        wanted = lambda a, b, rule=rule: [written(rule(value_of(a, kind), value_of(b, kind)), kind)]
        yield Case(f"{op}_{kind}", both + f"  %r = {op} {kind} %a, %b\n" + canonical(kind), pairs, wanted)
    for name in ("oeq ogt oge olt ole one ueq ugt uge ult ule une ord uno").split():
        body = both + f"  %r = fcmp {name} {kind} %a, %b\n" + give(1, "r")
        yield Case(f"fcmp_{name}_{kind}", body, pairs, lambda a, b, name=name: [int(compared(name, value_of(a, kind), value_of(b, kind)))])
    bits = KINDS[kind][0]
    singles = [(a,) for a in values(kind) if not math.isnan(value_of(a, kind))]
    negated = read(0, kind, "a") + f"  %n = fneg {kind} %a\n  %r = bitcast {kind} %n to i{bits}\n" + give(bits, "r")
    yield Case(f"fneg_{kind}", negated, singles, lambda a: [a ^ 1 << (bits - 1)])
    name = f"llvm.fabs.f{bits}"
    positive = read(0, kind, "a") + f"  %n = call {kind} @{name}({kind} %a)\n  %r = bitcast {kind} %n to i{bits}\n" + give(bits, "r")
    yield Case(f"fabs_{kind}", positive, singles, lambda a: [a & (1 << (bits - 1)) - 1], more=[f"declare {kind} @{name}({kind})"])


def compared(name, a, b):
    unordered = math.isnan(a) or math.isnan(b)
    if name in ("ord", "uno"):
        return unordered == (name == "uno")
    return name[0] == "u" if unordered else ORDERED[name[1:]](a, b)


def conversions():
    for bits in (8, 16, 32, 48, 64):
        inputs = [(a,) for a in edges(bits)]
        for op, rule in (("uitofp", lambda a, n: a), ("sitofp", signed)):
            body = number(0, bits, "a") + f"  %r = {op} i{bits} %a to double\n" + canonical("double")
            yield Case(f"{op}_{bits}", body, inputs, lambda a, r=rule, n=bits: [bits_of(float(r(a, n)), "double")])
    inputs = [(a,) for a in edges(16)]
    body = number(0, 16, "a") + "  %r = uitofp i16 %a to float\n" + canonical("float")
    yield Case("uitofp_float", body, inputs, lambda a: [bits_of(float(a), "float")])
    body = read(0, "float", "a") + "  %r = fpext float %a to double\n" + canonical("double")
    yield Case("fpext", body, [(a,) for a in values("float")], lambda a: [written(value_of(a, "float"), "double")])
    body = read(0, "double", "a") + "  %r = fptrunc double %a to float\n" + canonical("float")
    inputs = [(bits_of(it, "double"),) for it in (0.0, -0.0, 1.5, 0.1, -1 / 3, 1e30, 1e300, -1e300, 1e-300, 16777217.0, math.inf)]
    yield Case("fptrunc", body, inputs, lambda a: [written(value_of(a, "double"), "float")])


def literals():
    """Yields cases of constants of every kind, and of a sum of products that no compiler may round once too few."""
    rows = {"0x3FB999999999999A": 0.1, "-2.500000e+00": -2.5, "0x7FF0000000000000": math.inf, "0x7FF8000000000000": math.nan, "0x8000000000000000": -0.0}
    for at, (text, value) in enumerate(rows.items()):
        body = read(0, "double", "a") + f"  %r = fadd double %a, {text}\n" + canonical("double")
        inputs = [(bits_of(it, "double"),) for it in (0.0, -0.0, 1.0, 1e300)]
        yield Case(f"real_literal_{at}", body, inputs, lambda a, v=value: [written(value_of(a, "double") + v, "double")])
    body = read(0, "float", "a") + "  %r = fmul float %a, 0x3FB99999A0000000\n" + canonical("float")
    short = value_of(bits_of(0.1, "float"), "float")
    yield Case("float_literal", body, [(bits_of(3.0, "float"),)], lambda a: [bits_of(3.0 * short, "float")])
    text = read(0, "double", "a") + read(1, "double", "b") + read(2, "double", "c")
    text += "  %p = fmul double %a, %b\n  %r = fadd double %p, %c\n" + canonical("double")
    a, b = 1 + 2.0**-30, 1 - 2.0**-30
    inputs = [tuple(bits_of(it, "double") for it in row) for row in ((a, b, -1.0), (0.1, 10.0, -1.0), (a, a, -a))]
    rule = lambda x, y, z: [bits_of(value_of(x, "double") * value_of(y, "double") + value_of(z, "double"), "double")]
    yield Case("no_fused_product", text, inputs, rule)
    fence = read(0, "double", "a") + "  %r = call double @llvm.arithmetic.fence.f64(double %a)\n" + canonical("double")
    more = ["declare double @llvm.arithmetic.fence.f64(double)"]
    yield Case("arithmetic_fence", fence, [(bits_of(0.1, "double"),)], lambda a: [a], more=more)


def cases():
    for kind in KINDS:
        yield from arithmetic(kind)
    yield from conversions()
    yield from literals()
