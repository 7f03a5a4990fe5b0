"""Cases of integers of many widths. Python's integers calculate what is wanted."""
from cases import Case, edges, give, number, signed

WIDTHS = (1, 3, 7, 8, 13, 16, 20, 24, 31, 32, 33, 40, 48, 63, 64, 65, 96, 127, 128)
CONDITIONS = {
    "eq": lambda a, b, n: a == b,
    "ne": lambda a, b, n: a != b,
    "ugt": lambda a, b, n: a > b,
    "uge": lambda a, b, n: a >= b,
    "ult": lambda a, b, n: a < b,
    "ule": lambda a, b, n: a <= b,
    "sgt": lambda a, b, n: signed(a, n) > signed(b, n),
    "sge": lambda a, b, n: signed(a, n) >= signed(b, n),
    "slt": lambda a, b, n: signed(a, n) < signed(b, n),
    "sle": lambda a, b, n: signed(a, n) <= signed(b, n),
}


def toward_zero(a, b):
    return abs(a) // abs(b) * (1 if (a < 0) == (b < 0) else -1)


def rest(a, b):
    return a - b * toward_zero(a, b)


OPERATIONS = {
    "add": lambda a, b, n: a + b,
    "sub": lambda a, b, n: a - b,
    "mul": lambda a, b, n: a * b,
    "and": lambda a, b, n: a & b,
    "or": lambda a, b, n: a | b,
    "xor": lambda a, b, n: a ^ b,
    "udiv": lambda a, b, n: a // b,
    "urem": lambda a, b, n: a % b,
    "sdiv": lambda a, b, n: toward_zero(signed(a, n), signed(b, n)),
    "srem": lambda a, b, n: rest(signed(a, n), signed(b, n)),
    "shl": lambda a, b, n: a << b,
    "lshr": lambda a, b, n: a >> b,
    "ashr": lambda a, b, n: signed(a, n) >> b,
}
OF_TWO = {
    "umin": lambda a, b, n: min(a, b),
    "umax": lambda a, b, n: max(a, b),
    "smin": lambda a, b, n: min(a, b, key=lambda it: signed(it, n)),
    "smax": lambda a, b, n: max(a, b, key=lambda it: signed(it, n)),
    "uadd.sat": lambda a, b, n: min(a + b, (1 << n) - 1),
    "usub.sat": lambda a, b, n: max(a - b, 0),
    "sadd.sat": lambda a, b, n: max(-(1 << n - 1), min(signed(a, n) + signed(b, n), (1 << n - 1) - 1)) % (1 << n),
}
OVERFLOWING = {
    "uadd": lambda a, b, n: a + b,
    "usub": lambda a, b, n: a - b,
    "umul": lambda a, b, n: a * b,
    "sadd": lambda a, b, n: signed(a, n) + signed(b, n),
    "ssub": lambda a, b, n: signed(a, n) - signed(b, n),
    "smul": lambda a, b, n: signed(a, n) * signed(b, n),
}


def pairs(op, bits):
    """Yields pairs of numbers for which an operation is defined."""
    for a in edges(bits):
        for b in edges(bits) if op not in ("shl", "lshr", "ashr") else sorted({0, 1, bits // 2, bits - 1}):
            is_lowest = op in ("sdiv", "srem") and signed(a, bits) == -1 << (bits - 1) and signed(b, bits) == -1
            if not (op in ("udiv", "urem", "sdiv", "srem") and b == 0 or is_lowest or b >= bits and op in ("shl", "lshr", "ashr")):
                yield a, b


def arithmetic():
    for bits in WIDTHS:
        for op, rule in OPERATIONS.items():
            body = number(0, bits, "a") + number(1, bits, "b") + f"  %r = {op} i{bits} %a, %b\n" + give(bits, "r")
            yield Case(f"{op}_{bits}", body, list(pairs(op, bits)), lambda a, b, rule=rule, n=bits: [rule(a, b, n) % (1 << n)])
            yield from with_constants(op, rule, bits)


def with_constants(op, rule, bits):
    """Yields the same cases with one constant operand."""
    for number_of, (a, b) in enumerate(list(pairs(op, bits))[:: max(len(edges(bits)) * 3, 1)][:4]):
        right = number(0, bits, "a") + f"  %r = {op} i{bits} %a, {signed(b, bits) if bits > 1 else b}\n" + give(bits, "r")
        inputs = [(it,) for it, other in pairs(op, bits) if other == b]
        yield Case(f"{op}_{bits}_right{number_of}", right, inputs, lambda a, b=b, rule=rule, n=bits: [rule(a, b, n) % (1 << n)])
        left = number(0, bits, "b") + f"  %r = {op} i{bits} {a}, %b\n" + give(bits, "r")
        inputs = [(it,) for other, it in pairs(op, bits) if other == a]
        yield Case(f"{op}_{bits}_left{number_of}", left, inputs, lambda b, a=a, rule=rule, n=bits: [rule(a, b, n) % (1 << n)])


def too_far():
    """Yields cases of a shift that is too far, which is no fault if nothing reads its result."""
    for bits in (8, 32, 64, 128):
        for op in ("shl", "lshr", "ashr"):
            body = number(0, bits, "a") + number(1, bits, "b")
            body += f"  %s = {op} i{bits} %a, %b\n  %few = icmp ult i{bits} %b, {bits}\n"
            body += f"  %r = select i1 %few, i{bits} %s, i{bits} 77\n" + give(bits, "r")
            rule = OPERATIONS[op]
            inputs = [(a, b) for a in edges(bits) for b in (0, 1, bits - 1, bits, bits + 1, (1 << bits) - 1)]
            yield Case(f"far_{op}_{bits}", body, inputs, lambda a, b, r=rule, n=bits: [r(a, b, n) % (1 << n) if b < n else 77])


def comparisons_of_addresses():
    """Yields cases in which numbers are compared as addresses."""
    both = number(0, 64, "a") + number(1, 64, "b") + "  %p = inttoptr i64 %a to ptr\n  %q = inttoptr i64 %b to ptr\n"
    for name, rule in CONDITIONS.items():
        body = both + f"  %r = icmp {name} ptr %p, %q\n" + give(1, "r")
        all_pairs = [(a, b) for a in edges(64) for b in edges(64)]
        yield Case(f"icmp_{name}_ptr", body, all_pairs, lambda a, b, rule=rule: [int(rule(a, b, 64))])
        body = both + f"  %r = icmp {name} ptr %p, inttoptr (i64 -1 to ptr)\n" + give(1, "r")
        yield Case(f"icmp_{name}_ptr_last", body, all_pairs, lambda a, b, rule=rule: [int(rule(a, (1 << 64) - 1, 64))])


def comparisons():
    yield from comparisons_of_addresses()
    for bits in WIDTHS:
        both = number(0, bits, "a") + number(1, bits, "b")
        all_pairs = [(a, b) for a in edges(bits) for b in edges(bits)]
        for name, rule in CONDITIONS.items():
            body = both + f"  %r = icmp {name} i{bits} %a, %b\n" + give(1, "r")
            yield Case(f"icmp_{name}_{bits}", body, all_pairs, lambda a, b, rule=rule, n=bits: [int(rule(a, b, n))])
            for at, fixed in enumerate(edges(bits)[:8:3]):
                body = number(0, bits, "a") + f"  %r = icmp {name} i{bits} %a, {fixed}\n" + give(1, "r")
                inputs = [(a,) for a in edges(bits)]
                yield Case(f"icmp_{name}_{bits}_{at}", body, inputs, lambda a, b=fixed, rule=rule, n=bits: [int(rule(a, b, n))])
        body = both + f"  %c = icmp ult i{bits} %a, %b\n  %r = select i1 %c, i{bits} %a, i{bits} 1\n" + give(bits, "r")
        yield Case(f"select_{bits}", body, all_pairs, lambda a, b: [a if a < b else 1])


def casts():
    for bits in WIDTHS:
        inputs = [(a,) for a in edges(bits)]
        for wider in (it for it in WIDTHS if it > bits):
            for op, rule in (("zext", lambda a, n: a), ("sext", signed)):
                body = number(0, bits, "a") + f"  %r = {op} i{bits} %a to i{wider}\n" + give(wider, "r")
                yield Case(f"{op}_{bits}_{wider}", body, inputs, lambda a, r=rule, n=bits, m=wider: [r(a, n) % (1 << m)])
            body = number(0, wider, "a") + f"  %r = trunc i{wider} %a to i{bits}\n" + give(bits, "r")
            yield Case(f"trunc_{wider}_{bits}", body, [(a,) for a in edges(wider)], lambda a, n=bits: [a % (1 << n)])


def intrinsics():
    for bits in WIDTHS:
        both, declare = number(0, bits, "a") + number(1, bits, "b"), "declare i{n} @llvm.{op}.i{n}(i{n}, i{n})"
        all_pairs = [(a, b) for a in edges(bits) for b in edges(bits)]
        for op, rule in OF_TWO.items():
            body = both + f"  %r = call i{bits} @llvm.{op}.i{bits}(i{bits} %a, i{bits} %b)\n" + give(bits, "r")
            more = [declare.format(n=bits, op=op)]
            name = op.replace(".", "_")
            yield Case(f"{name}_{bits}", body, all_pairs, lambda a, b, rule=rule, n=bits: [rule(a, b, n)], more=more)
        yield from of_one(bits)
    for bits in (8, 16, 32, 64, 128):
        yield from overflowing(bits)
    for bits in (8, 16, 32, 64):
        yield from turned(bits)


def of_one(bits):
    """Yields cases of abs, which is defined for each number here but the lowest, and counts of bits."""
    top = 1 << bits
    rules = {
        "abs": lambda a: abs(signed(a, bits)) % top,
        "ctpop": lambda a: bin(a).count("1") % top,
        "ctlz": lambda a: (bits - a.bit_length()) % top,
        "cttz": lambda a: ((a & -a).bit_length() - 1 if a else bits) % top,
    }
    for op, rule in rules.items():
        flag = "" if op == "ctpop" else ", i1 false"
        body = number(0, bits, "a") + f"  %r = call i{bits} @llvm.{op}.i{bits}(i{bits} %a{flag})\n" + give(bits, "r")
        more = [f"declare i{bits} @llvm.{op}.i{bits}(i{bits}{', i1' if flag else ''})"]
        yield Case(f"{op}_{bits}", body, [(a,) for a in edges(bits)], lambda a, rule=rule: [rule(a)], more=more)
    body = number(0, bits, "a") + f"  %r = call i{bits} @llvm.expect.i{bits}(i{bits} %a, i{bits} 1)\n" + give(bits, "r")
    yield Case(f"expect_{bits}", body, [(a,) for a in edges(bits)], lambda a: [a], more=[f"declare i{bits} @llvm.expect.i{bits}(i{bits}, i{bits})"])


def overflowing(bits):
    both = number(0, bits, "a") + number(1, bits, "b")
    all_pairs = [(a, b) for a in edges(bits) for b in edges(bits)]
    for op, rule in OVERFLOWING.items():
        pair = f"{{ i{bits}, i1 }}"
        body = both + f"  %p = call {pair} @llvm.{op}.with.overflow.i{bits}(i{bits} %a, i{bits} %b)\n"
        body += f"  %r = extractvalue {pair} %p, 0\n  %o = extractvalue {pair} %p, 1\n" + give(bits, "r") + give(1, "o", 1)

        def wanted(a, b, op=op, rule=rule):
            exact = rule(a, b, bits)
            low, high = (-(1 << (bits - 1)), (1 << (bits - 1)) - 1) if op[0] == "s" else (0, (1 << bits) - 1)
            return [exact % (1 << bits), int(not low <= exact <= high)]

        more = [f"declare {pair} @llvm.{op}.with.overflow.i{bits}(i{bits}, i{bits})"]
        yield Case(f"{op}_overflow_{bits}", body, all_pairs, wanted, 2, more)
    for op, order in (("ucmp", lambda a: a), ("scmp", lambda a: signed(a, bits))):
        body = both + f"  %r = call i8 @llvm.{op}.i8.i{bits}(i{bits} %a, i{bits} %b)\n" + give(8, "r")
        more = [f"declare i8 @llvm.{op}.i8.i{bits}(i{bits}, i{bits})"]
        rule = lambda a, b, order=order: [((order(a) > order(b)) - (order(a) < order(b))) % 256]
        yield Case(f"{op}_{bits}", body, all_pairs, rule, more=more)


def turned(bits):
    """Yields cases of funnel shifts, rotations by them, and bytes in the other order."""
    top = (1 << bits) - 1
    inputs = [(a, b, n) for a in edges(bits)[::2] for b in edges(bits)[1::3] for n in (0, 1, bits // 2, bits - 1, bits, bits + 3)]
    for op in ("fshl", "fshr"):
        body = number(0, bits, "a") + number(1, bits, "b") + number(2, bits, "n")
        body += f"  %r = call i{bits} @llvm.{op}.i{bits}(i{bits} %a, i{bits} %b, i{bits} %n)\n" + give(bits, "r")
        more = [f"declare i{bits} @llvm.{op}.i{bits}(i{bits}, i{bits}, i{bits})"]

        def wanted(a, b, n, op=op):
            both, n = a << bits | b, n % bits
            return [(both << n >> bits if op == "fshl" else both >> n) & top]

        yield Case(f"{op}_{bits}", body, inputs, wanted, more=more)
    if bits > 8:
        body = number(0, bits, "a") + f"  %r = call i{bits} @llvm.bswap.i{bits}(i{bits} %a)\n" + give(bits, "r")
        more = [f"declare i{bits} @llvm.bswap.i{bits}(i{bits})"]
        rule = lambda a: [int.from_bytes(a.to_bytes(bits // 8, "little"), "big")]
        yield Case(f"bswap_{bits}", body, [(a,) for a in edges(bits)], rule, more=more)


def logic():
    """Yields cases of and, or and xor of bits, as selects and as operations, and of freeze."""
    bits = number(0, 1, "a") + number(1, 1, "b")
    inputs = [(a, b) for a in (0, 1) for b in (0, 1)]
    rows = {
        "and_select": ("select i1 %a, i1 %b, i1 false", lambda a, b: [a & b]),
        "or_select": ("select i1 %a, i1 true, i1 %b", lambda a, b: [a | b]),
        "not_select": ("select i1 %a, i1 false, i1 %b", lambda a, b: [(1 - a) & b]),
        "not": ("xor i1 %a, true", lambda a, b: [1 - a]),
    }
    for name, (text, rule) in rows.items():
        yield Case(name, bits + f"  %r = {text}\n" + give(1, "r"), inputs, rule)
    body = number(0, 64, "a") + "  %f = freeze i64 %a\n  %r = add i64 %f, %f\n" + give(64, "r")
    yield Case("freeze", body, [(a,) for a in edges(64)], lambda a: [2 * a % (1 << 64)])
    narrow = number(0, 16, "a") + number(1, 16, "b") + "  %m = mul i16 %a, %b\n  %s = shl i16 %m, 1\n  %t = sub i16 %s, %a\n"
    narrow += "  %d = lshr i16 %t, 3\n  %r = zext i16 %d to i32\n  %q = mul i32 %r, %r\n" + give(32, "q")
    rule = lambda a, b: [((((a * b << 1) - a) & 0xFFFF) >> 3) ** 2 % (1 << 32)]
    yield Case("narrow_chain", narrow, [(a, b) for a in edges(16) for b in edges(16)], rule)


def cases():
    for made in (arithmetic, too_far, comparisons, casts, intrinsics, logic):
        yield from made()
