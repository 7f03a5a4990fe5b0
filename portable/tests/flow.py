"""Cases of branches, loops, phis, switches, calls and traps."""
from cases import Case, edges, give, number

SMALL = [(a,) for a in range(12)]


def loop(phis, steps, result):
    """Returns a loop that runs %a times: phis as (name, first value, next value), and what each round calculates."""
    text = number(0, 64, "a") + "  %some = icmp ne i64 %a, 0\n  br i1 %some, label %round, label %end\nround:\n"
    text += "  %i = phi i64 [ 0, %0 ], [ %i.next, %round ]\n"
    text += "".join(f"  %{name} = phi i64 [ {first}, %0 ], [ {later}, %round ]\n" for name, first, later in phis)
    text += steps + "  %i.next = add nuw i64 %i, 1\n  %more = icmp ult i64 %i.next, %a\n  br i1 %more, label %round, label %end\nend:\n"
    return text + f"  %r = phi i64 [ 99, %0 ], [ {result}, %round ]\n" + give(64, "r")


def fibonacci(a):
    x, y = 0, 1
    for _ in range(a):
        x, y = y, x + y
    return x


def phis():
    """Yields cases in which a block takes all values from the blocks before it at once."""
    swapped = loop([("x", "3", "%y"), ("y", "5", "%x")], "", "%x")
    yield Case("phi_swap", swapped, SMALL, lambda a: [99 if a == 0 else (3, 5)[(a - 1) % 2]])
    turned = loop([("x", "1", "%y"), ("y", "2", "%z"), ("z", "3", "%x")], "", "%x")
    yield Case("phi_three", turned, SMALL, lambda a: [99 if a == 0 else (1, 2, 3)[(a - 1) % 3]])
    summed = loop([("x", "0", "%y"), ("y", "1", "%s")], "  %s = add i64 %x, %y\n", "%y")
    yield Case("phi_fibonacci", summed, SMALL, lambda a: [99 if a == 0 else fibonacci(a)])
    lost = loop([("x", "0", "%n")], "  %n = add i64 %x, 7\n", "%x")
    yield Case("phi_old_value", lost, SMALL, lambda a: [99 if a == 0 else 7 * (a - 1)])
    chain = loop([("x", "1", "%i"), ("y", "2", "%x"), ("z", "3", "%y")], "", "%z")
    yield Case("phi_chain", chain, SMALL, lambda a: [[99, 3, 2, 1][a] if a < 4 else a - 4])
    crossed = loop([("x", "1", "%q"), ("y", "2", "%p")], "  %p = mul i64 %x, 3\n  %q = add i64 %y, %x\n", "%x")

    def wanted(a):
        x, y = 1, 2
        for _ in range(a - 1):
            x, y = y + x, 3 * x
        return [99 if a == 0 else x % (1 << 64)]

    yield Case("phi_crossed", crossed, SMALL, wanted)


def branches():
    body = number(0, 64, "a") + "  %c = icmp ult i64 %a, 5\n  br i1 %c, label %both, label %both\nboth:\n  %r = phi i64 [ 3, %0 ], [ 3, %0 ]\n"
    yield Case("branch_to_one", body + give(64, "r"), SMALL, lambda a: [3])
    body = number(0, 64, "a") + "  br label %first\nlater:\n  %l = add i64 %f, 1\n  br label %last\nfirst:\n  %f = add i64 %a, 1\n"
    body += "  %c = icmp ult i64 %a, 5\n  br i1 %c, label %later, label %last\nunused:\n  br label %last\nlast:\n"
    body += "  %r = phi i64 [ %l, %later ], [ %f, %first ], [ 0, %unused ]\n"
    yield Case("blocks_out_of_order", body + give(64, "r"), SMALL, lambda a: [a + 2 if a < 5 else a + 1])
    body = number(0, 64, "a") + "  br label %outer\nouter:\n  %i = phi i64 [ 0, %0 ], [ %i.next, %outer.end ]\n  %s = phi i64 [ 0, %0 ], [ %t, %outer.end ]\n"
    body += "  br label %inner\ninner:\n  %j = phi i64 [ 0, %outer ], [ %j.next, %inner ]\n  %t = phi i64 [ %s, %outer ], [ %t.next, %inner ]\n"
    body += "  %t.next = add i64 %t, %j\n  %j.next = add i64 %j, 1\n  %again = icmp ult i64 %j.next, %i\n  br i1 %again, label %inner, label %outer.end\n"
    body += "outer.end:\n  %i.next = add i64 %i, 1\n  %on = icmp ult i64 %i.next, %a\n  br i1 %on, label %outer, label %end\nend:\n" + give(64, "t")

    def wanted(a):
        total, i = 0, 0
        while True:
            before, j = total, 0
            while True:
                before, total, j = total, total + j, j + 1
                if j >= i:
                    break
            total, i = before, i + 1
            if i >= a:
                return [before]

    yield Case("loops_nested", body, SMALL, wanted)


def swaps_from_two():
    """Yields a case in which two blocks that each lead to one place alone swap what it takes."""
    body = number(0, 64, "a") + "  br label %round\nround:\n  %x = phi i64 [ 1, %0 ], [ %y, %odd ], [ %y, %even ]\n  %y = phi i64 [ 2, %0 ], [ %x, %odd ], [ %x, %even ]\n"
    body += "  %i = phi i64 [ 0, %0 ], [ %n, %odd ], [ %m, %even ]\n  %more = icmp ult i64 %i, %a\n  br i1 %more, label %turn, label %end\nturn:\n"
    body += "  %low = and i64 %i, 1\n  %c = icmp eq i64 %low, 0\n  br i1 %c, label %even, label %odd\nodd:\n  %n = add i64 %i, 1\n  br label %round\n"
    body += "even:\n  %m = add i64 %i, 1\n  br label %round\nend:\n"
    yield Case("phi_swap_from_two", body + give(64, "x") + give(64, "y", 1), SMALL, lambda a: [1 + a % 2, 2 - a % 2], 2)


def moves_alike():
    """Yields cases in which several blocks lead to one with the same values, of several types, by branches and by a switch."""
    phis = "  %x = phi i64 [ 7, {0} ], [ 7, {1} ], [ %a, {2} ]\n  %y = phi i8 [ 0, {0} ], [ 0, {1} ], [ 5, {2} ]\n"
    phis += "  %z = phi i32 [ 0, {0} ], [ 0, {1} ], [ 0, {2} ]\n  %t = phi i64 [ %b, {0} ], [ %b, {1} ], [ 7, {2} ]\n"
    tests = number(0, 64, "a") + "  %b = mul i64 %a, 9\n  %c = icmp eq i64 %a, 1\n  br i1 %c, label %end, label %second\nsecond:\n  %d = icmp eq i64 %a, 4\n"
    tests += "  br i1 %d, label %end, label %third\nthird:\n  br label %end\nend:\n" + phis.format("%0", "%second", "%third")
    chosen = number(0, 64, "a") + "  %b = mul i64 %a, 9\n  switch i64 %a, label %third [\n    i64 1, label %first\n    i64 4, label %second\n  ]\n"
    chosen += "first:\n  br label %end\nsecond:\n  br label %end\nthird:\n  br label %end\nend:\n" + phis.format("%first", "%second", "%third")
    given = give(64, "x") + give(8, "y", 1) + give(32, "z", 2) + give(64, "t", 3)
    for name, body in (("branches", tests), ("switch", chosen)):
        yield Case(f"moves_alike_{name}", body + given, SMALL, lambda a: [7, 0, 0, 9 * a] if a in (1, 4) else [a, 5, 0, 7], 4)
    body = loop([("x", "1", "%y"), ("y", "2", "%x"), ("z", "%i.first", "0"), ("w", "3", "0")], "  %s = add i64 %z, %w\n  %u = add i64 %s, %x\n", "%u")
    body = body.replace("  %some", "  %i.first = add i64 %a, 1\n  %some", 1)
    yield Case("moves_swap_and_number", body, SMALL, lambda a: [99 if a == 0 else (1 + 4 + a if a == 1 else 2 - a % 2)])


def conditions():
    """Yields cases of conditions that a branch, a choice or another condition asks for."""
    both = [(a, b) for a in (0, 1, 4, 5, 8, 2**31, 2**63, 2**64 - 1) for b in (0, 1, 5, 2**64 - 1)]
    low = lambda it: it % 2**32
    rows = {
        "none": ("  %c = icmp eq i64 %a, 0\n", lambda a, b: a == 0),
        "some": ("  %c = icmp ne i64 %a, 0\n", lambda a, b: a != 0),
        "bits": ("  %m = and i64 %a, 5\n  %c = icmp eq i64 %m, 0\n", lambda a, b: a & 5 == 0),
        "bits_beside": ("  %m = and i64 %a, %b\n  %o = or i64 %a, 1\n  %c = icmp ult i64 %m, %o\n", lambda a, b: a & b < (a | 1)),
        "product": ("  %p = mul i32 %s, 8\n  %c = icmp eq i32 %p, 0\n", lambda a, b: low(8 * a) == 0),
        "moved": ("  %p = shl i32 %s, 3\n  %c = icmp ne i32 %p, 0\n", lambda a, b: low(8 * a) != 0),
        "moved_byte": ("  %t = trunc i64 %a to i8\n  %p = shl i8 %t, 6\n  %c = icmp eq i8 %p, 0\n", lambda a, b: a % 4 == 0),
        "widened": ("  %p = mul i32 %s, 8\n  %w = zext i32 %p to i64\n  %c = icmp ne i64 %w, 0\n", lambda a, b: low(8 * a) != 0),
        "difference": ("  %d = sub i64 %a, %b\n  %c = icmp ult i64 %d, 5\n", lambda a, b: (a - b) % 2**64 < 5),
        "sum_or_moved": ("  %d = add i64 %a, %b\n  %e = lshr i64 %a, 1\n  %c = icmp ult i64 %d, %e\n", lambda a, b: (a + b) % 2**64 < a >> 1),
        "one_of_two": ("  %x = icmp eq i64 %a, 0\n  %y = icmp ugt i64 %b, 4\n  %c = select i1 %x, i1 true, i1 %y\n", lambda a, b: a == 0 or b > 4),
        "both": ("  %x = icmp ne i64 %a, 0\n  %y = icmp eq i64 %b, 5\n  %c = select i1 %x, i1 %y, i1 false\n", lambda a, b: a != 0 and b == 5),
        "three": (
            "  %x = icmp ne i64 %a, 0\n  %y = icmp eq i64 %b, 0\n  %z = icmp eq i64 %a, 5\n  %v = select i1 %x, i1 %y, i1 false\n  %c = select i1 %v, i1 true, i1 %z\n",
            lambda a, b: a != 0 and b == 0 or a == 5,
        ),
        "chain": (
            "  %x = icmp ne i64 %a, 0\n  %y = icmp ne i64 %b, 0\n  %z = icmp ne i64 %a, %b\n  %v = select i1 %x, i1 %y, i1 false\n  %c = select i1 %v, i1 %z, i1 false\n",
            lambda a, b: a != 0 and b != 0 and a != b,
        ),
        "alike": ("  %x = icmp ult i64 %a, 5\n  %y = icmp eq i64 %b, 0\n  %c = icmp eq i1 %x, %y\n", lambda a, b: (a < 5) == (b == 0)),
        "negated": ("  %x = icmp eq i64 %a, 0\n  %n = xor i1 %x, true\n  %y = icmp eq i64 %b, 0\n  %c = and i1 %n, %y\n", lambda a, b: a != 0 and b == 0),
        "nowhere": ("  %p = inttoptr i64 %a to ptr\n  %c = icmp eq ptr %p, null\n", lambda a, b: a == 0),
        "somewhere": ("  %p = inttoptr i64 %a to ptr\n  %c = icmp ne ptr %p, null\n", lambda a, b: a != 0),
    }
    for name, (text, rule) in rows.items():
        body = number(0, 64, "a") + number(1, 64, "b") + "  %s = trunc i64 %a to i32\n" + text
        body += "  %chosen = select i1 %c, i64 %a, i64 %b\n  br i1 %c, label %yes, label %no\nyes:\n  br label %end\nno:\n  br label %end\nend:\n"
        body += "  %r = phi i64 [ 7, %yes ], [ 8, %no ]\n" + give(64, "r") + give(64, "chosen", 1) + give(1, "c", 2)
        yield Case(f"condition_{name}", body, both, lambda a, b, rule=rule: [7 if rule(a, b) else 8, a if rule(a, b) else b, int(rule(a, b))], 3)


def declarations():
    """Yields a case in which variables of several types begin behind a label, and one more in each way to another label."""
    body = number(0, 64, "a") + "  %c = icmp ult i64 %a, 5\n  br i1 %c, label %few, label %many\nfew:\n  %t = trunc i64 %a to i8\n"
    body += "  %x = mul i64 %a, 3\n  %y = add i64 %x, 1\n  %u = mul i8 %t, 5\n  %z = xor i64 %x, %y\n  br label %end\nmany:\n  %v = mul i64 %a, 7\n"
    body += "  %w = xor i64 %v, 1\n  %s = add i64 %v, %w\n  br label %end\nend:\n  %r = phi i64 [ %z, %few ], [ %s, %many ]\n  %q = phi i8 [ %u, %few ], [ 1, %many ]\n"
    body += "  %d = mul i64 %r, %r\n  %e = add i64 %d, %r\n  %f = sub i64 %e, %d\n" + give(64, "f") + give(8, "q", 1)

    def wanted(a):
        made = 3 * a ^ 3 * a + 1 if a < 5 else 7 * a + (7 * a ^ 1)
        return [made % 2**64, 5 * a % 256 if a < 5 else 1]

    yield Case("declarations", body, SMALL, wanted, 2)


def switches():
    for bits, values in ((8, [0, 1, 127, 128, 255]), (13, [0, 1, 4095, 4096, 8191]), (32, [0, 2**31, 2**32 - 1]), (64, [0, 5, 2**63, 2**64 - 1])):
        arms = "".join(f"    i{bits} {value}, label %arm{at}\n" for at, value in enumerate(values))
        body = number(0, bits, "a") + f"  switch i{bits} %a, label %other [\n{arms}    i{bits} 77, label %arm0\n  ]\n"
        body += "".join(f"arm{at}:\n  br label %end\n" for at in range(len(values))) + "other:\n  br label %end\nend:\n"
        body += "  %r = phi i64 " + ", ".join(f"[ {at + 10}, %arm{at} ]" for at in range(len(values))) + ", [ 1, %other ]\n"
        rule = lambda a, v=values: [v.index(a) + 10 if a in v else 10 if a == 77 else 1]
        yield Case(f"switch_{bits}", body + give(64, "r"), [(a,) for a in sorted({*values, *edges(bits), 77})], rule)
    direct = number(0, 64, "a") + "  %b = add i64 %a, 3\n  switch i64 %a, label %end [\n    i64 1, label %end\n    i64 2, label %end\n    i64 3, label %more\n  ]\n"
    direct += "more:\n  br label %end\nend:\n  %r = phi i64 [ %b, %0 ], [ %b, %0 ], [ %b, %0 ], [ 50, %more ]\n"
    yield Case("switch_to_one", direct + give(64, "r"), SMALL, lambda a: [50 if a == 3 else a + 3])
    swapped = number(0, 64, "a") + "  br label %round\nround:\n  %x = phi i64 [ 1, %0 ], [ %y, %round ], [ %y, %round ]\n  %y = phi i64 [ 2, %0 ], [ %x, %round ], [ %x, %round ]\n"
    swapped += "  %i = phi i64 [ 0, %0 ], [ %n, %round ], [ %n, %round ]\n  %n = add i64 %i, 1\n  %c = icmp ult i64 %n, %a\n  %d = select i1 %c, i64 1, i64 0\n"
    swapped += "  switch i64 %d, label %end [\n    i64 1, label %round\n    i64 2, label %round\n  ]\nend:\n" + give(64, "x")
    yield Case("switch_swap", swapped, SMALL, lambda a: [(1, 2)[max(a - 1, 0) % 2]])


def calls():
    more = [
        "@doors = private constant [3 x ptr] [ptr @twice, ptr @squared, ptr @down], align 8",
        "define internal i64 @twice(i64 %a) {\n  %r = shl i64 %a, 1\n  ret i64 %r\n}",
        "define internal fastcc i64 @squared(i64 %a) noinline {\n  %r = mul i64 %a, %a\n  ret i64 %r\n}".replace("fastcc ", ""),
        "define internal i64 @down(i64 %a) {\n  %c = icmp eq i64 %a, 0\n  br i1 %c, label %end, label %on\non:\n  %b = sub i64 %a, 1\n  %d = call i64 @down(i64 %b)\n"
        "  %e = add i64 %d, %a\n  ret i64 %e\nend:\n  ret i64 0\n}",
        "define internal fastcc void @puts_five(ptr nocapture writeonly %p) cold noinline {\n  store i64 5, ptr %p, align 8\n  ret void\n}",
    ]
    body = number(0, 64, "a") + number(1, 64, "n") + "  %p = getelementptr inbounds ptr, ptr @doors, i64 %n\n  %f = load ptr, ptr %p, align 8\n"
    body += "  %r = tail call i64 %f(i64 noundef %a)\n  %room = alloca i64, align 8\n  call fastcc void @puts_five(ptr nonnull %room)\n  %s = load i64, ptr %room, align 8\n"
    rules = (lambda a: 2 * a, lambda a: a * a, lambda a: a * (a + 1) // 2)
    inputs = [(a, n) for a in (0, 1, 5, 1000) for n in range(3)]
    yield Case("calls", body + give(64, "r") + give(64, "s", 1), inputs, lambda a, n: [rules[n](a), 5], 2, more)
    mutual = [
        f"define internal i64 @{name}(i64 %a) noinline {{\n  %c = icmp eq i64 %a, 0\n  br i1 %c, label %end, label %on\non:\n  %b = sub i64 %a, 1\n"
        f"  %d = call i64 @{other}(i64 %b)\n  ret i64 %d\nend:\n  ret i64 {last}\n}}"
        for name, other, last in (("evenly", "oddly", 1), ("oddly", "evenly", 0))
    ]
    mutual.append("define internal i64 @first(i64 %a) noinline {\n  %b = call i64 @second(i64 %a)\n  %r = add i64 %b, 1\n  ret i64 %r\n}")
    mutual.append("define internal i64 @second(i64 %a) noinline {\n  %r = mul i64 %a, 3\n  ret i64 %r\n}")
    body = number(0, 64, "a") + "  %r = call i64 @evenly(i64 %a)\n  %s = call i64 @first(i64 %a)\n" + give(64, "r") + give(64, "s", 1)
    yield Case("calls_in_a_circle", body, SMALL, lambda a: [1 - a % 2, 3 * a + 1], 2, mutual)
    names = [
        'define internal i8 @"a::b::<#0123456789abcdef>"(i8 %x) noinline {\n  %r = add i8 %x, 1\n  ret i8 %r\n}',
        'define internal i8 @"a::b::<#0123ffff89abcdef>"(i8 %x) noinline {\n  %r = add i8 %x, 2\n  ret i8 %r\n}',
    ]
    body = number(0, 8, "a") + '  %x = call i8 @"a::b::<#0123456789abcdef>"(i8 %a)\n  %y = call i8 @"a::b::<#0123ffff89abcdef>"(i8 %a)\n'
    yield Case("names_alike", body + give(8, "x") + give(8, "y", 1), [(a,) for a in edges(8)], lambda a: [(a + 1) % 256, (a + 2) % 256], 2, names)


def silent():
    """Yields a case of calls that mean something only to LLVM."""
    more = ["declare void @llvm.assume(i1)", "declare void @llvm.donothing()"]
    body = number(0, 64, "a") + "  %c = icmp ult i64 %a, 100\n  call void @llvm.assume(i1 %c)\n  call void @llvm.donothing()\n" + give(64, "a")
    yield Case("silent", body, SMALL, lambda a: [a], more=more)


def cases():
    for made in (phis, swaps_from_two, moves_alike, conditions, declarations, branches, switches, calls, silent):
        yield from made()


TRAPS = {
    "unreachable": Case("trap_unreachable", number(0, 64, "a") + "  %c = icmp eq i64 %a, 1\n  br i1 %c, label %bad, label %good\nbad:\n  unreachable\ngood:\n" + give(64, "a"), [], None),
    "llvm.trap": Case(
        "trap_called",
        number(0, 64, "a") + "  %c = icmp eq i64 %a, 1\n  br i1 %c, label %bad, label %good\nbad:\n  call void @llvm.trap()\n  unreachable\ngood:\n" + give(64, "a"),
        [],
        None,
        more=["declare void @llvm.trap()"],
    ),
}
