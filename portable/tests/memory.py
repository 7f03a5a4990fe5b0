"""Cases of loads, stores, addresses, copies, data and values with parts."""
from cases import Case, edges, give, number

NUMBERS = [(a,) for a in edges(64)]


def widths():
    """Yields cases in which an integer of each width goes to memory and back, and touches no byte beside its own."""
    for bits in (1, 3, 8, 12, 16, 20, 24, 32, 36, 40, 48, 56, 64, 65, 72, 96, 127, 128):
        count = (bits + 7) // 8
        for aligned in (1, 16):
            at = 16 if aligned == 16 else 3
            body = number(0, bits, "a") + "  %room = alloca [48 x i8], align 16\n"
            body += "  call void @llvm.memset.p0.i64(ptr align 16 %room, i8 -86, i64 48, i1 false)\n"
            body += f"  %p = getelementptr inbounds i8, ptr %room, i64 {at}\n  store i{bits} %a, ptr %p, align {aligned}\n"
            body += f"  %r = load i{bits}, ptr %p, align {aligned}\n  %before = getelementptr inbounds i8, ptr %p, i64 -1\n"
            body += f"  %after = getelementptr inbounds i8, ptr %p, i64 {count}\n  %x = load i8, ptr %before, align 1\n  %y = load i8, ptr %after, align 1\n"
            body += give(bits, "r") + give(8, "x", 1) + give(8, "y", 2)
            more = ["declare void @llvm.memset.p0.i64(ptr, i8, i64, i1)"]
            yield Case(f"stored_{bits}_{aligned}", body, [(a,) for a in edges(bits)], lambda a: [a, 0xAA, 0xAA], 3, more)


def order():
    """Yields cases in which a value read before a write remains what it was, wherever its value is used."""
    store = "  store i64 77, ptr %p, align 8\n"
    room = number(0, 64, "a") + "  %p = alloca i64, align 8\n  store i64 %a, ptr %p, align 8\n  %v = load i64, ptr %p, align 8\n"
    after = "  %r = add i64 %v, 1\n" + give(64, "r")
    plus = lambda a: [(a + 1) % (1 << 64)]
    yield Case("read_before_store", room + store + after, NUMBERS, plus)
    yield Case("read_inside_before_store", room + "  %w = xor i64 %v, 1\n" + store + "  %r = xor i64 %w, 1\n" + give(64, "r"), NUMBERS, lambda a: [a])
    writes = ["define internal void @writes(ptr %p) noinline {\n  store i64 78, ptr %p, align 8\n  ret void\n}"]
    yield Case("read_before_call", room + "  call void @writes(ptr %p)\n" + after, NUMBERS, plus, more=writes)
    filled = "  call void @llvm.memset.p0.i64(ptr %p, i8 1, i64 8, i1 false)\n"
    yield Case("read_before_fill", room + filled + after, NUMBERS, plus, more=["declare void @llvm.memset.p0.i64(ptr, i8, i64, i1)"])
    given = room + "  store i64 %v, ptr %p, align 8\n  %w = load i64, ptr %p, align 8\n" + store + "  %r = sub i64 %w, %v\n" + give(64, "r")
    yield Case("read_for_store", given, NUMBERS, lambda a: [0])
    later = "  br label %next\nnext:\n  %r = phi i64 [ %v, %0 ]\n" + store + give(64, "r")
    yield Case("read_before_jump", room + later, NUMBERS, lambda a: [a])
    chosen = "  %c = icmp ugt i64 %a, 5\n" + store + "  %r = select i1 %c, i64 %v, i64 5\n" + give(64, "r")
    yield Case("read_before_select", room + chosen, NUMBERS, lambda a: [a if a > 5 else 5])


def cleared():
    """Yields cases in which a room is set to zeros: all of it or a part, before another use or after it, once or in each round."""
    more = ["declare void @llvm.memset.p0.i64(ptr, i8, i64, i1)"]
    room = number(0, 64, "a") + "  %p = alloca [16 x i8], align 8\n  %q = getelementptr inbounds i8, ptr %p, i64 8\n"
    fill = "  call void @llvm.memset.p0.i64(ptr %{}, i8 {}, i64 {}, i1 false)\n".format
    both = "  %r = load i64, ptr %p, align 8\n  %s = load i64, ptr %q, align 8\n" + give(64, "r") + give(64, "s", 1)
    store = "  store i64 %a, ptr %{}, align 8\n".format
    yield Case("cleared_first", room + fill("p", 0, 16) + store("q") + both, NUMBERS, lambda a: [0, a], 2, more)
    yield Case("cleared_after_store", room + store("p") + store("q") + fill("p", 0, 16) + both, NUMBERS, lambda a: [0, 0], 2, more)
    yield Case("cleared_half", room + store("p") + fill("q", 0, 8) + both, NUMBERS, lambda a: [a, 0], 2, more)
    yield Case("cleared_begin", room + store("q") + fill("p", 0, 8) + both, NUMBERS, lambda a: [0, a], 2, more)
    yield Case("cleared_twice", room + fill("p", 0, 16) + store("p") + fill("p", 0, 16) + store("q") + both, NUMBERS, lambda a: [0, a], 2, more)
    through = room + "  %t = alloca ptr, align 8\n  store ptr %p, ptr %t, align 8\n  %u = load ptr, ptr %t, align 8\n" + store("u")
    yield Case("cleared_after_address", through + store("q") + fill("p", 0, 16) + both, NUMBERS, lambda a: [0, 0], 2, more)
    read = room + fill("p", 1, 16) + "  %v = load i64, ptr %p, align 8\n" + fill("p", 0, 16) + "  %w = add i64 %v, %a\n  store i64 %w, ptr %q, align 8\n" + both
    yield Case("cleared_after_read", read, NUMBERS, lambda a: [0, (a + 0x0101010101010101) % (1 << 64)], 2, more)
    rounds = room + "  br label %round\nround:\n  %i = phi i64 [ 0, %0 ], [ %n, %round ]\n  %x = phi i64 [ 0, %0 ], [ %y, %round ]\n" + fill("p", 0, 16)
    rounds += "  %v = load i64, ptr %p, align 8\n  %y = add i64 %x, %v\n  store i64 5, ptr %p, align 8\n  store i64 6, ptr %q, align 8\n  %n = add i64 %i, 1\n"
    rounds += "  %c = icmp ult i64 %n, 4\n  br i1 %c, label %round, label %end\nend:\n" + both + give(64, "y", 2)
    yield Case("cleared_each_round", rounds, NUMBERS, lambda a: [5, 6, 0], 3, more)


def addresses():
    base = number(0, 64, "a") + "  %room = alloca [64 x i8], align 8\n  call void @llvm.memset.p0.i64(ptr %room, i8 0, i64 64, i1 false)\n"
    more = ["declare void @llvm.memset.p0.i64(ptr, i8, i64, i1)"]
    rows = {
        "struct": "getelementptr inbounds { i8, i32, [3 x i64] }, ptr %room, i64 0, i32 2, i64 1",
        "array": "getelementptr inbounds [2 x i64], ptr %room, i64 0, i64 2",
        "scaled": "getelementptr inbounds i64, ptr %room, i64 2",
        "nuw": "getelementptr inbounds nuw i64, ptr %room, i64 2",
        "plain": "getelementptr i8, ptr %room, i64 16",
    }
    for name, text in rows.items():
        body = base + f"  %p = {text}\n  store i64 %a, ptr %p, align 8\n  %q = getelementptr i8, ptr %room, i64 16\n  %r = load i64, ptr %q, align 8\n"
        yield Case(f"address_{name}", body + give(64, "r"), NUMBERS, lambda a: [a], more=more)
    for flags in ("", "inbounds ", "nusw ", "inbounds nuw "):
        ends = "  %end = getelementptr inbounds i8, ptr %room, i64 32\n  %low = and i64 %a, 3\n"
        index = "  %i = sub i64 0, %low\n" if "nuw" not in flags else "  %i = add i64 0, %low\n"
        body = base + ends + index + f"  %p = getelementptr {flags}i64, ptr %end, i64 %i\n  store i64 9, ptr %p, align 8\n"
        body += "  %n = ptrtoint ptr %p to i64\n  %m = ptrtoaddr ptr %room to i64\n  %r = sub i64 %n, %m\n"
        sign = 1 if "nuw" in flags else -1
        name = "address_index_" + (flags.strip().replace(" ", "_") or "plain")
        yield Case(name, body + give(64, "r"), NUMBERS, lambda a, s=sign: [32 + s * 8 * (a & 3)], more=more)
    far = base + "  %p = getelementptr inbounds nuw i64, ptr %room, i64 %a\n  %n = getelementptr inbounds i8, ptr null, i64 %a\n  %few = icmp ult i64 %a, 8\n"
    far += "  br i1 %few, label %near, label %end\nnear:\n  store i64 6, ptr %p, align 8\n  br label %end\nend:\n  %f.at = getelementptr inbounds i8, ptr %room, i64 16\n"
    far += "  %r = load i64, ptr %f.at, align 8\n  %z = icmp eq ptr %n, null\n" + give(64, "r") + give(1, "z", 1)
    yield Case("address_far", far, NUMBERS, lambda a: [6 if a == 2 else 0, int(a == 0)], 2, more)
    compare = base + "  %p = getelementptr inbounds i8, ptr %room, i64 8\n  %q = inttoptr i64 %a to ptr\n  %e = icmp eq ptr %q, null\n"
    compare += "  %l = icmp ult ptr %room, %p\n  %g = icmp ugt ptr %room, %p\n" + give(1, "e") + give(1, "l", 1) + give(1, "g", 2)
    yield Case("address_compared", compare, NUMBERS, lambda a: [int(a == 0), 1, 0], 3, more)
    for aligned in (16, 64, 256):
        body = f"  %room = alloca [3 x i8], align {aligned}\n  call void @sees(ptr %room)\n  %n = ptrtoint ptr %room to i64\n  %r = and i64 %n, {aligned - 1}\n"
        sees = ["define internal void @sees(ptr %p) noinline {\n  store i8 1, ptr %p, align 1\n  ret void\n}"]
        yield Case(f"alloca_aligned_{aligned}", body + give(64, "r"), [(0,)], lambda a: [0], more=sees)


def copies():
    names = ["declare void @llvm.memcpy.p0.p0.i64(ptr, ptr, i64, i1)", "declare void @llvm.memmove.p0.p0.i64(ptr, ptr, i64, i1)"]
    names += ["declare void @llvm.memset.p0.i64(ptr, i8, i64, i1)", "declare void @llvm.lifetime.start.p0(ptr)", "declare void @llvm.lifetime.end.p0(ptr)"]
    base = number(0, 64, "a") + "  %room = alloca [32 x i8], align 8\n  call void @llvm.lifetime.start.p0(ptr %room)\n"
    base += "  call void @llvm.memset.p0.i64(ptr %room, i8 0, i64 32, i1 false)\n  store i64 %a, ptr %room, align 8\n"
    ends = "  %r = load i64, ptr %q, align 1\n  call void @llvm.lifetime.end.p0(ptr %room)\n" + give(64, "r")
    body = base + "  %q = getelementptr inbounds i8, ptr %room, i64 16\n  call void @llvm.memcpy.p0.p0.i64(ptr align 1 %q, ptr nonnull %room, i64 8, i1 false)\n"
    yield Case("memcpy", body + ends, NUMBERS, lambda a: [a], more=names)
    body = base + "  %q = getelementptr inbounds i8, ptr %room, i64 2\n  call void @llvm.memmove.p0.p0.i64(ptr %q, ptr %room, i64 8, i1 false)\n"
    yield Case("memmove_over", body + ends, NUMBERS, lambda a: [a], more=names)
    body = base + "  %n = and i64 %a, 7\n  %q = getelementptr inbounds i8, ptr %room, i64 8\n  call void @llvm.memcpy.p0.p0.i64(ptr %q, ptr %room, i64 %n, i1 false)\n"
    yield Case("memcpy_some", body + ends, NUMBERS, lambda a: [a & (1 << 8 * (a & 7)) - 1], more=names)
    body = base + "  %n = and i64 %a, 7\n  %b = trunc i64 %a to i8\n  %q = getelementptr inbounds i8, ptr %room, i64 8\n  call void @llvm.memset.p0.i64(ptr %q, i8 %b, i64 %n, i1 false)\n"
    yield Case("memset_some", body + ends, NUMBERS, lambda a: [int.from_bytes(bytes([a & 255] * (a & 7)), "little")], more=names)
    nothing = base + "  %q = getelementptr inbounds i8, ptr %room, i64 0\n  %none = and i64 %a, 0\n"
    for name in ("memcpy", "memmove"):
        nothing += f"  call void @llvm.{name}.p0.p0.i64(ptr null, ptr null, i64 %none, i1 false)\n"
        nothing += f"  call void @llvm.{name}.p0.p0.i64(ptr null, ptr null, i64 0, i1 false)\n"
    nothing += "  call void @llvm.memset.p0.i64(ptr null, i8 0, i64 %none, i1 false)\n"
    yield Case("nothing_at_null", nothing + ends, NUMBERS, lambda a: [a], more=names)
    for name, kinds in (("memcmp", lambda x: [x]), ("bcmp", lambda x: [int(x != 0)])):
        body = base + "  %q = getelementptr inbounds i8, ptr %room, i64 8\n  store i64 7, ptr %q, align 8\n"
        body += f"  %c = call i32 @{name}(ptr %room, ptr %q, i64 8)\n  %less = icmp slt i32 %c, 0\n  %s = zext i1 %less to i8\n"
        body += "  %differs = icmp ne i32 %c, 0\n" + (give(1, "differs") if name == "bcmp" else give(8, "s"))
        rule = (lambda a: [int(a != 7)]) if name == "bcmp" else (lambda a: [int(a.to_bytes(8, "little") < (7).to_bytes(8, "little"))])
        yield Case(name, body, NUMBERS, rule, more=[*names, f"declare i32 @{name}(ptr, ptr, i64)"])


def data():
    """Yields cases of data with texts of every kind, with addresses, and of data that changes."""
    texts = {
        "plain": b"plain text",
        "signs": b'\\"quoted"\\ ??/ ??= %d \t\n\r\0\1\x7f\x80\xff 0',
        "digits": b"\x001\x012\x0f3",
        "numbers": bytes(range(200, 256)),
        "long": b"0123456789abcdef" * 40,
        "zeros": bytes(40),
    }
    for name, text in texts.items():
        escaped = "".join(f"\\{byte:02X}" if byte in b'"\\' or not 32 <= byte < 127 else chr(byte) for byte in text)
        more = [f'@text.{name} = private unnamed_addr constant [{len(text)} x i8] c"{escaped}", align 1']
        body = number(0, 64, "a") + f"  %p = getelementptr inbounds i8, ptr @text.{name}, i64 %a\n  %r = load i8, ptr %p, align 1\n" + give(8, "r")
        yield Case(f"data_{name}", body, [(at,) for at in range(len(text))], lambda a, t=text: [t[a]], more=more)
    table = "@table = private unnamed_addr constant <{ i32, [4 x i8], ptr, ptr, [2 x i16], ptr }> <{ i32 5, [4 x i8] undef, ptr @inside, "
    table += "ptr getelementptr inbounds (i8, ptr @inside, i64 2), [2 x i16] [i16 258, i16 -1], ptr @seven }>, align 8"
    more = [table, "@inside = private constant [3 x i8] c\"xyz\", align 1", "define internal i64 @seven() {\n  ret i64 7\n}"]
    body = "  %p = getelementptr inbounds i8, ptr @table, i64 16\n  %q = load ptr, ptr %p, align 8\n  %r = load i8, ptr %q, align 1\n"
    body += "  %f.at = getelementptr inbounds i8, ptr @table, i64 28\n  %f = load ptr, ptr %f.at, align 1\n  %s = call i64 %f()\n"
    body += "  %h = load i16, ptr getelementptr inbounds (i8, ptr @table, i64 24), align 2\n" + give(8, "r") + give(64, "s", 1) + give(16, "h", 2)
    yield Case("data_addresses", body, [(0,)], lambda a: [ord("z"), 7, 258], 3, more)
    own = ["@own = private constant <{ ptr, [8 x i8] }> <{ ptr getelementptr (i8, ptr @own, i64 8), [8 x i8] c\"own text\" }>, align 8"]
    body = "  %p = load ptr, ptr @own, align 8\n  %r = load i64, ptr %p, align 1\n"
    yield Case("data_own_address", body + give(64, "r"), [(0,)], lambda a: [int.from_bytes(b"own text", "little")], more=own)
    circle = ["@one = private constant <{ i64, ptr }> <{ i64 7, ptr @two }>, align 8", "@two = private constant <{ ptr, i64 }> <{ ptr @one, i64 9 }>, align 8"]
    circle.append("@begins = private constant <{ ptr }> <{ ptr @one }>, align 8")
    body = "  %p = load ptr, ptr @begins, align 8\n  %r = load i64, ptr %p, align 8\n  %at = getelementptr inbounds i8, ptr %p, i64 8\n"
    body += "  %q = load ptr, ptr %at, align 8\n  %back = load ptr, ptr %q, align 8\n  %s = load i64, ptr %back, align 8\n"
    body += "  %end = getelementptr inbounds i8, ptr %q, i64 8\n  %t = load i64, ptr %end, align 8\n" + give(64, "r") + give(64, "s", 1) + give(64, "t", 2)
    yield Case("data_in_a_circle", body, [(0,)], lambda a: [7, 7, 9], 3, circle)
    changing = ["@kept = internal global i64 3, align 8", "@reals = private constant [2 x double] [double 1.5, double 0x7FF0000000000000], align 8"]
    body = number(0, 64, "a") + "  %v = load i64, ptr @kept, align 8\n  store i64 %a, ptr @kept, align 8\n  %w = load i64, ptr @kept, align 8\n"
    body += "  store i64 3, ptr @kept, align 8\n  %d = load i64, ptr @reals, align 8\n" + give(64, "v") + give(64, "w", 1) + give(64, "d", 2)
    yield Case("data_changing", body, NUMBERS, lambda a: [3, a, 0x3FF8000000000000], 3, changing)
    heap = ["declare { i64, i64 } @rattle_alloc(i64, i64)", "declare { i64, i64 } @rattle_realloc(ptr, i64, i64, i64)", "declare void @rattle_dealloc(ptr)"]
    body = number(0, 64, "a") + "  %p = call { i64, i64 } @rattle_alloc(i64 16, i64 8)\n  %n = extractvalue { i64, i64 } %p, 1\n  %q = inttoptr i64 %n to ptr\n"
    body += "  store i64 %a, ptr %q, align 8\n  %b = call { i64, i64 } @rattle_realloc(ptr %q, i64 16, i64 64, i64 8)\n  %m = extractvalue { i64, i64 } %b, 1\n"
    body += "  %s = inttoptr i64 %m to ptr\n  %r = load i64, ptr %s, align 8\n  call void @rattle_dealloc(ptr %s)\n  %k = extractvalue { i64, i64 } %b, 0\n"
    yield Case("heap", body + give(64, "r") + give(64, "k", 1), NUMBERS, lambda a: [a, 1], 2, heap)


def parts():
    """Yields cases of structs and arrays as values: put together, taken apart, kept in memory, returned, and nested."""
    pair = ["define internal { i64, i8 } @pair(i64 %a) noinline {\n  %b = trunc i64 %a to i8\n  %x = insertvalue { i64, i8 } poison, i64 %a, 0\n"
            "  %y = insertvalue { i64, i8 } %x, i8 %b, 1\n  ret { i64, i8 } %y\n}"]
    body = number(0, 64, "a") + "  %p = call { i64, i8 } @pair(i64 %a)\n  %x = extractvalue { i64, i8 } %p, 0\n  %y = extractvalue { i64, i8 } %p, 1\n"
    yield Case("parts_returned", body + give(64, "x") + give(8, "y", 1), NUMBERS, lambda a: [a, a & 255], 2, pair)
    nested = "{ i32, { i64, [2 x i16] } }"
    body = number(0, 64, "a") + f"  %h = trunc i64 %a to i16\n  %s = insertvalue {nested} undef, i32 9, 0\n  %t = insertvalue {nested} %s, i64 %a, 1, 0\n"
    body += f"  %u = insertvalue {nested} %t, i16 %h, 1, 1, 1\n  %room = alloca {nested}, align 8\n  store {nested} %u, ptr %room, align 8\n"
    body += f"  %w = load {nested}, ptr %room, align 8\n  %z = freeze {nested} %w\n  %i = extractvalue {nested} %z, 1\n  %x = extractvalue {{ i64, [2 x i16] }} %i, 0\n"
    body += f"  %y = extractvalue {nested} %z, 1, 1, 1\n  %k = extractvalue {nested} %w, 0\n" + give(64, "x") + give(16, "y", 1) + give(32, "k", 2)
    yield Case("parts_nested", body, NUMBERS, lambda a: [a, a & 0xFFFF, 9], 3)
    body = number(0, 64, "a") + "  %c = icmp ugt i64 %a, 5\n  %p = call { i64, i8 } @pair(i64 %a)\n  %q = call { i64, i8 } @pair(i64 4)\n"
    body += "  %s = select i1 %c, { i64, i8 } %p, { i64, i8 } %q\n  br i1 %c, label %one, label %two\none:\n  br label %two\ntwo:\n"
    body += "  %f = phi { i64, i8 } [ %q, %0 ], [ %p, %one ]\n  %t = insertvalue { i64, i8 } %f, i8 3, 1\n  %x = extractvalue { i64, i8 } %s, 0\n"
    body += "  %y = extractvalue { i64, i8 } %f, 0\n  %z = extractvalue { i64, i8 } %t, 1\n" + give(64, "x") + give(64, "y", 1) + give(8, "z", 2)
    yield Case("parts_chosen", body, NUMBERS, lambda a: [a if a > 5 else 4, a if a > 5 else 4, 3], 3, pair)
    body = number(0, 64, "a") + "  %x = insertvalue [2 x i64] poison, i64 %a, 0\n  %y = insertvalue [2 x i64] %x, i64 5, 1\n  %room = alloca [2 x i64], align 8\n"
    body += "  store [2 x i64] %y, ptr %room, align 8\n  %z = load [2 x i64], ptr %room, align 8\n  %r = extractvalue [2 x i64] %z, 0\n  %s = extractvalue [2 x i64] %z, 1\n"
    yield Case("parts_array", body + give(64, "r") + give(64, "s", 1), NUMBERS, lambda a: [a, 5], 2)


def cases():
    for made in (widths, order, cleared, addresses, copies, data, parts):
        yield from made()
