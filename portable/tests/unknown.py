"""Checks what the translator does not know: it must stop at each, and name it."""
import sys

FUNCTION = "define void @f(ptr %p, i64 %a, double %d) {{\n  {line}\n  ret void\n}}\n"
LINES = {
    "fence": "fence seq_cst",
    "atomicrmw": "%x = atomicrmw add ptr %p, i64 1 seq_cst, align 8",
    "cmpxchg": "%x = cmpxchg ptr %p, i64 1, i64 2 seq_cst seq_cst, align 8",
    "load that is volatile": "%x = load volatile i64, ptr %p, align 8",
    "load that is atomic": "%x = load atomic i64, ptr %p seq_cst, align 8",
    "store that is volatile": "store volatile i64 %a, ptr %p, align 8",
    "frem": "%x = frem double %d, %d",
    "fptosi": "%x = fptosi double %d to i64",
    "the type x86_fp80": "%x = fpext double %d to x86_fp80",
    "more than 128 bits": "%x = zext i64 %a to i129",
    "the type half": "%x = fptrunc double %d to half",
    "the intrinsic llvm.sqrt.f64": "%x = call double @llvm.sqrt.f64(double %d)",
    "the intrinsic llvm.bitreverse.i64": "%x = call i64 @llvm.bitreverse.i64(i64 %a)",
    "va_arg": "%x = va_arg ptr %p, i64",
    "indirectbr": "indirectbr ptr %p, [label %q]",
    "invoke": "invoke void @g() to label %q unwind label %r",
    "musttail": "musttail call void @g()",
    "an alloca of many": "%x = alloca i8, i64 %a, align 1",
    "addrspacecast": "%x = addrspacecast ptr %p to ptr",
    "no power of two": "%x = load <3 x i8>, ptr %p, align 1\n  store <3 x i8> %x, ptr %p, align 1",
    "an index that has not 64 bits": "%i = trunc i64 %a to i32\n  %x = getelementptr i8, ptr %p, i32 %i\n  store i8 0, ptr %x, align 1",
    "ptrtoint to i32": "%x = ptrtoint ptr %p to i32\n  store i32 %x, ptr %p, align 4",
    "the sign !": "call void @g(metadata !4)",
    "a switch over more than 64 bits": "%w = zext i64 %a to i128\n  switch i128 %w, label %q [\n    i128 1, label %q\n  ]\nq:",
    "a value before its definition": "%x = add i64 %nowhere, 1\n  store i64 %x, ptr %p, align 8",
}
MODULES = {
    "the word byval": "define void @f(ptr byval(i64) %p) {\n  ret void\n}\n",
    "the word thread_local": "@x = thread_local global i64 0, align 8\n",
    "the word alias": "@x = alias i64, ptr @y\n",
    "a line of a module": "module asm \"nop\"\n",
}


def faults(module_of, File, Unknown):
    """Yields what the translator does not refuse, or refuses without its name."""
    texts = {name: FUNCTION.format(line=line) for name, line in LINES.items()} | MODULES
    for name, text in texts.items():
        try:
            File(module_of(text)).text("")
        except Unknown as why:
            if name.split()[-1] not in str(why):
                yield f"{name}: it is refused by '{why}'"
        else:
            yield f"{name}: it is translated"
