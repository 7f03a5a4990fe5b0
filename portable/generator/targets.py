"""Writes assembly for other processors, and the library as a WebAssembly module, by the LLVM of the toolchain."""
import os
import re
import shutil
import subprocess
import tempfile

from . import modules, recording
from .places import OUT, PORTABLE, clang, kit, shown
from .stopping import Stopped

STEMS = {"pcapfile_c": "pcapfile", "capcopy": "capcopy_program", "pcapfile": "pcapfile_program"}
LAYOUTS = {
    "x86_64": "e-m:e-p270:32:32-p271:32:32-p272:64:64-i64:64-i128:128-f80:128-n8:16:32:64-S128",
    "aarch64": "e-m:e-p270:32:32-p271:32:32-p272:64:64-i8:8:32-i16:16:32-i64:64-i128:128-n32:64-S128-Fn32",
    "riscv64": "e-m:e-p:64:64-i64:64-i128:128-n32:64-S128",
    "wasm64": "e-m:e-p:64:64-p10:8:8-p20:8:8-i64:64-i128:128-n32:64-S128-ni:1:10:20",
}
TRIPLES = {it: f"{it}-linux-gnu" for it in ("x86_64", "aarch64", "riscv64")} | {"wasm64": "wasm64-unknown-unknown"}
PROCESSORS = {
    "x86_64": ["-march=x86-64-v2"],
    "aarch64": ["-march=armv8-a", "-mllvm", "-aarch64-load-store-renaming=false"],
    "riscv64": ["-march=rv64gc", "-mabi=lp64d"],
}
# The options of the proved build, except that other assemblers read the text of instructions.
AS_PROVED = ["-no-trap-after-noreturn", "-trap-unreachable", "-no-x86-call-frame-opt", "-disable-machine-licm", "-disable-postra-machine-licm", "-sink-common-insts=false"]
ASSEMBLED = ["-S", "-O3", "-fPIC", "-fno-addrsig", "-fno-verbose-asm", "-Wno-override-module"]
WASM = ["-mcpu=lime1", "-O2", "-Wno-override-module", "-ffunction-sections", "-fdata-sections"]
WASM_LLVM = ["-expand-div-rem-bits=64", "-expand-fp-convert-bits=64", "-trap-unreachable"]
WASM_FEATURES = ["memory64", "bulk-memory", "sign-ext", "mutable-globals", "nontrapping-float-to-int", "multivalue"]
STACK_BYTES = 1 << 20
HEAP = """
@no_memory = internal global i8 0
declare ptr @malloc(i64)
declare ptr @realloc(ptr, i64)
declare void @free(ptr)
define internal { i64, i64 } @heap_answer(ptr %at) {
  %is_there = icmp ne ptr %at, null
  %place = select i1 %is_there, ptr %at, ptr @no_memory
  %number = ptrtoint ptr %place to i64
  %status = zext i1 %is_there to i64
  %half = insertvalue { i64, i64 } poison, i64 %status, 0
  %whole = insertvalue { i64, i64 } %half, i64 %number, 1
  ret { i64, i64 } %whole
}
define internal { i64, i64 } @rattle_alloc(i64 %length, i64 %alignment) {
  %is_none = icmp eq i64 %length, 0
  %asked = select i1 %is_none, i64 %alignment, i64 %length
  %at = call ptr @malloc(i64 %asked) nobuiltin
  %answer = call { i64, i64 } @heap_answer(ptr %at)
  ret { i64, i64 } %answer
}
define internal { i64, i64 } @rattle_realloc(ptr %old, i64 %kept, i64 %length, i64 %alignment) {
  %is_none = icmp eq i64 %length, 0
  %asked = select i1 %is_none, i64 %alignment, i64 %length
  %at = call ptr @realloc(ptr %old, i64 %asked) nobuiltin
  %answer = call { i64, i64 } @heap_answer(ptr %at)
  ret { i64, i64 } %answer
}
define internal void @rattle_dealloc(ptr %old) {
  call void @free(ptr %old) nobuiltin
  ret void
}
"""


def with_definitions(text, definitions, names):
    """Returns the text with definitions of what it only declares."""
    for name in names:
        text = re.sub(rf"^declare [^@\n]*@{re.escape(name)}\(.*\n", "", text, flags=re.M)
    end = text.index("\nattributes #0")
    return f"{text[:end]}\n{definitions}{text[end:]}"


def with_heap(text):
    """Gives the module its memory over malloc, realloc and free. If it asks for no bytes, as many as the alignment are allocated."""
    if not re.search(r"^declare [^@\n]*\{ i64, i64 \} @rattle_alloc\(", text, re.M):
        raise Stopped("the recorded module asks for memory in another way")
    return with_definitions(text, HEAP, ("rattle_alloc", "rattle_realloc", "rattle_dealloc", "malloc", "realloc", "free"))


def byte_shuffle():
    """Returns a function for pshufb of x86-64: the bytes of a table by their places, or 0 if a place has its highest bit."""
    vector = "<16 x i8>"
    lines, last = [f"define internal {vector} @byte_shuffle({vector} %table, {vector} %places) {{"], "zeroinitializer"
    for at in range(16):
        lines += [
            f"  %place{at} = extractelement {vector} %places, i64 {at}",
            f"  %low{at} = and i8 %place{at}, 15",
            f"  %found{at} = extractelement {vector} %table, i8 %low{at}",
            f"  %is_none{at} = icmp slt i8 %place{at}, 0",
            f"  %byte{at} = select i1 %is_none{at}, i8 0, i8 %found{at}",
            f"  %all{at} = insertelement {vector} {last}, i8 %byte{at}, i64 {at}",
        ]
        last = f"%all{at}"
    return "\n".join([*lines, f"  ret {vector} {last}", "}", ""])


def without_x86(text):
    name = "llvm.x86.ssse3.pshuf.b.128"
    if f"@{name}" in text:
        text = with_definitions(text, byte_shuffle(), [name]).replace(f"@{name}", "@byte_shuffle")
    left = sorted(set(re.findall(r"@(llvm\.x86\.[\w.]+)", text)))
    if left:
        raise Stopped(f"the recorded module asks x86 for {', '.join(left)}")
    return text


def for_target(text, target):
    """Returns the text of a module for any processor, adapted to one target."""
    text = with_heap(text)
    if target != "x86_64":
        text = without_x86(text)
    text = re.sub(r"^target datalayout = .*$", f'target datalayout = "{LAYOUTS[target]}"', text, flags=re.M)
    text = re.sub(r"^target triple = .*$", f'target triple = "{TRIPLES[target]}"', text, flags=re.M)
    if target == "wasm64":
        return text
    # With tables for unwinding a debugger and a profiler see the callers.
    text = re.sub(r"^(attributes #\d+ = \{ )(?=.*nounwind)(?!.*willreturn)(?!.*noreturn)", r"\1uwtable ", text, flags=re.M)
    if target == "riscv64":
        # Its convention extends a status by its sign, in the called function and in its caller.
        text = re.sub(rf"^(define (?!internal)[^@\n]*?)\bi32 (@(?:pcapfile_|{modules.ENTRY}))", r"\1signext i32 \2", text, flags=re.M)
        text = re.sub(r"^(declare )(noundef )?i32 ", r"\1\2signext i32 ", text, flags=re.M)
    return text


def readable_by_gas(text):
    """Removes what older assemblers don't accept, and gives labels names that no other compiler's output has."""
    text = re.sub(r"^\t\.attribute\t.*\n", "", text, flags=re.M)
    return re.sub(r"(?<![\w.$])\.L(?=[A-Za-z_])", ".Lpf_", text)


def assembly(names):
    """Writes assembly of the library and the programs for each processor."""
    for name in names:
        module, _ = recording.recorded(name)
        text = modules.prepared(module)
        for target in PROCESSORS:
            flags = [f"--target={TRIPLES[target]}", *PROCESSORS[target], *ASSEMBLED, *(it for flag in AS_PROVED for it in ("-mllvm", flag))]
            made = readable_by_gas(modules.run_clang([*flags, "-x", "ir", "-", "-o", "-"], for_target(text, target).encode()).decode())
            path = f"{OUT}/{STEMS[name]}-{target}.S"
            with open(path, "w", encoding="utf-8") as it:
                it.write(made)
            print(f"{shown(path)}: {len(made)} bytes", flush=True)


def exported(text):
    return sorted(set(re.findall(r"^define (?!internal|private)[^@\n]*@(pcapfile_\w+)", text, re.M)))


def wasm():
    """Writes the library as a module with 32-bit memory. The module imports nothing and exports its calls, malloc, realloc and free."""
    if not shutil.which("wasm-opt"):
        raise Stopped("wasm-opt is not on the PATH (Debian package binaryen)")
    module, _ = recording.recorded("pcapfile_c")
    text = for_target(modules.prepared(module), "wasm64")
    target = [f"--target={TRIPLES['wasm64']}", *WASM, *(it for flag in WASM_LLVM for it in ("-mllvm", flag))]
    path = f"{OUT}/pcapfile_library.wasm"
    with tempfile.TemporaryDirectory(dir=OUT) as room:
        modules.run_clang([*target, "-c", "-x", "ir", "-", "-o", f"{room}/library.o"], text.encode())
        own = [*target, "-ffreestanding", "-fno-builtin", "-Wall", "-Wextra", "-Werror"]
        modules.run_clang([*own, "-c", f"{PORTABLE}/wasm_support.c", "-o", f"{room}/support.o"], b"")
        exports = [f"--export={it}" for it in [*exported(text), "malloc", "realloc", "free"]]
        link = ["-flavor", "wasm", "-mwasm64", "--no-entry", "--stack-first", f"-zstack-size={STACK_BYTES}", "--gc-sections", "--strip-all", "--threads=1"]
        run([f"{kit()}/toolchain/bin/ld.lld", *link, *exports, "-o", f"{room}/wide.wasm", f"{room}/library.o", f"{room}/support.o"])
        run(["wasm-opt", *(f"--enable-{it}" for it in WASM_FEATURES), "--memory64-lowering", "-O2", f"{room}/wide.wasm", "-o", path])
    print(f"{shown(path)}: {os.path.getsize(path)} bytes", flush=True)


def run(words):
    ran = subprocess.run(words, capture_output=True, text=True)
    if ran.returncode:
        raise Stopped(f"{os.path.basename(words[0])}: {ran.stderr[:1000]}")
