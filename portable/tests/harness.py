"""Translates the cases, builds them by each compiler, and compares what each build writes with what is wanted."""
import os
import shutil
import subprocess
import sys

HERE = os.path.dirname(os.path.abspath(__file__))
sys.path[:0] = [HERE, os.path.dirname(HERE)]

import flow  # noqa: E402
import integers  # noqa: E402
import memory  # noqa: E402
import reals  # noqa: E402
import unknown  # noqa: E402
import vectors  # noqa: E402
from translator.failure import Unknown  # noqa: E402
from translator.file import File  # noqa: E402
from translator.intrinsics import RULES, SILENT  # noqa: E402
from translator.module import module_of  # noqa: E402
from translator.writers import WRITERS  # noqa: E402

KINDS = {"integers": integers, "reals": reals, "vectors": vectors, "memory": memory, "flow": flow}
PLAIN = [[level] for level in ("-O0", "-O2")]
CHECKED = [["-O1", "-g", "-fsanitize=address,undefined", "-fno-sanitize-recover=all"]]
WARNINGS = ["-std=gnu11", "-Wall", "-Wextra", "-Wno-type-limits", "-Wno-sign-compare", "-Werror"]
DRIVER = """
#include <inttypes.h>
#include <stdio.h>
#include <stdlib.h>
#include <string.h>
typedef struct {{ void (*run)(uint8_t *, uint8_t *); int written; }} row;
{declared}
static const row rows[] = {{ {rows} }};
int main(void) {{
    static _Alignas(16) uint8_t in[64], out[64];
    unsigned at, count;
    while (scanf("%u %u", &at, &count) == 2) {{
        memset(out, 0, sizeof out);
        for (unsigned slot = 0; slot < count; slot++) {{
            uint64_t both[2];
            if (scanf("%" SCNx64 " %" SCNx64, both + 1, both) != 2) return 1;
            memcpy(in + 16 * slot, both, 16);
        }}
        rows[at].run(in, out);
        for (int slot = 0; slot < rows[at].written; slot++) {{
            uint64_t both[2];
            memcpy(both, out + 16 * slot, 16);
            printf("%016" PRIx64 "%016" PRIx64 "%c", both[1], both[0], slot + 1 < rows[at].written ? ' ' : '\\n');
        }}
    }}
    return fflush(stdout) != 0;
}}
"""


def module_text(cases):
    """Returns one module with a function for each case, and once what several need."""
    more = dict.fromkeys(line for case in cases for line in case.more)
    functions = [f"define void @case_{case.name}(ptr %in, ptr %out) {{\n{case.body}  ret void\n}}" for case in cases]
    return "\n".join([*more, *functions]) + "\n"


def not_covered(modules):
    """Returns the instructions and intrinsics that the translator knows and no case has."""
    used = set()
    for module in modules:
        for function in module.functions:
            for block in function.blocks:
                for made in block.instructions:
                    callee = made.more.get("callee", "")
                    used |= {made.op} | ({callee[1:]} if callee.startswith("@llvm.") else set())
    intrinsics = [f"llvm.{it}" for it in RULES] + [it.rstrip(".") for it in SILENT if "scope" not in it and "invariant" not in it]
    return [it for it in WRITERS if it not in used] + [it for it in intrinsics if not any(name.startswith(it) for name in used)]


def driver_of(cases):
    declared = "\n".join(f"void case_{case.name}(uint8_t *, uint8_t *);" for case in cases)
    rows = ", ".join(f"{{case_{case.name}, {case.written}}}" for case in cases)
    return DRIVER.format(declared=declared, rows=rows)


def asked(cases):
    """Returns the driver's input, what it must print, and the names of the cases."""
    given, wanted, names = [], [], []
    for at, case in enumerate(cases):
        for inputs in case.inputs:
            slots = " ".join(f"{it >> 64:x} {it & (1 << 64) - 1:x}" for it in inputs)
            given.append(f"{at} {len(inputs)} {slots}")
            wanted.append(" ".join(f"{it:032x}" for it in case.wanted(*inputs)))
            names.append((case.name, inputs))
    return "\n".join(given) + "\n", wanted, names


def run(program, given, wanted, names, what):
    """Returns the faults of one build."""
    ran = subprocess.run([program], input=given, capture_output=True, text=True)
    told = ran.stdout.splitlines()
    found = [f"{what}: {name}{tuple(map(hex, inputs))}: {got}, not {want}" for (name, inputs), got, want in zip(names, told, wanted) if got != want]
    if ran.returncode or len(told) != len(wanted):
        place = names[len(told)] if len(told) < len(names) else ""
        found.append(f"{what}: it ends with {ran.returncode} at {place}: {ran.stderr[:600]}")
    return found


def compilers():
    return [it for it in ("gcc", "clang") if shutil.which(it)]


def built(compiler, flags, files, to):
    ran = subprocess.run([compiler, *WARNINGS, *flags, *files, "-o", to], capture_output=True, text=True)
    return [] if ran.returncode == 0 else [f"{compiler} {' '.join(flags)}: {ran.stderr[:1500]}"]


def try_kind(name, room, llvm):
    """Returns a module, the faults of one kind of cases, and how many runs there were: by each compiler, and by LLVM itself if its clang
    is given."""
    cases = list(KINDS[name].cases())
    text = module_text(cases)
    module = module_of(text)
    files = {"ll": text, "c": File(module).text(""), "driver.c": driver_of(cases)}
    for end, inside in files.items():
        with open(f"{room}/{name}.{end}", "w", encoding="utf-8") as it:
            it.write(inside)
    given, wanted, names = asked(cases)
    faults, runs = [], 0
    for compiler in compilers():
        for flags in PLAIN + CHECKED:
            to = f"{room}/{name}"
            broken = built(compiler, flags, [f"{room}/{name}.c", f"{room}/{name}.driver.c"], to)
            faults += broken or run(to, given, wanted, names, f"{compiler} {flags[0]}")
            runs += len(wanted) if not broken else 1
    if llvm:
        faults += by_llvm(llvm, name, room, given, wanted, names)
        runs += len(wanted)
    return module, faults, runs


def by_llvm(llvm, name, room, given, wanted, names):
    """Returns the faults of the cases as LLVM itself compiles them. So what is wanted does not rest on the translator alone."""
    words = [llvm, "--target=x86_64-unknown-linux-gnu", "-march=x86-64-v2", "-Wno-override-module", "-x", "ir", f"{room}/{name}.ll", "-c", "-O1", "-o", f"{room}/{name}.o"]
    ran = subprocess.run(words, capture_output=True, text=True)
    if ran.returncode:
        return [f"LLVM: {ran.stderr[:1500]}"]
    with open(f"{room}/heap.c", "w", encoding="utf-8") as it:
        it.write(HEAP)
    broken = built(compilers()[0], ["-O1"], [f"{room}/{name}.o", f"{room}/heap.c", f"{room}/{name}.driver.c"], f"{room}/{name}.llvm")
    return broken or run(f"{room}/{name}.llvm", given, wanted, names, "LLVM")


HEAP = """#include <stdint.h>
#include <stdlib.h>
typedef struct { uint64_t is_there, at; } had;
had rattle_alloc(uint64_t n, uint64_t a);
had rattle_realloc(void *p, uint64_t k, uint64_t n, uint64_t a);
void rattle_dealloc(void *p);
had rattle_alloc(uint64_t n, uint64_t a) { (void)a; return (had){1, (uint64_t)malloc(n)}; }
had rattle_realloc(void *p, uint64_t k, uint64_t n, uint64_t a) { (void)k; (void)a; return (had){1, (uint64_t)realloc(p, n)}; }
void rattle_dealloc(void *p) { free(p); }
"""


def try_traps(room):
    """Checks that code that a right program never reaches ends the program at once."""
    modules, faults, runs = [], [], 0
    for name, case in flow.TRAPS.items():
        module = module_of(module_text([case]))
        modules.append(module)
        for end, inside in {"c": File(module).text(""), "driver.c": driver_of([case])}.items():
            with open(f"{room}/trap.{end}", "w", encoding="utf-8") as it:
                it.write(inside)
        for compiler in compilers():
            for flags in PLAIN:
                broken = built(compiler, flags, [f"{room}/trap.c", f"{room}/trap.driver.c"], f"{room}/trap")
                faults += broken
                for number, is_bad in ((0, False), (1, True)) if not broken else ():
                    ran = subprocess.run([f"{room}/trap"], input=f"0 1 0 {number}\n", capture_output=True, text=True)
                    runs += 1
                    if (ran.returncode < 0) != is_bad:
                        faults.append(f"{compiler} {flags[0]}: {name} of {number} ends with {ran.returncode}")
    return modules, faults, runs


def refused():
    return list(unknown.faults(module_of, File, Unknown)), len(unknown.LINES) + len(unknown.MODULES)


# The only error of these files on an unsuitable system, and the words that make a compiler describe itself as one.
ELSEWHERE = {
    "gcc or clang": ["-U__GNUC__"],
    "64-bit addresses": ["-U__SIZEOF_POINTER__", "-D__SIZEOF_POINTER__=4"],
    "the low byte first": ["-U__BYTE_ORDER__", "-D__BYTE_ORDER__=__ORDER_BIG_ENDIAN__"],
    "needs POSIX": ["-U__unix__"],
}


def refused_elsewhere(room):
    """Checks that a file gives one error if the processor, the compiler or the system lacks what it needs."""
    with open(f"{room}/file.c", "w", encoding="utf-8") as it:
        it.write(File(module_of(module_text([]))).text(""))
    found, runs = [], 0
    for needed, words in ELSEWHERE.items():
        for compiler in compilers():
            file = f"{os.path.dirname(HERE)}/os.c" if needed.endswith("POSIX") else f"{room}/file.c"
            ran = subprocess.run([compiler, "-fsyntax-only", *words, file], capture_output=True, text=True)
            errors = [line for line in ran.stderr.splitlines() if " error: " in line]
            runs += 1
            if ran.returncode == 0 or len(errors) != 1 or needed not in errors[0]:
                found.append(f"{compiler} {' '.join(words)}: {ran.stderr[:600] or 'no error'}")
    return found, runs
