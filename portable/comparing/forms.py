"""The forms for the comparison: how each is built and run, and which tools that takes."""
import functools
import os
import shutil
import subprocess
from dataclasses import dataclass

TOP = os.path.dirname(os.path.dirname(os.path.dirname(os.path.abspath(__file__))))
SANITIZERS = ["-O1", "-g", "-fsanitize=address,undefined", "-fno-sanitize-recover=all"]
PACKAGES = {
    "gcc": "gcc",
    "clang": "clang",
    "aarch64-linux-gnu-gcc": "gcc-aarch64-linux-gnu",
    "riscv64-linux-gnu-gcc": "gcc-riscv64-linux-gnu",
    "powerpc64le-linux-gnu-gcc": "gcc-powerpc64le-linux-gnu",
    "qemu-aarch64": "qemu-user",
    "qemu-riscv64": "qemu-user",
    "qemu-ppc64le": "qemu-user",
    "x86_64-w64-mingw32-gcc": "gcc-mingw-w64-x86-64",
    "wine": "wine",
    "musl-gcc": "musl-tools",
}
# The headers and the library of C for a compiler that has none.
HEADERS = {
    "gcc": "libc6-dev",
    "clang": "libc6-dev",
    "aarch64-linux-gnu-gcc": "libc6-dev-arm64-cross",
    "riscv64-linux-gnu-gcc": "libc6-dev-riscv64-cross",
    "powerpc64le-linux-gnu-gcc": "libc6-dev-ppc64el-cross",
}


@functools.cache
def has_headers(compiler):
    program = "#include <stdlib.h>\nint main(void) { return EXIT_SUCCESS; }\n"
    return subprocess.run([compiler, "-x", "c", "-", "-o", os.devnull], input=program, capture_output=True, text=True).returncode == 0


@dataclass(frozen=True)
class Form:
    """`words` call the compiler, `runner` comes before the program, and `target` names the assembly that replaces the C. `more` are
    sources that a program of tests/c needs there, and `without` names the programs that need what is missing there."""

    name: str
    words: tuple
    runner: tuple = ()
    target: str = ""
    more: tuple = ()
    without: tuple = ()
    ending: str = ""

    def lacking(self):
        """Returns the missing tools, each with its package."""
        compiler = self.words[0]
        missing = [(it, PACKAGES[it]) for it in (compiler, *self.runner[:1]) if not shutil.which(it)]
        if not missing and compiler in HEADERS and not has_headers(compiler):
            missing.append((f"the headers of {compiler}", HEADERS[compiler]))
        return missing

    def source(self, stem, folder):
        """Returns the file of a library or a program in this form."""
        if self.target:
            return f"{TOP}/out/portable/{stem}-{self.target}.S"
        return f"{folder}/{stem}.c"

    def build(self, files, to, *more):
        """Compiles and links. Returns what went wrong, or None."""
        words = [*self.words, "-D_POSIX_C_SOURCE=200809L", *more, *files, "-o", to]
        ran = subprocess.run(words, capture_output=True, text=True)
        return f"{' '.join(words)}: {ran.stderr[:1500]}" if ran.returncode else None


# Its C library has no POSIX, which c/open.c and portable/os.c need.
WINDOWS = {"more": (f"{TOP}/portable/comparing/windows.c",), "without": ("open", "capcopy", "pcapfile"), "ending": ".exe"}


def form(name, *words, runner=(), **others):
    return Form(name, words, tuple(runner), **others)


FORMS = {
    it.name: it
    for it in (
        form("gcc", "gcc", "-O2"),
        form("gcc-O0", "gcc", "-O0"),
        form("gcc-sanitizers", "gcc", *SANITIZERS),
        form("gcc-readdir", "gcc", "-O2", "-DLISTS_BY_READDIR"),
        form("clang", "clang", "-O2"),
        form("clang-O0", "clang", "-O0"),
        form("clang-sanitizers", "clang", *SANITIZERS),
        form("musl", "musl-gcc", "-O2", "-static"),
        form("aarch64", "aarch64-linux-gnu-gcc", "-O2", "-static", runner=["qemu-aarch64"]),
        form("riscv64", "riscv64-linux-gnu-gcc", "-O2", "-static", runner=["qemu-riscv64"]),
        form("ppc64le", "powerpc64le-linux-gnu-gcc", "-O2", "-static", runner=["qemu-ppc64le"]),
        form("windows", "x86_64-w64-mingw32-gcc", "-O2", "-static", runner=["wine"], **WINDOWS),
        form("x86_64-assembly", "gcc", "-O2", target="x86_64"),
        form("aarch64-assembly", "aarch64-linux-gnu-gcc", "-O2", "-static", runner=["qemu-aarch64"], target="aarch64"),
        form("riscv64-assembly", "riscv64-linux-gnu-gcc", "-O2", "-static", runner=["qemu-riscv64"], target="riscv64"),
    )
}
