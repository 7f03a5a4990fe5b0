"""Runs the test programs of tests/c over the library in each form, and compares all that they print about each capture."""
import hashlib
import os
import subprocess

from .forms import TOP

PROVED = f"{TOP}/out/proved/libpcapfile.a"
PROGRAMS = ["list", "push", "blocks", "options", "both", "blocks_as_is", "packets", "calls", "moves", "puts", "open"]
CLASSIC = [("list", []), ("list", ["-b"]), ("list", ["-k", "3"]), ("push", ["7", "24"]), ("push", ["-b", "3", "7", "24"])]
CLASSIC += [("push", ["1000", "300000"]), ("both", []), ("open", [])]
NG = [("blocks", []), ("blocks", ["-p"]), ("blocks", ["-n"]), ("blocks", ["-c", "7", "24"]), ("blocks", ["-k", "3"]), ("options", []), ("both", [])]
NG += [("blocks_as_is", []), ("blocks_as_is", ["-c", "7", "24"]), ("packets", ["7", "24"]), ("packets", ["-b", "3", "7", "24"]), ("open", [])]
# The programs that need no capture.
ALONE = [("calls", [])]


def build(form, library, room, include=()):
    """Builds the test programs over a library's file. Returns their folder, and what went wrong, or None. Forms with the same words for the
    compiler share the objects of the programs in the room."""
    folder = f"{room}/library-{form.name}"
    os.makedirs(folder, exist_ok=True)
    made = f"{folder}/library.o"
    if library.endswith(".a"):
        made = library
    else:
        why = form.build([library], made, "-c")
        if why:
            return folder, why
    for program in (it for it in PROGRAMS if it not in form.without):
        words = ["-std=c99", f"-I{TOP}/include", f'-DOPEN_C="{TOP}/c/open.c"', *include]
        compiled = f"{room}/{program}{''.join(form.words)}.o"
        why = None if os.path.exists(compiled) else form.build([f"{TOP}/tests/c/{program}.c"], compiled, "-c", *words)
        why = why or form.build([compiled, made, *form.more], f"{folder}/{program}", *words)
        if why:
            return folder, why
    return folder, None


def runs(captures):
    found = [(program, words, None) for program, words in ALONE]
    for capture in captures:
        with open(capture, "rb") as it:
            ways = NG if it.read(4) == b"\n\r\r\n" else CLASSIC
        found += [(program, words, capture) for program, words in ways]
    return found


def told(form, folder, program, words, capture):
    command = [*form.runner, f"{folder}/{program}{form.ending}", *words, *([capture] if capture else [])]
    ran = subprocess.run(command, capture_output=True, stdin=subprocess.DEVNULL)
    return ran.returncode, hashlib.sha256(ran.stdout).hexdigest(), ran.stderr[-200:]


def compared(form, folder, captures, pool, wanted):
    """Returns the answers over one form, and the runs whose answers are not the wanted ones."""
    all_runs = runs(captures)
    tried = [at for at, (program, *_) in enumerate(all_runs) if program not in form.without]
    got = list(pool.map(lambda at: told(form, folder, *all_runs[at]), tried))
    if wanted is None:
        return got, []
    return got, [(all_runs[at], wanted[at], mine) for at, mine in zip(tried, got) if wanted[at][:2] != mine[:2]]
