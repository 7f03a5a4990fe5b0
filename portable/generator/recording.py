"""Records the LLVM module of a proved crate.

`rattle build` proves a crate, over what earlier builds in this checkout kept. It lowers the crate to one module of LLVM, and gives that to
the clang in a toolchain's folder. The folder here has a clang that keeps the module and compiles nothing.
"""
import contextlib
import fcntl
import functools
import hashlib
import importlib
import json
import os
import re
import shutil
import subprocess
import sys
import tempfile

from . import crates
from .places import OUT, TOP, kit, kit_line, shown
from .stopping import Stopped

RECORDER = """#!/bin/sh
# Keeps the module, and answers an empty file in the place of what it would be compiled to.
while [ $# -gt 0 ]; do
    case $1 in
        *.bc) cp "$1" '{kept}' ;;
        -o) : > "$2" ;;
    esac
    shift
done
"""
TRUSTED = re.compile(r" [a-z-]+=trusted")


def recorded(name):
    """Returns the path of a crate's module, and the line with which its proof ended. It records them again only if sources changed."""
    os.makedirs(OUT, exist_ok=True)
    module, note = f"{OUT}/{name}.bc", f"{OUT}/{name}.json"
    key = key_of(name)
    with contextlib.suppress(OSError, ValueError):
        with open(note, encoding="utf-8") as it:
            kept = json.load(it)
        if kept["key"] == key and kept["module"] == sum_of(module):
            return module, kept["verdict"]
    verdict = record(name, module)
    if key_of(name) != key:
        raise Stopped(f"sources or libraries below {name} changed while it was built: run this again, and no 'rt' beside it")
    with open(note, "w", encoding="utf-8") as it:
        json.dump({"key": key, "module": sum_of(module), "verdict": verdict}, it)
    return module, verdict


def key_of(name):
    """Returns a sum of what a crate's module is made from: its sources and those below, the toolchain, and the built libraries."""
    return hashlib.sha256(repr((crates.checksum(name), kit_line(), libraries_of(name))).encode()).hexdigest()


def sum_of(path):
    with open(path, "rb") as it:
        return hashlib.sha256(it.read()).hexdigest()


def libraries_of(name):
    """Returns the built libraries below a crate: their names, and what `rattle` itself compares them by."""
    found = []
    for library in crates.below(name):
        if library != name:
            mark = f"{TOP}/crates/{library}/out/rlib/{library}.rlib/format"
            if not os.path.isfile(mark):
                raise Stopped(f"{library} is not built in this checkout: run 'make proved' or 'rt ci' first")
            changed = changed_since(library)
            if changed:
                raise Stopped(f"{changed} since {library} was proved: run 'make proved' or 'rt ci' first")
            with open(mark, encoding="utf-8") as it:
                found.append((library, it.read()))
    return found


def changed_since(library):
    """Returns what changed since a library was built, or None. `rt lib` leaves a stamp of all that it read. `rt ci` leaves none. It
    makes the folder of a library anew each time it puts one there, also one that an earlier run kept."""
    folder = f"{TOP}/crates/{library}"
    put = os.stat(f"{folder}/out/rlib/{library}.rlib").st_mtime
    if os.path.isfile(f"{folder}/out/rlib/stamp"):
        return None if rtlib().Crate(folder, TOP, {}).is_built() else "sources changed"
    for part in ("src", "specs", "proofs"):
        for file in crates.files_in(f"{folder}/{part}"):
            if os.stat(file).st_mtime > put:
                return f"{shown(file)} changed"
    return None


@functools.cache
def rtlib():
    """Returns the toolchain's own module of crates, which can check those stamps."""
    sys.path.append(f"{kit()}/bin")
    return importlib.import_module("rtlib")


def words_of(name):
    """Returns the words that describe a crate to `rattle build`, as `rt` does it."""
    toolchain, named = kit(), crates.listed()[name]
    folder = f"{TOP}/crates/{name}"
    is_program = os.path.isfile(f"{folder}/src/main.rt")
    words = ["--crate-name", name, "src/main.rt" if is_program else "src/lib.rt"]
    words += ["--extern", f"std={toolchain}/rlibs/std.rlib", "-L", f"dependency={toolchain}/rlibs"]
    for dep in named:
        place = f"{TOP}/crates/{dep}/out/rlib" if os.path.isdir(f"{TOP}/crates/{dep}") else f"{toolchain}/rlibs"
        words += ["--extern", f"{dep}={place}/{dep}.rlib"]
    for library in crates.below(name):
        if library != name:
            words += ["-L", f"dependency={TOP}/crates/{library}/out/rlib"]
    words += ["--antt-project", f"{toolchain}/rattle/logic/antt-project.json", "--logic-built", f"{toolchain}/logic_built"]
    words += ["--links", f"{name}=", "--jobs", str(min(2, os.cpu_count() or 1))]
    return words + ([] if is_program else ["--crate-type", "staticlib"])


def kept_work(folder):
    """Returns where a check keeps what it checked: what `rt` left, or what `.ci/library` did."""
    places = [f"{folder}/out/{it}" for it in ("incremental", "library")]
    return next((it for it in places if os.path.isdir(it)), places[0])


@contextlib.contextmanager
def alone_in(folder):
    """Waits until no `rt` works in a crate's folder, and keeps others out."""
    held = os.open(folder, os.O_RDONLY)
    try:
        with contextlib.suppress(OSError):
            fcntl.flock(held, fcntl.LOCK_EX)
        yield
    finally:
        os.close(held)


def record(name, module):
    """Builds a crate with the clang that keeps its module, and returns the line with which its proof ended."""
    folder = f"{TOP}/crates/{name}"
    with tempfile.TemporaryDirectory(dir=OUT) as room, alone_in(folder):
        make_toolchain(room, f"{room}/module.bc")
        words = [f"{kit()}/bin/rattle", "build", *words_of(name), "--toolchain", room, "--backend", "llvm"]
        words += ["--incremental", kept_work(folder), "-o", f"{room}/made"]
        how = {"stdin": subprocess.DEVNULL, "stdout": subprocess.PIPE, "stderr": subprocess.STDOUT}
        ran = subprocess.run(words, cwd=folder, text=True, errors="replace", **how)
        said = re.findall(r"^logic=proved .*$", ran.stdout, re.M)
        if ran.returncode or not said or not os.path.isfile(f"{room}/module.bc"):
            raise Stopped(f"{name} is not proved and built (status {ran.returncode}):\n{ran.stdout[-2000:]}")
        shutil.copyfile(f"{room}/module.bc", module)
    return TRUSTED.sub("", said[-1])


def make_toolchain(room, kept):
    """Makes a toolchain's folder whose clang only keeps its input."""
    os.makedirs(f"{room}/bin")
    os.symlink(f"{kit()}/toolchain/lib", f"{room}/lib")
    for tool in os.listdir(f"{kit()}/toolchain/bin"):
        if tool != "clang":
            os.symlink(f"{kit()}/toolchain/bin/{tool}", f"{room}/bin/{tool}")
    with open(f"{room}/bin/clang", "w", encoding="utf-8") as it:
        it.write(RECORDER.format(kept=kept))
    os.chmod(f"{room}/bin/clang", 0o755)
