"""Checks that the committed files are what the generator would now write, and that what it writes answers as the proved builds do."""
import os
import re
import subprocess
import sys
import tempfile
from concurrent.futures import ThreadPoolExecutor

from . import crates, forms, heads, targets
from .places import PORTABLE

# A file of several megabytes would fill the history if each commit changed it, so this one may be behind.
MAY_LAG = {"pcapfile": 20}
LIBRARY_FORMS = "gcc,gcc-O0,gcc-sanitizers,clang,clang-O0,clang-sanitizers"
LIBRARY_FORMS += ",aarch64,riscv64,x86_64-assembly,aarch64-assembly,riscv64-assembly"
# The comparisons for each crate, over each sixth capture.
SAMPLES = {
    "pcapfile_c": ["library", "--forms", LIBRARY_FORMS],
    "capcopy": ["capcopy", "--forms", "gcc,clang,gcc-sanitizers"],
    "pcapfile": ["pcapfile", "--forms", "gcc"],
}


def committed(name):
    path = f"{PORTABLE}/{forms.FILES[name]}"
    if not os.path.isfile(path):
        return ""
    with open(path, encoding="utf-8") as it:
        return it.read()


def fault_of(name, fresh):
    """Returns the fault of a committed file beside a fresh one, or None, and the message about it."""
    old, file = committed(name), f"portable/{forms.FILES[name]}"
    if old == fresh:
        return None, f"{file}: {len(fresh.encode())} bytes, the same"
    why = f"{file} is not what its sources make: run portable/make {name}"
    if heads.sum_in(old) == heads.sum_in(fresh) or name not in MAY_LAG:
        return why, why
    behind = crates.commits_behind(file, name)
    told = f"{file} is {'an unknown number of' if behind is None else behind} commits behind its sources; it may be {MAY_LAG[name]}"
    return (told if behind is None or behind > MAY_LAG[name] else None), told


def compared(name, room):
    """Returns what the comparison of a crate's file in a folder prints, and how many runs passed and failed by its last line."""
    words = [sys.executable, f"{PORTABLE}/compare", "--from", room, "--every", "6", *SAMPLES[name]]
    ran = subprocess.run(words, stdout=subprocess.PIPE, stderr=subprocess.STDOUT, text=True)
    last = re.search(r"^(\d+) passed, (\d+) failed$", ran.stdout, re.M)
    if not last:
        return ran.stdout, 0, 1
    return ran.stdout, int(last[1]), max(int(last[2]), bool(ran.returncode))


def check_one(name, room):
    """Returns the messages about a crate's file, and how many tests passed and failed."""
    fresh = forms.text_of(name)
    with open(f"{room}/{forms.FILES[name]}", "w", encoding="utf-8") as it:
        it.write(fresh)
    fault, told = fault_of(name, fresh)
    if name == "pcapfile_c":
        targets.assembly([name])
    said, passed, failed = compared(name, room)
    return f"{told}\n{said}", passed + (not fault), failed + bool(fault)


def check(names):
    """Checks the crates' files side by side, since a proof and a large file take a processor each."""
    passed = failed = 0
    with tempfile.TemporaryDirectory() as room, ThreadPoolExecutor(len(names)) as pool:
        for told, good, bad in pool.map(lambda name: check_one(name, room), names):
            print(told, end="", flush=True)
            passed, failed = passed + good, failed + bad
    print(f"{passed} passed, {failed} failed")
    return 1 if failed else 0
