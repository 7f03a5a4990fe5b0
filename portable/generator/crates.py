"""Finds the crates of this checkout: the libraries that each uses, its sources, and how far a file is behind them."""
import hashlib
import os
import subprocess

from .places import TOP
from .stopping import Stopped


def listed():
    """Returns each crate of crates.txt with the names of those that it names."""
    found = {}
    with open(f"{TOP}/crates.txt", encoding="utf-8") as it:
        for line in it:
            head, colon, names = line.partition(":")
            if colon and not line.startswith("#"):
                found[head.split()[0]] = names.split()
    return found


def below(name):
    """Returns the crates of this checkout that one uses, with itself, in the order of their names."""
    crates = listed()
    if name not in crates:
        raise Stopped(f"crates.txt names no crate {name}")
    found, left = set(), [name]
    while left:
        crate = left.pop()
        if crate in crates and crate not in found:
            found.add(crate)
            left += crates[crate]
    return sorted(found)


def source_paths(name):
    """Returns the folders whose files decide what a crate's code is, from the top of the checkout."""
    return [f"crates/{crate}/{part}" for crate in below(name) for part in ("src", "specs") if os.path.isdir(f"{TOP}/crates/{crate}/{part}")]


def files_in(path):
    return sorted(os.path.join(folder, file) for folder, _, files in os.walk(path) for file in files)


def checksum(name):
    """Returns one sum of the crate's sources and of those below it, by their places in the checkout."""
    total = hashlib.sha256()
    for path in source_paths(name):
        for file in files_in(f"{TOP}/{path}"):
            with open(file, "rb") as it:
                total.update(repr((os.path.relpath(file, TOP), it.read())).encode())
    return total.hexdigest()


def commits_behind(file, name):
    """Returns how many commits changed a crate's sources since a file was last committed, or None if git can't find out."""
    git = ["git", "-C", TOP]
    last = subprocess.run([*git, "log", "-1", "--format=%H", "--", file], capture_output=True, text=True)
    if last.returncode or not last.stdout.strip():
        return None
    words = [*git, "rev-list", "--count", f"{last.stdout.strip()}..HEAD", "--", *source_paths(name)]
    counted = subprocess.run(words, capture_output=True, text=True)
    return int(counted.stdout) if counted.returncode == 0 else None
