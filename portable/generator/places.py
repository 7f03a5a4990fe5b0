"""Finds the checkout, and the toolchain that has `rt`."""
import os
import shutil
import subprocess

from .stopping import Stopped

PORTABLE = os.path.dirname(os.path.dirname(os.path.abspath(__file__)))
TOP = os.path.dirname(PORTABLE)
OUT = f"{TOP}/out/portable"


def kit():
    """Returns the folder of the toolchain."""
    rt = shutil.which("rt")
    if not rt:
        raise Stopped("'rt' is not on the PATH: the Rattle toolchain makes the C files; to build from them, a C compiler is enough")
    return os.path.dirname(os.path.dirname(os.path.realpath(rt)))


def kit_line():
    """Returns the toolchain's version and the logic that it proves by."""
    return subprocess.run(["rt", "version"], capture_output=True, text=True, check=True).stdout.strip()


def clang():
    return f"{kit()}/toolchain/bin/clang"


def shown(path):
    """Returns a path for a message: from the top of the checkout if it is below that."""
    return os.path.relpath(path, TOP) if os.path.abspath(path).startswith(TOP + os.sep) else path
