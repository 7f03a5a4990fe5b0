"""Finds the captures for the runs."""
import os
import subprocess
import sys

from .forms import TOP

STORED = f"{TOP}/tests/files/stored"
MAKERS = [f"{TOP}/tests/c/{it}" for it in ("captures.py", "block_captures.py")]


def captures(folders, every, room):
    """Returns each Nth file of the folders, in the order of their names, and of tests/files/stored. If the caller names no folder, it
    makes small captures, sound and malformed."""
    if not folders:
        folders = [f"{room}/captures"]
        os.makedirs(folders[0])
        for maker in MAKERS:
            subprocess.run([sys.executable, maker, folders[0]], check=True)
    found = []
    for folder in [STORED, *folders]:
        for place, _, names in os.walk(folder, followlinks=True):
            found += [os.path.join(place, name) for name in names if not name.endswith((".json", ".md", ".packets"))]
    return sorted(map(os.path.abspath, found), key=os.path.basename)[::every]
