"""Lets pytest find the package, and the library and the program that `make` built."""
import os
import sys

import pytest

TOP = os.path.dirname(os.path.dirname(os.path.dirname(os.path.abspath(__file__))))
OUT = os.environ.get("PCAPFILE_OUT", f"{TOP}/out")
PLACES = {"PYTHONPATH": f"{TOP}/python", "PCAPFILE_LIBRARY": f"{OUT}/libpcapfile.so", "PCAPFILE_PROGRAM": f"{OUT}/pcapfile"}
if not os.path.exists(os.environ.get("PCAPFILE_LIBRARY", PLACES["PCAPFILE_LIBRARY"])):
    raise pytest.UsageError(f"{OUT}/libpcapfile.so is not built: run 'make'")
# Some tests start processes, which find the package in the same way.
for name, place in PLACES.items():
    os.environ.setdefault(name, place)
sys.path.insert(0, f"{TOP}/python")
