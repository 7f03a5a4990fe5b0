"""Writes a module of LLVM as C.

`python3 -m translator IN.ll OUT.c` reads LLVM's text and writes C for gcc and clang. It knows the instructions, types and
intrinsics that the modules of this repository have, and stops at any other, naming it. What LLVM leaves undefined may be
undefined in the C; what LLVM defines is defined there: arithmetic is unsigned, accesses to memory are copies of bytes, and
amounts of shifts are masked.
"""
