"""Counts the instructions that a program takes, by valgrind."""

import os
import re
import subprocess

# Without these a long copy or clearing would be one instruction on some machines and many on others.
LONGEST = ":".join(f"glibc.cpu.x86_rep_{way}_threshold=100000000" for way in ("movsb", "stosb"))
COUNTED = dict(os.environ, GLIBC_TUNABLES=LONGEST)


def count(command, given, inside=None, paths=None):
    """Returns the instructions of one run over this input, and what it wrote. With a name it counts only those inside functions of that
    name. The run has the environment `paths` if one is given. Returns nothing if the run fails."""
    valgrind = ["valgrind", "--tool=callgrind", "--callgrind-out-file=/dev/null"]
    valgrind += [f"--toggle-collect={inside}"] if inside else []
    with open(given, "rb") as bytes_in:
        run = subprocess.run(valgrind + command, stdin=bytes_in, capture_output=True, env={**COUNTED, **(paths or {})})
    found = re.search(rb"Collected : (\d+)", run.stderr)
    return (int(found[1]), run.stdout) if found and run.returncode == 0 else None


def per_item(program, call, given, items, inside=None):
    """Returns the instructions of one call for each item, and the sum that the program printed. Reading the input and starting cost the
    same in both runs, so they cancel out."""
    few, many = (count([program, call, str(passes)], given, inside) for passes in (5, 10))
    return ((many[0] - few[0]) / 5 / items, many[1]) if few and many else None


def per_packet(program, word, small, large, more):
    """Returns the instructions of a program for each packet. The second capture has this many packets more than the first."""
    few, many = (count([program, word], given) for given in (small, large))
    return (many[0] - few[0]) / more if few and many else None
