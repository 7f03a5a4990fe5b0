#!/usr/bin/env python3
"""tests/c/rules.py [--write]: checks that C, Rust and Python name the rules of docs/REFUSALS.md, and the reasons that have a number.

Each of these files has the list of rules between a line with `rules of docs/REFUSALS.md` and a line with `end of the rules`. The script
prints the files whose list differs from the table. With --write it writes the lists again.
"""

import re
import sys
from pathlib import Path
from typing import NamedTuple

TOP = Path(__file__).resolve().parents[2]


class Rule(NamedTuple):
    """A row of the table: a name such as `CaptureMagic`, a number, and where the rule is broken."""

    name: str
    number: int
    broken: str

    @property
    def upper(self):
        """Returns the name in capitals: CAPTURE_MAGIC."""
        return re.sub(r"(?<=[a-z0-9])(?=[A-Z])", "_", self.name).upper()

    @property
    def sentence(self):
        return self.broken[0].upper() + self.broken[1:] + "."


def rules():
    rows = re.findall(r"^\| (?:V[\d.]+ \| (?=\d)|(?=\d{4} ))(\d+) \| `(\w+)` \| (.*?) \| .* \|$", (TOP / "docs/REFUSALS.md").read_text(), re.M)
    return [Rule(name, int(number), broken) for number, name, broken in rows]


def in_c(rule):
    return f"    PCAPFILE_RULE_{rule.upper} = {rule.number}, /* {rule.broken} */"


def in_rust(rule):
    return f"    /// {rule.sentence}\n    {rule.name} = {rule.number},"


def in_python(rule):
    return f"    {rule.upper} = {rule.number}  # {rule.broken}"


LISTS = {"include/pcapfile.h": in_c, "rust/src/rules.rs": in_rust, "python/pcapfile/_rules.py": in_python}
LIST = re.compile(r"(?<=rules of docs/REFUSALS\.md)(.*?\n)(.*?)(?=\n[^\n]*end of the rules)", re.S)


def main():
    differ = []
    for name, line in LISTS.items():
        path = TOP / name
        text = path.read_text()
        wanted, count = LIST.subn(lambda found: found[1] + "\n".join(map(line, rules())), text)
        if count != 1:
            sys.exit(f"tests/c/rules.py: {name} has {count} lists of the rules")
        if text != wanted:
            differ.append(name)
            if "--write" in sys.argv[1:]:
                path.write_text(wanted)
    if len(rules()) != 44:
        sys.exit(f"tests/c/rules.py: docs/REFUSALS.md has {len(rules())} rules")
    if differ and "--write" not in sys.argv[1:]:
        sys.exit(f"tests/c/rules.py: {' '.join(differ)}: not the rules of docs/REFUSALS.md; --write writes them")


main()
