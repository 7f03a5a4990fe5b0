"""Reads the wrong bodies of code that is only tested, and the tests that each wrong body names as failing with it."""
import collections
import functools
import glob
import os
import sys

HERE = os.path.dirname(os.path.abspath(__file__))

Edit = collections.namedtuple("Edit", "changes wanted")


@functools.cache
def sample():
    """Returns tests/files/ample.py, and its rows by their names."""
    sys.path[:0] = [os.path.dirname(HERE), os.path.join(os.path.dirname(HERE), "files")]
    import ample
    import converting

    return ample, {row.name: row for row in ample.rows(converting)}


def names():
    return sorted(os.path.basename(path)[:-5] for path in glob.glob(f"{HERE}/*.edit"))


def read_edit(name):
    """Returns the changes of an edit, each a file with an old and a new text, and the tests that fail with it, each with its crate."""
    changes, wanted, path, old = [], [], None, None
    with open(f"{HERE}/{name}.edit", encoding="utf-8") as lines:
        for line in lines:
            word, _, text = line.rstrip("\n").partition(": ")
            if word == "file":
                path = text
            elif word == "old":
                old = text
            elif word == "new" and path and old:
                changes.append((path, old, text))
            elif word == "fails":
                wanted.append(tuple(text.split(" ", 1)))
            elif line.strip():
                raise ValueError(f"a line is none of an edit's: {line.strip()[:80]}")
    if not changes or not wanted:
        raise ValueError("it has no pair of 'old: ..' and 'new: ..' behind a 'file: ..', or no line 'fails: ..'")
    return Edit(changes, wanted)


def changed(top, changes):
    """Returns the changed files, with their texts before and after. Each old text occurs once in its file."""
    before, after = {}, {}
    for path, old, new in changes:
        if path not in after:
            if not os.path.isfile(f"{top}/{path}"):
                raise ValueError(f"there is no file {path}")
            with open(f"{top}/{path}", encoding="utf-8") as file:
                before[path] = after[path] = file.read()
        if after[path].count(old) != 1:
            raise ValueError(f"{old!r} stands {after[path].count(old)} times in {path}, and not once")
        after[path] = after[path].replace(old, new)
    return before, after
