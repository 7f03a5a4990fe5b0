"""Computes a sum for each wrong body over everything that its verdict can depend on. Texts alone give the sums, so nothing has to be built.

The check judges a function by its own code, by what is written of its proof, and by the contracts of what it calls. So the sum covers the
toolchain, the judge's sources, the crate's line of crates.txt and the edit. It covers the function's own text with the head of its impl,
its folder of proofs, and the imports of its file that it names. It covers every item that these reach by name in this crate and the
libraries below it (`reach`). If an edit reaches beyond one function's text and folder, the sum covers the whole texts of the crate and of
the libraries below.
"""
import functools
import glob
import hashlib
import os
import re

import checks
import edits
import reach

JUDGE = ("checks.py", "edits.py")
KIT = ("KIT-ID", "WHAT")
IMPORT = re.compile(r"^\s*(?:pub(?:\(\w+\))? )?((?:ghost )?use [^;]*);", re.M)
OF_A_FILE = re.compile(r"^#!\[.*\]$", re.M)
IMPL_OR_TRAIT = re.compile(r"^(?:unsafe )?(?:impl|(?:pub(?:\(\w+\))? )?trait)\b[^{]*", re.M)


def sum_of(*parts):
    return hashlib.sha256(repr(parts).encode()).hexdigest()[:32]


@functools.lru_cache(maxsize=None)
def sum_of_item(item):
    """Returns the sum of an item that texts reach; most edits of a crate reach the same ones."""
    return sum_of(item)


def content(path):
    with open(path, "rb") as it:
        return it.read()


def sum_of_judge(folder=os.path.dirname(os.path.abspath(__file__)), kit=checks.KIT):
    """Returns the sum of the toolchain, by the texts that name it, and of the judge's sources."""
    return sum_of([content(f"{kit}/{it}") for it in KIT], [content(f"{folder}/{it}") for it in JUDGE])


def folder_of(edit):
    return f"proofs/{edit.function.replace('::', '/')}/"


def own_function(text, at, length, name):
    """Returns the text of the function of this name that has these bytes, or None if they are in another. The text has the attributes
    above it and the head of its impl."""
    heads = list(reach.HEAD.finditer(text, 0, at + length))
    if not heads or heads[-1][2] != name:
        return None
    indent, begin = heads[-1][1], text.rfind("\n\n", 0, heads[-1].start()) + 1
    end = text.find(f"\n{indent}}}", heads[-1].start())
    if not at < end:
        return None
    owners = list(IMPL_OR_TRAIT.finditer(text, 0, heads[-1].start())) if indent else []
    return reach.code((owners[-1][0] if owners else "") + text[begin:end])


def own_texts(texts, edit):
    """Returns the function that an edit changes, with its file. Returns None if the edit reaches beyond its text and its folder of
    proofs."""
    found, name = set(), edit.function.split("::")[-1]
    for path, old, _ in edit.changes:
        if path.startswith(folder_of(edit)):
            continue
        text = texts.get(path, "")
        own = own_function(text, text.index(old), len(old), name) if path.startswith("src/") and text.count(old) == 1 else None
        if own is None:
            return None
        found.add((path, own))
    return sorted(found) or None


def imports(text, named):
    """Returns the paths of a source's imports of these names. So a name that is imported from elsewhere gives another sum."""
    found = set()
    for line in IMPORT.findall(reach.code(text)):
        head, _, inside = line.partition("{")
        found |= {(head.strip(), name) for name in reach.words(inside or head) if name in named}
    return sorted(found)


def attributes_of_files(texts, paths):
    """Returns the attributes at the head of the crate's root and of these files, for example tactics. They apply to the proofs of all
    functions."""
    return [OF_A_FILE.findall(reach.IDLE.sub("", texts.get(path, ""))) for path in ("src/lib.rt", "src/main.rt", *paths)]


def crate_texts(edit, texts, below):
    return [edit, sorted(texts.items()), sorted((name, sorted(it.items())) for name, it in below.items())]


def reached_texts(edit, own, texts, reached_from):
    """Returns everything by which the check judges this edit of one function."""
    written = [(path, reach.proof(it)) for path, it in sorted(texts.items()) if path.startswith(folder_of(edit))]
    named = set().union(*(reach.words(it) for _, it in [*own, *written]), *(reach.words(it.new) for it in edit.changes))
    items = sorted(map(sum_of_item, reached_from.from_words(sorted(named))))
    taken = [imports(texts[path], named) for path, _ in own]
    return [edit, own, written, taken, attributes_of_files(texts, [path for path, _ in own]), items]


def of_crate(crate, wanted, texts, below, row, judge):
    """Returns the sums of edits of a crate, by their names. It takes the crate's texts by path, the texts of the libraries below by
    crate, and the crate's row of crates.txt."""
    reached_from, found = reach.Reach({crate: texts, **below}), {}
    for edit in wanted:
        own = own_texts(texts, edit)
        # The check judges a function of a cycle of calls together with the others of the cycle.
        is_alone = own is not None and not any("cycle(" in it for _, it in own)
        parts = reached_texts(edit, own, texts, reached_from) if is_alone else crate_texts(edit, texts, below)
        found[edit.name] = sum_of(judge, crate, row, parts)
    return found


@functools.lru_cache(maxsize=None)
def texts_of(crate, top):
    return edits.texts_of(f"{top}/crates/{crate}")


def of_repository(names, top=checks.TOP):
    """Returns the sums of the edits of these crates, by crate and name, from the files in the checkout."""
    known, judge, found = checks.crates(top), sum_of_judge(), {}
    for crate in names:
        row = known.get(crate, ([], False))
        texts, good, _ = edits.edits_of(f"{top}/crates/{crate}")
        below = {it: texts_of(it, top) for it in checks.below(row[0], known)}
        found.update(((crate, edit), it) for edit, it in of_crate(crate, good, texts, below, row, judge).items())
    return found


def crates_with_edits(top=checks.TOP):
    return sorted(os.path.basename(os.path.dirname(path)) for path in glob.glob(f"{top}/crates/*/must-not-prove"))
