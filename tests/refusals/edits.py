"""Reads wrong bodies from files, and puts into batches those that one check can judge together."""
import collections
import glob
import os
import re

HEAD = re.compile(r"^( *)(?:pub(?:\([a-z]+\))? )?(?:const )?(?:extern \"C\" )?fn ", re.M)


class BadEdit(Exception):
    """An edit that can't be tried as it is written."""


Edit = collections.namedtuple("Edit", "name function refused changes")
Change = collections.namedtuple("Change", "path old new")


def read_edit(path):
    """Returns the edit in a file: the function that it changes, the goals that stay open then, and its changes."""
    said, changes, at, old = {}, [], None, None
    with open(path, encoding="utf-8") as lines:
        for line in lines:
            word, _, text = line.rstrip("\n").partition(":")
            text = text.removeprefix(" ")
            if word in ("function", "refused"):
                said[word] = text
            elif word == "file":
                at = text
            elif word == "old":
                old = text
            elif word == "new" and at and old:
                changes.append(Change(at, old, text))
                old = None
            elif line.strip():
                raise BadEdit(f"this line does not belong in an edit: {line.strip()[:80]}")
    if "function" not in said or "refused" not in said or not changes:
        raise BadEdit("it has no line 'function: ..', 'refused: ..', or no pair of 'old: ..' and 'new: ..'")
    return Edit(os.path.basename(path)[:-5], said["function"], said["refused"].split(), changes)


def changed(texts, edit):
    """Returns the texts by path with the edit in them. Each `old:` text must occur exactly once."""
    texts = dict(texts)
    for path, old, new in edit.changes:
        if path not in texts:
            raise BadEdit(f"there is no file {path}")
        if texts[path].count(old) != 1:
            raise BadEdit(f"an 'old:' text occurs {texts[path].count(old)} times in {path}, not once")
        texts[path] = texts[path].replace(old, new)
    return texts


def place(text, at):
    """Returns the line at which the function around this place begins, or None if the place is in no function."""
    begun = [head for head in HEAD.finditer(text, 0, at + 1)]
    if not begun:
        return None
    end = text.find(f"\n{begun[-1][1]}}}", begun[-1].start())
    return text.count("\n", 0, begun[-1].start()) if at < end else None


def places(texts, edit):
    """Returns the functions that an edit changes, each by its file and line, and None for a change outside of functions."""
    found = {edit.function}
    folder = f"proofs/{edit.function.replace('::', '/')}/"
    for path, old, _ in edit.changes:
        if path.startswith("src/") and old in texts[path]:
            line = place(texts[path], texts[path].index(old))
            found.add(None if line is None else (path, line))
        elif not path.startswith(("src/", folder)):
            found.add(None)
    return found


def batches(texts, edits):
    """Returns batches of the edits, each with the texts that it makes, as few as a first fit gives. No two edits of a batch change one
    function. An edit that changes something outside of functions, such as a type or a lemma, is a batch of its own. The changes of earlier
    batches in other functions stay, since the check keeps what it proved with them."""
    made = []
    for edit in edits:
        touched = places(texts, edit)
        for taken, batch in made if None not in touched else ():
            if None not in taken and not taken & touched and applies(texts, [*batch, edit]):
                taken |= touched
                batch.append(edit)
                break
        else:
            made.append((touched, [edit]))
    return [(batch, together(texts, batch, [it for _, earlier in made[:at] for it in earlier])) for at, (_, batch) in enumerate(made)]


def applies(texts, edits):
    """Returns whether these edits can be applied one after the other."""
    try:
        for edit in edits:
            texts = changed(texts, edit)
    except BadEdit:
        return False
    return True


def together(texts, batch, others):
    """Returns the texts with the batch in them, and with those of the other edits that change none of its functions."""
    now = texts
    for edit in batch:
        now = changed(now, edit)
    taken = set().union(*(places(texts, edit) for edit in batch))
    for edit in others:
        touched = places(texts, edit)
        if None not in touched and not taken & touched and applies(now, [edit]):
            taken |= touched
            now = changed(now, edit)
    return now


def edits_of(folder):
    """Returns the texts of a crate, its edits, and the edits that can't be tried, each with the reason."""
    good, bad = [], {}
    texts = texts_of(folder)
    for path in sorted(glob.glob(f"{folder}/must-not-prove/*")):
        try:
            edit = read_edit(path)
            changed(texts, edit)
            good.append(edit)
        except (BadEdit, UnicodeDecodeError) as why:
            bad[os.path.basename(path)[:-5]] = str(why)
    return texts, good, bad


def texts_of(folder):
    """Returns the crate's files that a check reads, by their paths in it."""
    texts = {}
    for part in ("src", "specs", "proofs"):
        for path in glob.glob(f"{folder}/{part}/**", recursive=True):
            if os.path.isfile(path):
                with open(path, encoding="utf-8") as it:
                    texts[os.path.relpath(path, folder)] = it.read()
    return texts
