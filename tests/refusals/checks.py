"""Reads what the toolchain's check prints about functions whose bodies were changed."""
import contextlib
import json
import os
import re
import shutil
import subprocess
import tempfile

from edits import changed

TOP = os.path.dirname(os.path.dirname(os.path.dirname(os.path.abspath(__file__))))
KIT = os.path.dirname(os.path.dirname(os.path.realpath(shutil.which("rt") or "rt")))
# The line by which a check ends that judged the functions.
ENDED = re.compile(r"^only=\d+ (?:proved=\d+|holes=\d+)", re.M)
FUNCTION = re.compile(r"^fn (\S+): (.*)$", re.M)
NOT_PROVED = ("not proved", "no proof")
UNPROVED = re.compile(r"`search` did not prove (`[^`]+`(?:, `[^`]+`)*)")
# A message includes the lines below it that begin with two spaces.
IN_ANSWER = re.compile(r"^\./proofs/(\S+)/(?:Answers|Invariants)\.antt:\d+:\d+: error: `([^`]+)`: (.*(?:\n  .*)*)$", re.M)
# A message about a name that the edit removed, in a written answer. It shows nothing about a contract. A search that "takes no field" of a
# hypothesis has failed on its goal, and is no such message.
OF_A_NAME = re.compile(r"has no field|is not in scope|has no `|was not admitted|is no name|(?<!takes )no field")
IN_SOURCE = re.compile(r"^(?:\./)?((?:src|specs)/\S+:\d+:\d+: error.*)$", re.M)
# The proof of a function that isn't judged. A caller is judged by the contract of the function, so it needs no other proof.
HOLE = """use Rattle.{path}.Statement.{{statement}}

pub {name}_spec : {{M : Type 1}} → statement M
{name}_spec = ?
"""


class NoVerdict(Exception):
    """The check ended before it judged the functions."""


def crates(top=TOP):
    """Returns the libraries that crates.txt lists for each crate, and whether the crate is a static library."""
    with open(f"{top}/crates.txt", encoding="utf-8") as lines:
        rows = [line.split(":") for line in lines if not line.startswith("#")]
    return {head.split()[0]: (named.split(), "staticlib" in head) for head, named in rows}


def below(names, known):
    """Returns these libraries and all libraries of the repository below them."""
    found = {name for name in names if name in known}
    return found.union(*(below(known[name][0], known) for name in found))


def words_of(name, named, is_static, known):
    """Returns the arguments of the crate's check over the libraries that were proved and built in this checkout."""
    words = ["--crate-name", name, "src/lib.rt", "--extern", f"std={KIT}/rlibs/std.rlib", "-L", f"dependency={KIT}/rlibs"]
    for library in sorted(below(named, known)):
        if not os.path.exists(f"{TOP}/crates/{library}/out/rlib/{library}.rlib"):
            raise NoVerdict(f"the library {library} isn't built: run 'rt ci', or 'rt check' in crates/{name}")
        words += ["-L", f"dependency={TOP}/crates/{library}/out/rlib"]
    for library in named:
        rlibs = f"{TOP}/crates/{library}/out/rlib" if library in known else f"{KIT}/rlibs"
        words += ["--extern", f"{library}={rlibs}/{library}.rlib"]
    if is_static:
        words += ["--crate-type", "staticlib"]
    logic = ["--antt-project", f"{KIT}/rattle/logic/antt-project.json", "--logic-built", f"{KIT}/logic_built"]
    return [*words, "--links", f"{name}=", *logic]


def check(name, texts, functions, kept):
    """Checks these functions of the crate with these texts, and returns what the check prints. The folder `kept` keeps what it checked for
    the next check."""
    with tempfile.TemporaryDirectory(prefix="refusals-") as room:
        for path, text in texts.items():
            os.makedirs(os.path.dirname(f"{room}/{path}"), exist_ok=True)
            with open(f"{room}/{path}", "w", encoding="utf-8") as it:
                it.write(text)
        known = crates()
        words = words_of(name, *known.get(name, ([], False)), known)
        words = [f"{KIT}/bin/rattle", "check", *words, "--incremental", kept, "--jobs", "1"]
        words += [word for function in sorted(functions) for word in ("--only", function)]
        how = {"cwd": room, "stdin": subprocess.DEVNULL, "stdout": subprocess.PIPE, "stderr": subprocess.STDOUT}
        told = subprocess.run(words, text=True, errors="replace", **how).stdout
    in_source = IN_SOURCE.search(told)
    if not ENDED.search(told) or in_source:
        raise NoVerdict(in_source[1][:200] if in_source else " ".join(told.strip().splitlines()[-1:])[:200])
    return told


def functions_of(name):
    """Returns the paths of the named functions of a crate, if its library is built."""
    built = f"{TOP}/crates/{name}/out/rlib/{name}.rlib/toolchain/mir.json"
    if not os.path.exists(built):
        return []
    with open(built, encoding="utf-8") as it:
        paths = [function[0].split("::") for function in json.load(it)]
    return ["::".join(path[1:]) for path in paths if path[0] == name and all(map(str.isidentifier, path))]


def with_holes(name, texts, functions):
    """Returns the texts with a hole for each proof except those of these functions, so that no other proof takes time."""
    texts = dict(texts)
    for path in (function.split("::") for function in functions_of(name) if function not in functions):
        folder = "/".join(["proofs", *path])
        for written in ("Answers", "Invariants"):
            texts.pop(f"{folder}/{written}.antt", None)
        texts[f"{folder}/Proof.antt"] = HOLE.format(path=".".join([name, "proofs", *path]), name=path[-1])
    return texts


def judged(name, texts, batch, now, kept):
    """Returns each edit of the batch, and why it isn't refused as it says, or None. The texts `now` have all of them. The first check proves
    no other function. The second one judges the edits that the first did not refuse, beside all proofs."""
    functions, refused = {edit.function for edit in batch}, []
    holed = with_holes(name, now, functions)
    if holed != now:
        with contextlib.suppress(NoVerdict):
            told = check(name, holed, functions, kept)
            refused = [edit for edit in batch if fault_of(edit, told, name) is None]
    left = [edit for edit in batch if edit not in refused]
    return [(edit, None) for edit in refused] + (judged_whole(name, texts, left, now, kept) if left else [])


def judged_whole(name, texts, batch, now, kept):
    """Returns the same as `judged`, by a check beside all proofs. If the batch can't be judged, each edit is judged alone."""
    try:
        told = check(name, now, {edit.function for edit in batch}, kept)
    except NoVerdict as why:
        if len(batch) == 1:
            return [(batch[0], f"it isn't judged: {why}")]
        return [it for edit in batch for it in judged_whole(name, texts, [edit], changed(texts, edit), kept)]
    return [(edit, fault_of(edit, told, name)) for edit in batch]


def fault_of(edit, told, name):
    """Returns why the check doesn't refuse the edited function as the edit says, or None."""
    said = dict(FUNCTION.findall(told)).get(f"{name}::{edit.function}")
    if said is None:
        return f"nothing is said of {edit.function}"
    if not said.startswith(NOT_PROVED):
        return f"it is accepted: {said[:80]}"
    goals, of_names = open_goals(told, said, edit.function)
    missing = [goal for goal in edit.refused if goal not in goals]
    if goals and not missing:
        return None
    if not goals:
        return "it is refused for a name alone" if of_names else f"it is accepted: {said[:160]}"
    return f"{' and '.join(missing)} is not among what stays open: {' '.join(sorted(goals))}"


def open_goals(told, said, function):
    """Returns the function's own goals that stay open, and those whose answers name something that the edit removed."""
    goals = {goal for listed in UNPROVED.findall(said) for goal in re.findall(r"`([^`]+)`", listed)}
    of_names = set()
    for path, goal, why in IN_ANSWER.findall(told):
        if path == function.replace("::", "/"):
            (of_names if OF_A_NAME.search(why) else goals).add(goal)
    return goals, of_names
