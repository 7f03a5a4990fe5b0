"""Reads the public items of the crates from their sources: comments, signatures, and the names and texts of clauses.

An item starts at a line's beginning and a method four spaces in, as `rt fmt` formats them. The script expands no macro.
"""
import collections
import glob
import os
import re
import sys

TOP = os.path.dirname(os.path.dirname(os.path.abspath(__file__)))
ITEM = re.compile(r'pub (?:const )?(?:extern "C" )?(fn|struct|enum|trait|type|const) (\w+)')
CLAUSE = re.compile(r"\s+(requires|ensures)\*? ?(\w*)")
HEAD_OF_IMPL = re.compile(r"impl(?:<[^{]*?>)? (?:(\S+(?:<.*>)?) for )?(\w+)")
# The sources of a crate that is not in crates/.
FOLDERS = {"pcapfile for Rust": "rust/src/"}
USE = re.compile(r"^pub use ([^;]+);", re.M)
# An item has a kind, a name, the path of its file, its comment, its signature, its clauses, and its parts.
Item = collections.namedtuple("Item", "kind name path comment signature clauses parts")


def text_of(path):
    with open(f"{TOP}/{path}", encoding="utf-8") as it:
        return it.read()


def comment_before(lines, at):
    """Returns the `///` lines before this line, without the attributes between them."""
    found = []
    while at and re.match(r"\s*(///|#\[)", lines[at - 1]):
        at -= 1
        found += re.findall(r"^\s*/// ?(.*)", lines[at])
    return "\n".join(reversed(found))


def indent_of(line):
    return len(line) - len(line.lstrip())


def end_of(lines, at):
    """Returns the end of what begins at this line: where its indent closes it, or a semicolon before a body opens."""
    indent, opened = " " * indent_of(lines[at]), False
    for here in range(at, len(lines)):
        line = lines[here]
        closed = re.match(indent + r"(\}|\{.*\}$)", line) or (here == at and re.search(r"\{.*\}$", line))
        if closed or (line.endswith(";") and not opened):
            return here
        opened = opened or line == indent + "{" or line.endswith(" {")
    return len(lines) - 1


def signature_of(lines):
    """Returns the text before the first clause or the body, on one line."""
    kept = []
    for line in lines:
        if CLAUSE.match(line) or line.strip() in ("{", "{}"):
            break
        kept.append(re.sub(r" ?\{\}?$", "", line.strip()))
        if line.endswith(("{", "{}", ";")):
            break
    joined = re.sub(r"\( ", "(", " ".join(kept).rstrip(";"))
    return re.sub(r",? \)", ")", joined)


def clauses_of(lines):
    """Returns the word, the name (which may be empty) and the text of each clause."""
    found = []
    indent = indent_of(lines[0])
    for at, line in enumerate(lines[1:], 1):
        if line.startswith(" " * indent + "{"):
            break
        named = CLAUSE.match(line)
        if named and indent_of(line) == indent + 4:
            text = re.match(r"[^{]*\{ (.*?) \};?$", " ".join(it.strip() for it in lines[at : end_of(lines, at) + 1]))
            found.append((named[1], named[2], text[1] if text else ""))
    return found


def parts_of(kind, lines, path):
    """Returns the fields of a struct, the variants of an enum, or the functions of a trait or an impl."""
    found, at = [], 1
    while at < len(lines) - 1:
        line = lines[at]
        if indent_of(line) != 4 or not line.strip():
            at += 1
            continue
        named = re.match(r"    (pub )?(?:const )?(?:unsafe )?fn (\w+)", line)
        if named:
            end = end_of(lines, at)
            if named[1] or kind != "impl":
                own = lines[at : end + 1]
                comment = comment_before(lines, at)
                found.append(Item("fn", named[2], path, comment, signature_of(own), clauses_of(own), []))
            at = end
        elif kind == "struct" and line.startswith("    pub "):
            found.append(Item("field", line, path, comment_before(lines, at), line.strip()[4:].rstrip(","), [], []))
        elif kind == "enum" and re.match(r"    [A-Z]\w*", line):
            end = at if line.endswith(",") else end_of(lines, at)
            shown = " ".join(it.strip() for it in lines[at : end + 1] if not it.strip().startswith("//"))
            found.append(Item("variant", line, path, comment_before(lines, at), shown.rstrip(","), [], []))
            at = end
        at += 1
    return found


def items_of(path):
    """Returns the public items of a file, and its impls as pairs of a type and an item. The item has the name of its trait, if there is one."""
    lines = text_of(path).split("\n")
    items, impls, at = {}, [], 0
    while at < len(lines):
        public, impl = ITEM.match(lines[at]), HEAD_OF_IMPL.match(lines[at])
        if public or impl:
            end = end_of(lines, at)
            own = lines[at : end + 1]
        if public:
            kind, name = public[1], public[2]
            comment = comment_before(lines, at)
            signature = signature_of(own)
            items[name] = Item(kind, name, path, comment, signature, clauses_of(own), parts_of(kind, own, path))
            at = end
        elif impl:
            parts = parts_of("trait" if impl[1] else "impl", own, path)
            impls.append((impl[2], Item("impl", impl[1], path, "", signature_of(own), [], parts)))
            at = end
        at += 1
    return items, impls


class Crate:
    """The modules of a crate by their paths, and the impls of its types."""

    def __init__(self, name):
        self.name, self.impls, self.modules, self.files = name, [], {}, {}
        folder = FOLDERS.get(name, f"crates/{name}/src/")
        paths = [it for it in glob.glob(f"{folder}**/*", root_dir=TOP, recursive=True) if it.endswith((".rt", ".rs"))]
        for path in sorted(paths):
            module = path[len(folder) : -3].replace("/", "::")
            module = "" if module == "lib" else module
            self.modules[module], impls = items_of(path)
            self.impls += impls
            self.files[module] = path


class Sources:
    """All crates. Each is read when a path names it."""

    def __init__(self):
        self.crates = {}

    def crate(self, name):
        if name not in self.crates:
            self.crates[name] = Crate(name)
        return self.crates[name]

    def resolved(self, crate, module, path):
        """Returns the crate, and the path in it, that a path in a module means."""
        first, _, rest = path.partition("::")
        if first == "crate":
            return crate, rest
        if os.path.isdir(f"{TOP}/crates/{first}"):
            return first, rest
        return crate, f"{module}::{path}".lstrip(":")

    def found(self, crate, path):
        """Returns the crate and the item at this path, also through re-exports; None for a module."""
        module, _, name = path.rpartition("::")
        own = self.crate(crate)
        if path in own.modules or (module in own.modules and name in own.modules[module]):
            return crate, None if path in own.modules else own.modules[module][name]
        for used in self.uses(crate, module):
            if used.rpartition("::")[2] == name:
                return self.found(*self.resolved(crate, module, used))
        sys.exit(f"tests/reference: {path} of {crate} isn't found")

    def uses(self, crate, module):
        """Returns the paths that a module re-exports."""
        found = []
        for used in USE.findall(text_of(self.crate(crate).files[module])):
            used = re.sub(r"\s+", " ", used)
            base, brace, names = used.partition("{")
            found += [base + it.strip() for it in names.rstrip("} ").split(",") if it.strip()] if brace else [used]
        return found

    def shown(self, crate, module):
        """Returns the items of a public module as pairs of a crate and an item, its own ones before those that it re-exports."""
        found = [(crate, it) for it in self.crate(crate).modules[module].values()]
        for used in self.uses(crate, module):
            at, item = self.found(*self.resolved(crate, module, used))
            if item:
                found.append((at, item))
        return found

    def public(self, crate, module, shown):
        """Returns the public modules below one as triples: the path that a caller writes, and the crate and module that it is."""
        found = [(shown, crate, module)]
        for name in re.findall(r"^pub mod (\w+);", text_of(self.crate(crate).files[module]), re.M):
            found += self.public(crate, f"{module}::{name}".lstrip(":"), f"{shown}::{name}")
        for used in self.uses(crate, module):
            at, path = self.resolved(crate, module, used)
            if path in self.crate(at).modules and used.rpartition("::")[2] == path:
                found += self.public(at, path, f"{shown}::{path}")
        return found
