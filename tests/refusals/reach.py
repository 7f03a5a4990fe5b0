"""The items of a crate and of the libraries below it that texts reach by name.

The items of sources are functions with their heads and contracts, and whole types, traits and macros. The items of specs are whole. The
items of proofs are lemmas with their statements. Names count as words, so a name with two meanings reaches both. Items have no comments, no
layout, no bodies of functions, and none of the proofs of functions.
"""
import collections
import functools
import os
import re

Item = collections.namedtuple("Item", "name owners text kind")
FUNCTION, TYPE, SPEC, LEMMA, MACRO = (1 << at for at in range(5))
EVERY = FUNCTION | TYPE | SPEC | LEMMA | MACRO
# The kinds that an item of each kind can name. Contracts and specs reach no lemma.
NAMES_OF = {FUNCTION: TYPE | SPEC | MACRO, TYPE: TYPE | SPEC | MACRO, SPEC: TYPE | SPEC, LEMMA: TYPE | SPEC | LEMMA, MACRO: EVERY}
# Every text reaches the item of this name.
ALWAYS = "*"
# Methods that code calls without naming them.
UNNAMED = (
    *("from", "eq", "next", "fmt", "drop", "clone", "into_iter", "cmp", "partial_cmp", "deref", "deref_mut", "index", "index_mut"),
    *("add", "sub", "mul", "not", "neg"),
)
# The files of a folder of proofs that are about one function.
OF_A_FUNCTION = ("Answers.antt", "Invariants.antt", "Proof.antt")

HEAD = re.compile(r'^( *)(?:pub(?:\([a-z]+\))? )?(?:const )?(?:extern "C" )?fn (\w+)', re.M)
TOKEN_OR_COMMENT = re.compile(r'"(?:[^"\\]|\\.)*"|//[^\n]*|\'(?:[^\'\\\n]|\\[^\n])\'', re.S)
COMMENT_OF_PROOF = re.compile(r'(?m)(?<![^ \n(){}.;,@"»])--[^\n]*')
MARKS = r"""\s(){}\[\],;."'⟦⟧:&|<>=+*/!?#@-"""
WORD = re.compile(f"[^{MARKS}]+(?:-[^{MARKS}]+)*")
IDLE = re.compile(r"^\s*#!?\[(?:inline|allow|must_use|cold|doc|warn|deny|expect)[^\n]*\]$", re.M)
MODULE_OR_IMPORT = re.compile(r"(pub(\(\w+\))? )?(ghost )?use |(pub )?mod \w+;")
IMPL_OR_TRAIT = re.compile(r"(?:unsafe )?(impl|(?:pub(?:\(\w+\))? )?trait)\b")
NAMED = re.compile(r"\b(?:fn|struct|enum|type|const|static|macro_rules!|trait|union) (\w+)")
GHOST = re.compile(r"\bghost (\w+)")
VARIANT = re.compile(r"^    ([A-Z]\w*)\b", re.M)
IMPORT_OF_PROOF = re.compile(r"(pub )?(unfoldable )?(use|mod) ")
DECLARED = re.compile(r"^((?:pub|abbrev|unfoldable|unfolding|opaque|data|record|private|infix\w*|syntax|ruleset|open|mutual)\s+)*([^\s:(){},]+)")
DATA_OR_RECORD = re.compile(r"((?:pub|abbrev|unfoldable) )*(data|record)\b")
PART_OF_DATA = re.compile(r"^\s+(?:pub )?([^\s:(){},]+)\s*:", re.M)


def lines_of(text):
    """Returns the text without empty lines and without line ends that mean nothing."""
    return "\n".join(line.rstrip() for line in text.split("\n") if line.strip())


@functools.lru_cache(maxsize=None)
def code(text):
    """Returns a source without its comments."""
    return lines_of(TOKEN_OR_COMMENT.sub(lambda it: "" if it[0].startswith("//") else it[0], text))


@functools.lru_cache(maxsize=None)
def proof(text):
    """Returns specs or proofs without their comments."""
    return lines_of(COMMENT_OF_PROOF.sub("", text))


@functools.lru_cache(maxsize=None)
def words(text):
    return frozenset(WORD.findall(text))


def head_of(lines, at, indent):
    """Returns two lines of a function whose head begins at this line: where its body opens, or None, and the last line of its head."""
    for line in range(at, len(lines)):
        text = lines[line]
        is_outer = len(text) - len(text.lstrip()) == len(indent)
        if text == indent + "{" or is_outer and text.endswith("{"):
            return line, line
        if is_outer and text.endswith((";", "{}", " }")):
            return None, line
    return None, len(lines) - 1


def without_bodies(text):
    """Returns a source without the bodies of its functions."""
    lines, out, at = text.split("\n"), [], 0
    while at < len(lines):
        head = HEAD.match(lines[at])
        body, last = head_of(lines, at, head[1]) if head else (None, at)
        out += lines[at : last + (body is None)]
        at = last + 1
        if body is not None:
            out.append(lines[body].rstrip("{") + "{BODY}")
            at = next((it for it in range(at, len(lines)) if lines[it] == head[1] + "}"), len(lines)) + 1
    return "\n".join(out)


def end_of_item(lines, at):
    """Returns the last line of the item that begins at this line of a source without bodies."""
    for line in range(at, len(lines)):
        if not lines[line].startswith((" ", "#")) and lines[line].endswith((";", "}")):
            return line
    return len(lines) - 1


def chunks_of_code(text):
    """Yields the items of a source, each as its lines with the attributes above it. Functions have no bodies there."""
    lines = [it for it in without_bodies(IDLE.sub("", code(text))).split("\n") if it.strip()]
    at, attributes = 0, []
    while at < len(lines):
        if lines[at].startswith("#"):
            attributes.append(lines[at])
            at += 1
        elif MODULE_OR_IMPORT.match(lines[at]):
            at = next((it for it in range(at, len(lines)) if lines[it].endswith(";")), len(lines)) + 1
            attributes = []
        else:
            end = end_of_item(lines, at)
            yield lines[at], [*attributes, *lines[at : end + 1]]
            at, attributes = end + 1, []


def members(lines):
    """Yields the members of an impl or a trait, each as its text."""
    gathered = []
    for line in lines:
        gathered.append(line)
        if line == "}" or re.match(r"    \S", line) and (line.endswith(("{BODY}", ";")) or line.strip() == "}"):
            yield "\n".join(gathered)
            gathered = []


def items_of_impl(lines):
    """Yields the items of an impl or a trait. Each method is an item with its head, which is reached by its own name together with a
    name of the head. The rest of the impl is an item for each name of the head."""
    cut = next((at for at, line in enumerate(lines) if line.endswith("{")), 0) + 1
    head, loose = "\n".join(lines[:cut]), []
    owners = frozenset(it for it in words(head) if it[:1].isupper() and len(it) > 1)
    for text in members(lines[cut:]):
        named = re.search(r"\bfn (\w+)", text)
        if named:
            yield Item(named[1], owners, head + text, FUNCTION)
        else:
            loose.append(text)
    for name in sorted(owners):
        yield Item(name, None, head + "\n".join(loose), TYPE)


@functools.lru_cache(maxsize=None)
def items_of_code(text):
    """Returns the items of a source."""
    found = []
    for first, lines in chunks_of_code(text):
        if IMPL_OR_TRAIT.match(first):
            found += items_of_impl(lines)
            continue
        chunk = "\n".join(lines)
        named = NAMED.search(chunk) or GHOST.search(first)
        kind = MACRO if "macro_rules!" in chunk else FUNCTION if re.search(r"\bfn \w", first) else TYPE
        found.append(Item(named[1] if named else ALWAYS, None, chunk, kind))
        if re.search(r"\benum \w+", first):
            found += [Item(name, None, chunk, kind) for name in VARIANT.findall(chunk)]
    return found


def declarations(text):
    """Returns the declarations of specs or proofs with their lines: a signature and all that follows it under its name."""
    groups = []
    for line in proof(text).split("\n"):
        if line[:1] in (" ", "}", ")", ""):
            if groups:
                groups[-1][1].append(line)
            continue
        declared = DECLARED.match(line)
        name = None if IMPORT_OF_PROOF.match(line) else declared[2] if declared else ALWAYS
        if name and groups and groups[-1][0] == name:
            groups[-1][1].append(line)
        else:
            groups.append((name, [line]))
    return [(name, lines) for name, lines in groups if name]


def statement(name, lines):
    """Returns the statement of a lemma; another check judges its proof. A definition among proofs is whole."""
    if not re.match(r"(pub )?" + re.escape(name) + r"\s*:", lines[0]):
        return lines
    return lines[: next((at for at, line in enumerate(lines) if at and not line.startswith(" ")), len(lines))]


@functools.lru_cache(maxsize=None)
def items_of_proof(text, kind):
    """Returns the items of specs, or of lemmas."""
    found = []
    for name, lines in declarations(text):
        chunk = "\n".join(statement(name, lines) if kind == LEMMA else lines)
        found.append(Item(name, None, chunk, kind))
        if DATA_OR_RECORD.match(chunk):
            found += [Item(part, None, chunk, kind) for part in PART_OF_DATA.findall(chunk)]
    return found


def items_of(path, text):
    """Returns the items of a file by its path in its crate. A file with the proof of one function has none."""
    if path.endswith(".rt"):
        return items_of_code(text)
    if path.startswith("specs/"):
        return items_of_proof(text, SPEC)
    return [] if os.path.basename(path) in OF_A_FUNCTION else items_of_proof(text, LEMMA)


class Reach:
    """Finds the items of a crate and of the libraries below it, given as their texts by path."""

    def __init__(self, texts_by_crate):
        self.items, self.named, self.reached = collections.defaultdict(list), {}, {}
        for crate, texts in sorted(texts_by_crate.items()):
            for path, text in sorted(texts.items()):
                for item in items_of(path, text):
                    self.items[item.name].append((item.owners, (item.text, f"{crate}/{path}", item.kind)))

    def names_in(self, text):
        """Returns the words of an item's text that name items."""
        if text not in self.named:
            self.named[text] = [it for it in words(text) if it in self.items]
        return self.named[text]

    def from_words(self, start):
        """Returns the items that these words reach, each with its text, its place and its kind."""
        start = tuple(word for word in start if word in self.items)
        if start not in self.reached:
            self.reached[start] = Walk(self).reached(start)
        return self.reached[start]


class Walk:
    """Walks once over the items of a `Reach`."""

    def __init__(self, reach):
        # For each word, the kinds that the walk looked up for it, and the methods that wait for a name of their owner.
        self.reach, self.kinds, self.waiting = reach, {}, collections.defaultdict(list)
        self.found, self.left = set(), []

    def reached(self, start):
        for word in (*start, ALWAYS):
            self.look_up(word, EVERY)
        for word in UNNAMED:
            self.look_up(word, FUNCTION)
        while self.left:
            word, kinds = self.left.pop()
            for item in self.waiting.pop(word, ()):
                self.add(item)
            for owners, item in self.reach.items.get(word, ()):
                if item[2] & kinds:
                    self.add_owned(owners, item)
        return self.found

    def look_up(self, word, kinds):
        known = self.kinds.get(word, 0)
        if kinds & ~known:
            self.kinds[word] = known | kinds
            self.left.append((word, kinds & ~known))

    def add_owned(self, owners, item):
        if owners is None or not owners.isdisjoint(self.kinds):
            self.add(item)
        else:
            for owner in owners:
                self.waiting[owner].append(item)

    def add(self, item):
        if item not in self.found:
            self.found.add(item)
            for word in self.reach.names_in(item[0]):
                self.look_up(word, NAMES_OF[item[2]])
