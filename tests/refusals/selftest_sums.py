"""Rows for tests/refusals/selftest: which changes give a wrong body another sum, and what the ledger and its draws do.

The rows use a crate of two functions over a library of one function. Nothing of them is checked, since texts alone give the sums.
"""
import os
import subprocess
import tempfile

import edits
import ledger
import sums

ROOT = """//! Two functions over a library.
#![tactic(auto)]

ghost use Rattle.tried.specs.Words.{After};

use low::step;

/// The number after `n`.
#[tactic(auto, using(crate::proofs::Steps::stepped))]
pub fn next(n: u8) -> u8
    requires within { n < 200 }
    ensures next { After n result }
{
    step(n)
}

/// The number itself.
pub fn same(n: u8) -> u8
    ensures same { result ≡ n }
{
    n
}
"""
WORDS = """use Rattle.std.specs.Prelude.{◌≡◌, ◌+◌, ℕ}

-- m comes after n
abbrev pub After : ℕ → ℕ → Type 0
After n m = m ≡ n + one

-- how far after
abbrev pub one : ℕ
one = 1
"""
LOW = """//! One function.
#![tactic(auto)]

/// The number after `n`.
pub fn step(n: u8) -> u8
    requires { n < 255 }
    ensures { result ≡ n + 1 }
{
    n + 1
}
"""
STEPS = """use Rattle.tried.specs.Words.{After}

-- a step leads to the number after
pub stepped : (n m : ℕ) → m ≡ n + 1 → After n m
stepped n m it = it
"""
ANSWER = """use Rattle.tried.proofs.next.Goals as goal

pub returns : goal.returns
returns c = c.step.ensures
"""
TEXTS = {"tried/src/lib.rt": ROOT, "tried/specs/Words.antt": WORDS, "tried/proofs/Steps.antt": STEPS, "tried/proofs/next/Answers.antt": ANSWER,
         "tried/proofs/same/Answers.antt": ANSWER, "low/src/lib.rt": LOW}
EDIT = edits.Edit("wrong", "next", ["returns"], [edits.Change("src/lib.rt", "    step(n)\n", "    n\n")])
# Each change, the file that it changes, and whether the edit then has another sum.
CHANGES = [
    ("another_body", "tried/src/lib.rt", "    step(n)\n", "    let n = n;\n    step(n)\n", True),
    ("another_contract", "tried/src/lib.rt", "n < 200", "n < 199", True),
    ("another_tactic", "tried/src/lib.rt", "::stepped))", "::stepped), cycle)", True),
    ("another_tactic_of_the_crate", "tried/src/lib.rt", "#![tactic(auto)]", "#![tactic(manual)]", True),
    ("another_import", "tried/src/lib.rt", "use low::step;", "use std::step;", True),
    ("another_import_of_a_clause", "tried/src/lib.rt", "tried.specs.Words.{After}", "low.specs.Words.{After}", True),
    ("another_definition", "tried/specs/Words.antt", "m ≡ n + one", "n + one ≡ m", True),
    ("another_definition_behind_it", "tried/specs/Words.antt", "one = 1", "one = 2", True),
    ("another_statement", "tried/proofs/Steps.antt", "→ After n m", "→ After m n", True),
    ("another_answer", "tried/proofs/next/Answers.antt", "c.step.ensures", "c.step.ensures.tells", True),
    ("another_contract_below", "low/src/lib.rt", "n < 255", "n < 254", True),
    ("a_comment", "tried/src/lib.rt", "/// The number after `n`.", "/// One more.", False),
    ("a_comment_of_a_definition", "tried/specs/Words.antt", "-- how far after", "-- how far", False),
    ("another_function", "tried/src/lib.rt", "{\n    n\n}", "{\n    n + 0\n}", False),
    ("a_contract_that_is_not_reached", "tried/src/lib.rt", "result ≡ n }", "n ≡ result }", False),
    ("a_proof_of_a_lemma", "tried/proofs/Steps.antt", "stepped n m it = it", "stepped n m it = search", False),
    ("a_proof_of_another_function", "tried/proofs/same/Answers.antt", "c.step.ensures", "search", False),
    ("a_body_below", "low/src/lib.rt", "    n + 1\n", "    1 + n\n", False),
]


def sum_with(texts=None, edit=EDIT, row=(["low"], False), judge="judge"):
    of = {"tried": {}, "low": {}}
    for path, text in (texts or TEXTS).items():
        crate, _, inside = path.partition("/")
        of[crate][inside] = text
    return sums.of_crate("tried", [edit], of["tried"], {"low": of["low"]}, row, judge)["wrong"]


def write(path, text):
    os.makedirs(os.path.dirname(path), exist_ok=True)
    with open(path, "w", encoding="utf-8") as it:
        it.write(text)


def changes():
    """Yields each change, and whether the edit has the sum that it must have."""
    before = sum_with()
    for name, path, old, new, is_other in CHANGES:
        assert TEXTS[path].count(old) == 1, name
        yield f"{name}_{'misses' if is_other else 'hits'}", (sum_with({**TEXTS, path: TEXTS[path].replace(old, new)}) != before) == is_other
    yield "another_edit_of_that_name_misses", sum_with(edit=EDIT._replace(refused=["returns-clause-next"])) != before
    yield "another_row_of_the_crate_misses", sum_with(row=(["low"], True)) != before
    yield "another_judge_misses", sum_with(judge="another") != before
    # If an edit reaches beyond one function, every text counts.
    wide = EDIT._replace(changes=[*EDIT.changes, edits.Change("src/lib.rt", "use low::step;\n", "")])
    other = {**TEXTS, "low/src/lib.rt": LOW.replace("    n + 1\n", "    1 + n\n")}
    yield "a_body_below_misses_where_an_edit_is_wide", sum_with(other, wide) != sum_with(edit=wide)


def judges(room):
    """Checks the sum of the judge with other sources and with another kit."""
    folder, kit = f"{room}/runner", f"{room}/kit"
    for name in sums.JUDGE:
        write(f"{folder}/{name}", "as it was")
    for name in sums.KIT:
        write(f"{kit}/{name}", "as it was")
    before = sums.sum_of_judge(folder, kit)
    for path in (f"{folder}/checks.py", f"{folder}/edits.py", f"{kit}/KIT-ID"):
        write(path, "another")
        yield f"another_{os.path.basename(path)}_misses", sums.sum_of_judge(folder, kit) != before
        write(path, "as it was")
    write(f"{folder}/run", "another")
    yield "another_printer_of_verdicts_hits", sums.sum_of_judge(folder, kit) == before


def checkouts(room):
    """Checks that the sum of an edit in a checkout does not depend on how the libraries there were built."""
    write(f"{room}/crates.txt", "tried: low\nlow:\n")
    for path, text in TEXTS.items():
        write(f"{room}/crates/{path}", text)
    write(f"{room}/crates/tried/must-not-prove/wrong.edit", "function: next\nrefused: returns\nfile: src/lib.rt\nold:     step(n)\nnew:     n\n")
    before = sums.of_repository(["tried"], room)
    edit = EDIT._replace(changes=[edits.Change("src/lib.rt", "    step(n)", "    n")])
    yield "the_sum_of_files_is_that_of_their_texts", before == {("tried", "wrong"): sum_with(edit=edit, judge=sums.sum_of_judge())}
    write(f"{room}/crates/low/out/rlib/low.rlib/format", "as somebody built it")
    yield "a_library_that_another_command_built_hits", sums.of_repository(["tried"], room) == before


def lines(room):
    """Checks how lines of a ledger are written and read."""
    of = {"a": 32 * "a", "b": 32 * "b", "c": 32 * "c"}
    ledger.write("tried", {"a": of["a"], "b": of["b"]}, [], of, room)
    yield "refusals_are_kept", ledger.kept(room) == {("tried", "a", of["a"]), ("tried", "b", of["b"])}
    ledger.write("tried", {"c": of["c"]}, ["b"], of, room)
    yield "what_failed_is_kept_no_more", ledger.kept(room) == {("tried", "a", of["a"]), ("tried", "c", of["c"])}
    ledger.write("tried", {}, [], {**of, "a": 32 * "d"}, room)
    yield "a_line_of_another_sum_is_kept_no_more", ledger.kept(room) == {("tried", "c", of["c"])}
    path = f"{room}/{ledger.FOLDER}/tried"
    write(path, f"<<<<<<< ours\na {of['a'][:-1]}\nb {of['b']} b\nc {of['c']}\n")
    yield "a_damaged_line_counts_for_nothing", ledger.kept(room) == {("tried", "c", of["c"])}


def git(room, *words, date=0):
    dates = {it: f"{1_700_000_000 + date} +0000" for it in ("GIT_AUTHOR_DATE", "GIT_COMMITTER_DATE")}
    who = ["-c", "user.name=tests", "-c", "user.email=tests@localhost", "-c", "commit.gpgsign=false"]
    return subprocess.run(["git", "-C", room, *who, *words], env={**os.environ, **dates}, check=True, capture_output=True, text=True).stdout


def commits(room):
    """Checks which lines a change brings, on a branch and in a clone of a repository that has it."""
    of = {it: 32 * it for it in "abcd"}

    def commit(names, date):
        ledger.write("tried", {it: of[it] for it in names}, [], of, room)
        git(room, "add", ".")
        git(room, "commit", "-qm", names, date=date)

    git(room, "init", "-qb", "main")
    yield "with_no_commit_all_is_brought", not ledger.older(room)
    commit("a", 0)
    yield "of_a_young_history_all_is_brought", not ledger.older(room)
    commit("b", 2 * ledger.SECONDS_OF_A_DAY)
    yield "a_line_of_a_day_before_is_not_brought", ledger.older(room) == {("tried", "a", of["a"])}
    git(room, "update-ref", "refs/remotes/origin/main", "HEAD~1")
    commit("c", 4 * ledger.SECONDS_OF_A_DAY)
    yield "lines_since_the_landed_main_are_brought", ledger.older(room) == {("tried", "a", of["a"])}
    git(room, "update-ref", "refs/remotes/origin/main", "HEAD")
    yield "lines_of_a_day_are_brought_where_main_has_them", ledger.older(room) == {("tried", "a", of["a"]), ("tried", "b", of["b"])}


def plans():
    """Checks what a plan tries of ten edits: one has no line, two are brought, and three are drawn."""
    of = {("tried", name): 32 * name for name in "abcdef0123"}
    all_lines = {(*key, it) for key, it in of.items()}
    old = {it for it in all_lines if it[1] not in "bc"}
    plan = ledger.Plan(of, {it for it in all_lines if it[1] != "a"}, old, "seed", 3)
    yield "what_has_no_line_is_tried", plan.without_line == [("tried", "a")]
    yield "what_is_brought_is_tried", sorted(plan.brought) == [("tried", "b"), ("tried", "c")]
    yield "of_the_rest_some_are_drawn", len(plan.drawn) == 3 and all((*key, of[key]) in old and key[1] != "a" for key in plan.drawn)
    drawn = {tuple(ledger.Plan(of, all_lines, old, str(seed), 3).drawn) for seed in range(20)}
    yield "another_commit_draws_others", len(drawn) > 1
    wide = {(crate, f"{name:02}"): 32 * "a" for crate in ("one", "other") for name in range(30)}
    order = ledger.Plan(wide, {(*key, it) for key, it in wide.items()}, set(), "seed").brought
    turns = sum(one[0] != other[0] for one, other in zip(order, order[1:]))
    yield "handfuls_of_a_crate_come_together", sorted(order) == sorted(wide) and 1 <= turns <= 5 and order != sorted(order)
    forged = ledger.Plan(of, all_lines, all_lines, "seed", len(of))
    yield "a_forged_line_is_among_what_can_be_drawn", ("tried", "a") in forged.drawn


def rows():
    """Yields each row's name, and whether it is as it must be."""
    yield from changes()
    yield from plans()
    for part in (judges, checkouts, lines, commits):
        with tempfile.TemporaryDirectory() as room:
            yield from part(room)
