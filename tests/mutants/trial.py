"""The trial of this package: edits of a small crate, of which some are harmless, and what has to come of each."""

from __future__ import annotations

import tempfile

from copies import write_files
from edits import in_batches, read_mutants, rtlib
from verdicts import BAD_EDIT, ELSEWHERE, KILLED, SURVIVED, Outcome, Tally, is_whole_answer, try_batch

SOURCE = """\
//! What the trial of mutants tries itself on.
#![tactic(auto)]

ghost use Rattle.std.specs.Prelude.{◌≡◌, ◌+◌, ◌<◌, ◌≤◌};

pub fn same(k: u32) -> u32
    ensures { result ≡ k }
{
    k
}

pub fn next(x: u32) -> u32
    requires { x < 100 }
    ensures { result ≡ x + 1 }
{
    x + 1
}

pub fn second(x: u32) -> u32
    requires { x + 1 < 100 }
    ensures { result ≡ x + 2 }
{
    let before = next(x);
    next(before)
}

pub fn third(x: u32) -> u32
    requires { x + 2 < 100 }
    ensures { result ≡ x + 3 }
{
    let almost = second(x);
    next(almost)
}

pub fn passed_on(k: u32) -> u32
    ensures { result ≡ k }
{
    same(k)
}

pub fn pair(k: u32) -> (u32, u32)
    requires { k < 100 }
    ensures low { result.0 ≡ k }
    ensures high { result.1 ≡ k + 1 }
{
    (same(k), next(k))
}

pub fn pair_above(k: u32) -> (u32, u32)
    requires { k < 99 }
    ensures low { result.0 ≡ k + 1 }
    ensures high { result.1 ≤ 100 }
{
    pair(k + 1)
}

pub trait Five {
    fn five(&self) -> u32
        ensures { result ≡ 5 };
}

pub struct Plain;

impl Five for Plain {
    fn five(&self) -> u32 {
        2 + 3
    }
}
"""

# Proof files: a whole answer, a term, and answers of which one has a step.
ANSWERS = {
    "third": """\
use Rattle.std.proofs.Common.{rules}
use Rattle.fixture.proofs.third.Goals as goal

pub returns : goal.returns
returns c = search rules
""",
    "passed_on": """\
use Rattle.fixture.proofs.passed_on.Goals as goal

pub returns : goal.returns
returns c = c.same.ensures
""",
    "pair_above": """\
use Rattle.std.proofs.Common.{◌≡◌, ◌+◌, arith}
use Rattle.fixture.proofs.pair_above.Goals as goal

pub returns-clause-low : goal.returns-clause-low
returns-clause-low c = omega (arith, c.pair.ensures.low)

pub returns-clause-high : goal.returns-clause-high
returns-clause-high c =
    let step : c.pair.result.1 ≡ c.args.k + 2 = omega (arith, c.pair.ensures.high) in
    omega (arith, step)
""",
}

# Of each edit its function, the old and new text, its clause or '', and what has to come of it.
EDITS = {
    "cannot_be_read": ("same", "    k", "    j", "", BAD_EDIT),
    "harmless": ("same", "    k", "    k + 0", "", SURVIVED),
    "harmless_above_wrong": ("second", "next(before)", "before + 1", "", SURVIVED),
    "old_text_twice": ("second", "before", "x", "", BAD_EDIT),
    "wrong": ("next", "    x + 1", "    x + 2", "", KILLED),
    "wrong_and_unsafe": ("next", "    x + 1", "    x - 1", "", ELSEWHERE),
    "wrong_beside_an_answer": ("third", "next(almost)", "almost", "", KILLED),
    "wrong_beside_a_term": ("passed_on", "    same(k)", "    same(k) / 2", "", ELSEWHERE),
    "wrong_of_a_trait": ("PlainFive::five", "2 + 3", "2 * 3", "", KILLED),
    "what_a_call_requires": ("third", "second(x)", "second(x + 5)", "", ELSEWHERE),
    "what_a_named_call_requires": ("second", "next(before)", "next(before + 98)", "what next requires", KILLED),
    "at_its_clause": ("pair", "next(k))", "next(k) - 1)", "high", KILLED),
    "at_another_clause": ("pair", "same(k),", "same(k) / 2,", "high", SURVIVED),
    "at_its_clause_with_an_answer": ("pair_above", "pair(k + 1)", "pair(k)", "low", KILLED),
    "at_a_step_though_the_clause_holds": ("pair_above", "    pair(k + 1)", "    pair(k)", "high", ELSEWHERE),
    "at_no_clause": ("pair", "next(k))", "next(k) / 2)", "", BAD_EDIT),
}

PROOF = """\
pub returns : goal.returns
returns g c = elim c.if-count [ then w ↦ grind arith | else w ↦ let a = lemma (search rules) in search a ]
"""
# Which of its tactics is an answer to its goal or a case of that.
WHOLE = {"grind": True, "search rules": False, "search a": False}


def try_itself() -> list[str]:
    """Returns what didn't come as it had to."""
    with tempfile.TemporaryDirectory(prefix="mutants-") as top:
        said = try_edits(top)
    found = {it: is_whole_answer(PROOF, 2, PROOF.splitlines()[1].index(it) + 1) for it in WHOLE}
    said += [f"of answers and their steps it makes {found}"] * (found != WHOLE)
    return [f"itself: {it}" for it in said]


def try_edits(top: str) -> list[str]:
    texts = {"crates.txt": "fixture:\n", "crates/fixture/src/lib.rt": SOURCE}
    texts |= {f"crates/fixture/proofs/{name}/Answers.antt": text for name, text in ANSWERS.items()}
    for name, (function, old, new, clause, _) in EDITS.items():
        mark = f"clause: {clause}\n" if clause else ""
        edit = f"function: {function}\n{mark}old: {old}\nnew: {new}\n"
        texts[f"crates/fixture/mutants/{name}.edit"] = edit
    write_files(top, texts)
    (crate,) = rtlib.crates_below(top)
    mutants, bad = read_mutants(crate)
    # (what can't be read has its batch halved again and again, so that few stand in it)
    of_same = [it for it in mutants if it.function() == "same"]
    tally = Tally()
    for batch in in_batches([it for it in mutants if it not in of_same]) + in_batches(of_same):
        tally.add(try_batch(crate, batch))
    came = tally.outcomes + [Outcome(name, BAD_EDIT, why) for name, why in bad.items()]
    if sorted(it.mutant for it in came) != sorted(EDITS):
        return ["some edits have no verdict, or two"]
    missed = [it for it in came if it.verdict != EDITS[it.mutant][-1]]
    return [f"{it.mutant}: {it.verdict}, and not {EDITS[it.mutant][-1]}: {it.said}" for it in missed]
