"""Makes copies of a crate that have mutants in them, in which all other functions are stubbed.

A stubbed function never ends, and its proof is a hole, which the prover takes for the proof that is wanted (by
--allow-holes). What calls it is judged by its contract, and the check spends nothing on its proof, which rt ci makes.
All share one hole, since the prover prints the goal of each, which takes it as long as a short proof.

A function stays whole that is constant, that stands in a cycle of calls, that is `main`, or that has its body in a
trait, or in an impl of a trait with type arguments.
"""

from __future__ import annotations

import os
import re
import shutil

from edits import Mutant, functions_in, lines_of, proof_folders, rtlib
from payd_tools.repository.inventory import CLAUSE, Function, read_file

STUB = "    loop {}"
HOLE = """\
pub taken_as_proved {ℓ} : {A : Type ℓ} → A
taken_as_proved = ?
"""
PROOF = """\
use Rattle.{crate}.proofs.{path}.Statement.{{statement}}
use Rattle.{crate}.proofs.TheHole.{{taken_as_proved}}

pub {name}_spec : {{M : Type 1}} → statement M
{name}_spec = taken_as_proved
"""
# Stands beside a clause that is alone, so that its goals are named and made as beside others.
TRUE = "ensures nothing_else { Rattle.std.specs.Prelude.◌≡◌ {A = Rattle.std.specs.Prelude.ℕ} 0 0 }"
PRELUDE = "ghost use Rattle.std.specs.Prelude"


def write_files(folder: str, texts: dict[str, str]) -> None:
    for path, text in texts.items():
        os.makedirs(os.path.dirname(f"{folder}/{path}"), exist_ok=True)
        with open(f"{folder}/{path}", "w", encoding="utf-8") as file:
            file.write(text)


def make_copy(crate, batch: list[Mutant], room: str) -> None:
    """Copies a crate with all mutants of a batch."""
    for part in rtlib.PARTS:
        if os.path.isdir(f"{crate.folder}/{part}"):
            shutil.copytree(f"{crate.folder}/{part}", f"{room}/{part}")
    for file in {it.file for it in functions_in(crate).values()}:
        write_files(room, {f"src/{file}": source_of(crate, file, batch, room)})
    node = f"{room}/proofs/Lib.antt"
    declared = read_file(node) if os.path.isfile(node) else ""
    write_files(room, {"proofs/TheHole.antt": HOLE, "proofs/Lib.antt": f"{declared}mod TheHole\n"})
    for it in batch:
        copy_proofs(crate, it, room)


def source_of(crate, file: str, batch: list[Mutant], room: str) -> str:
    """What a source becomes with the mutants of a batch; puts holes in place of the proofs of those it stubs."""
    lines = [*lines_of(crate, file)]
    for function in reversed([it for it in functions_in(crate).values() if it.file == file]):
        mutants = [it for it in batch if it.of is function]
        lines[function.lines.stop : function.lines.stop] = [twin_of(crate, it) for it in mutants if it.ending]
        own = [it.body for it in mutants if not it.ending]
        if own or can_be_stubbed(function, lines):
            lines[function.body.start : function.body.stop] = own or [STUB]
            if not own:
                stub_proof(crate, room, function.path())
    text = "\n".join(lines) + "\n"
    # (the clause that stands beside one alone is written by its whole path)
    if TRUE in text and PRELUDE not in text:
        text = re.sub("(?m)^ghost use ", f"{PRELUDE};\nghost use ", text, count=1)
    return text


def can_be_stubbed(function: Function, lines: list[str]) -> bool:
    inside = function.inside
    is_named = not inside.is_trait and inside.of_trait == inside.trait != "Drop" and inside.owner != "Any"
    is_cycle = any("#[cycle" in it for it in lines[function.lines.start : function.body.start])
    return is_named and not (function.is_const or is_cycle or function.name == "main")


def stub_proof(crate, room: str, function: str) -> None:
    """Puts a hole in place of a function's proof files, and drops those of its closures."""
    for folder in proof_folders(function):
        shutil.rmtree(f"{room}/{folder}", ignore_errors=True)
    proof = PROOF.format(crate=crate.name, path=function.replace("::", "."), name=function.rpartition("::")[2])
    write_files(room, {f"{proof_folders(function)[0]}/Proof.antt": proof})


def twin_of(crate, mutant: Mutant) -> str:
    """Returns a twin of a function with the body of a mutant, with the empty line before it. It ensures only the clause
    that has to kill it, where the mutant names one."""
    of, lines = mutant.of, lines_of(crate, mutant.of.file)
    head = "\n".join(lines[of.lines.start : of.body.start])
    head = re.sub(rf"\bfn {of.name}\b", f"fn {of.name}{mutant.ending}", head, count=1)
    if mutant.own_clause():
        head = with_one_clause(head, mutant.own_clause())
    return "\n".join(["", head, mutant.body, lines[of.body.stop]])


def with_one_clause(head: str, clause: str) -> str:
    """A function's head that ensures this clause alone."""
    clauses = [it for it in CLAUSE.finditer(head) if it[1] == "ensures"]
    start, rest = clauses[0].start(), head
    for begun in reversed(clauses):
        depth, at = 1, begun.end()
        while depth:
            depth += {"{": 1, "}": -1}.get(head[at], 0)
            at += 1
        rest = rest if begun[2] == clause else rest[: begun.start()] + rest[at:].removeprefix("\n")
    indent = re.match(" *", head[start:])[0]
    return f"{rest[:start]}{indent}{TRUE}\n{rest[start:]}"


def copy_proofs(crate, mutant: Mutant, room: str) -> None:
    """Gives a twin the proof files of its function, without the answers to clauses that it doesn't ensure. A whole body
    has none."""
    path = mutant.of.path()
    folder, into = proof_folders(path)[0], proof_folders(mutant.function())[0]
    if not (mutant.has_proofs or mutant.ending):
        shutil.rmtree(f"{room}/{folder}", ignore_errors=True)
    has_any = mutant.has_proofs and mutant.ending and os.path.isdir(f"{crate.folder}/{folder}")
    named = re.escape(path.replace("::", "."))
    named = re.compile(rf"(Rattle\.{crate.name}\.(?:proofs|specs\.(?:contracts|declared))\.{named})\b")
    for file in os.listdir(f"{crate.folder}/{folder}") if has_any else []:
        if file.endswith(".antt"):
            text = named.sub(rf"\1{mutant.ending}", read_file(f"{crate.folder}/{folder}/{file}"))
            if mutant.own_clause():
                text = with_answers_to(mutant.own_clause(), text)
            write_files(room, {f"{into}/{file}": text})


def with_answers_to(clause: str, proof: str) -> str:
    """A proof file without the answers to other clauses than this one."""
    other = rf"(?!returns[\w-]*-clause-{clause}(?:-\d+)? :)returns[\w-]*-clause-\w+(?:-\d+)?"
    return re.sub(rf"(?m)^pub {other} :.*\n(?:(?!pub ).*\n?)*", "", proof)
