"""Prints what the sources say of their contracts, as a page of Markdown, and makes parts of the documents of it.

usage: tools/contracts [CRATE..]
       tools/contracts --check
       tools/contracts --write

The page has of each crate its public functions with the names of their clauses and the mutants that the prover has to
kill of each, with the layer that a mutant tests; of the crates named, or of all.

A document's parts stand between comments `made by tools/contracts: PART` and `end`, as the module `parts` makes them:
--write makes them anew, --check says which aren't what the sources give.

Each fails where a comment `promise: NAME (CLAUSE, ..)` above a function names a promise or a clause that isn't there.
"""

from __future__ import annotations

from typing import Iterator


from payd_tools import usage
from payd_tools.repository.inventory import Crate, Function, read_crates, read_file
from payd_tools.repository.parts import NoPart, faults_of_marks, faults_of_pages, pages, promises, remade
from payd_tools.repository.toolchain import TOP


def page(crate: Crate) -> Iterator[str]:
    """Yields a table of a crate's public functions, and of the others that a mutant changes."""
    mutants: dict[str, list[str]] = {}
    for it in crate.mutants:
        said = f"`{it.name}`" + "".join(f" ({promise})" for promise in it.promises)
        for function in it.functions:
            mutants.setdefault(function, []).append(said)
    yield f"## {crate.name}\n\n| function | clauses | mutants |\n|---|---|---|"
    for it in crate.functions:
        if it.path() in mutants or it.is_public and not it.is_test:
            of_whom = "law " if it.is_law else "" if it.is_public or it.trait else "own "
            yield f"| {of_whom}`{it.called()}` | {clauses(it)} | {', '.join(mutants.get(it.path(), []))} |"


def clauses(function: Function) -> str:
    """Returns what a function asks and ensures, by the names of its clauses."""
    ensured, asked = ([f"`{it}`" if it else "unnamed" for it in names] for names in (function.ensures, function.asks))
    return "; ".join([", ".join(ensured)] * bool(ensured) + [f"asks {', '.join(asked)}"] * bool(asked))


def write_pages(crates: list[Crate]) -> None:
    """Makes the documents' parts anew."""
    for page in pages():
        was = read_file(f"{TOP}/{page}")
        text = remade(was, crates)
        if text != was:
            with open(f"{TOP}/{page}", "w", encoding="utf-8") as file:
                file.write(text)


@usage.tool()
def main() -> int:
    options = ["--check"], ["--write"]
    words = usage.read_words(__doc__, lambda words: words in ([], *options) or usage.are_names(words))
    crates = read_crates()
    names = {it.name for it in crates} if words in ([], *options) else {*words}
    unknown = sorted(names - {it.name for it in crates})
    if unknown:
        usage.refuse(f"tools/contracts: there is no crate {unknown[0]}")
    faults = [*faults_of_marks(crates, promises())]
    try:
        if words == ["--write"]:
            write_pages(crates)
        elif words == ["--check"]:
            faults += faults_of_pages(crates)
    except NoPart as why:
        faults.append(why)
    if words not in options and not faults:
        shown = ["\n".join(page(it)) for it in crates if it.name in names]
        print("A mutant tests the clauses of its function. *own* is a function private to its crate; a method of a")
        print("trait has the trait's clauses besides those that are named. *asks* is a `requires`.\n")
        print("\n\n".join(shown))
    if faults:
        print(*faults, sep="\n")
    return 1 if faults else 0
