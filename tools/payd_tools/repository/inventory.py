"""Reads what the sources say of themselves: crates, their functions with the names of their clauses, and their mutants.
It needs no toolchain: sources are read as `rt fmt` lays them out."""

from __future__ import annotations

import os
import re
from dataclasses import dataclass
from typing import Iterator

from payd_tools.repository.toolchain import TOP

FUNCTION = re.compile(r"( *)(pub |pub\([a-z]+\) )?(const )?fn (\w+)")
CLAUSE = re.compile(r"^ *(ensures|requires)\*? (?:(\w+) )?\{", re.MULTILINE)
# What a comment right above a function says of it: promises, each with the clauses that carry it, or all.
MARK = re.compile(r" *// promise: (.*)")


@dataclass
class Container:
    """An impl or a trait: its type or own name, the trait that is implemented, and this as the prover names it."""

    owner: str = ""
    trait: str = ""
    of_trait: str = ""
    is_trait: bool = False
    is_public_trait: bool = False


@dataclass
class Function:
    """A function of a crate, and the names of its clauses, '' for one that has none."""

    # Its file, below src/.
    file: str
    inside: Container
    name: str
    is_public: bool
    is_const: bool
    is_test: bool
    # Whether it takes nothing and gives nothing, so that it is there for what it ensures.
    is_law: bool
    # Its lines, with those right above that are about it, by their places in the file.
    lines: range
    # Which of the lines are its body, or None where that is empty or isn't there.
    body: range | None
    asks: list
    ensures: list
    # The promises that it carries, each with the names of the clauses meant, or none for all.
    marks: list

    @property
    def owner(self) -> str:
        """The type or trait that it stands in, or ''."""
        return self.inside.owner

    @property
    def trait(self) -> str:
        """The trait that its owner takes it from, or ''."""
        return self.inside.trait

    def path(self) -> str:
        """Returns the name that the prover has for it, without the crate."""
        module = re.sub(r"^(lib|main)$", "", os.path.splitext(self.file)[0]).replace("/", "::")
        return "::".join(it for it in (module, self.owner + self.inside.of_trait, self.name) if it)

    def called(self) -> str:
        """Returns the name by which a caller calls it."""
        owner = f"{self.owner} as {self.trait}" if self.trait else self.owner
        return f"{owner}::{self.name}" if owner else self.name


@dataclass
class Mutant:
    """A mutant: an edit of a function that the prover has to refuse."""

    name: str
    functions: list
    promises: list


@dataclass
class Crate:
    """A crate, what it stands on, and the first sentence about it."""

    name: str
    stands_on: list
    about: str
    functions: list
    mutants: list


def read_file(path: str) -> str:
    with open(path, encoding="utf-8") as file:
        return file.read()


def first_sentence(comment: list[str]) -> str:
    """Returns the first sentence of a comment's lines, without the end's dot."""
    text = " ".join(it.strip() for it in comment).strip()
    return re.split(r"\.(?: (?=[A-Z`\[(])|$)", text, maxsplit=1)[0].rstrip(".:; ")


def files_below(folder: str, ending: str) -> Iterator[str]:
    """Yields the files below a folder with this ending, by their paths in it."""
    for place, _, files in sorted(os.walk(folder)):
        for file in sorted(files):
            if file.endswith(ending):
                yield os.path.relpath(os.path.join(place, file), folder)


# ---- functions


def container_of(line: str) -> Container | None:
    """Returns what begins with a line, or nothing."""
    trait = re.match(r"(pub |pub\([a-z]+\) )?trait (\w+)", line)
    if trait:
        return Container(owner=trait[2], is_trait=True, is_public_trait=trait[1] == "pub ")
    begun = re.match(r"impl(<)?", line)
    if not begun:
        return None
    head = line[len("impl") :].partition(" where ")[0].partition("{")[0]
    before, is_for, behind = without_brackets(head).partition(" for ")
    if not is_for:
        return Container(owner=last_name(before))
    owner, trait = last_name(behind), last_name(before)
    # a type that the impl leaves open, as in 'impl<T: Read> Input for T'
    owner = "Any" if begun[1] and re.match(rf"<(.*, )?{owner}\b", head) else owner
    argument = re.search(rf"\b{trait}<(\(\)|\w+)", head)
    return Container(owner, trait, trait + ("Unit" if argument[1] == "()" else argument[1]) if argument else trait)


def last_name(path: str) -> str:
    return path.strip().lstrip("&").rpartition("::")[2]


def without_brackets(text: str) -> str:
    """Returns a text without what stands in angle brackets."""
    kept, depth = [], 0
    for letter in text:
        depth += (letter == "<") - (letter == ">")
        if depth == 0 and letter != ">":
            kept.append(letter)
    return "".join(kept)


def read_functions(folder: str) -> Iterator[Function]:
    """Yields the functions of a crate's sources, in their order."""
    for path in files_below(f"{folder}/src", ".rt"):
        yield from functions_of(read_file(f"{folder}/src/{path}"), path)


def functions_of(text: str, file: str) -> Iterator[Function]:
    """Yields the functions of one source."""
    lines = text.splitlines()
    inside = Container()
    for at, line in enumerate(lines):
        # (a head may go on in the next lines)
        begun = container_of(line if line.endswith("{") else " ".join(it.strip() for it in lines[at : at + 3]))
        if begun and not line.startswith(" "):
            inside = begun
        elif line == "}":
            inside = Container()
        named = FUNCTION.match(line)
        if not named or len(named[1]) != (4 if inside.owner else 0):
            continue
        indent, public, const, name = named.groups()
        is_public, is_test = public == "pub " or inside.is_public_trait, lines[at - 1].strip() == "#[test]"
        is_law = bool(re.fullmatch(r"pub fn \w+(<.*>)?\(\)", line))
        first, end, body = first_above(lines, at), *end_of(lines, at, indent)
        place, marks = range(first, body.stop + 1 if body else end), marks_above(lines, at)
        asks, ensures = clauses_in("\n".join(lines[at:end]))
        kind = is_public, bool(const), is_test, is_law
        yield Function(file, inside, name, *kind, place, body, asks, ensures, marks)


def clauses_in(head: str) -> tuple[list[str], list[str]]:
    """Returns the names of the clauses of a function's head: those that it asks, and those that it ensures."""
    found = [(kind, name or "") for kind, name in CLAUSE.findall(head)]
    return [name for kind, name in found if kind == "requires"], [name for kind, name in found if kind == "ensures"]


def first_above(lines: list[str], at: int) -> int:
    """Returns the first of the lines right above a function that are about it: comments and attributes."""
    while at > 0 and lines[at - 1].strip() and not lines[at - 1].endswith(("{", "}", ";")):
        at -= 1
    return at


def end_of(lines: list[str], at: int, indent: str) -> tuple[int, range | None]:
    """Returns the line that ends a function's head, exclusive, and which lines are its body. That begins after a line
    that is indented as its `fn` is and opens a brace, and ends before one that is `}` with this indentation."""
    end = at
    while end < len(lines) and (end == at or re.match(rf"{indent}( |\{{|\)|where\b)|$", lines[end])):
        line, end = lines[end], end + 1
        if not line.startswith(f"{indent} "):
            _, brace, rest = line.partition("{")
            if brace and rest.count("}") <= rest.count("{"):
                return end, range(end, lines.index(f"{indent}}}", end))
            if line.endswith(("}", ";")):
                break
    return end, None


def marks_above(lines: list[str], at: int) -> list[tuple[str, list[str]]]:
    """Returns what the comments right above a line say of it."""
    first = at
    while first > 0 and MARK.match(lines[first - 1]):
        first -= 1
    return [it for line in lines[first:at] for it in marks_of(line)]


def marks_of(line: str) -> Iterator[tuple[str, list[str]]]:
    """Yields the promises that a line names, each with the clauses that it names of it."""
    said = MARK.fullmatch(line)
    for one in said[1].split("; ") if said else []:
        promise, _, clauses = one.rstrip(")").partition(" (")
        yield promise, clauses.split(", ") if clauses else []


# ---- mutants, crates


def read_mutants(folder: str) -> Iterator[Mutant]:
    """Yields a crate's mutants, with those that `rt ci` tries."""
    for kind in "mutants", "must-fail":
        for path in files_below(f"{folder}/{kind}", ".edit"):
            text = read_file(f"{folder}/{kind}/{path}")
            marked = {it: re.findall(rf"(?m)^{it}: (.*\S)", text) for it in ("function", "promise")}
            yield Mutant(os.path.splitext(path)[0], marked["function"], marked["promise"])


def read_crate(name: str, stands_on: list[str]) -> Crate:
    folder = f"{TOP}/crates/{name}"
    root = next(it for it in ("lib.rt", "main.rt") if os.path.isfile(f"{folder}/src/{it}"))
    head = re.match(r"(?://!.*\n)*", read_file(f"{folder}/src/{root}"))[0]
    about = first_sentence([it[len("//!") :] for it in head.partition("\n//!\n")[0].splitlines()])
    functions, mutants = list(read_functions(folder)), list(read_mutants(folder))
    return Crate(name, stands_on, about, functions, mutants)


def read_crates() -> list[Crate]:
    """Returns the crates of the repository, in the order of crates.txt."""
    lines = read_file(f"{TOP}/crates.txt").splitlines()
    named = [it.partition(":") for it in lines if it.strip() and not it.startswith("#")]
    return [read_crate(name, behind.split()) for name, _, behind in named]


def read_promises() -> list[str]:
    """Returns the layers of guarantees, which mutants are marked with, in the order of docs/guarantees.md."""
    table = read_file(f"{TOP}/docs/guarantees.md").partition("| layer | in one line | today |\n")[2]
    return [it.split("|")[1].strip() for it in table.partition("\n\n")[0].splitlines()[1:]]
