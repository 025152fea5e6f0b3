"""The parts of pages that the sources give: each stands between two comments, of which the first names it."""

from __future__ import annotations

import re
from typing import Iterator

from payd_tools.repository import about, completions
from payd_tools.repository.definitions import rests_on
from payd_tools.repository.inventory import Crate, Function, files_below, marks_of, read_file
from payd_tools.repository.toolchain import TOP

MADE = re.compile(r"(<!-- made by tools/contracts: (.*?) -->\n)(.*?)(<!-- end -->\n)", re.DOTALL)
# A row of a table of guarantees: its name, and the one by which the sources' comments mark it if that is another.
ROW = re.compile(r"^\| \*\*([^*]+)\*\*(?: \(marked `([^`]+)`\))?:", re.MULTILINE)
PROMISES = "docs/guarantees.md"


def pages() -> list[str]:
    return ["README.md", *(f"docs/{it}" for it in files_below(f"{TOP}/docs", ".md"))]


def remade(text: str, crates: list[Crate]) -> str:
    """Returns a page with its parts as the sources give them now."""
    return MADE.sub(lambda it: it[1] + part(it[2], crates) + it[4], text)


class NoPart(Exception):
    """A part that the sources don't give."""


def part(name: str, crates: list[Crate]) -> str:
    kind, _, argument = name.partition(" ")
    try:
        return "".join(f"{line}\n" for line in KINDS[kind](crates, argument))
    except (KeyError, OSError, ValueError, RuntimeError) as why:
        raise NoPart(f"the sources don't give the part {name}: {why}") from why


def names_of_promises() -> dict[str, str]:
    """Returns the names of all guarantees as their page shows them, in its order, by those of the marks."""
    return {marked or shown: shown for shown, marked in ROW.findall(read_file(f"{TOP}/{PROMISES}"))}


def promises() -> list[str]:
    """The names by which the sources mark the guarantees, in the order of their page."""
    return list(names_of_promises())


# ---- the clauses that carry a promise


def clauses_of_promises(crates: list[Crate], _: str) -> Iterator[str]:
    """Yields a line for each promise, with the calls and laws that carry it."""
    for promise, shown in names_of_promises().items():
        yield f"- **{shown}**: {'; '.join(carried_by(promise, crates))}"


def carried_by(promise: str, crates: list[Crate]) -> Iterator[str]:
    """Yields what of each crate carries a promise."""
    for crate in crates:
        marked = [(it, clauses) for it in crate.functions for name, clauses in it.marks if name == promise]
        if marked:
            yield f"{crate.name} {', '.join(carrier(*it) for it in marked)}"


def carrier(function: Function, clauses: list[str]) -> str:
    """Returns a function, and what it is marked with of its clauses, or all."""
    kind = "law " if function.is_law else "" if function.is_public or function.trait else "private "
    named = ", ".join(f"`{it}`" for it in clauses or function.ensures if it)
    return f"{kind}`{function.called()}`" + (f" ({named})" if named else "")


# ---- definitions, crates, and what the program and the tools say of themselves


def begun_small(text: str) -> str:
    """Returns a text without its first capital, unless that is all of a name."""
    return text[:1].lower() + text[1:] if text[1:2].islower() or text.startswith("A ") else text


def definitions(_: object, files: str) -> Iterator[str]:
    """Yields what the comments `page: ..` above definitions say, of these files as `pay_book/Front`."""
    for crate, _, name in (it.partition("/") for it in files.split()):
        yield from (f"- {it}" for it in said_as("page", read_file(f"{TOP}/crates/{crate}/specs/{name}.antt")))


def rests(_: object, place: str) -> Iterator[str]:
    """How many definitions one rests on, as `pay_world HeadlineLaws HeadlineHolds`, and a line for each crate."""
    found = rests_on(*place.split())
    yield f"These are {sum(map(len, found.values()))} definitions:\n"
    for crate, names in found.items():
        yield f"- `{crate}`: {', '.join(f'`{it}`' for it in names)}"


def said_as(kind: str, text: str) -> Iterator[str]:
    """Yields what a source's comments of this kind say, which begin with its name and go on further in."""
    for said in re.findall(rf"^ *(?:--|//) {kind}: (.*\n(?: *(?:--|//)   .*\n)*)", text, re.MULTILINE):
        yield " ".join(re.sub(r"\n *(?:--|//)", " ", said).split())


def crates_list(crates: list[Crate], _: str) -> Iterator[str]:
    """Yields a line for each crate, with what it is for."""
    for crate in crates:
        yield f"- `{crate.name}`: {begun_small(crate.about)}"


def commands(_: object, __: object) -> Iterator[str]:
    """Yields a line for each command of the program, with its words, plain ones last, and what it does in short."""
    said = about.commands_in(about.texts())
    for name, _ in about.MADE.findall(about.read("words")):
        options, plain = about.words_of(name)
        words = [" ".join(it.strip("<>") for it in shown) for shown, _, _ in options]
        words = [it if is_needed else f"[{it}]" for it, (_, _, is_needed) in zip(words, options)]
        # (`<FILE>...` is FILE.., and `[LINE]...` is [LINE..])
        words += [re.sub(r"^<(.*)>", r"\1", re.sub(r"(\]?)\.\.\.$", r"..\1", shown)) for shown, _ in plain]
        yield f"- `{' '.join([name, *words])}`: {begun_small(said[name].partition(', ')[0])}"


def help_of(_: object, command: str) -> Iterator[str]:
    """Yields what `--help` says of a command of the program."""
    yield f"```text\n{about.texts()[f'{command.upper()}_HELP']}\n```"


def tools(_: object, __: object) -> Iterator[str]:
    """Yields a line for each tool, with what it is for and its status, of what it says of itself."""
    for name in completions.WORD.findall(read_file(f"{TOP}/tools/words")):
        first, *more = read_file(f"{TOP}/tools/payd_tools/{name.replace('-', '_')}.py").split('"""')[1].split("\n\n")
        statuses = [it for text in more for it in re.findall(r"\b(?:Status: |The status )[^\0]*", text)]
        said = " ".join(" ".join([first, *statuses]).split())
        yield f"- `{name}`: {begun_small(said)}"


KINDS = {
    "clauses": clauses_of_promises,
    "commands": commands,
    "crates": crates_list,
    "definitions": definitions,
    "help": help_of,
    "rests": rests,
    "tools": tools,
}


# ---- what is amiss


def faults_of_marks(crates: list[Crate], names: list[str]) -> Iterator[str]:
    """Yields the marks that name no promise, no clause of their function, or stand above none; and promises without
    any."""
    marked = set()
    for crate in crates:
        folder = f"{TOP}/crates/{crate.name}/src"
        lines = [line for it in files_below(folder, ".rt") for line in read_file(f"{folder}/{it}").splitlines()]
        if sum(len([*marks_of(line)]) for line in lines) != sum(len(it.marks) for it in crate.functions):
            yield f"{crate.name}: a promise is named above what is no function"
        for function in crate.functions:
            for promise, clauses in function.marks:
                marked.add(promise)
                if promise not in names:
                    yield f"{crate.name}: {function.path()}: there is no promise {promise}"
                for it in set(clauses) - {*function.ensures, *function.asks}:
                    yield f"{crate.name}: {function.path()} has no clause {it}"
    for promise in names:
        if promise not in marked:
            yield f"{PROMISES}: nothing is marked with {promise}"


def faults_of_pages(crates: list[Crate]) -> Iterator[str]:
    """Yields the pages whose parts aren't those that the sources give, and comments that are in none."""
    for page in pages():
        text = read_file(f"{TOP}/{page}")
        if len(MADE.findall(text)) != text.count("<!-- ") / 2:
            yield f"{page}: a comment begins or ends no part"
        if remade(text, crates) != text:
            yield f"{page}: isn't what the sources give: tools/contracts --write makes it anew"
