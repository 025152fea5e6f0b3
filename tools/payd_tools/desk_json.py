"""The answers of a desk as JSON: one object for each line that is given, whatever its answer has of lines."""

from __future__ import annotations

import re
from typing import Any, Iterable

# Of each line of an answer its words, and what the object calls its numbers. Texts are behind the last blank.
FIRST = (
    (re.compile(r"asked (\d+) seq (\d+)"), "asked", ("id", "seq")),
    (re.compile(r"balance (\d+) (\d+)"), "balance", ("account", "amount")),
    (re.compile(r"state (\d+) (\d+) ([a-z]+)"), "state", ("account", "seq", "state")),
    (re.compile(r"refused (\d+) ([A-Za-z]+)"), "refused", ("number", "name")),
)
ITEMS = (
    (re.compile(r"out (\d+) to (\d+) (\d+)"), "out", ("seq", "to", "amount")),
    (re.compile(r"void (\d+)"), "void", ("seq",)),
    (re.compile(r"in (\d+) (\d+) (\d+)"), "in", ("from", "seq", "amount")),
    (re.compile(r"(?:entry|waiting) \d+ (\d+) seq (\d+) to (\d+) (\d+)"), "payment", ("entry", "seq", "to", "amount")),
    (re.compile(r"(?:entry|waiting) \d+ (\d+) seq (\d+) void"), "void", ("entry", "seq")),
    (re.compile(r"(?:entry|waiting) \d+ (\d+) seq (\d+) note (.*)"), "note", ("entry", "seq", "note")),
)
# The last lines of answers that have several, by the question.
ENDS = {
    "STATEMENT": (re.compile(r"end (\d+) balance (\d+)"), "statement", ("account", "balance")),
    "ENTRIES": (re.compile(r"end (\d+) (\d+)"), "entries", ("account", "next")),
    "WAITING": (re.compile(r"end (\d+) short (\d+)"), "waiting", ("account", "short")),
}
TEXTS = "state", "name", "note"


def said_in(kinds: Iterable[tuple[re.Pattern[str], str, tuple[str, ...]]], line: str, kind_is: str) -> dict[str, Any]:
    """Returns the object of a line, by the first of these kinds that it is."""
    for pattern, kind, names in kinds:
        if found := pattern.fullmatch(line):
            parts = zip(names, found.groups())
            return {kind_is: kind, **{name: it if name in TEXTS else int(it) for name, it in parts}}
    raise ValueError(f"{line!r} is no answer that this version of payd send knows")


def object_of(question: str, answer: list[str]) -> dict[str, Any]:
    """Returns the object of the lines that answer a question."""
    if answer[0].startswith("front "):
        return {"answer": "front", "fronts": [int(it) for it in answer[0].split()[1:]]}
    word = question.split(" ")[0]
    if word not in ENDS or answer[0].startswith("refused "):
        return said_in(FIRST, answer[0], "answer")
    end = said_in([ENDS[word]], answer[-1], "answer")
    return {**end, "items": [said_in(ITEMS, it, "kind") for it in answer[:-1]]}
