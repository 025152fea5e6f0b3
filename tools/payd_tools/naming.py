"""What the program says of a group's books, with the names of members and files beside its numbers."""

from __future__ import annotations

import re

from payd_tools.groups import Group

# Which words of a line are places of exports, by the word that says its kind, which is its first or its second.
OF_EXPORTS = {
    "differs": (1,),
    "beyond": (1,),
    "genesis": (2,),
    "front": (2,),
    "balance": (2,),
    "twice": (2, 3),
    "fork": (2, 3),
}
# Amounts, by the word before them; and the lines whose last number is one: those of a statement, and of a book those of
# an account and of all.
AMOUNT, LAST = re.compile(r"\b(amount|short) (\d+)"), re.compile(r"((?:out|in|end|account|total)\b.*) (\d+)")
# The balances that an audit tells of, which says `says` and `right` of fronts too.
BALANCES, SAID = "3 balance account ", re.compile(r"\b(says|right) (\d+)")
# The words before a member's number, anywhere in a line and at its beginning.
MEMBER = re.compile(r"\b(?:account|owner|to) (\d+)|^(?:end|in) (\d+)")
# Where the files begin that a line of `payd audit --all` names.
FILES = " in "


def with_files(line: str, exports: list[str]) -> str:
    """Returns a line of `payd audit` or `payd book` with the files of the exports that it is about."""
    words = line.split(" ")
    kind = next((it for it in words[:2] if it in OF_EXPORTS), None)
    # (what says an account in place of an export is of `payd audit --all`, and names its files)
    places = [words[it] for it in OF_EXPORTS.get(kind, ()) if words[it].isdigit() and FILES not in line]
    return f"{line} ({', '.join(exports[int(it)] for it in places)})" if places else line


def named(group: Group, line: str) -> str:
    """Returns a line of `payd audit`, `payd book` or `payd statement` with its members' names, and amounts in their
    unit."""
    said, behind, files = line.partition(FILES) if not line.startswith("in ") else (line, "", "")
    for pattern in (AMOUNT, *[SAID] * said.startswith(BALANCES)):
        said = pattern.sub(lambda it: f"{it[1]} {group.unit.text(int(it[2]))}", said)
    last = LAST.fullmatch(said)
    said = f"{last[1]} {group.unit.text(int(last[2]))}" if last else said
    return MEMBER.sub(lambda it: with_name(group, it), said) + behind + files


def with_name(group: Group, found: re.Match) -> str:
    """Returns the words that name a member, with the member's name behind its number."""
    member = int(found[1] or found[2])
    is_one = group.names is not None and member < group.members
    return f"{found[0]} {group.names[member]}" if is_one else found[0]
