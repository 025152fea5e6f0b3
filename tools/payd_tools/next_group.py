"""The group that goes on where another one has stopped: who is in it, and with what each account opens."""

from __future__ import annotations

import argparse
import itertools
import json
from collections import namedtuple
from typing import Iterable, Iterator

from payd_tools import signing, usage
from payd_tools.amounts import NoAmount
from payd_tools.groups import Failure, Group

FIRST_PORT = 11000

# A member that joins; no name, no opening and no host are None.
Newcomer = namedtuple("Newcomer", "public name opening host")


def joining(text: str) -> Newcomer:
    """Returns a newcomer, of PUBLIC[:NAME][:OPENING][@HOST]."""
    before, _, host = text.partition("@")
    public, *more = before.split(":")
    opening = more.pop() if more and not more[-1][:1].isalpha() else None
    name = more.pop() if more else None
    if more:
        raise ValueError(text)
    return Newcomer(public, name, opening, host or None)


def of_members(group: Group, pairs: list, what: str) -> dict[int, str]:
    """Returns what is said of each member, by its number, once at most."""
    found = {group.member(word): said for word, said in pairs}
    if len(found) != len(pairs):
        raise Failure(f"a member {what} twice")
    return found


class Next:
    """What is agreed on the next group, of a group and of what is given of the options of `next`."""

    def __init__(self, group: Group, given: argparse.Namespace) -> None:
        self.group, self.joins = group, given.joins
        try:
            self.brought = [0 if it.opening is None else group.unit.read(it.opening) for it in given.joins]
        except NoAmount as why:
            given.reader.error(f"argument --joins: {why}")
        self.heirs = {it: group.member(heir) for it, heir in of_members(group, given.leaves, "leaves").items()}
        self.keys = of_members(group, given.rekeys, "has another key")
        self.faults = group.faults if given.faults is None else given.faults
        for member, heir in self.heirs.items():
            if heir in self.heirs:
                raise Failure(f"member {heir}, who is to get the balance of member {member}, leaves too")
            if member in self.keys:
                raise Failure(f"member {member} leaves, and needs no other key")
        self.stay = [it for it in range(group.members) if it not in self.heirs]

    def of(self, old: list[str] | None, new: list[str | None], name: str) -> dict[str, list[str]]:
        """Returns a list that a group may have, of those that stay and of the newcomers."""
        if old is None:
            if any(it is not None for it in new):
                raise Failure(f"a newcomer has what the group hasn't: {name}")
            return {}
        return {name: [old[it] for it in self.stay] + new}

    def ports(self) -> list[int]:
        """Returns the ports of the members that stay, and for each newcomer the first port that no member had."""
        free = (it for it in itertools.count(FIRST_PORT) if it not in self.group.ports)
        return [self.group.ports[it] for it in self.stay] + list(itertools.islice(free, len(self.joins)))

    def made(self, balances: list[int], drawn: str) -> Group:
        """Returns the next group, of the balances in the book of this one and the bytes that are drawn for it."""
        group, opening = self.group, list(balances)
        for member, heir in self.heirs.items():
            opening[heir] += opening[member]
        parts = {"members": len(self.stay) + len(self.joins), "faults": self.faults, "group": drawn}
        parts.update(opening=[opening[it] for it in self.stay] + self.brought, **group.unit.parts())
        parts["public"] = [self.keys.get(it, group.public[it]) for it in self.stay] + [it.public for it in self.joins]
        parts.update(ports=self.ports(), former=group.digest())
        parts.update(self.of(group.names, [it.name for it in self.joins], "names"))
        parts.update(self.of(group.hosts, [it.host for it in self.joins], "hosts"))
        return Group(parts)

    def told(self, made: Group) -> Iterator[str]:
        """Yields who leaves, has another key, moves up or joins, a line each."""
        called = self.group.called
        for member, heir in self.heirs.items():
            yield f"{called(member)} leaves: its balance goes to {called(heir)}"
        for member in self.keys:
            yield f"{called(member)} has another public key"
        for number, member in enumerate(self.stay):
            if number != member:
                yield f"{called(member)} is member {number} now"
        for number in range(len(self.stay), made.members):
            yield f"{made.called(number)} joins: opens with {made.unit.text(made.opening[number])}, which it brings"


def beyond_own(group: Group, exports: Iterable[tuple[str, signing.Signed]], lists: list[list[str]]) -> Iterator[str]:
    """Yields the accounts of which the book has more than the export of their own member, a line each; of the exports
    by their files' names."""
    for name, it in exports:
        of_book, own = len(lists[it.member]), len(json.loads(it.text)["lists"][it.member])
        if of_book > own:
            whose = group.called(it.member)
            yield f"of {whose} the book has {of_book} values, and that member's own export has {own} ({name})"


def signed_exports(group: Group, given: argparse.Namespace) -> list[signing.Signed]:
    """Returns the exports that are given, each signed by its member; standard error says by whom."""
    found = [signing.read_signed(it, group) for it in given.export]
    for name, it in zip(given.export, found):
        usage.tell(f"{name}: {it.said}", of="")
    if any(it.is_signed is False for it in found):
        raise Failure("an export isn't what its member signed for this group")
    if None in [it.is_signed for it in found] and not given.unsigned:
        raise Failure("whoever brings an export can make up what nobody signed: --unsigned takes it all the same")
    check_are_enough(group, {it.member for it in found}, given.incomplete)
    return found


def check_are_enough(group: Group, members: set[int], is_incomplete: bool) -> None:
    """Checks that these members' exports have all that settled: fewer than 2f + 1 may lack some of it."""
    enough = 2 * group.faults + 1
    if len(members) < enough:
        why = f"exports of fewer than {enough} members may lack payments that settled"
        if not is_incomplete:
            raise Failure(f"{why}, and these are of {len(members)}: --incomplete takes them all the same")
        usage.tell(f"{why}: these are of {len(members)}", of="")


# What a file says of each member, and in words.
OF_EACH = {"opening": "opens with", "names": "is named", "ports": "has port", "hosts": "has host"}


def differences(made: Group, found: Group) -> Iterator[str]:
    """Yields what a group's file has in place of what is made anew, in words."""
    for name in ("faults", "former"):
        one, other = getattr(made, name), getattr(found, name)
        if one != other:
            yield f"{name} is {said(other)} in place of {said(one)}"
    if made.unit.parts() != found.unit.parts():
        yield f"unit is {found.unit.called()} in place of {made.unit.called()}"
    for member, public in enumerate(made.public):
        if public in found.public:
            yield from differences_of(made, member, found, found.public.index(public))
        else:
            yield f"{made.called(member)} isn't in it with its key"
    for member, public in enumerate(found.public):
        if public not in made.public:
            opens = found.unit.text(found.opening[member])
            yield f"{found.called(member)} is in it with a new key, and opens with {opens}"


def differences_of(made: Group, member: int, found: Group, there: int) -> Iterator[str]:
    """Yields the differences of a member, who may have another number there."""
    if there != member:
        yield f"{made.called(member)} is member {there} there"
    for name, words in OF_EACH.items():
        lists = (getattr(made, name), member), (getattr(found, name), there)
        one, other = (given and given[place] for given, place in lists)
        if one != other:
            if name == "opening":
                one, other = made.unit.text(one), found.unit.text(other)
            yield f"{made.called(member)} {words} {said(other)} in place of {said(one)}"


def said(value: str | int | None) -> str | int:
    return "nothing" if value is None else value
