"""What the program says of exports, and what is read of their lists beside it."""

from __future__ import annotations

import functools
import itertools
import subprocess
import tempfile
from array import array
from collections import namedtuple
from typing import Iterator

from payd_tools import nearby_program, notes, usage, values
from payd_tools.amounts import Unit
from payd_tools.groups import GENESIS, Group, about, object_in
from payd_tools.times import Times, read_times
from payd_tools.usage import Failure

# A settled entry of an owner: its number among the owner's entries, its seq, and payee and amount, or None where it
# moves nothing. One that waits has the same.
Entry = namedtuple("Entry", "owner number seq payee amount")


def said(*words: str, folder: str | None = None) -> str:
    """Returns what the program prints, run in this folder."""
    return "".join(lines_said(*words, folder=folder))


def lines_said(*words: str, folder: str | None = None) -> Iterator[str]:
    """Yields the lines that the program prints, as they come. Whoever takes no more of them ends it."""
    program = nearby_program.program()
    with tempfile.TemporaryFile("w+", encoding="utf-8", errors="replace") as errors:
        how = {"stdin": subprocess.DEVNULL, "stdout": subprocess.PIPE, "stderr": errors, "cwd": folder, "text": True}
        with subprocess.Popen([program, *words], **how) as child:
            try:
                yield from child.stdout
            except GeneratorExit:
                child.kill()
                raise
        if child.returncode not in (0, 1) or (child.returncode == 1 and words[0] not in ("audit", "book")):
            errors.seek(0)
            why = nearby_program.reason_in(errors.read())
            raise Failure(why or f"payd {words[0]} ends with status {child.returncode}")


class Entries:
    """Entries of an owner, one after the other from a number on, in a few bytes each."""

    def __init__(self, owner: int, start: int = 0) -> None:
        self.owner, self.start = owner, start
        # (a payee of -1 is that of an entry that moves nothing)
        self.parts = array("H"), array("h"), array("Q")

    def append(self, seq: int, pair: tuple[int, int] | None) -> None:
        for part, it in zip(self.parts, (seq, *(pair or (-1, 0)))):
            part.append(it)

    def __len__(self) -> int:
        return len(self.parts[0])

    def __getitem__(self, at: int) -> Entry:
        seq, payee, amount = (part[at] for part in self.parts)
        return Entry(self.owner, self.start + at, seq, *((None, None) if payee < 0 else (payee, amount)))


class Book:
    """An export as the program tells it."""

    # the names of its accounts and the unit of amounts, where a group's file has them
    names, unit = None, Unit()

    def __init__(self, place: int | None, name: str) -> None:
        self.place, self.file, self.name = place, name, usage.shown(name)
        self.settled, self.balances, self.incoming = [Entries(0)], [], [0]
        for line in lines_said("statement", "--", name):
            self.take(line.split())
        del self.settled[-1], self.incoming[-1]
        with about(name), open(name, encoding="utf-8") as file:
            self.given = object_in(file.read())

    def take(self, words: list[str]) -> None:
        """A line of an account's statement."""
        entries = self.settled[-1]
        if words[0] == "out":
            entries.append(int(words[1]), (int(words[3]), int(words[4])))
        elif words[0] == "void":
            entries.append(int(words[1]), None)
        elif words[0] == "in":
            self.incoming[-1] += int(words[3])
        else:
            self.balances.append(int(words[3]))
            self.settled.append(Entries(len(self.balances)))
            self.incoming.append(0)

    @functools.cached_property
    def opening(self) -> list[int]:
        """Returns what the accounts opened with, by a journal's first transaction."""
        lines = lines_said("journal", "--", self.file)
        behind = itertools.dropwhile(lambda it: not it.endswith(" opening balances\n"), lines)
        postings = itertools.takewhile(lambda it: not it.startswith("    equity:"), itertools.islice(behind, 1, None))
        opening = [int(it.split()[1]) for it in postings]
        lines.close()
        return opening

    def count(self) -> int:
        return sum(map(len, self.settled))

    def waiting(self) -> list[Entries]:
        """Returns the entries of each account's list after those that are settled."""
        return [self.waiting_of(owner, settled) for owner, settled in enumerate(self.settled)]

    def waiting_of(self, owner: int, settled: Entries) -> Entries:
        """Returns an owner's entries after those that are settled, which the program and the model have to read
        alike."""
        number, is_alike, waiting = 0, True, Entries(owner, len(settled))
        for seq, text in enumerate(self.given["lists"][owner]):
            for pair in values.entries(bytes.fromhex(text), owner, self.given["members"]):
                if number < len(settled):
                    is_alike &= settled[number] == Entry(owner, number, seq, *(pair or (None, None)))
                else:
                    waiting.append(seq, pair)
                number += 1
        if not is_alike or number < len(settled):
            raise Failure(f"the program and the model don't read account {owner} of {self.name} alike")
        return waiting

    @functools.cached_property
    def notes(self) -> dict[tuple[int, int], tuple[int, int, str]]:
        """Returns the note of each payment that has one, by its owner and seq: the note's owner and seq, and its
        text."""
        entries = [it for its in zip(self.settled, self.waiting()) for both in its for it in both]
        payments = {(it.owner, it.seq) for it in entries if it.amount is not None}
        said = ((it.owner, it.seq, self.note(it)) for it in entries if it.amount is None)
        return notes.paired(payments, said)

    def note_of(self, entry: Entry) -> str | None:
        """Returns what is said of a payment, or by an entry that is a note apart, or None."""
        if entry.amount is not None:
            return self.notes.get((entry.owner, entry.seq), [None])[-1]
        return None if self.is_with_payment(entry) else self.note(entry)

    @functools.cached_property
    def joined(self) -> set:
        """Returns the owners and seqs of the notes that stand with their payments."""
        return {it[:2] for it in self.notes.values()}

    def is_with_payment(self, entry: Entry) -> bool:
        return (entry.owner, entry.seq) in self.joined

    def note(self, entry: Entry) -> str | None:
        """Returns what an entry says, where its value is a note, or None."""
        return values.note_in(bytes.fromhex(self.given["lists"][entry.owner][entry.seq]))

    def called(self, account: int) -> int | str:
        """Returns an account in a column of accounts, and in a sentence."""
        return account if self.names is None else f"{account} {self.names[account]}"

    def named(self, account: int) -> str:
        return f"account {account}" if self.names is None else self.names[account]

    def whose(self, account: int) -> str:
        return f"account {account}" if self.names is None else f"{self.names[account]}'s account"

    def is_of(self, group: Group) -> bool:
        return all(self.given[it] == getattr(group, it) for it in GENESIS)

    def check_is_of(self, group: Group, name: str) -> None:
        """That this is an export of the group in a file of this name."""
        if not self.is_of(group):
            raise Failure(f"{self.name}: it is of another group than {name}")


def times_in(name: str | None, members: int) -> Times:
    """Returns the times that a file tells of a group of so many; none without a file."""
    if name is None:
        return Times()
    with about(name):
        times = read_times(name)
        if len(times.rises) not in (0, members):
            raise Failure("it is of another group")
        return times
