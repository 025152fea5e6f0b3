"""Writes an export's payments as a journal for people, which hledger and ledger read.

usage: payd books [--data FOLDER] [--month YYYY-MM] [--date YYYY-MM-DD] [--commodity NAME[/UNITS]] > group.journal
       payd books --group GROUP [--times FILE] [--month YYYY-MM] [--date YYYY-MM-DD] [--commodity NAME[/UNITS]]
                  [--continues FILE [--leaves NAME:HEIR] ..] EXPORT > group.journal

Without an export it writes the books of the member in FOLDER, which is $PAYD_DATA or else ./member, by its own export,
group and times; its node may run meanwhile. With --month they are those of a month: each account opens with what it had
before, and closes with what it has then.

Amounts and order are those of `payd journal`. Each member's account stands below `assets`, by its name in the group's
file. The payee of a payment is the other member, as the export's own member sees it; between two others it is the one
that is paid. Its code is its payer and its number among the payer's entries. Its day is that of --times, the file
`times` of a member's folder; where that tells none, --date, or today. Behind one that a wrong clock told stands `date
unsure`. Amounts are in the unit that the group's file
says, or in that of --commodity where it says none: with EUR/100 an amount of 1234 is 12.34 EUR. Openings and closing
balances are asserted: hledger and ledger find what doesn't agree with them. What a payment's own payer noted of it
stands behind the payee, as `bob | Pizza Friday`. Other notes are comments, in UTF-8.

Payments that wait are pending, in a part of their own at the end. They stand in accounts below `waiting`, and in no
balance below `assets`.

--continues is the journal that this tool wrote for the former group. The new one begins with it, but for what waited
there, and each account has to open with what it closed with there. --leaves names a member that isn't in the group any
more, and who has its balance; newcomers bring what they open with.
"""

from __future__ import annotations

import argparse
import os
import re
import sys
import tempfile
from typing import Iterable, Iterator

from payd_tools import account, usage
from payd_tools.amounts import MOST_DECIMALS, NAME, Unit
from payd_tools.desk_client import place
from payd_tools.exports import Book, Entry, said, times_in
from payd_tools.groups import DIGITS_OF_KEYS, Group, about, read_group
from payd_tools.times import TIMES, Times
from payd_tools.usage import Failure

COMMODITY = re.compile(f"({NAME.pattern})(?:/(10{{0,{MOST_DECIMALS}}}))?", re.ASCII)
# How a part begins, its first transaction and its last, what waits behind that; and an entry of the program's journal.
HEAD, OPENING, CLOSING = "; group {}, by {}\n", "opening balances", "closing balances"
WAITING = "\n; waiting: in no balance above\n"
ENTRY = re.compile(
    r"(?:; void|(\S+) \(\d+\.\d+\)) account (\d+) seq (\d+) entry (\d+)(?:\n.*\n    account:(\d+)  (\d+)\n?)?"
)
# The lines of what waits.
OF_WAITING = re.compile(r"^(\S+ ! .*|    waiting:.*|; (?:void|note) .*|)\n", re.MULTILINE)
EQUITY = "equity:opening"


class Journal:
    """The parts of a journal as far as it is written, of a group, in whose export `own` is the member."""

    def __init__(self, group: Group, own: int, unit: Unit, times: Times) -> None:
        self.group, self.own = group, own
        self.names = group.names or [f"member {it}" for it in range(group.members)]
        self.unit, self.times = unit, times
        # the last day and the closing balances of the former group, by the names of its accounts
        self.parts, self.ended, self.closed = [], "", {}

    def units_of(self, text: str) -> int:
        units = self.unit.find(text.partition(" ")[0])
        if units is None or self.unit.text(units) != text:
            raise Failure(f"a balance in it is {text}, which is in another commodity")
        return units

    def take_former(self, text: str) -> None:
        """Goes on behind the journal of the former group."""
        text, _, waited = text.partition(WAITING)
        text = text.rstrip("\n") + "\n\n"
        if OF_WAITING.sub("", waited):
            raise Failure("it goes on behind what waits there, which is left out: put that before it")
        if self.group.names is None:
            raise Failure("members need names, as their numbers may be others now")
        heads = re.findall("^" + HEAD.format("([0-9a-f]+)", ".*"), text, re.MULTILINE)
        if not heads or not (self.group.former or "").startswith(heads[-1]):
            raise Failure("it is no journal of the group for which this one goes on")
        before, _, balances = text.rpartition(f" {CLOSING}\n")
        self.ended = before.rpartition("\n")[2]
        found = re.findall("^    assets:(.*?)  .* = (.*)$", balances, re.MULTILINE)
        self.closed = {name: self.units_of(amount) for name, amount in found}
        self.parts.append(text)

    def opening(self, balances: list[int], leaves: list[tuple[str, str]]) -> list[tuple]:
        """Returns the postings of what each account opens with, which is held against what it closed with."""
        opens, left = dict(zip(self.names, balances)), dict(self.closed)
        for name, heir in leaves:
            if name in opens or name not in left or heir not in opens or heir not in left:
                raise Failure(f"{name}:{heir}: --leaves takes one who left the group, and one who stayed")
            left[heir] += left.pop(name)
        for name, units in left.items():
            if opens.get(name, 0) != units:
                text = self.unit.text
                why = f"opens with {text(opens[name])}" if name in opens else f"has none: --leaves {name}:HEIR"
                raise Failure(f"account {name}: the former group leaves {text(units)} in it, and this one {why}")
        accounts = ((it, opens.get(it, 0)) for it in {**self.closed, **opens})
        moved = [(f"assets:{it}", units - self.closed.get(it, 0), units) for it, units in accounts]
        return [*moved, (EQUITY, -sum(units for _, units, _ in moved))]

    # ---- what is written

    def declare(self) -> None:
        """Writes what strict readers want to know first, but for what stands there of the former group."""
        kinds = {"assets": "A", EQUITY: "E", **{f"assets:{it}": "A" for it in self.names}}
        lines = [f"commodity {self.unit.name or '1000.'}", f"payee {OPENING}", f"payee {CLOSING}"]
        lines += [f"account {account}\n    ; type: {kind}" for account, kind in kinds.items()]
        lines += [f"{word}{it}" for it in self.names for word in ("account waiting:", "payee ")]
        written = "".join(self.parts)
        self.parts.append(HEAD.format(self.group.digest()[:DIGITS_OF_KEYS], self.names[self.own]))
        self.parts += (f"{it}\n" for it in lines if f"\n{it}\n" not in written)

    def write(self, head: str, postings: Iterable[tuple]) -> None:
        """Writes a transaction, of accounts with amounts and, where that is asserted, what they have then."""
        self.parts.append(f"\n{head}\n")
        for name, units, *after in postings:
            asserted = "".join(f" = {self.unit.text(it)}" for it in after)
            self.parts.append(f"    {name}  {self.unit.text(units)}{asserted}\n")

    def write_entry(self, day: str | None, entry: Entry, book: Book, top: str = "assets", state: str = "") -> None:
        """Writes an entry with its note, or a comment where it moves nothing; none of a note that stands with its
        payment."""
        note = book.note(entry) if entry.amount is None else book.note_of(entry)
        # (of a description programs read nothing behind a semicolon)
        if entry.amount is None and book.is_with_payment(entry) and ";" not in note:
            return
        place = f"account {entry.owner} seq {entry.seq} entry {entry.number}"
        place += "" if self.times.is_sure(entry.owner, entry.number) else ", date unsure"
        if entry.amount is None:
            self.parts.append(f"\n; void {place}\n" if note is None else f"\n; note {place}: {note}\n")
            return
        other = self.names[entry.owner if entry.payee == self.own else entry.payee]
        accounts = (f"{top}:{self.names[it]}" for it in (entry.owner, entry.payee))
        amounts = -entry.amount, entry.amount
        said = "" if note is None else f" | {note.replace(';', ',')}"
        code = f"{state}({entry.owner}.{entry.number})"
        self.write(f"{day} {code} {other}{said}  ; {place}", zip(accounts, amounts))

    def write_group(self, day: str, entries: list, book: Book, given: argparse.Namespace) -> None:
        """Writes settled entries, each behind its day, between balances; and on this day what waits."""
        opening, first = self.group.opening, None
        if given.month is not None:
            opening = balances_after(opening, (entry for it, entry in entries if (it or day)[:7] < given.month))
            entries = [(it, entry) for it, entry in entries if (it or day)[:7] == given.month]
            first = f"{given.month}-01"
        days = [it for it, entry in entries if entry.amount is not None] or [first or day]
        if min(days) < self.ended:
            raise Failure(f"its first day is {min(days)}, and the former group's last {self.ended}")
        self.write(f"{first or min(days)} {OPENING}", self.opening(opening, given.leaves))
        for it, entry in entries:
            self.write_entry(it, entry, book)
        closed = balances_after(opening, (it for _, it in entries))
        closing = ((f"assets:{name}", 0, units) for name, units in zip(self.names, closed))
        self.write(f"{max(days)} {CLOSING}", closing)
        waiting = [entry for entries in book.waiting() for entry in entries] if given.month in (None, day[:7]) else []
        self.parts += [WAITING][: len(waiting)]
        for entry in waiting:
            self.write_entry(day, entry, book, "waiting", "! ")


def balances_after(balances: list[int], entries: Iterator) -> list[int]:
    balances = list(balances)
    for it in entries:
        if it.amount is not None:
            balances[it.owner] -= it.amount
            balances[it.payee] += it.amount
    return balances


def settled_in(journal: str, times: Times) -> tuple[str, list]:
    """Returns the day of the program's journal, and its entries, each behind its own day, which void ones may not
    have."""
    _, opening, *blocks = journal.rstrip("\n").split("\n\n")
    entries = []
    for day, owner, seq, number, *paid in (ENTRY.fullmatch(it).groups() for it in blocks):
        moment = times.when(int(owner), int(number))
        entry = Entry(int(owner), int(number), int(seq), *(map(int, paid) if day else paid))
        entries.append((day if moment is None else f"{moment:%Y-%m-%d}", entry))
    return opening.partition(" ")[0], entries


def commodity(text: str) -> Unit:
    """Returns a unit, and into how many an amount of one is divided."""
    found = COMMODITY.fullmatch(text)
    if found is None:
        raise ValueError(text)
    return Unit(found[1], len(found[2] or "1") - 1)


def leaves(text: str) -> tuple[str, str]:
    name, heir = text.split(":")
    return name, heir


def read_words() -> argparse.Namespace:
    words = usage.parser(__doc__)
    words.add_argument("--data", metavar="FOLDER", help="the folder of a member, where no export is named")
    words.add_argument("--group", help="the group's file, of an export")
    words.add_argument("--month", type=month, metavar="YYYY-MM", help="the month that is written")
    words.add_argument("--times", help="the times of a member's folder")
    words.add_argument("--date", help="the day of what has no time")
    words.add_argument("--commodity", type=commodity, help="the unit of amounts, as EUR/100, where the group has none")
    words.add_argument("--continues", help="the former group's journal")
    words.add_argument("--leaves", type=leaves, action="append", default=[], help="who left, and its heir, as dee:ada")
    words.add_argument("export", nargs="?", help="the file of a member's export")
    given = words.parse_args()
    if given.export is not None and (given.group is None or given.data is not None):
        words.error("an export needs --group, and no --data")
    if given.month is not None and given.continues is not None:
        words.error("--month and --continues don't go together")
    return given


def month(text: str) -> str:
    if not re.fullmatch("[0-9]{4}-(0[1-9]|1[0-2])", text, re.ASCII):
        raise ValueError(text)
    return text


def export_of(given: argparse.Namespace, folder: str) -> str:
    """Has a member's own folder give what isn't named, and its export, which this folder keeps."""
    data = given.data or place()
    if not os.path.isdir(data):
        raise Failure(f"{data}: there is no such folder (--data or PAYD_DATA names a member's)")
    own = {it: os.path.join(data, it) for it in (account.GROUP, account.KEYS, TIMES)}
    given.group = given.group or own[account.GROUP]
    given.times = given.times or (own[TIMES] if os.path.exists(own[TIMES]) else None)
    given.export = os.path.join(folder, "export.json")
    words = "--genesis", given.group, "--keys", own[account.KEYS], "--data", data
    with open(given.export, "w", encoding="ascii") as file:
        file.write(said("export", *words))


@usage.tool()
def main() -> None:
    given = read_words()
    with tempfile.TemporaryDirectory() as folder:
        if given.export is None:
            export_of(given, folder)
        write(given)


def write(given: argparse.Namespace) -> None:
    group, book = read_group(given.group, has_cryptography=False), Book(None, given.export)
    book.check_is_of(group, given.group)
    times = times_in(given.times, group.members)
    day = [] if given.date is None else [f"--date={given.date}"]
    if given.commodity and group.unit.name and given.commodity.parts() != group.unit.parts():
        raise Failure(f"the unit of this group is {group.unit.called()}: leave --commodity out")
    journal = Journal(group, book.given["member"], given.commodity or group.unit, times)
    if given.continues is not None:
        with about(given.continues), open(given.continues, encoding="utf-8") as file:
            journal.take_former(file.read())
    journal.declare()
    with about(given.export):
        journal.write_group(*settled_in(said("journal", *day, "--", given.export), times), book, given)
    sys.stdout.reconfigure(encoding="utf-8")
    print("".join(journal.parts), end="", flush=True)
