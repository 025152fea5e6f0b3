"""A slow model of a group of members that plays scripts of `payd sim`.

It is written from docs/clauses.md and asks its questions of whole histories, as the definitions do. All that
it keeps beside them are answers that it gave: what each event sent, and what the same votes made known. It shares
no code with the crates.
"""

from __future__ import annotations

import inspect
import json
import re
from typing import Callable

from payd_tools.frames import ECHO, READY, SEND, WANT, frame, payment, payments, read_frame
from payd_tools.values import MOST_PAYMENTS, entries

GREATEST_VALUE = 1024
SEQS = 65536
NUMBER = 2**64
MOST_MEMBERS = 128
LIMIT = 1_000_000
LONGEST_LINE = 4096

KINDS = {"send": SEND, "echo": ECHO, "ready": READY, "want": WANT}


class Member:
    """One correct member: a function of the events that it took."""

    def __init__(self, members: int, faults: int, own: int, opening: list[int]) -> None:
        self.members = members
        self.faults = faults
        self.own = own
        self.opening = opening
        self.history = []  # ("ask", value) or ("from", member, kind, owner, seq, value)
        self.said = []  # what each event sent to all
        self.told = {}  # what votes made known

    # ---- one broadcast

    def votes(self, owner: int, seq: int, history: list[tuple]) -> list[tuple[int, int, bytes]]:
        """Returns what a history says in one broadcast: SENDs of its owner, ECHOs and READYs with who sent them."""
        votes, asks = [], 0
        for event in history:
            if event[0] == "ask":
                if owner == self.own and seq == asks:
                    votes.append((SEND, self.own, event[1]))
                asks += 1
                continue
            _, member, kind, about, number, value = event
            if (about, number) != (owner, seq):
                continue
            # one's own broadcast begins with the ask alone
            if kind != SEND or (member == owner and owner != self.own):
                votes.append((kind, member, value))
        return votes

    def echoed(self, votes: tuple[tuple[int, int, bytes], ...]) -> bytes | None:
        return next((value for kind, _, value in votes if kind == SEND), None)

    def firsts(self, votes: tuple[tuple[int, int, bytes], ...], wanted: int) -> dict[int, bytes]:
        """Returns the first vote of a kind of each other member."""
        first = {}
        for kind, member, value in votes:
            if kind == wanted and member != self.own:
                first.setdefault(member, value)
        return first

    def voters(
        self, votes: tuple[tuple[int, int, bytes], ...], kind: int, own_value: bytes | None, value: bytes
    ) -> int:
        others = [member for member, said in self.firsts(votes, kind).items() if said == value]
        return len(others) + (own_value is not None and own_value == value)

    def first_known(self, votes: tuple[tuple[int, int, bytes], ...], test: Callable) -> bytes | None:
        """Returns the value for which a test holds at the shortest prefix of the votes at which it holds for any."""
        for size in range(len(votes) + 1):
            prefix = votes[:size]
            for value in sorted({value for _, _, value in prefix}):
                if test(prefix, value):
                    return value
        return None

    def readied(self, votes: tuple[tuple[int, int, bytes], ...]) -> bytes | None:
        def may(prefix: tuple[tuple[int, int, bytes], ...], value: bytes) -> bool:
            echoes = self.voters(prefix, ECHO, self.echoed(prefix), value)
            others = self.voters(prefix, READY, None, value)
            return 2 * echoes > self.members + self.faults or others > self.faults

        return self.first_known(votes, may)

    def delivered(self, votes: tuple[tuple[int, int, bytes], ...]) -> bytes | None:
        def may(prefix: tuple[tuple[int, int, bytes], ...], value: bytes) -> bool:
            return self.voters(prefix, READY, self.readied(prefix), value) > 2 * self.faults

        return self.first_known(votes, may)

    def known(self, owner: int, seq: int, history: list[tuple]) -> tuple[bytes | None, bytes | None, bytes | None]:
        votes = tuple(self.votes(owner, seq, history))
        if votes not in self.told:
            self.told[votes] = self.echoed(votes), self.readied(votes), self.delivered(votes)
        return self.told[votes]

    # ---- the channel

    def asks(self, history: list[tuple] | None = None) -> int:
        return sum(event[0] == "ask" for event in (self.history if history is None else history))

    def next(self, member: int) -> int:
        return sum(event[0] == "from" and event[1] == member for event in self.history)

    def about(self, place: int) -> tuple[int, int]:
        """Returns the broadcast that the event at a place is about."""
        event = self.history[place]
        if event[0] == "ask":
            return self.own, self.asks(self.history[:place])
        return event[3], event[4]

    def says(self, place: int) -> list[tuple]:
        """Returns what the event at a place sends to all: SEND if it asks, then ECHO and READY where it made them
        known."""
        event, (owner, seq) = self.history[place], self.about(place)
        before = self.known(owner, seq, self.history[:place])
        after = self.known(owner, seq, self.history[: place + 1])
        bodies = [(SEND, owner, seq, event[1])] if event[0] == "ask" else []
        for kind, old, new in ((ECHO, before[0], after[0]), (READY, before[1], after[1])):
            if old is None and new is not None:
                bodies.append((kind, owner, seq, new))
        return bodies

    def sent(self) -> list[tuple]:
        while len(self.said) < len(self.history):
            self.said.append(self.says(len(self.said)))
        return [body for bodies in self.said for body in bodies]

    def lists(self, history: list[tuple] | None = None) -> list[list[bytes]]:
        history = self.history if history is None else history
        lists = []
        for owner in range(self.members):
            values = []
            while len(values) < SEQS:
                value = self.known(owner, len(values), history)[2]
                if value is None:
                    break
                values.append(value)
            lists.append(values)
        return lists

    # ---- the book

    def entry_lists(self, lists: list[list[bytes]]) -> list[list[tuple[int, int] | None]]:
        """Returns the entries of each account's values: payee and amount of each payment, and None of each void
        entry."""
        accounts, members = enumerate(lists), self.members
        return [[it for value in values for it in entries(value, owner, members)] for owner, values in accounts]

    def balances(self, entries: list[list[tuple[int, int] | None]], front: list[int]) -> list[int]:
        balances = list(self.opening)
        for owner, settled in enumerate(front):
            for entry in entries[owner][:settled]:
                if entry:
                    balances[owner] -= entry[1]
                    balances[entry[0]] += entry[1]
        return balances

    def front(self, entries: list[list[tuple[int, int] | None]]) -> list[int]:
        """Returns the largest front: since reached fronts have a common later one, any order of steps leads to it."""
        front = [0] * self.members
        while True:
            balances = self.balances(entries, front)
            for account, own in enumerate(entries):
                if front[account] == len(own):
                    continue
                entry = own[front[account]]
                if entry is None or entry[1] <= balances[account]:
                    front[account] += 1
                    break
            else:
                return front

    def book(self, history: list[tuple] | None = None) -> tuple[list[int], list[int]]:
        entries = self.entry_lists(self.lists(history))
        front = self.front(entries)
        return front, self.balances(entries, front)

    # ---- events

    def ask(self, value: bytes) -> str:
        if len(value) > GREATEST_VALUE:
            return "refused member 2 TooLong"
        if self.asks() >= SEQS:
            return "refused member 1 Spent"
        self.history.append(("ask", value))
        return f"asked {self.own} seq {self.asks() - 1}"

    def take(self, sender: int, body: tuple[int, int, int, bytes]) -> str:
        """Takes a body, and tells in words what became of it."""
        kind, owner, seq, value = body
        before = self.known(owner, seq, self.history)
        settled = sum(self.book()[0])
        self.history.append(("from", sender, kind, owner, seq, value))
        after = self.known(owner, seq, self.history)
        words = ["took"]
        for word, old, new in zip(("echo", "ready", "deliver"), before, after):
            if old is None and new is not None:
                words.append(word)
        settled = sum(self.book()[0]) - settled
        if settled:
            words += ["settle", str(settled)]
        return " ".join(words)


class BadLine(Exception):
    """A line that is no command."""


class Ended(Exception):
    """A run that ends after a line, with a status."""

    def __init__(self, line: str, status: int) -> None:
        self.line = line
        self.status = status


class World:
    """A group of which some lie, and the script that is played in it."""

    def __init__(self, text: str) -> None:
        try:
            # a number with a sign or a point is none here
            world = json.loads(text, parse_int=lambda it: None if it.startswith("-") else int(it))
            members, faults = world["members"], world["faults"]
            self.opening, self.liars = world["opening"], world["liars"]
            numbers = [members, faults, *self.opening, *self.liars]
        except (ValueError, KeyError, TypeError) as error:
            raise BadLine from error
        if any(type(it) is not int or not 0 <= it < NUMBER for it in numbers):
            raise BadLine
        if not 1 <= members <= MOST_MEMBERS or members <= 3 * faults or len(self.opening) != members:
            raise BadLine
        if sum(self.opening) >= 2**63:
            raise BadLine
        if any(it >= members for it in self.liars) or len(set(self.liars)) != len(self.liars):
            raise BadLine
        if len(self.liars) > faults:
            raise BadLine
        correct = [it for it in range(members) if it not in self.liars]
        self.members = {it: Member(members, faults, it, self.opening) for it in correct}
        self.count = members
        self.events = 0

    def count_event(self) -> None:
        if self.events == LIMIT:
            raise Ended("limit", 3)
        self.events += 1

    def bring(self, receiver: int, stream: bytes) -> str:
        """Brings bytes to a member, as one event."""
        self.count_event()
        member = self.members.get(receiver)
        if member is None:
            return "ignored"
        found = read_frame(stream)
        if isinstance(found, str):
            return f"refused frame {found}"
        kind, sender, to, number, body, is_right = found
        if to != receiver:
            return "refused link 1 NotForMe"
        if sender >= self.count or sender == receiver:
            return "refused link 2 UnknownSender"
        if body[1] >= self.count:
            return "refused link 3 UnknownOwner"
        if not is_right:
            return "refused link 4 BadTag"
        if kind == WANT:
            return f"wanted {sender} {number}"
        if sender in self.members and self.members[sender].sent()[number : number + 1] != [body]:
            raise Ended(f"forged {self.events - 1}", 1)
        following = member.next(sender)
        if number < following:
            return f"refused link 5 Repeat next {following}"
        if number > following:
            return f"refused link 6 Gap next {following}"
        return member.take(sender, body)

    def seal(self, sender: int, receiver: int, number: int, body: tuple[int, int, int, bytes]) -> bytes:
        kind, owner, seq, value = body
        return frame(kind, sender, receiver, number, owner=owner, seq=seq, value=value)

    def bring_all(self) -> str:
        brought = 0
        while True:
            before = brought
            for receiver, member in self.members.items():
                for sender, other in self.members.items():
                    while sender != receiver and member.next(sender) < len(other.sent()):
                        number = member.next(sender)
                        self.bring(receiver, self.seal(sender, receiver, number, other.sent()[number]))
                        brought += 1
            if brought == before:
                return f"brought {brought}"

    def all_taken(self) -> bool:
        pairs = [(one, other) for one in self.members.values() for other in self.members.values() if one is not other]
        return all(one.next(other.own) == len(other.sent()) for one, other in pairs)

    def show(self) -> list[str]:
        lines = []
        for number, member in self.members.items():
            front, balances = member.book()
            lines.append(f"member {number} fronts {' '.join(map(str, front))} balances {' '.join(map(str, balances))}")
        return lines

    # ---- commands

    def run_line(self, line: str) -> list[str]:
        """Returns the lines that a command answers."""
        if line == "":
            return []
        name, *words = line.split(" ")
        command = getattr(self, f"command_{name}", None)
        if command is None:
            raise BadLine
        try:
            inspect.signature(command).bind(*words)
        except TypeError as error:
            raise BadLine from error
        return command(*words)

    def command_ask(self, member: str, payee: str, amount: str) -> list[str]:
        member, payee, amount = number_in(member, 128), number_in(payee, 65536), number_in(amount)
        return self.ask(member, payment(payee, amount))

    def command_asks(self, member: str, *words: str) -> list[str]:
        if not 2 <= len(words) <= 2 * MOST_PAYMENTS or len(words) % 2:
            raise BadLine
        member = number_in(member, 128)
        pairs = [(number_in(payee, 65536), number_in(amount)) for payee, amount in zip(words[::2], words[1::2])]
        return self.ask(member, payments(pairs))

    def ask(self, member: int, value: bytes) -> list[str]:
        self.count_event()
        if member not in self.members:
            return ["ignored"]
        return [self.members[member].ask(value)]

    def command_bring(self, sender: str, receiver: str, number: str) -> list[str]:
        sender, receiver, number = number_in(sender, 128), number_in(receiver, 128), number_in(number)
        if receiver not in self.members:
            self.count_event()
            return ["ignored"]
        if sender not in self.members or sender == receiver:
            return ["absent"]
        sent = self.members[sender].sent()
        if number >= len(sent):
            return ["absent"]
        return [self.bring(receiver, self.seal(sender, receiver, number, sent[number]))]

    def command_lie(
        self, sender: str, receiver: str, number: str, kind: str, owner: str, seq: str, value: str
    ) -> list[str]:
        sender, receiver = number_in(sender, 128), number_in(receiver, 128)
        following = number == "next"
        number = 0 if following else number_in(number)
        if kind not in KINDS:
            raise BadLine
        owner, seq = number_in(owner, 65536), number_in(seq, 65536)
        value = bytes_in(value)
        if len(value) > GREATEST_VALUE or (kind == "want" and (owner, seq, value) != (0, 0, b"")):
            raise BadLine
        if following and receiver in self.members and sender < self.count and sender != receiver:
            number = self.members[receiver].next(sender)
        return [self.bring(receiver, self.seal(sender, receiver, number, (KINDS[kind], owner, seq, value)))]

    def command_raw(self, receiver: str, stream: str) -> list[str]:
        return [self.bring(number_in(receiver, 128), bytes_in(stream))]

    def command_all(self) -> list[str]:
        return [self.bring_all(), *(["converged"] if self.all_taken() else [])]

    def command_show(self) -> list[str]:
        return self.show()


def number_in(word: str, bound: int = NUMBER) -> int:
    if not re.fullmatch("0|[1-9][0-9]*", word, re.ASCII) or int(word) >= bound:
        raise BadLine
    return int(word)


def bytes_in(word: str) -> bytes:
    if word == "-":
        return b""
    if not re.fullmatch("([0-9a-fA-F]{2})+", word, re.ASCII):
        raise BadLine
    return bytes.fromhex(word)


def play(script: bytes) -> tuple[str, int]:
    """Returns text and status of a script's run."""
    lines = script.split(b"\n")
    if lines[-1] == b"" and len(lines) > 1:
        lines.pop()
    world, output = None, []
    for place, line in enumerate(lines, 1):
        try:
            if len(line) > LONGEST_LINE:
                raise BadLine
            text = line.decode("utf-8" if world is None else "ascii")
            if world is None:
                world = World(text)
            else:
                output += world.run_line(text)
        except (BadLine, UnicodeDecodeError):
            return "".join(f"{it}\n" for it in [*output, f"bad line {place}"]), 2
        except Ended as end:
            return "".join(f"{it}\n" for it in [*output, end.line]), end.status
    return "".join(f"{it}\n" for it in output), 0
