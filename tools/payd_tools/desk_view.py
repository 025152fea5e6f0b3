"""What a page shows of an account: the node's answers, as far as they are new."""

from __future__ import annotations

import datetime
import itertools
import re
import threading
from typing import Any, Callable

from payd_tools import notes
from payd_tools.amounts import BOUND, NoAmount, Unit
from payd_tools.desk_client import Desk, NoAnswer
from payd_tools.times import TimesFile

# How many of the account's entries are kept, the newest, and how many an answer to ENTRIES or WAITING has at most.
KEPT, MOST = 500, 1000
# How often all balances are asked for at a time, until nothing settles meanwhile.
TRIES = 5
EARLIEST = datetime.datetime.min.replace(tzinfo=datetime.timezone.utc)
NUMBER = re.compile("0|[1-9][0-9]{0,19}")

ASKED, SETTLED = "asked", "settled"
COVERED, UNCOVERED, BEYOND = "covered", "uncovered", "beyond"

WHY_REFUSED = {
    "BadLine": "The node doesn't take the amount.",
    "IdUsed": "This form has asked for another payment already, and asks for one alone. Take a new form.",
    "NoAccount": "There is no such account.",
    "ZeroOrSelf": "A payment of nothing, or to this account itself, isn't made.",
    "Spent": "All numbers of this account are used: it can't pay any more in this group.",
    "TooEarly": "The node began a moment ago and hasn't heard enough of its peers. It may be tried again.",
    "Forgotten": "The group knows more of this account than this folder: a newer one may be elsewhere. Start that one.",
    "Memory": "The node had no memory for it. It may be tried again.",
}


class Wrong(Exception):
    """Why a node's answers can't be shown, or a form can't be taken."""


def number_of(text: object) -> int:
    """Returns the number that a form has, which the desk would take as it stands."""
    if not isinstance(text, str) or not NUMBER.fullmatch(text) or int(text) >= BOUND:
        raise Wrong("That is no number that the node takes.")
    return int(text)


def checked_note(text: str) -> str:
    """Returns a note that people wrote, which the desk would take."""
    try:
        notes.check(text)
    except notes.NoNote as why:
        raise Wrong(str(why)) from why
    return text


class Refused(Wrong):
    """A query that has to be answered wasn't."""


class View:
    """An account as its node told of it last."""

    def __init__(
        self,
        desk: Desk,
        account: int,
        members: int | None = None,
        times: TimesFile | None = None,
        unit: Unit | None = None,
        standstill: Callable = lambda: None,
    ) -> None:
        self.desk, self.account, self.members, self.times = desk, account, members, times
        self.unit = unit or Unit()
        # why no payment can settle now, and who tells that
        self.still, self.standstill = None, standstill
        self.lock = threading.Lock()
        self.version, self.published, self.fault = 0, None, None
        self.begin()

    def begin(self) -> None:
        # the numbers of payments that were asked for here, by id, and the last of them
        self.asked, self.followed = {}, None
        self.front, self.total, self.balance, self.balances = None, None, 0, None
        self.waiting, self.short, self.entries, self.is_cut = [], 0, [], False

    # ---- what the node says

    def refresh(self) -> None:
        """Asks the node what is new. Nothing that is shown changes where it doesn't answer, but for that."""
        with self.lock:
            try:
                self.look()
                self.fault, self.still = None, self.standstill()
            except (NoAnswer, Wrong) as why:
                self.fault = str(why)
            except (ValueError, IndexError):
                self.fault = "what answers there is no node's desk"

    def ask(self, line: str) -> list[str]:
        """Returns the answer to a query, which has to be one."""
        answer = self.desk.ask(line)
        if answer[0].startswith("refused "):
            reason = answer[0].rpartition(" ")[2]
            raise Refused(f"the node refuses {line}: {answer[0]}. {WHY_REFUSED.get(reason, '')}".strip())
        return answer

    def look(self) -> None:
        (waiting, short), front = self.read_waiting(), self.read_front()
        if self.front is not None and any(new < old for new, old in zip(front, self.front)):
            # (a member without a folder begins anew)
            self.begin()
        balances = self.balances
        if balances is None:
            front, balances = self.read_balances(front)
        if front != self.front:
            balance, settled = self.read_balance(self.account), self.read_entries(front)
            if self.balances is not None:
                balances = after(balances, settled)
            self.keep(front, settled)
            self.balance = balance
        self.balances = balances
        # (but for what has settled since it was asked for)
        self.waiting = [it for it in waiting if it["entry"] >= front[self.account]]
        self.short = short if self.waiting == waiting else 0
        self.follow()

    def follow(self) -> None:
        """How far the payment is that was asked for last."""
        if self.followed and self.followed["state"] != SETTLED:
            state = self.ask(f"STATE {self.account} {self.followed['seq']}")[0].rpartition(" ")[2]
            self.followed = {**self.followed, "state": state}

    def read_sums(self) -> None:
        self.waiting, self.short = self.read_waiting()
        self.balance = self.read_balance(self.account)

    def read_front(self) -> list[int]:
        front = [int(word) for word in self.ask("FRONT")[0].split(" ")[1:]]
        if self.members not in (None, len(front)):
            raise Wrong(f"the node that answers is of a group of {len(front)}, and not of {self.members}")
        return front

    def read_balance(self, account: int) -> int:
        return int(self.ask(f"BALANCE {account}")[0].split(" ")[2])

    def read_balances(self, front: list[int]) -> tuple[list[int], list[int] | None]:
        """Returns all balances of one moment, if there is one soon, and its front. What they come to never changes."""
        for _ in range(TRIES):
            answers = self.desk.ask_all([*(f"BALANCE {it}" for it in range(len(front))), "FRONT"])
            *balances, again = (list(map(int, it[0].split(" ")[1:])) for it in answers)
            if again == front:
                balances = [balance for _, balance in balances]
                self.total = sum(balances)
                return front, balances
            front = again
        return front, None

    def read_waiting(self) -> tuple[list[dict[str, Any]], int]:
        """Returns the account's entries that wait, and what the balance is short of the first."""
        *lines, end = self.ask(f"WAITING {self.account}")
        return [entry_of(line, self.account) for line in lines], int(end.split(" ")[3])

    def starts(self, front: list[int]) -> list[int]:
        """Returns the first entry of each account that no answer had before."""
        return [max(0, it - MOST) for it in front] if self.front is None else self.front

    def read_entries(self, front: list[int]) -> list[list[dict[str, Any]]]:
        """Returns the entries of each account that are settled since the last look."""
        ranges = zip(self.starts(front), front)
        return [self.entries_from(account, start, end) for account, (start, end) in enumerate(ranges)]

    def keep(self, front: list[int], settled: list[list[dict[str, Any]]]) -> None:
        """Keeps those that are the account's own, and the notes of what was paid to it."""
        is_first, is_cut = self.front is None, any(self.starts(front))
        known = itertools.chain(self.entries, *settled)
        paid = {(it["account"], it["seq"]) for it in known if it["to"] == self.account}
        found = [[it for it in entries[::-1] if self.is_own(it, paid)] for entries in settled]
        seen = self.moments(None if is_first else datetime.datetime.now(datetime.timezone.utc))
        # where no times tell, accounts have no order among them: they take turns
        turns = itertools.chain.from_iterable(itertools.zip_longest(*found))
        newest = [dict(it, seen=seen(it)) for it in turns if it is not None]
        newest.sort(key=lambda it: it["seen"] or EARLIEST, reverse=True)
        newest = [dict(it, seen=it["seen"] and it["seen"].astimezone().isoformat(timespec="seconds")) for it in newest]
        self.is_cut |= len(newest) + len(self.entries) > KEPT or (is_first and is_cut)
        self.entries = (newest + self.entries)[:KEPT]
        self.front = front

    def is_own(self, entry: dict[str, Any], paid: set[tuple[int, int]]) -> bool | None:
        """Returns whether an entry is the account's own, or the note of one of these payments to it."""
        said = notes.of_payment(entry["seq"], entry["note"])
        return self.account in (entry["account"], entry["to"]) or (said and (entry["account"], said[0]) in paid)

    def moments(self, now: datetime.datetime | None) -> Callable:
        """Returns a function that tells by when an entry had settled: by the node's times, or else `now`."""
        times = self.times.known() if self.times else None
        return lambda it: (times and times.when(it["account"], it["entry"])) or now

    def entries_from(self, account: int, start: int, end: int) -> list[dict[str, Any]]:
        entries = []
        while start < end:
            *lines, last = self.ask(f"ENTRIES {account} {start}")
            entries += [entry_of(line, account) for line in lines]
            after = int(last.split(" ")[2])
            if after <= start:
                raise Wrong("the node has fewer entries than it said")
            start = after
        # (what settled meanwhile comes with the next look)
        return [it for it in entries if it["entry"] < end]

    # ---- what is shown

    def free(self) -> int | None:
        """Returns what the balance leaves for a new payment, which settles after all that wait, or None if that isn't
        known."""
        if len(self.waiting) >= MOST:
            return None
        return self.balance - sum(it["amount"] or 0 for it in self.waiting)

    def digits(self, amount: int | None) -> str | None:
        return None if amount is None else self.unit.digits(amount)

    def with_digits(self, entry: dict[str, Any]) -> dict[str, Any]:
        return {**entry, "amount": self.digits(entry["amount"])}

    def shown(self) -> dict[str, Any]:
        free = self.free()
        return {
            "account": self.account,
            "fault": self.fault,
            "still": self.still,
            "front": self.front,
            "balance": self.digits(self.balance),
            "balances": self.balances and [self.digits(it) for it in self.balances],
            "total": self.digits(self.total),
            "followed": self.followed and self.with_digits(self.followed),
            "free": self.digits(None if free is None else max(0, free)),
            # what comes in first settles what waits, or what of it
            "needed": self.digits(-free if free is not None and free < 0 else None),
            "short": self.digits(self.short or None),
            "never": bool(self.waiting and self.is_beyond(self.waiting[0]["amount"] or 0)),
            "waiting": [self.with_digits(it) for it in notes.joined(self.waiting)],
            "waiting_cut": len(self.waiting) >= MOST,
            "entries": [self.with_digits(it) for it in notes.joined(self.entries)],
            "entries_cut": self.is_cut,
        }

    def state(self, known: str) -> dict[str, Any]:
        """Returns what is shown, with its version, or the version alone where that is the known one."""
        with self.lock:
            shown = self.shown()
            if shown != self.published:
                self.version, self.published = self.version + 1, shown
            return {"version": self.version, **({} if str(self.version) == known else shown)}

    # ---- paying

    def amount_of(self, text: str) -> int:
        """Returns the amount that people wrote, from the least that is paid."""
        try:
            return self.unit.read(text, least=1)
        except NoAmount as why:
            raise Wrong(str(why)) from why

    def is_beyond(self, amount: int) -> bool:
        """Returns whether the whole group owns less: a payment of this never settles."""
        return self.total is not None and amount > self.total

    def judge(self, amount: int) -> str:
        """Returns whether a payment of this amount is covered once all that wait are settled, by the last answers."""
        free = self.free()
        if free is not None and amount <= free:
            return COVERED
        return BEYOND if self.is_beyond(amount) else UNCOVERED

    def verdict(self, amount: int) -> str:
        """Returns whether a payment of `amount` is covered, after it asked the node for fresh sums."""
        self.read_sums()
        if self.judge(amount) != COVERED and self.total is None:
            self.read_balances(self.read_front())
        return self.judge(amount)

    def hint(self, text: str) -> dict[str, Any]:
        """Returns what a payment of the amount that a form has would come to, by the last answers."""
        with self.lock:
            amount = self.amount_of(text)
            return self.needs(self.judge(amount), amount)

    def needs(self, verdict: str, amount: int) -> dict[str, Any]:
        """Returns what has to be agreed to before an amount is paid."""
        free = self.free()
        left = {} if free is None else {"left" if amount <= free else "short": self.digits(abs(free - amount))}
        return {"needs": verdict, "amount": self.digits(amount), **left}

    def pay(self, form: dict[str, Any]) -> dict[str, Any]:
        """Returns what comes of a form: the payment's seq, a refusal, or what has to be agreed to first. What never
        settles isn't asked for."""
        order, to = (number_of(form.get(name)) for name in ("id", "to"))
        amount, note = self.amount_of(form.get("amount")), form.get("note") or None
        if note is not None:
            note = number_of(form.get("note_id")), checked_note(f"{note}")
        with self.lock:
            if order not in self.asked:
                verdict = self.verdict(amount)
                if verdict == BEYOND or verdict != form.get("agreed"):
                    return self.needs(verdict, amount)
            answer = self.desk.ask(f"PAY {order} {to} {amount}")[0].split(" ")
            if answer[0] != "asked":
                return {"refused": " ".join(answer[1:]), "why": WHY_REFUSED.get(answer[-1], "The node refuses it.")}
            is_again = order in self.asked
            self.asked[order] = answer[3]
            self.followed = {"seq": int(answer[3]), "to": to, "amount": amount, "state": ASKED}
            return {"seq": answer[3], "again": is_again, **self.say(answer[3], note)}

    def say(self, seq: str, note: tuple[int, str] | None) -> dict[str, str]:
        """Says a note of the payment under this number; what comes of it if it isn't said."""
        if note is None:
            return {}
        answer = self.desk.ask(notes.line_of(note[0], seq, note[1]))[0].split(" ")
        return {} if answer[0] == "asked" else {"unsaid": WHY_REFUSED.get(answer[-1], "The node refuses it.")}


def after(balances: list[int], settled: list[list[dict[str, Any]]]) -> list[int]:
    """Returns balances once these entries are settled too."""
    balances = list(balances)
    for entry in itertools.chain.from_iterable(settled):
        if entry["to"] is not None:
            balances[entry["account"]] -= entry["amount"]
            balances[entry["to"]] += entry["amount"]
    return balances


def entry_of(line: str, account: int) -> dict[str, Any]:
    """Returns the entry that a line of ENTRIES or WAITING tells of: number and seq; payee and amount, which are None if
    it moves nothing; and the text of a note, or None."""
    words = line.split(" ", 6)
    entry = {"account": account, "entry": int(words[2]), "seq": int(words[4]), "to": None, "amount": None, "note": None}
    if words[5] == "to":
        entry["to"], entry["amount"] = map(int, words[6].split(" "))
    elif words[5] == "note":
        entry["note"] = words[6]
    return entry
