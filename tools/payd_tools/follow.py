"""Writes a line for each payment that settles, until it is interrupted.

usage: payd follow [--data FOLDER] [--group GROUP] [--keys KEYS] [--socket PATH] [--from E,F,..] [--all] [--json]

FOLDER is $PAYD_DATA or else ./member. The payments are those by and to the own account, or with --all those of all
accounts. They are those that settle from now on, or with --from those from entry E of each account on, or from the
entries E,F,.. of accounts 0, 1 and on: each line has its payer's account and entry, so the number after that goes on
behind it. A payment has the note of its payer behind it, for which its line waits at most a second; a note that comes
later or without its payment stands apart. --json writes an object a line, with account, entry, seq, to and amount,
where a void entry has null, note, the text of an entry that is one or of the payment's note, and time.

The time, in UTC, is when the node saw it settle, by the file `times` in its folder, or the present one where the file
doesn't tell yet; - or null where it never did. One that a wrong clock told is unsure: the line says so, or --json by
`unsure`. Then it is by the next right time.

It goes on when the node ends and starts again, and loses and repeats nothing meanwhile.
"""

from __future__ import annotations

import argparse
import collections
import datetime
import json
import time
from typing import Any

from payd_tools import account, notes, usage
from payd_tools.desk_client import NoAnswer
from payd_tools.desk_view import MOST, Wrong
from payd_tools.times import text_of

# How often it asks whether anything has settled, in seconds: of a polled reading a node keeps one receipt.
PAUSE = 0.2
# How long a payment's line waits for its note, in seconds, and among how many entries behind it the note is sought.
HELD, AMONG = 1.0, 32
UNSURE = ", at a time that is unsure: the clock was wrong"
WRONG = 2


class Follower:
    def __init__(self, given: argparse.Namespace) -> None:
        self.given = given
        self.account = account.Account(given.data, given.group, given.keys, given.socket)
        self.view = self.account.view
        self.next = None
        # of each account the entries that were read and not shown yet, each with the moment at which it was read; and
        # the notes that were shown with their payments
        self.read, self.said = collections.defaultdict(collections.deque), set()
        # up to where entries had settled before, of which only the file knows when
        self.before, self.times = None, None

    def begin(self, front: list[int]) -> None:
        given = self.given.since
        self.next = list(front) if given is None else given * len(front) if len(given) == 1 else given
        if len(self.next) != len(front):
            raise Wrong(f"--from takes one number, or {len(front)}")
        self.before = front

    def look(self) -> None:
        front = self.view.read_front()
        if self.next is None:
            self.begin(front)
        if any(it < end for it, end in zip(self.next, front)) and self.account.times:
            self.times = self.account.times.known()
        for payer, end in enumerate(front):
            while self.next[payer] < end:
                self.take(payer, self.view.entries_from(payer, self.next[payer], min(end, self.next[payer] + MOST)))
                self.show_read(payer)

    def take(self, payer: int, entries: list[dict[str, Any]]) -> None:
        self.next[payer] = entries[-1]["entry"] + 1
        self.read[payer] += [(time.monotonic(), entry) for entry in entries]

    def show_read(self, payer: int) -> None:
        """Shows what was read of an account up to a payment whose note may still come."""
        read = self.read[payer]
        while read:
            moment, entry = read[0]
            note = self.note_of(entry, read)
            is_new = entry["entry"] >= self.before[payer] and time.monotonic() < moment + HELD
            if entry["to"] is not None and note is None and is_new and len(read) <= AMONG:
                return
            read.popleft()
            self.show(entry if note is None else {**entry, "note": note})

    def note_of(self, entry: dict[str, Any], read: collections.deque) -> str | None:
        """Returns what is said of a payment in what was read behind it, if it is."""
        if entry["to"] is None:
            return None
        payments = {(entry["account"], entry["seq"])}
        behind = [(it["account"], it["seq"], it["note"]) for _, it in read]
        found = notes.paired(payments, behind[: AMONG + 1]).get((entry["account"], entry["seq"]))
        if found is None:
            return None
        self.said.add(found[:2])
        return found[2]

    def is_sure(self, entry: dict[str, Any]) -> bool:
        return self.times is None or self.times.is_sure(entry["account"], entry["entry"])

    def time_of(self, entry: dict[str, Any]) -> str | None:
        """Returns when it settled, in words."""
        moment = self.times and self.times.when(entry["account"], entry["entry"])
        if moment is None and entry["entry"] >= self.before[entry["account"]]:
            moment = datetime.datetime.now(datetime.timezone.utc)
        return text_of(moment)

    def is_shown(self, entry: dict[str, Any]) -> bool:
        """Returns whether it is wanted, and no note that stands with its payment already."""
        key = entry["account"], entry["seq"]
        if entry["to"] is None and key in self.said:
            return False
        return self.given.all or self.account.own in (entry["account"], entry["to"])

    def show(self, entry: dict[str, Any]) -> None:
        if not self.is_shown(entry):
            return
        moment = self.time_of(entry)
        if self.given.json:
            unsure = {} if self.is_sure(entry) else {"unsure": True}
            print(json.dumps({**entry, "time": moment, **unsure}), flush=True)
            return
        called, to = self.account.called, entry["to"]
        what = "paid nothing" if to is None else f"paid {self.view.unit.text(entry['amount'])} to {called(to)}"
        if entry["note"] is not None:
            note = usage.shown(entry["note"])
            what = f"said: {note}" if to is None else f'{what} "{note}"'
        said = f"{called(entry['account'])} {what}, seq {entry['seq']} entry {entry['entry']}"
        print(f"{moment or '-'} {said}{'' if self.is_sure(entry) else UNSURE}", flush=True)

    def follow(self) -> None:
        is_answered = True
        while True:
            try:
                self.look()
                is_answered = True
                for payer in self.read:
                    self.show_read(payer)
            except NoAnswer as why:
                if is_answered:
                    usage.tell(f"{why}; it is asked again")
                is_answered = False
            time.sleep(PAUSE)


@usage.tool(Wrong, WRONG)
def main() -> int:
    words = usage.parser(__doc__)
    account.add_words(words)
    words.add_argument("--from", dest="since", type=usage.numbers, metavar="E,F,..", help="from which entry on")
    words.add_argument("--all", action="store_true", help="payments of others too")
    try:
        Follower(words.parse_args()).follow()
    except (KeyboardInterrupt, BrokenPipeError):
        # (whoever reads has enough, as `head` has)
        usage.drop_output()
        return 0
