"""Pays an account by name or number from a member's own node, and waits until that has settled.

usage: payd pay [--data FOLDER] [--group GROUP] [--keys KEYS] [--socket PATH] [--order TEXT] [--yes]
                [--no-wait] [--timeout SECONDS] [--even-if-uncovered] [--note TEXT] [--json] TO AMOUNT

The node of FOLDER, which is $PAYD_DATA or else ./member, has to listen there, or on PATH. Names are those of GROUP, or
of group.json in the folder.

An order is paid once, however often it is given and whatever ends this command: its id is drawn and kept in the folder
before the node is asked. Without --order it has a number of its own, which standard error says before the node is
asked. An order that is kept was agreed to: given again it goes on, or tells what came of it. Once the node was asked,
standard error names the order unless standard output says that it is settled.

At a terminal it asks before it pays; elsewhere it takes --yes. What the balance doesn't cover once all that waits is
paid isn't asked for, but with --even-if-uncovered: until enough comes in it waits then, and each later payment of this
account behind it. What the whole group doesn't own is never asked for.

Behind the payment, --note says TEXT of it in the member's own name, which everyone in the group can read. It is kept
with the order and said once.

With --no-wait, or after --timeout, it tells how far the payment is, which goes on by itself. --json writes one object
for a script: order, to, amount, seq, state, whether the order was kept before, and if it has them its note with the
note's seq and the group's unit. Amounts in it are whole numbers.

Status: 0 settled; 1 not paid: refused, not covered, or not agreed to; 2 for words or files; 3 where it isn't known
what came of it, as the node doesn't answer or what is said can't be written: give the order again that standard error
names; 4 asked for, not settled yet: it goes on by itself.
"""

from __future__ import annotations

import argparse
import json
import signal
import sys
import time
from typing import Any

from payd_tools import account, notes, usage
from payd_tools.desk_client import NoAnswer
from payd_tools.desk_view import BEYOND, COVERED, WHY_REFUSED, Refused, Wrong, checked_note
from payd_tools.orders import Kept, Orders, draw_id

SETTLED, NOT_PAID, WRONG, NO_ANSWER, UNSETTLED = range(5)
# What may be another answer soon, of the desk's refusals.
PASSING = "TooEarly", "Memory"
# How often it asks whether a payment has settled, and how long it says nothing of what that waits for, in seconds.
PAUSE, QUIET = 0.2, 1.0
SIGNALS = signal.SIGINT, signal.SIGTERM, signal.SIGHUP
NO_DESK = "what answers there is no node's desk"


class Ends(Exception):
    """Why it ends without having settled a payment, and with which status."""

    def __init__(self, status: int, why: str) -> None:
        super().__init__(why)
        self.status = status


def read_words() -> argparse.Namespace:
    words = usage.parser(__doc__)
    account.add_words(words)
    words.add_argument("--yes", action="store_true", help="pays without asking")
    words.add_argument("--no-wait", action="store_true", help="doesn't wait until it has settled")
    seconds = usage.number(31_536_000, 1)
    words.add_argument("--timeout", metavar="SECONDS", type=seconds, help="how long it waits until it has settled")
    words.add_argument("--even-if-uncovered", action="store_true", help="asks for what the balance doesn't cover")
    words.add_argument("--order", metavar="TEXT", help="what is paid once, however often it is given")
    words.add_argument("--note", metavar="TEXT", help="what is said with it, for all of the group to read")
    words.add_argument("to", metavar="TO", help="the account that is paid, by name or number")
    words.add_argument("amount", metavar="AMOUNT", help="how much, as 1000, or 12.50 in a group with a unit")
    return words.parse_args()


class Payment:
    def __init__(self, given: argparse.Namespace) -> None:
        self.given, self.order = given, str(draw_id()) if given.order is None else given.order
        if not self.order or not self.order.isprintable():
            raise Wrong("an order is a text that can be printed")
        self.note = None if given.note is None else checked_note(given.note)
        self.account = account.Account(given.data, given.group, given.keys, given.socket)
        self.desk, self.orders = self.account.desk, Orders(given.data)
        self.to, self.amount = self.account.number_of(given.to), self.account.view.amount_of(given.amount)
        if self.to == self.account.own:
            raise Wrong(f"{given.to}: that is this account itself")
        self.unit = self.account.view.unit
        self.what = self.what_of(self.amount, self.to)
        self.seq = self.note_seq = self.said = None
        # whether the node was given the order's line: each end names the order from then on
        self.is_given = False

    def what_of(self, amount: int, to: int) -> str:
        return f"{self.unit.text(amount)} to {self.account.called(to)}"

    # ---- before it is asked for

    def kept(self) -> tuple[Kept | None, bool]:
        """Returns what is kept of the order, and whether it was before."""
        kept = self.orders.find(self.order)
        is_again = kept is not None
        if not is_again:
            self.check_cover()
            self.agree()
            kept = self.orders.keep(self.order, self.to, self.amount, self.note)
        if kept.line.split(" ")[2:] != [str(self.to), str(self.amount)]:
            to, amount = map(int, kept.line.split(" ")[2:])
            raise Ends(NOT_PAID, f"order {self.order} is another payment: {self.what_of(amount, to)}")
        if self.note not in (None, kept.note and kept.note[1]):
            was = f"another note: {kept.note[1]}" if kept.note else "no note"
            raise Ends(NOT_PAID, f"order {self.order} has {was}")
        return kept, is_again

    def check_cover(self) -> None:
        """Whether it isn't covered, which has to be said then."""
        verdict, view, text = self.account.view.verdict(self.amount), self.account.view, self.unit.text
        if verdict == BEYOND:
            raise Ends(NOT_PAID, f"{text(self.amount)} is more than the whole group owns, {text(view.total)}")
        if verdict != COVERED and not self.given.even_if_uncovered:
            # (so much may wait that what is free isn't known)
            free = f"{text(max(0, view.free() or 0))} is free of the balance of {text(view.balance)}"
            why = f"{self.what} would wait, and each later payment of this account behind it"
            raise Ends(NOT_PAID, f"{free}: {why} (--even-if-uncovered)")

    def agree(self) -> None:
        if self.given.yes:
            return
        if not sys.stdin.isatty():
            raise Wrong("there is no terminal to ask at: --yes pays without")
        print(f"pay {self.what}, {self.question()} [y/N] ", end="", file=sys.stderr, flush=True)
        if sys.stdin.readline().strip().lower() not in ("y", "yes"):
            raise Ends(NOT_PAID, "not paid")

    def question(self) -> str:
        """Returns what it comes to, by the answers that said whether it is covered."""
        free = self.account.view.free()
        if free is not None and self.amount <= free:
            return f"which leaves {self.unit.text(free - self.amount)} free?"
        short = "more than what is free" if free is None else f"{self.unit.text(self.amount - free)} more than is free"
        blocks = "until that comes in it waits, and each later payment of this account behind it"
        return f"which is {short}: {blocks}?"

    # ---- from then on

    def ask(self, line: str) -> int:
        answer = self.desk.pay(line)[0]
        if not answer.startswith("asked "):
            reason = answer.rpartition(" ")[2]
            why = WHY_REFUSED.get(reason, "The node refuses it.")
            raise Ends(NO_ANSWER if reason in PASSING else NOT_PAID, f"{answer}: {why.rstrip('.')}")
        return int(answer.split(" ")[3])

    def give(self, kept: Kept) -> None:
        """Gives the order's line, and then its note."""
        if self.given.order is None:
            usage.tell(f"order {self.order}, which is paid once however often --order gives it")
        self.is_given = True
        self.seq = self.ask(kept.line)
        if kept.note is None:
            return
        number, text = kept.note
        self.said = text
        try:
            self.note_seq = self.ask(notes.line_of(number, self.seq, text))
        except Ends as end:
            if end.status == NO_ANSWER:
                raise
            usage.tell(f"its note isn't said: {end}")

    def look(self) -> tuple[str, str]:
        """Returns how far the payment is, and what it waits for."""
        own, view = self.account.own, self.account.view
        state = view.ask(f"STATE {own} {self.seq}")[0].rpartition(" ")[2]
        if state != "waiting":
            why = self.account.standstill() or "it waits for more of the group's members"
            return state, "" if state == "settled" else why
        waiting, short = view.read_waiting()
        short = self.unit.text(short)
        if waiting and waiting[0]["seq"] < self.seq:
            return state, f"it waits for an earlier payment, seq {waiting[0]['seq']}, which is short of {short}"
        return state, f"it waits for the balance, which is short of {short}"

    def settle(self) -> str:
        """Waits until it has settled, and says now and then what it waits for; how far it came."""
        begun, said, state, leaves = time.monotonic(), None, "asked", " (Ctrl-C leaves it: it goes on by itself)"
        try:
            while True:
                try:
                    state, why = self.look()
                except NoAnswer as fault:
                    why = f"{fault}; it goes on with its node"
                if state == "settled":
                    return state
                waited = time.monotonic() - begun
                is_over = self.given.no_wait or waited > (self.given.timeout or waited)
                if why != said and (is_over or waited > QUIET):
                    usage.tell(f"seq {self.seq}: {why}{'' if is_over else leaves}")
                    said, leaves = why, ""
                if is_over:
                    return state
                time.sleep(PAUSE)
        except KeyboardInterrupt:
            return state

    def show(self, state: str, is_again: bool) -> None:
        if self.given.json:
            told = {"order": self.order, "to": self.to, "amount": self.amount, "seq": self.seq, "state": state}
            said = {} if self.note_seq is None else {"note": self.said, "note_seq": self.note_seq}
            print(json.dumps({**told, "again": is_again, **said, **self.unit.parts()}), flush=True)
        else:
            said = "" if self.note_seq is None else f", note seq {self.note_seq}"
            print(f"{state}: {self.what}, order {self.order}, seq {self.seq}{said}", flush=True)

    def pay(self) -> int:
        kept, is_again = self.kept()
        if is_again:
            usage.tell(f"order {self.order} was given before: it is one payment")
        self.give(kept)
        state = self.settle()
        if state != "settled":
            usage.tell(f"order {self.order}, seq {self.seq}: it goes on by itself; {self.again()}")
        self.show(state, is_again)
        return SETTLED if state == "settled" else UNSETTLED

    # ---- how it ends otherwise

    def again(self) -> str:
        return f"--order {self.order} tells what came of it, and pays once"

    def end_by(self, fault: Any) -> int:
        """Returns the status for what ended it once the node was given the order's line, of which standard error
        tells."""
        if isinstance(fault, OSError):
            fault = f"what came of it can't be written ({fault.strerror})"
        elif isinstance(fault, (ValueError, IndexError)):
            fault = NO_DESK
        usage.tell(f"order {self.order}: {str(fault) or 'interrupted'}; {self.again()}")
        if isinstance(fault, KeyboardInterrupt) and self.seq is not None:
            return UNSETTLED
        return fault.status if isinstance(fault, Ends) else NO_ANSWER


def end_before(fault: Any) -> int:
    """Returns the status for what ended it before anything was asked for, of which standard error tells."""
    status, why = NOT_PAID, fault
    if isinstance(fault, KeyboardInterrupt):
        why = "not paid"
    elif isinstance(fault, Wrong):
        status = NOT_PAID if isinstance(fault, Refused) else WRONG
    elif isinstance(fault, OSError):
        status, why = NO_ANSWER, f"{fault.filename or 'a stream'}: {fault.strerror}: nothing was asked for"
    elif not isinstance(fault, Ends):
        status, why = NO_ANSWER, f"{fault if isinstance(fault, NoAnswer) else NO_DESK}: nothing was asked for"
    usage.tell(why)
    return fault.status if isinstance(fault, Ends) else status


def be_interrupted(*_: int | object) -> None:
    """Has a signal end it as an interrupt does, and none that comes behind it."""
    for it in SIGNALS:
        signal.signal(it, signal.SIG_IGN)
    raise KeyboardInterrupt


@usage.tool()
def main() -> int:
    for it in SIGNALS:
        if signal.getsignal(it) != signal.SIG_IGN:
            signal.signal(it, be_interrupted)
    payment = None
    try:
        payment = Payment(read_words())
        return payment.pay()
    except (Ends, Wrong, NoAnswer, OSError, ValueError, IndexError, KeyboardInterrupt) as fault:
        if isinstance(fault, OSError):
            usage.drop_output()
        return payment.end_by(fault) if payment and payment.is_given else end_before(fault)
