"""Tells how a member is, at a glance, and whether anything wants attention.

usage: payd status [--data FOLDER] [--group GROUP] [--keys KEYS] [--socket PATH] [--json]

FOLDER is $PAYD_DATA or else ./member. The first line is `well`, or names what wants attention: a node that doesn't
answer or doesn't write its figures, payments that stand still as too few members run, a peer that lied, isn't met, or
whose frames don't open, a payment that the balance is short of, an account that has few numbers left, a clock that is
far from the last time in the folder. Then: who this is; balance and what is free of it; what waits; what has settled of
its own, and when; values left; peers, and of each when it was heard and how many of this member's frames it hasn't
asked for; since when the node runs, its version and whether it is proved; history and log, as it wrote them last; the
last payments from and to it, with their notes.
Status: 0 well; 1 something wants attention; 2 for words or files.
"""

from __future__ import annotations

import argparse
import datetime
import json
import os
from typing import Any, Iterator

from payd_tools import account, notes, usage
from payd_tools.desk_client import NoAnswer
from payd_tools.desk_view import MOST, Wrong
from payd_tools.figures import FIGURES, OLD, is_starting, read_figures, standstill
from payd_tools.nearby_program import is_proved
from payd_tools.times import Times, text_of

WELL, ATTENTION, WRONG = range(3)
VALUES, UTC = 65_536, datetime.timezone.utc
UNSURE = ", which is unsure: the clock was wrong"
# So many values left want attention.
FEW_VALUES = VALUES // 10
# How many of the payments that wait are listed, and of those that settled last, among how many entries an account.
LISTED, LAST, AMONG = 5, 3, 8


def with_time(entry: dict[str, Any], times: Times) -> dict[str, Any]:
    """Returns an entry as `payd follow` shows it."""
    place = entry["account"], entry["entry"]
    unsure = {} if times.is_sure(*place) else {"unsure": True}
    return {**{name: it for name, it in entry.items() if name != "seen"}, "time": text_of(times.when(*place)), **unsure}


class Status:
    def __init__(self, given: argparse.Namespace) -> None:
        self.account = account.Account(given.data, given.group, given.keys, given.socket)
        self.view, self.attention = self.account.view, []
        self.text = self.view.unit.text
        self.told = {"member": self.account.own, "name": self.name(), "genesis": (self.account.digest or "")[:8]}
        self.figures = read_figures(given.data)
        try:
            self.ask()
        except NoAnswer as why:
            self.attention.append(f"{why}: start the node")
        except Wrong as why:
            self.attention.append(str(why))
        else:
            self.look_at_figures()
        process = self.view.desk.process()
        self.told["proved"] = process and is_proved(process)
        path = os.path.join(given.data, account.LOG)
        log_bytes = os.path.getsize(path) if os.path.exists(path) else None
        names = "peers_met", "peers_lost", "history_entries_total", "history_durable_entries_total", "age", "version"
        self.told.update(log_bytes=log_bytes, **{it: self.figures.get(it) for it in names})
        began = self.figures.get("start_time_seconds")
        self.told["peers"] = [self.peer(own, **it) for own, it in self.figures.get("peers", {}).items()]
        self.told["began"] = None if began is None else text_of(datetime.datetime.fromtimestamp(began, UTC))

    def name(self, own: int | None = None) -> str | None:
        own, names = self.account.own if own is None else own, self.account.names
        return names[own] if own < len(names) else None

    def peer(
        self,
        own: int,
        met: int,
        unopened: int,
        asked_frames_total: int,
        lied: int = 0,
        silent_seconds: int | None = None,
    ) -> dict[str, Any]:
        """Returns what is known of a peer, which asks for frames before there are some."""
        # (those of somebody else are no news where the peer itself is met)
        unopened = unopened and not met
        if unopened:
            self.attention.append(f"frames in the name of peer {own} don't open")
        if lied:
            self.attention.append(f"peer {own} lied, and nothing more is read from it: payd evidence shows it")
        silent = None if silent_seconds is None else silent_seconds + self.figures["age"]
        behind = max(0, self.figures["sent_frames_total"] - asked_frames_total)
        seen = {"met": bool(met), "unopened": bool(unopened), "lied": bool(lied), "silent_seconds": silent}
        return {"peer": own, "name": self.name(own), **seen, "behind": behind}

    def ask(self) -> None:
        view, own = self.view, self.account.own
        view.read_sums()
        front = view.read_front()
        self.told.update(members=len(front), balance=view.balance, free=view.free(), short=view.short)
        self.told.update(view.unit.parts())
        self.told["waiting"] = [*notes.joined(view.waiting)]
        last = [view.entries_from(it, max(0, end - AMONG), end) for it, end in enumerate(front)]
        view.keep(front, last)
        times = self.account.times.known()
        doubt = times.doubt(datetime.datetime.now(UTC))
        self.attention += [] if doubt is None else [doubt]
        entries = [*notes.joined(view.entries)][:LAST]
        self.told["last"] = [with_time(it, times) for it in entries]
        settled = last[own][-1:]
        last_settled = times.when(own, front[own] - 1) if front[own] else None
        self.told.update(settled=front[own], last_settled=text_of(last_settled))
        self.told["last_is_sure"] = times.is_sure(own, front[own] - 1)
        last = (view.waiting or settled)[-1:]
        # (of more that wait than an answer has it is at least as many)
        used = last[0]["seq"] + 1 if last else 0
        self.told.update(values_used=used, values_left=VALUES - used)
        if view.short:
            self.attention.append(f"a payment waits, which the balance is short of by {self.text(view.short)}")
        if VALUES - used <= FEW_VALUES:
            self.attention.append(f"{VALUES - used} values of {VALUES} are left: plan the next group")

    def look_at_figures(self) -> None:
        met, peers, age = self.figures.get("peers_met"), self.told["members"] - 1, self.figures.get("age", 0)
        still = standstill(self.figures, self.account.faults)
        if met is None:
            self.attention.append(f"the node answers, and writes no figures to {FIGURES} in {self.account.folder}")
        elif age > OLD:
            self.attention.append(f"the node's figures are {age} seconds old")
        elif still:
            self.attention.append(still)
        elif met < peers and not is_starting(self.figures):
            self.attention.append(f"{met} of {peers} peers are met")

    def lines(self) -> Iterator[str]:
        told = self.told
        yield f"attention: {'; '.join(self.attention)}" if self.attention else "well"
        of = f" of {told['members']}" if "members" in told else ""
        named = "" if told["name"] is None else f" {told['name']}"
        yield f"member {told['member']}{named}{of}, genesis {told['genesis']}"
        if "balance" in told:
            # (so much may wait that it isn't known)
            yield f"balance {self.text(told['balance'])}, free {self.text(max(0, told['free'] or 0))}"
            yield from self.lines_of_waiting()
            last = told["last_settled"]
            unsure = "" if told["last_is_sure"] else UNSURE
            yield f"settled {told['settled']}" + (f", the last by {last}{unsure}" if last else "")
            yield f"values left {told['values_left']} of {VALUES}"
        if self.figures:
            yield f"peers met {told['peers_met']}, lost {told['peers_lost']}"
            yield from map(self.line_of_peer, told["peers"])
            if told["began"]:
                proof = {True: ", proved", False: ", not proved", None: ""}[told["proved"]]
                yield f"running since {told['began']}, version {told['version']}{proof}"
            entries, durable = told["history_entries_total"], told["history_durable_entries_total"]
            yield f"history {entries} entries, {durable} on the disk, as of {told['age']} seconds ago"
        if told["log_bytes"] is not None:
            yield f"log {told['log_bytes']} bytes"
        if "last" in told:
            yield from self.lines_of_last()

    def line_of_peer(self, seen: dict[str, Any]) -> str:
        said = ["lied" if seen["lied"] else "met" if seen["met"] else "not met"]
        if seen["silent_seconds"] is not None:
            said.append(f"heard {seen['silent_seconds']} seconds ago")
        said += [f"behind by {seen['behind']} frames"] if seen["behind"] else []
        said += ["frames in its name don't open"] if seen["unopened"] else []
        named = "" if seen["name"] is None else f" {seen['name']}"
        return f"  peer {seen['peer']}{named}: {', '.join(said)}"

    def lines_of_waiting(self) -> Iterator[str]:
        waiting, short = self.told["waiting"], self.told["short"]
        most = " or more" if len(waiting) >= MOST else ""
        yield f"waiting {len(waiting)}{most}" + (f", the first short of {self.text(short)}" if short else "")
        for it in waiting[:LISTED]:
            to = "nothing" if it["to"] is None else f"{self.text(it['amount'])} to {self.account.called(it['to'])}"
            if it["note"] is not None:
                to = f"note: {usage.shown(it['note'])}" if it["to"] is None else f'{to} "{usage.shown(it["note"])}"'
            yield f"  seq {it['seq']}: {to}"

    def lines_of_last(self) -> Iterator[str]:
        """Yields the payments that settled last, newest first."""
        paid = [it for it in self.told["last"] if it["to"] is not None]
        yield from ["last payments"] * bool(paid)
        for it in paid:
            called, said = self.account.called, "" if it["note"] is None else f' "{usage.shown(it["note"])}"'
            who = f"{called(it['account'])} paid {self.text(it['amount'])} to {called(it['to'])}"
            yield f"  {it['time'] or '-'} {who}{said}{UNSURE if it.get('unsure') else ''}"


@usage.tool(Wrong, WRONG)
def main() -> int:
    words = usage.parser(__doc__)
    account.add_words(words)
    given = words.parse_args()
    status = Status(given)
    attention = {"well": not status.attention, "attention": status.attention}
    print(json.dumps({**attention, **status.told}) if given.json else "\n".join(status.lines()), flush=True)
    return ATTENTION if status.attention else WELL
