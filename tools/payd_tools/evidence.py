"""Writes the votes by which a peer lied, of a member's log, or checks those that another wrote.

usage: payd evidence --data FOLDER [--group GROUP] [--keys KEYS] [--account A --number S] > evidence.json
       payd evidence --check FILE.. --group GROUP --keys KEYS

A member that follows the rules sends at most one SEND, ECHO and READY under each number of an account, to all alike,
and SENDs of its own account alone. --data reads the log of the member in FOLDER, whose node may run, but what came
since its last answer may not be there yet. It writes the votes of one kind that a peer sent it under one number, where
these are two or a SEND about another's account: frames with their tags, as the keys give them. With --account and
--number it writes all votes there too, as for exports that fork: those that several members took are then checked
together.

--check says of each lie what it shows to the member whose keys these are. A tag is by a key that two members share, and
either can make it. So the frames show their receiver that their sender lied, that its folder was copied, or that
somebody else has their key. To their sender they show that it sent them or that the receiver made them up. Nobody else
can check them. To everybody else they are a claim of the file about these members, which whoever wrote it can have made
up. If the receiver signed the file by `payd sign`, they are the receiver's own claim. A file without a lie is said to
have what it has.

The status of --data is 0 if the log has no lie, else 1; that of --check is 0 if each frame is right and there are lies,
each shown to that member, else 1. It is 2 if words or files are wrong.
"""

from __future__ import annotations

import json
import os
from collections import namedtuple
from typing import Iterable, Iterator

from payd_tools import logs, signing, usage
from payd_tools.account import GROUP, KEYS, LOG
from payd_tools.frames import ECHO, READY, SEND, frame, read_frame
from payd_tools.groups import GENESIS, Group, about, read_keys, read_members, read_object
from payd_tools.usage import Failure
from payd_tools.values import entries

VOTES = {SEND: "SEND", ECHO: "ECHO", READY: "READY"}
SEQS = 65536
# How many of a value's bytes are shown.
SHOWN = 24

# What a vote is about, who sent it and of which kind it is; who took it, for which value, and in which frame; and the
# file that has it, with the member who signed that, or None.
Topic = namedtuple("Topic", "sender kind owner seq")
Vote = namedtuple("Vote", "topic receiver value number frame source signer", defaults=(None, None))


def vote_of(stream: bytes, group: Group) -> Vote | None:
    """Returns the vote that a frame is, if its receiver may have taken it."""
    found = read_frame(stream)
    if isinstance(found, str) or found[0] not in VOTES:
        return None
    kind, sender, receiver, number, (_, owner, seq, value), _ = found
    is_known = sender != receiver and max(sender, receiver, owner) < group.members
    return Vote(Topic(sender, kind, owner, seq), receiver, value, number, stream) if is_known else None


def by_topic(votes: Iterable[Vote]) -> list[tuple]:
    """Returns the votes under each topic, two for each value and receiver at most."""
    found = {}
    for it in votes:
        same = found.setdefault(it.topic, {}).setdefault((it.receiver, it.value), {})
        if len(same) < 2:
            same.setdefault(it.number, it)
    return [[it for same in values.values() for it in same.values()] for values in found.values()]


def is_lie(votes: list[Vote]) -> bool:
    """Returns whether no correct member sent all of these votes under one topic."""
    values, receivers = ({getattr(it, name) for it in votes} for name in ("value", "receiver"))
    is_repeated = len({(it.receiver, it.number) for it in votes}) > len(receivers)
    is_foreign = any(it.topic.kind == SEND and it.topic.sender != it.topic.owner for it in votes)
    return len(values) > 1 or is_repeated or is_foreign


# ---- in words


def told(vote: Vote, group: Group) -> str:
    """Returns the value of a vote, and its first bytes, for two may pay the same."""
    pays = [it and f"{it[1]} to {group.called(it[0])}" for it in entries(vote.value, vote.topic.owner, group.members)]
    shown = vote.value[:SHOWN].hex() + ".." * (len(vote.value) > SHOWN)
    return f"{', '.join(it or 'nothing' for it in pays)} ({shown or 'empty'})"


def sentence(votes: list[Vote], group: Group, own: int | None = None, is_shown: bool = True) -> str:
    """Returns what votes under one topic say together, and of each whether it is known or a claim: to a member, or to
    the one who took them."""
    sender, kind, owner, seq = votes[0].topic
    whose = "its own account" if owner == sender else f"the account of {group.called(owner)}"
    heard = "; ".join(f"{group.called(it.receiver)} {heard_by(it, own)} {told(it, group)}" for it in votes)
    voted = "voted" if is_shown else "is said to have voted"
    return f"{group.called(sender)} {voted} {VOTES[kind]} under number {seq} of {whose}: {heard}"


def can_check(vote: Vote, own: int | None) -> bool:
    """Returns whether a member has the key of a vote's tag."""
    return own in (None, vote.topic.sender, vote.receiver)


def heard_by(vote: Vote, own: int | None) -> str:
    """Returns how far it is known to a member that the receiver of a vote heard it, in words."""
    if can_check(vote, own):
        return "heard"
    return "says that it heard" if vote.signer == vote.receiver else "is said to have heard"


def claims(own: int, votes: list[Vote], group: Group) -> Iterator[str]:
    """Yields of the votes that a member can't check whose claim they are, a sentence for each."""
    for it in dict.fromkeys(it._replace(value=None, number=None, frame=None) for it in votes):
        if not can_check(it, own):
            source, receiver = usage.shown(it.source), group.called(it.receiver)
            if it.signer is None:
                claim = f"a claim of {source} about {group.called(it.topic.sender)} and {receiver}: nobody signed it"
                yield f"What {receiver} is said to have heard is {claim}"
            else:
                able = " and can make such tags too" if it.signer == it.receiver else ""
                yield f"What {receiver} heard is a claim of {group.called(it.signer)}, who signed {source}{able}"


def shown_to(own: int, votes: list[Vote], group: Group) -> tuple[bool, list[str]]:
    """Returns whether votes under one topic, of which no tag is wrong as far as a member can tell, show it that their
    sender lied; and what they show, in sentences."""
    sender, me, more = votes[0].topic.sender, group.called(own), [*claims(own, votes, group)]
    if not is_lie([it for it in votes if can_check(it, own)]):
        return False, more
    if own == sender:
        others = " and ".join(group.called(it) for it in dict.fromkeys(it.receiver for it in votes))
        return True, [f"The tags are right: {me} sent this, or {others} made it up"]
    why = f"{group.called(sender)} lied, its folder was copied, or somebody else has their key"
    return True, [f"The tags are right. This shows {me}: {why}. To everybody else it is a claim", *more]


# ---- of a member's log


def votes_in(name: str, group: Group, own: int, keys: list[bytes]) -> Iterator[Vote | None]:
    """Yields all votes that a member took, of the whole records in its log."""
    with about(name):
        with open(name, "rb") as file:
            text = file.read()
        log = logs.Log({it: getattr(group, it) for it in GENESIS}, own, keys)
        try:
            payloads, _ = log.payloads(text)
        except logs.Fault as fault:
            raise Failure(f"log {fault}") from fault
    for payload in payloads:
        yield from (vote_of(it[2], group) for it in log.records_in(payload) if it[0] == logs.FRAME)


def write_evidence(name: str, group: Group, own: int, keys: list[bytes], place: tuple[int | None, int | None]) -> int:
    first, topics = {}, set()
    for it in votes_in(name, group, own, keys):
        if is_lie([first.setdefault(it.topic, it), it]):
            topics.add(it.topic)
    taken = votes_in(name, group, own, keys)
    found = by_topic(it for it in taken if it.topic in topics or it.topic[2:] == place)
    parts = {"group": group.digest(), "receiver": own, "accused": sorted({it.sender for it in topics})}
    parts["findings"] = [sentence(it, group) for it in found if it[0].topic in topics]
    votes = (it for votes in found for it in votes)
    parts["frames"] = [{"says": sentence([it], group), "frame": it.frame.hex()} for it in votes]
    print(json.dumps(parts, indent=1))
    return 1 if topics else 0


# ---- of another member


def frames_in(name: str, group: Group) -> list[bytes]:
    """Returns the bytes of the frames in a file of evidence."""
    with about(name):
        given = read_object(name)
        try:
            frames = [bytes.fromhex(it["frame"]) for it in given["frames"]]
        except (KeyError, TypeError, ValueError) as error:
            raise Failure("it is no evidence") from error
        if given.get("group") != group.digest():
            raise Failure("it is of another group")
        return frames


def signer_of(name: str, group: Group) -> tuple[int | None, list[str]]:
    """Returns who signed a file of evidence, or None where nobody did, and why its signature is wrong, if it is."""
    if not os.path.lexists(signing.path_of(name)):
        return None, []
    found = signing.read_signed(name, group, "evidence")
    return (found.member, []) if found.is_signed else (None, [f"{usage.shown(name)}: {found.said}"])


def fault_of(vote: Vote | None, group: Group, own: int, keys: list[bytes]) -> str | None:
    """Returns why a frame is no evidence, as far as the member with these keys can tell."""
    if vote is None:
        return "it is no vote of a member to another"
    (sender, kind, owner, seq), receiver = vote.topic, vote.receiver
    if own in (sender, receiver):
        key = keys[sender + receiver - own]
        if frame(kind, sender, receiver, vote.number, owner, seq, vote.value, key) != vote.frame:
            return f"its tag isn't by the key of {group.called(sender)} and {group.called(receiver)}"
    return None


def check(names: list[str], group: Group, own: int, keys: list[bytes]) -> int:
    votes, faults = [], []
    for name in names:
        frames, (signer, why) = frames_in(name, group), signer_of(name, group)
        faults += why
        for place, stream in enumerate(frames):
            vote = vote_of(stream, group)
            why = fault_of(vote, group, own, keys)
            faults += [f"{usage.shown(name)}: frame {place}: {why}"] if why else []
            votes += [vote._replace(source=name, signer=signer)] if vote else []
    if faults:
        print("\n".join(faults))
        return 1
    # (of what two files have, the one that is signed says whose claim it is)
    topics = by_topic(sorted(votes, key=lambda it: it.signer is None))
    found = [(it, *shown_to(own, it, group)) for it in topics if is_lie(it)]
    for it, is_shown, what in found or [(it, False, [*claims(own, it, group)]) for it in topics]:
        voted = is_shown or any(can_check(vote, own) for vote in it)
        print(". ".join([sentence(it, group, own, voted), *what]) + ".")
    if not found:
        print(f"{counted(len(votes))}, and no lie among them: nothing is shown of anybody")
    return 0 if found and all(is_shown for _, is_shown, _ in found) else 1


def counted(count: int) -> str:
    return f"{count or 'no'} frame{'' if count == 1 else 's'}"


@usage.tool(status=usage.WRONG_USAGE)
def main() -> int:
    words = usage.parser(__doc__)
    what = words.add_mutually_exclusive_group(required=True)
    what.add_argument("--data", metavar="FOLDER", help="the folder of the member whose log is read")
    what.add_argument("--check", metavar="FILE", nargs="+", help="evidence that is checked")
    words.add_argument("--group", help="the group's file")
    words.add_argument("--keys", help="the member's file of keys")
    words.add_argument("--account", type=usage.number(), help="of which account all votes are written")
    words.add_argument("--number", type=usage.number(), help="under which number of it")
    given = words.parse_args()
    place = given.account, given.number
    if given.check and (place != (None, None) or None in (given.group, given.keys)):
        words.error("--check takes --group and --keys")
    if place.count(None) == 1:
        words.error("--account and --number go together")
    group = read_members(given.group or os.path.join(given.data, GROUP))
    if None not in place and not (0 <= given.account < group.members and 0 <= given.number < SEQS):
        raise Failure(f"there is no number {given.number} of account {given.account}")
    own, keys = read_keys(given.keys or os.path.join(given.data, KEYS), group)
    if given.check:
        return check(given.check, group, own, keys)
    return write_evidence(os.path.join(given.data, LOG), group, own, keys, place)
