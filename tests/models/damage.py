"""Damaged input, and what the formats say of it: models of `check` and of each kind of file.

They are written from docs/formats.md, docs/errors.md and docs/commands.md, and share no code with the crates.
"""

import json

from models import audits
from payd_tools.frames import ECHO, HEAD, READY, SEND, WANT, fault_in_head, frame, read_frame
from payd_tools.values import entries
from support.runs import GENESIS, of_file, of_keys

MOST_MEMBERS = 128
GREATEST = 2**64
GREATEST_TOTAL = 2**63 - 1
MOST_VALUE = 1024
MOST_LIST = 65536
OWN = 1

KINDS = {SEND: "send", ECHO: "echo", READY: "ready"}


# ---- damage


def changed(seeded, given):
    """These bytes with one to four small changes."""
    for _ in range(seeded.choice([1, 1, 1, 2, 4])):
        given = seeded.choice(CHANGES)(seeded, given)
    return given


def cut(seeded, given):
    """Two places of the bytes, in order and mostly near one another."""
    first = seeded.randrange(len(given) + 1)
    return first, min(len(given), first + seeded.choice([1, 1, 2, 4, 30]))


def bit_turned(seeded, given):
    if not given:
        return given
    place = seeded.randrange(len(given))
    return given[:place] + bytes([given[place] ^ 1 << seeded.randrange(8)]) + given[place + 1 :]


def left_out(seeded, given):
    first, last = cut(seeded, given)
    return given[:first] + given[last:]


def doubled(seeded, given):
    first, last = cut(seeded, given)
    return given[:last] + given[first:]


def put_in(seeded, given):
    place = seeded.randrange(len(given) + 1)
    pieces = [b"\0", b"\xff", b" ", b"\n", b"\r", b"0", b"9", b"-", b'"', b",", b"[", b"]", b"{}", b".", b"e1"]
    pieces += [b"\\u0000", b"18446744073709551616", b"\xc3\x28", b"null"]
    return given[:place] + seeded.choice(pieces) + given[place:]


def ended(seeded, given):
    return given[: seeded.randrange(len(given) + 1)]


def replaced(seeded, given):
    first, last = cut(seeded, given)
    return given[:first] + bytes(seeded.randrange(256) for _ in range(last - first)) + given[last:]


# What may stand in a file in place of anything else.
OTHERS = [None, True, "", "0", "ff", "0g", [], {}, 0, 1, 2, 4, 64, 65, 128, 129, -1, 1.0, 65536]
OTHERS += [GREATEST_TOTAL, GREATEST - 1, GREATEST]


def changed_value(seeded, value):
    """This value with something in it left out, doubled or replaced."""
    inside = isinstance(value, (list, dict)) and len(value) > 0
    if not inside or seeded.random() < 0.1:
        return seeded.choice(OTHERS)
    if isinstance(value, dict):
        name = seeded.choice(sorted(value))
        if seeded.random() < 0.1:
            return {it: value[it] for it in value if it != name}
        return {**value, name: changed_value(seeded, value[name])}
    place, chance = seeded.randrange(len(value)), seeded.random()
    if chance < 0.2:
        return value[:place] + value[place + 1 :]
    if chance < 0.4:
        return value[:place] + [value[place]] + value[place:]
    return [*value[:place], changed_value(seeded, value[place]), *value[place + 1 :]]


def changed_file(seeded, value):
    """The text of this value, of which the value is changed or the text."""
    if seeded.random() < 0.7:
        return json.dumps(changed_value(seeded, value)).encode()
    return changed(seeded, json.dumps(value).encode())


CHANGES = [bit_turned, bit_turned, left_out, doubled, put_in, ended, replaced]


# ---- check


def frames(seeded):
    """Frames to member 1, most of them as they may come."""
    stream = []
    following = {}
    for _ in range(seeded.randrange(1, 6)):
        kind = seeded.choice([SEND, ECHO, READY, WANT])
        sender = seeded.choice([0, 0, 2, 3, 3, 9])
        number = following.get(sender, 0) if seeded.random() < 0.8 else seeded.choice([0, 1, GREATEST - 1])
        following[sender] = (number + 1) % GREATEST
        if kind == WANT:
            stream.append(frame(WANT, sender, OWN, number))
            continue
        value = bytes(seeded.randrange(256) for _ in range(seeded.choice([0, 1, 11, 30])))
        owner, seq = seeded.choice([0, 1, 3, 4]), seeded.choice([0, 1, 65535])
        stream.append(frame(kind, sender, OWN, number, owner=owner, seq=seq, value=value))
    return b"".join(stream)


def frame_in_front(stream):
    """The size of the frame in front, or number and name of the fault, with the input's end after the stream."""
    size = 2 + int.from_bytes(stream[:2], "big")
    return fault_in_head(stream) or (size if len(stream) >= max(size, HEAD.size) else "7 Truncated")


def check(stream, tells_values=False):
    """Status, output and errors of `check` as member 1 of the group that it takes without a file."""
    lines, following, members = [], {}, GENESIS["members"]
    while stream:
        number, size = len(lines) + 1, frame_in_front(stream)
        if isinstance(size, str):
            lines.append(f"{number} fault {size}")
            break
        lines.append(f"{number} {judged(stream[:size], following, members)}")
        if tells_values:
            lines[-1] += value_line(stream[:size], members)
        stream = stream[size:]
    text = "".join(f"{line}\n" for line in lines)
    return (1 if stream else 0), text, ""


def value_line(given, members):
    """What the value of a frame pays, as a line behind the frame's own; nothing of a WANT."""
    kind, _, _, _, (_, owner, _, value), _ = read_frame(given)
    if kind == WANT:
        return ""
    told = ("void" if pair is None else f"{pair[0]} {pair[1]}" for pair in entries(value, owner, members))
    return f"\n  pays {' '.join(told)}"


def judged(given, following, members):
    """What the member makes of a frame, whose number it then wants next."""
    kind, sender, to, number, (_, owner, seq, value), is_right = read_frame(given)
    if to != OWN:
        return "refused 1 NotForMe"
    if sender >= members or sender == OWN:
        return "refused 2 UnknownSender"
    if owner >= members:
        return "refused 3 UnknownOwner"
    if not is_right:
        return "refused 4 BadTag"
    if kind == WANT:
        return f"want from {sender} number {number}"
    wanted = following.get(sender, 0)
    if number != wanted:
        return f"refused {'5 Repeat' if number < wanted else '6 Gap'} next {wanted}"
    following[sender] = number + 1
    return f"ok {KINDS[kind]} from {sender} number {number} owner {owner} seq {seq} value {len(value)}"


# ---- files


class NoJson(Exception):
    """Text that has no value."""


def refuse(_):
    raise NoJson


def finite(text):
    value = float(text)
    if value in (float("inf"), float("-inf")):
        raise NoJson
    return value


def read_json(given):
    """The value of a text. A number with a sign is none that a file may have, so it is told as a fraction."""
    try:
        text = given.decode("utf-8")
        value = json.loads(
            text,
            parse_int=lambda it: 0.5 if it.startswith("-") else int(it) if len(it) < 400 else finite(it),
            parse_float=lambda it: finite(it) + 0.0,
            parse_constant=refuse,
        )
        json.dumps(value, ensure_ascii=False).encode("utf-8")
        return value
    except (UnicodeError, ValueError, RecursionError) as error:
        raise NoJson from error


def is_number(value):
    return type(value) is int and value < GREATEST


def are_numbers(value):
    return isinstance(value, list) and all(is_number(it) for it in value)


def genesis_shape(value):
    return (
        isinstance(value, dict)
        and is_number(value.get("members"))
        and is_number(value.get("faults"))
        and are_numbers(value.get("opening"))
    )


def limits_fault(value):
    """The first limit that a group doesn't keep."""
    members, faults, opening = value["members"], value["faults"], value["opening"]
    if not 1 <= members <= MOST_MEMBERS:
        return "3 BadCount"
    if members <= 3 * faults:
        return "4 BadFaults"
    if len(opening) != members:
        return "5 BadOpening"
    return "6 BadTotal" if sum(opening) > GREATEST_TOTAL else None


def fault_of(given, shape, limits):
    """The first fault of a file's bytes, by its shape and then by its limits."""
    try:
        value = read_json(given)
    except NoJson:
        return "1 BadJson"
    return limits(value) if shape(value) else "2 BadShape"


def genesis_fault(given):
    return fault_of(given, genesis_shape, limits_fault)


def keys_fault(given, members):
    def shape(value):
        keys = value.get("keys") if isinstance(value, dict) else None
        return isinstance(keys, list) and is_number(value.get("own")) and all(isinstance(it, str) for it in keys)

    def is_key(text, is_own):
        digits = "0123456789abcdefABCDEF"
        return text == "" if is_own else len(text) == 64 and all(it in digits for it in text)

    def limits(value):
        own, keys = value["own"], value["keys"]
        if own >= members:
            return "3 BadOwn"
        if len(keys) != members:
            return "4 BadKeyCount"
        return None if all(is_key(text, peer == own) for peer, text in enumerate(keys)) else "5 BadKey"

    return fault_of(given, shape, limits)


def ports_fault(given, members):
    def shape(value):
        ports = value.get("ports") if isinstance(value, dict) else None
        return are_numbers(ports) and len(ports) == members and all(1 <= it <= 65535 for it in ports)

    return fault_of(given, shape, lambda _: None)


def is_value_text(text):
    if not isinstance(text, str) or len(text) % 2 or len(text) > 2 * MOST_VALUE:
        return False
    return all(it in "0123456789abcdefABCDEF" for it in text)


def export_shape(value):
    if not genesis_shape(value) or not is_number(value.get("member")):
        return False
    members, lists = value["members"], value.get("lists")
    return (
        value["member"] < members
        and isinstance(lists, list)
        and len(lists) == members
        and all(isinstance(it, list) and len(it) <= MOST_LIST and all(map(is_value_text, it)) for it in lists)
        and all(are_numbers(value.get(name)) and len(value[name]) == members for name in ("front", "balances"))
    )


def audit(files):
    """Status, output and errors of an audit of these files, named e0 and on."""
    exports = []
    for place, given in enumerate(files):
        fault = fault_of(given, export_shape, lambda value: "3 BadGenesis" if limits_fault(value) else None)
        if fault:
            return 2, "", of_file(f"export {fault}", f"e{place}")
        exports.append(read_json(given))
    line = audits.verdict(exports)
    return (0 if line == "clean" else 1), f"{line}\n", ""


def file_answer(what, fault, given):
    """Status, output and errors of a run on nothing, whose file, named by its first letter, has this fault or none."""
    if not fault:
        return 0, "", ""
    return 2, "", of_keys(fault, "k", given) if what == "keys" else of_file(f"{what} {fault}", what[0])


def some_genesis(seeded):
    faults = seeded.choice([0, 0, 1, 2, 21])
    members = seeded.choice([1, 2, 3 * faults + 1, 3 * faults + 2])
    opening = [seeded.choice([0, 1, 100, GREATEST_TOTAL // members, 2**63]) for _ in range(members)]
    return {"members": members, "faults": faults, "opening": opening}
