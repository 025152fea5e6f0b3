"""A slow model of an audit's verdict, exports to try it on, and the audits of what runs of `payd sim` leave.

It is written from docs/clauses.md: which front is the largest is found among all fronts that steps reach. It
shares no code with the crates.
"""

import json

from payd_tools.frames import payment, payments
from payd_tools.model import Ended, World
from payd_tools.values import entries, numbered_entries
from support.runs import run, same, with_files

A = payment(payee=0, amount=5).hex()
B = payment(payee=1, amount=5).hex()


def export(opening, lists, front, balances, member=0, faults=None):
    members = len(opening)
    return {
        "members": members,
        "faults": (members - 1) // 3 if faults is None else faults,
        "opening": opening,
        "member": member,
        "lists": lists,
        "front": front,
        "balances": balances,
    }


# Exports of a group of four with one liar, whose account 3 begins with 50. The first has a payment of 5 to account 0
# settled, the second nothing, the third one to account 1 in place of it.
PAID = export([0, 0, 0, 50], [[], [], [], [A]], [0, 0, 0, 1], [5, 0, 0, 45])
FRESH = export([0, 0, 0, 50], [[], [], [], []], [0, 0, 0, 0], [0, 0, 0, 50], member=1)
FORKED = export([0, 0, 0, 50], [[], [], [], [B]], [0, 0, 0, 1], [0, 5, 0, 45], member=2)

# Two of an account that pays five which it hasn't, each to another account.
WAITING = [{**FRESH, "lists": [[payment(payee=payee, amount=5).hex()], [], [], []]} for payee in (1, 2)]

# One of an account that pays five, and nothing to itself, in one value: that is two entries.
TWO_ENTRIES = export([100, 0, 0, 50], [[], [], [], [payments([(1, 5), (3, 1)]).hex()]], [0, 0, 0, 2], [100, 5, 0, 45])

# One of two accounts. The first has opened with 9 and paid 2 and 3 in one value, then nothing to itself, then 4; the
# second has paid 5 back, and 11 wait that it hasn't.
WORKED = export(
    [9, 0],
    [
        [payments([(1, 2), (1, 3)]).hex(), payment(payee=0, amount=1).hex(), payment(payee=1, amount=4).hex()],
        [payment(payee=0, amount=5).hex(), payment(payee=0, amount=11).hex()],
    ],
    [4, 1],
    [5, 4],
)

# One whose first account has paid what the second one had paid to it.
PAID_ON = export([0, 10], [[payment(payee=1, amount=6).hex()], [payment(payee=0, amount=10).hex()]], [1, 1], [4, 6])

# What a row is for, exports, and the line that their audit has to print.
ROWS = [
    ("one export with a payment", [PAID], "clean"),
    ("the same export twice", [PAID, PAID], "clean"),
    ("a member that is behind, after one that is not", [PAID, FRESH], "clean"),
    ("a member that is behind, before one that is not", [FRESH, PAID], "clean"),
    (
        "the third export has another payment than the first; the second has none",
        [PAID, FRESH, FORKED],
        "4 fork 0 2 owner 3 seq 0",
    ),
    ("two forks: the least pair is named", [FRESH, PAID, FORKED, FORKED], "4 fork 1 2 owner 3 seq 0"),
    (
        "the first export's fork goes before one of two others",
        [WAITING[0], PAID, FORKED, FRESH, WAITING[1]],
        "4 fork 0 4 owner 0 seq 0",
    ),
    ("a front that is behind its own lists", [{**PAID, "front": [0, 0, 0, 0]}], "2 front 0 account 3"),
    ("a front that is ahead of its own lists", [FRESH, {**FRESH, "front": [0, 1, 0, 0]}], "2 front 1 account 1"),
    ("the greatest number as a front", [{**PAID, "front": [0, 0, 0, 2**64 - 1]}], "2 front 0 account 3"),
    (
        "balances of which the first that is wrong is named",
        [{**PAID, "balances": [0, 0, 0, 50]}],
        "3 balance 0 account 0",
    ),
    (
        "the greatest number as a balance, in the second export",
        [PAID, {**PAID, "balances": [5, 0, 0, 2**64 - 1]}],
        "3 balance 1 account 3",
    ),
    (
        "a wrong front goes before the wrong balance of an earlier export",
        [{**PAID, "balances": [0, 0, 0, 50]}, {**PAID, "front": [0, 0, 0, 0]}],
        "2 front 1 account 3",
    ),
    ("a wrong balance goes before a fork", [{**PAID, "balances": [0, 0, 0, 50]}, FORKED], "3 balance 0 account 0"),
    ("other opening balances", [PAID, {**FRESH, "opening": [0, 0, 0, 51]}], "1 genesis 1"),
    ("another number of faults, in the third export", [PAID, PAID, {**PAID, "faults": 0}], "1 genesis 2"),
    (
        "a group of another size goes before a wrong front",
        [{**PAID, "front": [0, 0, 0, 0]}, export([7], [[]], [0], [7])],
        "1 genesis 1",
    ),
    (
        "a value that is no payment settles as a void entry",
        [{**PAID, "lists": [[], [], [], [A, "ff"]], "front": [0, 0, 0, 2]}, PAID],
        "clean",
    ),
    (
        "hexadecimal in capitals, and an empty value, which is a void entry",
        [{**PAID, "lists": [[], [], [], [A.upper(), ""]], "front": [0, 0, 0, 2]}, PAID],
        "clean",
    ),
    ("two entries of one value, one of them void", [TWO_ENTRIES], "clean"),
    ("a front between the entries of one value", [{**TWO_ENTRIES, "front": [0, 0, 0, 1]}], "2 front 0 account 3"),
    (
        "a front behind the last entry of the last value",
        [{**TWO_ENTRIES, "front": [0, 0, 0, 3]}],
        "2 front 0 account 3",
    ),
    (
        "balances that leave a value of two entries out",
        [TWO_ENTRIES, {**TWO_ENTRIES, "balances": [100, 0, 0, 50]}],
        "3 balance 1 account 1",
    ),
    (
        "a value that says two pairs and has none is one void entry",
        [{**TWO_ENTRIES, "lists": [[], [], [], ["0200"]], "front": [0, 0, 0, 1], "balances": [100, 0, 0, 50]}],
        "clean",
    ),
]

# What is wrong, an export's members that are changed, and the fault of its file.
FAULTS = [
    ("lists are left out", {"lists": None}, "2 BadShape"),
    ("the front is left out", {"front": None}, "2 BadShape"),
    ("balances are left out", {"balances": None}, "2 BadShape"),
    ("member is left out", {"member": None}, "2 BadShape"),
    ("members is left out", {"members": None}, "2 BadShape"),
    ("faults is left out", {"faults": None}, "2 BadShape"),
    ("opening is left out", {"opening": None}, "2 BadShape"),
    ("member is the number of members", {"member": 4}, "2 BadShape"),
    ("member is below 0", {"member": -1}, "2 BadShape"),
    ("member has a point", {"member": 1.0}, "2 BadShape"),
    ("member is a text", {"member": "0"}, "2 BadShape"),
    ("a list too few", {"lists": [[], [], []]}, "2 BadShape"),
    ("a list too many", {"lists": [[], [], [], [], []]}, "2 BadShape"),
    ("an object in place of a list", {"lists": [[], [], [], {}]}, "2 BadShape"),
    ("a number in place of a value", {"lists": [[], [], [], [5]]}, "2 BadShape"),
    ("half a byte", {"lists": [[], [], [], ["0"]]}, "2 BadShape"),
    ("a letter that is no digit", {"lists": [[], [], [], ["0g"]]}, "2 BadShape"),
    ("a value of 1,025 bytes", {"lists": [[], [], [], [1025 * "00"]]}, "2 BadShape"),
    ("65,537 values in a list", {"lists": [[], [], [], 65537 * [""]]}, "2 BadShape"),
    ("a front too short", {"front": [0, 0, 0]}, "2 BadShape"),
    ("a text in the front", {"front": [0, 0, 0, "0"]}, "2 BadShape"),
    ("balances too long", {"balances": [0, 0, 0, 50, 0]}, "2 BadShape"),
    ("a balance below 0", {"balances": [0, 0, 0, -50]}, "2 BadShape"),
    ("members doesn't fit the lists", {"members": 5}, "2 BadShape"),
    ("no member, and member isn't below that", {"members": 0}, "2 BadShape"),
    ("129 members", {"members": 129, "lists": 129 * [[]], "front": 129 * [0], "balances": 129 * [0]}, "3 BadGenesis"),
    ("as many faults as half of the group", {"faults": 2}, "3 BadGenesis"),
    ("the greatest number of faults", {"faults": 2**64 - 1}, "3 BadGenesis"),
    ("an opening too short", {"opening": [0, 0, 50]}, "3 BadGenesis"),
    ("openings of 2^64 together", {"opening": [2**63, 2**63, 0, 0]}, "3 BadGenesis"),
    ("a front of no length goes before faults that are too many", {"faults": 2, "front": []}, "2 BadShape"),
]


def changed(members):
    """The text of the first export with these members changed, or left out where they are None."""
    kept = {name: value for name, value in {**PAID, **members}.items() if value is not None}
    return json.dumps(kept)


# ---- the model


def balance(given, front, account, accounts=None):
    accounts = accounts or entries_of(given)
    settled = [(owner, e) for owner, es in enumerate(accounts) for e in es[: front[owner]] if e]
    came = sum(amount for _, (payee, amount) in settled if payee == account)
    went = sum(amount for owner, (_, amount) in settled if owner == account)
    return given["opening"][account] + came - went


def entries_of(given):
    members = given["members"]
    return [
        [it for text in texts for it in entries(bytes.fromhex(text), owner, members)]
        for owner, texts in enumerate(given["lists"])
    ]


def largest_front(given):
    """The one of all fronts that steps reach which is as far as each other at every account."""
    accounts = entries_of(given)
    reached, left = set(), [tuple(0 for _ in accounts)]
    while left:
        front = left.pop()
        if front in reached:
            continue
        reached.add(front)
        for account, place in enumerate(front):
            if place < len(accounts[account]):
                e = accounts[account][place]
                if e is None or balance(given, front, account, accounts) >= e[1]:
                    left.append(front[:account] + (place + 1,) + front[account + 1 :])
    return max(reached, key=sum)


def verdict(exports):
    """The line that an audit of these exports prints."""
    genesis = ("members", "faults", "opening")
    for x, given in enumerate(exports):
        if any(given[name] != exports[0][name] for name in genesis):
            return f"1 genesis {x}"
    for x, given in enumerate(exports):
        for account, (place, right) in enumerate(zip(given["front"], largest_front(given))):
            if place != right:
                return f"2 front {x} account {account}"
    for x, given in enumerate(exports):
        for account, amount in enumerate(given["balances"]):
            if amount != balance(given, given["front"], account):
                return f"3 balance {x} account {account}"
    for x, one in enumerate(exports):
        for y in range(x + 1, len(exports)):
            for owner, (values, others) in enumerate(zip(one["lists"], exports[y]["lists"])):
                for seq, (value, other) in enumerate(zip(values, others)):
                    if bytes.fromhex(value) != bytes.fromhex(other):
                        return f"4 fork {x} {y} owner {owner} seq {seq}"
    return "clean"


def findings(named):
    """All lines of an audit of exports, each with the name of its file."""
    first = named[0][1]
    genesis = ("members", "faults", "opening")
    lines = [verdict([given for _, given in named])]
    group = []
    for name, given in named:
        if all(given[part] == first[part] for part in genesis):
            group.append((name, given))
        else:
            lines.append(f"1 genesis in {name}")
    for name, given in group:
        front = largest_front(given)
        for account in range(given["members"]):
            right = {"2 front": front[account], "3 balance": balance(given, front, account)}
            for (kind, number), said in zip(right.items(), (given["front"][account], given["balances"][account])):
                if number != said:
                    lines.append(f"{kind} account {account} says {said} right {number} in {name}")
    for owner in range(first["members"]):
        for seq in range(max(len(given["lists"][owner]) for _, given in group)):
            listing = {}
            for name, given in group:
                if seq < len(given["lists"][owner]):
                    listing.setdefault(given["lists"][owner][seq].lower(), []).append(name)
            for text, names in listing.items() if len(listing) > 1 else ():
                listed = entries(bytes.fromhex(text), owner, first["members"])
                said = " ".join(f"to {e[0]} amount {e[1]}" if e else "void" for e in listed)
                lines.append(f"4 fork owner {owner} seq {seq} {said} exports {len(names)} in {' '.join(names)}")
    return lines


def statement(given, account):
    """The lines of an account's statement, by the lists and the opening balances alone."""
    front = largest_front(given)
    settled = [numbered_entries(given, owner)[:place] for owner, place in enumerate(front)]
    own = [f"out {seq} to {e[0]} {e[1]}" if e else f"void {seq}" for seq, e in settled[account]]
    incoming = [
        f"in {owner} {seq} {e[1]}" for owner, es in enumerate(settled) for seq, e in es if e and e[0] == account
    ]
    return [*own, *incoming, f"end {account} balance {balance(given, front, account)}"]


def journal(given, date):
    """The journal of an export, each transaction on this date, as one text."""
    accounts = range(given["members"])
    front = largest_front(given)
    lines = [*(f"account account:{account}" for account in accounts), "account equity:opening"]
    lines += ["", f"{date} opening balances"]
    lines += [f"    account:{account}  {given['opening'][account]}" for account in accounts]
    lines += ["    equity:opening"]
    for account in accounts:
        for number, (seq, entry) in enumerate(numbered_entries(given, account)[: front[account]]):
            name = f"account {account} seq {seq} entry {number}"
            if entry is None:
                lines += ["", f"; void {name}"]
                continue
            payee, amount = entry
            lines += ["", f"{date} ({account}.{number}) {name}"]
            lines += [f"    account:{account}  -{amount}", f"    account:{payee}  {amount}"]
    return "".join(f"{line}\n" for line in lines)


# ---- random exports


def random_value(random, members):
    if random.random() < 0.15:
        texts = ["", "ff", "01000100000000000000", "0100010000000000000000", "0200", "0201000100000000000000"]
        return random.choice(texts)
    if random.random() < 0.25:
        parts = [(random.randrange(members + 1), random.randrange(6)) for _ in range(random.randrange(1, 4))]
        return payments(parts).hex()
    return payment(payee=random.randrange(members + 1), amount=random.randrange(1, 12)).hex()


def random_exports(random):
    """A few exports of members of one group, most of them right."""
    members = random.randrange(1, 5)
    opening = [random.choice([0, 0, 5, 10]) for _ in range(members)]
    lists = [[random_value(random, members) for _ in range(random.randrange(5))] for _ in range(members)]
    exports = []
    for _ in range(random.randrange(1, 5)):
        own = [values[: random.randrange(len(values) + 1)] for values in lists]
        if random.random() < 0.15 and any(own):
            values = random.choice([values for values in own if values])
            values[random.randrange(len(values))] = random_value(random, members)
        given = booked(export(opening, own, [], [], member=random.randrange(members)))
        for name in ("front", "balances", "opening"):
            if random.random() < 0.05:
                given[name] = list(given[name])
                given[name][random.randrange(members)] += random.choice([1, 2])
        exports.append(given)
    return exports


def booked(given):
    """The export with the books that its lists have."""
    given["front"] = list(largest_front(given))
    given["balances"] = [balance(given, given["front"], account) for account in range(given["members"])]
    return given


def forked(given, random):
    """Exports that have prefixes of this one's lists, many of them empty, and now and then another value: forks
    between few pairs, so that it shows in which order these are asked."""
    exports = []
    for _ in range(random.randrange(3, 9)):
        lists = [texts[: random.choice([0, 0, len(texts)])] for texts in given["lists"]]
        some = [texts for texts in lists if texts]
        if some and random.random() < 0.5:
            texts = random.choice(some)
            texts[random.randrange(len(texts))] = random_value(random, given["members"])
        exports.append(booked({**given, "lists": lists}))
    return exports


# ---- runs audited


def audit(exports, *words):
    """The audit of these exports, each in a file of its own."""
    files = {f"{place}.json": given for place, given in enumerate(exports)}
    return with_files(files, ["audit", *words, *files])


def played(lines):
    """The model's world after the lines of a script, or None where one of them ends the run."""
    world = World(lines[0])
    try:
        for line in lines[1:]:
            world.run_line(line)
    except Ended:
        return None
    return world


def exports_in(world, lines):
    """What correct members export after a script that ends with `show`: what is shown, and the model's lists."""
    status, output, errors = run(["sim"], "".join(f"{line}\n" for line in lines).encode("ascii"))
    same((status, errors), (0, ""), f"{lines}")
    exports, shown_lines = [], output.splitlines()[-len(world.members) :]
    same(len(shown_lines), len(world.members), f"the members shown of {lines}")
    for (number, member), line in zip(world.members.items(), shown_lines):
        name, shown, fronts, *words = line.split(" ")
        same((name, shown, fronts, words[world.count]), ("member", f"{number}", "fronts", "balances"), line)
        lists = [[value.hex() for value in values] for values in member.lists()]
        front, balances = map(int, words[: world.count]), map(int, words[world.count + 1 :])
        exports.append(export(world.opening, lists, [*front], [*balances], member=number, faults=member.faults))
    return exports
