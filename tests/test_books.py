"""Black-box tests of payd books: against texts by hand, and read strictly by hledger and ledger."""

import csv
import hashlib
import os
import random
import shutil
from concurrent.futures import ThreadPoolExecutor

import pytest

from models import audits, group_model
from models.audits import FRESH, PAID, WORKED
from models.scripts import RandomScripts
from payd_tools.frames import payment
from payd_tools.values import numbered_entries
from support.nodes import write_json
from support.runs import TOP, call, same, write_text
from test_journal import hledger, ledger, told

BOOKS = os.path.join(TOP, "tools", "books")
DAY = "2026-03-05"
TIMES = "2026-03-01T10:00:00Z 1 0\n2026-03-02T00:00:00Z 3 0\n2026-03-04T23:59:59Z 3 1\n"


def group_of(given, *names, **more):
    """A group's file of an export."""
    parts = {it: given[it] for it in ("members", "faults", "opening")}
    parts.update(ports=[11000 + it for it in range(given["members"])], group="9" * 64, **more)
    parts["public"] = [f"{it:064x}" for it in range(given["members"])]
    return {**parts, "names": list(names)} if names else parts


def digest_of(group):
    return hashlib.sha256(group_model.canonical(group).encode("ascii")).hexdigest()


def books(folder, group, given, *words):
    """Status, journal and errors of the books of an export."""
    write_json(folder, "group", group)
    write_json(folder, "export", given)
    return call([BOOKS, "--group", "group", "--date", DAY, *words, "export"], folder=folder)


def declared(unit, *names):
    accounts = ["assets", "equity:opening", *(f"assets:{it}" for it in names)]
    kinds = [(it, "E" if it.startswith("equity") else "A") for it in accounts]
    text = f"commodity {unit}\npayee opening balances\npayee closing balances\n"
    text += "".join(f"account {it}\n    ; type: {kind}\n" for it, kind in kinds)
    return text + "".join(f"account waiting:{it}\npayee {it}\n" for it in names)


OF_WORKED = """
2026-03-01 opening balances
    assets:Ann  0.09 EUR = 0.09 EUR
    assets:Bo Li  0.00 EUR = 0.00 EUR
    equity:opening  -0.09 EUR

2026-03-01 (0.0) Bo Li  ; account 0 seq 0 entry 0
    assets:Ann  -0.02 EUR
    assets:Bo Li  0.02 EUR

2026-03-02 (0.1) Bo Li  ; account 0 seq 0 entry 1
    assets:Ann  -0.03 EUR
    assets:Bo Li  0.03 EUR

; void account 0 seq 1 entry 2

2026-03-05 (0.3) Bo Li  ; account 0 seq 2 entry 3
    assets:Ann  -0.04 EUR
    assets:Bo Li  0.04 EUR

2026-03-04 (1.0) Bo Li  ; account 1 seq 0 entry 0
    assets:Bo Li  -0.05 EUR
    assets:Ann  0.05 EUR

2026-03-05 closing balances
    assets:Ann  0.00 EUR = 0.05 EUR
    assets:Bo Li  0.00 EUR = 0.04 EUR
"""

WAITING_IN_WORKED = """
; waiting: in no balance above

2026-03-05 ! (1.1) Bo Li  ; account 1 seq 1 entry 1
    waiting:Bo Li  -0.11 EUR
    waiting:Ann  0.11 EUR
"""


def worked(folder, *words):
    """Of the example the head of the books, and these, by which another group goes on."""
    group = group_of(WORKED, "Ann", "Bo Li")
    head = f"; group {digest_of(group)[:16]}, by Ann\n{declared('EUR', 'Ann', 'Bo Li')}"
    write_text(os.path.join(folder, "times"), TIMES)
    was = books(folder, group, WORKED, "--times", "times", "--commodity", "EUR/100", *words)
    return group, head, was


def test_books_by_hand(folder):
    """With a day of which no time tells, a void entry, and a payment that waits."""
    _, head, was = worked(folder)
    same(was, (0, head + OF_WORKED + WAITING_IN_WORKED, ""), "the books")
    write_text(os.path.join(folder, "times"), "2026-03-01T10:00:00Z 1 0 0\n")
    status, output, errors = call([BOOKS, "--group", "group", "--times", "times", "export"], folder=folder)
    same((status, output, errors), (1, "", "payd books: times: it is of another group\n"), "times of another group")


def note(text):
    return (b"\x03" + text.encode()).hex()


# Notes, two values that are none, and of the second account a note, a payment that waits, and a note behind it.
SAID = audits.export(
    [9, 0],
    [
        [note("seq 1 two cups, grüße"), payment(payee=1, amount=2).hex(), note("a\tb"), "03", note(1001 * "x")],
        [note("2026-01-01 payee: 5"), payment(payee=0, amount=20).hex(), note("behind")],
    ],
    [5, 1],
    [7, 2],
)
OF_SAID = f"""
; note account 0 seq 0 entry 0: seq 1 two cups, grüße

{DAY} (0.1) Bob  ; account 0 seq 1 entry 1
    assets:Ann  -2
    assets:Bob  2

; void account 0 seq 2 entry 2

; void account 0 seq 3 entry 3

; void account 0 seq 4 entry 4

; note account 1 seq 0 entry 0: 2026-01-01 payee: 5

{DAY} closing balances
    assets:Ann  0 = 7
    assets:Bob  0 = 2
"""
WAITING_IN_SAID = f"""
; waiting: in no balance above

{DAY} ! (1.1) Bob  ; account 1 seq 1 entry 1
    waiting:Bob  -20
    waiting:Ann  20

; note account 1 seq 2 entry 2: behind
"""


def test_notes_are_comments(folder):
    """What isn't the note of a text is void as before. Those that settled stay where a group goes on."""
    group = group_of(SAID, "Ann", "Bob")
    status, output, errors = books(folder, group, SAID)
    same((status, errors, output.endswith(OF_SAID + WAITING_IN_SAID)), (0, "", True), output)
    write_text(os.path.join(folder, "former"), output)
    given = audits.export([7, 2], [[], []], [0, 0], [7, 2])
    next_group = group_of(given, "Ann", "Bob", former=digest_of(group))
    status, output, errors = books(folder, next_group, given, "--continues", "former")
    same((status, errors, OF_SAID in output, WAITING_IN_SAID in output), (0, "", True, False), output)
    for program, balances_of in READERS.items():
        if shutil.which(program):
            write_text(os.path.join(folder, "both"), output.replace("ü", "ue").replace("ß", "ss"))
            read = {name: it for name, it in balances_of(os.path.join(folder, "both")).items() if it}
            same(read, {"assets:Ann": 7, "assets:Bob": 2, "equity:opening": -9}, f"{program}: both groups")


# A payment with its note, another account's note of it, and one that waits with its note.
NOTED = audits.export(
    [9, 0],
    [
        [payment(payee=1, amount=2).hex(), note("seq 0 Pizza; Friday"), note("seq 0 a second one")],
        [note("seq 0 of another's"), payment(payee=0, amount=20).hex(), note("seq 1 rent, 3 | 4")],
    ],
    [3, 1],
    [7, 2],
)
OF_NOTED = f"""
{DAY} (0.0) Bob | Pizza, Friday  ; account 0 seq 0 entry 0
    assets:Ann  -2
    assets:Bob  2

; note account 0 seq 1 entry 1: seq 0 Pizza; Friday

; note account 0 seq 2 entry 2: seq 0 a second one

; note account 1 seq 0 entry 0: seq 0 of another's

{DAY} closing balances
    assets:Ann  0 = 7
    assets:Bob  0 = 2

; waiting: in no balance above

{DAY} ! (1.1) Bob | rent, 3 | 4  ; account 1 seq 1 entry 1
    waiting:Bob  -20
    waiting:Ann  20
"""


def test_notes_stand_with_their_payments(folder):
    """As what programs that keep books call the description, so that they find it."""
    status, output, errors = books(folder, group_of(NOTED, "Ann", "Bob"), NOTED)
    same((status, errors, output.endswith(OF_NOTED)), (0, "", True), output)
    path = os.path.join(folder, "journal")
    write_text(path, output)
    for program, balances_of in READERS.items():
        if shutil.which(program):
            read = {name: it for name, it in balances_of(path).items() if it}
            same(read["assets:Bob"], 2, f"{program}: the balance")
    if shutil.which("hledger"):
        rows = hledger_rows(path, "register", "desc:pizza", "assets:Ann")[1:]
        same([it[-2] for it in rows], ["-2"], "what is found by its note")
        same(told(hledger(path, "payees", "desc:pizza")), "Bob\n", "its payee")


def test_books_of_a_group_without_names(folder):
    """Between two others the payee is the one that is paid; amounts have no commodity."""
    status, output, errors = books(folder, group_of(PAID), {**PAID, "member": 1})
    same((status, errors), (0, ""), "the books")
    same("\ncommodity 1000.\n" in output, True, "the commodity that has no name")
    wanted = f"""
{DAY} (3.0) member 0  ; account 3 seq 0 entry 0
    assets:member 3  -5
    assets:member 0  5

{DAY} closing balances
    assets:member 0  0 = 5
    assets:member 1  0 = 0
    assets:member 2  0 = 0
    assets:member 3  0 = 45
"""
    same(output.endswith(wanted), True, output)


def test_amounts_of_a_commodity(folder):
    """Every digit of the greatest amount."""
    given = audits.export([2**63 - 1, 0], [[payment(payee=1, amount=2**63 - 1).hex()], []], [1, 0], [0, 2**63 - 1])
    for word, amount in (
        ("Coin", "9223372036854775807 Coin"),
        ("Coin/1", "9223372036854775807 Coin"),
        ("Coin/10", "922337203685477580.7 Coin"),
        ("Coin/1000000000000000000", "9.223372036854775807 Coin"),
    ):
        status, output, errors = books(folder, group_of(given, "Ann", "Bob"), given, "--commodity", word)
        same((status, errors), (0, ""), word)
        same(f"    assets:Ann  -{amount}\n    assets:Bob  {amount}\n" in output, True, output)
    for word in ("", "E", "eur", "EUR/", "EUR/2", "EUR/0", "EUR/10000000000000000000", "EUR 1", "E\u0421", "Eu;"):
        status, output, errors = books(folder, group_of(given), given, "--commodity", word)
        same((status, output, "argument --commodity" in errors), (2, "", True), word)


# A group for which another goes on, in which Ann left what she had to Bo Li, and Cy and Di brought something.
GROWN = audits.export([9, 0, 7, 2], [[payment(payee=1, amount=1).hex()], [], [], []], [1, 0, 0, 0], [8, 1, 7, 2])
LEAVES = "--leaves", "Ann:Bo Li"
OF_GROWN = f"""
{DAY} opening balances
    assets:Ann  -0.05 EUR = 0.00 EUR
    assets:Bo Li  0.05 EUR = 0.09 EUR
    assets:Ed  0.00 EUR = 0.00 EUR
    assets:Cy  0.07 EUR = 0.07 EUR
    assets:Di  0.02 EUR = 0.02 EUR
    equity:opening  -0.09 EUR

{DAY} (0.0) Ed  ; account 0 seq 0 entry 0
    assets:Bo Li  -0.01 EUR
    assets:Ed  0.01 EUR

{DAY} closing balances
    assets:Bo Li  0.00 EUR = 0.08 EUR
    assets:Ed  0.00 EUR = 0.01 EUR
    assets:Cy  0.00 EUR = 0.07 EUR
    assets:Di  0.00 EUR = 0.02 EUR
"""


def grown(folder, *words, former=None, commodity="EUR/100", given=GROWN, names=("Bo Li", "Ed", "Cy", "Di"), more=""):
    """The books of the group that goes on, and its digest."""
    old, _, (_, output, _) = worked(folder)
    write_text(os.path.join(folder, "former"), output + more)
    group = group_of(given, *names, former=former or digest_of(old))
    return books(folder, group, given, "--commodity", commodity, "--continues", "former", *words), digest_of(group)


def test_books_of_two_groups_are_one(folder):
    (status, output, errors), digest = grown(folder, *LEAVES)
    same((status, errors), (0, ""), "the books")
    _, head, _ = worked(folder)
    accounts = "".join(f"account assets:{it}\n    ; type: A\n" for it in ("Ed", "Cy", "Di"))
    accounts += "".join(f"account waiting:{it}\npayee {it}\n" for it in ("Ed", "Cy", "Di"))
    same(output, f"{head}{OF_WORKED}\n; group {digest[:16]}, by Bo Li\n{accounts}{OF_GROWN}", "both groups' books")
    for program, balances_of in READERS.items():
        if shutil.which(program):
            write_text(os.path.join(folder, "both"), output)
            wanted = {"assets:Bo Li": 8, "assets:Ed": 1, "assets:Cy": 7, "assets:Di": 2, "equity:opening": -18}
            read = {name: it for name, it in balances_of(os.path.join(folder, "both")).items() if it}
            same(read, wanted, f"{program}: both groups")


def test_books_that_do_not_go_on(folder):
    """Each error names the account."""
    late = "2026-03-04T00:00:00Z 1 0 0 0\n"
    write_text(os.path.join(folder, "late"), late)
    opens = audits.export([8, 0, 7, 2], [[], [], [], []], [0, 0, 0, 0], [8, 0, 7, 2])
    left = "account Ann: the former group leaves 0.05 EUR in it, and this one has none: --leaves Ann:HEIR"
    has_less = "account Bo Li: the former group leaves 0.09 EUR in it, and this one opens with 0.08 EUR"
    for words, how, why in (
        ((), {}, left),
        (LEAVES, {"given": opens}, has_less),
        (("--leaves", "Ann:Ed"), {}, "Ann:Ed: --leaves takes one who left the group, and one who stayed"),
        (("--leaves", "Bo Li:Ann"), {}, "Bo Li:Ann: --leaves takes one who left the group, and one who stayed"),
        (LEAVES, {"former": "0" * 64}, "former: it is no journal of the group for which this one goes on"),
        (LEAVES, {"commodity": "EUR"}, "former: a balance in it is 0.05 EUR, which is in another commodity"),
        (LEAVES, {"commodity": "USD/100"}, "former: a balance in it is 0.05 EUR, which is in another commodity"),
        (LEAVES, {"more": "\n2026-03-06 a note\n"}, "former: it goes on behind what waits there, which is left out: put"
                                                      " that before it"),
        (LEAVES, {"names": ()}, "former: members need names, as their numbers may be others now"),
        ((*LEAVES, "--times", "late"), {}, "its first day is 2026-03-04, and the former group's last 2026-03-05"),
    ):
        (status, output, errors), _ = grown(folder, *words, **how)
        same((status, output, errors.endswith(f"{why}\n")), (1, "", True), errors)


def test_books_of_another_group(folder):
    was = books(folder, group_of(FRESH), WORKED)
    same(was, (1, "", "payd books: export: it is of another group than group\n"), "another group")
    same(books(folder, {}, WORKED)[0::2], (1, "payd books: group: it isn't an object with members, faults, opening,"
                                           " ports, group and public\n"), "no group")
    same(books(folder, group_of(FRESH), "x")[:2], (1, ""), "no export")


# ---- read by the programs that the books are for


def units(text):
    return int(text.split(" ")[0].replace(".", ""))


def hledger_rows(path, *words):
    return list(csv.reader(told(hledger(path, *words, "-O", "csv")).splitlines()))


def hledger_balances(path):
    told(hledger(path, "check", "--strict", "payees"))
    rows = hledger_rows(path, "balance", "--strict", "--empty", "--flat", "--no-total")
    return {name: units(amount) for name, amount in rows[1:]}


def ledger_balances(path):
    words = ("balance", "--pedantic", "--empty", "--flat", "--no-total", "--balance-format", "%(account)  %(total)\n")
    rows = (line.split("  ") for line in told(ledger(path, *words)).splitlines())
    return {name: units(amount) for name, amount in rows}


READERS = {"hledger": hledger_balances, "ledger": ledger_balances}


@pytest.mark.needs("hledger")
def test_what_a_treasurer_asks_hledger(folder):
    """Balances of a sheet and of months, who was paid, and what is pending, of the books that stand here by hand."""
    _, _, (_, output, _) = worked(folder)
    path = os.path.join(folder, "journal")
    write_text(path, output)
    sheet = [it for it in hledger_rows(path, "balancesheet", "--flat") if it[0].startswith("assets")]
    same(sheet, [["assets:Ann", "0.05 EUR"], ["assets:Bo Li", "0.04 EUR"]], "the balance sheet")
    [_, *months] = hledger_rows(path, "balance", "--monthly", "--flat", "--no-total", "assets")
    same(months, [["assets:Ann", "0.05 EUR"], ["assets:Bo Li", "0.04 EUR"]], "what the month changed")
    payees = told(hledger(path, "payees")).splitlines()
    same(payees, ["Ann", "Bo Li", "closing balances", "opening balances"], "payees")
    write_text(path, output.replace("  -0.04 EUR\n", "  -0.03 EUR\n").replace("  0.04 EUR\n", "  0.03 EUR\n"))
    for program in READERS:
        if shutil.which(program):
            status, _, errors = call([program, "-f", path, "balance"])
            same((status, "assert" in errors), (1, True), f"{program}: what was changed: {errors}")
    write_text(path, output)
    pending = [it[-3:] for it in hledger_rows(path, "register", "--pending")[1:]]
    wanted = [["waiting:Bo Li", "-0.11 EUR", "-0.11 EUR"], ["waiting:Ann", "0.11 EUR", "0"]]
    same(pending, wanted, "what is pending")


def exports_of_runs(most):
    """Exports of members in random runs of `payd sim`, before the last frames are brought and after them."""
    found = []
    for seed in range(most):
        *commands, bring_all, show = RandomScripts(1000 + seed).script().decode("ascii").splitlines()
        world = audits.played(commands)
        if world is None:
            continue
        found += audits.exports_in(world, [*commands, show])
        world.run_line(bring_all)
        found += audits.exports_in(world, [*commands, bring_all, show])
        if len(found) >= most:
            break
    return found[:most]


def is_read(folder, place, given):
    """Each program that is here gives each account what the export says, and what waits elsewhere."""
    own = os.path.join(folder, f"{place}")
    os.mkdir(own)
    names = [f"Name {chr(ord('A') + it)}" for it in range(given["members"])]
    waiting = {}
    for owner, front in enumerate(given["front"]):
        for _, entry in filter(None, numbered_entries(given, owner)[front:]):
            for account, amount in ((owner, -entry[1]), (entry[0], entry[1])) if entry else ():
                waiting[account] = waiting.get(account, 0) + amount
    wanted = {f"assets:{name}": amount for name, amount in zip(names, given["balances"])}
    wanted.update({f"waiting:{names[it]}": amount for it, amount in waiting.items()})
    wanted["equity:opening"] = -sum(given["opening"])
    digits = random.Random(place).choice(["1", "10", "100"])
    status, output, errors = books(own, group_of(given, *names), given, "--commodity", f"EUR/{digits}")
    same((status, errors), (0, ""), f"the books of {given}")
    path = os.path.join(own, "journal")
    write_text(path, output)
    for program, balances_of in READERS.items():
        if shutil.which(program):
            # (a balance of nothing is written without its digits)
            read = {name: it for name, it in balances_of(path).items() if it}
            same(read, {name: it for name, it in wanted.items() if it}, f"{program}: {given}")


@pytest.mark.needs("hledger", "ledger")
def test_books_of_runs_are_read_strictly(folder):
    exports = exports_of_runs(300)
    wait = [it for it in exports if it["front"] != [len(numbered_entries(it, owner)) for owner in range(it["members"])]]
    same((len(exports), len(wait) > 30), (300, True), f"exports, and {len(wait)} in which something waits")
    with ThreadPoolExecutor(len(os.sched_getaffinity(0))) as pool:
        list(pool.map(lambda it: is_read(folder, *it), enumerate(exports)))
