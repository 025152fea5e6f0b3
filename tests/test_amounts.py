"""Amounts as people read and write them, against Python's decimal, and in a group with a unit by real processes."""

import decimal
import json
import os
import random
import shutil
import subprocess

from payd_tools.amounts import BOUND, MOST_DECIMALS, NoAmount, Unit
from support.nodes import write_json
from support.payers import pay
from support.restarts import Folders
from support.runs import SECONDS, TOP, same, write_text
from test_journal import hledger, ledger, told

# Digits enough for every amount: nothing is rounded.
EXACT = decimal.Context(prec=60, traps=[decimal.Inexact, decimal.InvalidOperation])


def exact(amount, decimals):
    """The amount as a decimal of the unit."""
    return EXACT.scaleb(decimal.Decimal(amount), -decimals)


def amounts(seeded):
    """Both ends of 2^63 and of what the desk takes, powers of ten and of two, and any."""
    yield from (0, 1, 9, 10, 99, 100, 2**63 - 1, 2**63, 2**63 + 1, BOUND - 1)
    yield from (10**it for it in range(20))
    yield from (2**it - 1 for it in range(1, 65))
    yield from (seeded.randrange(1 << seeded.randrange(1, 65)) for _ in range(500))


def units():
    yield Unit()
    yield from (Unit("EUR", it) for it in range(MOST_DECIMALS + 1))


def test_text_of_an_amount_is_its_decimal():
    """Digit for digit, with the sign of what goes out; and each text is read again as that amount."""
    seeded = random.Random(102)
    for unit in units():
        for amount in amounts(seeded):
            text = unit.digits(amount)
            same(decimal.Decimal(text), exact(amount, unit.decimals), f"{amount} with {unit.decimals} decimals")
            same(text, f"{exact(amount, unit.decimals):.{unit.decimals}f}", f"the digits of {amount}")
            same(unit.digits(-amount), f"-{text}" if amount else text, f"what goes out of {amount}")
            same(unit.text(amount), f"{text} EUR" if unit.name else text, f"{amount} with its unit")
            same(unit.read(text), amount, f"{text} read again")


def test_amount_of_a_text_is_its_decimal():
    """Of random digits with a point somewhere: the exact decimal, or refused where the unit has no such amount."""
    seeded, read = random.Random(103), 0
    for unit in units():
        for _ in range(2000):
            whole, behind = seeded.randrange(21), seeded.randrange(21)
            text = "".join(seeded.choice("0123456789") for _ in range(whole))
            text += "." * seeded.randrange(2) + "".join(seeded.choice("0123456789") for _ in range(behind))
            amount = unit.find(text)
            if amount is not None:
                same(exact(amount, unit.decimals), decimal.Decimal(text), f"{text} with {unit.decimals} decimals")
                read += 1
            same(amount is not None, is_amount(text, unit.decimals), f"whether {text} is an amount")
    same(read > 1000, True, f"that {read} texts are enough")


def is_amount(text, decimals):
    """Whether a text of digits and points is one: no zero stands too much before it, and no digit is lost."""
    whole, point, behind = text.partition(".")
    if not whole or (whole[0] == "0" and whole != "0") or (point and not 0 < len(behind) <= decimals):
        return False
    return decimal.Decimal(text) < exact(BOUND, decimals)


def test_what_is_refused_says_what_would_do():
    whole, cents = Unit(), Unit("EUR", 2)
    for unit, text, would in (
        (cents, "1,000", "write 1000.00"),
        (cents, "5€", "write 5.00"),
        (cents, "€ 5", "write 5.00"),
        (cents, "12.50 EUR", "write 12.50"),
        (cents, "12,50", "write 12.50"),
        (cents, "1.000,50", "write 1000.50"),
        (cents, "1,000.5", "write 1000.50"),
        (cents, "1 000", "write 1000.00"),
        (cents, "1'000", "write 1000.00"),
        (cents, "1_000", "write 1000.00"),
        (cents, "+5", "write 5.00"),
        (cents, "05", "write 5.00"),
        (cents, ".5", "write 0.50"),
        (cents, "5.", "write 5.00"),
        (cents, "\u0665", "write 5.00"),
        # (which of the two is meant isn't known)
        (Unit("Oil", 3), "1,234", "write 1234.000 or 1.234"),
        (cents, "12.505", "write digits, as 1000.00"),
        (cents, "1.000", "write digits, as 1000.00"),
        (cents, "-5", "write digits, as 1000.00"),
        (cents, "1e3", "write digits, as 1000.00"),
        (cents, "", "write digits, as 1000.00"),
        (cents, "184467440737095516.16", "write digits, as 1000.00"),
        (whole, "1,000", "write 1000"),
        (whole, "12.50", "write digits, as 1000"),
        (whole, f"{2**64}", "write digits, as 1000"),
    ):
        try:
            amount = unit.read(text)
        except NoAmount as why:
            same(str(why).startswith(f"{text}: an amount is "), True, str(why))
            same(str(why).rpartition(": ")[2], would, f"what would do in place of {text!r}")
        else:
            raise AssertionError(f"{text!r} is read as {amount}")
    for unit, text, why in (
        (cents, "0.00", "0.00: an amount is digits, with at most 2 behind a point, from 0.01"),
        (whole, "0", "0: an amount is a whole number from 1"),
    ):
        try:
            unit.read(text, least=1)
        except NoAmount as said:
            same(str(said), why, text)
        else:
            raise AssertionError(f"{text} is read")


# ---- a group with a unit, from its founding to its books

NAMES = ["ada", "bob", "cy", "dee"]


def tool(folder, name, *words):
    how = {"cwd": folder, "stdin": subprocess.DEVNULL, "capture_output": True, "text": True, "timeout": SECONDS}
    done = subprocess.run([os.path.join(TOP, "tools", name), *words], **how)
    return done.returncode, done.stdout, done.stderr


def does(folder, name, *words):
    status, output, errors = tool(folder, name, *words)
    same(status, 0, f"{name} {words}: {errors}")
    return output


class Founded(Folders):
    """A group that `payd group` made, with a unit: its file and its keys."""

    def genesis(self):
        folder = self.place.name
        public = [does(folder, "group", "new", "--name", it, f"{it}.secret").strip() for it in NAMES]
        words = ["--faults", "1", "--ports", ",".join(map(str, self.ports)), "--opening", "100.00,0,0.5,50"]
        text = does(folder, "group", "make", *words, "--unit", "EUR", "--decimals", "2", *public)
        write_text(os.path.join(folder, "group.json"), text)
        return json.loads(text)

    def keys_of(self, own):
        does(self.place.name, "group", "keys", "group.json", f"{NAMES[own]}.secret", f"made-{own}")
        with open(os.path.join(self.place.name, f"made-{own}"), encoding="ascii") as file:
            return json.load(file)["keys"]


def test_people_read_and_write_amounts_in_the_unit_of_their_group():
    with Founded([10000, 0, 50, 5000]) as group:
        folder, place = f"{group.place.name}/data-0", group.place.name
        shown = does(place, "group", "show", "group.json", "ada.secret")
        same(shown.splitlines()[0], "4 members, of whom 1 may lie; 150.50 EUR in all", shown)
        same("member 2 cy: opens with 0.50 EUR, port " in shown, True, shown)
        same(shown.endswith("you are member 0, ada; your account opens with 100.00 EUR\n"), True, shown)
        for text, would in (("1,000", "1000.00"), ("5€", "5.00"), ("12.505", "digits, as 1000.00")):
            why = "an amount is digits, with at most 2 behind a point, from 0.01"
            wanted = (2, "", f"payd pay: {text}: {why}: write {would}\n")
            same(pay(folder, "--yes", "bob", text), wanted, f"the amount {text}")
        said = "settled: 12.50 EUR to bob, order x, seq 0\n"
        same(pay(folder, "--yes", "--order", "x", "bob", "12.5")[:2], (0, said), "a payment")
        why = "payd pay: 87.50 EUR is free of the balance of 87.50 EUR: 87.51 EUR to bob would wait, and each later"
        same(pay(folder, "--yes", "bob", "87.51")[2].startswith(why), True, "what isn't covered")
        why = "payd pay: 150.51 EUR is more than the whole group owns, 150.50 EUR\n"
        same(pay(folder, "--yes", "bob", "150.51")[2], why, "what never settles")
        paid = json.loads(pay(folder, "--json", "--order", "x", "bob", "12.50")[1])
        same((paid["amount"], paid["unit"], paid["decimals"]), (1250, "EUR", 2), "what a script is told")
        group.settle([1, 0, 0, 0], [8750, 1250, 50, 5000])
        status = tool(place, "status", "--data", folder)[1]
        same("balance 87.50 EUR, free 87.50 EUR\n" in status, True, status)
        status = json.loads(tool(place, "status", "--data", folder, "--json")[1])
        same((status["balance"], status["unit"], status["decimals"]), (8750, "EUR", 2), "the status for a script")
        words = [os.path.join(TOP, "tools", "follow"), "--data", f"{place}/data-1", "--from", "0"]
        with subprocess.Popen(words, stdout=subprocess.PIPE, text=True) as follower:
            line = follower.stdout.readline()
            follower.kill()
        same(line.partition(" ")[2], "ada paid 12.50 EUR to bob, seq 0 entry 0\n", "what is followed")
        write_text(f"{place}/export.json", group.stop()[1])
        books_have_the_unit(place)
        report = does(place, "report", "--group", "group.json", "export.json")
        for wanted in (">87.50</td>", ">12.50</text>", "bob: 0.00 EUR to 12.50 EUR, at most 12.50 EUR"):
            same(wanted in report, True, f"{wanted} in the report")


def books_have_the_unit(place):
    """Without a word of it; another one is refused."""
    text = does(place, "books", "--group", "group.json", "--date", "2026-11-30", "export.json")
    same("    assets:ada  -12.50 EUR\n    assets:bob  12.50 EUR\n" in text, True, text)
    words = ["--group", "group.json", "--commodity", "EUR/1000", "export.json"]
    why = "payd books: the unit of this group is EUR with 2 decimals: leave --commodity out\n"
    same(tool(place, "books", *words), (1, "", why), "another unit")
    journal = os.path.join(place, "group.journal")
    write_text(journal, text)
    if shutil.which("hledger"):
        told(hledger(journal, "check", "--strict", "payees"))
        rows = told(hledger(journal, "balance", "--strict", "assets", "-O", "csv", "--no-total", "--flat"))
        same('"assets:bob","12.50 EUR"' in rows, True, rows)
    if shutil.which("ledger"):
        rows = told(ledger(journal, "balance", "--pedantic", "--flat", "--no-total", "assets"))
        same("12.50 EUR  assets:bob" in rows, True, rows)


def test_unit_is_part_of_what_members_compare(folder):
    """What is no unit is refused."""
    public = [does(folder, "group", "new", f"{it}.secret").strip() for it in range(4)]
    make = ["make", "--faults", "1", "--opening", "1,.."]
    groups = {}
    for words in ((), ("--unit", "EUR", "--decimals", "2"), ("--unit", "EUR", "--decimals", "3")):
        given = json.loads(does(folder, "group", *make, *words, *public))
        wanted = [*words[1:2], *map(int, words[3:])] or [None, None]
        same([given.get("unit"), given.get("decimals")], wanted, "the file")
        same(given["opening"], [10 ** given.get("decimals", 0)] * 4, "what the accounts open with")
        given["group"], given["opening"] = "1" * 64, [1000] * 4
        write_json(folder, "group.json", given)
        groups[words] = does(folder, "group", "show", "group.json").splitlines()[-1]
    same(len(set(groups.values())), 3, f"their fingerprints: {groups}")
    for words in (["--unit", "EUR"], ["--decimals", "2"], ["--unit", "eur", "--decimals", "2"],
                  ["--unit", "EUR", "--decimals", "19"], ["--unit", "€", "--decimals", "2"]):
        status, output, errors = tool(folder, "group", *make, *words, *public)
        same((status, output, "--unit" in errors or "--decimals" in errors), (2, "", True), f"{words}: {errors}")
    for parts in ({"unit": "EUR"}, {"decimals": 2}, {"unit": 1, "decimals": 2}, {"unit": "EUR", "decimals": 2.0}):
        bare = {it: value for it, value in given.items() if it not in ("unit", "decimals")}
        write_json(folder, "group.json", {**bare, **parts})
        status, output, errors = tool(folder, "group", "show", "group.json")
        same((status, output, "group.json: unit has to be a text" in errors), (1, "", True), f"{parts}: {errors}")
