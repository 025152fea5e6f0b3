"""Black-box tests of `journal`: against texts by hand and the model, and read by hledger and ledger."""

import csv
import datetime
import os
import random
import re
import shutil
import subprocess
import tempfile

import pytest

from models import audits
from models.audits import FRESH, PAID, TWO_ENTRIES, WORKED, journal
from payd_tools.frames import payment
from support.runs import SECONDS, TOP, run, same, shows, with_files, write_text

DAY = "2026-01-31"

JOURNAL = f"""\
account account:0
account account:1
account equity:opening

{DAY} opening balances
    account:0  9
    account:1  0
    equity:opening

{DAY} (0.0) account 0 seq 0 entry 0
    account:0  -2
    account:1  2

{DAY} (0.1) account 0 seq 0 entry 1
    account:0  -3
    account:1  3

; void account 0 seq 1 entry 2

{DAY} (0.3) account 0 seq 2 entry 3
    account:0  -4
    account:1  4

{DAY} (1.0) account 1 seq 0 entry 0
    account:1  -5
    account:0  5
"""


def journal_of(given, *words):
    return with_files({"export": given}, ["journal", "export", *words])


def test_journal_by_hand():
    shows(journal_of(WORKED, "--date", DAY), 0, JOURNAL, of="the journal")
    same(journal(WORKED, DAY), JOURNAL, "the model's journal")
    same(audits.verdict([WORKED]), "clean", "the export")


def test_random_journals_as_the_model_has_them():
    seeded = random.Random(44)
    for turn in range(60):
        for given in audits.random_exports(seeded):
            shows(journal_of(given, "--date", DAY), 0, journal(given, DAY), of=f"turn {turn}, {given}")


def test_dates_of_journals():
    for date in ("1400-01-01", "2024-02-29", "9999-12-31"):
        shows(journal_of(PAID, f"--date={date}"), 0, journal(PAID, date), of=date)
    for word in (
        "1399-12-31", "0000-01-01", "2026-02-29", "2026-00-10", "2026-13-10", "2026-10-00", "2026-10-32", "20260131",
        "2026-1-31", "2026/01/31", "2026-01-31T00:00", "2026-01-31 ", "+002026-01-31", "10000-01-01", "-2026-01-01",
        "\uff12026-01-31", "today", "",
    ):
        fault = f"payd: date {word}: not YYYY-MM-DD from the year 1400 on\n"
        shows(journal_of(PAID, f"--date={word}"), 2, "", fault, of=f"date {word!r}")
    fault = "payd: date x: not YYYY-MM-DD from the year 1400 on\n"
    shows(with_files({}, ["journal", "gone", "--date", "x"]), 2, "", fault, of="the word is read before the file")


def test_date_of_today():
    while True:
        day = datetime.datetime.now(datetime.timezone.utc).date()
        was = journal_of(PAID)
        if day == datetime.datetime.now(datetime.timezone.utc).date():
            shows(was, 0, journal(PAID, f"{day}"), of="today")
            return


def test_words_of_a_journal():
    same(with_files({}, ["journal"])[:2], (2, ""), "no word")
    same(with_files({"a": PAID, "b": FRESH}, ["journal", "a", "b"])[:2], (2, ""), "two exports of one group")
    same(journal_of(PAID, "--date")[:2], (2, ""), "no date")
    same(journal_of(PAID, "--date", DAY, "--date", DAY)[:2], (2, ""), "two dates")


def test_long_journals():
    """The longest list, and the most accounts."""
    given = audits.export([2**63 - 1, 0], [65536 * [payment(payee=1, amount=1).hex()], []], [65536, 0], [])
    given["balances"] = [2**63 - 1 - 65536, 65536]
    status, output, errors = journal_of(given, "--date", DAY)
    same((status, errors), (0, ""), "65,536 payments")
    same(re.findall(r"^.*\(0\.([0-9]+)\) account 0 seq ([0-9]+) entry [0-9]+$", output, re.MULTILINE),
         [(f"{seq}", f"{seq}") for seq in range(65536)], "65,536 payments")
    given = audits.export(128 * [1], 128 * [[]], 128 * [0], 128 * [1])
    shows(journal_of(given, "--date", DAY), 0, journal(given, DAY), of="128 accounts")


# ---- read by the programs that the journal is for

# What `hledger --strict` wants before a journal: amounts here have no commodity.
COMMODITY = "commodity 1000."


def hledger(path, *words):
    return ["hledger", *words, "-f", path]


def ledger(path, *words):
    return ["ledger", *words, "--init-file", "/dev/null", "-f", path]


def told(command):
    """What a command prints where it warns of nothing."""
    done = subprocess.run(command, capture_output=True, text=True, timeout=SECONDS)
    same((done.returncode, done.stderr), (0, ""), f"{command}")
    return done.stdout


def hledger_balances(path):
    told(hledger(path, "check", "accounts", "ordereddates"))
    with open(path, encoding="ascii") as plain, open(f"{path}-strict", "w", encoding="ascii") as strict:
        strict.write(f"{COMMODITY}\n{plain.read()}")
    told(hledger(f"{path}-strict", "check", "--strict", "ordereddates"))
    rows = csv.reader(told(hledger(path, "balance", "--empty", "--flat", "--no-total", "-O", "csv")).splitlines())
    return {name: int(amount) for name, amount in list(rows)[1:]}


def ledger_balances(path):
    words = ("balance", "--pedantic", "--empty", "--flat", "--no-total", "--balance-format", "%(account) %(total)\n")
    rows = (line.rsplit(" ", 1) for line in told(ledger(path, *words)).splitlines())
    return {name: int(amount) for name, amount in rows}


def are_read_by(program, balances_in):
    """The program gives each account what the export says, without a warning."""
    exports = [WORKED, PAID, FRESH, TWO_ENTRIES, audits.export([0, 0], [[], []], [0, 0], [0, 0])]
    exports += [audits.export([2**63 - 1, 0], [[payment(payee=1, amount=2**63 - 1).hex()], []], [1, 0], [0, 2**63 - 1])]
    exports += [audits.export(128 * [3], 128 * [[]], 128 * [0], 128 * [3])]
    seeded = random.Random(45)
    exports += [it for _ in range(20) for it in audits.random_exports(seeded) if audits.verdict([it]) == "clean"]
    for given in exports:
        status, output, _ = journal_of(given, "--date", DAY)
        same(status, 0, f"the journal of {given}")
        with tempfile.TemporaryDirectory() as folder:
            path = os.path.join(folder, "journal")
            write_text(path, output)
            balances = balances_in(path)
        # (what one that shows no account at zero leaves out is at zero)
        wanted = {f"account:{account}": amount for account, amount in enumerate(given["balances"])}
        wanted["equity:opening"] = -sum(given["opening"])
        same({name: balances.get(name, 0) for name in wanted}, wanted, f"{program}: the balances of {given}")
        same(set(balances) <= set(wanted), True, f"{program}: the accounts of {given}")


@pytest.mark.needs("hledger")
def test_read_by_hledger():
    are_read_by("hledger", hledger_balances)


@pytest.mark.needs("ledger")
def test_read_by_ledger():
    are_read_by("ledger", ledger_balances)


def test_example_of_a_journal():
    with open(os.path.join(TOP, "examples", "export-0.journal"), encoding="ascii") as file:
        words = ["journal", os.path.join(TOP, "examples", "export-0.json"), "--date", "2026-01-31"]
        shows(run(words), 0, file.read(), of="the example")


def test_example_of_books():
    books = os.path.join(TOP, "examples", "books")
    done = subprocess.run([books], capture_output=True, text=True, timeout=SECONDS)
    same(done.returncode, 0, done.stderr)
    for program in ("hledger", "ledger"):
        told = f"\n{done.stdout}".partition(f"\n{program}:\n")[2].split("--------")[0]
        if shutil.which(program) is None:
            same(f"{program} is not installed" in done.stdout.splitlines(), True, done.stdout)
        else:
            same(told.split(), "5 account:0 0 account:1 0 account:2 45 account:3 -50 equity:opening".split(), program)
    done = subprocess.run([books, "gone"], capture_output=True, text=True, timeout=SECONDS)
    same((done.returncode, done.stdout, "payd: file gone\n" in done.stderr), (2, "", True), "no file")
