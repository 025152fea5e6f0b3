"""Tests of audit, book and statement with the names of a group's file, by ./payd and real files; and of the next
genesis, which wants exports that their members signed."""

import os
import tempfile

import pytest

from models.audits import FORKED, PAID, export
from payd_tools.frames import payment
from support.nodes import write_json
from support.runs import TOP, call, heard, same
from test_group import does, put, sign

NAMES = "ada", "bob", "cy", "dee"
OTHER = export([0, 0, 0, 51], [[], [], [], []], [0, 0, 0, 0], [0, 0, 0, 51])
WRONG = {**PAID, "member": 1, "front": [0, 0, 0, 0], "balances": [0, 0, 0, 50]}
# Of account 3 a payment of 60 waits, that has 50.
WAITING = export([0, 0, 0, 50], [[], [], [], [payment(payee=1, amount=60).hex()]], [0, 0, 0, 0], [0, 0, 0, 50])
FEW = "exports of fewer than 3 members may lack payments that settled"


@pytest.fixture
def folder():
    """A folder with a group's file, its members' secrets, and exports: member 3 has paid 5 to 0, or to 1."""
    with tempfile.TemporaryDirectory() as folder:
        lines = [does(folder, "new", "--name", it, f"{own}.secret").strip() for own, it in enumerate(NAMES)]
        put(folder, "group.json", does(folder, "make", "--faults", "1", "--opening", "0,0,0,50", *lines))
        for name, given in (("paid", PAID), ("forked", FORKED), ("wrong", WRONG), ("other", OTHER)):
            write_json(folder, name, given)
        for own in range(4):
            write_json(folder, f"export-{own}", {**WAITING, "member": own})
        yield folder


def payd(folder, *words):
    status, output, errors = call([os.path.join(TOP, "payd"), *words], folder=folder)
    return status, output, heard(errors)


def test_audits_name_members_and_files(folder):
    of_group = "audit", "--group", "group.json"
    fork = "4 fork 0 1 owner 3 dee seq 0 (paid, forked)\n"
    sides = "4 fork owner 3 dee seq 0 to 0 ada amount 5 exports 1 in paid\n"
    sides += "4 fork owner 3 dee seq 0 to 1 bob amount 5 exports 1 in forked\n"
    front = "3 balance account 0 ada says 0 right 5 in wrong\n2 front account 3 dee says 0 right 1 in wrong\n"
    front += "3 balance account 3 dee says 50 right 45 in wrong\n"
    for words, status, lines in (
        (["paid"], 0, "clean\n"),
        (["paid", "forked"], 1, fork),
        (["--all", "paid", "forked"], 1, f"{fork}{sides}"),
        (["paid", "wrong"], 1, "2 front 1 account 3 dee (wrong)\n"),
        (["--all", "paid", "wrong"], 1, f"2 front 1 account 3 dee (wrong)\n{front}"),
        (["paid", "other"], 1, "1 genesis 1 (other)\n"),
    ):
        same(payd(folder, *of_group, *words), (status, lines, ""), f"the audit of {words}")


def test_books_name_members_and_files(folder):
    lines = "account 0 ada settled 0 balance 0\naccount 1 bob settled 0 balance 0\naccount 2 cy settled 0 balance 0\n"
    lines += "account 3 dee settled 0 balance 50\n"
    waits = "waits account 3 dee entry 0 seq 0 to 1 bob amount 60 short 10\n"
    differs = "differs 2 account 3 dee seq 0 (paid)\n"
    for words, status, text in (
        (["export-0", "export-1"], 0, f"{lines}{waits}total 50\n"),
        (["export-1", "export-2", "paid"], 0, f"{lines}{waits}{differs}total 50\n"),
        (["export-1", "export-1"], 1, "5 twice 0 1 (export-1, export-1)\n"),
        (["export-1"], 1, "6 few 1\n"),
    ):
        same(payd(folder, "book", "--group=group.json", *words), (status, text, ""), f"the book of {words}")
    plain = payd(folder, "book", "--export", "export-0", "export-1")
    words = "book", "--group", "group.json", "--export", "export-0", "export-1"
    same(payd(folder, *words), plain, "the book as an export")


def test_statements_take_and_tell_names(folder):
    of_group = "statement", "--group", "group.json", "paid"
    of_dee, of_ada = "out 0 to 0 ada 5\nend 3 dee balance 45\n", "in 3 dee 0 5\nend 0 ada balance 5\n"
    for words, lines in (
        (["dee"], of_dee),
        (["3"], of_dee),
        (["ada"], of_ada),
        ([], f"{of_ada}end 1 bob balance 0\nend 2 cy balance 0\n{of_dee}"),
    ):
        same(payd(folder, *of_group, *words), (0, lines, ""), f"the statement of {words}")
    why = "payd statement: eve is no number: write digits, as 1000, and no name of the group\n"
    same(payd(folder, *of_group, "eve"), (1, "", why), "a name of nobody")
    same(payd(folder, "statement", "paid", "3")[:2], (0, "out 0 to 0 5\nend 3 balance 45\n"), "without the group")


def test_amounts_are_told_in_the_unit_of_the_group(folder):
    """Of a statement, a book and an audit; without the group's file they are whole numbers."""
    lines = [does(folder, "new", "--name", it, f"unit-{own}").strip() for own, it in enumerate(NAMES)]
    unit = "--unit", "EUR", "--decimals", "2"
    put(folder, "in-euros.json", does(folder, "make", "--faults", "1", *unit, "--opening", "0,0,0,0.50", *lines))
    of_group, of_dee = ("--group", "in-euros.json"), "out 0 to 0 ada 0.05 EUR\nend 3 dee balance 0.45 EUR\n"
    of_ada = "in 3 dee 0 0.05 EUR\nend 0 ada balance 0.05 EUR\n"
    both = "end 1 bob balance 0.00 EUR\nend 2 cy balance 0.00 EUR\n"
    for words, lines in ((["dee"], of_dee), (["0"], of_ada), ([], f"{of_ada}{both}{of_dee}")):
        same(payd(folder, "statement", *of_group, "paid", *words), (0, lines, ""), f"the statement of {words}")
    text = "account 0 ada settled 0 balance 0.00 EUR\naccount 1 bob settled 0 balance 0.00 EUR\n"
    text += "account 2 cy settled 0 balance 0.00 EUR\naccount 3 dee settled 0 balance 0.50 EUR\n"
    text += "waits account 3 dee entry 0 seq 0 to 1 bob amount 0.60 EUR short 0.10 EUR\ntotal 0.50 EUR\n"
    same(payd(folder, "book", *of_group, "export-0", "export-1"), (0, text, ""), "the book")
    status, text, _ = payd(folder, "audit", *of_group, "--all", "paid", "wrong")
    right = "3 balance account 3 dee says 0.50 EUR right 0.45 EUR in wrong"
    front = "2 front account 3 dee says 0 right 1 in wrong"
    same((status, right in text.splitlines(), front in text.splitlines()), (1, True, True), text)


def test_exports_of_another_group_are_not_named(folder):
    why = "payd {}: other: it is no export of this group\n"
    for word in ("audit", "statement"):
        same(payd(folder, word, "--group", "group.json", "other"), (1, "", why.format(word)), word)
    status, output, errors = payd(folder, "statement", "--group", "group.json", "gone")
    same((status, output, errors.startswith("payd: file gone")), (2, "", True), "a file that isn't there")
    same(payd(folder, "audit", "--group", "gone", "paid"), (1, "", "payd audit: gone: No such file or directory\n"), "")
    same(payd(folder, "book", "--group", "group.json", "--unsigned", "paid")[0], 2, "a word of the next genesis")


def test_the_next_genesis_wants_signed_exports(folder):
    """As next does; without the group's file nobody can look, and it says so."""
    genesis, exports = '{"faults":1,"members":4,"opening":[0,0,0,50]}\n', [f"export-{own}" for own in range(3)]
    of_group = "book", "--genesis", "--group", "group.json"
    nobody = "".join(f"{it}: nobody signed it\n" for it in exports)
    forging = "payd book: whoever brings an export can make up what nobody signed: --unsigned takes it all the same\n"
    same(payd(folder, *of_group, *exports), (1, "", nobody + forging), "exports that nobody signed")
    same(payd(folder, *of_group, "--unsigned", *exports), (0, genesis, nobody), "with the word")
    status, output, errors = payd(folder, "book", "--genesis", *exports)
    same((status, output, "--group GROUP checks who signed the exports" in errors), (1, "", True), "without the group")
    same(payd(folder, "book", "--genesis", "--unsigned", *exports), (0, genesis, ""), "with the word alone")
    few = f"payd book: {FEW}, and these are of 2: --incomplete takes them all the same\n"
    same(payd(folder, "book", "--genesis", "--unsigned", *exports[:2]), (1, "", few), "too few")
    for own in range(3):
        sign(folder, own, "group.json", f"export-{own}")
    status, output, errors = payd(folder, *of_group, *exports)
    same((status, output, errors.count(" signed it at 2")), (0, genesis, 3), "what their members signed")


def test_an_own_export_with_less_is_told_of(folder):
    """Dee's own, which lacks what two others say that Dee has paid."""
    write_json(folder, "export-3", {**WAITING, "member": 3, "lists": [[], [], [], []]})
    exports = [f"export-{own}" for own in (0, 1, 3)]
    status, _, errors = payd(folder, "book", "--genesis", "--group", "group.json", "--unsigned", *exports)
    whose = "of member 3 dee the book has 1 values, and that member's own export has 0 (export-3)"
    same((status, whose in errors.splitlines()), (0, True), errors)
