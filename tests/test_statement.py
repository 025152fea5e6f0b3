"""Black-box tests of `statement`: against the model, against running nodes, and its words and faults."""

import contextlib
import random

from models import audits
from models.audits import FORKED, PAID, TWO_ENTRIES, statement
from support.nodes import Group
from support.runs import same, shows, with_files


def statement_of(given, *words):
    return with_files({"export": given}, ["statement", "export", *words])


def text_of(lines):
    return "".join(f"{line}\n" for line in lines)


def statements_agree(given, statements, of):
    """The program's statements of an export, each by itself and all together."""
    for account, lines in enumerate(statements):
        shows(statement_of(given, f"{account}"), 0, text_of(lines), of=f"account {account} of {of}")
    shows(statement_of(given), 0, text_of(sum(statements, [])), of=f"all of {of}")


def test_statements_of_exports():
    for given, account, lines in (
        (PAID, 3, ["out 0 to 0 5", "end 3 balance 45"]),
        (PAID, 0, ["in 3 0 5", "end 0 balance 5"]),
        (PAID, 1, ["end 1 balance 0"]),
        (FORKED, 1, ["in 3 0 5", "end 1 balance 5"]),
        (TWO_ENTRIES, 3, ["out 0 to 1 5", "void 0", "end 3 balance 45"]),
    ):
        shows(statement_of(given, f"{account}"), 0, text_of(lines), of=f"{account} of {given}")
        same(statement(given, account), lines, f"the model of {account} of {given}")


def test_random_statements_as_the_model_has_them():
    seeded = random.Random(43)
    for turn in range(40):
        for given in audits.random_exports(seeded):
            statements = [statement(given, account) for account in range(given["members"])]
            statements_agree(given, statements, f"turn {turn}, {given}")


@contextlib.contextmanager
def paid():
    """A group that has settled payments of all kinds, but for one that waits."""
    with Group([100, 0, 0, 50]) as group:
        for own, order, payee, amount in ((0, 1, 1, 30), (3, 1, 0, 20), (0, 2, 2, 15), (1, 1, 3, 5), (2, 1, 0, 500)):
            group.pay(own, order, payee, amount, seq=order - 1)
        same(group.nodes[3].ask("PAYS 2 1 4 2 6"), "asked 2 seq 1", "several payments")
        group.settle([2, 1, 0, 3], [75, 29, 21, 25])
        yield group


def test_a_nodes_own_statements():
    """What a node answered is what its export says after its end."""
    with paid() as group:
        answers = {own: [node.statement(account) for account in range(4)] for own, node in group.nodes.items()}
        exports = group.stop()
    for own, export in exports.items():
        statements_agree(export, answers[own], f"node {own}")


def test_a_nodes_entries_and_what_waits():
    """All members tell the same of each account, from whatever entry on."""
    with paid() as group:
        for line, wanted in (
            ("ENTRIES 0 0", ["entry 0 0 seq 0 to 1 30", "entry 0 1 seq 1 to 2 15", "end 0 2"]),
            ("ENTRIES 3 0", ["entry 3 0 seq 0 to 0 20", "entry 3 1 seq 1 to 1 4", "entry 3 2 seq 1 to 2 6", "end 3 3"]),
            ("ENTRIES 3 1", ["entry 3 1 seq 1 to 1 4", "entry 3 2 seq 1 to 2 6", "end 3 3"]),
            ("ENTRIES 3 2", ["entry 3 2 seq 1 to 2 6", "end 3 3"]),
            ("ENTRIES 3 3", ["end 3 3"]),
            ("ENTRIES 2 0", ["end 2 0"]),
            ("WAITING 0", ["end 0 short 0"]),
        ):
            for own, node in group.nodes.items():
                same(node.lines_of(line), wanted, f"{line} at node {own}")
        same(group.nodes[2].lines_of("WAITING 2"), ["waiting 2 0 seq 0 to 0 500", "end 2 short 479"], "what waits")
        group.stop()


def test_notes_of_nodes_are_void_entries():
    """At all members, who see their texts; what is paid behind them settles. Behind what waits a note waits too."""
    with Group([100, 0, 0, 50]) as group:
        for seq, text in enumerate(("order 17", "seq 0 grüße")):
            same(group.nodes[0].ask(f"NOTE {seq} {text}"), f"asked {seq} seq {seq}", "a note")
        group.pay(0, 2, 1, 30, seq=2)
        group.pay(3, 1, 0, 500, seq=0)
        same(group.nodes[3].ask("NOTE 2 \u20ac"), "asked 2 seq 1", "a note behind what waits")
        group.settle([3, 0, 0, 0], [70, 30, 0, 50])
        notes = ["entry 0 0 seq 0 note order 17", "entry 0 1 seq 1 note seq 0 grüße"]
        entries = [*notes, "entry 0 2 seq 2 to 1 30", "end 0 3"]
        for own, node in group.nodes.items():
            same(node.lines_of("ENTRIES 0 0"), entries, f"the entries at node {own}")
            same(node.statement(0), ["void 0", "void 1", "out 2 to 1 30", "end 0 balance 70"], f"what node {own} tells")
        waits = ["waiting 3 0 seq 0 to 0 500", "waiting 3 1 seq 1 note \u20ac", "end 3 short 450"]
        same(group.nodes[3].lines_of("WAITING 3"), waits, "what waits")
        same(group.nodes[0].ask("NOTE 1 seq 0 grüße"), "asked 1 seq 1", "a note again")
        exports = group.stop()
    for own, export in exports.items():
        said = [bytes.fromhex(value) for value in export["lists"][0][:2]]
        same(said, [b"\x03order 17", "\x03seq 0 grüße".encode()], f"the values at node {own}")


def test_words_that_name_no_account():
    for word in ("4", "03", "+3", "65536", "65539", f"{2**64 + 3}", "x", "", " 3", "\uff13"):
        shows(statement_of(PAID, word), 2, "", f"payd: account {word}\n", of=f"account {word!r}")


def test_words_of_a_statement():
    same(with_files({}, ["statement"])[:2], (2, ""), "no file")
    same(statement_of(PAID, "0", "1")[:2], (2, ""), "a word too many")
    same(statement_of(PAID, "-3")[:2], (2, ""), "an option that there isn't")
    shows(with_files({"--x": PAID}, ["statement", "--", "--x", "1"]), 0, "end 1 balance 0\n", of="a name behind --")


def test_long_statements():
    """The longest list, of values that are void, and the most accounts."""
    given = audits.export([7], [65536 * [""]], [65536], [7])
    lines = [*(f"void {seq}" for seq in range(65536)), "end 0 balance 7"]
    shows(statement_of(given, "0"), 0, text_of(lines), of="void entries")
    given = audits.export(128 * [1], 128 * [[]], 128 * [0], 128 * [1])
    shows(statement_of(given), 0, text_of(f"end {account} balance 1" for account in range(128)), of="128 accounts")
