"""Stories of four members that go on in a next group while one of them cheats: by payd group next and check-next."""

import json
import os
import tempfile

import pytest

from payd_tools.frames import payment
from support.nodes import write_json
from support.runs import read_bytes, same
from test_group import does, follows, put, read, sign, tool

NAMES = ["Ann", "Bob", "Cy", "Di"]
OPENING = [100, 0, 0, 50]
# What Ann has paid to Bob, and what Di says that she has paid to her.
PAID, CLAIMED = (payment(payee=payee, amount=amount).hex() for payee, amount in ((1, 30), (3, 70)))
HONEST = {"lists": [[PAID], [], [], []], "front": [1, 0, 0, 0], "balances": [70, 30, 0, 50]}
FORGED = {"lists": [[PAID, CLAIMED], [], [], []], "front": [2, 0, 0, 0], "balances": [0, 30, 0, 120]}
FORGING = "whoever brings an export can make up what nobody signed: --unsigned takes it all the same"
NO_OWN = "an export isn't what its member signed for this group"


@pytest.fixture
def folder():
    """A folder with the group's file, the members' secrets, their signed exports, and what Di says in their names."""
    with tempfile.TemporaryDirectory() as folder:
        public = [does(folder, "new", f"{own}.secret").strip() for own in range(4)]
        words = ["--faults", "1", "--opening", ",".join(map(str, OPENING)), "--names", ",".join(NAMES)]
        for name in ("group.json", "other.json"):
            put(folder, name, does(folder, "make", *words, *public))
        for own in range(4):
            write_export(folder, f"export-{own}", own, HONEST)
            sign(folder, own, "group.json", f"export-{own}")
            write_export(folder, f"forged-{own}", own, FORGED)
        sign(folder, 3, "group.json", "forged-3")
        yield folder


def write_export(folder, name, own, given):
    write_json(folder, name, {"members": 4, "faults": 1, "opening": OPENING, "member": own, **given})


def copy_signature(folder, source, name, **parts):
    """Puts the signature of one export beside another, with these parts changed."""
    write_json(folder, f"{name}.sig", {**json.loads(read_bytes(os.path.join(folder, f"{source}.sig"))), **parts})


def opening_of(text):
    return json.loads(text)["opening"]


# What Di brings, as three of four exports, and what she signs as Bob.
BROUGHT = ["export-0", "forged-1", "forged-3"]


def test_who_carries_the_exports_takes_nothing(folder):
    """Di says in Bob's name that Ann paid her 70 more: by no signature, by Bob's of another export, and by her own."""
    put(folder, "stolen.json", tool(folder, "next", "--unsigned", "group.json", *BROUGHT)[1])
    same(opening_of(read(folder, "stolen.json")), [0, 30, 0, 120], "the next group that Di would have")
    by_bob = "this isn't what member 1 Bob signed"
    for sign_it, said, why in (
        (lambda: None, "nobody signed it", FORGING),
        (lambda: copy_signature(folder, "export-1", "forged-1"), by_bob, NO_OWN),
        (lambda: copy_signature(folder, "forged-3", "forged-1"), "this isn't what member 3 Di signed", NO_OWN),
        (lambda: copy_signature(folder, "forged-3", "forged-1", member=1), by_bob, NO_OWN),
        (lambda: put(folder, "forged-1.sig", "?"), "what stands beside it is no signature", NO_OWN),
    ):
        sign_it()
        for words in (["next", "group.json"], ["check-next", "group.json", "stolen.json"]):
            status, output, errors = follows(folder, *words, *BROUGHT)
            unsigned = f"forged-1: {said}\n" if said != "nobody signed it" else ""
            same((status, output, errors), (1, "", f"{unsigned}payd group: {why}\n"), f"{words[0]}: {said}")
        if why == NO_OWN:
            status, output, _ = tool(folder, "next", "--unsigned", "group.json", *BROUGHT)
            same((status, output), (1, ""), f"--unsigned of what {said}")


def test_each_export_is_said_to_be_signed_or_not(folder):
    _, _, errors = tool(folder, "next", "--unsigned", "group.json", *BROUGHT)
    lines = errors.splitlines()
    same(lines[0].startswith("export-0: member 0 Ann signed it at 2"), True, lines[0])
    same(lines[1], "forged-1: nobody signed it", "who signed what Di made up")
    same(lines[2].startswith("forged-3: member 3 Di signed it at 2"), True, lines[2])


def test_the_robbed_one_sees_that_its_own_export_has_less(folder):
    """Where it takes what nobody signed."""
    whose = "of member 0 Ann the book has 2 values, and that member's own export has 1 (export-0)"
    stolen = tool(folder, "next", "--unsigned", "group.json", *BROUGHT)
    put(folder, "stolen.json", stolen[1])
    checked = tool(folder, "check-next", "--unsigned", "group.json", "stolen.json", *BROUGHT)
    same((stolen[0], checked[0]), (0, 0), "both, with --unsigned")
    for _, _, errors in (stolen, checked):
        same(whose in errors.splitlines(), True, f"what is said of Ann's account: {errors}")
    same("the book has" in tool(folder, "next", "group.json", "export-0", "export-1", "export-2")[2], False, "no less")


def test_signed_exports_leave_the_cheat_alone(folder):
    """Her own export is signed, and is one voice."""
    status, text, errors = follows(folder, "next", "group.json", "export-0", "export-1", "export-2", "forged-3")
    told = "not settled, by the old numbers: beyond 3 account 0 Ann seq 1 (forged-3)\n"
    same((status, opening_of(text), errors), (0, [70, 30, 0, 50], told), "the next group")
    put(folder, "next.json", text)
    status, output, _ = tool(folder, "check-next", "group.json", "next.json", "export-2", "export-0", "export-1")
    same((status, output.splitlines()[0]), (0, "as the exports have it"), "what Cy makes anew")


def test_exports_signed_for_another_group_are_refused(folder):
    """Also of the same members with the same openings."""
    sign(folder, 1, "other.json", "export-1")
    for more in ([], ["--unsigned"]):
        told = follows(folder, "next", *more, "group.json", "export-0", "export-1", "export-2")
        same(told, (1, "", f"export-1: it is signed for another group\npayd group: {NO_OWN}\n"), f"{more}")


FEW = "exports of fewer than 3 members may lack payments that settled"


def test_too_few_exports_lack_what_settled(folder):
    """Ann's payment, which Cy's export lacks: with Bob's it isn't in the book, and with one more it is."""
    write_export(folder, "export-2", 2, {"lists": [[], [], [], []], "front": [0] * 4, "balances": OPENING})
    sign(folder, 2, "group.json", "export-2")
    few = "export-1", "export-2"
    why = f"payd group: {FEW}, and these are of 2: --incomplete takes them all the same\n"
    same(follows(folder, "next", "group.json", *few), (1, "", why), "two exports")
    same(follows(folder, "next", "group.json", *few, *few)[::2], (1, why), "two of the same members")
    status, text, errors = tool(folder, "next", "--incomplete", "group.json", *few)
    same((status, opening_of(text)), (0, OPENING), "the next group of two")
    same(errors.splitlines()[2], f"{FEW}: these are of 2", "what is told with it")
    put(folder, "next.json", text)
    same(follows(folder, "check-next", "group.json", "next.json", *few), (1, "", why), "the check of two")
    same(tool(folder, "check-next", "--incomplete", "group.json", "next.json", *few)[0], 0, "that with the word")
    status, text, errors = follows(folder, "next", "group.json", *few, "export-0")
    same((status, opening_of(text), FEW in errors), (0, [70, 30, 0, 50], False), "the next group of three")
