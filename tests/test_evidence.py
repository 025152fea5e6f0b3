"""Black-box tests of payd evidence: what a liar said to running nodes is found in their logs, and checked with the keys
of its receiver, of the liar and of others. The frames are those of payd_tools.frames."""

import hashlib
import json
import os
import struct

from models import group_model
from payd_tools import logs
from payd_tools.frames import ECHO, READY, SEND, WANT, frame, payment
from support.nodes import until, write_json
from support.peers import Liar
from support.restarts import Folders
from support.runs import (
    EXAMPLE_GENESIS, GENESIS, TOP, call, example_keys, key_texts, read_bytes, read_text, same, write_text,
)

A, B, C = payment(payee=0, amount=5), payment(payee=1, amount=5), payment(payee=2, amount=7)
PAYS_A, PAYS_B, PAYS_C = f"5 to member 0 ({A.hex()})", f"5 to member 1 ({B.hex()})", f"7 to member 2 ({C.hex()})"
DIGEST = hashlib.sha256(struct.pack(">HH4Q", 4, 1, *GENESIS["opening"])).hexdigest()
# What would come behind a lie.
REST = [(READY, 1, seq, B) for seq in range(9)]
# What member 3 tells each of the others: member 0 two values by SENDs, and members 0 and 1 two by READYs.
TOLD = {
    0: [[(SEND, 3, 0, A), (ECHO, 3, 0, A), (READY, 0, 7, B), (SEND, 3, 0, B), *REST]],
    1: [[(SEND, 3, 0, A), (READY, 3, 1, A), (READY, 0, 7, C), (ECHO, 1, 7, B)]],
    2: [[(ECHO, 2, 7, A), (ECHO, 2, 8, B), (READY, 2, 7, B)]],
}
LIE = f"member 3 voted SEND under number 0 of its own account: member 0 heard {PAYS_A}; member 0 heard {PAYS_B}"
FORK = "member 3 voted READY under number 7 of the account of member 0: "
FORK += f"member 0 heard {PAYS_B}; member 1 heard {PAYS_C}"
CLAIM = "What member {0} is said to have heard is a claim of {1} about member 3 and member {0}: nobody signed it."
WHY = "member 3 lied, its folder was copied, or somebody else has their key"
RECEIVER = f"The tags are right. This shows member 0: {WHY}. To everybody else it is a claim."
ACCUSED = "The tags are right: member 3 sent this, or member 0 made it up."
NO_VOTE = "written: frame 1: it is no vote of a member to another\n"
NOTHING = "{} among them: nothing is shown of anybody\n"


def said_of(lie):
    """A lie as those are told of it who can check no tag of it."""
    return lie.replace(" voted ", " is said to have voted ").replace(" heard ", " is said to have heard ")


def evidence(folder, *words):
    return call([os.path.join(TOP, "tools", "evidence"), *words], folder=folder)


def sealed(receiver, *places):
    """Frames of those that member 3 tells a member."""
    told = [(it, *TOLD[receiver][0][it]) for it in places]
    return [frame(kind, 3, receiver, it, owner, seq, value).hex() for it, kind, owner, seq, value in told]


def write_frames(folder, *frames):
    write_json(folder, "written", {"group": DIGEST, "frames": [{"frame": it} for it in frames]})


def check(folder, own, *names, group=EXAMPLE_GENESIS, keys=None):
    return evidence(folder, "--check", *names, "--group", group, "--keys", keys or example_keys(own))


def test_lies_to_running_nodes_are_found_and_checked():
    with Folders(GENESIS["opening"], running=[0, 1, 2]) as group, Liar(3, group.ports[3], TOLD):
        place = group.place.name

        def write(own, *words):
            """Status and parts of the evidence of a member's log, which has all that came before an answer."""
            group.nodes[own].front()
            status, output, errors = evidence(place, "--data", f"data-{own}", *words)
            same(errors, "", f"errors of {own}")
            write_text(os.path.join(place, f"by-{own}"), output)
            parts = json.loads(output)
            return status, parts["receiver"], parts["accused"], [it["frame"] for it in parts["frames"]]

        of_lies = sealed(0, 0, 3)
        until(lambda: write(0), (1, 0, [3], of_lies), of="the lies to member 0")
        parts = json.loads(read_text(os.path.join(place, "by-0")))
        same((parts["group"], parts["findings"]), (DIGEST, [LIE]), "what is said of them")
        for own, said in ((0, RECEIVER), (3, ACCUSED)):
            same(check(place, own, "by-0"), (0, f"{LIE}. {said}\n", ""), f"what member {own} says")
        line = f"{said_of(LIE)}. {CLAIM.format(0, 'by-0')}\n"
        same(check(place, 1, "by-0"), (1, line, ""), "what member 1 says, who can check no tag")
        same(write(1), (0, 1, [], []), "what member 1 has alone")
        fork = "--account", "0", "--number", "7"
        until(lambda: write(1, *fork), (0, 1, [], sealed(1, 2)), of="a vote of a fork")
        same(write(0, *fork), (1, 0, [3], sealed(0, 0, 3, 2)), "a vote of a fork beside a lie")
        same(write(2), (0, 2, [], []), "member 2, to which nobody lied")
        of_two = ACCUSED.replace("member 0", "member 0 and member 1")
        lines = f"{LIE}. {ACCUSED}\n{FORK}. {of_two}\n"
        same(check(place, 3, "by-0", "by-1"), (0, lines, ""), "votes that two members took")
        group.pay(0, 1, payee=1, amount=30, seq=0)
        group.settle([1, 0, 0, 0])
        same(write(0), (1, 0, [3], of_lies), "the lies, once more has settled")
        reads_whole_records(place, (1, read_text(os.path.join(place, "by-0")), ""))


def reads_whole_records(place, wanted):
    """A torn end is left out; a chunk that doesn't fit before another and another member's log are refused."""
    text = read_bytes(os.path.join(place, "data-0", "log"))
    for name, content, why in (
        ("damaged", text[:140] + bytes([text[140] ^ 1]) + text[141:], "log 4 Damaged 0"),
        ("other", read_bytes(os.path.join(place, "data-1", "log")), "log 3 Foreign Member"),
        ("torn", text + text[75:120], None),
    ):
        os.mkdir(os.path.join(place, name))
        with open(os.path.join(place, name, "log"), "wb") as file:
            file.write(content)
        was = evidence(place, "--data", name, "--group", EXAMPLE_GENESIS, "--keys", example_keys(0))
        same(was, (2, "", f"payd evidence: {name}/log: {why}\n") if why else wanted, name)


def test_lies_in_a_log_are_found(folder):
    """Its records have no tags: a frame gets the one that its sender gave it by the key of the two."""
    keys = ["", *(bytes([it] * 32).hex() for it in (1, 2, 3))]
    write_json(folder, "keys", {"own": 0, "keys": keys})
    log = logs.Log(GENESIS, 0, [bytes.fromhex(it) or bytes(32) for it in keys])
    frames = [frame(SEND, 3, 0, at, 3, 0, it, key=bytes([3] * 32)).hex() for at, it in enumerate((A, B))]
    heads = (bytes.fromhex(f"04 0000 00 00000000 0003 {at:016x} 01 0003 00000000 000b") for at in range(2))
    with open(os.path.join(folder, "log"), "wb") as file:
        file.write(log.file([head + it for head, it in zip(heads, (A, B))]))
    words = "--group", EXAMPLE_GENESIS, "--keys", "keys"
    status, output, errors = evidence(folder, "--data", folder, *words)
    parts = json.loads(output)
    found = [it["frame"] for it in parts["frames"]]
    same((status, parts["findings"], found, errors), (1, [LIE], frames, ""), "what the log has")
    write_text(os.path.join(folder, "found"), output)
    same(evidence(folder, "--check", "found", *words), (0, f"{LIE}. {RECEIVER}\n", ""), "the check of that")


def test_changed_frames_are_refused(folder):
    """With a bit turned, by each who has the key."""
    good, other = map(bytes.fromhex, sealed(0, 0, 3))
    for place in range(0, len(good), 4):
        bit = 1 << place // 4 % 8
        changed = good[:place] + bytes([good[place] ^ bit]) + good[place + 1 :]
        write_frames(folder, changed.hex(), other.hex())
        for own in (0, 3):
            status, output, errors = check(folder, own, "written")
            same((status, "are right" in output, errors), (1, False, ""), f"bit {bit} of byte {place}: {output}")
    write_frames(folder, *sealed(0, 0), frame(SEND, 3, 0, 3, 3, 0, B, key=bytes(32)).hex())
    why = "written: frame 1: its tag isn't by the key of member 3 and member 0\n"
    same(check(folder, 0, "written"), (1, why, ""), "a tag by another key")
    line = f"{said_of(LIE)}. {CLAIM.format(0, 'written')}\n"
    same(check(folder, 2, "written"), (1, line, ""), "who can't check it")


def test_votes_that_two_members_took_show_each_its_own(folder):
    of_0, of_1 = (CLAIM.format(it, "written") for it in (0, 1))
    by_1 = RECEIVER.replace("member 0", "member 1")
    for own, status, said, *took in (
        (0, 1, [of_1], (0, 0, A), (1, 0, B)),
        (2, 1, [f"{of_0} {of_1}"], (0, 0, A), (1, 0, B)),
        (1, 0, [f"{by_1} {of_0}"], (0, 0, A), (1, 0, A), (1, 0, B)),
        (0, 1, [of_1], (0, 0, A), (1, 0, A), (1, 0, B)),
        (0, 1, [RECEIVER, of_1], (0, 0, A), (0, 0, B), (1, 1, A), (1, 1, B)),
    ):
        write_frames(folder, *(frame(READY, 3, it, 7, 3, seq, value).hex() for it, seq, value in took))
        found, output, errors = check(folder, own, "written")
        lines = [it.partition("). ")[2] for it in output.splitlines()]
        same((found, lines, errors), (status, said, ""), f"what {took} show member {own}")


def test_repeats_and_payments_of_another_are_lies(folder):
    of_0, of_2 = ("member 3 voted {} of the account of member 0: ", "member 3 voted {} of the account of member 2: ")
    again = of_0.format("ECHO under number 7") + f"member 0 heard {PAYS_B}; member 0 heard {PAYS_B}"
    payment_of_2 = of_2.format("SEND under number 4") + f"member 0 heard {PAYS_B}"
    for lie, *votes in (
        (again, *((ECHO, 3, 0, number, 0, 7, B) for number in (5, 8, 9))),
        (payment_of_2, (SEND, 3, 0, 5, 2, 4, B)),
    ):
        write_frames(folder, *(frame(*it).hex() for it in votes))
        of_1 = f"{said_of(lie)}. {CLAIM.format(0, 'written')}\n"
        for own, status, line in ((0, 0, f"{lie}. {RECEIVER}\n"), (3, 0, f"{lie}. {ACCUSED}\n"), (1, 1, of_1)):
            same(check(folder, own, "written"), (status, line, ""), f"what member {own} says of {lie}")


OF_ECHO = f"member 3 voted ECHO under number 0 of its own account: member 0 heard {PAYS_A}"


def test_votes_that_are_no_lies_are_told(folder):
    """Each as what it is to the reader: right, or a claim."""
    write_frames(folder, frame(ECHO, 3, 0, 0, 3, 0, A).hex(), frame(ECHO, 3, 1, 9, 3, 0, A).hex())
    said, none = f"member 1 is said to have heard {PAYS_A}", NOTHING.format("2 frames, and no lie")
    lines = f"{OF_ECHO}; {said}. {CLAIM.format(1, 'written')}\n{none}"
    same(check(folder, 0, "written"), (1, lines, ""), "what member 0 is told")
    claims = f"{CLAIM.format(0, 'written')} {CLAIM.format(1, 'written')}"
    lines = f"{said_of(OF_ECHO)}; {said}. {claims}\n{none}"
    same(check(folder, 2, "written"), (1, lines, ""), "what member 2 is told")


def test_votes_that_are_no_lies_are_no_evidence(folder):
    echo = ECHO, 3, 0, 0, 3, 0, A
    apart = ((ECHO, 3, 0, 1, 3, 1, B), (ECHO, 3, 0, 1, 2, 0, B), (READY, 3, 0, 1, 3, 0, B), (SEND, 3, 0, 1, 3, 0, B))
    others = echo, (ECHO, 2, 0, 0, 3, 0, B), (ECHO, 3, 1, 9, 3, 0, A)
    no_votes = (WANT, 3, 0, 1, 0, 0, b""), (SEND, 3, 0, 1, 4, 0, B), (SEND, 4, 0, 1, 3, 0, B), (SEND, 0, 0, 1, 3, 0, B)
    none = NOTHING.format("2 frames, and no lie")
    for rows, said in ((apart, none), (others, none), (no_votes, NO_VOTE)):
        for other in rows:
            write_frames(folder, frame(*echo).hex(), frame(*other).hex())
            status, output, errors = check(folder, 0, "written")
            same((status, output[-len(said) :], errors), (1, said, ""), f"{other} beside an ECHO")
            same("lied" in output, False, f"what is said of nobody: {output}")
    write_frames(folder)
    same(check(folder, 0, "written"), (1, NOTHING.format("no frames, and no lie"), ""), "no frames")
    words = "--data", folder, "--group", EXAMPLE_GENESIS, "--keys", example_keys(0)
    for more, why in (
        ("--account=4 --number=0", "there is no number 0 of account 4\n"),
        ("--account=3 --number=65536", "there is no number 65536 of account 3\n"),
        ("--account=3", "error: --account and --number go together\n"),
        ("--check written", "error: argument --check: not allowed with argument --data\n"),
    ):
        status, output, errors = evidence(folder, *words, *more.split())
        same((status, output, errors[-len(why) :]), (2, "", why), more)


def test_group_by_its_file_has_names(folder):
    """And evidence and keys of another group are refused."""
    tool = os.path.join(TOP, "tools", "group")
    public = [call([tool, "new", f"{own}.secret"], folder=folder)[1].strip() for own in range(4)]
    for name in ("group", "other"):
        words = "make", "--faults", "1", "--opening", "9,0,0,0", "--names", "Ann,Bob,Cy,Dee"
        write_json(folder, name, json.loads(call([tool, *words, *public], folder=folder)[1]))
    for own in (0, 3):
        same(call([tool, "keys", "group", f"{own}.secret", f"keys-{own}"], folder=folder)[0], 0, "keys")
    key = bytes.fromhex(json.loads(read_text(os.path.join(folder, "keys-0")))["keys"][3])
    lies = [{"frame": frame(ECHO, 3, 0, at, 2, 9, it, key=key).hex()} for at, it in enumerate((A, b""))]
    for name in ("group", "other"):
        text = group_model.canonical(json.loads(read_text(os.path.join(folder, name))))
        write_json(folder, f"by-{name}", {"group": hashlib.sha256(text.encode()).hexdigest(), "frames": lies})
    lie = "member 3 Dee voted ECHO under number 9 of the account of member 2 Cy: "
    lie += f"member 0 Ann heard 5 to member 0 Ann ({A.hex()}); member 0 Ann heard nothing (empty). "
    lie += "The tags are right: member 3 Dee sent this, or member 0 Ann made it up.\n"
    same(check(folder, 3, "by-group", group="group", keys="keys-3"), (0, lie, ""), "what Dee says")
    for group, why in (("group", "by-other: it is of"), ("other", "keys-3: these are the keys of")):
        was = check(folder, 3, "by-other", group=group, keys="keys-3")
        same(was, (2, "", f"payd evidence: {why} another group\n"), f"another group than {group}")


# ---- signed evidence


def make_group(folder):
    """A group's file with names, and each member's secret and keys."""
    tool = os.path.join(TOP, "tools", "group")
    lines = [call([tool, "new", "--name", it, f"{it}.secret"], folder=folder)[1].strip() for it in NAMES]
    words = "make", "--faults", "1", "--opening", "9,0,0,0"
    write_json(folder, "group", json.loads(call([tool, *words, *lines], folder=folder)[1]))
    for it in NAMES:
        same(call([tool, "keys", "group", f"{it}.secret", f"keys-{it}"], folder=folder)[0], 0, "keys")


def write_lie(folder, name, receiver, key):
    """A file in which member 0 heard two values of member 3, as `receiver` has it, under this key."""
    text = group_model.canonical(json.loads(read_text(os.path.join(folder, "group"))))
    frames = [{"frame": frame(ECHO, 3, 0, at, 2, 9, it, key=key).hex()} for at, it in enumerate((A, B))]
    digest = hashlib.sha256(text.encode()).hexdigest()
    write_json(folder, name, {"group": digest, "receiver": receiver, "frames": frames})


def sign(folder, name, export):
    words = "--group", "group", "--secret", f"{name}.secret", export
    return call([os.path.join(TOP, "tools", "sign"), *words], folder=folder)


NAMES = "Ann", "Bob", "Cy", "Dee"
ECHOED = "member 3 Dee is said to have voted ECHO under number 9 of the account of member 2 Cy: "
ECHOED += f"member 0 Ann {{0}} 5 to member 0 Ann ({A.hex()}); member 0 Ann {{0}} 5 to member 1 Bob ({B.hex()}). "


def test_a_claim_is_its_signers(folder):
    """Ann's own, by her signature; what Cy makes up in her name is Cy's where Cy signs it, else the file's."""
    make_group(folder)
    key = bytes.fromhex(json.loads(read_text(os.path.join(folder, "keys-Ann")))["keys"][3])
    write_lie(folder, "by-ann", 0, key)
    write_lie(folder, "by-cy", 2, bytes(32))
    write_lie(folder, "made-up", 0, bytes(32))
    same(sign(folder, "Ann", "by-ann"), (0, "", ""), "Ann's signature")
    same(sign(folder, "Cy", "by-cy"), (0, "", ""), "Cy's signature")
    why = "payd sign: made-up: it is the evidence of member 0 Ann, and the secret is that of member 2 Cy\n"
    same(sign(folder, "Cy", "made-up"), (1, "", why), "Cy's signature in Ann's place")
    heard, said = "says that it heard", "is said to have heard"
    by_ann = "What member 0 Ann heard is a claim of member 0 Ann, who signed by-ann and can make such tags too.\n"
    by_cy = "What member 0 Ann heard is a claim of member 2 Cy, who signed by-cy.\n"
    of_file = f"What member 0 Ann {said} is a claim of made-up about member 3 Dee and member 0 Ann: nobody signed it.\n"
    for name, how, whose in (("by-ann", heard, by_ann), ("by-cy", said, by_cy), ("made-up", said, of_file)):
        was = check(folder, 1, name, group="group", keys="keys-Bob")
        same(was, (1, ECHOED.format(how) + whose, ""), f"what Bob is told of {name}")
    was = check(folder, 1, "made-up", "by-ann", group="group", keys="keys-Bob")[1]
    same(was.count(by_ann[:-1]), 1, "of what is in two files, whose it is that signed it")
    status, output, _ = check(folder, 0, "by-ann", group="group", keys="keys-Ann")
    same((status, "This shows member 0 Ann: " in output), (0, True), "what it shows Ann")


def test_a_wrong_signature_of_evidence_is_told(folder):
    make_group(folder)
    write_lie(folder, "written", 0, bytes(32))
    sign(folder, "Ann", "written")
    write_lie(folder, "written", 0, bytes([1] * 32))
    was = check(folder, 1, "written", group="group", keys="keys-Bob")
    same(was, (1, "written: this isn't what member 0 Ann signed\n", ""), "a file that was changed")
    os.rename(os.path.join(folder, "written"), os.path.join(folder, "export"))
    write_json(folder, "written", {"members": 4, "faults": 1, "opening": [9, 0, 0, 0], "member": 0})
    was = call([os.path.join(TOP, "tools", "audit-signed"), "--group", "group", "export"], folder=folder)
    same(was, (1, "", "payd audit-signed: export: it is no export of this group\n"), "evidence in place of an export")


def test_wrong_files_are_named(folder):
    texts = key_texts(0)
    for option, given, why in (
        ("keys", [], "it is no object"),
        ("keys", {"own": 0, "keys": texts[:3]}, "it is no file of keys of this group"),
        ("keys", {"own": 4, "keys": texts}, "it is no file of keys of this group"),
        ("keys", {"own": 0, "keys": [*texts[:3], texts[3][:-2]]}, "a key in it isn't 64 hexadecimal digits"),
        ("group", {"members": 129, "faults": 0, "opening": [0] * 129}, "a group has 1 to 128 members"),
        ("group", {"frames": []}, "it is no group's file, and no genesis"),
        ("check", {"group": DIGEST, "frames": 7}, "it is no evidence"),
        ("check", {"group": DIGEST, "frames": [{"frame": "0g"}]}, "it is no evidence"),
    ):
        write_json(folder, "wrong", given)
        words = {"check": "none", "group": EXAMPLE_GENESIS, "keys": example_keys(0), option: "wrong"}
        was = evidence(folder, *(f"--{name}={word}" for name, word in words.items()))
        same(was, (2, "", f"payd evidence: wrong: {why}\n"), f"{option} of {given}")
