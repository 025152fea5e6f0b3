"""Black-box tests of a desk's answers as JSON, by payd send --json and by the client in examples/."""

import json
import os
import subprocess
import sys

from support.nodes import until
from support.restarts import Folders
from support.runs import SECONDS, TOP, call, same

OPENING = [100, 0, 0, 50]
SEND = [sys.executable, os.path.join(TOP, "tools", "send"), "--json", "--data", "data-0"]
NOTE = 'seq 0 "Pizza" on Friday, caf\u00e9'


def sent(group, *lines, status=0):
    """The objects that answer these lines, one in a line each."""
    was = call([*SEND, *lines], folder=group.place.name)
    same(was[0], status, f"the status of {lines}: {was[2]}")
    return [json.loads(it) for it in was[1].splitlines()]


def asked(order, seq):
    return {"answer": "asked", "id": order, "seq": seq}


def refused(number, name):
    return {"answer": "refused", "number": number, "name": name}


def test_each_answer_is_an_object():
    with Folders(OPENING) as group:
        was = sent(group, "PAY 7 1 30", f"NOTE 8 {NOTE}", "PAYS 9 1 5 2 6")
        same(was, [asked(7, 0), asked(8, 1), asked(9, 2)], "what is asked for")
        group.settle([4, 0, 0, 0], [59, 35, 6, 50])
        same(sent(group, "PAY 10 1 1000"), [asked(10, 3)], "what isn't covered")
        until(lambda: sent(group, "STATE 0 3")[0]["state"], "waiting", of="what became of it")
        payment = {"kind": "payment", "entry": 0, "seq": 0, "to": 1, "amount": 30}
        note = {"kind": "note", "entry": 1, "seq": 1, "note": NOTE}
        both = [{"kind": "payment", "entry": 2 + at, "seq": 2, "to": 1 + at, "amount": 5 + at} for at in (0, 1)]
        waits = {"kind": "payment", "entry": 4, "seq": 3, "to": 1, "amount": 1000}
        received = [{"kind": "in", "from": 0, "seq": seq, "amount": amount} for seq, amount in ((0, 30), (2, 5))]
        for line, answer in (
            ("BALANCE 1", {"answer": "balance", "account": 1, "amount": 35}),
            ("STATE 0 0", {"answer": "state", "account": 0, "seq": 0, "state": "settled"}),
            ("STATE 3 9", {"answer": "state", "account": 3, "seq": 9, "state": "unknown"}),
            ("FRONT", {"answer": "front", "fronts": [4, 0, 0, 0]}),
            ("STATEMENT 1", {"answer": "statement", "account": 1, "balance": 35, "items": received}),
            ("ENTRIES 0 0", {"answer": "entries", "account": 0, "next": 4, "items": [payment, note, *both]}),
            ("ENTRIES 1 0", {"answer": "entries", "account": 1, "next": 0, "items": []}),
            ("WAITING 0", {"answer": "waiting", "account": 0, "short": 941, "items": [waits]}),
        ):
            same(sent(group, line), [answer], line)
        of_nobody = ("BALANCE 4", "STATEMENT 4", "ENTRIES 4 0", "WAITING 4")
        same(sent(group, *of_nobody, status=1), 4 * [refused(2, "NoAccount")], "refusals")
        same(sent(group, "PAY 7 1 31", "PAID 1", status=1), [refused(4, "IdUsed"), refused(1, "BadLine")], "refusals")
        out = sent(group, "STATEMENT 0")[0]
        same(out["items"][0], {"kind": "out", "seq": 0, "to": 1, "amount": 30}, "a payment in a statement")
        group.stop()


def test_the_example_pays_once_and_waits():
    """Called again under its order it tells the same; a refusal is its status."""
    client = os.path.join(TOP, "examples", "json-client")
    with open(client, encoding="utf-8") as file:
        same(len(file.readlines()) <= 40, True, "whether it has at most 40 lines")
    with Folders(OPENING) as group:
        env = {**os.environ, "PAYD": os.path.join(TOP, "payd")}
        for words, status, said in (
            (["7", "1", "30"], 0, "settled: seq 0 of account 0\n"),
            (["7", "1", "30"], 0, "settled: seq 0 of account 0\n"),
            (["8", "2", "5"], 0, "settled: seq 1 of account 0\n"),
            (["8", "2", "6"], 1, "refused: IdUsed\n"),
        ):
            words = [sys.executable, client, "data-0", *words]
            done = subprocess.run(words, cwd=group.place.name, env=env, capture_output=True, text=True, timeout=SECONDS)
            same((done.returncode, done.stdout), (status, said), f"{words}: {done.stderr}")
        group.settle([2, 0, 0, 0], [65, 30, 5, 50])
        group.stop()
