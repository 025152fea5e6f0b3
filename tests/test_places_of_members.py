"""Black-box tests of words that name no folder: the member is that of PAYD_DATA, or else of ./member."""

import datetime
import json
import os
import shutil
import subprocess

from support.nodes import until, write_json
from support.restarts import Folders
from support.runs import SECONDS, TOP, same, write_text
from test_books import group_of, hledger_balances

PAYD = os.path.join(TOP, "payd")
MADE = {"members": 4, "faults": 1, "opening": [100, 0, 0, 50]}


class Placed(Folders):
    """A group whose members' folders need no other file."""

    def genesis(self):
        return {**group_of(MADE, "ada", "bob", "cy", "dee"), "ports": self.ports}


def run(folder, *words, stream="", **more):
    """Status, output and errors of payd, without the line that says of a program that it isn't proved."""
    given = {it: value for it, value in os.environ.items() if it != "PAYD_DATA"}
    how = {"cwd": folder, "env": {**given, **more}, "input": stream, "capture_output": True, "text": True}
    done = subprocess.run([PAYD, *words], **how, timeout=SECONDS)
    errors = [it for it in done.stderr.splitlines(True) if "UNVERIFIED" not in it and "isn't proved" not in it]
    return done.returncode, done.stdout, "".join(errors)


def start(folder, *words):
    """A node by these words alone, until its input ends."""
    how = {"stdin": subprocess.PIPE, "stdout": subprocess.PIPE, "stderr": subprocess.DEVNULL, "text": True}
    return subprocess.Popen([PAYD, "node", *words], cwd=folder, **how)


def test_member_of_this_folder_needs_no_words():
    """A start, a payment, the status and the books of a month: each by its word alone, from the place of the folder."""
    with Placed(MADE["opening"]) as group:
        place, away = group.place.name, os.path.join(group.place.name, "away")
        group.kill(0)
        os.rename(f"{place}/data-0", f"{place}/member")
        os.mkdir(away)
        node = start(place)
        try:
            until(lambda: run(place, "status")[0], 0, of="the status of a member that meets all")
            said = "settled: 30 to bob, order x, seq 0\n"
            same(run(place, "pay", "--yes", "--order", "x", "bob", "30")[:2], (0, said), "a payment")
            for words, more in ((["--data", f"{place}/member"], {}), ([], {"PAYD_DATA": f"{place}/member"})):
                same(run(away, "pay", *words, "--order", "x", "bob", "30", **more)[:2], (0, said), f"{words} {more}")
                same(run(away, "send", *words, "BALANCE 0", **more)[1], "balance 0 70\n", f"a line: {words} {more}")
                export = json.loads(run(away, "export", *words, **more)[1])
                same(export["balances"], [70, 30, 0, 50], f"an export: {words} {more}")
            today = f"{datetime.datetime.now(datetime.timezone.utc):%Y-%m}"
            books_of_months(place, today)
            node.stdin.close()
            same((node.wait(SECONDS), json.loads(node.stdout.read())["front"]), (0, [1, 0, 0, 0]), "the node's end")
        finally:
            node.kill()
            node.wait()
            node.stdout.close()
        for word in ("status", "send"):
            why = run(away, word, "BALANCE 0")[2] if word == "send" else run(away, word)[2]
            same("member" in why, True, why)
        status, _, errors = run(away, "node")
        same((status, "member/group.json" in errors), (2, True), f"a start without a folder: {errors}")
        # what is named has to agree with the folder's
        write_json(place, "other", {**group.genesis(), "group": "8" * 64, "opening": [1, 0, 0, 50]})
        words = "node", "--genesis", "other", "--keys", "member/keys.json", "--ports", "other", "--data", "member"
        status, output, errors = run(place, *words)
        same((status, output), (2, ""), f"another group's file: {errors}")


def books_of_months(place, month):
    """Of one month what came and went in it, between what was there before and after; of another one nothing."""
    status, text, errors = run(place, "books")
    same((status, errors), (0, ""), "the books of the folder")
    same("    assets:ada  -30\n    assets:bob  30\n" in text, True, text)
    status, of_month, errors = run(place, "books", "--month", month)
    opens = f"\n{month}-01 opening balances\n    assets:ada  100 = 100\n"
    same((status, errors, opens in of_month), (0, "", True), of_month)
    same("    assets:ada  0 = 70\n    assets:bob  0 = 30\n" in of_month, True, of_month)
    for other, has in (("2999-01", 70), ("2001-01", 100)):
        status, text, errors = run(place, "books", "--month", other)
        same((status, errors, f"assets:ada  {has} = {has}\n" in text), (0, "", True), text)
        same("seq 0" in text, False, f"what there was in {other}")
        if shutil.which("hledger"):
            write_text(os.path.join(place, "journal"), text)
            same(hledger_balances(os.path.join(place, "journal"))["assets:ada"], has, f"hledger of {other}")
    for words in (["--month", "2026-13"], ["--month", "2026"], ["--data", "member", "export.json"], ["export.json"]):
        same(run(place, "books", *words)[0], 2, f"{words}")
