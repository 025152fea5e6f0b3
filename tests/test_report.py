"""Black-box tests of payd report: what its pages tell is parsed, and held against the model."""

import html.parser
import json
import os
import random
import re
import tempfile
import xml.etree.ElementTree as xml

from models import audits, group_books
from models.audits import FORKED, FRESH, PAID, PAID_ON, TWO_ENTRIES, WORKED
from payd_tools.frames import payment, payments
from payd_tools.values import numbered_entries
from support.runs import TOP, UNWRITTEN, call, run_to_nobody, same, write_text
from test_books import group_of

REPORT = os.path.join(TOP, "tools", "report")
MOST_BYTES = 2_000_000


def report(exports, *words, files=None):
    """Status, page and errors of a report about these exports, each in a file 0.json, 1.json .., beside other files."""
    with tempfile.TemporaryDirectory() as folder:
        for name, text in (files or {}).items():
            write_text(os.path.join(folder, name), text)
        names = [f"{place}.json" for place, _ in enumerate(exports)]
        for name, given in zip(names, exports):
            write_text(os.path.join(folder, name), given if isinstance(given, str) else json.dumps(given))
        return call([REPORT, *words, *names], folder=folder)


class Page:
    """A page that is well-formed and loads nothing."""

    def __init__(self, exports, *words, files=None):
        status, text, errors = report(exports, *words, files=files)
        same((status, errors), (0, ""), f"a report of {exports}"[:200])
        same(re.findall(r"\b(?:src|href|url|import|https?)\b", text), [], "what the page loads")
        same(text.startswith("<!DOCTYPE html>\n<html lang=\"en\">"), True, "a page of HTML")
        reader = html.parser.HTMLParser()
        reader.feed(text)
        reader.close()
        self.text, self.root = text, xml.fromstring(text)

    def said(self, name):
        """What the elements of this name say."""
        return ["".join(it.itertext()) for it in self.root.iter(name)]

    def rows(self, kind):
        """The rows of all tables of a kind, numbers as numbers."""
        tables = [it for it in self.root.iter("table") if it.get("class") == kind]
        cells = [["".join(it.itertext()) for it in row.iter("td")] for table in tables for row in table.iter("tr")]
        return [tuple(int(it) if it.isdigit() else it for it in row) for row in cells if row]

    def squares(self):
        return [len(it.get("d").split("z")) - 1 for it in self.root.iter("path") if it.get("class") == "squares"]


def settled_and_left(given, account, front):
    entries = numbered_entries(given, account)
    return entries[: front[account]], entries[front[account] :]


def agrees(page, given):
    """The page's tables are those of the model."""
    front = audits.largest_front(given)
    accounts, waiting, sums = [], [], {}
    for account in range(given["members"]):
        settled, left = settled_and_left(given, account, front)
        paid = [it for _, it in settled if it]
        for payee, amount in paid:
            count, total = sums.get((account, payee), (0, 0))
            sums[account, payee] = count + 1, total + amount
        opening, balance = given["opening"][account], audits.balance(given, front, account)
        out = sum(amount for _, amount in paid)
        accounts.append((account, opening, balance - opening + out, out, balance, len(settled), len(left)))
        if left:
            seq, (payee, amount) = left[0]
            behind = len(left) - 1
            waiting.append((account, seq, len(settled), amount, payee, balance, amount - balance, behind))
    same(page.rows("accounts"), accounts, f"the accounts of {given}")
    same([row[:-1] for row in page.rows("waiting")], waiting, f"what waits of {given}")
    same(sorted(page.rows("pairs")), sorted((*pair, *told) for pair, told in sums.items()), f"the pairs of {given}")
    same(page.squares(), [len(sums)] if sums else [], f"the squares of {given}")
    same(
        page.said("figcaption"),
        [
            f"account {row[0]}: {row[1]} to {row[4]}, at most {most}"
            for row, most in zip(accounts, heights(page, given))
        ],
        f"the curves of {given}",
    )


def headline_of(line):
    """What stands above, by the number of a verdict."""
    own = "an export contradicts its own lists"
    said = {"1": "these exports are of different groups", "2": own, "3": own, "4": "the exports contradict one another"}
    return f"Audit: {said.get(line.split(' ')[0], line)}"


def heights(page, given):
    """Of each account the most that it had, by the page's order of entries, in which nobody is below zero."""
    balances = list(given["opening"])
    most, seen = list(balances), [0] * given["members"]
    for _, payer, seq, number, payee, amount in page.rows("entries"):
        same(number, seen[payer], "the next entry of its owner")
        told, entry = numbered_entries(given, payer)[number]
        same((seq, payee, amount), (told, *(entry or ("none: void", 0))), "an entry of the page")
        seen[payer] += 1
        if entry:
            balances[payer] -= amount
            balances[payee] += amount
        same(min(balances) >= 0, True, f"nobody owes: {balances}")
        most = [max(it) for it in zip(most, balances)]
    same(seen, list(audits.largest_front(given)), f"the entries of {given}")
    return most


def test_pages_as_the_model_has_them():
    seeded = random.Random(46)
    given = [PAID, FRESH, FORKED, TWO_ENTRIES, WORKED, PAID_ON]
    for _ in range(6):
        given += audits.random_exports(seeded)
    for it in given:
        page = Page([it])
        same(page.said("h1"), [headline_of(audits.verdict([it]))], f"the verdict of {it}")
        agrees(page, it)


def test_pages_of_groups():
    """The verdict is that of all. The group's book is shown, or that of the export with the most settled entries."""
    for _, exports, line in audits.ROWS:
        page = Page(exports)
        same(page.said("h1"), [headline_of(line)], f"the verdict of {exports}")
        counts = [sum(audits.largest_front(it)) for it in exports]
        rows = [(k, f"{k}.json", it["member"], counts[k]) for k, it in enumerate(exports)]
        same(page.rows("exports"), rows, f"the exports of {exports}")
        has_book = group_books.fault_of(exports) is None
        agrees(page, group_books.book_of(exports) if has_book else exports[counts.index(max(counts))])


def test_claims_of_single_exports():
    """A payment that one export adds isn't settled on the page, though the audit is clean."""
    forged = [[], [], [], [payment(payee=0, amount=5).hex(), payment(payee=1, amount=45).hex(), ""]]
    forger = {**PAID, "lists": forged, "front": [0, 0, 0, 3], "balances": [5, 45, 0, 0], "member": 3}
    page = Page([PAID, FRESH, forger])
    same(page.said("h1"), ["Audit: clean"], "the audit")
    same(any("may be made up all the same" in it for it in page.said("p")), True, "what clean means")
    agrees(page, PAID)
    claim = (2, "2.json", 3, 1, "45 to account 1", "none", 1, "only member 3")
    same(page.rows("claims"), [claim], "what export 2 adds")
    same(any("what at least 2 of the exports have" in it for it in page.said("p")), True, "what is shown")
    page = Page([PAID, FRESH])
    agrees(page, FRESH)
    claim = (0, "0.json", 3, 0, "5 to account 0", "none", 0, "only member 0")
    same(page.rows("claims"), [claim], "what one of two has")


FORK = "show different payments as number 0 of"
WHY = ": one of their nodes lied or its folder was copied, or more than 1 of all members lied."


def test_both_payments_of_a_fork():
    page = Page([PAID, FORKED, {**PAID, "member": 3}])
    same(page.said("p")[0], f"Members 0 and 2 {FORK} account 3{WHY} 5 to account 0: members 0 and 3; 5 to account 1:"
                            " member 2.", "both payments")
    alone = Page([FORKED, {**PAID, "member": 2}]).said("p")[0]
    same(alone.startswith(f"Member 2 shows {FORK[len('show '):]} account 3"), True, f"two exports of one: {alone}")
    claim = (1, "1.json", 3, 0, "5 to account 1", "5 to account 0", 0, "only member 2")
    same(page.rows("claims"), [claim], "what export 1 has")


NAMES = ("Ann", "Bob", "Cy", "Dee")
GROUP = {"group": json.dumps(group_of(PAID, *NAMES)), "times": "2026-03-01T10:00:00Z 0 0 0 1\n"}


def test_pages_by_names():
    """And with times: of a fork, and of claims."""
    words = "--group", "group", "--times", "times"
    page = Page([PAID, FORKED, {**PAID, "member": 3}], *words, files=GROUP)
    sides = "5 to Ann: members 0 Ann and 3 Dee; 5 to Bob: member 2 Cy."
    same(page.said("p")[0], f"Members 0 Ann and 2 Cy {FORK} Dee's account{WHY} {sides}", "both payments")
    same([it[0] for it in page.rows("accounts")], ["0 Ann", "1 Bob", "2 Cy", "3 Dee"], "the accounts")
    same(page.rows("entries"), [(1, "3 Dee", 0, 0, "0 Ann", 5, "2026-03-01T10:00:00Z")], "the entries")
    claim = (1, "1.json", "3 Dee", 0, "5 to Bob", "5 to Ann", 0, "only member 2 Cy")
    same((page.rows("claims"), page.rows("pairs")), ([claim], [("3 Dee", "0 Ann", 1, 5)]), "claims and pairs")
    same(page.said("figcaption")[3], "Dee: 50 to 45, at most 50", "a curve")
    two = {"group": json.dumps(group_of(WORKED, "A", "B"))}
    page = Page([WORKED, {**WORKED, "member": 1}], "--group", "group", files=two)
    same(page.rows("waiting"), [("1 B", 1, 1, 11, "0 A", 4, 7, 0, "none is listed")], "what waits")
    wrong = {**PAID, "front": [0, 0, 0, 0], "balances": [5, 0, 0, 44], "member": 1}
    other = {**PAID, "opening": [1, 0, 0, 50], "balances": [6, 0, 0, 45], "member": 2}
    why = "the export was changed, or made by a wrong program."
    same(
        Page([FRESH, wrong, other], *words, files=GROUP).said("p")[:3],
        [
            "Member 2 shows an export of another group than export 0.",
            f"Member 1 Bob says that 0 entries of Dee's account are settled, and its own lists say 1: {why}",
            f"Member 1 Bob says that Dee's account has 44, and its own lists say 45: {why}",
        ],
        "each thing that is wrong",
    )
    for words, why in (
        (["--group", "group"], "0.json: it is of another group than group"),
        (["--times", "times"], "times: it is of another group"),
    ):
        same(report([WORKED], *words, files=GROUP), (1, "", f"payd report: {why}\n"), f"{words}")


def test_pages_without_a_book():
    for exports, why in (
        ([PAID], "there are no more exports, 1, than members may lie. Only member 0 says all this."),
        ([PAID, PAID], "exports 0 (0.json) and 1 (1.json) are of one member. Only member 0 says all this."),
        (
            [PAID, {**PAID, "member": 1}, FORKED, {**FORKED, "member": 3}],
            "at seq 0 are each in more exports than members may lie. Only member 0 says all this.",
        ),
    ):
        page = Page(exports)
        same(any(why in it for it in page.said("p")), True, why)
        same(page.rows("claims"), [], "claims")


def test_what_would_cover_a_payment():
    """Two accounts without money wait for one another, and a third one for what they have not."""
    several = payments([(0, 7), (0, 8)])
    lists = [[payment(payee=1, amount=10).hex()], [several.hex()], [payment(payee=0, amount=60).hex()]]
    page = Page([audits.export([0, 0, 50], lists, [0, 0, 0], [0, 0, 50])])
    same(
        page.rows("waiting"),
        [
            (0, 0, 0, 10, 1, 0, 10, 0, "7 of account 1 seq 0, 8 of account 1 seq 0, 60 of account 2 seq 0; 75 in all"),
            (1, 0, 0, 7, 0, 0, 7, 1, "10 of account 0 seq 0; 10 in all"),
            (2, 0, 0, 60, 0, 50, 10, 0, "none is listed"),
        ],
        "what waits",
    )


def test_large_pages():
    """64 members with 10,000 payments, and 4: what is folded or cut says so."""
    for members in (64, 4):
        counts = [len(range(owner, 10_000, members)) for owner in range(members)]
        lists = [count * [payment(payee=(owner + 1) % members, amount=1).hex()] for owner, count in enumerate(counts)]
        balances = [10_000 + counts[owner - 1] - count for owner, count in enumerate(counts)]
        page = Page([audits.export(members * [10_000], lists, counts, balances)])
        same(len(page.text) < MOST_BYTES, True, f"{len(page.text)} bytes")
        same([row[4] for row in page.rows("accounts")], balances, "the balances")
        rows = [(owner, (owner + 1) % members, count, count) for owner, count in enumerate(counts)]
        same(sorted(page.rows("pairs")), rows, "the pairs")
        same(len(page.rows("entries")), 200, "the entries that are written")
        same("The first 100 and the last 100 of 10000 entries; payd journal writes all." in page.said("p"), True, "cut")
        same(("48 accounts more" in page.said("summary")), members == 64, "folded")
        drawn = "400 of 5001 balances are drawn" if members == 4 else None
        same(any("are drawn" in it for it in page.said("figcaption")), drawn is not None, "sampled")


def test_pages_to_nobody(folder):
    """One line says that a page can't be written, be it long or short."""
    for name, lists in (("short", [[]]), ("long", [200 * [payment(payee=0, amount=1).hex()]])):
        file = os.path.join(folder, name)
        with open(file, "w", encoding="ascii") as text:
            json.dump(audits.export([7], lists, [len(lists[0])], [7]), text)
        wanted = [(1, f"payd report: {why}\n") for why in UNWRITTEN]
        same([*run_to_nobody([REPORT, file])], wanted, f"a {name} page to nobody")


def test_no_page():
    for exports, fault, advice in (
        ([PAID, "{"], "export 1 BadJson", "it isn't JSON: it may be cut, so take the export once more"),
        ([{**PAID, "front": []}], "export 2 BadShape", "it is no export, or an account's list is too long"),
    ):
        status, text, errors = report(exports)
        said = f"payd report: payd: {fault} in {len(exports) - 1}.json: {advice}\n"
        same((status, text, errors), (1, "", said), f"{exports}")
    said = "payd report: payd: cannot read gone: there is no such file or folder\n"
    same(report([], "gone"), (1, "", said), "no file")
    status, text, errors = report([])
    same((status, text, "usage: payd report" in errors), (2, "", True), "no words")
