"""Black-box tests of `book`: against texts by hand and the model, and the exports of liars."""

import json
import random

from models import audits, group_books
from models.audits import export
from models.group_books import book
from payd_tools.frames import payment
from support.runs import same, shows


def pays(payee, amount):
    return payment(payee=payee, amount=amount).hex()


def right(given):
    """An export with the front and the balances of its own lists."""
    front = list(audits.largest_front(given))
    balances = [audits.balance(given, front, account) for account in range(given["members"])]
    return {**given, "front": front, "balances": balances}


def of(member, lists, opening=(100, 0, 0, 50)):
    return right(export(list(opening), lists, [], [], member=member))


# Account 0 has paid 30 to 1; of account 3 a payment of 60 waits, that has 50.
LISTS = [[pays(1, 30)], [], [], [pays(1, 60), ""]]
ALL = [of(member, LISTS) for member in range(4)]
BOOK = """\
account 0 settled 1 balance 70
account 1 settled 0 balance 30
account 2 settled 0 balance 0
account 3 settled 0 balance 50
waits account 3 entry 0 seq 0 to 1 amount 60 short 10
waits account 3 entry 1 seq 1 void
total 150
"""


def says(exports, text, purpose):
    """What the program and the model say."""
    status = 1 if text[:1].isdigit() else 0
    same(group_books.text_of(exports), (status, text), f"the model: {purpose}")
    shows(book(exports), status, text, of=purpose)


def test_book_by_hand():
    says(ALL, BOOK, "all exports")
    says(ALL[:2], BOOK, "f + 1 exports")


def test_what_one_export_has_is_not_the_book_s():
    """A list that f exports have, and no more, is a claim."""
    forged = of(0, [LISTS[0], [], [pays(0, 0)], [*LISTS[3], pays(0, 1)]])
    says(
        [forged, ALL[1], ALL[2]],
        BOOK.replace("total", "beyond 0 account 2 seq 0\nbeyond 0 account 3 seq 2\ntotal"),
        "one export goes on",
    )
    fork = of(1, [[pays(2, 30)], *LISTS[1:]])
    says([ALL[0], fork, ALL[2]], BOOK.replace("total", "differs 1 account 0 seq 0\ntotal"), "one export differs")
    behind = of(1, [[], [], [], []])
    says([behind, ALL[0], ALL[2]], BOOK, "one export is behind, and two aren't")
    fresh = "account 0 settled 0 balance 100\naccount 1 settled 0 balance 0\naccount 2 settled 0 balance 0\n"
    fresh += "account 3 settled 0 balance 50\nbeyond 1 account 0 seq 0\nbeyond 1 account 3 seq 0\ntotal 150\n"
    says([behind, ALL[0]], fresh, "one of f + 1 is behind")


def test_each_fault_of_a_book():
    other = of(1, LISTS, opening=(101, 0, 0, 50))
    says([ALL[0], ALL[2], other], "1 genesis 2\n", "another opening")
    says([ALL[0], ALL[0], other], "1 genesis 2\n", "another opening goes before one member twice")
    says([ALL[1], ALL[0], ALL[2], ALL[0], ALL[1]], "5 twice 0 4\n", "one member's exports counted twice")
    says([ALL[1], ALL[1]], "5 twice 0 1\n", "no member vouches twice")
    says([ALL[3]], "6 few 1\n", "f exports")
    forks = [of(member, [[pays(2, 30)], [], [], [pays(1, 50)]]) for member in (2, 3)]
    says([*ALL[:2], *forks], "7 split account 0 seq 0\n", "two values have f + 1 exports each")
    late = [of(member, [*LISTS[:3], [LISTS[3][0], pays(1, 1)]]) for member in (2, 3)]
    says([*ALL[:2], *late], "7 split account 3 seq 1\n", "the second value")


def test_forged_payments_of_one_member():
    """Member 1's own export adds a payment to itself that no other has, and settles it."""
    forged = of(1, [LISTS[0], [], [], [pays(1, 50)]])
    genuine = [of(member, [LISTS[0], [], [], []]) for member in (0, 2, 3)]
    shows(audits.audit([forged, *genuine]), 0, "clean\n", of="the audit: no two contradict")
    text = BOOK[: BOOK.index("waits")] + "beyond 0 account 3 seq 0\ntotal 150\n"
    says([forged, *genuine], text, "what it adds is beyond the book")


def test_genesis_and_export_of_a_book():
    shows(book(ALL, "--genesis"), 0, '{"faults":1,"members":4,"opening":[70,30,0,50]}\n', of="the next genesis")
    same(group_books.genesis_of(ALL), '{"faults":1,"members":4,"opening":[70,30,0,50]}\n', "the model's")
    status, text, errors = book(ALL[2:], "--export")
    same((status, errors), (0, ""), "the book as an export")
    same(text, group_books.export_of(ALL[2:]), "the model's")
    shows(audits.audit([json.loads(text), *ALL]), 0, "clean\n", of="the audit of the book as an export")
    shows(book(ALL, "--genesis", "--export"), 2, "", "payd: book: --genesis or --export, and not both\n", of="both")
    shows(book([ALL[0]], "--genesis"), 1, "6 few 1\n", of="no book, no genesis")
    shows(book([ALL[0]], "--export"), 1, "6 few 1\n", of="no book, no export")


def test_random_books_as_the_model_has_them():
    seeded = random.Random(69)
    for turn in range(300):
        exports = random_exports(seeded)
        status, text = group_books.text_of(exports)
        shows(book(exports), status, text, of=f"turn {turn}, {exports}")
        for words, written in (("--genesis", group_books.genesis_of), ("--export", group_books.export_of)):
            wanted = text if status else written(exports)
            if turn % 5 == 0:
                shows(book(exports, words), status, wanted, of=f"{words}, turn {turn}, {exports}")


def random_exports(seeded):
    """Exports of different members of one group, mostly, some of whom forge; sometimes of halves that disagree."""
    members = seeded.choice([1, 4, 4, 7])
    opening = [seeded.choice([0, 5, 10]) for _ in range(members)]
    lists = [[audits.random_value(seeded, members) for _ in range(seeded.randrange(3))] for _ in range(members)]
    rival, halves = [list(values) for values in lists], seeded.random() < 0.2
    if halves:
        values = seeded.choice(rival)
        values[seeded.randrange(len(values) + 1) :] = [pays(seeded.randrange(members), 1)]
    exports = []
    for member in seeded.sample(range(members), members if halves else seeded.randrange(1, members + 1)):
        whole = seeded.choice([lists, rival])
        own = [values[: len(values) if halves else seeded.randrange(len(values) + 2)] for values in whole]
        if seeded.random() < 0.3:
            values = seeded.choice(own)
            values[seeded.randrange(len(values) + 1) :] = [seeded.choice([pays(0, 1), pays(1, 2)])]
        exports.append({**export(opening, own, members * [0], members * [0], member=member)})
    if seeded.random() < 0.05:
        exports.append({**seeded.choice(exports)})
    if seeded.random() < 0.05:
        exports[-1]["opening"] = [1 + it for it in opening]
    return exports
