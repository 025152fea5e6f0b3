"""Writes a page about a group's books, from the exports of its members.

usage: payd report [--group GROUP] [--times FILE] EXPORT.. > report.html

With --group, accounts have the names of the group's file; with --times, entries have the times of that file, which is
`times` of a member's folder. Each thing that the audit finds stands at the top in a sentence.

The page is one file that loads nothing: the audit's verdict; the accounts; each balance as it went; who paid whom; and
what waits, and for what. Verdict, opening balances, settled entries, balances and the group's book are what the
program prints. What it doesn't print is made of that here: sums, and each balance on its way, which has to end at the
balance that it prints. What waits, and what is paid under a number, is read here from the lists of an export, and the
settled entries found so have to be those of the program.

The group's book is shown, where there is one, and what single exports claim beyond it; else the book of the export with
the most settled entries. Exports have no order among payments of different accounts: the order of the page is one in
which they could have settled. Long tables are folded, and longer ones cut, which the page says.
"""

from __future__ import annotations

import argparse
import collections
import datetime
import html
import os
import re
import tempfile
from collections import Counter
from typing import Iterator

from payd_tools import groups, usage
from payd_tools.exports import Book, Entries, Entry, said, times_in, values
from payd_tools.groups import DIGITS_OF_KEYS, read_group
from payd_tools.times import Times, text_of
from payd_tools.usage import Failure

# How many accounts are shown before the others are folded, rows of a table, points of a curve, and accounts whose
# payments to one another are written as numbers.
SHOWN, ROWS, POINTS, NUMBERED = 16, 200, 400, 8
# How many of the payments that an account waits for are named.
NAMED = 4
# How wide the picture of who paid whom is on a large page, how wide on a phone, and its letters on both.
WIDE, NARROW, LETTER = 900, 340, 11
# How many letters of a name stand in that picture.
LABEL = 8

# How many of a line's words, the first, are places of exports.
OF_EXPORTS = {"genesis": 1, "twice": 2, "few": 0, "split": 0}

# A line of `payd audit --all` that has a sentence of its own.
FOUND = re.compile(r"(?:1 genesis|[23] (front|balance) account (\d+) says (\d+) right (\d+)) in (\d+)")
FORK = re.compile(r"4 fork owner (\d+) seq (\d+) .* exports \d+ in ([\d ]+)")
WRONG = "and its own lists say {right}: the export was changed, or made by a wrong program."
SENTENCES = {
    None: "{members} {shows} an export of another group than export 0.",
    "front": f"{{members}} says that {{says}} entries of {{account}} are settled, {WRONG}",
    "balance": f"{{members}} says that {{account}} has {{says}}, {WRONG}",
    "fork": "{members} {shows} different payments as number {seq} of {account}: one of their nodes lied or its folder"
    " was copied, or more than {faults} of all members lied. {sides}.",
}

# Why there is no book of the group, by the line of `payd book`.
NO_BOOK = {
    "genesis": "export {0} is of another group than export 0",
    "twice": "exports {0} and {1} are of one member",
    "few": "there are no more exports, {0}, than members may lie",
    "split": "two payments of account {1} at seq {3} are each in more exports than members may lie",
}


# ---- what the program says


class Group:
    """The group's book, where there is one, and what single exports claim against it or beyond it."""

    def __init__(self, names: list[str], folder: str) -> None:
        self.book, self.lines = None, said("book", "--", *names).splitlines()
        if not self.lines[0][0].isdigit():
            name = os.path.join(folder, "book.json")
            with open(name, "w", encoding="ascii") as file:
                file.write(said("book", "--export", "--", *names))
            self.book = Book(None, name)
            self.book.opening  # read while the file is there

    def why_none(self, names: list[str]) -> str:
        kind, *words = self.lines[0].split(" ")[1:]
        return NO_BOOK[kind].format(*with_files(kind, words, names))

    def claims(self) -> list[tuple]:
        """Returns export, account and seq of each."""
        claims = [line.split(" ") for line in self.lines if line.split(" ")[0] in ("differs", "beyond")]
        return [(int(export), int(account), int(seq)) for _, export, _, account, _, seq in claims]


def with_files(kind: str, words: list[str], names: list[str]) -> list[str]:
    """Returns the words of a line, those that are places of exports with the names of their files."""
    count = OF_EXPORTS[kind]
    return [f"{it} ({usage.shown(names[int(it)])})" for it in words[:count]] + words[count:]


def payments_at(book: Book, account: int, seq: int) -> str:
    """Returns the payments of one value of an export in words."""
    listed = book.given["lists"][account]
    if seq >= len(listed):
        return "none"
    paid = values.entries(bytes.fromhex(listed[seq]), account, book.given["members"])
    return ", ".join(f"{book.unit.text(it[1])} to {book.named(it[0])}" if it else "nothing: void" for it in paid)


def in_turns(book: Book) -> Iterator[tuple[Entry, tuple[tuple[int, int], ...]]]:
    """Yields all settled entries in an order in which they could have settled: the accounts take turns. With each entry
    come the balances after it that it changed, as pairs of account and balance."""
    balances = list(book.opening)
    left = [iter(entries) for entries in book.settled]
    heads = [next(it, None) for it in left]
    moved = True
    while moved:
        moved = False
        for owner, entry in enumerate(heads):
            if entry is None or (entry.amount or 0) > balances[owner]:
                continue
            changed = ()
            if entry.amount is not None:
                balances[owner] -= entry.amount
                balances[entry.payee] += entry.amount
                changed = ((owner, balances[owner]), (entry.payee, balances[entry.payee]))
            yield entry, changed
            heads[owner], moved = next(left[owner], None), True
    if balances != book.balances or any(heads):
        raise Failure(f"the balances that the program prints of {book.name} aren't those of its payments")


# ---- the page


def element(name: str, content: str | int | Amount = "", **attributes: str) -> str:
    words = "".join(f' {key.rstrip("_").replace("_", "-")}="{html.escape(str(it))}"' for key, it in attributes.items())
    return f"<{name}{words}>{content}</{name}>"


class Amount(str):
    """The digits of an amount, which stand as those of a number."""


def amount(book: Book, number: int) -> Amount:
    return Amount(book.unit.digits(number))


def cell(it: int | str | Amount) -> str:
    if isinstance(it, (int, Amount)):
        return element("td", it, class_="number")
    return element("td", html.escape("" if it is None else str(it)))


def table(heads: tuple[str, ...], rows: list[tuple], **attributes: str) -> str:
    numbers = [isinstance(it, (int, Amount)) for it in rows[0]] if rows else [False] * len(heads)
    head = "".join(map(head_cell, heads, numbers))
    body = "\n".join(element("tr", "".join(map(cell, row))) for row in rows)
    whole = element("table", element("thead", element("tr", head)) + element("tbody", f"\n{body}\n"), **attributes)
    return element("div", whole, class_="wide")


def head_cell(it: str, is_number: bool) -> str:
    return element("th", html.escape(it), scope="col", **({"class_": "number"} if is_number else {}))


def counted(count: int, one: str, several: str) -> str:
    return f"{count} {one if count == 1 else several}"


def folded(title: str, content: str) -> str:
    return element("details", element("summary", html.escape(title)) + content)


def cut(heads: tuple[str, ...], rows: list[tuple], of: str, count: int | None = None, **attributes: str) -> str:
    """Returns a table with the first and last of its `count` rows where there are many. Those between may be
    missing."""
    count = len(rows) if count is None else count
    if count <= ROWS:
        return table(heads, rows, **attributes)
    half = ROWS // 2
    note = f"The first {half} and the last {half} of {count} {of}."
    return element("p", note, class_="cut") + table(heads, rows[:half] + rows[-half:], **attributes)


def members_of(books: list[Book]) -> str:
    """Returns the members of exports, in words."""
    called = [f"{it}" for it in dict.fromkeys(it.called(it.given["member"]) for it in books)]
    shown = called if len(called) <= SHOWN else [*called[:SHOWN], f"{len(called) - SHOWN} more"]
    several = f"s {', '.join(shown[:-1])} and" if len(shown) > 1 else ""
    return f"member{several} {shown[-1]}"


def sentence(kind: str | None, books: list[Book], **words: str | int | None) -> str:
    members = members_of(books)
    shows = "shows" if members.startswith("member ") else "show"
    return SENTENCES[kind].format(members=f"M{members[1:]}", shows=shows, **words)


def findings_in(lines: list[str], books: list[Book]) -> Iterator[str]:
    """Yields a sentence for each thing that is wrong, of the lines of an audit in which exports are named by their
    places."""
    forks = {}
    for line in lines:
        fork = FORK.fullmatch(line)
        if fork:
            having = [books[int(it)] for it in fork[3].split()]
            forks.setdefault((int(fork[1]), int(fork[2])), []).append(having)
        else:
            kind, account, says, right, place = FOUND.fullmatch(line).groups()
            book = books[int(place)]
            if kind == "balance":
                says, right = (book.unit.text(int(it)) for it in (says, right))
            yield sentence(kind, [book], account=kind and book.whose(int(account)), says=says, right=right)
    for (owner, seq), sides in forks.items():
        told = "; ".join(f"{payments_at(it[0], owner, seq)}: {members_of(it)}" for it in sides)
        words = {"account": sides[0][0].whose(owner), "seq": seq, "faults": books[0].given["faults"], "sides": told}
        yield sentence("fork", [it[0] for it in sides], **words)


def audit_of(books: list[Book], folder: str) -> tuple[str, list[str]]:
    """Returns the audit's line, and what it means, a sentence for each thing that is wrong, and the line."""
    for it in books:
        os.symlink(os.path.abspath(it.file), os.path.join(folder, f"{it.place}"))
    line, *found = said("audit", "--all", "--", *(f"{it.place}" for it in books), folder=folder).splitlines()
    if line != "clean":
        return line, [*findings_in(found, books), f"payd audit says: {line}"]
    one = "The one export follows" if len(books) == 1 else "No two exports contradict one another, and each follows"
    return line, [f"{one} from its own lists. What a single export claims may be made up all the same."]


def paid_out(entries: Entries) -> int:
    return sum(it.amount or 0 for it in entries)


# What a verdict means, by its number.
HEADLINES = {
    "clean": "clean",
    "1": "these exports are of different groups",
    "2": "an export contradicts its own lists",
    "3": "an export contradicts its own lists",
    "4": "the exports contradict one another",
}


def headline(line: str) -> str:
    return f"Audit: {HEADLINES[line.partition(' ')[0]]}"


def about_group(group: groups.Group | None, moment: datetime.datetime) -> str:
    """Returns which group the page is about, and when it was written."""
    written = f"Written on {moment:%Y-%m-%d at %H:%M} UTC."
    if group is None:
        return f"{written} Without the group's file accounts have no names, and amounts no unit."
    unit = f"Amounts are in {group.unit.name}." if group.unit.name else "Amounts are whole numbers without a unit."
    return f"Group {group.digest()[:DIGITS_OF_KEYS]}, fingerprint {' '.join(group.fingerprint())}. {unit} {written}"


def accounts_section(book: Book, waiting: list[Entries]) -> str:
    rows = [
        (book.called(account), *(amount(book, it) for it in sums), len(settled), len(behind))
        for account, (settled, behind, *sums) in enumerate(
            zip(book.settled, waiting, book.opening, book.incoming, map(paid_out, book.settled), book.balances)
        )
    ]
    heads = ("account", "opening", "in", "out", "balance", "front", "waiting")
    parts = [table(heads, rows[:SHOWN], class_="accounts")]
    if rows[SHOWN:]:
        parts.append(folded(f"{len(rows) - SHOWN} accounts more", table(heads, rows[SHOWN:], class_="accounts")))
    return section("Accounts", "front: how many entries of the account are settled.", *parts)


class Curve:
    """An account's balance, from step to step: each, and of many the last one of each column."""

    def __init__(self, opening: int, steps: int) -> None:
        self.steps, self.count, self.most, self.first, self.last = steps, 0, opening, opening, opening
        self.points, self.columns = [], {}
        self.add(0, opening)

    def add(self, step: int, balance: int) -> None:
        self.count, self.most, self.last = self.count + 1, max(self.most, balance), balance
        if self.count <= POINTS:
            self.points.append((step, balance))
        self.columns[step * POINTS // (self.steps + 1)] = step, balance

    def drawn(self, book: Book, account: int) -> str:
        first, last, most = (book.unit.text(it) for it in (self.first, self.last, self.most))
        title = f"{book.named(account)}: {first} to {last}, at most {most}"
        points = self.points if self.count <= POINTS else list(self.columns.values())
        if len(points) < self.count:
            title += f"; {len(points)} of {self.count} balances are drawn"
        path = [f"M0 {height_of(points[0][1], self.most)}"]
        path += [f"H{step * 300 / (self.steps + 1):.4g}V{height_of(balance, self.most)}" for step, balance in points]
        drawn = f'<path d="{"".join(path)}H300"/><path class="base" d="M0 61H300"/>'
        how = {"viewBox": "-1 -1 302 64", "role": "img", "aria_label": title, "preserveAspectRatio": "none"}
        return element("figure", element("svg", drawn, **how) + element("figcaption", title))


def height_of(balance: int, most: int) -> str:
    return f"{60 - balance * 60 / max(most, 1):.3g}"


def balances_section(book: Book, turns: Iterator, times: Times) -> str:
    steps, kept = book.count(), []
    curves = [Curve(opening, steps) for opening in book.opening]
    for step, (entry, changed) in enumerate(turns, 1):
        for account, balance in changed:
            curves[account].add(step, balance)
        if step <= ROWS or step > steps - ROWS // 2:
            kept.append((step, entry))
    drawn = [curve.drawn(book, account) for account, curve in enumerate(curves)]
    parts = [element("div", "\n".join(drawn[:SHOWN]), class_="curves")]
    if drawn[SHOWN:]:
        others = element("div", "\n".join(drawn[SHOWN:]), class_="curves")
        parts.append(folded(f"{len(drawn) - SHOWN} accounts more", others))
    settled = counted(steps, "settled entry", "settled entries")
    note = (
        f"Each from its opening balance through all accounts' {settled}, in an order in which they could have settled;"
        " each has a scale of its own, from 0."
    )
    heads, *rows = zip(*columns_of(book, kept, times))
    written = cut(heads, rows, "entries; payd journal writes all", steps, class_="entries")
    parts.append(folded(counted(steps, "entry", "entries"), written))
    return section("Balances as they went", note, *parts)


def settled_by(times: Times, *place: int) -> str:
    return f"{text_of(times.when(*place)) or ''}{'' if times.is_sure(*place) else ', unsure'}"


def columns_of(book: Book, kept: list[tuple[int, Entry]], times: Times) -> Iterator[tuple[str | int | Amount, ...]]:
    """Yields the columns of a table of entries, each of which has its step, and each column with its head."""
    entries = [it for _, it in kept]
    yield "step", *(step for step, _ in kept)
    yield "payer", *(book.called(it.owner) for it in entries)
    yield "seq", *(it.seq for it in entries)
    yield "entry", *(it.number for it in entries)
    yield "payee", *("none: void" if it.amount is None else book.called(it.payee) for it in entries)
    yield "amount", *(amount(book, it.amount or 0) for it in entries)
    if any(book.note_of(it) is not None for it in entries):
        yield "note", *(book.note_of(it) for it in entries)
    if times.latest:
        yield "settled by", *(settled_by(times, it.owner, it.number) for it in entries)


def who_section(book: Book) -> str:
    sums, counts = Counter(), Counter()
    for entries in book.settled:
        for it in entries:
            if it.amount is not None:
                sums[it.owner, it.payee] += it.amount
                counts[it.owner, it.payee] += 1
    rows = [(*map(book.called, pair), counts[pair], amount(book, it)) for pair, it in sums.most_common()]
    heads = ("payer", "payee", "payments", "amount")
    note = "Rows pay columns. A square's area is the amount, against the greatest one."
    return section(
        "Who paid whom",
        note if rows else "No payment has settled.",
        matrix(book, sums) if rows else "",
        folded(counted(len(rows), "pair", "pairs"), cut(heads, rows, "pairs", class_="pairs")) if rows else "",
    )


def matrix(book: Book, sums: collections.Counter) -> str:
    """Returns the amounts as squares, and below them as numbers where there are few."""
    members = len(book.opening)
    numbered = members <= NUMBERED
    size, room = (60, 40) if numbered else (16, 14)
    most, edge = max(sums.values()), size * members
    lines = "".join(f"M0 {size * k}H{edge}M{size * k} 0V{edge}" for k in range(members + 1))
    squares, words = [], []
    for (payer, payee), paid_sum in sums.items():
        side = max(1.0, room * (paid_sum / most) ** 0.5)
        x, y = payee * size + (size - side) / 2, payer * size + 1 + (room - side) / 2
        squares.append(f"M{x:.1f} {y:.1f}h{side:.1f}v{side:.1f}h-{side:.1f}z")
        if numbered:
            words.append(text(payee * size + size / 2, payer * size + size - 5, amount(book, paid_sum)))
    # a unit is smaller where the picture is: letters have as many more of them
    wide, narrow = (LETTER * max(1, edge / width) for width in (WIDE, NARROW))
    labels = [label_of(book, it) if numbered else f"{it}" for it in range(members)]
    margin = narrow * max(2, 0.7 * max(map(len, labels)))
    for account in range(0, members, 1 if numbered else 8):
        middle = account * size + size / 2
        words += [text(middle, -narrow / 3, labels[account]), text(-margin / 2, middle + wide / 3, labels[account])]
    drawn = f'<path class="grid" d="{lines}"/><path class="squares" d="{"".join(squares)}"/>{"".join(words)}'
    label = f"the amounts that {members} accounts paid one another"
    style = f"max-width:{min(edge + margin, WIDE):.4g}px;--wide:{wide:.3g}px;--narrow:{narrow:.3g}px"
    box = f"{-margin:.4g} {-margin:.4g} {edge + margin + 2:.4g} {edge + margin + 2:.4g}"
    return element("svg", drawn, viewBox=box, role="img", aria_label=label, style=style)


def label_of(book: Book, account: int) -> str:
    """Returns an account in the picture, where there is room for few letters."""
    name = f"{account}" if book.names is None else book.names[account]
    return name if len(name) <= LABEL else f"{name[: LABEL - 1]}\u2026"


def text(x: float, y: float, words: Amount | str) -> str:
    return element("text", html.escape(f"{words}"), x=f"{x:.4g}", y=f"{y:.4g}")


def waiting_section(book: Book, waiting: list[Entries]) -> str:
    heads = ("account", "seq", "entry", "pays", "to", "balance", "short by", "behind it", "waiting payments to it")
    rows = [row_of(book, waiting, entries) for entries in waiting if entries]
    if not rows:
        return section("What waits", "Nothing: all that the lists have is settled.")
    note = (
        "An account's next payment waits until its balance covers it, and all its later entries wait behind that one."
        " What would cover it are payments to the account; those that wait themselves are named."
    )
    named = "\n".join(f".waiting td:nth-child({k})::before {{ content: '{it} ' }}" for k, it in enumerate(heads, 1))
    style = element("style", f"@media {SMALL} {{\n{named}\n}}")
    return section("What waits", note, style, cut(heads, rows, "accounts", class_="waiting"))


def row_of(book: Book, waiting: list[Entries], entries: Entries) -> tuple[str | int | Amount, ...]:
    first = entries[0]
    short = first.amount - book.balances[first.owner]
    named, coming = coming_to(book, waiting, first.owner)
    named = f"{named}; {book.unit.text(coming)} in all" if named else "none is listed"
    payer, payee = book.called(first.owner), book.called(first.payee)
    pays, has, lacks = (amount(book, it) for it in (first.amount, book.balances[first.owner], short))
    where = (payer, first.seq, first.number, pays, payee, has, lacks)
    return (*where, len(entries) - 1, named)


def coming_to(book: Book, waiting: list[Entries], account: int) -> tuple[str, int]:
    """Returns the waiting payments to an account in words, and their sum."""
    named, count, amount = [], 0, 0
    for it in (it for entries in waiting for it in entries if it.payee == account):
        if count < NAMED:
            named.append(f"{book.unit.text(it.amount)} of {book.named(it.owner)} seq {it.seq}")
        count, amount = count + 1, amount + it.amount
    if count > NAMED:
        named.append(f"{count - NAMED} more")
    return ", ".join(named), amount


def alike(books: list[Book], one: Book, account: int, seq: int) -> list[Book]:
    """Returns the exports that have the same value there as one of them."""
    wanted, *others = (it.given["lists"][account][seq : seq + 1] for it in (one, *books))
    return [it for it, its in zip(books, others) if "".join(its).lower() == wanted[0].lower() and its]


def claims_section(books: list[Book], group: Group) -> str:
    """Returns what single exports have that the group's book hasn't."""
    rows = [
        (
            export,
            books[export].name,
            group.book.called(account),
            seq,
            payments_at(books[export], account, seq),
            payments_at(group.book, account, seq),
            len(books[export].given["lists"][account]) - seq - 1,
            f"only {members_of(alike(books, books[export], account, seq))}",
        )
        for export, account, seq in group.claims()
    ]
    if not rows:
        return section("Claims of single exports", "No export has what the group's book hasn't.")
    heads = ("export", "file", "account", "seq", "it pays", "the book pays", "values after it", "who says it")
    note = (
        "What these exports have here is in too few of them to be believed: it may have come late to the others, or"
        f" be made up. The book has what {group.book.given['faults'] + 1} say."
    )
    return section("Claims of single exports", note, cut(heads, rows, "claims", class_="claims"))


def exports_section(books: list[Book], shown: Book, group: Group) -> str:
    heads = ("export", "file", "of member", "settled entries")
    rows = [(it.place, it.name, it.called(it.given["member"]), it.count()) for it in books]
    if group.book is None:
        note = f"The page shows export {shown.place}, by its opening balances and lists alone. There is no book of the"
        note += f" group: {group.why_none([it.name for it in books])}. Only {members_of([shown])} says all this."
    else:
        most = shown.given["faults"] + 1
        note = f"The page shows the group's book: what at least {most} of the exports have, settled."
    content = table(heads, rows, class_="exports")
    return section("Exports", note, content if len(rows) <= SHOWN else folded(f"{len(rows)} exports", content))


def section(title: str, note: str, *parts: str) -> str:
    return element("section", element("h2", title) + element("p", html.escape(note)) + "\n".join(parts))


# A phone.
SMALL = "(max-width: 40rem)"

STYLE = """
body { font: 16px/1.45 sans-serif; color: #000; background: #fff; max-width: 60rem; margin: 0 auto; padding: 1rem; }
h1 { border: 3px solid #000; padding: .5rem 1rem; margin: 0; }
h1.wrong { background: #000; color: #fff; } .wrong ~ .meaning { font-weight: bold; }
.group { font-size: .85rem; overflow-wrap: anywhere; }
h2 { border-bottom: 1px solid #000; margin-top: 2rem; }
.wide { overflow-x: auto; }
table { border-collapse: collapse; margin: .5rem 0; }
th, td { border: 1px solid #999; padding: .15rem .5rem; text-align: left; }
.waiting td:last-child { min-width: 12rem; }
th.number, td.number { text-align: right; font-variant-numeric: tabular-nums; }
.curves { display: grid; grid-template-columns: repeat(auto-fill, minmax(14rem, 1fr)); gap: 1rem; }
figure { margin: 0; } figure svg { width: 100%; height: 5rem; }
figcaption { font-size: .85rem; }
svg { width: 100%; } svg path { fill: none; stroke: #000; stroke-width: 1.5; vector-effect: non-scaling-stroke; }
svg .base, svg .grid { stroke: #999; stroke-width: .5; } svg .squares { fill: #000; stroke: none; }
text { font-size: var(--wide); text-anchor: middle; }
summary { cursor: pointer; padding: .3rem 0; }
@media SMALL {
text { font-size: var(--narrow); }
table { font-size: .7rem; } th, td { padding: .1rem .2rem; }
.curves { grid-template-columns: 1fr 1fr; }
.waiting thead { display: none; } .waiting tr { display: block; border-top: 1px solid #000; padding: .3rem 0; }
.waiting td { display: inline-block; border: none; padding: 0 .6rem 0 0; } .waiting td::before { font-weight: bold; }
}
@media print {
body { font-size: 11px; max-width: none; padding: 0; } h1, h1.wrong { background: #fff; color: #000; }
h1.wrong { border-width: 6px; } h2 { break-after: avoid; } .wide { overflow: visible; }
tr, figure, svg, .meaning { break-inside: avoid; } thead { display: table-header-group; }
details::details-content { content-visibility: visible; height: auto; }
}
""".replace("SMALL", SMALL)


def name_accounts(name: str, books: list[Book], book: Book | None) -> groups.Group:
    """Gives the exports of a group, and its book, the names and the unit in its file, which comes back."""
    group = read_group(name, has_cryptography=False)
    books[0].check_is_of(group, name)
    for it in filter(None, (*books, book)):
        if it.is_of(group):
            it.names, it.unit = group.names, group.unit
    return group


def page(given: argparse.Namespace) -> str:
    names, books = given.export, [Book(place, name) for place, name in enumerate(given.export)]
    with tempfile.TemporaryDirectory() as folder:
        group = Group(names, folder)
        file = None if given.group is None else name_accounts(given.group, books, group.book)
        line, meaning = audit_of(books, folder)
    times = times_in(given.times, books[0].given["members"])
    shown = group.book or max(books, key=Book.count)
    waiting, turns = shown.waiting(), in_turns(shown)
    parts = [
        element("h1", headline(line), class_="clean" if line == "clean" else "wrong"),
        *(element("p", html.escape(it), class_="meaning") for it in meaning[:ROWS]),
        element("p", f"{len(meaning) - ROWS} findings more: payd audit --all has them.") if meaning[ROWS:] else "",
        element("p", html.escape(about_group(file, datetime.datetime.now(datetime.timezone.utc))), class_="group"),
        exports_section(books, shown, group),
        claims_section(books, group) if group.book else "",
        accounts_section(shown, waiting),
        waiting_section(shown, waiting),
        who_section(shown),
        balances_section(shown, turns, times),
    ]
    view = '<meta charset="utf-8"/><meta name="viewport" content="width=device-width, initial-scale=1"/>'
    head = element("head", view + element("title", headline(line)) + element("style", STYLE))
    return "<!DOCTYPE html>\n" + element("html", "\n".join([head, element("body", "\n".join(parts))]), lang="en")


@usage.tool(unwritten=1)
def main() -> None:
    words = usage.parser(__doc__)
    words.add_argument("--group", help="the group's file, for its names")
    words.add_argument("--times", help="the times of a member's folder")
    words.add_argument("export", nargs="+", help="the file of a member's export")
    print(page(words.parse_args()), flush=True)
