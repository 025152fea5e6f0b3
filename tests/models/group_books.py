"""A slow model of a group's book: what more exports have than members may lie, settled, and what is said of it.

It is written from docs/commands.md and docs/clauses.md: a list is looked for among all beginnings of all exports'
lists, the longest first. It shares no code with the crates; which front is the largest is the model's of audits.
"""

import json

from models import audits
from payd_tools.values import numbered_entries
from support.runs import with_files

GENESIS = ("members", "faults", "opening")


def values_of(given, account):
    return [bytes.fromhex(text) for text in given["lists"][account]]


def backers(exports, account, begun):
    """How many of the exports' lists of an account begin so."""
    return sum(values_of(given, account)[: len(begun)] == begun for given in exports)


def backed(exports, account, faults):
    """Whatever more than so many of the lists begin with."""
    begins = [values_of(given, account)[:end] for given in exports for end in range(len(given["lists"][account]) + 1)]
    return [begun for begun in begins if backers(exports, account, begun) > faults]


def split_at(exports, account, faults):
    """The first number under which two values are backed, after the same ones."""
    found = [
        len(one) - 1
        for one in backed(exports, account, faults)
        for other in backed(exports, account, faults)
        if one and len(one) == len(other) and one[:-1] == other[:-1] and one != other
    ]
    return min(found, default=None)


def fault_of(exports):
    """The line that says why there is no book, or None."""
    for x, given in enumerate(exports):
        if any(given[name] != exports[0][name] for name in GENESIS):
            return f"1 genesis {x}"
    for x, given in enumerate(exports):
        for y in range(x + 1, len(exports)):
            if exports[y]["member"] == given["member"]:
                return f"5 twice {x} {y}"
    faults = exports[0]["faults"]
    if len(exports) <= faults:
        return f"6 few {len(exports)}"
    for account in range(exports[0]["members"]):
        seq = split_at(exports, account, faults)
        if seq is not None:
            return f"7 split account {account} seq {seq}"
    return None


def book_of(exports):
    """The group's book as an export of the first one's member."""
    first = exports[0]
    lists = [max(backed(exports, account, first["faults"]), key=len) for account in range(first["members"])]
    given = {**first, "lists": [[value.hex() for value in values] for values in lists]}
    given["front"] = list(audits.largest_front(given))
    given["balances"] = [audits.balance(given, given["front"], account) for account in range(first["members"])]
    return given


def waiting(book, account):
    """The lines of what an account's list has that isn't settled."""
    lines, front = [], book["front"][account]
    for number, (seq, entry) in enumerate(numbered_entries(book, account)):
        if number < front:
            continue
        line = f"waits account {account} entry {number} seq {seq} "
        line += f"to {entry[0]} amount {entry[1]}" if entry else "void"
        if number == front and entry:
            line += f" short {entry[1] - book['balances'][account]}"
        lines.append(line)
    return lines


def claims(book, x, given):
    """The lines of what an export has against the book and beyond it."""
    lines = []
    for account in range(book["members"]):
        ours, theirs = values_of(book, account), values_of(given, account)
        differ = [seq for seq, (one, other) in enumerate(zip(ours, theirs)) if one != other]
        if differ:
            lines.append(f"differs {x} account {account} seq {differ[0]}")
        elif len(theirs) > len(ours):
            lines.append(f"beyond {x} account {account} seq {len(ours)}")
    return lines


def text_of(exports):
    """The text of `book`, and its status."""
    fault = fault_of(exports)
    if fault is not None:
        return 1, f"{fault}\n"
    book = book_of(exports)
    accounts = range(book["members"])
    lines = [f"account {it} settled {book['front'][it]} balance {book['balances'][it]}" for it in accounts]
    lines += [line for account in accounts for line in waiting(book, account)]
    lines += [line for x, given in enumerate(exports) for line in claims(book, x, given)]
    lines.append(f"total {sum(book['balances'])}")
    return 0, "".join(f"{line}\n" for line in lines)


def genesis_of(exports):
    """The text of `book --genesis` where there is a book."""
    book = book_of(exports)
    parts = {"faults": book["faults"], "members": book["members"], "opening": book["balances"]}
    return json.dumps(parts, separators=(",", ":")) + "\n"


def export_of(exports):
    """The text of `book --export` where there is a book."""
    return json.dumps(book_of(exports), separators=(",", ":"), sort_keys=True) + "\n"


def book(exports, *words):
    """What the program says of these exports, each in a file of its own."""
    files = {f"{place}.json": given for place, given in enumerate(exports)}
    return with_files(files, ["book", *words, *files])
