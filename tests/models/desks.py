"""A slow model of a desk whose member meets no peer, and lines to try it on.

It is written from docs/commands.md and docs/formats.md and shares no code with the crates. Without peers nothing is
delivered in a group of several, and alone there is nobody to pay: so no balance moves. Alone notes settle at once.

A character of a line or an answer here is a byte: both are encoded as Latin-1.
"""

import unicodedata

MOST_LINE = 1024
MOST_NOTE = 1000
MOST_PAYMENTS = 32
ASKS = 65536
MOST_SHOWN = 1000

BAD_LINE = "refused 1 BadLine"
NO_ACCOUNT = "refused 2 NoAccount"
ZERO_OR_SELF = "refused 3 ZeroOrSelf"
ID_USED = "refused 4 IdUsed"
SPENT = "refused 5 Spent"

# Lines to the desk of member 0 of four that opened with 100, 0, 0 and 50, one after the other, and their answers.
EXCHANGE = [
    ("BALANCE 3", "balance 3 50"),
    ("FRONT", "front 0 0 0 0"),
    ("STATEMENT 3", "end 3 balance 50"),
    ("BALANCE 4", NO_ACCOUNT),
    ("STATE 0 65536", BAD_LINE),
    ("STATE 4 0", NO_ACCOUNT),
    ("STATE 0 0", "state 0 0 unknown"),
    ("PAY 9 1 30", "asked 9 seq 0"),
    ("PAY 9 1 30", "asked 9 seq 0"),
    ("PAY 9 1 31", ID_USED),
    ("STATE 0 0", "state 0 0 asked"),
    ("STATE 0 1", "state 0 1 unknown"),
    ("STATE 1 0", "state 1 0 unknown"),
    ("PAY 10 0 5", ZERO_OR_SELF),
    ("PAY 10 1 0", ZERO_OR_SELF),
    ("PAY 10 4 0", NO_ACCOUNT),
    ("PAY 010 1 5", BAD_LINE),
    ("PAY 10 1 5", "asked 10 seq 1"),
    # a kept id is looked at before the account, and no number is cut short
    ("PAY 9 65537 30", ID_USED),
    ("PAY 9 99 30", ID_USED),
    ("PAY 9 0 30", ID_USED),
    ("PAY 9 1 0", ID_USED),
    ("PAY 9 1 030", BAD_LINE),
    ("PAY 11 65537 30", NO_ACCOUNT),
    ("PAY 11 65536 30", NO_ACCOUNT),
    ("BALANCE 65536", NO_ACCOUNT),
    ("STATEMENT 65539", NO_ACCOUNT),
    ("STATE 65536 0", NO_ACCOUNT),
    ("STATE 4 65536", BAD_LINE),
    ("STATE 3 65535", "state 3 65535 unknown"),
    ("PAY 0 1 1", "asked 0 seq 2"),
    ("PAY 18446744073709551615 3 18446744073709551615", "asked 18446744073709551615 seq 3"),
    ("PAY 18446744073709551615 3 18446744073709551615", "asked 18446744073709551615 seq 3"),
    ("PAY 18446744073709551616 1 1", BAD_LINE),
    ("BALANCE 0", "balance 0 100"),
    ("STATEMENT 0", "end 0 balance 100"),
    ("STATE 0 3", "state 0 3 asked"),
    ("FRONT", "front 0 0 0 0"),
    ("ENTRIES 0 0", "end 0 0"),
    ("ENTRIES 3 7", "end 3 7"),
    ("ENTRIES 0 18446744073709551615", "end 0 18446744073709551615"),
    ("ENTRIES 4 0", NO_ACCOUNT),
    ("ENTRIES 65536 0", NO_ACCOUNT),
    ("WAITING 1", "end 1 short 0"),
    ("WAITING 4", NO_ACCOUNT),
    ("WAITING 65536", NO_ACCOUNT),
]

# Lines to a fresh desk of the same member on what waits, and their answers, some of several lines.
WAITING = [
    ("WAITING 0", "end 0 short 0"),
    ("PAY 1 1 30", "asked 1 seq 0"),
    ("WAITING 0", "waiting 0 0 seq 0 to 1 30\nend 0 short 0"),
    ("PAYS 2 2 70 3 1", "asked 2 seq 1"),
    (
        "WAITING 0",
        "waiting 0 0 seq 0 to 1 30\nwaiting 0 1 seq 1 to 2 70\nwaiting 0 2 seq 1 to 3 1\nend 0 short 0",
    ),
    ("WAITING 3", "end 3 short 0"),
    ("ENTRIES 0 0", "end 0 0"),
]

# The same where the first payment is more than the balance.
UNCOVERED = [
    ("PAY 1 3 120", "asked 1 seq 0"),
    ("PAY 2 1 5", "asked 2 seq 1"),
    ("WAITING 0", "waiting 0 0 seq 0 to 3 120\nwaiting 0 1 seq 1 to 1 5\nend 0 short 20"),
    ("BALANCE 0", "balance 0 100"),
]

# Lines of several payments to a fresh desk of the same member, and their answers.
SEVERAL = [
    ("PAYS 11 1 30 2 20", "asked 11 seq 0"),
    ("PAYS 11 1 30 2 20", "asked 11 seq 0"),
    ("PAY 11 1 30", ID_USED),
    ("PAYS 12 0 5 4 5", NO_ACCOUNT),
    ("PAYS 12 1 5 0 5", ZERO_OR_SELF),
    ("PAYS 12 1", BAD_LINE),
    ("PAYS 12", BAD_LINE),
    (f"PAYS 12 {' '.join(33 * ['1 1'])}", BAD_LINE),
    # the payments that were asked for, in their order, and no others
    ("PAYS 11 2 20 1 30", ID_USED),
    ("PAYS 11 1 30", ID_USED),
    ("PAYS 11 1 30 2 20 2 20", ID_USED),
    ("PAYS 11 1 30 2 21", ID_USED),
    ("PAYS 11 65537 30 2 20", ID_USED),
    ("PAYS 11 1 30 99 20", ID_USED),
    ("PAYS 11 0 0", ID_USED),
    ("PAYS 11 1 30 2", BAD_LINE),
    # all accounts are looked at before any amount
    ("PAYS 12 1 0 65536 5", NO_ACCOUNT),
    ("PAYS 12 65537 5", NO_ACCOUNT),
    ("PAYS 12 1 5 2 0", ZERO_OR_SELF),
    # one payment and several that are one have different values
    ("PAY 7 1 30", "asked 7 seq 1"),
    ("PAYS 7 1 30", ID_USED),
    ("PAYS 8 1 30", "asked 8 seq 2"),
    ("PAY 8 1 30", ID_USED),
    ("PAYS 8 1 30", "asked 8 seq 2"),
    (f"PAYS 12 {' '.join(32 * ['3 18446744073709551615'])}", "asked 12 seq 3"),
    (f"PAYS 12 {' '.join(32 * ['3 18446744073709551615'])}", "asked 12 seq 3"),
    (f"PAYS 12 {' '.join(31 * ['3 18446744073709551615'])}", ID_USED),
    ("STATE 0 3", "state 0 3 asked"),
    ("STATE 0 4", "state 0 4 unknown"),
]


def utf8(text):
    """A text as its bytes, each as a character."""
    return text.encode().decode("latin-1")


# Lines with notes to a fresh desk of the same member, and their answers, some of several lines.
NOTES = [
    ("NOTE 1 order 17", "asked 1 seq 0"),
    ("NOTE 1 order 17", "asked 1 seq 0"),
    # the text as it is, and no other
    ("NOTE 1 order 18", ID_USED),
    ("NOTE 1 order 1", ID_USED),
    ("NOTE 1 order  17", ID_USED),
    ("NOTE 1 order 17 ", ID_USED),
    ("NOTE 1  order 17", ID_USED),
    ("NOTE 1 Order 17", ID_USED),
    # payments and notes have ids in common
    ("PAY 1 1 30", ID_USED),
    ("PAY 2 1 30", "asked 2 seq 1"),
    ("NOTE 2 order 17", ID_USED),
    ("NOTE 2 \x01\x00\x01\x00\x00\x00\x00\x00\x00\x00\x1e", BAD_LINE),
    ("PAYS 3 2 70 3 1", "asked 3 seq 2"),
    ("NOTE 4 seq 2 two cups", "asked 4 seq 3"),
    # the same text under another id is said again
    ("NOTE 5 order 17", "asked 5 seq 4"),
    ("NOTE 6 ", BAD_LINE),
    ("NOTE 6  ", "asked 6 seq 5"),
    ("NOTE 7 1 30", "asked 7 seq 6"),
    # up to 1,000 bytes, in a line of up to 1,024
    (f"NOTE 8 {1000 * 'x'}", "asked 8 seq 7"),
    (f"NOTE 8 {1000 * 'x'}", "asked 8 seq 7"),
    (f"NOTE 8 {999 * 'x'}", ID_USED),
    (f"NOTE 8 {999 * 'x'}y", ID_USED),
    (f"NOTE 9 {1001 * 'x'}", BAD_LINE),
    (f"NOTE 9 {utf8(333 * '€')}x", "asked 9 seq 8"),
    (f"NOTE 10 {utf8(333 * '€' + 'ü')}", BAD_LINE),
    (f"NOTE 18446744073709551615 {999 * 'x'}", BAD_LINE),
    (f"NOTE 18446744073709551615 {998 * 'x'}", "asked 18446744073709551615 seq 9"),
    ("NOTE 18446744073709551616 x", BAD_LINE),
    # UTF-8, of any characters but control characters
    (f"NOTE 10 {utf8('grüße, 17 €')}", "asked 10 seq 10"),
    (f"NOTE 11 {utf8(''.join(map(chr, (0xA0, 0x7FF, 0x800, 0x2028, 0xFFFF, 0x10FFFF))))}", "asked 11 seq 11"),
    *((f"NOTE 12 a{utf8(chr(code))}b", BAD_LINE) for code in (0, 9, 13, 27, 31, 127, 128, 133, 159)),
    *((f"NOTE 12 {it}", BAD_LINE) for it in ("\xff", "a\xc3", "\xc0\xaf", "\xed\xa0\x80", "\xf4\x90\x80\x80", "\xbc")),
    ("NOTE 12 ~", "asked 12 seq 12"),
    ("STATE 0 0", "state 0 0 asked"),
    (
        "WAITING 0",
        "waiting 0 0 seq 0 note order 17\nwaiting 0 1 seq 1 to 1 30\nwaiting 0 2 seq 2 to 2 70\n"
        "waiting 0 3 seq 2 to 3 1\nwaiting 0 4 seq 3 note seq 2 two cups\nwaiting 0 5 seq 4 note order 17\n"
        "waiting 0 6 seq 5 note  \nwaiting 0 7 seq 6 note 1 30\n"
        f"waiting 0 8 seq 7 note {1000 * 'x'}\nwaiting 0 9 seq 8 note {utf8(333 * '€')}x\n"
        f"waiting 0 10 seq 9 note {998 * 'x'}\nwaiting 0 11 seq 10 note {utf8('grüße, 17 €')}\n"
        f"waiting 0 12 seq 11 note {utf8(''.join(map(chr, (0xA0, 0x7FF, 0x800, 0x2028, 0xFFFF, 0x10FFFF))))}\n"
        "waiting 0 13 seq 12 note ~\nend 0 short 0",
    ),
    ("BALANCE 0", "balance 0 100"),
    ("STATEMENT 0", "end 0 balance 100"),
]

# Lines that are no command.
BAD_LINES = [
    "", " ", "\t", "\r", "pay 1 1 1", "pays 1 1 1", "PAYS", "PAYS ", "PAYS 1", "PAYS 1 ", "PAYS 1 1", "PAYS 1 1 1 ",
    "PAYS 1 1 1 1", "PAYS  1 1 1", "PAYS 1 1 01", "PAYS 1 1 1 01 1", "PAYS 1 1 1 1 18446744073709551616",
    "PAYS 1 18446744073709551616 1", "PAYS 1 1 1\r", f"PAYS 1 {' '.join(33 * ['1 1'])}", "PAY", "PAY ", "PAY 1 1",
    "PAY 1 1 ", "PAY 1 1 1 1", "PAY 1 1 1 ", " PAY 1 1 1", "PAY  1 1 1", "PAY\t1 1 1", "PAY 1 1 1\r", "PAY 1 1 1\t",
    "PAY 01 1 1", "PAY 1 01 1", "PAY 1 1 00", "PAY +1 1 1", "PAY -1 1 1", "PAY 1 1 1.0", "PAY 1 1 1e0", "PAY 1 1 0x1",
    "PAY 1 x 1", "PAY 1 18446744073709551616 1", "PAY 1 1 18446744073709551616", "PAY 1 1 " + 40 * "9", "BALANCE",
    "BALANCE ", "BALANCE 0 0", "BALANCE 00", "BALANCE a", "STATE 0", "STATE 0 ", "STATE 0 0 0", "STATE 0 65536",
    "STATE 0 18446744073709551615", "STATEMENT", "STATEMENT 0 0", "STATEMENTS 0", "ENTRIES", "ENTRIES 0",
    "ENTRIES 0 ", "ENTRIES 0 0 0", "ENTRIES 0 00", "ENTRIES 0 x", "ENTRIES 0 18446744073709551616", "ENTRY 0 0",
    "entries 0 0", "WAITING", "WAITING ", "WAITING 0 0", "WAITING 00", "waiting 0", "FRONT ", "FRONT 0", "FRONTS",
    "\x00", "FRONT\x00", "help", "NOTE", "NOTE ", "NOTE 1", "NOTE 1 ", "NOTE  1 x", "NOTE x", "NOTE x y", "NOTE 01 x",
    "note 1 x", "NOTES 1 x", " NOTE 1 x", "NOTE\t1 x", "NOTE 1\tx", "NOTE 1 x\r", "NOTE 1 x\x00",
]


def number(word):
    """The number that a word is, or None."""
    if not word.isdigit() or (word[:1] == b"0" and len(word) > 1):
        return None
    value = int(word)
    return value if value < 2**64 else None


def is_note(text):
    """Whether a note may say these bytes."""
    try:
        characters = text.decode()
    except UnicodeDecodeError:
        return False
    return 0 < len(text) <= MOST_NOTE and not any(unicodedata.category(it) == "Cc" for it in characters)


class Desk:
    def __init__(self, own, opening):
        self.own = own
        self.opening = opening
        self.kept = {}

    def answer(self, line):
        """What is answered to a line of bytes, without its line feed."""
        words = line.split(b" ")
        if words[0] == b"NOTE":
            order, text = number(b"".join(words[1:2])), b" ".join(words[2:])
            is_one = len(line) <= MOST_LINE and order is not None and is_note(text)
            return self.note(order, text) if is_one else BAD_LINE
        several = range(3, 2 + 2 * MOST_PAYMENTS, 2)
        counts = {b"PAY": [3], b"PAYS": several, b"BALANCE": [1], b"STATE": [2], b"STATEMENT": [1], b"FRONT": [0]}
        counts |= {b"ENTRIES": [2], b"WAITING": [1]}
        numbers = [number(word) for word in words[1:]]
        if len(line) > MOST_LINE or len(numbers) not in counts.get(words[0], []) or None in numbers:
            return BAD_LINE
        if words[0] == b"STATE" and numbers[1] > 65535:
            return BAD_LINE
        return getattr(self, words[0].decode().lower())(*numbers)

    def pay(self, order, to, amount):
        return self.ask(order, "one", [(to, amount)])

    def pays(self, order, *numbers):
        return self.ask(order, "several", list(zip(numbers[::2], numbers[1::2])))

    def note(self, order, text):
        return self.ask(order, text, [])

    def ask(self, order, *wanted):
        if order in self.kept:
            *same, seq = self.kept[order]
            return f"asked {order} seq {seq}" if same == list(wanted) else ID_USED
        pairs = wanted[1]
        if any(to >= len(self.opening) for to, _ in pairs):
            return NO_ACCOUNT
        if any(amount == 0 or to == self.own for to, amount in pairs):
            return ZERO_OR_SELF
        if len(self.kept) == ASKS:
            return SPENT
        self.kept[order] = (*wanted, len(self.kept))
        return f"asked {order} seq {len(self.kept) - 1}"

    def balance(self, account):
        if account >= len(self.opening):
            return NO_ACCOUNT
        return f"balance {account} {self.opening[account]}"

    def state(self, owner, seq):
        if owner >= len(self.opening):
            return NO_ACCOUNT
        asked = owner == self.own and seq < len(self.kept)
        return f"state {owner} {seq} {('settled' if self.settled() else 'asked') if asked else 'unknown'}"

    def settled(self):
        """How many values are settled, each of which is a note."""
        return len(self.kept) if len(self.opening) == 1 else 0

    def statement(self, account):
        if account >= len(self.opening):
            return NO_ACCOUNT
        lines = [f"void {seq}" for seq in range(self.settled())]
        return "\n".join([*lines, f"end {account} balance {self.opening[account]}"])

    def entries(self, account, first):
        if account >= len(self.opening):
            return NO_ACCOUNT
        shown = range(first, max(first, min(self.settled(), first + MOST_SHOWN)))
        texts = [text for text, *_ in self.kept.values()]
        lines = [f"entry {account} {seq} seq {seq} note {texts[seq].decode('latin-1')}" for seq in shown]
        return "\n".join([*lines, f"end {account} {shown.stop}"])

    def waiting(self, account):
        """All entries of the own account, numbered from 0; of any other account nothing is known."""
        if account >= len(self.opening):
            return NO_ACCOUNT
        asked = sorted(self.kept.values(), key=lambda kept: kept[-1]) if account == self.own else []
        asked = asked[self.settled() :]
        entries = [(seq, pair, text) for text, pairs, seq in asked for pair in pairs or [None]]
        said = [
            (seq, f"note {text.decode('latin-1')}" if pair is None else f"to {pair[0]} {pair[1]}")
            for seq, pair, text in entries[:MOST_SHOWN]
        ]
        lines = [f"waiting {account} {number} seq {seq} {what}" for number, (seq, what) in enumerate(said)]
        first = entries[0][1] if entries else None
        short = 0 if first is None else max(first[1] - self.opening[account], 0)
        return "\n".join([*lines, f"end {account} short {short}"])

    def front(self):
        return "front" + len(self.opening) * f" {self.settled()}"


def random_lines(seeded, accounts, count):
    """Lines of every kind, of which most ids, accounts and numbers come again."""

    def some(*others):
        return seeded.choice([seeded.randrange(accounts), seeded.randrange(accounts + 2), *others])

    def line():
        kind = seeded.randrange(13)
        if kind < 5:
            count = seeded.choice([1, 1, 2, 3, 31, 32, 33])
            pairs = [f"{some(65536, 65537)} {seeded.choice([0, 1, 2, 30, 2**64 - 1])}" for _ in range(count)]
            if kind < 2:
                return f"PAYS {seeded.randrange(40)} {' '.join(pairs)}"
            return f"PAY {seeded.randrange(40)} {pairs[0]}"
        return (
            f"BALANCE {some(2**64 - 1)}",
            f"STATE {some(65536)} {seeded.choice([0, 1, 5, 20, 65535, 65536])}",
            f"STATEMENT {some(65536)}",
            f"ENTRIES {some(65536)} {seeded.choice([0, 1, 2**64 - 1])}",
            f"WAITING {some(65536)}",
            "FRONT",
            f"NOTE {seeded.randrange(40)} {seeded.choice(['order 17', 'seq 0 ', utf8('grüße'), 1000 * 'x'])}",
            seeded.choice(BAD_LINES),
        )[kind - 5]

    return [line() for _ in range(count)]
