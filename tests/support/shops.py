"""The shop of examples/ and its customers, while it is killed at any moment and started again, for the black-box tests
and tests/kills."""

import os
import random
import signal
import subprocess
import threading
import time

from support.nodes import until
from support.restarts import Folders
from support.runs import SECONDS, TOP, same

SHOP = os.path.join(TOP, "examples", "shop")
OWN = 1
CUSTOMERS = 0, 2, 3
# No customer's balance runs dry.
OPENING = [10**9, 0, 10**9, 10**9]
# A shop is killed so many seconds after the one before it, at most: it takes a fifth of this to start.
LATEST = 0.5


class Shop:
    """The shop, however often it was started: a line that wasn't answered is given again."""

    def __init__(self, folder, *backs):
        self.words = [SHOP, os.path.join(folder, f"data-{OWN}"), str(OWN), os.path.join(folder, "shop"), *backs]
        self.child = None

    def ask(self, line):
        while True:
            if self.child is None:
                self.start()
            try:
                self.child.stdin.write(f"{line}\n".encode())
                answer = self.child.stdout.readline().decode()
                if answer.endswith("\n"):
                    return answer[:-1]
            except BrokenPipeError:
                pass
            self.end()

    def start(self):
        pipe = subprocess.PIPE
        self.child = subprocess.Popen(self.words, stdin=pipe, stdout=pipe, stderr=pipe, bufsize=0)

    def end(self):
        """Ends the shop, which hasn't ended by itself, and returns what it said of its node."""
        if self.child is None:
            return ""
        self.child.kill()
        _, errors = self.child.communicate(timeout=SECONDS)
        status, self.child = self.child.returncode, None
        same(status, -signal.SIGKILL, f"the end of the shop, which says {errors.decode()!r}")
        return errors.decode()


class Killer(threading.Thread):
    """Kills the shop at random moments, so many times."""

    def __init__(self, shop, kills, seed):
        super().__init__(daemon=True)
        self.shop, self.left, self.seeded = shop, kills, random.Random(f"killer {seed}")

    def run(self):
        last = None
        while self.left > 0:
            time.sleep(self.seeded.random() * LATEST)
            child = self.shop.child
            if child is not None and child is not last:
                child.kill()
                last, self.left = child, self.left - 1


class Day:
    """What customers order and pay, and what has to come of it."""

    def __init__(self, group, shop, seed):
        self.group, self.shop, self.seeded = group, shop, random.Random(f"day {seed}")
        self.ids = 0
        self.orders = []

    def pay(self, customer, words):
        self.ids += 1
        kind = "PAYS" if words.count(" ") > 1 else "PAY"
        return int(self.group.nodes[customer].ask(f"{kind} {self.ids} {words}").split(" ")[3])

    def note(self, customer, text):
        self.ids += 1
        return self.group.nodes[customer].ask(f"NOTE {self.ids} {text}")

    def sell(self):
        """An order with its payments, one of which may be the right one, and its end."""
        customer, price = self.seeded.choice(CUSTOMERS), self.seeded.randrange(2, 1000)
        number = int(self.shop.ask(f"order {customer} {price}").split(" ")[1])
        paid = {}
        for words, came in self.seeded.sample(self.ways(customer, price), self.seeded.choice((1, 1, 1, 2))):
            seq = self.pay(customer, words)
            paid[seq] = came
            if self.seeded.random() < 0.5:
                self.note(customer, f"seq {seq} order {number}")
            else:
                same(self.shop.ask(f"paid {number} {seq}"), f"noted {number} {seq}", "what the shop noted")
        is_cancelled = self.seeded.random() < 0.2
        if is_cancelled:
            same(self.shop.ask(f"cancel {number}"), f"cancelled {number}", "what the shop cancelled")
        self.orders.append((number, customer, price, paid, is_cancelled))

    def ways(self, customer, price):
        """Words that pay for an order, or don't, and what comes to the shop by them."""
        other = next(it for it in CUSTOMERS if it != customer)
        return (
            (f"{OWN} {price}", price),
            (f"{OWN} {price - 1} {OWN} 1", price),
            (f"{OWN} {price - 1} {other} 1", price - 1),
            (f"{OWN} {price + 1}", price + 1),
            (f"{other} {price}", 0),
        )

    def told(self, number):
        """The state of an order, and of each of its payments by seq, with the seq by which it went back."""
        words = self.shop.ask(f"show {number}").split(" ")
        payments, at = {}, 3
        while at < len(words):
            seq, state = int(words[at + 1]), words[at + 2]
            at += 3
            payments[seq] = state, int(words[at]) if state == "back" else None
            at += state == "back"
        return words[2], payments

    def judge(self):
        """Waits until nothing is awaited or owed; each payment is kept, or was given back once."""
        taken, backs = 0, []
        for number, customer, price, paid, is_cancelled in self.orders:
            until(lambda: sorted(self.told(number)[1]), sorted(paid), of=f"the payments of order {number}")
            until(lambda: {"awaited", "owed"} & {it for it, _ in self.told(number)[1].values()}, set(), of="payments")
            state, payments = self.told(number)
            kept = [seq for seq, (state, _) in payments.items() if state == "kept"]
            is_paid = price in paid.values() and not is_cancelled
            wanted = "cancelled" if is_cancelled else "paid" if is_paid else "open"
            same((state, len(kept)), (wanted, int(is_paid)), f"order {number} of {price} for {paid}")
            same([paid[seq] for seq in kept], [price] * is_paid, f"what is kept for order {number}")
            for seq, (state, back) in payments.items():
                same(state, "kept" if seq in kept else "back" if paid[seq] else "nothing", f"the payment {seq}")
                backs += [(back, customer, paid[seq])] if state == "back" else []
            taken += price * is_paid
        self.judge_money(taken, sorted(backs))

    def judge_money(self, taken, backs):
        """The shop's account paid just these, and has what it keeps; no payment of it waits."""
        node = self.group.nodes[OWN]
        until(lambda: node.front()[OWN], len(backs), of="the shop's own payments")
        lines = [line for line in node.statement(OWN) if line.startswith("out ")]
        same(lines, [f"out {seq} to {customer} {amount}" for seq, customer, amount in backs], "what it gave back")
        same(node.ask(f"BALANCE {OWN}"), f"balance {OWN} {taken}", "what it keeps")
        same(node.lines_of(f"WAITING {OWN}"), [f"end {OWN} short 0"], "what waits")


def shop_is_killed(kills, seed):
    """A shop that is killed so many times, while customers order and pay. How many orders there were, and how many of
    their payments were given back."""
    with Folders(OPENING) as group:
        # (however many orders there are, what is paid wrongly for them is given back)
        shop = Shop(group.place.name, "65536")
        killer, day = Killer(shop, kills, seed), Day(group, shop, seed)
        try:
            killer.start()
            while killer.left > 0:
                day.sell()
            day.judge()
        finally:
            killer.left = 0
            killer.join()
            shop.end()
        return len(day.orders), group.nodes[OWN].front()[OWN]
