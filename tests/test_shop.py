"""Black-box tests of the shop and of the customer's script in examples/."""

import glob
import os
import subprocess

from support.nodes import until
from support.payers import pay
from support.restarts import Folders
from support.runs import SECONDS, TOP, same
from support.shops import Shop, shop_is_killed

PAY_ORDER = os.path.join(TOP, "examples", "pay-order")


def test_shop_is_killed_and_pays_once():
    orders, backs = shop_is_killed(kills=10, seed=1)
    same((orders > 10, backs > 2), (True, True), f"orders {orders}, given back {backs}")


def test_shop_waits_for_its_node():
    with Folders([100, 0, 0, 50]) as group:
        shop = Shop(group.place.name)
        try:
            same(shop.ask("order 0 30"), "order 1", "an order")
            group.pay(0, 7, 1, 30, 0)
            group.settle([1, 0, 0, 0])
            group.kill(1)
            same(shop.ask("paid 1 0"), "noted 1 0", "what is said while the node is away")
            same(shop.ask("show 1"), "order 1 open seq 0 awaited", "what the shop knows")
            group.start(1)
            until(lambda: shop.ask("show 1"), "order 1 paid seq 0 kept", of="the order")
            same(shop.ask("cancel 1"), "cancelled 1", "its end")
            until(lambda: shop.ask("show 1"), "order 1 cancelled seq 0 back 0", of="the order")
            group.settle([1, 1, 0, 0], [100, 0, 0, 50])
        finally:
            errors = shop.end()
        same(errors.count("it is asked again\n"), 1, f"what it says of its node: {errors!r}")


def test_shop_takes_orders_from_notes_alone():
    """Of the right account; other notes, and those of orders that aren't there, are none."""
    with Folders([100, 0, 0, 50]) as group:
        shop, folder = Shop(group.place.name), os.path.join(group.place.name, "data-0")
        try:
            for number, amount in ((1, 30), (2, 20)):
                same(shop.ask(f"order 0 {amount}"), f"order {number}", "an order")
            same(shop.ask("order 3 5"), "order 3", "an order of another customer")
            group.pay(3, 7, 1, 5, 0)
            others = "seq 0 order 1", "order 3", "seq 0 order 3 ", "Seq 0 order 3", "seq x order 3", "seq 0 order 4"
            for order, text in enumerate(others):
                group.nodes[3].ask(f"NOTE {order} {text}")
            for order, amount in ((1, "30"), (2, "25")):
                same(pay(folder, "--yes", "--note", f"order {order}", "1", amount)[0], 0, "a payment with its note")
            until(lambda: shop.ask("show 1"), "order 1 paid seq 0 kept", of="the first order")
            until(lambda: shop.ask("show 2"), "order 2 open seq 2 back 0", of="one that is paid too much for")
            same(shop.ask("show 3"), "order 3 open", "that of nobody's note")
            group.nodes[3].ask("NOTE 9 seq 0 order 3")
            until(lambda: shop.ask("show 3"), "order 3 paid seq 0 kept", of="the order of another customer")
        finally:
            shop.end()


def test_shop_gives_back_to_each_account_up_to_a_bound():
    """Payments of nothing that was ordered take no more of the shop's values; what is held goes back in one."""
    with Folders([100, 0, 0, 50]) as group:
        shop, node = Shop(group.place.name, "2"), group.nodes[1]
        try:
            same([shop.ask(f"order {it} 30") for it in (0, 3)], ["order 1", "order 2"], "the orders")
            for seq in range(5):
                group.pay(0, seq, 1, seq + 1, seq)
                same(shop.ask(f"paid 1 {seq}"), f"noted 1 {seq}", "a wrong payment")
                held = "".join(f" seq {it} held" for it in range(2, seq + 1))
                backs = "".join(f" seq {it} back {it}" for it in range(min(seq + 1, 2)))
                until(lambda: shop.ask("show 1"), f"order 1 open{backs}{held}", of="what became of them")
            same(node.front()[1], 2, "values that the shop used")
            group.pay(3, 0, 1, 7, 0)
            shop.ask("paid 2 0")
            until(lambda: shop.ask("show 2"), "order 2 open seq 0 back 2", of="that of another account")
            shop.end()
            same(shop.ask("release 0"), "released 0 3", "what the owner gives back, after a restart")
            backs = " seq 0 back 0 seq 1 back 1 seq 2 back 3 seq 3 back 3 seq 4 back 3"
            until(lambda: shop.ask("show 1"), f"order 1 open{backs}", of="all five")
            until(lambda: node.front()[1], 4, of="values that the shop used then")
            lines = [line for line in node.statement(1) if line.startswith("out ")]
            same(lines, ["out 0 to 0 1", "out 1 to 0 2", "out 2 to 3 7", "out 3 to 0 12"], "what it gave back")
            same(shop.ask("release 0"), "released 0 0", "nothing is held any more")
            group.settle([5, 4, 0, 1], [100, 0, 0, 50])
        finally:
            shop.end()


def test_shop_refuses_what_it_cant_take():
    with Folders([100, 0, 0, 50]) as group:
        shop = Shop(group.place.name)
        try:
            for line in ("order 0 30", "order 0 20"):
                shop.ask(line)
            for line, answer in (
                ("paid 1 3", "noted 1 3"),
                ("paid 1 3", "noted 1 3"),
                ("paid 2 3", "refused: it is noted for order 1"),
                ("paid 3 0", "refused: there is no such order"),
                ("paid 1 65536", "refused: no payment has such a seq"),
                ("cancel 3", "refused: there is no such order"),
                ("show 3", "refused: there is no such order"),
                ("show", "refused: it is no line of the shop"),
                ("order 0 -1", "refused: it is no line of the shop"),
                ("", "refused: it is no line of the shop"),
            ):
                same(shop.ask(line), answer, line)
        finally:
            shop.end()


def test_order_is_paid_by_the_script():
    """Killed, and called again while the node is away, it pays once."""
    with Folders([100, 0, 0, 50]) as group:
        shop, folder = Shop(group.place.name), os.path.join(group.place.name, "data-0")
        words = [PAY_ORDER, folder, "1", "1", "30"]
        try:
            same(shop.ask("order 0 30"), "order 1", "an order")
            for _ in range(3):
                child = subprocess.Popen(words, stdout=subprocess.PIPE, stderr=subprocess.PIPE, start_new_session=True)
                until(lambda: bool(glob.glob(os.path.join(folder, "orders", "*"))), True, of="the order that is kept")
                os.killpg(child.pid, 9)
                child.communicate()
            group.kill(0)
            away = subprocess.Popen(words, stdout=subprocess.PIPE, stderr=subprocess.PIPE, text=True)
            same(away.stderr.readline().startswith("payd pay: nobody listens"), True, "what is said of the node")
            group.start(0)
            output, errors = away.communicate(timeout=SECONDS)
            same((away.returncode, output), (0, "order 1 seq 0\n"), f"the script that waited: {errors}")
            done = subprocess.run(words, capture_output=True, text=True, timeout=SECONDS)
            same((done.returncode, done.stdout), (0, "order 1 seq 0\n"), f"the script: {done.stderr}")
            same(shop.ask("paid 1 0"), "noted 1 0", "the payment")
            until(lambda: shop.ask("show 1"), "order 1 paid seq 0 kept", of="the order")
            done = subprocess.run([*words[:4], "31"], capture_output=True, text=True, timeout=SECONDS)
            same((done.returncode, done.stdout), (1, ""), "another payment for the order")
            group.settle([1, 0, 0, 0], [70, 30, 0, 50])
        finally:
            shop.end()
