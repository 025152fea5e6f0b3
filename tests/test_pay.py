"""Black-box tests of payd pay, payd status and payd follow, with nodes that run."""

import contextlib
import datetime
import fcntl
import json
import os
import pty
import re
import select
import signal
import socket
import subprocess
import termios
import threading
import time

from payd_tools.times import TimesFile, text_of, times_path
from support.clients import Client
from support.nodes import PATIENCE, Node, until, write_json
from support.payers import PAY, pay, payments_are_killed
from support.restarts import Folders
from support.runs import SECONDS, TOP, call, payd, same, shows, write_text

OPENING = [100, 0, 0, 50]
NAMES = ["Ada", "Bo", "Cy", "2"]
# What stands before a line of payd follow.
MOMENT = re.compile(r"20\d\d-\d\d-\d\dT\d\d:\d\d:\d\dZ|-")


class Named(Folders):
    """A group whose file has names."""

    def genesis(self):
        return {**super().genesis(), "names": NAMES}

    def folder(self, own):
        return os.path.join(self.place.name, f"data-{own}")


def tool(name, folder, *words):
    words = [os.path.join(TOP, "tools", name), "--data", folder, *words]
    return call(words)


# ---- paying


def test_payment_by_name_settles():
    with Named(OPENING) as group:
        folder = group.folder(0)
        shows(pay(folder, "--yes", "--order", "a b", "Bo", "30"), 0, "settled: 30 to Bo, order a b, seq 0\n")
        status, output, errors = pay(folder, "--order", "a b", "1", "30")
        again = "payd pay: order a b was given before: it is one payment\n"
        same((status, output, errors), (0, "settled: 30 to Bo, order a b, seq 0\n", again), "the order again")
        told = {"order": "a b", "to": 1, "amount": 30, "seq": 0, "state": "settled", "again": True}
        same(json.loads(pay(folder, "--json", "--order", "a b", "Bo", "30")[1]), told, "the same for a script")
        said = "payd pay: order a b is another payment: 30 to Bo\n"
        for words in (("Bo", "31"), ("Cy", "30")):
            shows(pay(folder, "--yes", "--order", "a b", *words), 1, "", said, of="another payment for the order")
        same(pay(folder, "--yes", "Bo", "1")[0], 0, "a payment without an order")
        group.settle([2, 0, 0, 0], [69, 31, 0, 50])


def test_payment_with_a_note():
    """Behind the payment, once, and kept with the order."""
    with Named(OPENING) as group:
        folder, words = group.folder(0), ("--yes", "--order", "17")
        said = "settled: 30 to Bo, order 17, seq 0, note seq 1\n"
        shows(pay(folder, *words, "--note", "order 17: grüße", "Bo", "30"), 0, said)
        again = "payd pay: order 17 was given before: it is one payment\n"
        for more in ((), ("--note", "order 17: grüße")):
            same(pay(folder, *words, *more, "Bo", "30"), (0, said, again), f"the order again: {more}")
        why = "payd pay: order 17 has another note: order 17: grüße\n"
        shows(pay(folder, *words, "--note", "order 18", "Bo", "30"), 1, "", why, of="another note")
        same(pay(folder, "--yes", "--order", "18", "Bo", "1")[1], "settled: 1 to Bo, order 18, seq 2\n", "no note")
        why = "payd pay: order 18 has no note\n"
        shows(pay(folder, "--yes", "--order", "18", "--note", "x", "Bo", "1"), 1, "", why, of="a note later")
        note = 989 * "x"
        told = {"order": "19", "to": 1, "amount": 2, "seq": 3, "state": "settled", "again": False, "note": note}
        told["note_seq"] = 4
        words = ("--json", "--yes", "--order", "19", "--note", note, "Bo", "2")
        same(json.loads(pay(folder, *words)[1]), told, "a long one, for a script")
        group.settle([5, 0, 0, 0], [67, 33, 0, 50])
        lines = ["out 0 to 1 30", "void 1", "out 2 to 1 1", "out 3 to 1 2", "void 4", "end 0 balance 67"]
        same(group.nodes[2].statement(0), lines, "what another member tells")
        notes = [bytes.fromhex(it) for it in json.loads(group.stop()[2])["lists"][0][1::3]]
        same(notes, [b"\x03" + it.encode() for it in ("seq 0 order 17: grüße", f"seq 3 {note}")], "what is said")


def test_two_calls_for_one_order_pay_once():
    with Named(OPENING) as group:
        ended = []

        def call():
            ended.append(pay(group.folder(0), "--yes", "--order", "one", "Bo", "30")[:2])

        threads = [threading.Thread(target=call) for _ in range(8)]
        for it in threads:
            it.start()
        for it in threads:
            it.join()
        same(set(ended), {(0, "settled: 30 to Bo, order one, seq 0\n")}, "what they say")
        group.settle([1, 0, 0, 0], [70, 30, 0, 50])


def test_what_is_not_covered_is_not_paid():
    with Named(OPENING) as group:
        folder = group.folder(0)
        said = "payd pay: 100 is free of the balance of 100: 101 to Bo would wait, and each later payment of this"
        said += " account behind it"
        shows(pay(folder, "--yes", "Bo", "101"), 1, "", f"{said} (--even-if-uncovered)\n", of="more than the balance")
        said = "payd pay: 151 is more than the whole group owns, 150\n"
        shows(pay(folder, "--yes", "--even-if-uncovered", "Bo", "151"), 1, "", said, of="more than there is")
        same(group.nodes[0].lines_of("WAITING 0"), ["end 0 short 0"], "what was asked for")
        words = ["--yes", "--even-if-uncovered", "--order", "big"]
        status, output, _ = pay(folder, *words, "--no-wait", "Bo", "110")
        same((status, output[:5] in ("asked", "waiti")), (4, True), "one that waits")
        until(lambda: group.nodes[0].ask("STATE 0 0"), "state 0 0 waiting", of="the payment")
        status, output, errors = pay(folder, *words, "--no-wait", "Bo", "110")
        same((status, output), (4, "waiting: 110 to Bo, order big, seq 0\n"), "the order again")
        same("seq 0: it waits for the balance, which is short of 10\n" in errors, True, errors)
        same(pay(folder, "--yes", "Cy", "1")[0], 1, "one behind it")
        same(pay(folder, *words[:2], "--no-wait", "Cy", "1")[0], 4, "the same, even so")
        _, output, _ = tool("status", folder)
        said = "attention: a payment waits, which the balance is short of by 10"
        same(output.splitlines()[0].split(";")[0], said, output)
        same(pay(group.folder(3), "--yes", "Ada", "20")[0], 0, "what covers it")
        same(pay(folder, *words, "Bo", "110")[:2], (0, "settled: 110 to Bo, order big, seq 0\n"), "the order")
        group.settle([2, 0, 0, 1], [9, 110, 1, 30])


def test_words_of_a_payment():
    with Named(OPENING) as group:
        folder = group.folder(0)
        for words, said in (
            (["--yes", "Bo", "0"], "0: an amount is a whole number from 1"),
            (["--yes", "Bo", "1.5"], "1.5: an amount is a whole number from 1"),
            (["--yes", "Bo", "99999999999999999999"], "99999999999999999999: an amount is a whole number from 1"),
            (["--yes", "Ada", "1"], "Ada: that is this account itself"),
            (["--yes", "bo", "1"], "bo: it is no number and no name in the group's file"),
            (["--yes", "4", "1"], "4: there is no such account"),
            (["--yes", "2", "1"], "2: accounts 2 and 3 may be meant"),
            (["--yes", "--order", "a\nb", "Bo", "1"], "an order is a text that can be printed"),
            (["--yes", "--note", "", "Bo", "1"], "a note is a text of at most 989 bytes in UTF-8"),
            (["--yes", "--note", 990 * "x", "Bo", "1"], "a note is a text of at most 989 bytes in UTF-8"),
            (["--yes", "--note", "a\tb", "Bo", "1"], "without control characters"),
            (["--yes", "--note", b"\xff", "Bo", "1"], "a note is a text of at most 989 bytes in UTF-8"),
            (["Bo", "1"], "there is no terminal to ask at: --yes pays without"),
            (["--yes", "--keys", f"{group.place.name}/keys-1", "Bo", "1"], "that of 0"),
            (["--yes", "--group", f"{TOP}/vectors/none", "Bo", "1"], "No such file or directory"),
            (["--yes", "--group", f"{TOP}/examples/keys-0.json", "--fly", "Bo", "1"], "payd pay: error: "),
        ):
            status, output, errors = pay(folder, *words)
            same((status, output, said in errors), (2, "", True), f"{words}: {errors}")
        write_json(folder, "other", {"members": 4, "faults": 1, "opening": [1, 0, 0, 50], "names": NAMES})
        for name in ("pay", "status", "follow"):
            words = ["--group", f"{folder}/other", *(["Bo", "1"] if name == "pay" else [])]
            said = f"payd {name}: {folder}/other: {folder} is a member of another group\n"
            shows(tool(name, folder, *words), 2, "", said, of=f"another group's file: {name}")
        same(os.path.exists(os.path.join(folder, "orders")), False, "whether an order is kept")


class Terminal:
    """A payment whose streams are a terminal."""

    def __init__(self, folder, *words):
        self.own, end = pty.openpty()
        how = {"start_new_session": True, "preexec_fn": lambda: fcntl.ioctl(end, termios.TIOCSCTTY, 0)}
        words = [os.path.join(TOP, "payd"), "pay", "--data", folder, *words]
        self.child = subprocess.Popen(words, stdin=end, stdout=end, stderr=end, **how)
        os.close(end)
        self.text = ""

    def read_to(self, end):
        while not self.text.endswith(end):
            same(bool(select.select([self.own], [], [], PATIENCE)[0]), True, f"what it says behind {self.text!r}")
            try:
                piece = os.read(self.own, 4096).decode()
            except OSError:
                piece = ""
            same(piece != "", True, f"what it says behind {self.text!r}")
            self.text += piece
        return self.text

    def end(self):
        status = self.child.wait(SECONDS)
        os.close(self.own)
        return status


def test_a_terminal_is_asked():
    with Named(OPENING) as group:
        folder, question = group.folder(0), "pay 30 to Bo, which leaves 70 free? [y/N] "
        for answer in (b"\n", b"n\n", b"\x04", b"\x03"):
            terminal = Terminal(folder, "--order", "x", "Bo", "30")
            same(terminal.read_to("? [y/N] "), question, "the question")
            os.write(terminal.own, answer)
            terminal.read_to("payd pay: not paid\r\n")
            same(terminal.end(), 1, f"the end by {answer}")
        same(os.path.exists(os.path.join(folder, "orders")), False, "whether an order is kept")
        terminal = Terminal(folder, "--order", "x", "Bo", "30")
        terminal.read_to("? [y/N] ")
        os.write(terminal.own, b"y\n")
        terminal.read_to("settled: 30 to Bo, order x, seq 0\r\n")
        same(terminal.end(), 0, "the payment")
        terminal = Terminal(folder, "--order", "x", "Bo", "30")
        terminal.read_to("settled: 30 to Bo, order x, seq 0\r\n")
        same(("y/N" in terminal.text, terminal.end()), (False, 0), "what was agreed to is asked once")
        words = ["--order", "y", "--even-if-uncovered", "--timeout", "1", "Cy", "80"]
        terminal = Terminal(folder, *words)
        blocks = "until that comes in it waits, and each later payment of this account behind it"
        question = f"pay 80 to Cy, which is 10 more than is free: {blocks}? [y/N] "
        same(terminal.read_to("? [y/N] "), question, "of what isn't covered")
        os.write(terminal.own, b"y\n")
        terminal.read_to("waiting: 80 to Cy, order y, seq 1\r\n")
        same(terminal.end(), 4, "the end by --timeout")
        group.settle([1, 0, 0, 0], [70, 30, 0, 50])


def test_what_waits_says_how_to_leave_it():
    with Named(OPENING) as group:
        words = [PAY, "--data", group.folder(0), "--yes", "--even-if-uncovered", "--order", "x"]
        child = subprocess.Popen([*words, "Bo", "110"], stderr=subprocess.PIPE, stdout=subprocess.PIPE, text=True)
        said = "it waits for the balance, which is short of 10 (Ctrl-C leaves it: it goes on by itself)"
        same(child.stderr.readline(), f"payd pay: seq 0: {said}\n", "what it waits for")
        child.send_signal(signal.SIGINT)
        same((child.communicate(timeout=SECONDS)[0], child.returncode), (WAITS, 4), "the end by an interrupt")
        begun = time.monotonic()
        done = pay(group.folder(0), "--order", "x", "--timeout", "2", "Bo", "110")
        same((done[:2], 2 <= time.monotonic() - begun < 20), ((4, WAITS), True), "the end by --timeout")
        same("payd pay: order x, seq 0: it goes on by itself; --order x tells" in done[2], True, done[2])
        same(pay(group.folder(0), "--timeout", "0", "Bo", "1")[0], 2, "no time at all")


WAITS = "waiting: 110 to Bo, order x, seq 0\n"


def test_payment_waits_for_its_node_and_its_peers():
    """One that was asked for goes on behind a kill. A node with a folder pays once enough peers are there: until then
    the payment is given again, for ten seconds."""
    with Named(OPENING, running=[0, 1]) as group:
        folder = group.folder(0)
        words = [PAY, "--data", folder, "--yes", "--order"]
        child = subprocess.Popen([*words, "one", "Bo", "30"], stderr=subprocess.PIPE, stdout=subprocess.PIPE, text=True)
        said = "it waits for more of the group's members (Ctrl-C leaves it: it goes on by itself)"
        same(child.stderr.readline(), f"payd pay: seq 0: {said}\n", "what it says")
        group.kill(0)
        same(child.stderr.readline().startswith("payd pay: seq 0: nobody listens"), True, "without its node")
        same(pay(folder, "--yes", "Bo", "1")[0], 3, "another payment then")
        group.claimants.leave_all()
        group.start(0)
        status, output, errors = pay(folder, "--yes", "--order", "two", "Cy", "1")
        said = "payd pay: order two: refused 6 TooEarly: "
        same((status, output, errors.startswith(said)), (3, "", True), f"one that is too early: {errors}")
        same("; --order two tells what came of it, and pays once\n" in errors, True, errors)
        late = subprocess.Popen([*words, "two", "Cy", "1"], stderr=subprocess.PIPE, stdout=subprocess.PIPE, text=True)
        group.start(2)
        group.start(3)
        same(child.communicate(timeout=SECONDS)[0], "settled: 30 to Bo, order one, seq 0\n", "the payment")
        same(late.communicate(timeout=SECONDS)[0], "settled: 1 to Cy, order two, seq 1\n", "the next")
        same((child.returncode, late.returncode), (0, 0), "how they end")
        group.settle([2, 0, 0, 0], [69, 30, 1, 50])


# What an unsettled payment says at its end on standard output, and on standard error.
GOES_ON = "asked: 30 to Bo, order one, seq 0\n", (
    "payd pay: order one, seq 0: it goes on by itself; --order one tells what came of it, and pays once\n"
)


def test_interrupted_payment_goes_on():
    """By each signal that asks it to end; a hang-up that is ignored ends it not."""
    with Named(OPENING, running=[0, 1]) as group:
        words = [PAY, "--data", group.folder(0), "--yes", "--order", "one", "Bo", "30"]
        for each in (signal.SIGINT, signal.SIGTERM, signal.SIGHUP):
            child = subprocess.Popen(words, stderr=subprocess.PIPE, stdout=subprocess.PIPE, text=True)
            while "it waits for more" not in child.stderr.readline():
                pass
            child.send_signal(each)
            output, errors = child.communicate(timeout=SECONDS)
            same((child.returncode, output, errors), (4, *GOES_ON), f"the end by {each.name}")
        child = subprocess.Popen(["nohup", *words], stderr=subprocess.PIPE, stdout=subprocess.PIPE, text=True)
        while "it waits for more" not in child.stderr.readline():
            pass
        child.send_signal(signal.SIGHUP)
        for own in (2, 3):
            group.start(own)
        same(child.communicate(timeout=SECONDS)[0], "settled: 30 to Bo, order one, seq 0\n", "behind a hang-up")
        group.settle([1, 0, 0, 0], [70, 30, 0, 50])


def drawn(errors):
    """The order that standard error names before the node is asked."""
    return re.match("payd pay: order ([0-9]+), which is paid once however often --order gives it\n", errors)[1]


def test_each_end_names_its_order():
    """However it ends once the node was asked: with it a retry pays nothing again."""
    with Named(OPENING, running=[0, 1]) as group:
        folder, amount = group.folder(0), 0
        words = [PAY, "--data", folder, "--yes"]
        # (a signal may come before the answer does)
        rows = ("no wait", [4]), ("killed", [-signal.SIGKILL]), ("SIGTERM", [3, 4]), ("SIGHUP", [3, 4])
        for ends, statuses in rows:
            amount += 1
            more = ["--no-wait"] if ends == "no wait" else []
            how = {"stderr": subprocess.PIPE, "stdout": subprocess.PIPE, "text": True}
            child = subprocess.Popen([*words, *more, "Bo", f"{amount}"], **how)
            order = drawn(child.stderr.readline())
            if ends != "no wait":
                line = f"STATE 0 {amount - 1}"
                until(lambda line=line: group.nodes[0].ask(line), f"{line.lower()} asked", of="the payment")
                child.send_signal({"killed": signal.SIGKILL}.get(ends) or signal.Signals[ends])
            errors = child.communicate(timeout=SECONDS)[1]
            is_named = ends == "killed" or f"--order {order} tells" in errors
            same((child.returncode in statuses, is_named), (True, True), f"{ends}: {child.returncode}, {errors}")
            output = pay(folder, "--no-wait", "--order", order, "Bo", f"{amount}")[1]
            same(output, f"asked: {amount} to Bo, order {order}, seq {amount - 1}\n", f"the order again: {ends}")
        for own in (2, 3):
            group.start(own)
        group.settle([4, 0, 0, 0], [90, 10, 0, 50])


def test_output_that_cannot_be_written_names_the_order():
    """On a full disk, and where nobody reads: also as JSON, and where nothing is waited for."""
    with Named(OPENING) as group:
        folder, paid = group.folder(0), 0
        for more in ([], ["--json"], ["--no-wait"]):
            for is_full in (True, False):
                reading, writing = (None, os.open("/dev/full", os.O_WRONLY)) if is_full else os.pipe()
                if reading is not None:
                    os.close(reading)
                words = [PAY, "--data", folder, "--yes", *more, "Bo", "1"]
                done = subprocess.run(words, stdout=writing, stderr=subprocess.PIPE, text=True, timeout=SECONDS)
                os.close(writing)
                order, why = drawn(done.stderr), "No space left on device" if is_full else "Broken pipe"
                said = f"payd pay: order {order}: what came of it can't be written ({why}); --order {order} tells what"
                same((done.returncode, done.stderr.splitlines()[-1].startswith(said)), (3, True), done.stderr)
                same("Exception" in done.stderr, False, done.stderr)
                wanted = f"settled: 1 to Bo, order {order}, seq {paid}\n"
                same(pay(folder, "--order", order, "Bo", "1")[:2], (0, wanted), "the order again")
                paid += 1
        group.settle([paid, 0, 0, 0], [100 - paid, paid, 0, 50])


def orders_in(folder):
    """The lines of the orders that are kept."""
    place = os.path.join(folder, "orders")
    for name in os.listdir(place) if os.path.isdir(place) else []:
        with open(os.path.join(place, name), encoding="ascii") as file:
            yield json.load(file)["line"]


class Between(threading.Thread):
    """A socket before a node's, where the answer to a line of this name is lost: which orders were kept when that of a
    payment came."""

    def __init__(self, folder, lost):
        super().__init__(daemon=True)
        self.folder, self.path, self.lost, self.seen = folder, os.path.join(folder, "between"), lost, None
        self.listens = socket.socket(socket.AF_UNIX)
        self.listens.bind(self.path)
        self.listens.listen()

    def run(self):
        client, node = self.listens.accept()[0], Client(os.path.join(self.folder, "desk"))
        with self.listens, client, client.makefile("r", encoding="ascii") as lines:
            for line in lines:
                answer = node.ask(line[:-1])
                if line.startswith("PAY "):
                    self.seen = line[:-1] in orders_in(self.folder)
                if line.startswith(f"{self.lost} "):
                    break
                client.sendall(f"{answer}\n".encode())
        node.close()


def test_order_is_kept_before_the_node_is_asked():
    """So it is paid once, though the answer is lost."""
    with Named(OPENING) as group:
        folder, words = group.folder(0), ["--yes", "--order", "x", "Bo", "30"]
        between = Between(folder, "PAY")
        between.start()
        status, output, errors = pay(folder, "--socket", between.path, *words)
        same((status, output, "--order x tells what came of it, and pays once" in errors), (3, "", True), errors)
        same(between.seen, True, "whether the order was kept before")
        same(pay(folder, *words)[:2], (0, "settled: 30 to Bo, order x, seq 0\n"), "the order again")
        group.settle([1, 0, 0, 0], [70, 30, 0, 50])


def test_note_whose_answer_is_lost_is_said_once():
    with Named(OPENING) as group:
        folder, words = group.folder(0), ["--yes", "--order", "x", "--note", "two cups", "Bo", "30"]
        between = Between(folder, "NOTE")
        between.start()
        status, output, errors = pay(folder, "--socket", between.path, *words)
        same((status, output, "--order x tells what came of it, and pays once" in errors), (3, "", True), errors)
        same(pay(folder, *words)[:2], (0, "settled: 30 to Bo, order x, seq 0, note seq 1\n"), "the order again")
        group.settle([2, 0, 0, 0], [70, 30, 0, 50])


def test_payments_that_are_killed_pay_once():
    same(payments_are_killed(kills=20, seed=1) > 5, True, "orders")


# ---- status


def first_line(folder):
    return tool("status", folder)[1].split("\n")[0]


def test_status_at_a_glance():
    begun = now()
    with Named(OPENING) as group:
        folder = group.folder(0)
        said = "peers met 3, lost 0"
        until(lambda: said in tool("status", folder)[1].splitlines(), True, of="a member that meets all")
        same(first_line(folder), "well", "a member that meets all")
        same(pay(folder, "--yes", "Bo", "30")[0], 0, "a payment")
        status, output, errors = tool("status", folder)
        same((status, errors), (0, ""), output)
        lines = output.splitlines()
        same(lines[1].startswith("member 0 Ada of 4, genesis "), True, output)
        wanted = ["balance 70, free 70", "waiting 0", "values left 65535 of 65536", "peers met 3, lost 0"]
        same([*lines[2:4], *lines[5:7]], wanted, output)
        names = enumerate(NAMES[1:], 1)
        for line, (own, name) in zip(lines[7:10], names):
            same(re.fullmatch(rf"  peer {own} {name}: met, heard \d+ seconds ago", line) is not None, True, output)
        said = re.compile(r"settled 1, the last by 20\d\d-\d\d-\d\dT\d\d:\d\d:\d\dZ")
        until(lambda: bool(said.fullmatch(tool("status", folder)[1].splitlines()[4])), True, of="when it settled")
        told = json.loads(tool("status", folder, "--json")[1])
        parts = {"well": True, "attention": [], "member": 0, "name": "Ada", "balance": 70, "free": 70, "waiting": []}
        same({name: told[name] for name in parts}, parts, "the same for a script")
        same((told["settled"], told["last_settled"]), (1, in_words(group, 0)), "when it settled")
        same(told["log_bytes"] >= 148 and (told["values_used"], told["values_left"]) == (1, 65535), True, f"{told}")
        same((told["version"], begun <= told["began"] <= now()), ("0.1.0", True), "the node")
        kind = os.path.basename(payd())
        same(told["proved"], {"proved": True, "compiled": False}.get(kind), f"whether {kind} is proved")
        proof = {True: ", proved", False: ", not proved", None: ""}[told["proved"]]
        same(f"running since {told['began']}, version 0.1.0{proof}" in lines, True, output)
        group.kill(1)
        until(lambda: first_line(folder), "attention: 2 of 3 peers are met", of="a member that lost a peer")
        same(tool("status", folder)[0], 1, "its status")
        group.kill(0)
        status, output, errors = tool("status", folder)
        same((status, errors), (1, ""), "without its node")
        same(output.startswith(f"attention: nobody listens at {folder}/desk"), True, output)
        same("start the node\nmember 0 Ada, genesis " in output, True, output)


def test_payments_that_stand_still_are_told():
    """By status and pay, while too few members run: not in the first seconds of a start, and not once they are back."""
    still = "payments stand still: {} of 4 members run, 3 are needed"
    with Named(OPENING, running=[0]) as group:
        folder = group.folder(0)
        until(lambda: first_line(folder), "well", of="the first seconds of a start")
        group.claimants.leave_all()
        until(lambda: first_line(folder), f"attention: {still.format(1)}", of="a member alone")
        words = [PAY, "--data", folder, "--yes", "--order", "one", "Bo", "30"]
        child = subprocess.Popen(words, stderr=subprocess.PIPE, stdout=subprocess.PIPE, text=True)
        said = f"payd pay: seq 0: {still.format(1)} (Ctrl-C leaves it: it goes on by itself)\n"
        same(child.stderr.readline(), said, "what a payment waits for")
        group.start(1)
        until(lambda: first_line(folder), f"attention: {still.format(2)}", of="one of two")
        group.start(2)
        same(child.communicate(timeout=SECONDS)[0], "settled: 30 to Bo, order one, seq 0\n", "the payment")
        until(lambda: first_line(folder), "attention: 2 of 3 peers are met", of="one of three")


FIGURES = """payd_peers_met 3
payd_sent_frames_total 7
payd_peer_met{{peer="1"}} {met}
payd_peer_unopened{{peer="1"}} 1
payd_peer_asked_frames_total{{peer="1"}} 7
"""


def test_figures_want_attention_while_they_are_news():
    """Of a node that answers and writes none; and of frames that don't open until the peer of their name is met."""
    with Named(OPENING, running=[0]) as group:
        folder = group.folder(0)
        path = os.path.join(folder, "status.prom")
        until(lambda: os.path.exists(path), True, of="figures")
        os.remove(path)
        os.mkdir(path)
        said = f"attention: the node answers, and writes no figures to status.prom in {folder}"
        same((tool("status", folder)[0], first_line(folder)), (1, said), "a node without figures")
        group.kill(0)
        os.rmdir(path)
        for met, is_told in ((0, True), (1, False)):
            write_text(path, FIGURES.format(met=met))
            output = tool("status", folder)[1]
            same("frames in the name of peer 1 don't open" in output, is_told, output)


def test_a_folder_that_others_may_write_is_refused():
    """Its desk might be another's, whatever tool asks it."""
    with Named(OPENING, running=[0]) as group:
        folder = group.folder(0)
        for mode in (0o720, 0o702, 0o777):
            os.chmod(folder, mode)
            said = f"{folder}: others may write in it: chmod go-w {folder}\n"
            shows(pay(folder, "--yes", "Bo", "30"), 2, "", f"payd pay: {said}", of=f"a payment at {mode:o}")
            shows(tool("status", folder), 2, "", f"payd status: {said}", of=f"the status at {mode:o}")
            shows(tool("follow", folder), 2, "", f"payd follow: {said}", of=f"payments at {mode:o}")
            shows(tool("desk-page", folder), 1, "", f"payd desk-page: {said}", of=f"the page at {mode:o}")
        os.chmod(folder, 0o755)
        same(tool("status", folder)[0] in (0, 1), True, "whether a folder that others may read is taken")
        same(group.nodes[0].lines_of("WAITING 0"), ["end 0 short 0"], "what was asked for")


def test_an_order_that_cannot_be_kept_asks_for_nothing():
    """The path, the reason and what is so now are said, and the desk was asked for no payment."""
    with Named(OPENING, running=[0]) as group:
        folder = group.folder(0)
        words = [os.path.join(TOP, "tools", "pay"), "--data", folder, "--yes", "Bo", "30"]
        status, output, errors = call(["prlimit", "--fsize=0", *words])
        part = re.escape(os.path.join(folder, "orders", ".part"))
        said = rf"payd pay: {part}\w+: File too large: nothing was asked for\n"
        same((status, output, re.fullmatch(said, errors) is not None), (3, "", True), errors)
        os.rmdir(os.path.join(folder, "orders"))
        write_text(os.path.join(folder, "orders"), "")
        status, _, errors = pay(folder, "--yes", "Bo", "30")
        order = rf"{re.escape(folder)}/orders/[0-9a-f]+"
        said = rf"payd pay: {order}: Not a directory: nothing was asked for\n"
        same((status, re.fullmatch(said, errors) is not None), (3, True), errors)
        same(group.nodes[0].lines_of("WAITING 0"), ["end 0 short 0"], "what was asked for")


def test_a_change_is_advised_of_a_members_folder_alone(folder):
    """Others may write in a system's folder: it has no member, and its rights are nobody's to change here."""
    os.chmod(folder, 0o1777)
    for tool_of in ("status", "pay"):
        words = ["--yes", "Bo", "30"] if tool_of == "pay" else []
        status, output, errors = call([os.path.join(TOP, "tools", tool_of), "--data", folder, *words])
        said = f"payd {tool_of}: {folder}: there is no member here: it has no log\n"
        same((status, output, errors), (2, "", said), tool_of)


# ---- following


def in_words(group, account, index=0):
    """When this entry settled, by the file of member 0."""
    return text_of(TimesFile(times_path(group.folder(0))).known().when(account, index))


def follow(group, own, *words):
    command = [os.path.join(TOP, "tools", "follow"), "--data", group.folder(own), *words]
    return Node(own, group.place.name, command=command)


def now():
    return text_of(datetime.datetime.now(datetime.timezone.utc))


def line_of(follower, wanted, of):
    """The time that stands before the next line, which is the wanted one."""
    moment, _, line = follower.line().partition(" ")
    same((line, bool(MOMENT.fullmatch(moment))), (wanted, True), of)
    return moment


def test_notes_are_followed():
    with Named(OPENING) as group:
        same(group.nodes[0].ask("NOTE 1 für 17 €\u202e"), "asked 1 seq 0", "a note")
        group.settle([1, 0, 0, 0])
        followers = [follow(group, own, "--from", "0", *words) for own, words in ((0, []), (1, ["--all", "--json"]))]
        try:
            line_of(followers[0], "Ada said: für 17 €\\u202e, seq 0 entry 0", "a line, in which nothing hides")
            told = json.loads(followers[1].line())
            same((told["to"], told["amount"], told["note"]), (None, None, "für 17 €\u202e"), "the same for a script")
        finally:
            for it in followers:
                it.kill()


OF_ANOTHERS = "Bo said: seq 0 of another's, seq 0 entry 0"


def test_note_stands_at_its_payment():
    """At payer and payee, in one line, in `follow` and `status`; one of another payment or without one stands apart."""
    with Named(OPENING) as group:
        words = ["--from", "0"], ["--from", "0"], ["--from", "0", "--all", "--json"]
        followers = [follow(group, own, *more) for own, more in zip((0, 1, 1), words)]
        try:
            same(pay(group.folder(0), "--yes", "--note", 'Pizza "Friday"\u202e', "Bo", "12")[0], 0, "a payment")
            same(pay(group.folder(0), "--yes", "Bo", "3")[0], 0, "one without a note")
            same(group.nodes[0].ask("NOTE 1 seq 7 of none"), "asked 1 seq 3", "a note of no payment")
            same(group.nodes[1].ask("NOTE 1 seq 0 of another's"), "asked 1 seq 0", "a note of another's payment")
            group.settle([4, 1, 0, 0])
            paid = ['Ada paid 12 to Bo "Pizza "Friday"\\u202e", seq 0 entry 0', "Ada paid 3 to Bo, seq 2 entry 2"]
            for it, apart in (followers[0], "Ada said: seq 7 of none, seq 3 entry 3"), (followers[1], OF_ANOTHERS):
                lines = [it.line().partition(" ")[2] for _ in range(3)]
                same(sorted(lines), sorted([*paid, apart]), "payments with notes, and one apart")
            lines = [json.loads(followers[2].line()) for _ in range(4)]
            seen = [(it["account"], it["entry"], it["amount"], it["note"]) for it in lines]
            wanted = [(0, 0, 12, 'Pizza "Friday"\u202e'), (0, 2, 3, None), (0, 3, None, "seq 7 of none")]
            same(sorted(seen), [*wanted, (1, 0, None, "seq 0 of another's")], "the same for a script")
        finally:
            for it in followers:
                it.kill()
        for own in (0, 1):
            status = tool("status", group.folder(own))[1]
            same('Ada paid 12 to Bo "Pizza "Friday"\\u202e"\n' in status, True, status)
        told = json.loads(tool("status", group.folder(1), "--json")[1])["last"]
        same([it["note"] for it in told if it["amount"] == 12], ['Pizza "Friday"\u202e'], "the same for a script")


def test_follow_has_the_times_of_the_nodes_file():
    with Named(OPENING) as group:
        for seq in range(2):
            group.pay(0, seq, 1, 1, seq)
            group.settle([seq + 1, 0, 0, 0])
            until(lambda: in_words(group, 0, seq) is not None, True, of="the time")
        follower = follow(group, 0, "--from", "0")
        try:
            for seq in range(2):
                moment = line_of(follower, f"Ada paid 1 to Bo, seq {seq} entry {seq}", "a line")
                same(moment, in_words(group, 0, seq), "its time")
        finally:
            follower.kill()
        os.unlink(times_path(group.folder(0)))
        follower = follow(group, 0, "--from", "0", "--json")
        try:
            same(json.loads(follower.line())["time"], None, "the time that no file tells")
        finally:
            follower.kill()


def test_payments_are_followed_behind_a_restart():
    with Named(OPENING) as group:
        group.pay(0, 7, 1, 30, 0)
        group.settle([1, 0, 0, 0])
        followers = [follow(group, 1, *it) for it in (["--from", "0"], ["--from", "0,0,0,0", "--all", "--json"])]
        own, every = followers
        try:
            moment = line_of(own, "Ada paid 30 to Bo, seq 0 entry 0", "what was there")
            first = {"account": 0, "entry": 0, "seq": 0, "to": 1, "amount": 30, "note": None}
            first["time"] = None if moment == "-" else moment
            same(json.loads(every.line()), first, "the same for a script")
            group.kill(1)
            for it in followers:
                said = it.child.stderr.readline().decode()
                same(said.endswith("; it is asked again\n"), True, f"what is said of the node: {said}")
            group.pay(3, 1, 0, 5, 0)
            until(group.nodes[0].front, [1, 0, 0, 1], of="the front")
            group.start(1)
            group.pay(1, 1, 2, 4, 0)
            group.settle([1, 1, 0, 1])
            begun = now()
            line_of(own, "Bo paid 4 to Cy, seq 0 entry 0", "what came behind the restart")
            group.pay(1, 2, 2, 1, 1)
            moment = line_of(own, "Bo paid 1 to Cy, seq 1 entry 1", "what came then")
            same(begun <= moment <= now(), True, f"when it came: {moment} behind {begun}")
            lines = [json.loads(every.line()) for _ in range(3)]
            same([it.pop("time") is not None for it in lines], [True] * 3, "whether they have times")
            parts = (1, 0, 0, 2, 4, None), (1, 1, 1, 2, 1, None), (3, 0, 0, 0, 5, None)
            wanted = [dict(zip(("account", "entry", "seq", "to", "amount", "note"), it)) for it in parts]
            same(sorted(lines, key=lambda it: (it["account"], it["entry"])), wanted, "all that came")
            own.child.send_signal(signal.SIGINT)
            same(own.end(), (0, "", ""), "the end of one")
        finally:
            for it in followers:
                it.kill()
        again = follow(group, 1, "--from", "1,0,0,0", "--all")
        try:
            line_of(again, "Bo paid 4 to Cy, seq 0 entry 0", "from where another stopped")
        finally:
            again.kill()
        for words in ("1,2", "x", "-1"):
            same(tool("follow", group.folder(1), "--from", words)[:2], (2, ""), f"--from {words}")


def test_times_of_a_wrong_clock_are_unsure():
    """After a start ten years ahead, by the file that a node would have written: in `follow`, `status` and `books`."""
    with Named(OPENING) as group:
        folder = group.folder(0)
        for seq in range(2):
            group.pay(0, seq, 1, 1, seq)
        group.settle([2, 0, 0, 0])
        until(lambda: in_words(group, 0, 1) is not None, True, of="the time")
        ahead, day = "2036-11-30T00:00:00Z 1 0 0 0\n", now()[:10]
        write_text(times_path(folder), ahead)
        doubt = " days behind the last time in the folder, 2036-11-30T00:00:00Z: is it right?"
        same(doubt in first_line(folder), True, f"what wants attention: {first_line(folder)}")
        midnight = "T".join((day, "00:00:00Z"))
        write_text(times_path(folder), f"{ahead}{midnight} 2 0 0 0\n")
        follower = follow(group, 0, "--from", "0")
        try:
            unsure = ", at a time that is unsure: the clock was wrong"
            wanted = [f"{midnight} Ada paid 1 to Bo, seq {it} entry {it}{unsure * (it == 0)}" for it in range(2)]
            same([follower.line() for _ in wanted], wanted, "what is followed")
        finally:
            follower.kill()
        lines = tool("status", folder)[1].splitlines()
        paid, unsure = f"  {midnight} Ada paid 1 to Bo", ", which is unsure: the clock was wrong"
        same(sorted(lines[-2:]), [paid, paid + unsure], "the last payments")
        made = {**group.genesis(), "ports": [1, 2, 3, 4], "group": "1" * 64}
        write_json(folder, "made", {**made, "public": [f"{it:064x}" for it in range(4)], "names": ["A", "B", "C", "D"]})
        write_text(f"{folder}/export", group.stop()[0])
        words = [f"{TOP}/tools/books", "--group", "made", "--times", "times", "export"]
        status, output, errors = call(words, folder=folder)
        same((status, output.count("date unsure")), (0, 1), errors)
        same(f"{day} (0.0) B  ; account 0 seq 0 entry 0, date unsure\n" in output, True, output)


def test_follow_ends_quietly_with_its_reader():
    with Named(OPENING) as group:
        words = f"'{TOP}/tools/follow' --data '{group.folder(0)}' --from 0 | head -n 1; echo ${{PIPESTATUS[0]}}"
        how = {"stdout": subprocess.PIPE, "stderr": subprocess.PIPE, "text": True}
        with subprocess.Popen(["bash", "-c", words], **how) as child:
            # (it ends by the first line that nobody reads)
            for seq in range(60):
                if child.poll() is None:
                    group.pay(0, seq, 1, 1, seq)
                    with contextlib.suppress(subprocess.TimeoutExpired):
                        child.wait(0.5)
            output, errors = child.communicate(timeout=SECONDS)
        same((output.splitlines()[-1], errors), ("0", ""), "how it ends")
        same("Ada paid 1 to Bo, seq 0 entry 0" in output, True, output)


def test_types_agree_for_scripts():
    """In `pay`, `status` and `follow` numbers are numbers, and a note is a text."""
    with Named(OPENING) as group:
        folder = group.folder(0)
        words = ["--yes", "--json", "--even-if-uncovered", "--no-wait", "--note", "rent"]
        paid = json.loads(pay(folder, *words, "Bo", "110")[1])
        until(lambda: len(json.loads(tool("status", folder, "--json")[1])["waiting"]), 1, of="what waits")
        (waits,) = json.loads(tool("status", folder, "--json")[1])["waiting"]
        wanted = {"to": 1, "amount": 110, "seq": 0, "note": "rent"}
        same(*({it: each[it] for it in wanted} for each in (paid, waits)), "pay and status")
        same({it: paid[it] for it in wanted}, wanted, "pay")
        group.pay(3, 1, 0, 20, 0)
        group.settle([2, 0, 0, 1])
        until(lambda: len(json.loads(tool("status", folder, "--json")[1])["last"]), 2, of="what settled")
        last = json.loads(tool("status", folder, "--json")[1])["last"]
        follower = follow(group, 0, "--from", "0", "--json")
        try:
            lines = [json.loads(follower.line()) for _ in range(2)]
        finally:
            follower.kill()
        key = lambda it: it["account"]
        same([{**it, "time": 0} for it in sorted(last, key=key)], [{**it, "time": 0} for it in lines], "status, follow")


def test_following_begins_with_what_settles_then():
    with Named(OPENING) as group:
        group.pay(0, 0, 1, 1, 0)
        group.settle([1, 0, 0, 0])
        follower, paid = follow(group, 1), 1
        try:
            while not select.select([follower.child.stdout], [], [], 0.2)[0]:
                group.pay(0, paid, 1, 1, paid)
                paid += 1
            shown = int(follower.line().rpartition(" ")[2])
            same(0 < shown < paid, True, f"the first entry that is shown of {paid}: {shown}")
        finally:
            follower.kill()
