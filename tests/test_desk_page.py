"""Black-box tests of payd desk-page: what it answers to whom, and the page in a real browser."""

import http.client
import json
import os
import re
import resource
import socket
import subprocess
import tempfile
import time
from contextlib import ExitStack, contextmanager
from urllib.parse import urlsplit

import pytest

from payd_tools.groups import Group
from support.browser import BROWSERS, ENTER, ESCAPE, TAB, Driver
from support.nodes import PATIENCE, until, write_json
from support.restarts import Folders
from support.runs import SECONDS, TOP, key_texts, same

PAGE = os.path.join(TOP, "tools", "desk-page")
NAMES = ["Ada", "Bo", "Cy", "Dee"]
SPACE = "\u2009"
# One for each of 32 connections, and the first.
MOST_THREADS = 33


class Served:
    """A page of one member of a group, and requests to it."""

    def __init__(self, group, own, named=True, descriptors=1024):
        folder = group.place.name
        words = [PAGE, "--keys", f"{folder}/keys-{own}", "--data", f"{folder}/data-{own}"]
        if named:
            write_json(folder, "names", {"names": NAMES[: group.members]})
            words += ["--group", f"{folder}/names"]
        self.errors = tempfile.TemporaryFile("w+")
        most = (resource.RLIMIT_NOFILE, (descriptors, descriptors))
        how = {"stdout": subprocess.PIPE, "stderr": self.errors, "text": True}
        self.child = subprocess.Popen(words, preexec_fn=lambda: resource.setrlimit(*most), **how)
        self.address = self.child.stdout.readline().strip()
        self.token = self.address.partition("token=")[2]
        self.host = urlsplit(self.address).netloc

    def request(self, method, path, body=None, **headers):
        """Status, headers and content of an answer. A header that is None isn't sent."""
        line = http.client.HTTPConnection(self.host, timeout=PATIENCE)
        given = {"Host": self.host, "X_Token": self.token, "Origin": f"http://{self.host}", **headers}
        content = json.dumps(body).encode() if isinstance(body, dict) else body
        line.putrequest(method, path, skip_host=True)
        for name, value in given.items():
            if value is not None:
                line.putheader(name.replace("_", "-"), value)
        if content is not None:
            line.putheader("Content-Length", str(len(content)))
        line.endheaders(content)
        answer = line.getresponse()
        said = answer.status, dict(answer.getheaders()), answer.read().decode()
        line.close()
        return said

    def state(self):
        status, _, text = self.request("GET", "/state", Origin=None)
        same(status, 200, text)
        return json.loads(text)

    def pay(self, order, to, amount, agreed="covered"):
        """Status and value of what comes of a form, in which this is agreed to."""
        form = {"id": str(order), "to": str(to), "amount": str(amount), "agreed": agreed}
        status, _, text = self.request("POST", "/pay", form)
        return status, json.loads(text)

    def raw(self, content):
        """The first line that answers these bytes."""
        with socket.create_connection(self.host.split(":"), timeout=PATIENCE) as line:
            line.sendall(content)
            return line.makefile("rb").readline().decode().strip()

    def seconds(self):
        """Of a processor, as far as the system has them."""
        with open(f"/proc/{self.child.pid}/stat", encoding="ascii") as file:
            return sum(map(int, file.read().rpartition(")")[2].split()[11:13])) / os.sysconf("SC_CLK_TCK")

    def threads(self):
        return len(os.listdir(f"/proc/{self.child.pid}/task"))

    def end(self):
        self.child.kill()
        self.child.wait()
        self.child.stdout.close()
        same(os.pread(self.errors.fileno(), 65536, 0), b"", "what the page says on standard error")


@contextmanager
def served(opening, *owns, **how):
    """A group, and the pages of these members."""
    with Folders(opening) as group:
        pages = []
        try:
            for own in owns:
                pages.append(Served(group, own, **how))
            yield (group, *pages)
        finally:
            for page in pages:
                page.end()


# ---- without a browser


def test_page_tells_that_payments_stand_still():
    with served([100, 0, 0, 50], 0, named=False) as (group, page):
        until(lambda: page.state()["still"], None, of="a group that runs")
        group.kill(2)
        group.kill(3)
        still = "payments stand still: 2 of 4 members run, 3 are needed"
        until(lambda: page.state()["still"], still, of="two of four")


def test_page_is_given_to_whom_it_belongs():
    """Only with its token, by its own names, and never to another page."""
    with served([100, 0, 0, 50], 0) as (_, page):
        port = page.host.partition(":")[2]
        for host in (page.host, f"localhost:{port}"):
            status, headers, text = page.request("GET", f"/?token={page.token}", Host=host, X_Token=None, Origin=None)
            same((status, text.startswith("<!DOCTYPE html>")), (200, True), f"the page by the name {host}")
            same(headers["Content-Security-Policy"].startswith("default-src 'none';"), True, "what it may load")
        wrong = (
            {"Host": f"evil.example:{port}"},
            {"Host": None},
            {"Host": "127.0.0.1"},
            {"Origin": "http://evil.example"},
            {"Origin": "null"},
            {"Origin": f"http://localhost:{port}"},
            {"X_Token": None},
            {"X_Token": page.token[:-1]},
            {"X_Token": f"{page.token}x"},
        )
        form = {"id": "1", "to": "1", "amount": "30", "agreed": ""}
        for headers in (*wrong, {"Origin": None}):
            same(page.request("POST", "/pay", form, **headers)[0], 403, f"a payment with {headers}")
        for headers in wrong:
            same(page.request("GET", "/state", **headers)[0], 403, f"the state with {headers}")
        for path in ("/", "/?token=", f"/?token={page.token[:-1]}", "/?x"):
            same(page.request("GET", path, Origin=None)[0], 403, f"the page at {path}")
        for method, path in (("GET", "/pay"), ("GET", "/../desk-page"), ("POST", "/state"), ("POST", "/")):
            path = path + (f"?token={page.token}" if path == "/" else "")
            same(page.request(method, path)[0], 404, f"{method} {path}")
        same(page.state()["waiting"], [], "what was paid")


def test_page_answers_what_is_no_request():
    """And says nothing of it: the fault isn't its own."""
    with served([100], 0) as (_, page):
        head = f"Host: {page.host}\r\nX-Token: {page.token}\r\nOrigin: http://{page.host}\r\n".encode()
        for line, headers, body, status in (
            (b"GET http://[ HTTP/1.1", b"", b"", 400),
            (b"POST http://[/pay HTTP/1.1", b"Content-Length: 2\r\n", b"{}", 400),
            (b"POST /pay HTTP/1.1", b"Content-Length: \xb2\r\n", b"{}", 413),
            (b"POST /pay HTTP/1.1", b"Content-Length: \xd9\xa2\r\n", b"{}", 413),
            (b"POST /pay HTTP/1.1", b"Content-Length: " + 5000 * b"1" + b"\r\n", b"{}", 413),
            (b"POST /pay HTTP/1.1", b"Content-Length: 1024\r\n", 1024 * b"[", 400),
            (b"POST /pay HTTP/1.1", b"Content-Length: 4097\r\n", b"{}", 413),
            (b"POST /pay HTTP/1.1", b"Content-Length: 1020\r\n", 204 * b'{"a":', 400),
            (b"GET /\xff HTTP/1.1", b"", b"", 404),
        ):
            said = page.raw(line + b"\r\n" + head + headers + b"\r\n" + body)
            same(said.split(" ")[1:2], [f"{status}"], f"what answers {line} with {headers[:40]}: {said}")
        same(page.state()["balance"], "100", "what it answers then")


def idle(page, lines):
    """Connections of another user, to this page."""
    for _ in range(200):
        lines.enter_context(socket.create_connection(page.host.split(":"), timeout=PATIENCE))


def test_page_goes_on_among_idle_connections():
    """With descriptors for them or without: its owner is answered, and they cost next to nothing."""
    for descriptors in (1024, 24):
        with served([100], 0, descriptors=descriptors) as (_, page), ExitStack() as lines:
            idle(page, lines)
            spent = page.seconds()
            for _ in range(10):
                same(page.state()["balance"], "100", "what it answers")
                same(page.threads() <= MOST_THREADS, True, f"that {page.threads()} threads are few")
                time.sleep(0.2)
            same(page.seconds() - spent < 0.5, True, f"that {page.seconds() - spent} seconds of two are few")


def test_page_waits_for_descriptors():
    """Where it has none left it tries again now and then, and goes on once there are some."""
    with served([100], 0) as (_, page):
        same(page.state()["balance"], "100", "what it answers")
        used = len(os.listdir(f"/proc/{page.child.pid}/fd"))
        resource.prlimit(page.child.pid, resource.RLIMIT_NOFILE, (used + 1, 1024))
        with ExitStack() as lines:
            idle(page, lines)
            spent = page.seconds()
            time.sleep(1)
            same(page.seconds() - spent < 0.3, True, f"that {page.seconds() - spent} seconds of one are few")
        same(page.state()["balance"], "100", "what it answers then")


def test_page_loads_nothing_from_elsewhere():
    folder = os.path.join(TOP, "tools", "payd_tools", "page")
    for name in sorted(os.listdir(folder)):
        with open(os.path.join(folder, name), encoding="utf-8") as file:
            same(re.findall(r"https?:|url\(|@import|src=\"[^\"]*/|//[\w.]+/", file.read()), [], f"addresses in {name}")


def test_forms_pay_once():
    """By an id of their own, however often they are sent; and by none of what isn't a form."""
    with served([100, 0, 0, 50], 0) as (group, page):
        same(page.pay(7, 1, 30, ""), (200, {"needs": "covered", "amount": "30", "left": "70"}), "what is asked first")
        same(page.state()["waiting"], [], "what was asked for")
        same(page.pay(7, 1, 30), (200, {"seq": "0", "again": False}), "a covered payment")
        same(page.pay(7, 1, 30), (200, {"seq": "0", "again": True}), "the same form")
        form = {"id": "9", "to": "1", "amount": "1", "agreed": "covered", "note_id": "10", "note": "für zwei"}
        for again in (False, True):
            status, _, text = page.request("POST", "/pay", form)
            same((status, json.loads(text)), (200, {"seq": "1", "again": again}), "a payment with a note")
        for note in ("a\tb", 990 * "x", "\ud800"):
            same(page.request("POST", "/pay", {**form, "id": "11", "note": note})[0], 400, f"the note {note[:9]!r}")
        unsaid = json.loads(page.request("POST", "/pay", {**form, "note": "another"})[2])["unsaid"]
        same(unsaid.startswith("This form has asked"), True, f"another note by the same form: {unsaid}")
        status, said = page.pay(7, 2, 30)
        same((status, said["refused"]), (200, "4 IdUsed"), "another payment by it")
        same(page.pay(8, 0, 1)[1]["refused"], "3 ZeroOrSelf", "a payment to itself")
        same(page.pay(8, 4, 1)[1]["refused"], "2 NoAccount", "a payment to nobody")
        for amount in ("0", "01", "-1", "1.0", "1e3", " 1", "", "x", 2**64, "1\nPAY 9 1 1"):
            same(page.pay(8, 1, amount)[0], 400, f"the amount {amount!r}")
        for body in (b"", b"{", b"[]", b"\xff", b'{"id": 1}', b"9" * 2000):
            same(page.request("POST", "/pay", body)[0] in (400, 413), True, f"the form {body[:20]!r}")
        group.settle([3, 0, 0, 0], [69, 31, 0, 50])
        notes = lambda: [(it["to"], it["note"]) for it in page.state()["entries"]]
        until(notes, [(1, "für zwei"), (1, None)], of="the entries")


def test_uncovered_forms_are_held_back():
    """Against what the balance leaves once all that waits is paid, and against what the group owns."""
    with served([100, 0, 0, 50], 0) as (group, page):
        wanted = {"needs": "uncovered", "amount": "101", "short": "1"}
        same(page.pay(1, 1, 101), (200, wanted), "one more than there is")
        same(page.pay(1, 1, 151)[1]["needs"], "beyond", "more than the group owns")
        for agreed in ("uncovered", "beyond"):
            same(page.pay(1, 1, 151, agreed)[1]["needs"], "beyond", f"more than the group owns, agreed to as {agreed}")
        same(page.pay(1, 1, 120, "uncovered")[1]["seq"], "0", "agreed to")
        # all that waits counts, and not the balance alone
        same(page.pay(2, 1, 1), (200, {"needs": "uncovered", "amount": "1", "short": "21"}), "behind what waits")
        until(lambda: page.state()["short"], "20", of="what the first is short of")
        followed = {"seq": 0, "to": 1, "amount": "120", "state": "waiting"}
        until(lambda: page.state()["followed"], followed, of="the payment that was asked for last")
        same(page.state()["balances"], ["100", "0", "0", "50"], "all balances")
        group.pay(3, 1, 0, 40, 0)
        group.settle([1, 0, 0, 1], [20, 120, 0, 10])
        state = page.state()
        same(state["followed"], {**followed, "state": "settled"}, "the same payment")
        same(state["balances"], ["20", "120", "0", "10"], "all balances then")
        same(page.pay(2, 1, 21)[1]["needs"], "uncovered", "one more than is left")
        same(page.pay(2, 1, 20)[1], {"seq": "1", "again": False}, "all that is left")
        same(page.pay(3, 2, 2**64 - 1, "beyond")[1]["needs"], "beyond", "the greatest amount of all")
        same(page.state()["waiting"], [], "what waits then")
        same(page.state()["total"], "150", "what the group owns")


def test_page_tells_what_the_node_tells():
    """Of many entries the newest, those that wait, and all of an account that had them before the page began."""
    with Folders([5000, 0, 0, 0]) as group:
        orders = range(1100)
        group.nodes[0].write("".join(f"PAY {it} {1 + it % 3} 1\n" for it in orders))
        for it in orders:
            same(group.nodes[0].line(), f"asked {it} seq {it}", "a payment")
        group.settle([1100, 0, 0, 0])
        pages = [Served(group, own, named=False) for own in (0, 1)]
        try:
            state = pages[0].state()
            same([it["entry"] for it in state["entries"]], [*range(1099, 599, -1)], "the newest entries")
            same((state["entries_cut"], state["balance"], state["names"]), (True, "3900", []), "and else")
            state = pages[1].state()
            # those of the last 1,000 of an account are looked through
            wanted = [it for it in range(1099, 99, -1) if it % 3 == 0]
            same([it["entry"] for it in state["entries"]], wanted, "what came to account 1")
            same((state["entries_cut"], state["balance"]), (True, "367"), "that there are earlier ones")
            group.pay(1, 5, 0, 7, 0)
            group.settle([1100, 1, 0, 0])
            newest = pages[1].state()["entries"][0]
            same(newest.pop("seen") is not None, True, "when it was seen")
            same(newest, {"account": 1, "entry": 0, "seq": 0, "to": 0, "amount": "7", "note": None}, "the newest")
        finally:
            for page in pages:
                page.end()


def test_pages_words():
    for words, status, said in (
        (["--data", "x", "--keys", "/none"], 1, "cannot read /none: No such file"),
        (["--data", "x", "--keys", f"{TOP}/examples/genesis.json"], 1, "it is no file of keys"),
        (["--data", "x", "--keys", f"{TOP}/examples/keys-0.json", "--port", "70000"], 2, "a number from 0 to 65535"),
        (["--data", "x", "--keys", f"{TOP}/examples/keys-0.json", "--socket", "y"], 2, "not allowed with"),
        ([], 1, "member: there is no member here: it has no log (--data or PAYD_DATA names its folder)"),
        (["--data", "/none"], 1, "/none: there is no member here"),
        (["--socket", "y"], 1, "--keys is missing"),
        (["--socket", "y", "--keys", f"{TOP}/examples/desk.txt"], 1, "it is no file of JSON"),
    ):
        with tempfile.TemporaryDirectory() as folder:
            done = subprocess.run([PAGE, *words], cwd=folder, capture_output=True, text=True, timeout=SECONDS)
        same((done.returncode, said in done.stderr), (status, True), f"{words}: {done.stderr}")


def test_page_begins_where_all_belongs_together():
    """The folder, the keys and the group, and what the node answers."""
    with served([100, 0, 0, 50], 0) as (group, page), tempfile.TemporaryDirectory() as folder:
        place = group.place.name
        made = {"members": 4, "faults": 1, "opening": [100, 0, 0, 50], "ports": [1, 2, 3, 4], "group": "0" * 64}
        made["public"] = [f"{it:064x}" for it in range(4, 8)]
        group_keys = Group({**made, "group": "1" * 64}, has_cryptography=False).digest()[:16]
        files = {
            "group": made,
            "opening": {**made, "opening": [100, 0, 0, 51]},
            "of-three": {"names": NAMES[:3]},
            "broken": {**made, "group": "00"},
            "foreign-keys": {"own": 0, "keys": key_texts(0, 4), "digest": group_keys},
            "many-keys": {"own": 0, "keys": key_texts(0, 7)},
        }
        for name, value in files.items():
            write_json(folder, name, value)
        for keys, of, said in (
            (f"{place}/keys-1", None, f"these are the keys of member 1, and {place}/data-0 is that of 0"),
            (None, "opening", f"{place}/data-0 is a member of another group"),
            (None, "broken", "group has to be 64 digits 0-9 a-f"),
            ("foreign-keys", "group", "the keys are those of another group"),
            ("many-keys", "group", "the keys are those of another group"),
            (f"{place}/keys-0", "of-three", "the keys are those of another group"),
        ):
            words = [PAGE, "--data", f"{place}/data-0"]
            words += [it for name, value in (("--keys", keys), ("--group", of)) if value for it in (name, value)]
            done = subprocess.run(words, cwd=folder, capture_output=True, text=True, timeout=SECONDS)
            same((done.returncode, done.stdout, said in done.stderr), (1, "", True), f"{words}: {done.stderr}")
        state = page.state()
        same((state["desk"], len(state["genesis"])), (f"{place}/data-0/desk", 8), "whose desk it is")
        words = [PAGE, "--keys", "many-keys", "--socket", f"{place}/data-0/desk"]
        with subprocess.Popen(words, cwd=folder, stdout=subprocess.PIPE, text=True) as child:
            try:
                address = urlsplit(child.stdout.readline().strip())
                line = http.client.HTTPConnection(address.netloc, timeout=PATIENCE)
                line.request("GET", "/state", headers={"X-Token": address.query.partition("=")[2]})
                state = json.loads(line.getresponse().read())
                line.close()
            finally:
                child.kill()
        same(state["fault"], "the node that answers is of a group of 4, and not of 7", "what is said of another's node")


# ---- in a browser


def fill(tab, to, amount):
    tab.run("const to = arguments[0]; document.getElementById('to').value = to", to)
    tab.run("document.getElementById('to').dispatchEvent(new Event('input'))")
    tab.run("document.getElementById('amount').value = ''")
    tab.write("#amount", amount)


def in_browser(test):
    return pytest.mark.needs("chromedriver")(pytest.mark.needs(*BROWSERS)(test))


def shows(tab, place, text):
    until(lambda: tab.text(place), text, of=place)


@in_browser
def test_payment_settles_at_the_payees_page():
    """Asked for by keys alone; both pages show it by themselves."""
    with Driver() as driver, served([100, 0, 0, 50], 0, 1) as (group, payer, payee):
        ada, bo = driver.tab(payer.address), driver.tab(payee.address)
        shows(ada, "#balance", "100")
        shows(bo, "#owner", "Bo, account 1")
        ada.press(TAB, ENTER)
        until(lambda: ada.run("return location.hash"), "#pay", of="the link to the form")
        ada.press(TAB, "B", TAB, *"30")
        shows(ada, "#hint", "Covered: 70 stay free.")
        ada.press(TAB, *"Pizza <b>Friday</b>")
        ada.press(ENTER)
        shows(ada, "#second-head", "Pay 30 to Bo?")
        same((ada.text("#why"), ada.text("#agree")), ("It leaves 70 free.", "Pay"), "what is asked once")
        same(bo.rows("#entries"), [], "what came before it was agreed to")
        ada.press(TAB, TAB, ENTER)
        shows(ada, "#followed", "Settled: 30 to Bo, seq 0 of account 0.")
        shows(ada, "#balance", "70")
        shows(bo, "#balance", "30")
        same(ada.text("#why-waits"), "Nothing waits.", "what waits")
        for tab, who, amount in ((ada, "to Bo", "\u221230"), (bo, "from Ada", "+30")):
            wanted = f"{who}\nPizza <b>Friday</b>"
            until(lambda tab=tab: [it[0] for it in tab.rows("#entries")], [wanted], of="the payment with its note")
            (row,) = tab.rows("#entries")
            same([row[1], row[3]], ["account 0, seq 0", amount], "the entry")
            same(re.fullmatch(r"\d\d:\d\d:\d\d", row[2]) is not None, True, f"when it was seen: {row[2]}")
        same(group.nodes[0].ask("NOTE 1 seq 0 <b>17</b>"), "asked 1 seq 2", "another note")
        until(lambda: ada.rows("#entries")[0][0], "note: seq 0 <b>17</b>", of="the note, apart")
        until(lambda: bo.rows("#entries")[0][0], "Ada: note: seq 0 <b>17</b>", of="the note, apart, at the payee")
        for tab in (ada, bo):
            rows = [["0", "Ada", "70", "3"], ["1", "Bo", "30", "0"], ["2", "Cy", "0", "0"], ["3", "Dee", "50", "0"]]
            until(lambda: tab.rows("#accounts"), rows, of="all accounts")
        group.settle([3, 0, 0, 0], [70, 30, 0, 50])


# What is said of a payment of 120 that the balance of 100 doesn't cover.
BLOCKS = (
    "It is 20 more than what is free. Until so much comes in it waits, and until then this account can pay nobody: "
    "each later payment waits behind it. It can’t be taken back."
)


@in_browser
def test_uncovered_payment_says_what_it_blocks():
    with Driver() as driver, served([100, 0, 0, 50], 0) as (group, page):
        tab = driver.tab(page.address)
        shows(tab, "#balance", "100")
        fill(tab, "3", "120")
        shows(tab, "#hint", "Not covered by what is free: it would wait.")
        for leave in (lambda: tab.click("#leave"), lambda: tab.press(ESCAPE)):
            tab.click("#ask")
            until(lambda: tab.is_shown("#second"), True, of="the question")
            same((tab.focused(), tab.is_shown("#ask")), ("second-head", False), "where the keys are")
            same((tab.text("#second-head"), tab.text("#why")), ("Pay 120 to Dee all the same?", BLOCKS), "why it asks")
            leave()
            shows(tab, "#outcome", "Nothing was asked for.")
        same(page.state()["waiting"], [], "what was asked for")
        tab.click("#ask")
        until(lambda: tab.is_shown("#second"), True, of="the question")
        tab.click("#agree")
        shows(tab, "#why-waits", "The first waits for 20 more on this account.")
        same(tab.rows("#waiting"), [["Dee", "0", "120"]], "what waits")
        asked = "Asked: 120 to Dee, seq 0 of account 0. It waits for 20 more on this account."
        shows(tab, "#followed", asked)
        steps = "return [...document.querySelectorAll('#steps .done')].map((it) => it.innerText)"
        same(tab.run(steps), ["Asked", "Delivered"], "how far it is")
        same(tab.text("#owner"), "Ada, account 0", "whose account it is")
        same(tab.text("#desk").startswith("Member 0 of 4 · group "), True, "whose desk it is")
        same(tab.text("#free"), "What waits needs 20 more.", "what is free")
        fill(tab, "1", "1 000 000")
        shows(tab, "#hint", "It can never settle: the whole group owns 150.")
        same(tab.is_shown("#ask"), False, "whether there is a button for it")
        tab.write("#amount", ENTER)
        shows(tab, "#outcome", "It can never settle: the whole group owns 150. Nothing was asked for.")
        fill(tab, "1", "1")
        until(lambda: tab.is_shown("#ask"), True, of="the button for another amount")
        group.pay(3, 1, 0, 20, 0)
        shows(tab, "#why-waits", "Nothing waits.")
        shows(tab, "#balance", "0")
        shows(tab, "#followed", "Settled: 120 to Dee, seq 0 of account 0.")
        same(tab.run(steps), ["Asked", "Delivered", "Settled"], "how far it is")
        same([row[0] for row in tab.rows("#entries")], ["to Dee", "from Dee"], "what came and went")
        same(group.nodes[0].ask("PAY 99 1 1000000"), "asked 99 seq 1", "what never settles, asked for at the desk")
        shows(tab, "#why-waits", "The first never settles: the whole group owns 150.")


# The colour of what is old, on a light ground.
GREY = "rgb(90, 98, 107)"


@in_browser
def test_node_ends_and_starts_behind_the_page():
    """The page says so and goes on. What was sent meanwhile is sent again by the same form, and paid once."""
    with Driver() as driver, served([100, 0, 0, 50], 0) as (group, page):
        tab = driver.tab(page.address)
        shows(tab, "#balance", "100")
        group.kill(0)
        said = r"As of \d\d:\d\d: the node doesn’t answer: nobody listens at .*"
        until(lambda: re.fullmatch(said, tab.text("#node")) is not None, True, of="what is said of it")
        color = "return getComputedStyle(document.querySelector(arguments[0])).color"
        same((tab.text("#balance"), tab.run(color, "#balance")), ("100", GREY), "what it knew, greyed")
        same(tab.run("return document.title").startswith("As of "), True, "the title")
        fill(tab, "1", "30")
        tab.click("#ask")
        until(lambda: "this form pays once" in tab.text("#outcome"), True, of="what comes of it")
        order = tab.run("return sessionStorage.getItem('order')")
        tab.reload()
        group.start(0)
        shows(tab, "#node", "The node answers.")
        # asked for under the form's id meanwhile, as by a page whose answer was lost
        until(lambda: page.pay(order, 1, 30)[1].get("seq"), "0", of="the payment, which may come too early at first")
        until(lambda: tab.run("return document.getElementById('to').value"), "1", of="the form")
        shows(tab, "#balance", "70")
        same((tab.run(color, "#balance") == GREY, tab.run("return document.title")[:3]), (False, "70 "), "what is new")
        tab.click("#ask")
        until(lambda: tab.text("#followed").endswith("It had been asked for before, and is paid once."), True, of="it")
        same(tab.run("return sessionStorage.getItem('order')"), None, "the form's id")
        group.settle([1, 0, 0, 0], [70, 30, 0, 50])
        page.end()
        until(lambda: "payd desk-page doesn’t answer: is it" in tab.text("#node"), True, of="what it says")
        same(tab.run(color, "#balance"), GREY, "what it knew then")


@in_browser
def test_page_fits_and_is_told():
    """A phone's width, dark colours, and what a reader of the screen goes by."""
    with Driver() as driver, served([2**62, 0, 0, 50], 0) as (group, page):
        tab = driver.tab(page.address)
        shows(tab, "#balance", SPACE.join("4 611 686 018 427 387 904".split()))
        group.pay(0, 1, 1, 2**61, 0)
        group.pay(0, 2, 2, 2**62, 1)
        until(lambda: len(tab.rows("#entries")), 1, of="the entries")
        for width in (320, 390, 1200):
            tab.emulate("setDeviceMetricsOverride", width=width, height=900, deviceScaleFactor=1, mobile=width < 900)
            until(lambda: tab.run("return innerWidth"), width, of="the screen")
            beyond = "const page = document.documentElement; return page.scrollWidth - page.clientWidth"
            same(tab.run(beyond), 0, f"how much wider it is than {width}")
        for scheme, ground in (("light", "rgb(244, 245, 247)"), ("dark", "rgb(20, 23, 26)")):
            tab.emulate("setEmulatedMedia", features=[{"name": "prefers-color-scheme", "value": scheme}])
            same(tab.run("return getComputedStyle(document.body).backgroundColor"), ground, f"the ground in {scheme}")
            for place in ("#second", "#outcome", "#renew", "#waiting-cut"):
                tab.run("document.querySelector(arguments[0]).hidden = false", place)
            faint = [it for it in tab.run(CONTRASTS) if it[1] < LEAST_CONTRAST]
            same(faint, [], f"texts that are hard to read in {scheme}")
        told = tab.told()
        for wanted in TOLD:
            same(told.count(wanted), 1, f"{wanted} for a reader of the screen, of {told}")


# WCAG 2.1, level AA, and the contrast of each text to what it stands on, by its formula.
LEAST_CONTRAST = 4.5
CONTRASTS = """
const parts = (color) => color.match(/[\\d.]+/g).map(Number);
const light = (color) => {
  const [red, green, blue] = parts(color).slice(0, 3).map((it) => it / 255)
    .map((it) => (it <= 0.03928 ? it / 12.92 : ((it + 0.055) / 1.055) ** 2.4));
  return 0.2126 * red + 0.7152 * green + 0.0722 * blue;
};
const ground = (it) => {
  const color = getComputedStyle(it).backgroundColor;
  return (parts(color)[3] ?? 1) === 1 ? color : ground(it.parentElement);
};
const texts = [...document.body.querySelectorAll("*")].filter((it) => it.checkVisibility() && !it.disabled &&
  [...it.childNodes].some((node) => node.nodeType === 3 && node.data.trim() !== ""));
return texts.map((it) => {
  const [low, high] = [light(getComputedStyle(it).color), light(ground(it))].sort((one, other) => one - other);
  return [it.textContent.trim(), (high + 0.05) / (low + 0.05)];
});
"""
# What a reader of the screen has to find once.
TOLD = [("main", ""), ("banner", ""), ("heading", "Ada, account 0"), ("combobox", "To"), ("textbox", "Amount")]
TOLD += [("textbox", "What for")]
TOLD += [("region", it) for it in ("Balance", "Pay", "What waits", "What came and went", "The group")]
TOLD += [("table", it) for it in ("What waits", "What came and went", "The group")]
TOLD += [("columnheader", it) for it in ("Who", "Account and seq", "Seen", "Seq", "Whose")]
TOLD += [("button", "Pay"), ("link", "To the form to pay"), ("alertdialog", "Pay all the same?")]
