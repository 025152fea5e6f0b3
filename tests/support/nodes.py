"""Running nodes for the black-box tests: each a process of its own, and its desk on pipes.

Nothing here waits for a fixed time: answers are asked for again until they are as wanted, at most PATIENCE seconds.
"""

import json
import os
import random
import re
import select
import socket
import subprocess
import tempfile
import time

from support.advices import told_plainly
from support.runs import GENESIS, key_texts, payd, same, shows, with_files

PATIENCE = 60
PAUSE = 0.01

# Below the ports that the system gives to those who dial, so that no dialing takes one of them; of these every process
# that runs tests has its own, by the names that pytest-xdist has for it.
WORKER = int(os.environ.get("PYTEST_XDIST_WORKER", "gw0").strip("gw"))
PORTS = range(10000, 32000)[WORKER :: int(os.environ.get("PYTEST_XDIST_WORKER_COUNT", "1"))]


def free_ports(count):
    """So many ports of the loopback that nobody has."""
    taken = []
    try:
        while len(taken) < count:
            one = socket.socket()
            try:
                one.bind(("127.0.0.1", random.choice(PORTS)))
                taken.append(one)
            except OSError:
                one.close()
        return [one.getsockname()[1] for one in taken]
    finally:
        for one in taken:
            one.close()


def until(ask, wanted, of):
    """Asks again and again until the answer is the wanted one."""
    deadline = time.monotonic() + PATIENCE
    while (was := ask()) != wanted:
        if time.monotonic() > deadline:
            raise AssertionError(f"{of}: {was!r} in place of {wanted!r} after {PATIENCE} s")
        time.sleep(PAUSE)


# what a node without a folder says first
IN_MEMORY = "payd: without --data the member lives in memory alone: what ends the node before its input does "
IN_MEMORY += "loses its account\n"

# what a node says of itself, before that, and of its folder
START = re.compile(
    r"payd: member (\d+)(?: .+)? of (\d+), genesis ([0-9a-f]{8}), port (\d+)(?:, group( \d{5}){12})?\n"
    r"(?:payd: folder .+\n)?"
)

# how a node with a folder refuses a payment before enough peers were heard
EARLY = "refused 6 TooEarly"
# what it says of its peers on standard error, with their names where the group's file has some
UNOPENED = "sends frames that don't open: another key or another group"
NEWS = re.compile(rf"payd: peer (\d+)(?: .+?)? (met|lost|given up|{UNOPENED})\n")
LIES = re.compile(r"payd: peer (\d+)(?: .+?)? lied: ([^;\n]*); nothing more is read from it\n")


def started(errors):
    """What standard error says behind the lines in which a node says who it is and where."""
    return START.sub("", errors, count=1)


def news_in(errors):
    """What standard error says of peers."""
    return [(int(peer), word) for peer, word in NEWS.findall(errors)]


def met_in(errors):
    """How many peers it says were met: each has claimed how much it took."""
    return len({peer for peer, word in news_in(errors) if word == "met"})


def lies_in(errors):
    """What it says of their lies: nothing of a correct member."""
    return [(int(peer), lie) for peer, lie in LIES.findall(errors)]


def without_lies(errors, liars):
    """What standard error says but of the lies of these peers."""
    return LIES.sub(lambda it: "" if int(it[1]) in liars else it[0], errors)


def told_apart(errors):
    """The same, and all else that is there but who the node is, that a member is in memory alone, and what to do about
    faults."""
    return news_in(errors), NEWS.sub("", told_plainly(started(errors).removeprefix(IN_MEMORY)))


def in_memory(was):
    """Status, output and errors of a node without a folder, without what it says of itself and of that, which is to be
    there."""
    status, output, errors = was
    same(bool(START.match(errors)), True, f"what is said of the node in {errors!r}")
    errors = started(errors)
    same(errors.startswith(IN_MEMORY), True, f"what is said of memory in {errors!r}")
    return status, output, errors.removeprefix(IN_MEMORY)


def write_json(folder, name, value):
    with open(os.path.join(folder, name), "w", encoding="ascii") as file:
        json.dump(value, file)


def write_member(folder, genesis=GENESIS, ports=None):
    """Writes the files of member 0 with the test keys; the words of a node that name them."""
    write_json(folder, "genesis", genesis)
    write_json(folder, "keys", {"own": 0, "keys": key_texts(0, genesis["members"])})
    write_json(folder, "ports", {"ports": ports or free_ports(genesis["members"])})
    return ["node", "--genesis", "genesis", "--keys", "keys", "--ports", "ports"]


def judges_words_of(option, why, wrong, more, right):
    """A node of two refuses these words of an option, before it reads its files, and several, and takes others."""
    pair = {"members": 2, "faults": 0, "opening": [5, 5]}
    files = {"g": pair, "k": {"own": 0, "keys": key_texts(0, 2)}, "p": {"ports": free_ports(2)}}
    words = ["node", "--genesis", "g", "--keys", "k", "--ports", "p"]
    for word in (*wrong, "", "00", "05", "+5", "5 ", "1.5", "0x5", "five", f"{2**64}"):
        for given in (files, {}):
            was = with_files(given, [*words, f"--{option}={word}"], b"FRONT\n")
            shows(was, 2, "", f"payd: {option} {word}: {why}\n", of=f"{word!r}")
    for several in (*more, [], ["-1"], ["5", f"--{option}", "5"]):
        status, output, errors = with_files(files, [*words, f"--{option}", *several], b"FRONT\n")
        same((status, output, errors != ""), (2, "", True), f"{several}")
    for word in right:
        # (a second word of one option is refused, so dials that are judged come alone)
        dials = [] if option == "dials" else ["--dials", "1"]
        status, output, errors = with_files(files, [*words, *dials, f"--{option}", word], b"FRONT\n")
        same((status, output.split("\n")[0], told_apart(errors)[1]), (0, "front 0 0", ""), f"{word!r}")


class Ended(AssertionError):
    """A node ended that was to answer."""


def new_words(place, options):
    """The flag of a node whose member is made at this start, if its folder has no log yet."""
    folder = dict(zip(options, options[1:])).get("--data")
    return ["--new"] if folder and not os.path.exists(os.path.join(place, folder, "log")) else []


def met(child, peers, seconds=PATIENCE):
    """Waits until a node says that so many peers were met, says nothing for so many seconds, or ends; its errors until
    then."""
    said = b""
    while met_in(said.decode()) < peers and select.select([child.stderr], [], [], seconds)[0]:
        piece = os.read(child.stderr.fileno(), 65536)
        if piece == b"":
            break
        said += piece
    return said


def fed(child, text, peers, seconds=PATIENCE):
    """Gives a node all its lines once so many peers were met: what it wrote, and all its errors."""
    said = met(child, peers, seconds)
    output, errors = child.communicate(text, timeout=PATIENCE)
    return output.decode("ascii"), (said + errors).decode()


class Node:
    """A running node, and its desk. Another command may run it, and with more in its environment."""

    def __init__(self, own, folder, ports="ports", options=(), prefix=(), given=(), command=None):
        files = ["--genesis", "genesis", "--keys", f"keys-{own}", "--ports", ports]
        options = [*options, *new_words(folder, options)]
        words, pipe = [*prefix, *(command or [payd(), "node", *files, *options])], subprocess.PIPE
        how = {"cwd": folder, "env": {**os.environ, **dict(given)}, "bufsize": 0}
        self.child = subprocess.Popen(words, stdin=pipe, stdout=pipe, stderr=pipe, **how)
        self.own = own
        self.held = b""
        self.said = b""

    def write(self, text):
        self.child.stdin.write(text.encode())

    def line(self):
        """The next line that the desk wrote."""
        deadline = time.monotonic() + PATIENCE
        while b"\n" not in self.held:
            left = deadline - time.monotonic()
            if left <= 0 or not select.select([self.child.stdout], [], [], left)[0]:
                raise AssertionError(f"node {self.own} didn't answer within {PATIENCE} s, but {self.held!r}")
            piece = os.read(self.child.stdout.fileno(), 65536)
            if piece == b"":
                self.said += self.child.stderr.read()
                raise Ended(f"node {self.own} ended with {self.said!r} behind {self.held!r}")
            self.held += piece
        line, _, self.held = self.held.partition(b"\n")
        return line.decode()

    def ask(self, line):
        """The answer to a line that has one line of it."""
        self.write(f"{line}\n")
        return self.line()

    def pay(self, line):
        """The answer to a payment, which is given again as long as it comes too early behind the node's start."""
        deadline = time.monotonic() + PATIENCE
        while (answer := self.ask(line)) == EARLY and time.monotonic() < deadline:
            time.sleep(0.01)
        return answer

    def statement(self, account):
        return self.lines_of(f"STATEMENT {account}")

    def lines_of(self, line):
        """The answer to a line whose last line begins with `end`."""
        self.write(f"{line}\n")
        lines = [self.line()]
        while not lines[-1].startswith("end "):
            lines.append(self.line())
        return lines

    def front(self):
        return [int(word) for word in self.ask("FRONT").split()[1:]]

    def balances(self):
        answers = [self.ask(f"BALANCE {account}") for account in range(len(self.front()))]
        return [int(answer.split()[2]) for answer in answers]

    def status(self, name):
        """A number that the system has of the program: `Threads`, or kibibytes, as `VmRSS`."""
        with open(f"/proc/{self.child.pid}/status", encoding="ascii") as lines:
            return next(int(line.split()[1]) for line in lines if line.startswith(f"{name}:"))

    def threads(self):
        return self.status("Threads")

    def processor_seconds(self):
        """How long processors have worked for it so far."""
        with open(f"/proc/{self.child.pid}/stat", encoding="ascii") as file:
            words = file.read().rpartition(")")[2].split()
        return (int(words[11]) + int(words[12])) / os.sysconf("SC_CLK_TCK")

    def open_files(self):
        return len(os.listdir(f"/proc/{self.child.pid}/fd"))

    def news(self):
        """What standard error said of peers so far, but of their lies."""
        return news_in(self.heard())

    def meets(self, peers):
        """Waits until so many peers were met, or the node ended."""
        until(lambda: met_in(self.heard()) >= peers or self.child.poll() is not None, True, of=f"peers of {self.own}")

    def heard(self):
        self.hear()
        return self.said.decode()

    def lies(self):
        """What it said of their lies so far."""
        return lies_in(self.heard())

    def hear(self):
        """Takes what standard error said so far."""
        while not self.child.stderr.closed and select.select([self.child.stderr], [], [], 0)[0]:
            piece = os.read(self.child.stderr.fileno(), 65536)
            if piece == b"":
                break
            self.said += piece

    def end(self):
        """Waits for the node's end: its status, what it still wrote, and its errors, without what it says of peers."""
        output, errors = self.child.communicate(timeout=PATIENCE)
        self.said += errors
        return self.child.returncode, (self.held + output).decode(), told_apart(self.said.decode())[1]

    def end_input(self):
        self.child.stdin.close()
        self.child.stdin = None

    def stop(self):
        """Ends the input, and waits for the node's end."""
        self.end_input()
        return self.end()

    def kill(self):
        """Ends the process as it stands, if it hasn't ended."""
        self.child.kill()
        self.child.wait()
        for stream in (self.child.stdin, self.child.stdout, self.child.stderr):
            if stream is not None:
                stream.close()


class Group:
    """A folder with the files of a group with the test keys, and those of its members that run.

    After its `with` no process is left, however it ends. Of members that aren't among the liars no node may say in the
    end that they lied.
    """

    liars = ()

    def __init__(self, opening, running=None, ports=None, options=()):
        self.members = len(opening)
        self.opening = opening
        self.faults = (self.members - 1) // 3
        self.ports = ports or free_ports(self.members)
        self.options = options
        self.nodes = {}
        self.running = range(self.members) if running is None else running

    def __enter__(self):
        self.place = tempfile.TemporaryDirectory()
        write_json(self.place.name, "genesis", self.genesis())
        write_json(self.place.name, "ports", {"ports": self.ports})
        for own in range(self.members):
            write_json(self.place.name, f"keys-{own}", {"own": own, "keys": self.keys_of(own)})
        try:
            # all at once, for a reader doesn't dial for ever
            for own in self.running:
                self.start(own)
            for node in self.nodes.values():
                node.front()
        except BaseException:
            self.__exit__()
            raise
        return self

    def __exit__(self, *_):
        for node in self.nodes.values():
            node.kill()
        self.place.cleanup()

    def keys_of(self, own):
        return key_texts(own, self.members)

    def genesis(self):
        return {"members": self.members, "faults": self.faults, "opening": self.opening}

    def start(self, own, ports="ports", options=()):
        self.nodes[own] = Node(own, self.place.name, ports, [*self.options, *options])
        return self.nodes[own]

    def kill(self, own):
        self.nodes.pop(own).kill()

    def pay(self, own, order, payee, amount, seq):
        same(self.nodes[own].pay(f"PAY {order} {payee} {amount}"), f"asked {order} seq {seq}", f"payment by {own}")

    def pay_twice(self):
        """Members 0 and 3 of four that open with 100, 0, 0 and 50 pay 30 and 20, and all that run have settled it."""
        self.pay(0, 7, payee=1, amount=30, seq=0)
        self.pay(3, 7, payee=0, amount=20, seq=0)
        self.settle([1, 0, 0, 1], [90, 30, 0, 30])

    def settle(self, front, balances=None):
        """Waits until all that run have settled just this."""
        for own, node in self.nodes.items():
            until(node.front, front, of=f"the front at {own}")
            if balances is not None:
                same(node.balances(), balances, f"the balances at {own}")

    def pay_around(self, orders, at_once=500, paying=None, in_one=1):
        """Has the members below `paying`, or all, pay 1 to the next of them under these ids, which are the seqs, or as
        often in one value; the seconds until all has settled at those that run. So many values of each member are under
        way at once."""
        paying, begun, word = paying or self.members, time.monotonic(), "PAY" if in_one == 1 else "PAYS"
        for first in range(orders.start, orders.stop, at_once):
            some = range(first, min(orders.stop, first + at_once))
            for own in range(paying):
                pairs = in_one * f" {(own + 1) % paying} 1"
                self.nodes[own].write("".join(f"{word} {it}{pairs}\n" for it in some))
            for own in range(paying):
                for it in some:
                    same(self.nodes[own].line(), f"asked {it} seq {it}", f"payment {it} by {own}")
            self.settle(paying * [some.stop * in_one] + (self.members - paying) * [0])
        return time.monotonic() - begun

    def stop(self):
        """Stops all that run, and audits their exports, which are handed back."""
        exports = {}
        for own in list(self.nodes):
            # (a node that fails to stop is still among those that are killed)
            status, output, errors = self.nodes[own].stop()
            same((status, without_lies(errors, self.liars)), (0, ""), f"the end of node {own}")
            exports[own] = json.loads(output)
            same(output, f"{compact(exports[own])}\n", f"the export of node {own}")
            same(exports[own]["member"], own, f"whose export node {own} writes")
        audited(list(exports.values()))
        return exports


def compact(export):
    """An export's only encoding."""
    return json.dumps(export, separators=(",", ":"), sort_keys=True)


def audited(exports):
    """The exports are clean, as the program says and as a look at their lists does."""
    files = {f"export-{place}": export for place, export in enumerate(exports)}
    same(with_files(files, ["audit", *files]), (0, "clean\n", ""), "the audit")
    for owner in range(exports[0]["members"]):
        longest = max((export["lists"][owner] for export in exports), key=len)
        for export in exports:
            values = export["lists"][owner]
            same(values, longest[: len(values)], f"what {export['member']} has of {owner}")


def export_text(own, opening, lists, front, balances):
    """The line of an export of a group with as many liars allowed as may be."""
    members = len(opening)
    export = {"members": members, "faults": (members - 1) // 3, "opening": opening, "member": own}
    return compact({**export, "lists": lists, "front": front, "balances": balances}) + "\n"
