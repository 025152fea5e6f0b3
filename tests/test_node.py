"""Black-box tests of running nodes: real processes, and sockets of the loopback."""

import os
import random
import select
import socket
import subprocess
import tempfile

from models import desks
from payd_tools.frames import ECHO, READY, SEND, WANT, frame, payment
from payd_tools.model import Member
from support.advices import told_plainly
from support.nodes import PATIENCE, Group, export_text, free_ports, in_memory, until, write_json
from support.peers import Hostile, Liar, Strangers, connected, received
from support.runs import (
    GENESIS, SECONDS, TOP, UNWRITTEN, payd, heard, key_texts, of_file, run_to_nobody, same, shows, with_files,
)

OPENING = GENESIS["opening"]
A, B = payment(payee=0, amount=5), payment(payee=1, amount=5)
FRESH = [[], [], [], []]

# How many connections that others dialed stand at a node at once, and what threads it has beside theirs: its desk's,
# that of each reader, and three round them.
MOST_CONNECTIONS = 256
OTHER_THREADS = 10

# ---- a group


def test_a_desk_that_is_polled_keeps_no_more():
    """However often a desk is asked the same while nothing new comes, a node keeps one receipt of each answer."""
    with Group(OPENING) as group:
        group.pay(0, 7, payee=1, amount=30, seq=0)
        group.settle([1, 0, 0, 0], [70, 30, 0, 50])
        node, kept = group.nodes[1], []
        there = ([1, 0, 0, 0], ["entry 0 0 seq 0 to 1 30", "end 0 1"], ["end 0 short 0"])
        for _ in range(2):
            for _ in range(3_000):
                polled = node.front(), node.lines_of("ENTRIES 0 0"), node.lines_of("WAITING 0")
                same(polled, there, "what is polled")
            kept.append(node.status("VmRSS"))
        same(kept[1] - kept[0] < 500, True, f"{kept[0]} kibibytes, and {kept[1]} behind 9,000 polls more")
        group.stop()


def test_groups_of_other_sizes():
    for opening in ([9, 0], [0, 0, 9], [9, 0, 0, 0, 0, 0, 0]):
        payer = opening.index(9)
        with Group(opening) as group:
            group.pay(payer, 1, payee=1 - payer % 2, amount=4, seq=0)
            group.pay(payer, 2, payee=1 - payer % 2, amount=6, seq=1)
            front, balances = [0] * len(opening), list(opening)
            front[payer], balances[payer], balances[1 - payer % 2] = 1, 5, 4
            group.settle(front, balances)
            for node in group.nodes.values():
                until(lambda: node.ask(f"STATE {payer} 1"), f"state {payer} 1 waiting", of=f"node {node.own}")
            group.stop()


def test_random_payments_as_the_model_settles_them():
    seeded = random.Random(4)
    opening = [100, 0, 0, 50]
    model = Member(4, 1, 0, opening)
    asked = [[] for _ in opening]
    with Group(opening) as group:
        for place in range(160):
            own = place % 4
            payee, amount = (own + seeded.randrange(1, 4)) % 4, seeded.randrange(1, 40)
            group.pay(own, place, payee, amount, seq=len(asked[own]))
            asked[own].append(payment(payee, amount))
        entries = model.entry_lists(asked)
        front = model.front(entries)
        group.settle(front, model.balances(entries, front))
        for node in group.nodes.values():
            for owner, place in enumerate(front):
                word = "settled" if place == len(asked[owner]) else "waiting"
                last = len(asked[owner]) - 1
                until(lambda: node.ask(f"STATE {owner} {last}"), f"state {owner} {last} {word}", of=f"node {node.own}")
        exports = group.stop()
    for own, export in exports.items():
        same(export["lists"], [[value.hex() for value in values] for values in asked], f"the lists of {own}")
        same((export["front"], export["balances"]), (front, model.balances(entries, front)), f"the book of {own}")


def test_two_thousand_payments_settle():
    each = 500
    with Group(4 * [each]) as group:
        group.pay_around(range(each))
        group.settle(4 * [each], 4 * [each])
        group.stop()


# ---- the desk of a node


def test_desk_of_a_node_without_peers():
    """It answers as a desk alone, and then writes its export."""
    lines, answers = zip(*desks.EXCHANGE)
    text = "".join(f"{line}\n" for line in lines)
    values = [payment(1, 30).hex(), payment(1, 5).hex(), payment(1, 1).hex(), payment(3, 2**64 - 1).hex()]
    same([line.startswith("PAY") for line in lines].count(True) > len(values), True, "some are refused")
    wanted = "".join(f"{answer}\n" for answer in answers) + export_text(0, OPENING, FRESH, [0, 0, 0, 0], OPENING)
    for given in (text, text[:-1]):
        shows(node_alone(given.encode()), 0, wanted)


def node_alone(text, own=0, genesis=GENESIS, ports=None):
    """A run of a node whose peers are away."""
    members = genesis["members"]
    files = {"g": genesis, "k": {"own": own, "keys": key_texts(own, members)}}
    files["p"] = {"ports": ports or free_ports(members)}
    return in_memory(with_files(files, ["node", "--genesis", "g", "--keys", "k", "--ports", "p"], text))


def test_end_of_input_ends_a_node():
    for own in range(4):
        wanted = export_text(own, OPENING, FRESH, [0, 0, 0, 0], OPENING)
        shows(node_alone(b"", own), 0, wanted, of="no line")
        shows(node_alone(b"\n", own), 0, "refused 1 BadLine\n" + wanted, of="an empty line")
    alone = {"members": 1, "faults": 0, "opening": [7]}
    wanted = f"{desks.ZERO_OR_SELF}\nbalance 0 7\n" + export_text(0, [7], [[]], [0], [7])
    shows(node_alone(b"PAY 1 0 5\nBALANCE 0\n", 0, alone), 0, wanted, of="one alone")


def test_end_of_input_while_others_are_silent():
    """The peers' ports take connections, and nobody answers on them."""
    ports = free_ports(4)
    silent = [socket.create_server(("127.0.0.1", port)) for port in ports[1:]]
    try:
        with Group(OPENING, running=[0], ports=ports) as group:
            group.pay(0, 1, payee=1, amount=30, seq=0)
            for one in silent:
                one.settimeout(PATIENCE)
                one.accept()[0].close()
            exports = group.stop()
        same(exports[0]["lists"], FRESH, "what was delivered")
    finally:
        for one in silent:
            one.close()


def test_devices_of_a_node():
    """On a disk that is full the export is lost: a folder would have it."""
    with Group(OPENING, running=[]) as group:
        words = [payd(), "node", "--genesis", "genesis", "--keys", "keys-0", "--ports", "ports"]
        given = {"cwd": group.place.name, "stderr": subprocess.PIPE, "timeout": SECONDS}
        for text in (b"FRONT\n", b""):
            with open("/dev/full", "wb") as sink:
                done = subprocess.run(words, input=text, stdout=sink, **given)
            was = in_memory((done.returncode, "", told_plainly(done.stderr.decode())))
            same(was, (3, "", "payd: engine 3 Write\n"), f"a full disk, {text}")
        folder = os.open(TOP, os.O_RDONLY)
        done = subprocess.run(words, stdin=folder, stdout=subprocess.PIPE, **given)
        os.close(folder)
        was = in_memory((done.returncode, done.stdout, told_plainly(done.stderr.decode())))
        same(was, (3, b"", "payd: engine 2 Read\n"), "a folder")


# ---- its files and words

# Files of ports that have a fault, for a group of four.
PORTS_FAULTS = {
    "1 BadJson": (
        "", "{", '{"ports":[1,2,3,4]}x', '\ufeff{"ports":[1,2,3,4]}', b'{"ports":[1,2,3,4],"x":"\xff"}',
        '{"ports":[1,2,3,4],"x":' + 200 * "[" + 200 * "]" + "}", '{"ports":[1,2,3,1e999]}',
    ),
    "2 BadShape": (
        "{}", "null", "[1,2,3,4]", {"port": [1, 2, 3, 4]}, *({"ports": it} for it in (None, 4, "1234", {"0": 1}, [])),
        *({"ports": [1, 2, 3, it]} for it in (0, 2**32 + 1, 2**64 - 1, -1, 4.0, "4", None)),
        *({"ports": it} for it in ([1, 2, 3], [1, 2, 3, 4, 5], [0, 2, 3, 4], [1, 2, 65536, 4], [[1], 2, 3, 4])),
        '{"ports":[1,2,3,18446744073709551617]}', '{"ports":[1,2,3,4e0]}', '{"ports":[1,2,3,4],"ports":[1,2,3]}',
    ),
}

NODE = ["node", "--genesis", "g", "--keys", "k", "--ports", "p"]
KEYS = {"own": 0, "keys": key_texts(0)}


def test_each_fault_of_ports():
    for fault, contents in PORTS_FAULTS.items():
        for content in contents:
            was = with_files({"g": GENESIS, "k": KEYS, "p": content}, NODE, b"FRONT\n")
            shows(was, 2, "", of_file(f"ports {fault}", "p"), of=f"{content!r}"[:80])


def test_ports_as_they_may_be_written():
    own, *others = free_ports(4)
    for content in (
        f'\t{{ "x" : {{"ports": 1}}, "ports" :[ {own},\r\n{others[0]}, {others[1]} ,{others[2]}] }} \n',
        f'{{"ports":[],"ports":[{own},{others[0]},{others[1]},{others[2]}]}}',
        {"ports": [own, 1, 1, 65535]},
        # nobody else has a port of one's own, which is no fault of the file
        {"ports": [own, own, own, own]},
    ):
        was = in_memory(with_files({"g": GENESIS, "k": KEYS, "p": content}, NODE, b"FRONT\n"))
        wanted = "front 0 0 0 0\n" + export_text(0, OPENING, FRESH, [0, 0, 0, 0], OPENING)
        shows(was, 0, wanted, of=f"{content!r}")


def test_port_that_is_taken():
    ports = free_ports(4)
    with socket.create_server(("127.0.0.1", ports[2])):
        for own in range(4):
            was = node_alone(b"FRONT\n", own, ports=ports)
            if own == 2:
                shows(was, 3, "", f"payd: port {ports[2]}\n", of="the taken port")
            else:
                same(was[0], 0, f"node {own} has its own")
        # files are judged first
        files = {"g": GENESIS, "k": {"own": 2, "keys": key_texts(2)}, "p": {"ports": [*ports[:3], 0]}}
        was = with_files(files, NODE, b"FRONT\n")
        shows(was, 2, "", of_file("ports 2 BadShape", "p"), of="a fault beside it")
    same(node_alone(b"FRONT\n", 2, ports=ports)[0], 0, "the port, given back")


def test_a_free_port_is_had_whatever_its_number():
    """No clause says so: the fault that names a port may be answered of any."""
    alone = {"members": 1, "faults": 0, "opening": [7]}
    for least in (1024, 9001, 32768, 49152, 65000):
        port = next(it for it in range(least, 65536) if is_free(it))
        wanted = "front 0\n" + export_text(0, [7], [[]], [0], [7])
        shows(node_alone(b"FRONT\n", 0, alone, [port]), 0, wanted, of=f"port {port}")


def is_free(port):
    try:
        socket.create_server(("127.0.0.1", port)).close()
        return True
    except OSError:
        return False


def test_a_node_takes_its_port_again():
    """Also where connections on it were open when it ended."""
    with Group(OPENING) as group:
        for _ in range(3):
            status, _, errors = group.nodes.pop(0).stop()
            same((status, errors), (0, ""), "the end")
            same(group.start(0).front(), [0, 0, 0, 0], "started again")
        group.stop()


def test_only_the_loopback_is_listened_on():
    with Group(OPENING, running=[0]) as group:
        connected(group.ports[0]).close()
        try:
            connected(group.ports[0], "127.0.0.2").close()
            raise AssertionError("another address than 127.0.0.1 is listened on")
        except ConnectionRefusedError:
            pass
        group.stop()


# ---- members that are away or come late


def test_three_go_on_without_the_fourth():
    with Group([1000, 1000, 1000, 1000]) as group:
        for own in range(4):
            group.pay(own, 1, payee=(own + 1) % 4, amount=10, seq=0)
        group.settle([1, 1, 1, 1], 4 * [1000])
        for own in range(4):
            for order in range(2, 52):
                group.pay(own, order, payee=(own + 1) % 4, amount=1, seq=order - 1)
            if own == 2:
                group.kill(2)
        for own in (0, 1, 3):
            group.pay(own, 100, payee=(own + 1) % 4, amount=1, seq=51)
        # how many of its own payments came out before it was killed isn't known
        wanted = [f"state {own} 51 settled" for own in group.nodes]
        for node in group.nodes.values():
            until(lambda: [node.ask(f"STATE {own} 51") for own in group.nodes], wanted, of=f"node {node.own}")
        group.stop()


def test_a_member_that_comes_late_catches_up():
    """A node that lost all that it knew counts among the liars, but follows all the same. Others may hear votes of it
    again."""
    with Group(OPENING, running=[0, 1, 3]) as group:
        group.liars = (2,)
        group.pay(0, 1, payee=1, amount=30, seq=0)
        group.settle([1, 0, 0, 0], [70, 30, 0, 50])
        group.start(2)
        group.pay(1, 1, payee=2, amount=30, seq=0)
        group.settle([1, 1, 0, 0], [70, 0, 30, 50])
        group.kill(2)
        group.pay(3, 1, payee=0, amount=20, seq=0)
        group.start(2)
        group.settle([1, 1, 0, 1], [90, 0, 30, 30])
        group.stop()


# ---- hostile peers


def test_wants_are_answered_one_by_one():
    """A member in Python reads a node's frames, on two connections at once."""
    with Group(OPENING, running=[0]) as group:
        port = group.ports[0]
        with connected(port) as one, connected(port) as other:
            one.sendall(frame(WANT, 3, 0, 0))
            group.pay(0, 1, payee=1, amount=30, seq=0)
            value = payment(1, 30)
            send, echo = frame(SEND, 0, 3, 0, value=value), frame(ECHO, 0, 3, 1, value=value)
            same(received(one), send, "what was wanted before it was sent")
            other.sendall(frame(WANT, 3, 0, 1) + frame(WANT, 3, 0, 0) + frame(WANT, 3, 0, 0))
            same([received(other) for _ in range(3)], [echo, send, send], "the second connection")
            for byte in frame(WANT, 3, 0, 1):
                one.sendall(bytes([byte]))
            same(received(one), echo, "the first connection")
            # one with a wrong tag ends its connection; other wrong ones get no answer, and those after them get theirs
            other.sendall(frame(WANT, 3, 0, 0, key=bytes(32)) + frame(WANT, 3, 0, 0))
            same(received(other), None, "behind a wrong tag")
            wrong = frame(WANT, 3, 1, 0) + frame(SEND, 3, 0, 0, owner=3)
            one.sendall(wrong + frame(WANT, 3, 0, 1) + frame(WANT, 3, 0, 2))
            same(received(one), echo, "behind wrong ones")
            group.pay(0, 2, payee=2, amount=5, seq=1)
            same(received(one), frame(SEND, 0, 3, 2, seq=1, value=payment(2, 5)), "the next payment")
        group.stop()


def test_a_want_that_waits_is_answered_with_each_kind():
    """Member 3, in Python, asks for four frames of a node before it sends them, each on account of something else."""
    value = payment(1, 30)
    first = {0: [[(SEND, 1, 0, A), (ECHO, 0, 0, value)]]}
    with Group(OPENING, running=[0]) as group, connected(group.ports[0]) as waiting:
        waiting.sendall(b"".join(frame(WANT, 3, 0, number) for number in range(4)))
        same(select.select([waiting], [], [], 0.1)[0], [], "answers before there is anything")
        group.pay(0, 1, payee=1, amount=30, seq=0)
        own = [frame(kind, 0, 3, number, value=value) for number, kind in enumerate([SEND, ECHO])]
        same([received(waiting) for _ in own], own, "behind a payment")
        same(select.select([waiting], [], [], 0.1)[0], [], "answers before anybody else spoke")
        with Liar(1, group.ports[1], first):
            same(received(waiting), frame(ECHO, 0, 3, 2, owner=1, value=A), "behind another's payment")
            with Liar(2, group.ports[2], {0: [[(ECHO, 0, 0, value)]]}):
                same(received(waiting), frame(READY, 0, 3, 3, value=value), "behind a quorum of ECHOs")
        group.stop()


def test_hostile_peers_stop_nobody():
    """Member 3 answers those who dial it with all that is out of place, and dials them with more of it."""
    with Group([1000, 1000, 1000, 0], running=[0, 1, 2]) as group, Hostile(3, group.ports[3]) as hostile:
        rounds = iter([range(it, it + 1) for it in range(100)])
        group.pay_around(next(rounds), paying=3)
        threads = {own: node.threads() for own, node in group.nodes.items()}
        files = {own: node.open_files() for own, node in group.nodes.items()}
        for node in group.nodes.values():
            with Strangers(3, node.own, group.ports[node.own]) as strangers:
                strangers.say_all()
                strangers.crowd(100)
                group.pay_around(next(rounds), paying=3)
                strangers.flood(100_000)
                group.pay_around(next(rounds), paying=3)
        until(lambda: hostile.all_met(group.nodes), True, of="all ways were tried")
        group.pay_around(next(rounds), paying=3)
        for own, node in group.nodes.items():
            until(lambda: node.threads() <= threads[own], True, of=f"threads left at {own}")
            # (member 3 may have been dialed just now, and a connection has more than one descriptor)
            until(lambda: node.open_files() <= files[own] + 4, True, of=f"files left open at {own}")
        strangers = [Strangers(3, own, group.ports[own]) for own in group.nodes]
        try:
            for one in strangers:
                one.say_all()
                one.crowd(30)
                one.wait_for_ever(30)
                one.flood(100_000)
            group.stop()
        finally:
            for one in strangers:
                one.__exit__()


def test_strangers_that_came_first_turn_nobody_away():
    """Member 3 takes more connections of member 0 than there may be, before the others dial it."""
    with Group([1000, 1000, 1000, 0], running=[0]) as group:
        node = group.nodes[0]
        with Strangers(3, 0, group.ports[0]) as strangers:
            strangers.crowd(150)
            strangers.wait_for_ever(150)
            for own in (1, 2):
                group.start(own)
            group.pay_around(range(3), paying=3)
            strangers.wait_for_ever(300)
            group.pay_around(range(3, 4), paying=3)
            until(lambda: node.threads() <= MOST_CONNECTIONS + OTHER_THREADS, True, of="threads are bounded")
        group.pay_around(range(4, 5), paying=3)
        group.stop()


def test_a_liar_that_splits_its_votes():
    """Member 3 sends 5 to account 0 to two members and 5 to account 1 to the third; the first of it settles."""
    stories = {
        0: [[(SEND, 3, 0, A), (ECHO, 3, 0, A), (SEND, 3, 1, A)]],
        1: [[(SEND, 3, 0, A), (READY, 3, 0, A), (SEND, 3, 1, B)]],
        2: [[(SEND, 3, 0, B)]],
    }
    with Group(OPENING, running=[0, 1, 2]) as group, Liar(3, group.ports[3], stories) as liar:
        until(liar.all_taken, True, of="the liar was heard")
        group.pay(0, 1, payee=1, amount=30, seq=0)
        group.settle([1, 0, 0, 1], [75, 30, 0, 45])
        group.pay(1, 1, payee=2, amount=10, seq=0)
        group.settle([1, 1, 0, 1], [75, 20, 10, 45])
        for node in group.nodes.values():
            same(node.ask("STATE 3 1"), "state 3 1 unknown", f"the second payment, at {node.own}")
        exports = group.stop()
    for own, export in exports.items():
        same(export["lists"][3], [A.hex()], f"the liar's payments at {own}")


def test_void_and_uncovered_payments_at_a_desk():
    """Member 3, in Python, sends a value that is none and 5 to account 0; member 0 pays more than it has, and less."""
    told = [(SEND, 3, 0, b"\xff"), (SEND, 3, 1, A)]
    with Group(OPENING, running=[0, 1, 2]) as group, Liar(3, group.ports[3], {own: [told] for own in range(3)}):
        group.settle([0, 0, 0, 2], [105, 0, 0, 45])
        group.pay(1, 1, payee=2, amount=10, seq=0)
        group.pay(0, 1, payee=1, amount=30, seq=0)
        group.pay(0, 2, payee=2, amount=500, seq=1)
        group.settle([1, 1, 0, 2], [75, 20, 10, 45])
        wanted = [
            ["out 0 to 1 30", "in 3 1 5", "end 0 balance 75"],
            ["out 0 to 2 10", "in 0 0 30", "end 1 balance 20"],
            ["in 1 0 10", "end 2 balance 10"],
            ["void 0", "out 1 to 0 5", "end 3 balance 45"],
        ]
        for own, node in group.nodes.items():
            same([node.statement(account) for account in range(4)], wanted, f"the statements at {own}")
            for owner, seq, state in ((0, 0, "settled"), (0, 1, "waiting"), (0, 2, "unknown"), (3, 0, "settled")):
                until(lambda: node.ask(f"STATE {owner} {seq}"), f"state {owner} {seq} {state}", of=f"at {own}")
            entries = ["entry 3 0 seq 0 void", "entry 3 1 seq 1 to 0 5", "end 3 2"]
            same(node.lines_of("ENTRIES 3 0"), entries, f"the entries of member 3 at {own}")
            waiting = ["waiting 0 1 seq 1 to 2 500", "end 0 short 425"]
            same(node.lines_of("WAITING 0"), waiting, f"what waits of member 0 at {own}")
        group.stop()


def test_liars_of_many_minds():
    """Random votes for two payments, another story to each, on several connections; at the end of some a lie."""
    for seed in range(4):
        seeded = random.Random(seed)
        told = {peer: random_story(seeded, 60) for peer in range(3)}
        if seed % 2:
            told = {peer: [*story, seeded.choice(story), *story] for peer, story in told.items()}
        stories = {peer: [story[:20], story[:40], story] for peer, story in told.items()}
        with Group([100, 100, 100, 100], running=[0, 1, 2]) as group, Liar(3, group.ports[3], stories) as liar:
            group.liars = (3,)
            for order in range(10):
                for own in range(3):
                    group.pay(own, order, payee=(own + 1) % 3, amount=1, seq=order)
            until(lambda: seed % 2 or liar.all_taken(), True, of="the liar was heard")
            for node in group.nodes.values():
                until(lambda: [peer for peer, _ in node.lies()], seed % 2 * [3], of=f"lies at {node.own}, liar {seed}")
                until(lambda: node.front()[:3], [10, 10, 10], of=f"honest payments at {node.own}, liar {seed}")
            group.stop()


def random_story(seeded, size):
    """Votes of member 3 for one of two payments of its own, and against payments of the others, each of which one
    member may be told."""
    votes = [(kind, 3, seq) for kind in (SEND, ECHO, READY) for seq in range(12)]
    votes += [(kind, owner, seq) for kind in (ECHO, READY) for owner in range(3) for seq in range(12)]
    return [(*it, seeded.choice([A, B])) for it in seeded.sample(votes, size)]


# ---- the example


FOUR_NODES = os.path.join(TOP, "examples", "four-nodes")


def example(*words):
    done = subprocess.run([FOUR_NODES, *words], capture_output=True, timeout=SECONDS)
    return done.returncode, done.stdout.decode(), heard(done.stderr.decode())


def test_example_of_four_nodes():
    ports = free_ports(4)
    with tempfile.TemporaryDirectory() as folder:
        write_json(folder, "ports", {"ports": ports})
        name = os.path.join(folder, "ports")
        shows(example(name), 0, EXAMPLE)
        with socket.create_server(("127.0.0.1", ports[2])):
            status, output, errors = example(name)
            same((status, output), (1, ""), "a port that is taken")
            same(f"port {ports[2]} is taken" in errors, True, f"{errors!r} says which port")


def test_example_of_four_nodes_to_nobody(folder):
    write_json(folder, "ports", {"ports": free_ports(4)})
    words = [FOUR_NODES, os.path.join(folder, "ports")]
    for (status, errors), why in zip(run_to_nobody(words), UNWRITTEN):
        same((status, heard(errors)), (1, f"examples/four-nodes: {why}\n"), "four nodes to nobody")


EXAMPLE = """\
0 pays 30 to 1: asked 1 seq 0
3 pays 20 to 0: asked 1 seq 0
node 0: front 1 0 0 1, balances 90 30 0 30
node 1: front 1 0 0 1, balances 90 30 0 30
node 2: front 1 0 0 1, balances 90 30 0 30
node 3: front 1 0 0 1, balances 90 30 0 30
audit of their exports: clean
"""
