"""Black-box tests of the socket of a node's desk, and of `payd send`."""

import os
import select
import signal
import socket
import stat
import shutil
import subprocess
import tempfile
import threading
import time

import pytest

from models import desks
from support.clients import Client, socket_of
from support.nodes import PATIENCE, Group, Node, until
from support.restarts import Folders
from support.runs import TOP, UNWRITTEN, call, run_to_nobody, same, shows

OPENING = [100, 0, 0, 50]
SEND = os.path.join(TOP, "tools", "send")
# How many clients a node answers at once, and how long nothing may come from one that waits.
MOST_CLIENTS, WAITS = 16, 0.3


def send(group, own, *lines, stream=b""):
    return call([SEND, "--data", os.path.dirname(socket_of(group, own)), *lines], stream)


# ---- the socket


def test_socket_is_its_owners():
    with Folders(OPENING) as group:
        about = os.stat(socket_of(group, 0))
        same((stat.S_ISSOCK(about.st_mode), stat.S_IMODE(about.st_mode)), (True, 0o600), "the socket's mode")
        path = socket_of(group, 0)
        group.end(0)
        same(os.path.exists(path), False, "whether it stays behind a node that ended")


def test_each_client_has_its_own_answers():
    """Two clients and the input give lines in pieces and at once; each has the answers to its own, in order."""
    with Folders(OPENING) as group:
        one, two = Client(socket_of(group, 0)), Client(socket_of(group, 0))
        one.write("PAY 1 1 30\nBALANCE ")
        same(one.line(), "asked 1 seq 0", "the first")
        two.write("PAYS 2 1 1 2 2\nFRO")
        same(two.line(), "asked 2 seq 1", "the second")
        same(group.nodes[0].ask("PAY 3 3 4"), "asked 3 seq 2", "the input")
        # an id is one payment, whoever gives it
        for client in (one, two):
            same(client.is_silent(0), True, "what comes for half a line")
        one.write("3\nPAY 2 1 1\nPAYS 2 1 1 2 2\n")
        # the payment of 4 may have settled by now
        same(one.line() in ("balance 3 50", "balance 3 54"), True, "the balance")
        same([one.line() for _ in range(2)], ["refused 4 IdUsed", "asked 2 seq 1"], "other's ids")
        same(group.nodes[0].ask("PAY 1 1 30"), "asked 1 seq 0", "the input, of a client's id")
        group.settle([4, 0, 0, 0])
        two.write("NT\nSTATEMENT 2\nENTRIES 0 3\nFLY\nWAITING 0\n")
        wanted = "front 4 0 0 0\nin 0 1 2\nend 2 balance 2\nentry 0 3 seq 2 to 3 4\nend 0 4\nrefused 1 BadLine\n"
        same(two.rest(), f"{wanted}end 0 short 0\n", "all answers behind the end of what is sent")
        same(one.rest(), "", "what comes behind the last answer")
        group.stop()


def test_half_a_line_is_no_line():
    """What comes behind the last line feed of a connection is dropped, however it ends: nobody pays by half a line."""
    with Folders(OPENING) as group:
        one, two = Client(socket_of(group, 0)), Client(socket_of(group, 0))
        one.write("BALANCE 0\nPAY 7 1 3")
        same(one.rest(), "balance 0 100\n", "what is answered before its end")
        two.write("PAY 7 1 3")
        two.close()
        three = Client(socket_of(group, 0))
        same(three.ask("PAY 7 1 30"), "asked 7 seq 0", "the whole line")
        three.write("FRONT\n")
        same(three.rest(), "front 0 0 0 0\n", "lines with their ends")


def test_clients_lines_are_those_of_a_desk():
    """The exchanges of the desk's model, which meets no peer either; and lines that are none."""
    for rows in (desks.EXCHANGE, desks.WAITING, desks.NOTES):
        with Folders(OPENING, running=[0], options=["--dials", "1"]) as group:
            client = Client(socket_of(group, 0))
            client.stream.sendall("".join(f"{line}\n" for line, _ in rows).encode("latin-1"))
            answers = "".join(f"{answer}\n" for _, answer in rows).encode("latin-1").decode()
            same(client.rest(), answers, "the exchange at once")
    with Folders(OPENING, running=[0]) as group:
        client = Client(socket_of(group, 0))
        for line in (b"", b" ", b"\xff", b"FRONT\r", b"\0", b"FRONT " + 2000 * b"9", 1025 * b"9"):
            client.stream.sendall(line + b"\n")
            same(client.line(), "refused 1 BadLine", f"{line[:20]!r}")
        client.stream.sendall(b"9" * (1 << 20))
        same(client.ask("\nFRONT").split(" ")[0], "refused", "the end of a line of a megabyte")
        same(client.line(), "front 0 0 0 0", "the line behind it")


def test_sixteen_clients_at_once():
    """One more waits until another leaves, or has been idle for a second: then the longest idle one makes place."""
    with Folders(OPENING) as group:
        clients = [Client(socket_of(group, 0)) for _ in range(MOST_CLIENTS)]
        for client in clients:
            same(client.ask("FRONT"), "front 0 0 0 0", "a client")
        late = [Client(socket_of(group, 0)) for _ in range(3)]
        for client in late:
            client.write("BALANCE 0\n")
        same([client.is_silent(WAITS) for client in late], [True] * 3, "whether those that are late wait")
        clients[0].close()
        same(late[0].line(), "balance 0 100", "one for which another left")
        same(clients[1].ask("BALANCE 3"), "balance 3 50", "the one that was idle longest till then")
        for client, gone in zip(late[1:], clients[2:]):
            same(client.line(), "balance 0 100", "one for which another made place")
            same(gone.is_ended(), True, "the one that was idle longest")
        for client in (clients[1], *clients[4:], *late):
            same(client.ask("FRONT"), "front 0 0 0 0", "all that are left")


def test_clients_that_hang_harm_nobody():
    """One takes no answers, one leaves half a line, and some go away in the midst of an answer."""
    with Folders(OPENING) as group:
        path = socket_of(group, 0)
        hangs, half = Client(path), Client(path)
        hangs.stream.setblocking(False)
        written = 0
        try:
            while True:
                written += hangs.stream.send(b"STATEMENT 3\n" * 1000)
        except BlockingIOError:
            same(written > 0, True, "what the node took")
        half.write("PAY 1000 1 ")
        for _ in range(20):
            gone = Client(path)
            gone.write("STATEMENT 3\n" * 1000)
            gone.close()
        node, client = group.nodes[0], Client(path)
        for order in range(100):
            same(client.ask(f"PAY {order} 1 1"), f"asked {order} seq {order}", "another client's payment")
        same(node.ask("PAY 0 1 1"), "asked 0 seq 0", "the input")
        group.settle([100, 0, 0, 0], [0, 100, 0, 50])
        half.write("7\n")
        same(half.line(), "asked 1000 seq 100", "the other half")
        until(lambda: node.threads() <= 30, True, of="the threads that are left")
        hangs.close()
        group.stop()


def test_clients_pay_at_once():
    """Each payment stands once, under the number that its client was told."""
    count = 300
    with Folders([10**6, 0, 0, 0]) as group:
        told, faults = {}, []

        def pay(first):
            try:
                client = Client(socket_of(group, 0))
                for order in range(first, first + count):
                    words = client.ask(f"PAY {order} 1 {order + 1}").split(" ")
                    same(words[:2], ["asked", f"{order}"], "an answer")
                    told[int(words[3])] = order + 1
            except (AssertionError, OSError) as fault:
                faults.append(fault)

        threads = [threading.Thread(target=pay, args=(first,)) for first in (0, count, 2 * count)]
        for thread in threads:
            thread.start()
        for thread in threads:
            thread.join()
        same((faults, sorted(told)), ([], [*range(3 * count)]), "numbers that were told")
        group.settle([3 * count, 0, 0, 0])
        entries = [f"entry 0 {seq} seq {seq} to 1 {told[seq]}" for seq in range(3 * count)]
        same(group.nodes[1].lines_of("ENTRIES 0 0"), [*entries, f"end 0 {3 * count}"], "the payments")
        group.stop()


# ---- its node


def test_socket_of_a_killed_node_makes_way():
    """What a client was told stands after the kill; a socket behind which a node runs stays that node's."""
    with Folders(OPENING) as group:
        client = Client(socket_of(group, 0))
        same(client.ask("PAY 7 1 30"), "asked 7 seq 0", "a payment")
        group.kill(0)
        same(client.rest(), "", "what a killed node says")
        same(os.path.exists(socket_of(group, 0)), True, "whether the socket stays")
        group.start(0)
        group.nodes[0].front()
        client = Client(socket_of(group, 0))
        same(client.ask("PAY 7 1 30"), "asked 7 seq 0", "the payment again")
        other = Node(0, group.place.name, options=["--data", "data-0"])
        same(other.end(), (3, "", "payd: log 2 Held\n"), "another node of the folder")
        same(client.ask("FRONT").split(" ")[0], "front", "the first node")
        same(Client(socket_of(group, 0)).ask("BALANCE 3"), "balance 3 50", "its socket")


def test_socket_elsewhere():
    """By --socket, with a folder and without; one of another node, and what is no socket, stay as they are."""
    with Folders(OPENING, running=[]) as group, tempfile.TemporaryDirectory() as folder:
        path, taken = os.path.join(folder, "socket"), os.path.join(folder, "taken")
        group.start(0, options=["--socket", path])
        same(group.nodes[0].front(), [0, 0, 0, 0], "the input")
        same(os.path.exists(socket_of(group, 0)), False, "whether there is one in the folder too")
        group.nodes[0].meets(group.least)
        same(Client(path).ask("PAY 7 1 30"), "asked 7 seq 0", "a client")
        with open(taken, "w", encoding="ascii") as file:
            file.write("a file")
        for name in (path, taken, os.path.join(folder, "none", "socket")):
            node = Node(1, group.place.name, options=["--socket", name])
            status, output, errors = node.end()
            same((status, output, f"payd: socket {name}\n" in errors), (3, "", True), f"a node on {name}: {errors}")
        with open(taken, encoding="ascii") as file:
            same(file.read(), "a file", "the file")
        same(Client(path).ask("PAY 7 1 30"), "asked 7 seq 0", "the first node's")


def test_socket_is_never_open_to_others():
    """From when it is there, under a mask that takes nothing away, and in a folder that others may enter."""
    with Folders(OPENING, running=[]) as group, tempfile.TemporaryDirectory() as folder:
        os.chmod(folder, 0o755)
        path, seen = os.path.join(folder, "socket"), set()
        for _ in range(10):
            prefix = ["sh", "-c", 'umask 0; exec "$@"', "sh"]
            node = Node(0, group.place.name, options=["--socket", path], prefix=prefix)
            while not seen or 0 in seen:
                seen.discard(0)
                seen.add(stat.S_IMODE(os.lstat(path).st_mode) if os.path.lexists(path) else 0)
            # (the folder in which it was made stands for a moment)
            until(lambda: os.listdir(folder), ["socket"], of="what else is in the folder")
            node.kill()
            os.remove(path)
            same(seen, {0o600}, "modes of the socket")
            seen.clear()


def test_half_made_socket_makes_way():
    """What a kill leaves of a start: the folder in which a socket is made."""
    with Folders(OPENING, running=[]) as group, tempfile.TemporaryDirectory() as folder:
        path = os.path.join(folder, "socket")
        os.mkdir(f"{path}.new")
        with socket.socket(socket.AF_UNIX) as left:
            left.bind(os.path.join(f"{path}.new", "s"))
        group.start(0, options=["--socket", path])
        same(group.nodes[0].front(), [0, 0, 0, 0], "a node")
        same(Client(path).ask("BALANCE 3"), "balance 3 50", "a client")
        same(os.listdir(folder), ["socket"], "what is in the folder")
        # a folder of somebody's that isn't empty stays, and the node names it
        group.kill(0)
        os.mkdir(f"{path}.new")
        with open(os.path.join(f"{path}.new", "file"), "wb"):
            node = Node(0, group.place.name, options=["--socket", path])
        status, output, errors = node.end()
        same((status, output, f"payd: socket {path}.new\n" in errors), (3, "", True), f"the node: {errors}")
        same(os.listdir(f"{path}.new"), ["file"], "what is in that folder")


def test_socket_with_a_long_name():
    """One of 101 bytes works; a longer one is refused before anything is made."""
    with Group(OPENING, running=[]) as group, tempfile.TemporaryDirectory() as folder:
        longest, longer = "d" * (101 - len("/desk")), "d" * (102 - len("/desk"))
        node = group.start(0, options=["--data", longest])
        same(node.front(), [0, 0, 0, 0], "a node in the longest folder")
        said = f"payd: socket {longer}/desk: more than 101 bytes; --socket gives it a shorter name\n"
        shows(Node(1, group.place.name, options=["--data", longer]).end(), 2, "", said, of="a node in a longer one")
        same(os.path.exists(os.path.join(group.place.name, longer)), False, "whether that folder is made")
        path = os.path.join(folder, "socket")
        started = group.start(1, options=["--data", longer, "--socket", path])
        same(started.front(), [0, 0, 0, 0], "the same, by --socket")
        same(Client(path).ask("BALANCE 3"), "balance 3 50", "its client")


def test_node_that_stays_is_asked_on_its_socket():
    with Folders(OPENING, running=[]) as group:
        node = group.start(0, options=["--stay"])
        node.end_input()
        until(lambda: os.path.exists(socket_of(group, 0)), True, of="the socket")
        node.meets(group.least)
        client = Client(socket_of(group, 0))
        same(client.ask("PAY 1 1 30"), "asked 1 seq 0", "a client")
        same(send(group, 0, "STATE 0 0")[:2], (0, "state 0 0 asked\n"), "another")


def test_end_of_the_input_ends_clients():
    """Without --stay. What each was told is in the history, against which the node holds it, and in the export."""
    with Folders(OPENING, running=[0]) as group:
        clients = [Client(socket_of(group, 0)) for _ in range(3)]
        for order, client in enumerate(clients):
            same(client.ask(f"PAY {order} 1 1"), f"asked {order} seq {order}", "a payment")
        status, _, errors = group.end(0)
        same((status, errors), (0, ""), "the node's end")
        for client in clients:
            same(client.stream.recv(1), b"", "what a client has then")


# ---- payd send


def test_sent_lines_are_answered():
    with Folders(OPENING) as group:
        shows(send(group, 0, "PAY 7 1 30", "PAY 7 1 30"), 0, "asked 7 seq 0\nasked 7 seq 0\n", of="words")
        group.settle([1, 0, 0, 0])
        lines = b"STATEMENT 1\nBALANCE 1\nENTRIES 0 0\nWAITING 0\n"
        wanted = "in 0 0 30\nend 1 balance 30\nbalance 1 30\nentry 0 0 seq 0 to 1 30\nend 0 1\nend 0 short 0\n"
        shows(send(group, 0, stream=lines), 0, wanted, of="lines of the input")
        shows(send(group, 0, stream=b"FRONT"), 0, "front 1 0 0 0\n", of="a line without its end")
        shows(send(group, 0), 0, "", of="no line")
        shows(send(group, 0, "FRONT", stream=b"BALANCE 0\n"), 0, "front 1 0 0 0\n", of="words, and not the input")
        wanted, said = "balance 0 70\nrefused 2 NoAccount\nbalance 1 30\n", "payd send: refused line 2: 2 NoAccount\n"
        shows(send(group, 0, "BALANCE 0", "BALANCE 4", "BALANCE 1"), 1, wanted, said, of="a line that is refused")
        said = "payd send: refused line 1: 1 BadLine\n"
        shows(send(group, 0, "FLY"), 1, "refused 1 BadLine\n", said, of="no command")
        path = socket_of(group, 0)
        shows(call([SEND, "--socket", path, "FRONT"]), 0, "front 1 0 0 0\n", of="by the socket")
        many = "".join(f"PAY {it} 1 0\n" for it in range(1000, 21_000))
        status, output, errors = send(group, 0, stream=many.encode())
        same((status, output), (1, "refused 3 ZeroOrSelf\n" * 20_000), "many lines")
        said = "".join(f"payd send: refused {it}: 3 ZeroOrSelf\n" for it in range(1000, 21_000))
        same(errors, said, "which are refused")


def test_send_names_what_is_refused():
    """A payment by its id, and another line by its number; also behind answers of many lines, and without its end."""
    with Folders(OPENING) as group:
        last, most = 2**64 - 1, 2**64
        rows = [
            ("PAY 7 1 30", "asked 7 seq 0", None),
            ("PAY 7 1 31", "refused 4 IdUsed", "7"),
            (f"PAYS {last} 9 1 1 2", "refused 2 NoAccount", f"{last}"),
            (f"PAY {most} 1 1", "refused 1 BadLine", f"{most}"),
            ("STATEMENT 3", "end 3 balance 50", None),
            ("", "refused 1 BadLine", "line 6"),
            ("PAY 8", "refused 1 BadLine", "8"),
            (f"PAY 9 {'1' * 2000}", "refused 1 BadLine", "9"),
            ("STATE 5 0", "refused 2 NoAccount", "line 9"),
            ("NOTE 7 order 17", "refused 4 IdUsed", "line 10"),
            ("NOTE 11 grüße", "asked 11 seq 1", None),
            ("PAY 10 1 0", "refused 3 ZeroOrSelf", "10"),
        ]
        output = "".join(f"{answer}\n" for _, answer, _ in rows)
        refusals = [(name, answer.partition(" ")[2]) for _, answer, name in rows if name]
        said = "".join(f"payd send: refused {name}: {why}\n" for name, why in refusals)
        stream = "\n".join(line for line, _, _ in rows).encode()
        shows(send(group, 0, stream=stream), 1, output, said, of="lines of the input")
        shows(send(group, 0, *(line for line, _, _ in rows)), 1, output, said, of="words")


def test_send_without_a_node():
    with tempfile.TemporaryDirectory() as folder:
        path = os.path.join(folder, "desk")

        def meets_nobody(why, *words):
            said = f"payd send: nobody listens at {path} ({why}); a line may be given again, for its ID pays once\n"
            shows(call([SEND, *words]), 3, "", said, of=f"{why}: {words}")

        meets_nobody("No such file or directory", "--data", folder, "FRONT")
        with open(path, "wb"):
            meets_nobody("Connection refused", "--data", folder, "FRONT")
        os.remove(path)
        with socket.socket(socket.AF_UNIX) as closed:
            closed.bind(path)
        meets_nobody("Connection refused", "--socket", path, "FRONT")
        meets_nobody("Connection refused", "--socket", path)
    for words in (["--data", "x", "--socket", "y", "FRONT"], ["--data"], ["--data", "x", "--fly"]):
        same(call([SEND, *words])[:2], (2, ""), f"{words}")


def length_of_a_call(silent):
    """How long somebody stays who calls on a socket on which nobody answers."""
    silent.settimeout(PATIENCE)
    stream, _ = silent.accept()
    began = time.monotonic()
    with stream:
        # (where nothing is asked for it returns once both ways are shut, not at the end of the lines)
        ended = select.poll()
        ended.register(stream, 0)
        ended.poll(1000 * PATIENCE)
        return time.monotonic() - began


def test_send_that_nobody_answers():
    """A line without an answer ends it once the time is over; without a line there is nothing to wait for."""
    with tempfile.TemporaryDirectory() as folder, socket.socket(socket.AF_UNIX) as silent:
        path = os.path.join(folder, "desk")
        silent.bind(path)
        silent.listen(1)
        for seconds in (1, 3):
            calls = []
            caller = threading.Thread(target=lambda: calls.append(length_of_a_call(silent)))
            caller.start()
            began = time.monotonic()
            was = call([SEND, "--socket", path, "--timeout", f"{seconds}", "FRONT"])
            waited = time.monotonic() - began
            caller.join()
            said = f"payd send: the node at {path} doesn't answer (timed out)"
            shows(was, 3, "", f"{said}; a line may be given again, for its ID pays once\n")
            # (the call has no part in how long the program takes to begin and to end)
            same((seconds <= waited, calls[0] < seconds + 4), (True, True), f"{seconds} s: {waited}, {calls}")
        for word in ("0", "86401", "-1", "1s", ""):
            same(call([SEND, "--socket", path, f"--timeout={word}", "FRONT"])[:2], (2, ""), f"timeout {word!r}")


def test_line_feed_in_a_word():
    """It would be a line of its own, and might pay."""
    with Folders(OPENING, running=[0]) as group:
        for line in ("PAY 1 1 5\nPAY 2 2 95", "FRONT\n", "FRONT\r", "FR\x7fONT", "\x1bFRONT"):
            same(send(group, 0, "FRONT", line)[:2], (2, ""), repr(line))
        shows(send(group, 0, "STATE 0 0"), 0, "state 0 0 unknown\n", of="no payment was sent")


def test_another_users_socket():
    if os.getuid() != 0:
        pytest.skip("only root can be another user")
    with tempfile.TemporaryDirectory() as folder, socket.socket(socket.AF_UNIX) as barred:
        path = os.path.join(folder, "desk")
        os.chmod(folder, 0o755)
        barred.bind(path)
        barred.listen(1)
        os.chmod(path, 0o600)
        shutil.copy(os.path.join(TOP, "tools", "send"), folder)
        shutil.copytree(os.path.join(TOP, "tools", "payd_tools"), os.path.join(folder, "payd_tools"))
        status, output, errors = call([os.path.join(folder, "send"), "--socket", path, "FRONT"], user=65534)
        same((status, output, f"{path} (Permission denied)" in errors), (3, "", True), errors)


def stop(node):
    """Has a node stand still."""
    node.child.send_signal(signal.SIGSTOP)
    with open(f"/proc/{node.child.pid}/stat", encoding="ascii") as state:
        until(lambda: (state.seek(0), state.read().rpartition(") ")[2][0])[1], "T", of="the node's state")


def test_send_to_a_node_that_ends():
    with Folders(OPENING, running=[0]) as group:
        words = [SEND, "--data", os.path.dirname(socket_of(group, 0))]
        how = {"stdin": subprocess.PIPE, "stdout": subprocess.PIPE, "stderr": subprocess.PIPE, "bufsize": 0}
        with subprocess.Popen(words, **how) as child:
            child.stdin.write(b"PAY 7 1 30\n")
            same(child.stdout.readline(), b"asked 7 seq 0\n", "an answer, before the input ends")
            stop(group.nodes[0])
            child.stdin.write(b"FRONT\n")
            child.stdin.close()
            child.stdin = None
            group.kill(0)
            output, errors = child.communicate(timeout=PATIENCE)
        same((child.returncode, output), (3, b""), "the end")
        same("a line may be given again, for its ID pays once" in errors.decode(), True, f"what is said: {errors}")


def test_sent_answers_to_nobody():
    with Folders(OPENING, running=[0]) as group:
        words = [SEND, "--data", os.path.dirname(socket_of(group, 0)), "FRONT"]
        for (status, errors), why in zip(run_to_nobody(words), UNWRITTEN):
            same((status, why in errors), (3, True), f"answers that can't be written: {errors}")
