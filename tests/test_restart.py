"""Black-box tests of nodes whose members live in folders: killed at any moment, and started again with the same words.

What a log has to have is written down in tools/payd_tools/logs.py. tests/kills kills more often, and damages each bit.
"""

import contextlib
import hashlib
import os
import random
import re
import resource
import shutil
import signal
import struct
import subprocess
from collections import Counter

import pytest

from payd_tools.frames import SEND, payment
from payd_tools.logs import HEADER_LEN, VERSION, Log
from support.advices import told_plainly
from support.clients import Client
from support.damaged_logs import OPENING, bits, cuts, export, made_folder
from support.nodes import (
    EARLY, IN_MEMORY, export_text, fed, free_ports, met, new_words, told_apart, until, write_json, write_member,
)
from support.ordering import Order, OutOfOrder, noted
from support.peers import Claimants, Liar, Strangers, connected, received
from support.restarts import NEW, Folders, killed_and_started_again, told
from support.runs import GENESIS, SECONDS, call, key_texts, payd, read_bytes, read_text, same, shows, with_files

FRESH = [[], [], [], []]
# what a folder has after a clean end
ENDED = ["ended", "group.json", "keys.json", "log"]
DISK, HELD = "payd: log 1 Disk\n", "payd: log 2 Held\n"
CHANGED = "payd: log 6 Changed\npayd: the log ended cleanly and isn't whole any more: put that very log back, and "
CHANGED += "never an older one\n"
MISSING = "payd: log 8 Missing\npayd: there is no log in this folder: --new makes a member there, but one that had a "
MISSING += "log needs that very log, which may be on a disk that isn't mounted\n"
EXISTS = "payd: log 9 Exists\npayd: there is or was a log in this folder: without --new its member goes on where it "
EXISTS += "was\n"
UNWRITTEN = "payd: engine 3 Write\n"
REFUSED = re.compile("payd: (log|engine|genesis|keys|ports|close) 0 Memory\n|error: .*memory.*\n", re.DOTALL)

# ---- killed and started again


def test_members_of_four_are_killed():
    payments, starts = killed_and_started_again(4, kills=60, seed=1)
    print(f"{payments} payments, {starts} starts behind a kill")


def test_members_of_seven_are_killed():
    payments, starts = killed_and_started_again(7, kills=40, seed=2)
    print(f"{payments} payments, {starts} starts behind a kill")


def test_a_member_goes_on_where_it_was():
    """Its own payments, those of others, and what the export says; a line given again has its old answer."""
    with Folders(OPENING) as group:
        group.pay_twice()
        for own in range(4):
            group.kill(own)
        for own in range(4):
            group.start(own)
        same(group.nodes[0].ask("PAY 7 1 30"), "asked 7 seq 0", "the line given again")
        same(group.nodes[0].ask("PAY 7 1 31"), "refused 4 IdUsed", "the id with another amount")
        group.settle([1, 0, 0, 1], [90, 30, 0, 30])
        group.pay(0, 8, payee=2, amount=5, seq=1)
        group.settle([2, 0, 0, 1], [85, 30, 5, 30])
        same(group.nodes[1].statement(0), ["out 0 to 1 30", "out 1 to 2 5", "in 3 0 20", "end 0 balance 85"], "it")
        exports = group.stop()
        lists = [[payment(1, 30).hex(), payment(2, 5).hex()], [], [], [payment(0, 20).hex()]]
        for own, text in exports.items():
            same(text, export_text(own, OPENING, lists, [2, 0, 0, 1], [85, 30, 5, 30]), f"the export of {own}")
            shows(export(group.place.name, own), 0, text, of=f"the export of the folder of {own}")


def test_a_node_says_what_its_log_has():
    with Folders(OPENING, running=[0]) as group:
        for line in ("PAY 7 1 30", "PAY 8 1 30", "FRONT", "BALANCE 2"):
            group.nodes[0].ask(line)
        same(group.nodes[0].stop()[2], NEW, "a new folder")
        entries = len(Log(GENESIS, 0).records(group.log(0)))
        same(entries >= 2, True, f"{entries} entries of two payments")
        group.start(0)
        said = group.nodes[0].stop()
        again = f"payd: log: {entries} entries of 0 payments, started again\n"
        same((said[0], said[2]), (0, again), "the folder again")


def test_a_node_says_who_it_is_and_that_it_is_in_memory_alone():
    with Folders(OPENING, running=[], claiming=[]) as group:
        words = ["node", "--genesis", "genesis", "--keys", "keys-0", "--ports", "ports"]
        how = {"input": b"", "cwd": group.place.name, "capture_output": True, "timeout": SECONDS}
        done = subprocess.run([payd(), *words], **how)
        digest = hashlib.sha256(struct.pack(">HH4Q", 4, 1, *OPENING)).hexdigest()
        line = f"payd: member 0 of 4, genesis {digest[:8]}, port {group.ports[0]}\n"
        same((done.returncode, done.stderr.decode()), (0, line + IN_MEMORY), "it")
        same(sorted(os.listdir(group.place.name)), ["genesis", *(f"keys-{own}" for own in range(4)), "ports"], "files")


def test_a_node_stays():
    """At the end of its lines, with a folder, until it is killed; without one it can't."""
    with Folders(OPENING, running=[]) as group:
        for own in range(4):
            group.start(own, options=["--stay"] if own == 3 else [])
        group.pay(3, 1, payee=0, amount=20, seq=0)
        group.nodes[3].child.stdin.close()
        group.pay(0, 1, payee=1, amount=110, seq=0)
        for own in range(3):
            until(group.nodes[own].front, [1, 0, 0, 1], of=f"the front at {own}")
        same(group.nodes[3].child.poll(), None, "the status of a node that stays")
        group.nodes[3].child.stdin = None
        group.kill(3)
        group.start(3)
        group.settle([1, 0, 0, 1], [10, 110, 0, 30])
        group.stop()
    files = {"g": GENESIS, "k": {"own": 0, "keys": key_texts(0)}, "p": {"ports": free_ports(4)}}
    words = ["node", "--genesis", "g", "--keys", "k", "--ports", "p", "--stay"]
    shows(with_files(files, words), 2, "", "payd: stay: only with --data\n")


# ---- folders


# By how many claims of peers a node of four may pay.
CLAIMS = 2


def running(place, words, **how):
    """A node's process."""
    pipe = subprocess.PIPE
    how = {"cwd": place, "stdin": pipe, "stdout": pipe, "stderr": pipe, "bufsize": 0, **how}
    return subprocess.Popen([payd(), "node", *words], **how)


def node_on(place, own, folder, text=b"", flags=None, **how):
    """What a node among claimants does with a folder, in which its member is made if there is none."""
    words = ["--genesis", "genesis", "--keys", f"keys-{own}", "--ports", "ports", "--data", folder]
    words += new_words(place, words) if flags is None else flags
    with running(place, words, **how) as child:
        output, errors = fed(child, text, CLAIMS if text else 0)
    return child.returncode, output, told_apart(errors)[1]


def test_one_node_has_a_folder():
    with Folders(OPENING, running=[0]) as group:
        group.pay(0, 7, payee=1, amount=30, seq=0)
        shows(node_on(group.place.name, 0, "data-0"), 3, "", HELD, of="another node")
        group.pay(0, 8, payee=1, amount=30, seq=1)
        linked = os.path.join(group.place.name, "linked")
        os.mkdir(linked, 0o700)
        os.link(os.path.join(group.place.name, "data-0", "log"), os.path.join(linked, "log"))
        shows(node_on(group.place.name, 0, "linked"), 3, "", HELD, of="another node, by another name of the log")
        group.kill(0)


OTHER_VERSIONS = 0, VERSION - 1, VERSION + 1, 255


def test_folders_of_others():
    """A log of another member, of another group, under other keys, or that is none, is left alone."""
    with Folders(OPENING, running=[0]) as group:
        place = group.place.name
        group.pay(0, 7, payee=1, amount=30, seq=0)
        group.kill(0)
        log = group.log(0)
        other = {**GENESIS, "opening": [100, 0, 0, 51]}
        write_json(place, "other-genesis", other)
        write_json(place, "other-keys", {"own": 0, "keys": ["", *3 * ["ab" * 32]]})
        for words, name in (
            ({"own": 1, "folder": "data-0"}, "Member"),
            ({"own": 0, "genesis": "other-genesis"}, "Genesis"),
            ({"own": 0, "keys": "other-keys"}, "Keys"),
        ):
            shows(export(place, **words), 2, "", f"payd: log 3 Foreign {name}\n", of=f"{words}")
        for content, name in ((b"", "NoLog"), (log[: HEADER_LEN - 1], "NoLog"), (b"x" + log[1:], "NoLog"),
                              *((log[:8] + bytes([it]) + log[9:], "Version") for it in OTHER_VERSIONS)):
            made = made_folder(place, "made", content)
            shows(export(place, 0, "made"), 2, "", f"payd: log 3 Foreign {name}\n", of=f"a file of {content[:9]!r}")
            shows(node_on(place, 0, "made"), 2, "", f"payd: log 3 Foreign {name}\n", of=f"a node on {content[:9]!r}")
            same(read_bytes(made), content, "the file")
        shows(node_on(place, 0, "genesis"), 4, "", DISK, of="a file in place of a folder")


def test_a_member_is_made_by_word():
    """Without it a folder that has no log is refused, as of a disk that isn't mounted, and with it one that has or had
    one."""
    with Folders(OPENING, running=[]) as group:
        place = group.place.name
        os.mkdir(os.path.join(place, "empty"))
        for folder in ("away", "empty", "genesis"):
            shows(node_on(place, 0, folder, flags=[]), 2, "", MISSING, of=f"a node on {folder}")
            shows(export(place, 0, folder), 2, "", MISSING, of=f"an export of {folder}")
        same((os.path.exists(os.path.join(place, "away")), os.listdir(os.path.join(place, "empty"))), (False, []), "it")
        text = export_text(0, OPENING, FRESH, [0, 0, 0, 0], OPENING)
        shows(node_on(place, 0, "made", b"PAY 7 1 30\n", flags=["--new"]), 0, f"asked 7 seq 0\n{text}", NEW)
        log = os.path.join(place, "made", "log")
        before = read_bytes(log)
        shows(node_on(place, 0, "made", flags=["--new"]), 2, "", EXISTS, of="a folder that has a log")
        same((read_bytes(log), sorted(os.listdir(os.path.dirname(log)))), (before, ENDED), "it")
        os.remove(log)
        shows(node_on(place, 0, "made", flags=["--new"]), 2, "", EXISTS, of="a folder that had one")
        shows(node_on(place, 0, "made", flags=[]), 2, "", MISSING, of="it, without the word")
    files = {"g": GENESIS, "k": {"own": 0, "keys": key_texts(0)}, "p": {"ports": free_ports(4)}}
    words = ["node", "--genesis", "g", "--keys", "k", "--ports", "p", "--new"]
    shows(with_files(files, words), 2, "", "payd: new: only with --data\n")


def test_an_export_changes_nothing():
    """Beside a node, of which it says so, and of a log that may only be read."""
    with Folders(OPENING, running=[0]) as group:
        place = group.place.name
        group.pay(0, 7, payee=1, amount=30, seq=0)
        before = group.log(0)
        text = export_text(0, OPENING, FRESH, [0, 0, 0, 0], OPENING)
        said = "payd: log: a node has it, so this is the member as of now\n"
        shows(export(place, 0), 0, text, said, of="an export of a log that a node has")
        group.pay(0, 8, payee=1, amount=30, seq=1)
        group.kill(0)
        torn = group.log(0)[:-1]
        log = made_folder(place, "torn", torn)
        os.chmod(log, 0o400)
        os.chmod(os.path.dirname(log), 0o500)
        said = f"payd: log: {len(torn) - len(before)} bytes at its end are no part of it\n"
        shows(export(place, 0, "torn"), 0, text, said, of="an export of a torn log that may only be read")
        same((read_bytes(log), os.listdir(os.path.dirname(log))), (torn, ["log"]), "what is left")


@pytest.mark.needs("strace")
def test_an_export_shows_what_is_on_the_disk():
    """The log's bytes and its name are synced before any of them is shown, and a failed sync shows nothing."""
    synced = re.compile(r"(?:fsync|fdatasync)\(\d+<(.*?)>\) += 0")
    with Folders(OPENING, running=[0]) as group:
        place = group.place.name
        group.pay(0, 7, payee=1, amount=30, seq=0)
        group.kill(0)
        folder, notes = os.path.join(place, "data-0"), os.path.join(place, "notes")
        words = [payd(), "export", "--genesis", "genesis", "--keys", "keys-0", "--data", "data-0"]
        calls = ["strace", "-f", "-y", "-qq", "-o", notes, "-e", "trace=fsync,fdatasync,write"]
        status, text, errors = call([*calls, *words], folder=place)
        same((status, text, errors), (0, export_text(0, OPENING, FRESH, [0, 0, 0, 0], OPENING), ""), "an export")
        before, _, _ = read_text(notes).partition("write(1<")
        same(set(synced.findall(before)), {folder, os.path.join(folder, "log")}, "what is synced before it is shown")
        for when in (1, 2):
            words_of = [*calls, "-e", f"inject=fsync,fdatasync:error=EIO:when={when}", *words]
            status, text, errors = call(words_of, folder=place)
            same((status, text, errors.split("\n")[0]), (4, "", "payd: log 1 Disk"), f"where sync {when} fails")


def test_a_torn_end_is_kept():
    """What a start leaves out of a log behind its last chunk is told of, and kept, each time behind what was before."""
    with Folders(OPENING, running=[0]) as group:
        place, lost = group.place.name, b""
        group.pay(0, 7, payee=1, amount=30, seq=0)
        group.kill(0)
        whole = group.log(0)
        folder = os.path.join(place, "data-0")
        text = export_text(0, OPENING, FRESH, [0, 0, 0, 0], OPENING)
        for torn in (b"plog", bytes(7), b"p"):
            with open(os.path.join(folder, "log"), "ab") as log:
                log.write(torn)
            status, output, errors = node_on(place, 0, "data-0", b"PAY 7 1 30\n")
            same((status, output), (0, f"asked 7 seq 0\n{text}"), "the member")
            same(told(errors)[1], f"payd: log: {len(torn)} bytes dropped, kept in log.dropped\n", "what is said")
            lost += torn
            same(read_bytes(os.path.join(folder, "log.dropped")), lost, "what is kept")
            same(read_bytes(os.path.join(folder, "log")), whole, "the log")
            # (as a kill leaves it)
            os.remove(os.path.join(folder, "ended"))


def test_a_log_that_ended_cleanly_stays_whole():
    """Where it is cut, or a bit of its end is turned, the start is refused, and nothing changes."""
    with Folders(OPENING, running=[]) as group:
        place = group.place.name
        same(node_on(place, 0, "clean", LINES)[0], 0, "the end")
        folder = os.path.join(place, "clean")
        log, ended = (read_bytes(os.path.join(folder, name)) for name in ("log", "ended"))
        same(ended, b"%d\n" % len(log), "the mark of the end")
        last = Log(GENESIS, 0).ends(log)[-2]
        turned = bytearray(log)
        turned[last + 20] ^= 1
        for file, of in ((log[:-1], "a byte less"), (log[:last], "a chunk less"), (bytes(turned), "a bit turned")):
            with open(os.path.join(folder, "log"), "wb") as changed:
                changed.write(file)
            shows(node_on(place, 0, "clean"), 2, "", CHANGED, of=of)
            shows(export(place, 0, "clean"), 2, "", CHANGED, of=f"an export of it, with {of}")
            same((read_bytes(changed.name), sorted(os.listdir(folder))), (file, ENDED), of)
        with open(os.path.join(folder, "log"), "wb") as back:
            back.write(log)
        for mark in (b"", b"x\n", b"-1\n", b"%d x\n" % len(log), b"\xff\n"):
            with open(os.path.join(folder, "ended"), "wb") as garbled:
                garbled.write(mark)
            shows(node_on(place, 0, "clean"), 2, "", CHANGED, of=f"a mark {mark}")
        with open(os.path.join(folder, "ended"), "wb") as back:
            back.write(ended)
        again = node_on(place, 0, "clean", LINES)
        same((again[0], again[1].startswith(ANSWERS)), (0, True), "the log put back")


def test_killed_while_the_folder_is_made():
    """A folder with less than a whole log in it is one that was killed at its first start, which is given again."""
    with Folders(OPENING, running=[]) as group:
        header = Log(GENESIS, 0).header()
        begun = [{"log.new": header[:length]} for length in (0, 1, 74, 75)]
        for place, files in enumerate([{}, *begun]):
            folder = f"made-{place}"
            os.mkdir(os.path.join(group.place.name, folder), 0o700)
            for name, content in files.items():
                with open(os.path.join(group.place.name, folder, name), "wb") as file:
                    file.write(content)
            was = node_on(group.place.name, 0, folder)
            shows(was, 0, export_text(0, OPENING, FRESH, [0, 0, 0, 0], OPENING), NEW, of=f"{files}")
            same(read_bytes(os.path.join(group.place.name, folder, "log")), header, "the new log")
            same(sorted(os.listdir(os.path.join(group.place.name, folder))), ENDED, "what is in the folder")


# ---- damage


def sampled(seeded, cases, share):
    return ((of, file) for of, file in cases if seeded.random() < share)


def test_a_log_cut_anywhere(damage):
    near = {end + by for end in damage.ends for by in (-1, 0, 1)}
    for length, (of, file) in enumerate(cuts(damage)):
        if length in near or length % 17 == 0:
            damage.judge(file, of)


def test_a_log_with_a_bit_turned(damage):
    for of, file in sampled(random.Random(6), bits(damage), 300 / (8 * len(damage.file))):
        damage.judge(file, of)


def test_a_log_with_chunks_moved(damage):
    """A chunk left out, doubled, swapped with the next, or put at the end, fits nowhere."""
    chunks = [damage.file[start:end] for start, end in zip(damage.ends, damage.ends[1:])]
    header = damage.file[:HEADER_LEN]
    for place in range(len(chunks) - 1):
        for name, changed in (
            ("left out", chunks[:place] + chunks[place + 1 :]),
            ("doubled", chunks[: place + 1] + chunks[place:]),
            ("swapped", chunks[:place] + [chunks[place + 1], chunks[place]] + chunks[place + 2 :]),
        ):
            damage.judge(header + b"".join(changed), f"chunk {place} {name}")
    damage.judge(damage.file + chunks[0], "the first chunk at the end once more")
    damage.judge(damage.file + damage.log.chunk(len(damage.file), b""), "an empty chunk behind the end")


# ---- a disk that fails


def with_room(size):
    """What a child does at its start, so that none of its files gets more bytes than this."""

    def limit():
        signal.signal(signal.SIGXFSZ, signal.SIG_IGN)
        resource.setrlimit(resource.RLIMIT_FSIZE, (size, resource.RLIM_INFINITY))

    return limit


def without_figures(errors):
    """What a node says on standard error, except that it can't write what stands beside its log either."""
    names = r"(?:status\.prom|times|group\.json|keys\.json)(?:\.new)?"
    return re.sub(rf"^payd: \S+/{names} can't be written: [^\n]+\n", "", errors, flags=re.MULTILINE)


LINES = b"".join(b"PAY %d 1 %d\n" % (order, order + 1) for order in range(12))
ANSWERS = "".join(f"asked {order} seq {order}\n" for order in range(12))


def asked_again(orders, kept):
    """The answers to lines of these ids, of which some are kept: the others have the numbers behind those."""
    numbers = [*kept, *(order for order in orders if order not in kept)]
    return [f"asked {order} seq {numbers.index(order)}" for order in orders]


def test_nothing_leaves_that_is_not_kept():
    """A peer gets no frame of a payment for which there is no room, and no answer of it comes out."""
    with Folders(OPENING, running=[]) as group, Strangers(1, 0, group.ports[0]) as strangers:
        words = ["--genesis", "genesis", "--keys", "keys-0", "--ports", "ports", "--data", "full", "--new"]
        child = running(group.place.name, words, preexec_fn=with_room(HEADER_LEN))
        try:
            until(lambda: is_there(group.ports[0]), True, of="whether the node listens")
            stream = strangers.dial()
            stream.sendall(strangers.want(0))
            output, errors = fed(child, b"PAY 7 1 30\n", CLAIMS)
            news = told(without_figures(told_plainly(errors)))[1].splitlines()
            same((child.returncode, output), (4, ""), f"a node without room: {errors}")
            same([line for line in news if "peer" not in line], ["payd: log 1 Disk", "payd: engine 3 Write"], "it says")
            same(received(stream), None, "what a peer was told")
        finally:
            child.kill()
            child.wait()


def test_a_disk_that_fails_ends_a_node_whoever_asks():
    """Its input is open and gives nothing; a client's payment finds no room."""
    with Folders(OPENING, running=[]) as group:
        words = ["--genesis", "genesis", "--keys", "keys-0", "--ports", "ports", "--data", "full", "--new"]
        child = running(group.place.name, words, preexec_fn=with_room(HEADER_LEN))
        try:
            said = met(child, CLAIMS)
            client = Client(os.path.join(group.place.name, "full", "desk"))
            client.write("PAY 7 1 30\n")
            same(client.is_ended(), True, "what the client is answered")
            child.wait(timeout=SECONDS)
            errors = said + child.stderr.read()
            news = told(without_figures(told_plainly(errors.decode())))[1].splitlines()
            same((child.returncode, child.stdout.read()), (4, b""), f"a node without room: {errors}")
            same([line for line in news if "peer" not in line], ["payd: log 1 Disk", "payd: engine 3 Write"], "it says")
        finally:
            child.stdin.close()
            child.kill()
            child.wait()


def is_there(port):
    try:
        connected(port).close()
    except OSError:
        return False
    return True


@contextlib.contextmanager
def member_among_claimants(library):
    """The words of a node in the library's folder, up to its own folder's name, while all its peers claim."""
    ports = free_ports(4)
    with Claimants(ports, [1, 2, 3]):
        yield [*write_member(library.place.name, ports=ports), "--data"]


def with_a_fault(library, words, name, least=3, **more):
    """A run for each call of this kind, each with one failed: what was answered is kept, once the node is started
    again, and each id is asked for once. (Some three lines are read at once.)"""
    text = export_text(0, OPENING, FRESH, [0, 0, 0, 0], OPENING)
    kinds = Counter()
    for place in range(1, 1000):
        folder = f"{name}-{place}-{more.get('placed_size', 0)}"
        given = {name: place, "read_size": 40, **more}
        (status, output, errors), was_refused = library.run_among(CLAIMS, [*words, folder, "--new"], LINES, **given)
        if not was_refused:
            same((status, place > least), (0, True), f"{kinds} of {name}, and then {(status, output, errors)}")
            return
        of = f"{name} {place} {more}: {(status, output, errors)}"
        kinds[(status, errors)] += 1
        # (the last of them fail where the end is marked, behind the export)
        at_end = (4, ANSWERS + text, NEW + DISK)
        was = (status, output, errors)
        same((status, errors) in ((4, DISK), (4, NEW + DISK + UNWRITTEN)) or was == at_end, True, of)
        same((ANSWERS + text).startswith(output) and output[-1:] in ("", "\n"), True, of)
        flags = new_words(library.place.name, ["--data", folder])
        log = os.path.join(library.place.name, folder, "log")
        kept = [] if flags else Log(GENESIS, 0).member(read_bytes(log))[1]
        status, again, errors = library.run_among(CLAIMS, [*words, folder, *flags], LINES)[0]
        same((status, again.splitlines()[:12]), (0, asked_again(range(12), kept)), f"{of}, and then {again}")
        same(len(kept) >= min(output.count("\n"), 12), True, f"{of}, and then {again}")
        lost = more.get("placed_size", 0)
        may_say = {"", f"payd: log: {lost} bytes dropped, kept in log.dropped\n"} if lost else {""}
        same(told(errors)[1] in may_say, True, f"{of}, and then {(again, errors)}")
        library.refused[f"node --data {name}"] += 1


def at_a_second_start(library, words, name, least=1):
    """The same in a folder that a kill left, with a torn end: it has what was answered before, however its start fails;
    each start writes the log anew."""
    killed, torn = os.path.join(library.place.name, f"{name}-killed"), b"plog"
    same(library.run_among(CLAIMS, [*words, killed, "--new"], LINES)[0][0], 0, "the first start")
    os.remove(os.path.join(killed, "ended"))
    with open(os.path.join(killed, "log"), "ab") as log:
        log.write(torn)
    lines, wanted = LINES + b"PAY 12 1 1\n", ANSWERS + "asked 12 seq 12\n"
    for place in range(1, 1000):
        folder = f"{killed}-{place}"
        shutil.copytree(killed, folder)
        given = {name: place, "read_size": 40}
        was, was_refused = library.run_among(CLAIMS, [*words, folder], lines, **given)
        of = f"{name} {place} of a second start: {was}"
        if not was_refused:
            same((was[0], place > least), (0, True), of)
            return
        status, output, errors = was
        said = told(errors)[1].removeprefix(f"payd: log: {len(torn)} bytes dropped, kept in log.dropped\n")
        same((status, said in (DISK, DISK + UNWRITTEN)), (4, True), of)
        whole = wanted + export_text(0, OPENING, FRESH, [0, 0, 0, 0], OPENING)
        same(whole.startswith(output) and output[-1:] in ("", "\n"), True, of)
        found = os.stat(os.path.join(folder, "log")).st_ino
        status, again, errors = library.run_among(CLAIMS, [*words, folder], lines)[0]
        same((status, again), (0, whole), f"{of}, and then {errors}")
        same(os.stat(os.path.join(folder, "log")).st_ino == found, False, f"{of}: whether the log is the old file")
        library.refused[f"node --data, a second start {name}"] += 1


def test_each_sync_fails(library):
    with member_among_claimants(library) as words:
        with_a_fault(library, words, "sync", least=9)


def test_each_renaming_of_a_log_fails(library):
    with member_among_claimants(library) as words:
        with_a_fault(library, words, "rename", least=2)


def test_each_call_of_a_second_start_fails(library):
    """The writes of the copy too, by which it doesn't yet have the log's name."""
    with member_among_claimants(library) as words:
        for name in ("placed", "filed", "rename"):
            at_a_second_start(library, words, name)
        # (no fewer syncs than a start and an end have)
        at_a_second_start(library, words, "sync", least=6)


def test_each_write_of_a_log_fails(library):
    with member_among_claimants(library) as words:
        for more in ({}, {"placed_size": 1}, {"placed_size": 50}):
            with_a_fault(library, words, "placed", **more)


def test_each_growth_of_a_kept_node_refused(library):
    """In a folder that is there, and in new ones: nothing but its answers, its export and what says that memory was
    refused. Where that ended it, it has all that it answered once it is started again. Where it got no thread to dial
    enough peers, it pays nothing."""
    with member_among_claimants(library) as words:
        with_growths_refused(library, words)


# How long a node may need to meet peers, in seconds, before it is taken for one that has no thread for them.
WITHOUT_A_THREAD = 10


def with_growths_refused(library, words):
    lines = LINES.splitlines(keepends=True)[:3]
    wanted = ANSWERS.splitlines()[:3]
    same(library.run_among(CLAIMS, [*words, "kept", "--new"], b"".join(lines))[0][0], 0, "ample memory")
    for of in ("kept", "new"):
        for place in range(1, 1000):
            folder = of if of == "kept" else f"new-{place}"
            flags = new_words(library.place.name, ["--data", folder])
            given = {"growth": place, "seconds": WITHOUT_A_THREAD}
            was, was_refused = library.run_among(CLAIMS, [*words, folder, *flags], b"".join(lines), **given)
            status, text, errors = was
            of_run = f"{folder}, growth {place}: {(status, text, errors)}"
            answers = text.splitlines()[:3]
            said = told(without_figures(errors))[1]
            if not was_refused:
                same((status, answers, place > 50), (0, wanted, True), of_run)
                break
            library.refused[f"node --data {of} growth"] += 1
            same(status == 3 or said == "", True, of_run)
            same(status == 0 or said == UNWRITTEN or REFUSED.fullmatch(said) is not None, True, of_run)
            if of == "new" and answers == 3 * [EARLY]:
                continue
            asked = [order for order, it in enumerate(answers) if it != "refused 0 Memory"]
            due = [wanted[order] if of == "kept" else f"asked {order} seq {seq}" for seq, order in enumerate(asked)]
            same([answers[order] for order in asked], due, of_run)
            if status == 0:
                continue
            flags = new_words(library.place.name, ["--data", folder])
            again = library.run_among(CLAIMS, [*words, folder, *flags], b"".join(reversed(lines)))[0]
            same(again[0], 0, f"{of_run}, and then {again}")
            told_again = dict(line.split()[1::2] for line in again[1].splitlines()[:3])
            kept = [line.split()[1::2] for line in answers if line.startswith("asked")]
            same([told_again[order] for order, _ in kept], [seq for _, seq in kept], f"{of_run}, and then {again}")


# ---- nothing leaves before it is on the disk


def judged_runs(library, **more):
    """What left a node among its peers, by its notes: in a new folder, and in that one behind a kill."""
    left = Counter()
    with Folders(OPENING, running=[1, 2, 3]) as group:
        folder = os.path.join(group.place.name, "data-0")
        for run in range(2):
            notes = os.path.join(group.place.name, f"notes-{run}")
            group.start(0, given=library.given(notes=notes, **more))
            for order in range(5 * run, 5 * run + 5):
                group.pay(0, order, payee=1, amount=order + 1, seq=order)
            group.pay(3, run, payee=0, amount=5, seq=run)
            group.settle([5 * run + 5, 0, 0, run + 1])
            group.kill(0)
            left += Order(folder, Log(GENESIS, 0), group.log(0)).judge(noted(read_bytes(notes))).left
    return left


def test_nothing_leaves_before_it_is_on_the_disk(library):
    """No answer and no frame before the sync of the bytes of the log that hold it, and of the log's name; no name
    before the sync of all that the log has then."""
    left = judged_runs(library)
    print(f"{left['answers']} answers, {left['frames']} frames")
    # (of ten payments a SEND to each peer: what else it says may come too late for a busy machine)
    same((left["answers"], left["frames"] >= 30), (10, True), f"{left}")


def test_a_sync_that_does_nothing_is_found(library):
    """Of the log, and of folders: as of a program that leaves it out."""
    for idle in ("idle_fdatasync", "idle_fsync"):
        try:
            raise AssertionError(f"{judged_runs(library, **{idle: 1})} left with {idle}")
        except OutOfOrder as found:
            print(f"{idle}: {found}")


# ---- what was said before


def test_old_messages_are_the_same():
    """Each frame that a peer took before a kill is the same when it asks again; one that a peer sent again, otherwise,
    is not taken."""
    honest, lie = payment(payee=0, amount=5), payment(payee=0, amount=6)
    first = [(SEND, 3, 0, honest)]
    stories = {0: [first], 1: [first], 2: [first]}
    with Folders(OPENING, running=[0, 1, 2]) as group, Liar(3, group.ports[3], stories) as liar:
        for order in range(5):
            group.pay(0, order, payee=1, amount=order + 1, seq=order)
        group.settle([5, 0, 0, 1])
        with Strangers(3, 0, group.ports[0]) as strangers:
            before = frames_of(strangers, 12)
            group.kill(0)
            liar.stories = {peer: [[(SEND, 3, 0, lie)]] for peer in stories}
            liar.turns = {peer: 0 for peer in stories}
            group.start(0)
            same(group.nodes[0].front(), [5, 0, 0, 1], "the front behind a start")
            same(frames_of(strangers, 12), before, "what was said once more")
        group.pay(0, 5, payee=1, amount=6, seq=5)
        group.settle([6, 0, 0, 1])
        lists = [[payment(1, order + 1).hex() for order in range(6)], [], [], [honest.hex()]]
        text = export_text(0, OPENING, lists, [6, 0, 0, 1], [84, 21, 0, 45])
        same(group.stop()[0], text, "the export")


def frames_of(strangers, count):
    """The first frames of a member, as it tells them to this one."""
    stream, found = strangers.dial(), []
    for number in range(count):
        stream.sendall(strangers.want(number))
        found.append(received(stream))
    stream.close()
    return found
