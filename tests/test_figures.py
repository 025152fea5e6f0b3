"""Black-box tests of the figures that a node with a folder writes for whoever watches machines."""

import os
import re
import subprocess
import time

import pytest

from support.nodes import until
from support.peers import Strangers
from support.restarts import Folders
from support.runs import SECONDS, TOP, call, read_text, same

OPENING = [100, 0, 0, 50]
READS = 1_000_000
VERSION = "0.1.0"
# Of each name, in the order in which they come, what it is.
KINDS = {
    "payd_peers_met": "gauge",
    "payd_peers_lost": "gauge",
    "payd_peer_met": "gauge",
    "payd_peer_unopened": "gauge",
    "payd_peer_lied": "gauge",
    "payd_peer_silent_seconds": "gauge",
    "payd_peer_asked_frames_total": "counter",
    "payd_settled_entries_total": "counter",
    "payd_balance": "gauge",
    "payd_sent_frames_total": "counter",
    "payd_history_entries_total": "counter",
    "payd_values_used": "gauge",
    "payd_values_left": "gauge",
    "payd_waiting_entries": "gauge",
    "payd_waiting_short": "gauge",
    "payd_history_durable_entries_total": "counter",
    "payd_log_bytes": "gauge",
    "payd_resident_memory_bytes": "gauge",
    "payd_input_reads_left": "gauge",
    "payd_start_time_seconds": "gauge",
    "payd_build_info": "gauge",
}
# The names with labels, of which each sample has that one alone.
LABELS = {"payd_settled_entries_total": "account", "payd_build_info": "version"}
LABELS.update(dict.fromkeys((it for it in KINDS if it.startswith("payd_peer_")), "peer"))
# The text format of Prometheus: names, a label's value without escapes, and a whole number.
SAMPLE = re.compile(r'([a-zA-Z_:][a-zA-Z0-9_:]*)(?:\{([a-zA-Z_][a-zA-Z0-9_]*)="([^"\\\n]*)"\})? (0|[1-9]\d*)')


def folder_of(group, own):
    return os.path.join(group.place.name, f"data-{own}")


def file_of(group, own):
    return os.path.join(folder_of(group, own), "status.prom")


def figures_in(text):
    """The values under each name that has any, of a text in which its lines # HELP and # TYPE stand before them."""
    same(text.endswith("\n"), True, f"whether the text is whole: {text!r}")
    values, name = {}, None
    for line in text.splitlines():
        if line.startswith("# HELP "):
            name, _, said = line[len("# HELP ") :].partition(" ")
            same((name in KINDS, name in values, said != ""), (True, False, True), line)
            values[name] = []
        elif line.startswith("# TYPE "):
            same((line, values[name]), (f"# TYPE {name} {KINDS[name]}", []), "a type")
        else:
            of, label, said, value = SAMPLE.fullmatch(line).groups()
            same((of, label), (name, LABELS.get(name)), line)
            # (which peers are there depends on whose figures they are)
            wanted = {"account": f"{len(values[name])}", "version": VERSION, "peer": said}.get(label)
            same(said, wanted, line)
            values[name].append(int(value))
    return values


def shown(group, own):
    """The figures of a node, once there are some."""
    until(lambda: os.path.exists(file_of(group, own)), True, of="the file")
    return figures_in(read_text(file_of(group, own)))


def test_figures_are_those_of_the_desk():
    begun = int(time.time())
    with Folders(OPENING) as group:
        node = group.nodes[0]
        same([node.ask(f"PAY {it} 1 {it}") for it in (1, 2)], ["asked 1 seq 0", "asked 2 seq 1"], "payments")
        same(group.nodes[3].ask("PAY 1 0 7"), "asked 1 seq 0", "a payment to it")
        group.settle([2, 0, 0, 1])
        # (the question is an entry too)
        same(node.ask("BALANCE 0"), "balance 0 104", "its balance")
        log = os.path.join(folder_of(group, 0), "log")
        until(lambda: shown(group, 0)["payd_log_bytes"] == [os.path.getsize(log)], True, of="the same log")
        until(lambda: shown(group, 0)["payd_peers_met"], [3], of="peers that are met")
        # two payments, a question, an ECHO and a READY of each peer about each value, and the SEND of member 3
        entries = [2 + 1 + 3 * 3 * 2 + 1]
        until(lambda: shown(group, 0)["payd_history_entries_total"], entries, of="entries")
        # an answer comes once all entries are on the disk
        node.front()
        until(lambda: shown(group, 0)["payd_history_durable_entries_total"], entries, of="entries on the disk")
        figures = shown(group, 0)
        same(list(figures), list(KINDS), "the names")
        same(figures["payd_settled_entries_total"], node.front(), "the fronts")
        same(figures["payd_balance"], [104], "the balance")
        same(figures["payd_peers_lost"], [0], "peers that are lost")
        for name in ("met", "unopened", "lied", "silent_seconds", "asked_frames_total"):
            said = re.findall(rf'^payd_peer_{name}{{peer="(.*)"}}', read_text(file_of(group, 0)), re.MULTILINE)
            same(said, ["1", "2", "3"], f"the peers of which there is {name}")
        same((figures["payd_peer_met"], figures["payd_peer_unopened"]), ([1, 1, 1], [0, 0, 0]), "each peer")
        same(figures["payd_peer_lied"], [0, 0, 0], "who lied")
        # its two SENDs, and an ECHO and a READY about each value
        same(figures["payd_sent_frames_total"], [2 + 2 * 3], "its frames")
        until(lambda: min(shown(group, 0)["payd_peer_asked_frames_total"]) >= 8, True, of="whether each has them")
        same((figures["payd_values_used"], figures["payd_values_left"]), ([2], [65_534]), "values")
        same((figures["payd_waiting_entries"], figures["payd_waiting_short"]), ([0], [0]), "what waits")
        resident = node.status("VmRSS") * 1024
        same(resident / 2 < figures["payd_resident_memory_bytes"][0] < resident * 2, True, f"memory, {resident}")
        same(figures["payd_build_info"], [1], "the version")
        same(begun <= figures["payd_start_time_seconds"][0] <= time.time(), True, "when it started")
        before = figures["payd_input_reads_left"][0]
        same(0 < READS - before < 100, True, f"reads that are left, {before}")
        for _ in range(200):
            node.front()
        until(lambda: shown(group, 0)["payd_input_reads_left"][0] <= before - 200, True, of="the reads after that")
        group.kill(2)
        until(lambda: shown(group, 0)["payd_peers_lost"], [1], of="peers that are lost")
        left = shown(group, 0)
        same((left["payd_peers_met"], left["payd_peer_met"]), ([2], [1, 0, 1]), "those that are met then")
        until(lambda: shown(group, 0)["payd_history_entries_total"], entries, of="entries that nobody added")


def test_figures_are_written_as_a_whole_each_five_seconds():
    """Each time as a new file, which then has the name of the old one: a reader has the whole of one or the other. Of
    the first three one may be late by the system's clock, on a busy machine."""
    with Folders(OPENING, running=[0], claiming=[]) as group:
        shown(group, 0)
        path, written = file_of(group, 0), {}
        # (no peer runs, so none was heard)
        names = [it for it in KINDS if it != "payd_peer_silent_seconds"]
        with open(path, encoding="ascii") as first:
            while len(written) < 3:
                # (a file that is open keeps its number, so no later one has it too)
                about = os.stat(path)
                written[about.st_ino] = about.st_mtime
                same(list(shown(group, 0)), names, "the names")
            same(list(figures_in(first.read())), names, "the names of one that was opened before")
        same(os.path.exists(f"{path}.new"), False, "whether one that isn't whole is left")
        times = [*written.values()]
        between = [later - former for former, later in zip(times, times[1:])]
        same((4.9 <= min(between), min(between) < 9), (True, True), f"the seconds between them: {between}")


def test_figures_end_with_their_node():
    with Folders(OPENING, running=[0]) as group:
        shown(group, 0)
        same(group.end(0)[0], 0, "the node's end")
        kept = ["ended", "group.json", "keys.json", "log"]
        same(sorted(os.listdir(folder_of(group, 0))), kept, "what is left in the folder")
        # those that a kill left are of the next node once it writes some
        group.start(0)
        shown(group, 0)
        group.kill(0)
        left = os.stat(file_of(group, 0)).st_ino
        group.start(0)
        until(lambda: os.stat(file_of(group, 0)).st_ino != left, True, of="another file")
        same(shown(group, 0)["payd_history_entries_total"], [0], "its entries")


def test_figures_that_cannot_be_written_harm_nobody():
    """It is said once, and why."""
    with Folders(OPENING, running=[0]) as group:
        shown(group, 0)
        group.end(0)
        os.mkdir(f"{file_of(group, 0)}.new")
        node = group.start(0)
        said = "payd: data-0/status.prom.new can't be written: it is a folder\n"
        until(lambda: (node.news(), said.encode() in node.said)[1], True, of="what is said")
        same(node.ask("BALANCE 1"), "balance 1 0", "a balance")
        same((node.front(), os.path.exists(file_of(group, 0))), ([0, 0, 0, 0], False), "the node, and the file")
        status, _, errors = group.end(0)
        same((status, errors), (0, said), "the end")


def test_figures_of_a_peer_with_another_key():
    with Folders(OPENING, running=[0], claiming=[]) as group:
        shown(group, 0)
        with Strangers(1, 0, group.ports[0]) as strangers:
            strangers.dial().sendall(strangers.want(0, key=bytes(32)))
            until(lambda: shown(group, 0)["payd_peer_unopened"], [1, 0, 0], of="whose frames don't open")
        figures = shown(group, 0)
        same((figures["payd_peer_met"], "payd_peer_silent_seconds" in figures), ([0, 0, 0], False), "who was heard")
        same(figures["payd_peer_asked_frames_total"], [0, 0, 0], "what was asked for")


def test_node_without_a_folder_writes_no_figures():
    with Folders(OPENING, running=[]) as group:
        path = os.path.join(group.place.name, "socket")
        group.start(0, options=["--socket", path])
        same(group.nodes[0].front(), [0, 0, 0, 0], "a node")
        shown(group, 0)
        same([it for it in os.listdir(group.place.name) if it.endswith(".prom")], [], "files beside the folder")


@pytest.mark.needs("promtool")
def test_prometheus_finds_no_fault_in_the_figures():
    with Folders(OPENING) as group:
        shown(group, 0)
        checked = ["promtool", "check", "metrics"]
        for text, status in ((read_text(file_of(group, 0)), 0), ("payd_x_total 1\npayd_x_total 1\n", 1)):
            done = subprocess.run(checked, input=text, capture_output=True, text=True, timeout=SECONDS)
            same((done.returncode != 0, done.stdout), (status != 0, ""), done.stderr)


def test_figures_of_what_waits():
    with Folders(OPENING) as group:
        for order, amount in ((1, 30), (2, 95), (3, 1)):
            group.pay(0, order, 1, amount, order - 1)
        group.settle([1, 0, 0, 0])
        until(lambda: group.nodes[0].ask("STATE 0 2"), "state 0 2 waiting", of="the last payment")
        # (before the first has settled, others wait)
        names = ("payd_settled_entries_total", "payd_waiting_entries", "payd_waiting_short", "payd_values_used")
        wanted = [[1, 0, 0, 0], [2], [25], [3]]
        until(lambda: [shown(group, 0)[name] for name in names], wanted, of="what waits, what is short, and values")
        same(shown(group, 1)["payd_values_used"], [0], "another member's values")


def test_the_end_of_an_accounts_values_is_said_before():
    """At 90 and at 99 percent, once each. The node has no peers, so its payments are asked for alone."""
    with Folders([10**9, 0, 0, 0], running=[0]) as group:
        node, asked = group.nodes[0], 0
        for count, said in ((58_982, 0), (58_983, 1), (64_880, 1), (64_881, 2)):
            while asked < count:
                some = range(asked, min(count, asked + 500))
                node.write("".join(f"PAY {it} 1 1\n" for it in some))
                for it in some:
                    same(node.line(), f"asked {it} seq {it}", "a payment")
                asked = some.stop
            until(lambda count=count: shown(group, 0)["payd_values_used"], [count], of="values that are used")
            line = f"payd: {count} of 65536 values of this account are used: plan the next group\n"
            node.news()
            lines = [it for it in node.said.decode().splitlines(True) if "values of this account" in it]
            same((len(lines), line in lines), (said, count in (58_983, 64_881)), f"what is said at {count}: {lines}")
        same(shown(group, 0)["payd_values_left"], [655], "values that are left")


ALERTS = os.path.join(TOP, "examples", "alerts.yml")


def test_alerts_are_of_figures_that_a_node_writes():
    named = set(re.findall(r"\bpayd_\w+", read_text(ALERTS)))
    same((sorted(named - KINDS.keys()), len(named) >= 4), ([], True), "figures that no node writes")


@pytest.mark.needs("promtool")
def test_alerts_are_rules():
    status, output, errors = call(["promtool", "check", "rules", ALERTS])
    same((status, "4 rules found" in output), (0, True), errors)
