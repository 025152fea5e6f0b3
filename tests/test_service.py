"""Black-box tests of the example of a service: the service manager takes its file, and its commands run a node."""

import os
import re
import shlex
import shutil
import signal
import subprocess
import tempfile

import pytest

from support.nodes import PATIENCE, Group, Node, export_text, free_ports, started, until, write_json
from support.runs import SECONDS, TOP, key_texts, payd, read_text, same, write_text

UNIT = "payd@.service"
COMMAND = re.compile("^(ExecStart)=(.*)$", re.MULTILINE)


def unit():
    return read_text(os.path.join(TOP, "examples", UNIT))


def analyzed(text, *words):
    """Status and errors of what the service manager makes of a unit of this text."""
    with tempfile.TemporaryDirectory() as folder:
        path = os.path.join(folder, UNIT)
        write_text(path, text)
        done = subprocess.run(["systemd-analyze", *words, path], capture_output=True, text=True, timeout=SECONDS)
    return done.returncode, done.stderr


def complaints(text):
    """What the verifier says of a unit of this text."""
    status, errors = analyzed(text, "verify")
    # (it looks at what the unit stands on too, whose faults aren't this one's)
    return status, [line for line in errors.splitlines() if UNIT.partition("@")[0] in line]


@pytest.mark.needs("systemd-analyze")
def test_service_manager_takes_the_unit():
    """With a harmless command in the place of each, which may not be installed here."""
    harmless = shutil.which("true")
    text, count = COMMAND.subn(rf"\1={harmless}", unit())
    same(count, 1, "commands of the unit")
    same(complaints(text), (0, []), "the unit")
    for right, wrong in (("=always", "=alwys"), ("Restart=", "Restat="), ("=1 2 4", "=one")):
        same((text.count(right), len(complaints(text.replace(right, wrong))[1])), (1, 1), f"{wrong} is complained of")


@pytest.mark.needs("systemd-analyze")
def test_service_is_little_exposed():
    """Under 2.0 of the service manager's 10.0, and not so without its bounds."""
    for text, exposed in ((unit(), 0), (re.sub("(?m)^(Protect|Restrict|SystemCall).*\n", "", unit()), 1)):
        status, errors = analyzed(text, "security", "--offline=true", "--threshold=19")
        same((status, errors), (exposed, ""), "how it is exposed")


def calls_of(name):
    """The system's calls in one of the service manager's sets."""
    words = ["systemd-analyze", "syscall-filter", name]
    lines = subprocess.run(words, capture_output=True, text=True, check=True).stdout.splitlines()[1:]
    named = {line.split()[0] for line in lines if not line.strip().startswith("#")}
    return {call for it in named for call in (calls_of(it) if it.startswith("@") else {it})}


@pytest.mark.needs("strace")
@pytest.mark.needs("systemd-analyze")
def test_nodes_calls_are_those_of_its_service():
    """While it begins, pays and ends, and begins again; and it opens no other sockets than those that it may."""
    allowed, *denied = re.findall("^SystemCallFilter=(.*)$", unit(), re.MULTILINE)
    allowed = set().union(*map(calls_of, allowed.split()))
    allowed -= set().union(*(calls_of(it) for line in denied for it in line.strip("~").split()))
    families = re.search("^RestrictAddressFamilies=(.*)$", unit(), re.MULTILINE)[1].split()
    with Group([100, 0], running=[1]) as group:
        for turn in range(2):
            name = os.path.join(group.place.name, f"calls-{turn}")
            options = ["--data", "data-0", "--dials", "always"]
            node = Node(0, group.place.name, options=options, prefix=["strace", "-f", "-qq", "-o", name])
            group.nodes[0] = node
            group.pay(0, turn, 1, 30, turn)
            group.settle([1 + turn, 0], [70 - 30 * turn, 30 + 30 * turn])
            same(node.stop()[0], 0, "its end")
            del group.nodes[0]
            text = read_text(name)
            calls = set(re.findall(r"^\d+ +(\w+)\(", text, re.MULTILINE))
            same({"fdatasync", "socket"} <= calls, True, f"calls of a node: {sorted(calls)}")
            same(calls - allowed, set(), "calls that its service may not make")
            same(set(re.findall(r"socket\((\w+)", text)) - {*families}, set(), "sockets that its service may not open")


def test_commands_of_the_unit_run_a_node(folder):
    """In another folder, and with the program that stands here; it is asked as the unit's own words say. Killed and run
    again, as the service manager does, it goes on."""
    write_json(folder, "group.json", {"members": 1, "faults": 0, "opening": [7], "ports": free_ports(1)})
    write_json(folder, "keys.json", {"own": 0, "keys": key_texts(0, 1)})
    moved = unit().replace("/usr/local/bin/payd", payd()).replace("/var/lib/payd/NAME", folder)
    [command] = [shlex.split(words) for _, words in COMMAND.findall(moved)]
    told = re.search("^# payd (send --data .* FRONT)$", moved, re.MULTILINE)[1]
    asks = [os.path.join(TOP, "tools", "send"), *shlex.split(told)[1:]]
    for flags, said in ((["--new"], "new"), ([], "0 entries of 0 payments, started again")):
        errors = ended_after(asks, [*command, *flags], folder)
        same(started(errors), f"payd: log: {said}\n", f"what the node says in {errors!r}")
    words = [payd(), "export", "--genesis", "group.json", "--keys", "keys.json", "--data", "member"]
    done = subprocess.run(words, cwd=folder, capture_output=True, text=True, check=True, timeout=SECONDS)
    same(done.stdout, export_text(0, [7], [[]], [0], [7]), "its export")


def ended_after(asks, command, folder):
    """What a node says that is ended once it has answered the front."""
    with open(os.path.join(folder, "said"), "w+b") as said:
        child = subprocess.Popen(command, cwd=folder, stdin=subprocess.DEVNULL, stdout=said, stderr=said)
        try:
            until(lambda: subprocess.run(asks, capture_output=True).stdout, b"front 0\n", of="what the node answers")
            child.terminate()
            same(child.wait(timeout=PATIENCE), -signal.SIGTERM, "its end")
        finally:
            child.kill()
            child.wait()
        return os.pread(said.fileno(), 65536, 0).decode()
