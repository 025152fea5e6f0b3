"""Black-box tests of the files of `check`: a genesis and keys, their faults, and how their names may be written."""

import json
import os
import subprocess

from payd_tools.frames import ECHO, READY, SEND, frame
from support.runs import (
    EXAMPLE_GENESIS, GENESIS, GENESIS_ROWS, KEYS_ROWS, SECONDS, payd, example_keys, key_texts, of_file, of_keys, run,
    same, shows, with_files,
)
from test_check import BAD_TAG

# Three more frames that member 1 of 4 refuses, each for another cause, and all refusals as it has them with the test
# keys.
NOT_FOR_ME = bytes.fromhex("0036010100000002") + bytes(48)
UNKNOWN_SENDER = bytes.fromhex("0036010100010001") + bytes(48)
UNKNOWN_OWNER = bytes.fromhex("003601010000000100000000000000000004") + bytes(38)
REFUSED_LINES = "1 refused 4 BadTag\n2 refused 1 NotForMe\n3 refused 2 UnknownSender\n4 refused 3 UnknownOwner\n"

# The first frame of member 0 for member 1, twice.
TWICE = 2 * frame(SEND, 0, 1, 0)
TAKEN_LINE = "1 ok send from 0 number 0 owner 0 seq 0 value 0\n"
REPEAT_LINE = "2 refused 5 Repeat next 1\n"


def test_files_that_say_the_defaults():
    stream = BAD_TAG + NOT_FOR_ME + UNKNOWN_SENDER + UNKNOWN_OWNER
    for words in (
        ["--genesis", EXAMPLE_GENESIS],
        ["--keys", example_keys(1)],
        ["--genesis", EXAMPLE_GENESIS, "--keys", example_keys(1)],
        ["--keys", example_keys(1), "--genesis", EXAMPLE_GENESIS],
        [f"--keys={example_keys(1)}", f"--genesis={EXAMPLE_GENESIS}"],
    ):
        shows(run(["check", *words], stream), 0, REFUSED_LINES, of=f"{words}")


def test_example_files_are_spelled():
    with open(EXAMPLE_GENESIS, encoding="utf-8") as file:
        same(json.load(file), GENESIS, "genesis.json")
    for own in range(4):
        with open(example_keys(own), encoding="utf-8") as file:
            same(json.load(file), {"own": own, "keys": key_texts(own)}, f"keys-{own}.json")


def test_each_member_judges_its_own():
    for own in range(4):
        sender = (own + 1) % 4
        for receiver in range(4):
            lines = "1 refused 1 NotForMe\n"
            if receiver == own:
                lines = f"1 ok echo from {sender} number 0 owner 0 seq 0 value 0\n"
            words = ["check", "--keys", example_keys(own)]
            shows(run(words, frame(ECHO, sender, receiver, 0)), 0, lines, of=f"to {receiver} at {own}")


def test_keys_of_a_file_are_used():
    key = bytes(range(32))
    keys = {"own": 0, "keys": ["", key.hex().upper()]}
    genesis = {"members": 2, "faults": 0, "opening": [1, 2]}
    files = {"genesis": genesis, "keys": keys}
    stream = frame(SEND, 1, 0, 0, owner=1, key=key) + frame(SEND, 1, 0, 1, owner=1) + frame(SEND, 2, 0, 0)
    lines = (
        "1 ok send from 1 number 0 owner 1 seq 0 value 0\n2 refused 4 BadTag\n3 refused 2 UnknownSender\n"
    )
    shows(with_files(files, ["check", "--genesis", "genesis", "--keys", "keys"], stream), 0, lines)


def test_genesis_without_keys():
    alone = {"members": 1, "faults": 0, "opening": [7]}
    stream = frame(SEND, 0, 0, 0) + frame(SEND, 1, 0, 0)
    lines = "1 refused 2 UnknownSender\n2 refused 2 UnknownSender\n"
    shows(with_files({"g": alone}, ["check", "--genesis", "g"], stream), 0, lines, of="a member alone")
    two = {"members": 2, "faults": 0, "opening": [7, 0]}
    stream = frame(SEND, 0, 1, 0) + frame(SEND, 2, 1, 0) + frame(SEND, 0, 0, 1)
    lines = "1 ok send from 0 number 0 owner 0 seq 0 value 0\n2 refused 2 UnknownSender\n3 refused 1 NotForMe\n"
    shows(with_files({"g": two}, ["check", "--genesis", "g"], stream), 0, lines)
    for members in (64, 65, 128):
        many = {"members": members, "faults": (members - 1) // 3, "opening": members * [0]}
        last = members - 1
        line = f"1 ok ready from {last} number 0 owner {last} seq 0 value 0\n"
        shows(with_files({"g": many}, ["check", "--genesis", "g"], frame(READY, last, 1, 0, owner=last)), 0, line)


# Commands that read these files, of which a node reads one more after them.
COMMANDS = ["check"], ["desk"], ["node", "--ports", "bad"]
KEYS = {"own": 0, "keys": key_texts(0)}


def test_each_fault_of_a_genesis():
    for content, fault in GENESIS_ROWS:
        for words in COMMANDS:
            was = with_files({"g": content, "bad": "{"}, [*words, "--genesis", "g", "--keys", "bad"], TWICE)
            shows(was, 2, "", of_file(f"genesis {fault}", "g"), of=f"{words} {content!r}")


def test_genesis_as_it_may_be_written():
    for content in (
        '\t{ "x" : {"members": 1}, "members" :4,\r\n"faults":1,"opening":[ 100 ,0,0,50] } \n',
        '{"members":9,"faults":1,"opening":[100,0,0,50],"members":4}',
        '{"\\u006dembers":4,"faults":1,"opening":[100,0,0,50]}',
        {"members": 4, "faults": 0, "opening": [2**63 - 1, 0, 0, 0]},
    ):
        was = with_files({"g": content}, ["check", "--genesis", "g"], TWICE)
        shows(was, 0, TAKEN_LINE + REPEAT_LINE, of=f"{content!r}")


def test_each_fault_of_keys():
    for content, fault in KEYS_ROWS:
        files = {"k": content, "g": GENESIS, "bad": "{"}
        for words in (["check"], *([*it, "--genesis", "g"] for it in COMMANDS)):
            shows(with_files(files, [*words, "--keys", "k"], TWICE), 2, "", of_keys(fault, "k", content), of=f"{words}")


def test_keys_are_judged_by_the_genesis():
    five = {"members": 5, "faults": 1, "opening": 5 * [0]}
    keys = {"own": 4, "keys": key_texts(4, 5)}
    words = ["check", "--genesis", "g", "--keys", "k"]
    line = "1 ok send from 0 number 0 owner 4 seq 0 value 0\n"
    shows(with_files({"g": five, "k": keys}, words, frame(SEND, 0, 4, 0, owner=4)), 0, line)
    shows(with_files({"g": GENESIS, "k": keys}, words), 2, "", of_file("keys 3 BadOwn", "k"))
    shows(with_files({"k": keys}, ["check", "--keys", "k"]), 2, "", of_file("keys 3 BadOwn", "k"), of="no genesis")


def test_files_that_cannot_be_read():
    for name in ("none", ".", "x/y", ""):
        for option in ("--genesis", "--keys"):
            was = with_files({"x": ""}, ["check", option, name], TWICE)
            shows(was, 2, "", f"payd: file {name}\n", of=f"{option} {name!r}")


def test_long_file(folder):
    name = os.path.join(folder, "long")
    with open(name, "wb") as file:
        file.truncate(1073741825)
    for option in ("--genesis", "--keys"):
        shows(run(["check", option, name], TWICE), 2, "", f"payd: file {name}\n", of=option)


def test_first_fault_of_files():
    """In whatever order the options stand."""
    files = {"bad": "{", "shape": "[]", "genesis": GENESIS, "keys": KEYS}
    rows = [
        ("bad", "bad", "genesis 1 BadJson"), ("bad", "none", "genesis 1 BadJson"), ("none", "bad", "file none"),
        ("genesis", "bad", "keys 1 BadJson"), ("genesis", "shape", "keys 2 BadShape"),
        ("genesis", "none", "file none"), ("genesis", ".", "file ."),
    ]
    asked = [(words, genesis, keys, line) for words in COMMANDS for genesis, keys, line in rows]
    of_ports = ("bad", "ports 1 BadJson"), ("shape", "ports 2 BadShape"), ("none", "file none"), (".", "file .")
    for ports, line in of_ports:
        asked.append((["node", "--ports", ports], "genesis", "keys", line))
    for words, genesis, keys, line in asked:
        options = ["--genesis", genesis], ["--keys", keys], words[1:]
        name = {"genesis": genesis, "keys": keys, "ports": words[-1]}.get(line.split()[0])
        errors = of_file(line, name) if name else f"payd: {line}\n"
        for given in (options, options[::-1]):
            shows(with_files(files, [words[0], *sum(given, [])], TWICE), 2, "", errors, of=f"{words} {given}")


def test_files_from_a_pipe():
    source, sink = os.pipe()
    os.write(sink, json.dumps(GENESIS).encode())
    os.close(sink)
    done = subprocess.run(
        [payd(), "check", "--genesis", f"/dev/fd/{source}"],
        input=TWICE,
        capture_output=True,
        pass_fds=[source],
        timeout=SECONDS,
    )
    os.close(source)
    same((done.returncode, done.stdout.decode(), done.stderr), (0, TAKEN_LINE + REPEAT_LINE, b""), "a pipe")
