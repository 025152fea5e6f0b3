"""Black-box tests of what the program says behind the line of a fault: where, why, and what to do.

What all other tests see of it is checked in support/advices.py.
"""

import os
import re
import socket
import subprocess
import tempfile

import pytest

from support.advices import DISK, MOVE_AWAY, NO_MEMORY, last_lines
from support.nodes import Group, free_ports, until, write_json
from support.restarts import Folders
from support.runs import GENESIS, SECONDS, key_texts, payd, same, write_text

OPENING = [100, 0, 0, 50]


def errors_of(words, folder=None, stream=b"", **how):
    """All that a run says on standard error, which is to fail."""
    done = subprocess.run([payd(), *words], cwd=folder, input=stream, capture_output=True, timeout=SECONDS, **how)
    same(done.returncode > 1, True, f"the status of {words}: {done.returncode} {done.stdout!r}")
    return done.stderr.decode()


def says(errors, fault, advice, of):
    same(errors, f"payd: {fault}\npayd: {advice}\n", of)


# ---- files


def test_a_file_that_cannot_be_read_has_its_reason():
    with tempfile.TemporaryDirectory() as folder:
        write_text(os.path.join(folder, "file"), "{}")
        os.symlink("loop", os.path.join(folder, "loop"))
        with open(os.path.join(folder, "long"), "wb") as file:
            file.truncate((1 << 30) + 1)
        for name, why in (
            ("gone", "there is no such file or folder"),
            (".", "it is a folder"),
            ("file/x", "a part of its path is no folder"),
            ("loop", "links of its path lead in a circle"),
            ("n" * 300, "no file can have this name"),
            ("long", "it has more than 1073741824 bytes"),
        ):
            for words in (["check", "--genesis", name], ["audit", name], ["statement", name], ["journal", name]):
                says(errors_of(words, folder), f"file {name}", f"cannot read {name}: {why}", f"{words}")


def test_a_file_that_is_anothers_has_its_reason(folder):
    if os.getuid() != 0:
        pytest.skip("only root can be another user")
    os.chmod(folder, 0o711)
    secret, program = os.path.join(folder, "secret"), os.path.join(folder, "payd")
    write_text(secret, "{}")
    os.chmod(secret, 0o600)
    with open(payd(), "rb") as source, open(program, "wb") as copy:
        copy.write(source.read())
    os.chmod(program, 0o755)
    done = subprocess.run([program, "audit", secret], capture_output=True, text=True, user=65534, timeout=SECONDS)
    says(done.stderr, f"file {secret}", f"cannot read {secret}: you may not", "another user's file")


# ---- ports and sockets


def node_words(folder, ports):
    write_json(folder, "g", {"members": 2, "faults": 0, "opening": [5, 5]})
    write_json(folder, "k", {"own": 0, "keys": key_texts(0, 2)})
    write_json(folder, "p", {"ports": ports})
    return ["node", "--genesis", "g", "--keys", "k", "--ports", "p", "--dials", "1"]


def test_a_port_that_another_program_has():
    with tempfile.TemporaryDirectory() as folder, socket.socket() as taken:
        ports = free_ports(2)
        taken.bind(("127.0.0.1", ports[0]))
        taken.listen()
        errors = errors_of(node_words(folder, ports), folder)
        advice = f"cannot bind 127.0.0.1:{ports[0]}: another program has it"
        says(last_lines(errors), f"port {ports[0]}", advice, "a port that is taken")


def test_a_socket_that_cannot_be_had():
    with tempfile.TemporaryDirectory() as folder, socket.socket(socket.AF_UNIX) as taken:
        words = node_words(folder, free_ports(2))
        write_text(os.path.join(folder, "file"), "")
        taken.bind(os.path.join(folder, "taken"))
        taken.listen()
        for name, why in (
            ("taken", "another program has it"),
            ("gone/desk", "there is no such file or folder"),
            ("file/desk", "a part of its path is no folder"),
        ):
            errors = last_lines(errors_of([*words, "--socket", name], folder))
            says(errors, f"socket {name}", f"cannot listen on {name}: {why}", name)
        errors = last_lines(errors_of([*words, "--socket", "file"], folder))
        says(errors, "socket file", f"file is a file: {MOVE_AWAY}", "a file of this name")


# ---- disks and logs


def test_a_folder_that_cannot_be_written():
    with Folders(OPENING, running=[]) as group:
        place = group.place.name
        words = ["--genesis", "genesis", "--keys", "keys-0"]
        node = ["node", *words, "--ports", "ports", "--data"]
        errors = last_lines(errors_of([*node, "genesis", "--new"], place))
        why = "cannot use genesis: a part of its path is no folder: mend that, and start again"
        says(errors, "log 1 Disk", why, "a file in place of a folder")
        errors = last_lines(errors_of([*node, "away/member", "--new"], place))
        why = "cannot use away/member: there is no such file or folder: mend that, and start again"
        says(errors, "log 1 Disk", why, "a folder that can't be made")
        same(os.path.exists(os.path.join(place, "away")), False, "whether it was made")


def run_where(call_of, error, path, words, folder):
    """Status, output and errors of a run in which these calls of a file fail so."""
    inject = f"inject={call_of}:error={error}"
    traced = ["strace", "-f", "-qq", "-o", os.devnull, "-P", path, "-e", inject, payd(), *words]
    how = {"cwd": folder, "input": "", "capture_output": True, "text": True, "timeout": SECONDS}
    done = subprocess.run(traced, check=False, **how)
    return done.returncode, done.stdout, re.sub(r"(?m)^strace: .*\n", "", done.stderr)


@pytest.mark.needs("strace")
def test_a_disk_that_is_full():
    """Writes fail so; a length that can't be set does in another way, for which the system has no word. What is said is
    of that moment: nothing more is written."""
    with Folders(OPENING, running=[0]) as group:
        group.kill(0)
        folder = os.path.join(group.place.name, "data-0")
        with open(os.path.join(folder, "log"), "ab") as log:
            log.write(b"a torn end")
        words = ["node", "--genesis", "genesis", "--keys", "keys-0", "--ports", "ports", "--data", "data-0"]
        before = sorted(os.listdir(folder))
        for name, call_of, error, why in (
            ("log.new", "ftruncate", "EINVAL", f"data-0: {DISK}"),
            ("log.dropped", "write", "ENOSPC", "cannot use data-0: the disk is full: mend that, and start again"),
        ):
            path = os.path.join(folder, name)
            status, _, errors = run_where(call_of, error, path, words, group.place.name)
            says(last_lines(errors), "log 1 Disk", why, f"{name} on a disk that is full")
            same(status, 4, f"the status with {name}")
            same(sorted({*os.listdir(folder)} - {"log.new", "log.dropped"}), before, f"what is left after {name}")


@pytest.mark.needs("strace")
def test_an_export_writes_nothing_where_a_read_fails():
    with Folders(OPENING, running=[0]) as group:
        group.kill(0)
        folder = os.path.join(group.place.name, "data-0")
        before = os.stat(folder).st_mtime_ns, sorted(os.listdir(folder))
        words = ["export", "--genesis", "genesis", "--keys", "keys-0", "--data", "data-0"]
        path = os.path.join(folder, "log")
        status, output, errors = run_where("read,pread64,readv", "EIO", path, words, group.place.name)
        same((status, output), (4, ""), f"the status: {errors}")
        says(errors, "log 1 Disk", f"data-0: {DISK}", "a log that can't be read")
        same((os.stat(folder).st_mtime_ns, sorted(os.listdir(folder))), before, "the folder")


# ---- all else


def test_no_memory():
    """Refused at the start, by a bound of all addresses that lets the program load."""
    with Group(OPENING, running=[]) as group:
        write_json(group.place.name, "big", {**GENESIS, "rest": ["x" * 1000] * 200_000})
        words = ["prlimit", f"--as={1 << 28}", payd(), "check", "--genesis", "big"]
        done = subprocess.run(words, cwd=group.place.name, capture_output=True, text=True, timeout=SECONDS)
        same((done.returncode, done.stderr.splitlines()[-1]), (3, f"payd: {NO_MEMORY}"), done.stderr)
        until(lambda: os.path.exists(os.path.join(group.place.name, "big")), True, of="the file")
