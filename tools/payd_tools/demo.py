"""Runs four members with names on this machine, each with its page, until it is interrupted: to try what payd is.

usage: payd demo [--keep FOLDER]

It makes a group of ada, bob, cy and dee, of whom one may lie, with 100.00 EUR each, in a folder of its own. It starts
their nodes, has ada pay bob, and prints the address of each page. All ends with Ctrl-C, and the folder goes; --keep
makes FOLDER, which may not be there yet, and leaves it: `payd node --data FOLDER/ada` then goes on with that member.

The keys are real, and the program is the one that `payd` runs. All four members on one machine prove nothing to
anybody: a group has each on its member's own.
"""

from __future__ import annotations

import contextlib
import ctypes
import os
import random
import shutil
import signal
import socket
import subprocess
import sys
import tempfile
import time
from typing import BinaryIO

from payd_tools import nearby_program, usage
from payd_tools.desk_client import Desk, NoAnswer, socket_in
from payd_tools.usage import Failure

NAMES = "ada", "bob", "cy", "dee"
OPENING, PAID, NOTE = "100.00", "12.50", "Pizza Friday"
# How long a node may take to answer at first, in seconds, and of which ports they have some.
SECONDS, PORTS = 60, range(12_000, 30_000)
# What the system sends a child whose parent is gone.
SET_DEATH_SIGNAL = 1


def free_ports(count: int) -> list[int]:
    """Returns `count` ports of the loopback that nobody has."""
    found = []
    with contextlib.ExitStack() as taken:
        for port in random.sample(PORTS, len(PORTS)):
            stream = taken.enter_context(socket.socket())
            with contextlib.suppress(OSError):
                stream.bind(("127.0.0.1", port))
                found.append(port)
            if len(found) == count:
                return found
    raise Failure("no ports are free")


def does(tool: str, *words: str, folder: str | None = None) -> str:
    """Returns what a tool beside this one prints."""
    words = [os.path.join(nearby_program.HERE, tool), *words]
    done = subprocess.run(words, cwd=folder, stdin=subprocess.DEVNULL, stdout=subprocess.PIPE, stderr=subprocess.PIPE)
    if done.returncode != 0:
        raise Failure(done.stderr.decode().strip().rpartition("\n")[2])
    return done.stdout.decode()


def make_group(folder: str) -> None:
    """Makes the group's file and each member's keys, as its members would."""
    handed = [does("group", "new", "--name", it, f"{it}.secret", folder=folder).strip() for it in NAMES]
    ports = ",".join(map(str, free_ports(len(NAMES))))
    words = ["--faults", "1", "--opening", f"{OPENING},..", "--unit", "EUR", "--decimals", "2", "--ports", ports]
    with open(os.path.join(folder, "group.json"), "w", encoding="utf-8") as file:
        file.write(does("group", "make", *words, *handed, folder=folder))
    for it in NAMES:
        does("group", "keys", "group.json", f"{it}.secret", f"{it}.keys.json", folder=folder)


def end_with_parent() -> None:
    ctypes.CDLL(None).prctl(SET_DEATH_SIGNAL, signal.SIGTERM)


class Demo:
    """The processes of four members in a folder. After its `with` none is left."""

    def __init__(self, folder: str) -> None:
        self.folder, self.children = folder, []

    def __enter__(self) -> Demo:
        return self

    def __exit__(self, *_: type | KeyboardInterrupt | object) -> None:
        for it in self.children:
            it.kill()
            it.wait()

    def start(self, *words: str, **how: int | BinaryIO) -> subprocess.Popen:
        # (of another session, so that Ctrl-C ends this one alone, which then ends all)
        how = {"cwd": self.folder, "start_new_session": True, "preexec_fn": end_with_parent, **how}
        self.children.append(subprocess.Popen(words, **how))
        return self.children[-1]

    def start_node(self, name: str, program: str) -> tuple[subprocess.Popen, str]:
        files = ["--genesis", "group.json", "--keys", f"{name}.keys.json", "--ports", "group.json"]
        said = os.path.join(self.folder, f"{name}.log")
        with open(said, "wb") as errors:
            words = [program, "node", *files, "--data", name, "--dials", "always", "--new"]
            node = self.start(*words, stdin=subprocess.PIPE, stdout=subprocess.DEVNULL, stderr=errors)
        return node, said

    def wait_for(self, name: str, node: subprocess.Popen, said: str) -> list[str]:
        """Waits until a node answers."""
        desk, deadline = Desk(socket_in(os.path.join(self.folder, name))), time.monotonic() + SECONDS
        while True:
            try:
                return desk.ask("FRONT")
            except NoAnswer as why:
                if node.poll() is not None or time.monotonic() > deadline:
                    with open(said, encoding="utf-8", errors="replace") as file:
                        text = file.read().strip()
                    raise Failure(nearby_program.reason_in(text) if text else str(why)) from why
                time.sleep(0.1)

    def page_of(self, name: str) -> str:
        """Returns the address of a member's page, which is served from now on."""
        words = [os.path.join(nearby_program.HERE, "desk-page"), "--data", name]
        return self.start(*words, stdout=subprocess.PIPE, text=True).stdout.readline().strip()

    def run(self) -> None:
        program = nearby_program.program()
        make_group(self.folder)
        nodes = [(it, *self.start_node(it, program)) for it in NAMES]
        for it in nodes:
            self.wait_for(*it)
        does("pay", "--data", NAMES[0], "--yes", "--order", "demo", "--note", NOTE, NAMES[1], PAID, folder=self.folder)
        print(f'{NAMES[0]} paid {PAID} EUR to {NAMES[1]} "{NOTE}". Each member has a page:')
        for it in NAMES:
            print(f"  {it}: {self.page_of(it)}")
        print(f"Try it: open the pages of {NAMES[0]} and {NAMES[1]} side by side, and pay from one to the other.")
        print(f"In another terminal: payd pay --data {usage.shown(self.folder)}/{NAMES[0]} {NAMES[2]} 5")
        print("Ctrl-C ends all.", flush=True)
        while all(it.poll() is None for it in self.children):
            time.sleep(0.2)
        raise Failure("a node or a page ended by itself")


def be_interrupted(*_: int | object) -> None:
    for it in (signal.SIGINT, signal.SIGTERM, signal.SIGHUP):
        signal.signal(it, signal.SIG_IGN)
    raise KeyboardInterrupt


@usage.tool()
def main() -> int:
    words = usage.parser(__doc__)
    words.add_argument("--keep", metavar="FOLDER", help="the folder that is made, and left")
    keep = words.parse_args().keep
    sys.stdout.reconfigure(line_buffering=True)
    for it in (signal.SIGINT, signal.SIGTERM, signal.SIGHUP):
        signal.signal(it, be_interrupted)
    if keep is not None:
        try:
            os.mkdir(keep, 0o700)
        except OSError as error:
            raise Failure(f"{keep}: {error.strerror}: --keep takes a folder that isn't there yet") from error
    folder = os.path.abspath(keep) if keep else tempfile.mkdtemp(prefix="payd-demo-")
    try:
        with Demo(folder) as demo:
            demo.run()
    except KeyboardInterrupt:
        print(f"All have ended; {usage.shown(folder)} is left." if keep else "All have ended.")
        return 0
    finally:
        if not keep:
            shutil.rmtree(folder, ignore_errors=True)
