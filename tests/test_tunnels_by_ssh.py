"""Tests of `payd group tunnels --as ssh` with an sshd of their own on the loopback: what a peer's key opens, and that
it opens nothing else. Each peer has an address of its own on the loopback, since all machines are this one."""

import contextlib
import getpass
import os
import re
import shutil
import socket
import subprocess
import tempfile

import pytest

from support.nodes import free_ports, until
from support.runs import SECONDS, read_text, same, write_text
from support.units import command_in
from test_group import does, put

NAMES = "ada", "bob", "cy", "dee"
# The member at whose machine the others come in, one who does, and another whose port it isn't to take.
OWN, PEER, OTHER = 3, 0, 1
SSHD = "sshd", "/usr/sbin/sshd"
ADDRESSES = [f"127.0.0.{own + 2}" for own in range(len(NAMES))]
NEAR = ADDRESSES[PEER]


def server_path():
    return next(filter(None, map(shutil.which, SSHD)))


class Machine:
    """The machine of member OWN: an sshd as its `sshd.conf` has it, which a change may widen, and a service on each of
    the members' ports and one more."""

    def __init__(self, stack, change=lambda config, keys: (config, keys)):
        self.stack, self.folder = stack, stack.enter_context(tempfile.TemporaryDirectory())
        self.port, self.foreign, *self.ports = free_ports(6)
        self.log = os.path.join(self.folder, "log")
        self.make_files()
        made = os.path.join(self.folder, f"tunnels-{OWN}")
        config, keys = change(*(read_text(os.path.join(made, it)) for it in ("sshd.conf", "authorized_keys")))
        write_text(os.path.join(made, "authorized_keys"), keys)
        self.start_server(config)

    def make_files(self):
        lines = [does(self.folder, "new", "--name", it, f"{it}.secret").strip() for it in NAMES]
        words = "--faults", "1", "--opening", "5,..", "--ports", ",".join(map(str, self.ports))
        words += "--hosts", ",".join(4 * ["127.0.0.1"]), *lines
        put(self.folder, "group.json", does(self.folder, "make", *words))
        for own in (PEER, OTHER, OWN):
            words = "--as", "ssh", "--port", f"{self.port}", "group.json", f"{NAMES[own]}.secret", f"tunnels-{own}"
            does(self.folder, "tunnels", *words)

    def start_server(self, config):
        """Starts sshd, for the user who runs this in place of the one that tunnels have."""
        host = os.path.join(self.folder, "host")
        subprocess.run(["ssh-keygen", "-q", "-t", "ed25519", "-N", "", "-f", host], check=True)
        public = read_text(f"{host}.pub")
        write_text(os.path.join(self.folder, "known"), f"[127.0.0.1]:{self.port} {public}")
        server = [f"ListenAddress 127.0.0.1:{self.port}", f"HostKey {host}", "StrictModes no", "PidFile none"]
        config = config.replace("Match User payd-tunnel", f"Match User {getpass.getuser()}")
        write_text(os.path.join(self.folder, "config"), "\n".join([*server, config]))
        if os.getuid() == 0:
            # where sshd wants to find it, and its service makes it
            os.makedirs("/run/sshd", exist_ok=True)
        self.start([server_path(), "-D", "-e", "-f", os.path.join(self.folder, "config")], self.log)
        until(lambda: "Server listening" in read_text(self.log), True, of="sshd")

    def start(self, words, log):
        said = self.stack.enter_context(open(log, "ab"))
        child = subprocess.Popen(words, stdin=subprocess.DEVNULL, stdout=said, stderr=said)
        self.stack.callback(lambda: (child.kill(), child.wait()))
        return child

    def serve(self, address, port):
        """Returns a listener there, until the test ends."""
        return self.stack.enter_context(socket.create_server((address, port)))

    def command(self, own):
        """Returns the command of a peer's unit, with the peer's end on its own address."""
        words = command_in(read_text(os.path.join(self.folder, f"tunnels-{own}", f"payd-tunnel-{OWN}.service")))
        known = f"UserKnownHostsFile={self.folder}/known"
        words = ["ssh", "-F", "none", "-o", known, "-l", getpass.getuser(), *words[1:]]
        words[words.index("-L") + 1] = f"{ADDRESSES[own]}:{self.ports[OWN]}:127.0.0.1:{self.ports[OWN]}"
        words[words.index("-R") + 1] = f"127.0.0.1:{self.ports[own]}:{ADDRESSES[own]}:{self.ports[own]}"
        return words

    def with_key(self, own, *words):
        """Returns a command of that peer by its key: with these words in place of the ways of its unit."""
        command = self.command(own)
        at = command.index("-L")
        return [it for it in command[:at] if it != "-N"] + [*words[:-1], command[-1], *words[-1:]]

    def join(self, own):
        """Starts a peer's tunnel, which stands when its port is open at the machine."""
        self.start(self.command(own), os.path.join(self.folder, f"log-{own}"))
        until(lambda: can_connect("127.0.0.1", self.ports[own]), True, of=f"the tunnel of {own}")


@contextlib.contextmanager
def machine(change=lambda config, keys: (config, keys)):
    with contextlib.ExitStack() as stack:
        yield Machine(stack, change)


def can_connect(address, port):
    with contextlib.suppress(ConnectionRefusedError):
        socket.create_connection((address, port), timeout=SECONDS).close()
        return True
    return False


def passes(listener, address, port):
    """Whether bytes come both ways between a port and a listener."""
    listener.settimeout(2)
    try:
        with socket.create_connection((address, port), timeout=SECONDS) as near:
            near.sendall(b"frame")
            while True:
                far, _ = listener.accept()
                with far:
                    if far.recv(5, socket.MSG_WAITALL) == b"frame":
                        far.sendall(b"reply")
                        return near.recv(5, socket.MSG_WAITALL) == b"reply"
    except (TimeoutError, ConnectionError):
        return False


# ---- what a peer tries by its key


def socket_is_made(at):
    """A socket in the folder of the member, as a false desk or in place of a file that its node makes."""
    path = os.path.join(at.folder, "desk")
    child = at.start(at.with_key(PEER, "-N", "-R", f"{path}:{NEAR}:{at.ports[PEER]}", "true")[:-1], at.log + "-made")
    until(lambda: os.path.exists(path) or child.poll() is not None, True, of="a socket, or the end")
    return os.path.exists(path)


def socket_is_reached(at):
    """The desk of the member."""
    path, port = os.path.join(at.folder, "socket"), free_ports(1)[0]
    desk = at.stack.enter_context(socket.socket(socket.AF_UNIX))
    desk.bind(path)
    desk.listen()
    return goes(at, f"{NEAR}:{port}:{path}", port, desk)


def port_is_taken(at):
    """That of another member, who then can't listen there itself."""
    words = at.with_key(PEER, "-N", "-R", f"127.0.0.1:{at.ports[OTHER]}:{NEAR}:{at.ports[PEER]}", "true")[:-1]
    child = at.start(words, at.log + "-taken")
    until(lambda: can_connect("127.0.0.1", at.ports[OTHER]) or child.poll() is not None, True, of="a port, or the end")
    return can_connect("127.0.0.1", at.ports[OTHER])


def port_is_reached(at):
    """That of something else on the machine."""
    port = free_ports(1)[0]
    return goes(at, f"{NEAR}:{port}:127.0.0.1:{at.foreign}", port, at.serve("127.0.0.1", at.foreign))


def goes(at, way, port, listener):
    """Whether a way from a port of the peer leads to a listener."""
    child = at.start(at.with_key(PEER, "-N", "-L", way, "true")[:-1], at.log + "-way")
    until(lambda: can_connect(NEAR, port) or child.poll() is not None, True, of="the near end, or the end")
    return passes(listener, NEAR, port)


def command_is_run(at):
    path = os.path.join(at.folder, "ran")
    subprocess.run(at.with_key(PEER, f"touch {path}"), capture_output=True, timeout=SECONDS, check=False)
    return os.path.exists(path)


ATTEMPTS = socket_is_made, socket_is_reached, port_is_taken, port_is_reached, command_is_run


def widened(config, keys):
    """A user for whom sshd has no rules, and keys of which nothing is said."""
    config = re.match("(?s).*?AuthorizedKeysFile.*?\n", config)[0]
    return config, re.sub("(?m)^restrict.* (ssh-ed25519 )", r"\1", keys)


@pytest.mark.needs(*SSHD)
@pytest.mark.needs("ssh")
def test_peers_reach_the_port_and_listen_on_their_own():
    with machine() as at:
        here = at.serve("127.0.0.1", at.ports[OWN])
        for peer in (PEER, OTHER):
            there = at.serve(ADDRESSES[peer], at.ports[peer])
            at.join(peer)
            same(passes(there, "127.0.0.1", at.ports[peer]), True, f"from here to {NAMES[peer]}")
            same(passes(here, ADDRESSES[peer], at.ports[OWN]), True, f"from {NAMES[peer]} to here")


@pytest.mark.needs(*SSHD)
@pytest.mark.needs("ssh")
def test_a_peers_key_opens_nothing_else():
    with machine() as at:
        for attempt in ATTEMPTS:
            same(attempt(at), False, f"{attempt.__name__} by the key of {NAMES[PEER]}")
        same("Accepted publickey" in read_text(at.log), True, "that the key was let in")
        # and the port that another member has is still free for it
        there = at.serve(ADDRESSES[OTHER], at.ports[OTHER])
        at.join(OTHER)
        same(passes(there, "127.0.0.1", at.ports[OTHER]), True, f"from here to {NAMES[OTHER]}")


@pytest.mark.needs(*SSHD)
@pytest.mark.needs("ssh")
def test_without_the_rules_the_key_opens_all_of_this():
    """So each of these attempts is one."""
    with machine(widened) as at:
        for attempt in ATTEMPTS:
            same(attempt(at), True, attempt.__name__)


@pytest.mark.needs(*SSHD)
@pytest.mark.needs("ssh")
def test_rules_of_the_server_bound_keys_without_any():
    """A key that an administrator adds by itself makes no socket, runs nothing and reaches no other port."""
    with machine(lambda config, keys: (config, widened(config, keys)[1])) as at:
        for attempt in ATTEMPTS:
            same(attempt(at), attempt is port_is_taken, attempt.__name__)


@pytest.mark.needs(*SSHD)
@pytest.mark.needs("ssh")
def test_a_key_of_no_peer_is_let_in_nowhere():
    """That of two other members, whom this one isn't among."""
    with machine() as at:
        words = at.with_key(PEER, "-N", "true")[:-1]
        words[words.index("-i") + 1] = os.path.join(at.folder, f"tunnels-{PEER}", f"to-{OTHER}.key")
        done = subprocess.run(words, capture_output=True, text=True, timeout=SECONDS, check=False)
        same((done.returncode, "Permission denied (publickey)" in done.stderr), (255, True), done.stderr)


def test_files_of_a_server_are_for_it_to_read():
    """Whatever the umask; secrets are for their owner alone."""
    with machine_files(0o077) as folder:
        modes = {it: os.stat(os.path.join(folder, "made", it)).st_mode & 0o777 for it in os.listdir(f"{folder}/made")}
        wanted = {"sshd.conf": 0o644, "authorized_keys": 0o644, "to-2.key": 0o600, "payd-tunnel-2.service": 0o644}
        same({it: modes[it] for it in wanted}, wanted, "who may read them")
        same(os.stat(os.path.join(folder, "made")).st_mode & 0o777, 0o755, "who may enter")


@contextlib.contextmanager
def machine_files(umask):
    with tempfile.TemporaryDirectory() as folder:
        lines = [does(folder, "new", f"{own}.secret").strip() for own in range(4)]
        made = does(folder, "make", "--faults", "1", "--opening", "5,..", "--hosts", "a,b,c,d", *lines)
        put(folder, "group.json", made)
        was = os.umask(umask)
        try:
            does(folder, "tunnels", "--as", "ssh", "group.json", "1.secret", "made")
        finally:
            os.umask(was)
        yield folder
