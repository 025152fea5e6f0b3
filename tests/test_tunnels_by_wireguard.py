"""Tests of `payd group tunnels --as wireguard`: keys as wg has them, and members on machines of the tests' own (network
namespaces), who reach one another's ports by these tunnels and nothing else."""

import base64
import contextlib
import json
import os
import re
import shutil
import stat
import subprocess
import tempfile

import pytest

from support.namespaces import inside, machines, refusal
from support.nodes import until
from support.relay import address
from support.runs import SECONDS, read_text, same, write_text
from support.units import command_in
from test_group import does, put

NAMES = "ada", "bob", "cy", "dee"
PORTS = [11000, 11001, 11002, 11003]
# Something else that listens on a machine, on all its addresses.
FOREIGN = 7777


@contextlib.contextmanager
def set_up():
    """A folder with what each member of a group makes for its tunnels."""
    with tempfile.TemporaryDirectory() as folder:
        lines = [does(folder, "new", "--name", it, f"{it}.secret").strip() for it in NAMES]
        hosts = ",".join(address(own) for own in range(len(NAMES)))
        put(folder, "group.json", does(folder, "make", "--faults", "1", "--opening", "5,..", "--hosts", hosts, *lines))
        for own, name in enumerate(NAMES):
            words = "--as", "wireguard", "--port", "5000", "group.json", f"{name}.secret", f"made-{own}"
            does(folder, "tunnels", *words)
        yield folder


def config_of(folder, own):
    return read_text(os.path.join(folder, f"made-{own}", "payd.conf"))


def parts(text, name):
    return re.findall(f"(?m)^{name} = (.*)$", text)


@pytest.mark.needs("wg")
def test_keys_are_those_of_the_group():
    """The private one is the member's secret, of which wg makes the public one that the group's file has."""
    with set_up() as folder:
        public = [it[:64] for it in json.loads(read_text(os.path.join(folder, "group.json")))["public"]]
        for own, name in enumerate(NAMES):
            text, peers = config_of(folder, own), [it for it in range(len(NAMES)) if it != own]
            [secret] = parts(text, "PrivateKey")
            own_secret = read_text(os.path.join(folder, f"{name}.secret")).strip()
            same(base64.b64decode(secret).hex(), own_secret, f"the secret of {name}")
            done = subprocess.run(["wg", "pubkey"], input=secret, capture_output=True, text=True, timeout=SECONDS)
            same((done.returncode, base64.b64decode(done.stdout).hex()), (0, public[own]), f"the public key of {name}")
            found = [base64.b64decode(it).hex() for it in parts(text, "PublicKey")]
            same(found, [public[it] for it in peers], f"the peers of {name}")
            same(parts(text, "Endpoint"), [f"{address(it)}:5000" for it in peers], f"their places for {name}")
            same(parts(text, "ListenPort"), ["5000"], f"the port of {name}")
            mode = stat.S_IMODE(os.stat(os.path.join(folder, f"made-{own}", "payd.conf")).st_mode)
            same(mode, 0o600, "who may read it")


@pytest.mark.needs("wg-quick")
def test_configuration_is_taken():
    with set_up() as folder:
        words = ["wg-quick", "strip", os.path.join(folder, "made-1", "payd.conf")]
        done = subprocess.run(words, capture_output=True, text=True, timeout=SECONDS)
        same((done.returncode, done.stderr), (0, ""), "wg-quick strip")
        same(len(parts(done.stdout, "PublicKey")), 3, "its peers")


# ---- between machines


def start(stack, own, *words):
    how = {"stdin": subprocess.DEVNULL, "stdout": subprocess.DEVNULL, "stderr": subprocess.DEVNULL}
    child = subprocess.Popen([*inside(own), *words], **how)
    stack.callback(lambda: (child.kill(), child.wait()))


def wg_quick(folder, own, word):
    """Makes the interface of a machine, or removes it; two machines here would share the name of one."""
    with open(os.path.join(folder, f"said-{own}"), "ab") as said:
        words = [*inside(own), "wg-quick", word, os.path.join(folder, f"payd{own}.conf")]
        how = {"stdin": subprocess.DEVNULL, "stdout": said, "stderr": said}
        # (what runs in place of the kernel's keeps what it is given open)
        status = subprocess.run(words, timeout=SECONDS, check=False, **how).returncode
    same(status, 0, f"wg-quick {word} at {own}: {read_text(os.path.join(folder, f'said-{own}'))}")


def join(stack, folder, own):
    """Has a machine do what its member's folder has for it, and serve on the member's port."""
    write_text(os.path.join(folder, f"payd{own}.conf"), config_of(folder, own))
    wg_quick(folder, own, "up")
    stack.callback(wg_quick, folder, own, "down")
    made = os.path.join(folder, f"made-{own}")
    for name in sorted(os.listdir(made)):
        if name.endswith(".service"):
            start(stack, own, *command_in(read_text(os.path.join(made, name))))
    start(stack, own, "socat", f"TCP4-LISTEN:{PORTS[own]},bind=127.0.0.1,fork,reuseaddr", "SYSTEM:cat")
    start(stack, own, "socat", f"TCP6-LISTEN:{FOREIGN},fork,reuseaddr", "SYSTEM:cat")


def echoed(own, where):
    """What comes back on a machine from there."""
    words = [*inside(own), "socat", "-t", "1", "-", f"{where},connect-timeout=2"]
    return subprocess.run(words, input=b"frame", capture_output=True, timeout=SECONDS, check=False).stdout


@pytest.mark.needs("wg-quick")
@pytest.mark.needs("nft")
@pytest.mark.needs("socat")
@pytest.mark.needs("ip")
def test_members_reach_each_others_ports_and_nothing_else():
    why = refusal()
    if why is None and not os.path.exists("/sys/module/wireguard") and not shutil.which("wireguard-go"):
        why = "no WireGuard in the kernel, and no wireguard-go"
    if why is not None:
        pytest.skip(why)
    with set_up() as folder, machines(3), contextlib.ExitStack() as stack:
        for own in range(3):
            join(stack, folder, own)
        for own in range(3):
            for peer in range(3):
                way = f"TCP4:127.0.0.1:{PORTS[peer]}"
                until(lambda own=own, way=way: echoed(own, way), b"frame", of=f"what {own} hears of {peer}")
        [there] = parts(config_of(folder, 1), "Address")
        foreign = f"TCP6:[{there.partition('/')[0]}]:{FOREIGN}"
        same(echoed(0, foreign), b"", "what else listens there")
        subprocess.run([*inside(1), "nft", "flush", "chain", "inet", "payd1", "input"], check=True)
        same(echoed(0, foreign), b"frame", "it without the rules")
