"""Tests of `payd group tunnels`: that what it makes is taken by the programs it is for, and leads where it should."""

import configparser
import contextlib
import glob
import json
import os
import re
import shutil
import socket
import stat
import subprocess
import tempfile

import pytest

from models import group_model
from support.nodes import free_ports, until
from support.runs import SECONDS, same
from support.units import command_in
from test_group import does, put, read, tool

MEMBERS = 4
NAMES, HOSTS = ["Ann", "Bob", "Cy", "Di"], ["a.example", "b.example", "c.example", "127.0.0.4"]
PORTS = [11000, 11001, 11002, 11003]


@contextlib.contextmanager
def set_up(ports=PORTS, hosts=HOSTS):
    """A folder with a group's file that has hosts, and each member's secret and keys."""
    members = len(ports)
    with tempfile.TemporaryDirectory() as folder:
        public = [does(folder, "new", f"{own}.secret").strip() for own in range(members)]
        words = ["--faults", "0", "--opening", ",".join(members * ["5"]), "--ports", ",".join(map(str, ports))]
        words += ["--names", ",".join(NAMES[:members]), "--hosts", ",".join(hosts)]
        put(folder, "group.json", does(folder, "make", *words, *public))
        for own in range(members):
            does(folder, "keys", "group.json", f"{own}.secret", f"keys-{own}")
        yield folder


def tunnels(folder, kind, own, *words):
    """The files of a member, by their names."""
    does(folder, "tunnels", "--as", kind, *words, "group.json", f"{own}.secret", f"{kind}-{own}")
    made = os.path.join(folder, f"{kind}-{own}")
    return {name: read(made, name) for name in sorted(os.listdir(made))}


def commands(files):
    """Those that the units start, by the units' names."""
    return {name: command_in(text) for name, text in files.items() if name.endswith(".service")}


# ---- ssh


def settings(words):
    """What ssh makes of its words."""
    done = subprocess.run(["ssh", "-F", "none", "-G", *words], capture_output=True, text=True, timeout=SECONDS)
    same((done.returncode, done.stderr), (0, ""), f"ssh -G {words}")
    return dict(line.split(" ", 1) for line in done.stdout.splitlines() if " " in line)


@pytest.mark.needs("ssh")
def test_ssh_joins_each_two_members_once():
    """The lesser one dials, and both find the other's port on their machine."""
    with set_up() as folder:
        joined = []
        for own in range(MEMBERS):
            for name, words in commands(tunnels(folder, "ssh", own)).items():
                told, peer = settings(words[1:]), int(re.fullmatch(r"payd-tunnel-(\d)\.service", name)[1])
                wanted = {
                    "hostname": HOSTS[peer],
                    "port": "22",
                    "user": "payd-tunnel",
                    "identityfile": f"{os.path.realpath(folder)}/ssh-{own}/to-{peer}.key",
                    "identitiesonly": "yes",
                    "forwardagent": "no",
                    "localforward": f"[127.0.0.1]:{PORTS[peer]} [127.0.0.1]:{PORTS[peer]}",
                    "remoteforward": f"[127.0.0.1]:{PORTS[own]} [127.0.0.1]:{PORTS[own]}",
                    "exitonforwardfailure": "yes",
                    "batchmode": "yes",
                    "serveraliveinterval": "15",
                    "serveralivecountmax": "3",
                }
                same({it: told[it] for it in wanted}, wanted, f"the tunnel of {own} and {peer}")
                joined.append((own, peer))
        pairs = [(own, peer) for own in range(MEMBERS) for peer in range(own + 1, MEMBERS)]
        same(joined, pairs, "who dials whom")


# ---- WireGuard


def test_wireguard_has_a_network_of_the_group():
    """socat leads from the peer's port here into it, and from it to the own port; what one listens on another meets."""
    with set_up() as folder:
        digest = group_model.keys(json.loads(read(folder, "group.json")), 0, bytes(32))["digest"]
        addresses = [f"[fd{digest[:2]}:{digest[2:6]}:{digest[6:10]}::{own + 1}]" for own in range(MEMBERS)]
        for own in range(MEMBERS):
            started = commands(tunnels(folder, "wireguard", own))
            [into] = (words for name, words in started.items() if name == "payd-tunnel-in.service")
            same(into[1].split(",")[:2], [f"TCP6-LISTEN:{PORTS[own]}", f"bind={addresses[own]}"], "where it comes in")
            same(into[2].split(",")[0], f"TCP4:127.0.0.1:{PORTS[own]}", "where that leads")
            for peer in range(MEMBERS):
                if peer != own:
                    out = started[f"payd-tunnel-{peer}.service"]
                    same(out[1].split(",")[:2], [f"TCP4-LISTEN:{PORTS[peer]}", "bind=127.0.0.1"], "where it goes out")
                    same(out[2].split(",")[0], f"TCP6:{addresses[peer]}:{PORTS[peer]}", "where that leads")


# ---- stunnel


def sections(text):
    found = configparser.ConfigParser(strict=False, comment_prefixes=(";",))
    found.read_string(f"[global]\n{text}")
    return {name: dict(found[name]) for name in found.sections()}


def test_stunnel_has_a_key_for_each_two_members():
    """Derived of theirs, and in a file of its owner alone; both ends of a pair name it alike."""
    with set_up() as folder:
        was = os.umask(0)
        try:
            files = [tunnels(folder, "stunnel", own) for own in range(MEMBERS)]
        finally:
            os.umask(was)
        keys = [dict(line.split(":") for line in it["psk.secret"].splitlines()) for it in files]
        for own in range(MEMBERS):
            held = json.loads(read(folder, f"keys-{own}"))["keys"]
            parts = sections(files[own]["stunnel.conf"])
            here = {"accept": "11999", "connect": f"127.0.0.1:{PORTS[own]}"}
            same(parts["in"], here, f"what comes in at {own}")
            for peer in range(MEMBERS):
                if peer != own:
                    pair = f"{min(own, peer)}-{max(own, peer)}"
                    derived = group_model.hkdf(bytes.fromhex(held[peer]), b"", b"payd stunnel").hex()
                    same((keys[own][pair], keys[peer][pair]), (derived, derived), f"the key of {own} and {peer}")
                    out = {"client": "yes", "accept": f"127.0.0.1:{PORTS[peer]}", "connect": f"{HOSTS[peer]}:11999"}
                    same(parts[f"peer-{peer}"], {**out, "pskidentity": pair}, f"the way from {own} to {peer}")
            mode = stat.S_IMODE(os.stat(os.path.join(folder, f"stunnel-{own}", "psk.secret")).st_mode)
            same(mode, 0o600, "who may read its keys")


@contextlib.contextmanager
def stunnels(folder, ports, way_in):
    """Those of two members on one machine, where the second has another address for each of the first."""
    with contextlib.ExitStack() as stack:
        for own, here in enumerate(("127.0.0.1", "127.0.0.2")):
            made = os.path.join(folder, f"stunnel-{own}")
            text = read(made, "stunnel.conf").replace("accept = 127.0.0.1", f"accept = {here}")
            text = text.replace("/run/credentials/payd-tunnels.service", made)
            text = text.replace(f"accept = {way_in}", f"accept = {here}:{way_in}")
            text = text.replace(f"connect = 127.0.0.1:{ports[own]}", f"connect = {here}:{ports[own]}")
            put(made, "moved.conf", text)
            said = stack.enter_context(open(os.path.join(made, "said"), "wb"))
            child = subprocess.Popen(["stunnel", os.path.join(made, "moved.conf")], stdout=said, stderr=said)
            stack.callback(lambda it=child: (it.kill(), it.wait()))
            until(lambda it=made: "Configuration successful" in read(it, "said"), True, of=f"stunnel of {own}")
        yield


def brought(listener, port):
    """What comes at a listener of what is sent to this port; nothing where that isn't let in."""
    with socket.create_connection(("127.0.0.1", port), timeout=SECONDS) as near:
        near.sendall(b"frame")
        listener.settimeout(2)
        try:
            far, _ = listener.accept()
        except TimeoutError:
            return b""
        with far:
            return far.recv(5, socket.MSG_WAITALL)


@pytest.mark.needs("stunnel")
def test_stunnel_leads_to_the_peer():
    """And lets nobody in who has another key."""
    way_in, *ports = free_ports(3)
    with set_up(ports, ["127.0.0.1", "127.0.0.2"]) as folder, socket.create_server(("127.0.0.2", ports[1])) as listener:
        for own in range(2):
            tunnels(folder, "stunnel", own, "--port", f"{way_in}")
        with stunnels(folder, ports, way_in):
            same(brought(listener, ports[1]), b"frame", "what member 1 is brought")
        made = os.path.join(folder, "stunnel-0")
        put(made, "psk.secret", f"0-1:{'00' * 32}\n")
        with stunnels(folder, ports, way_in):
            same(brought(listener, ports[1]), b"", "what one with another key brings")


# ---- all kinds


@pytest.mark.needs("systemd-analyze")
def test_service_manager_takes_the_units_of_tunnels():
    """With a harmless command in the place of each, which may not be installed here."""
    with set_up() as folder:
        for kind in ("ssh", "wireguard", "stunnel"):
            for text in tunnels(folder, kind, 0).values():
                for line in ("Restart=always", "RestartSec=5", "StartLimitIntervalSec=0", "WantedBy=multi-user.target"):
                    same("[Unit]" not in text or line in text.splitlines(), True, f"{kind}: {line}")
            units = glob.glob(os.path.join(folder, f"{kind}-0", "*.service"))
            for path in units:
                text = re.sub("(?m)^ExecStart=.*$", f"ExecStart={shutil.which('true')}", read("", path))
                put("", path, text)
            same(complaints(units), [], f"the units of {kind}")
            put("", units[0], text.replace("=always", "=alwys"))
            same(len(complaints(units)), 1, "one that is wrong is complained of")


def complaints(units):
    done = subprocess.run(["systemd-analyze", "verify", *units], capture_output=True, text=True, timeout=SECONDS)
    # (it looks at what the units stand on too, whose faults aren't theirs)
    return [line for line in done.stderr.splitlines() if "payd-tunnel" in line]


def test_no_tunnels():
    with set_up() as folder:
        group = json.loads(read(folder, "group.json"))
        put(folder, "short", "a\nb\nc\n")
        put(folder, "wrong", "a\nb\nc\n-oProxyCommand=x\n")
        put(folder, "bare.json", json.dumps({it: value for it, value in group.items() if it != "hosts"}))
        does(folder, "new", "other.secret")
        wrong = "hosts: that of member 3 isn't a host"
        taken = ["--as", "ssh", "group.json", "0.secret", "taken"]
        does(folder, "tunnels", *taken)
        for words, why in (
            (taken, "taken: File exists"),
            (
                ["--as", "ssh", "group.json", "other.secret", "new"],
                "other.secret: the secret's public key is none of the group's",
            ),
            (["--as", "ssh", "group.json", "group.json", "new"], "group.json: it is no secret that 'new' wrote"),
            (
                ["--as", "ssh", "bare.json", "0.secret", "new"],
                "the group's file has no hosts: --hosts takes a file with that of a member a line",
            ),
            (
                ["--as", "ssh", "--hosts", "short", "group.json", "0.secret", "new"],
                "hosts has to be a list with one for each of the 4 members",
            ),
            (["--as", "ssh", "--hosts", "wrong", "group.json", "0.secret", "new"], wrong),
            (
                ["--as", "stunnel", "group.json", "0.secret", "a folder"],
                "{folder}/a folder: a folder of tunnels has ASCII letters, digits and ._- in its path alone",
            ),
        ):
            why = why.replace("{folder}", os.path.realpath(folder))
            same(tool(folder, "tunnels", *words), (1, "", f"payd group: {why}\n"), f"{words}")
        same(os.path.exists(os.path.join(folder, "new")), False, "whether a folder was made")
        more = "group.json", "0.secret", "new"
        same(tool(folder, "tunnels", "--as", "carrier-pigeon", *more)[0], 2, "another kind")
        same(tool(folder, "tunnels", "--as", "ssh", "--port", "65536", *more)[0], 2, "no port")
