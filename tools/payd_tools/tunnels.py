"""Tunnels of a member to its peers, by ssh, WireGuard or stunnel: the files of one machine, by their names.

At each member the port of each peer leads to that port at the peer. A peer reaches this member's port by its tunnel,
and listens on the port of its own number, and on nothing else. All tunnels come back by themselves: the service manager
starts them again, and each end notices within a minute that the other one is gone.
"""

from __future__ import annotations

import base64
from collections import namedtuple
from typing import Iterator, Sequence

from payd_tools.groups import Failure, Group, derived, openssh_private, openssh_public

# Where tunnels come in at each member, unless another port is given.
PORTS = {"ssh": 22, "wireguard": 51820, "stunnel": 11999}
HERE = "127.0.0.1"
# The account that tunnels run as at both ends. It owns nothing, and isn't the one that nodes run as.
USER = "payd-tunnel"
# The folder where the service manager shows a unit the files that it needs.
SHOWN = "${CREDENTIALS_DIRECTORY}"
SECONDS, TIMES = 15, 3

UNIT = """[Unit]
Description={what}
After={after}
Wants={after}
# however often it has to be started again
StartLimitIntervalSec=0

[Service]
User={user}
{reads}ExecStart={command}
Restart=always
RestartSec=5
NoNewPrivileges=yes
PrivateTmp=yes
ProtectSystem=strict
ProtectHome=yes

[Install]
WantedBy=multi-user.target
"""

SSH_SERVER = """# For /etc/ssh/sshd_config.d/. Whoever comes in as {user} reaches this member's port, listens on
# the port of its own number, and does nothing else. sshd reads the keys only if their folder and all above it are
# root's.
Match User {user}
    AuthorizedKeysFile {folder}/authorized_keys
    AuthorizedKeysCommand none
    AuthenticationMethods publickey
    PermitOpen {here}:{own}
    PermitListen {peers}
    AllowTcpForwarding yes
    AllowStreamLocalForwarding no
    AllowAgentForwarding no
    X11Forwarding no
    GatewayPorts no
    PermitTunnel no
    PermitTTY no
    PermitUserRC no
    MaxSessions 0
    ForceCommand /usr/sbin/nologin
    ClientAliveInterval {seconds}
    ClientAliveCountMax {times}
"""
# What a peer may do by its key: this is the narrower of the two, as it has that peer's port alone.
SSH_KEY = 'restrict,port-forwarding,permitopen="{here}:{own}",permitlisten="{here}:{there}" {key} {what}\n'

# (what comes in for another port, or to go on elsewhere, is dropped)
WIREGUARD = """# For /etc/wireguard/payd.conf, and root alone: its private key is the member's secret.
[Interface]
Address = {address}/64
ListenPort = {port}
PrivateKey = {secret}
PostUp = nft 'table inet %i {{ chain input {{ type filter hook input priority 0; {allowed} }}; {forward}; }}'
PostDown = nft delete table inet %i
"""
ALLOWED = 'iifname "%i" ct state established,related accept; iifname "%i" tcp dport {own} accept; iifname "%i" drop;'
FORWARD = 'chain forward { type filter hook forward priority 0; iifname "%i" drop; }'
WIREGUARD_PEER = """
[Peer]
# {what}
PublicKey = {key}
AllowedIPs = {address}/128
Endpoint = {host}:{port}
PersistentKeepalive = {seconds}
"""

STUNNEL = """foreground = yes
pid =
PSKsecrets = {folder}/psk.secret
ciphers = PSK
{sockets}

[in]
accept = {port}
connect = {here}:{own}
"""
STUNNEL_PEER = """
; {what}
[peer-{peer}]
client = yes
accept = {here}:{there}
connect = {host}:{port}
PSKidentity = {pair}
"""


class Machine(namedtuple("Machine", "group own secret hosts port keys folder")):
    """The machine of a member: the group, the member's number and secret, each member's host, the port where tunnels
    come in, the key with each peer, and the folder of the files that are made."""

    def peers(self) -> Iterator[tuple[int, int, str, str]]:
        """Yields the number, port and host of each peer, and what the peer is called."""
        for peer, host in enumerate(self.hosts):
            if peer != self.own:
                yield peer, self.group.ports[peer], host, self.group.called(peer)

    def derived_key(self, peer: int, kind: str) -> bytes:
        """Returns the key that this member and a peer derive of their key for a kind of tunnel."""
        return derived(self.keys[peer], b"", f"payd {kind}".encode("ascii"))


def unit(what: str, command: str, after: str = "network-online.target", reads: Sequence[tuple[str, str]] = ()) -> str:
    """Returns a unit that runs a command, for which the service manager reads files: pairs of name and path."""
    shown = "".join(f"LoadCredential={name}:{path}\n" for name, path in reads)
    what = f"Tunnel of a payment group: {what}"
    return UNIT.format(what=what, command=command, after=after, user=USER, reads=shown)


def unit_of(peer: int) -> str:
    return f"payd-tunnel-{peer}.service"


def hosts_of(group: Group, lines: list[str] | None) -> list[str]:
    """Returns each member's host, of these lines or the group's file."""
    if lines is not None:
        group = Group({**group.parts(), "hosts": lines})
    if group.hosts is None:
        raise Failure("the group's file has no hosts: --hosts takes a file with that of a member a line")
    return group.hosts


def ssh(machine: Machine) -> dict[str, str]:
    """Returns a member dials those with greater numbers; each such tunnel serves both directions."""
    settings = {
        "BatchMode": "yes",
        "IdentitiesOnly": "yes",
        "ExitOnForwardFailure": "yes",
        "ServerAliveInterval": SECONDS,
        "ServerAliveCountMax": TIMES,
    }
    options = " ".join(f"-o {name}={value}" for name, value in settings.items())
    local, allowed, lesser, files = machine.group.ports[machine.own], "", [], {}
    for peer, there, host, what in machine.peers():
        key = machine.derived_key(peer, "ssh")
        if peer < machine.own:
            lesser.append(f"{HERE}:{there}")
            allowed += SSH_KEY.format(here=HERE, own=local, there=there, key=openssh_public(key), what=what)
            continue
        ways = f"-L {HERE}:{there}:{HERE}:{there} -R {HERE}:{local}:{HERE}:{local}"
        command = f"/usr/bin/ssh -N -T -a -x -p {machine.port} -l {USER} -i {SHOWN}/key {options} {ways} {host}"
        reads = [("key", f"{machine.folder}/to-{peer}.key")]
        files[f"to-{peer}.key"] = openssh_private(key)
        files[unit_of(peer)] = unit(f"ssh to {what}", command, reads=reads)
    if lesser:
        words = {"folder": machine.folder, "user": USER, "seconds": SECONDS, "times": TIMES}
        files["sshd.conf"] = SSH_SERVER.format(here=HERE, own=local, peers=" ".join(lesser), **words)
        files["authorized_keys"] = allowed
    return files


def in_base64(key: bytes) -> str:
    return base64.b64encode(key).decode("ascii")


def wireguard(machine: Machine) -> dict[str, str]:
    """Returns a network of the group's own (RFC 4193), between which and the ports here socat leads. Its keys are the
    X25519 keys that members hand over, and their secrets."""
    group, own, port, digits = machine.group, machine.own, machine.port, machine.group.digest()
    addresses = [f"fd{digits[:2]}:{digits[2:6]}:{digits[6:10]}::{it + 1:x}" for it in range(group.members)]
    keepalive = f"nodelay,keepalive,keepidle={SECONDS},keepintvl={SECONDS},keepcnt={TIMES}"
    listens, after = "fork,reuseaddr,nodelay", "network-online.target wg-quick@payd.service"
    local = group.ports[own]
    words = {"allowed": ALLOWED.format(own=local), "forward": FORWARD, "secret": in_base64(machine.secret)}
    config = WIREGUARD.format(address=addresses[own], port=port, **words)
    command = f"/usr/bin/socat TCP6-LISTEN:{local},bind=[{addresses[own]}],{listens} TCP4:{HERE}:{local},{keepalive}"
    files = {"payd-tunnel-in.service": unit("from WireGuard", command, after)}
    for peer, there, host, what in machine.peers():
        key, address = in_base64(group.handed(peer)[0]), addresses[peer]
        parts = {"what": what, "key": key, "address": address, "host": host, "port": port, "seconds": SECONDS}
        config += WIREGUARD_PEER.format(**parts)
        command = f"/usr/bin/socat TCP4-LISTEN:{there},bind={HERE},{listens} TCP6:[{address}]:{there},{keepalive}"
        files[unit_of(peer)] = unit(f"WireGuard to {what}", command, after)
    return {"payd.conf": config, **files}


def stunnel(machine: Machine) -> dict[str, str]:
    """Returns TLS by keys that each two members derive of theirs, so that no certificates are needed."""
    times = {"TCP_KEEPIDLE": SECONDS, "TCP_KEEPINTVL": SECONDS, "TCP_KEEPCNT": TIMES}
    options = {"SO_KEEPALIVE": 1, "TCP_NODELAY": 1, **times}
    sockets = "\n".join(f"socket = {side}:{name}={value}" for side in "lr" for name, value in options.items())
    name, local = "payd-tunnels.service", machine.group.ports[machine.own]
    # (its configuration knows no variables: this is that folder of this unit)
    config = STUNNEL.format(folder=f"/run/credentials/{name}", sockets=sockets, port=machine.port, here=HERE, own=local)
    secrets = ""
    for peer, there, host, what in machine.peers():
        pair = f"{min(machine.own, peer)}-{max(machine.own, peer)}"
        secrets += f"{pair}:{machine.derived_key(peer, 'stunnel').hex()}\n"
        names = {"what": what, "peer": peer, "here": HERE, "there": there}
        config += STUNNEL_PEER.format(host=host, port=machine.port, pair=pair, **names)
    files = {"psk.secret": secrets, "stunnel.conf": config}
    reads = [(it, f"{machine.folder}/{it}") for it in files]
    return {**files, name: unit("stunnel", f"/usr/bin/stunnel {SHOWN}/stunnel.conf", reads=reads)}


# What makes the files of each kind of tunnels.
KINDS = {"ssh": ssh, "wireguard": wireguard, "stunnel": stunnel}
