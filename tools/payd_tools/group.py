"""Sets a group up from one file: no secret leaves the member that made it.

usage: payd group new [--name NAME] SECRET
       payd group public [--name NAME] SECRET
       payd group make --faults F --opening A,B,.. [--unit UNIT --decimals COUNT] [--ports P,Q,..]
                        [--names NAME,NAME,..] [--hosts HOST,HOST,..] PUBLIC ..
       payd group show GROUP [SECRET]
       payd group keys GROUP SECRET KEYS
       payd group next [--faults F] [--leaves MEMBER:HEIR] .. [--rekeys MEMBER:PUBLIC] ..
                        [--joins PUBLIC[:NAME][:OPENING][@HOST]] .. [--unsigned] [--incomplete]
                        GROUP EXPORT ..
       payd group check-next [the same options] GROUP NEXT EXPORT ..
       payd group tunnels --as ssh|wireguard|stunnel [--hosts FILE] [--port PORT] GROUP SECRET FOLDER

`new` draws a member's secret, makes the file SECRET with it, and prints the public keys that belong to it, one for keys
and one for signatures: one line, for whoever makes the group; `public` prints it again. With --name the member's name
stands before its keys. `make` prints the group's file, from these lines as words or files of them, in the order of the
members' numbers. Lines with names may come in any order: --names says who has which number. The ports are 11000 and on,
where none are given; openings that end in `..` go on with the last. With --unit EUR --decimals 2 people read and write
all amounts of the group in it, these openings too, as 12.50; without it amounts are whole numbers. `show` prints what
the file says, and a fingerprint: members whose fingerprints agree have the same file but for ports and hosts. Of a
member's secret it says whose that is there, and what that account opens with. `keys` makes the file KEYS with the keys
of the member whose secret it is. Neither SECRET nor KEYS may be there yet, and nobody but its owner can open either at
any moment.

A name has letters and digits of one script, a letter first, and between them single blanks, full stops, lines and
dashes; it is composed as Unicode's NFC says. Names that look alike are refused, as are equal ports.

`next` prints the file of a group that goes on where this one has stopped: each account opens with its balance in the
group's book, as `payd book` has it of these exports. `group` is drawn anew, so nothing recorded of the old group opens
in it, and `former` is the old group's digest. A member that leaves gives its balance to an heir, and the others move
up. A member with a new secret has its public key replaced by --rekeys. Newcomers have the last numbers, and what their
accounts open with is theirs to bring. Standard error says all this, and by the old numbers what wasn't settled, for its
owners to ask again. It says of each export who signed it and when, as `payd audit-signed` does, and where the book has
more of an account than its member's own export. What a member didn't sign for this group is refused, but for
--unsigned, which takes what nobody signed: whoever brings that can have made it up. Exports of fewer than 2f + 1
members are refused too, but for --incomplete: they may lack payments that settled. No account stays without its member:
nobody could ever pay from it, and its member would be one of the f for good.

`check-next` makes that file anew, as any member can, from its own file of the old group and the exports, with the
options that were agreed, and says in words what NEXT has otherwise; then the status is 1.

`tunnels` makes FOLDER with what leads from the machine of the member whose secret it is to its peers: units of the
service manager, the configuration that these need, and keys. A peer reaches this member's port by its tunnel and
listens on the port of its own number, and on nothing else. Units run as the user payd-tunnel, who owns nothing. FOLDER
stays where it is made, which has to be in a folder of root's. Hosts are those of the group's file, or of --hosts, which
has one a line. --port is where tunnels come in at each member (22, 51820 and 11999). The keys of ssh and stunnel are
derived of those that each two members share, and WireGuard's are those of the group's file and the member's secret.

The file goes to `payd node` as its genesis and as its ports. The keys hang on all that it says but its unit, ports and
hosts: of members whose files differ in that, none opens a frame of the other, and keys of one group open nothing of
another.
"""

from __future__ import annotations

import argparse
import json
import os
import re
import secrets
import subprocess
from typing import Iterator

from payd_tools import nearby_program, signing, tunnels, usage
from payd_tools.amounts import MOST_DECIMALS, NoAmount, Unit
from payd_tools.groups import (
    DIGITS_OF_KEYS, GREATEST_PORT, KEY_BYTES, MOST_MEMBERS, Failure, Group, about, handed_over, is_handed, is_name,
    read_group, read_secret,
)
from payd_tools.naming import named, with_files
from payd_tools.next_group import FIRST_PORT, Next, beyond_own, differences, joining, signed_exports

# ---- files


def write_new(name: str, text: str, mode: int = 0o600) -> None:
    """Writes a file that isn't there yet, which its owner alone may read unless told otherwise, and has the disk keep
    it."""
    with os.fdopen(os.open(name, os.O_WRONLY | os.O_CREAT | os.O_EXCL, 0o600), "w", encoding="utf-8") as file:
        try:
            os.fchmod(file.fileno(), mode)
            file.write(text)
            file.flush()
            os.fsync(file.fileno())
        except BaseException:
            os.unlink(name)
            raise
    folder = os.open(os.path.dirname(name) or ".", os.O_RDONLY)
    os.fsync(folder)
    os.close(folder)


# ---- commands


def line_of(secret: bytes, name: str | None) -> str:
    """Returns what a member hands over: its public keys, and before them its name where it has one."""
    if name is None:
        return handed_over(secret)
    if not is_name(name):
        raise Failure(f"{name}: a name has letters and digits of one script, NFC, and a letter first")
    return f"{name}:{handed_over(secret)}"


def new(given: argparse.Namespace) -> None:
    secret = secrets.token_bytes(KEY_BYTES)
    line = line_of(secret, given.name)
    with about(given.secret):
        write_new(given.secret, f"{secret.hex()}\n")
    print(line)


def public(given: argparse.Namespace) -> None:
    print(line_of(read_secret(given.secret), given.name))


def lines_in(words: list[str]) -> Iterator[tuple[str | None, str]]:
    """Yields what members hand over, of words that are it or files of it: names, which may be None, and keys."""
    for word in words:
        lines = [word]
        if not is_handed(word.rpartition(":")[2]):
            if not os.path.isfile(word):
                raise Failure(f"{word}: it is neither what `new` prints nor a file of that")
            with about(word), open(word, encoding="utf-8") as file:
                lines = file.read().split("\n")
        for line in filter(None, lines):
            name, _, keys = line.rpartition(":")
            # (of 64 digits a file is one with a secret)
            if not is_handed(keys) or word != line and len(keys) != 4 * KEY_BYTES:
                raise Failure(f"{word}: it has a line that `new` didn't print")
            yield name or None, keys


def by_names(found: list[tuple[str | None, str]], names: list[str] | None) -> tuple[list[str] | None, list[str]]:
    """Returns names and keys in the order of the members: that of the names, if they are given, else that of the
    lines."""
    named = [name for name, _ in found]
    if not any(named):
        return names, [keys for _, keys in found]
    for name in named:
        if name is None:
            raise Failure("each line has its member's name before its keys, or none has")
        if named.count(name) > 1:
            raise Failure(f"{name} has handed over two lines")
        if names is not None and name not in names:
            raise Failure(f"{name} has handed over a line, and is none of --names")
    for name in names or []:
        if name not in named:
            raise Failure(f"{name} has handed over no line")
    return names or named, [dict(found)[name] for name in names or named]


def unit_of(given: argparse.Namespace) -> Unit:
    """Returns the unit that words say, with their decimals."""
    if (given.unit is None) != (given.decimals is None):
        given.reader.error("--unit and --decimals stand together, as --unit EUR --decimals 2")
    try:
        return Unit(given.unit or "", given.decimals or 0)
    except NoAmount as why:
        given.reader.error(f"argument --unit: {why}")


def openings(given: argparse.Namespace, unit: Unit, members: int) -> list[int]:
    """Returns the amounts of words, of which REST behind them says that all others open with the last."""
    goes_on = given.opening[1:] and given.opening[-1] == REST
    try:
        opening = [unit.read(it) for it in (given.opening[:-1] if goes_on else given.opening)]
    except NoAmount as why:
        given.reader.error(f"argument --opening: {why}")
    return opening + opening[-1:] * (members - len(opening) if goes_on else 0)


def make(given: argparse.Namespace) -> None:
    names, public = by_names(list(lines_in(given.public)), given.names)
    members, unit = len(public), unit_of(given)
    opening = openings(given, unit, members)
    ports = given.ports or list(range(FIRST_PORT, FIRST_PORT + members))
    parts = {"members": members, "faults": given.faults, "opening": opening, "ports": ports}
    parts.update(group=secrets.token_hex(KEY_BYTES), public=public, **unit.parts())
    parts.update({it: value for it, value in (("names", names), ("hosts", given.hosts)) if value is not None})
    print(Group(parts).text(), end="")


def show(given: argparse.Namespace) -> None:
    group = read_group(given.group)
    text = group.unit.text
    print(f"{group.members} members, of whom {group.faults} may lie; {text(sum(group.opening))} in all")
    for member in range(group.members):
        host = "" if group.hosts is None else f" at {group.hosts[member]}"
        lacks = "" if group.handed(member)[1] else ", no key for signatures"
        opens = f"opens with {text(group.opening[member])}"
        print(f"{group.called(member)}: {opens}, port {group.ports[member]}{host}{lacks}")
    if group.former is not None:
        print(f"goes on for the group {group.former[:DIGITS_OF_KEYS]}")
    print(f"digest {group.digest()[:DIGITS_OF_KEYS]}, which its files of keys have")
    print(f"genesis {group.genesis_digest()[:8]}, which a node says at its start")
    print(f"fingerprint {' '.join(group.fingerprint())}")
    if given.secret is not None:
        with about(given.secret):
            own = group.own(read_secret(given.secret))
        name = "" if group.names is None else f", {group.names[own]}"
        print(f"you are member {own}{name}; your account opens with {text(group.opening[own])}")


def keys(given: argparse.Namespace) -> None:
    group, secret = read_group(given.group), read_secret(given.secret)
    with about(given.secret):
        text = group.keys(secret)
    with about(given.keys):
        write_new(given.keys, text)


# ---- the next group


def book_of(exports: list[str], folder: str, *words: str) -> str:
    """Returns what the program says of the exports that stand in a folder by their places."""
    words = [nearby_program.program(), "book", *words, "--", *(f"{it}" for it, _ in enumerate(exports))]
    done = subprocess.run(words, capture_output=True, text=True, check=False, cwd=folder)
    if done.returncode != 0:
        in_files = f"(?m)^{nearby_program.IN_FILE}([0-9]+)$"
        errors = re.sub(in_files, lambda it: nearby_program.IN_FILE + exports[int(it[1])], done.stderr)
        why = with_files(done.stdout.strip(), exports) or nearby_program.reason_in(errors)
        raise Failure(f"these exports have no book: {why}")
    return done.stdout


def made_of(group: Group, given: argparse.Namespace, drawn: str) -> Group:
    """Returns the next group, of the exports' book; standard error says who is in it, and what isn't in the book."""
    changes, found = Next(group, given), signed_exports(group, given)
    with signing.copies_of(found) as folder:
        text, lines = (book_of(given.export, folder, *it) for it in (["--export"], []))
    book = json.loads(text)
    made = changes.made(book["balances"], drawn)
    for line in changes.told(made):
        usage.tell(line, of="")
    for line in beyond_own(group, zip(given.export, found), book["lists"]):
        usage.tell(line, of="")
    for line in lines.splitlines():
        if line.split(" ")[0] in ("waits", "differs", "beyond"):
            usage.tell(with_files(named(group, line), given.export), of="not settled, by the old numbers: ")
    return made


def following(given: argparse.Namespace) -> None:
    print(made_of(read_group(given.group), given, secrets.token_hex(KEY_BYTES)).text(), end="")


def check_next(given: argparse.Namespace) -> int:
    group, found = read_group(given.group), read_group(given.next)
    if found.group == group.group:
        raise Failure(f"{given.next}: its `group` is that of {given.group}, and has to be drawn anew")
    lines = list(differences(made_of(group, given, found.group), found))
    print("\n".join(lines or [f"as the exports have it\nfingerprint {' '.join(found.fingerprint())}"]))
    return 1 if lines else 0


# ---- tunnels


# What may stand in the path of a folder that units name, and which of its files are read by others than root.
PATH = re.compile("[A-Za-z0-9/._-]+")
READ_BY_OTHERS = ".service", "sshd.conf", "authorized_keys"


def make_tunnels(given: argparse.Namespace) -> None:
    """Makes the folder of a member's tunnels."""
    group, secret, folder = read_group(given.group), read_secret(given.secret), os.path.abspath(given.folder)
    kind, lines = getattr(given, "as"), None
    if not PATH.fullmatch(folder):
        raise Failure(f"{folder}: a folder of tunnels has ASCII letters, digits and ._- in its path alone")
    with about(given.secret):
        own = group.own(secret)
    if given.hosts is not None:
        with about(given.hosts), open(given.hosts, encoding="ascii") as file:
            lines = file.read().splitlines()
    keys = [None if peer == own else group.key(secret, own, peer) for peer in range(group.members)]
    words = tunnels.hosts_of(group, lines), given.port or tunnels.PORTS[kind], keys, folder
    made = tunnels.KINDS[kind](tunnels.Machine(group, own, secret, *words))
    with about(given.folder):
        os.mkdir(folder)
        os.chmod(folder, 0o755)
    for name, text in made.items():
        with about(name):
            write_new(os.path.join(folder, name), text, 0o644 if name.endswith(READ_BY_OTHERS) else 0o600)
    print(f"made in {usage.shown(given.folder)}: {', '.join(made)}")


# ---- words

# What stands behind openings of which the last is that of all other members.
REST = ".."


def of_member(text: str) -> tuple[str, str]:
    """Returns what a word MEMBER:.. has: the member by number or name, and what is said of it."""
    member, rest = text.split(":")
    return member, rest


def texts(text: str) -> list[str]:
    return text.split(",")


count, port = usage.number(MOST_MEMBERS), usage.number(GREATEST_PORT, 1)


# The options of a command: what each is read by, how often it may stand, and what it says.
ONCE, NEEDED, OFTEN, FLAG = {}, {"required": True}, {"action": "append", "default": []}, {"action": "store_true"}
OF_NEW = {"name": (str, ONCE, "the member's name, which stands before its keys then")}
OF_MAKE = {
    "faults": (count, NEEDED, "how many members may lie, fewer than a third"),
    "opening": (texts, NEEDED, "what the accounts open with, as 100,0,0,50 or 100,.."),
    "unit": (str, ONCE, "the unit of all amounts, as EUR"),
    "decimals": (usage.number(MOST_DECIMALS), ONCE, "how many digits of an amount stand behind its point"),
    "ports": (usage.numbers, ONCE, "the members' ports, as 11000,11001; 11000 and on without it"),
    "names": (texts, ONCE, "the members' names, as ada,bob"),
    "hosts": (texts, ONCE, "the members' machines, as a.example,b.example"),
}
OF_NEXT = {
    "faults": (count, ONCE, "how many members of the next group may lie"),
    "leaves": (of_member, {"metavar": "MEMBER:HEIR", **OFTEN}, "who leaves, and whose its balance is then"),
    "joins": (joining, {"metavar": "PUBLIC[:NAME][:OPENING][@HOST]", **OFTEN}, "who joins, and what it brings"),
    "rekeys": (of_member, {"metavar": "MEMBER:PUBLIC", **OFTEN}, "who has other public keys, and which"),
    "unsigned": (None, FLAG, "takes exports that nobody signed"),
    "incomplete": (None, FLAG, "takes exports of fewer than 2f + 1 members"),
}
OF_TUNNELS = {
    "as": (str, {"choices": list(tunnels.PORTS), **NEEDED}, "what the tunnels are made by"),
    "hosts": (str, ONCE, "a file with the host of a member a line"),
    "port": (port, ONCE, "where tunnels come in at each member"),
}
WORDS = {
    "secret": "the file of a member's secret",
    "public": "what `new` printed for a member, or a file of it",
    "group": "the group's file",
    "keys": "the file of keys that is made",
    "next": "the next group's file",
    "export": "the file of a member's export",
    "folder": "the folder that is made",
}
# Each command's function, its words, of which those of the last may be several, and its options.
COMMANDS = {
    "new": (new, ["secret"], OF_NEW),
    "public": (public, ["secret"], OF_NEW),
    "make": (make, ["public.."], OF_MAKE),
    "show": (show, ["group", "secret?"], {}),
    "keys": (keys, ["group", "secret", "keys"], {}),
    "next": (following, ["group", "export.."], OF_NEXT),
    "check-next": (check_next, ["group", "next", "export.."], OF_NEXT),
    "tunnels": (make_tunnels, ["group", "secret", "folder"], OF_TUNNELS),
}


def read_words() -> argparse.Namespace:
    reader = usage.parser(__doc__)
    about_it = {"metavar": " | ".join(COMMANDS), "help": "what is done"}
    commands = reader.add_subparsers(required=True, prog="payd group", **about_it)
    for name, (run, words, options) in COMMANDS.items():
        one = commands.add_parser(name)
        one.set_defaults(run=run, reader=one)
        for word in words:
            name, often = word.rstrip(".?"), {".": "+", "?": "?"}.get(word[-1])
            one.add_argument(name, nargs=often, help=WORDS[name])
        for option, (reads, how_often, about_it) in options.items():
            reader_of = {} if reads is None else {"type": reads}
            one.add_argument(f"--{option}", help=about_it, **reader_of, **how_often)
    return reader.parse_args()


@usage.tool()
def main() -> int | None:
    given = read_words()
    return given.run(given)
