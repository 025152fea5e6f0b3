"""Tests of payd group: what it writes, what it refuses, and that a group's keys open nothing of another group."""

import contextlib
import hashlib
import json
import os
import re
import shutil
import stat
import struct
import subprocess
import sys
import tempfile

from cryptography.hazmat.primitives import serialization
from cryptography.hazmat.primitives.asymmetric.ed25519 import Ed25519PrivateKey

import pytest

from models import group_model
from payd_tools import groups
from payd_tools.frames import ECHO, HEAD, READY, SEND, frame, is_challenge, payment
from support.nodes import UNOPENED, Node, free_ports, until, write_json
from support.peers import Server, received
from support.runs import SECONDS, TOP, call, of_file, payd, read_text, same, write_text

TOOL = os.path.join(TOP, "tools", "group")
MEMBERS = 4
RAW = serialization.Encoding.Raw, serialization.PublicFormat.Raw


def tool(folder, *words):
    return call([sys.executable, TOOL, *words], folder=folder)


def does(folder, *words):
    status, output, errors = tool(folder, *words)
    same((status, errors), (0, ""), f"payd group {' '.join(words)}")
    return output


def put(folder, name, text):
    write_text(os.path.join(folder, name), text)


@pytest.fixture
def folder():
    """A folder with the secrets of four members, and the group's file made of what they handed over."""
    with tempfile.TemporaryDirectory() as folder:
        public = [does(folder, "new", f"{own}.secret").strip() for own in range(MEMBERS)]
        ports = ",".join(map(str, free_ports(MEMBERS)))
        words = ["--faults", "1", "--opening", "100,0,0,50", "--ports", ports]
        put(folder, "group.json", does(folder, "make", *words, *public))
        yield folder


def read(folder, name):
    return read_text(os.path.join(folder, name))


def secret_of(folder, own):
    return bytes.fromhex(read(folder, f"{own}.secret").strip())


# ---- the functions that keys are made by


def test_keys_are_agreed_as_rfc_7748_says():
    rows = [
        (
            "a546e36bf0527c9d3b16154b82465edd62144c0ac1fc5a18506a2244ba449ac4",
            "e6db6867583030db3594c1a424b15f7c726624ec26b3353b10a903a6d0ab1c4c",
            "c3da55379de9c6908e94ea4df28d084f32eccf03491c71f754b4075577a28552",
        ),
        (
            "4b66e9d4d1b4673c5ad22691957d6af5c11b6421e0ea01d42ca4169e7918ba0d",
            "e5210f12786811d3f4b7959d0538ae2c31dbe7106fc03c3efc4cd549c715a493",
            "95cbde9476e8907d7aade45cb4b873f88b595a68799fa152e6f8f7647aac7957",
        ),
    ]
    for made in (groups.shared_by, group_model.x25519):
        for row in rows:
            secret, public, shared = map(bytes.fromhex, row)
            same(made(secret, public), shared, f"{made.__module__}: what {row[0]} shares")
    bob = "5dab087e624a8a4b79e17f8b83800ee66f3bb1292618b6fd1c2f8b27ff88e0eb"
    public = "de9edb7d7b7dc1b4d35b61c2ece435373f8343c85b78674dadfc7e146f882b4f"
    same(groups.public_of(bytes.fromhex(bob)).hex(), public, "the public key of a secret")
    same(groups.shared_by(bytes.fromhex(bob), bytes(32)), None, "what is shared with the point of order 1")


def test_keys_are_derived_as_rfc_5869_says():
    secret, salt, info = bytes([0x0B] * 22), bytes(range(13)), bytes(range(0xF0, 0xFA))
    whole = (
        "3cb25f25faacd57a90434f64d0362f2a2d2d0a90cf1a5a4c5db02d56ecc4c5bf34007208d5b887185865"  # 42 bytes
    )
    same(group_model.hkdf(secret, salt, info, 42).hex(), whole, "the model's derived key")
    same(groups.derived(secret, salt, info).hex(), whole[:64], "a derived key")


# The secret and public keys of RFC 8032, section 7.1.
OF_RFC_8032 = [
    (
        "9d61b19deffd5a60ba844af492ec2cc44449c5697b326919703bac031cae7f60",
        "d75a980182b10ab7d54bfed3c964073a0ee172f3daa62325af021a68f707511a",
    ),
    (
        "4ccd089b28ff96da9db6c346ec114e0f5b8a319f35aba624da8cf6ed4fb8a6fb",
        "3d4017c3e843895a92b70aa74d1b7ebc9c982ccf2ec4968cc0cd55f12af4660c",
    ),
    (
        "c5aa8df43f9f837bedb7442f31dcb7b166d38535076f094b85ce3a2e0b4458f7",
        "fc51cd8e6218a1a38da47ed00230f0580816ed13ba3303ac5deb911548908025",
    ),
]
# The points of an order up to 8 in each way in which they may be written: Chalkias, Garillot and Nikolaenko, "Taming
# the many EdDSAs", table 1. Of the last six a strict reader says that they are no points.
OF_SMALL_ORDER = [
    "01" + "00" * 31,
    "ec" + "ff" * 30 + "7f",
    "00" * 32,
    "00" * 31 + "80",
    "26e8958fc2b227b045c3f489f2ef98f0d5dfac05d3c63339b13802886d53fc05",
    "26e8958fc2b227b045c3f489f2ef98f0d5dfac05d3c63339b13802886d53fc85",
    "c7176a703d4dd84fba3c0b760d10670f2a2053fa2c39ccc64ec7fd7792ac037a",
    "c7176a703d4dd84fba3c0b760d10670f2a2053fa2c39ccc64ec7fd7792ac03fa",
    "01" + "00" * 30 + "80",
    "ec" + "ff" * 31,
    *(first + "ff" * 30 + last for first in ("ee", "ed") for last in ("7f", "ff")),
]
# No point of the curve has this y.
NO_POINT = "02" + "00" * 31


def test_keys_for_signatures_are_those_of_rfc_8032():
    for secret, public in OF_RFC_8032:
        made = Ed25519PrivateKey.from_private_bytes(bytes.fromhex(secret)).public_key()
        same(made.public_bytes(*RAW).hex(), public, f"the public key of {secret}")
        same(groups.is_for_signatures(bytes.fromhex(public)), True, public)
    same(len(set(OF_SMALL_ORDER)), 14, "how many there are")
    for place, it in enumerate(OF_SMALL_ORDER):
        point = groups.point_of(bytes.fromhex(it))
        same((point is None, groups.is_for_signatures(bytes.fromhex(it))), (place >= 8, False), it)
    same(groups.point_of(bytes.fromhex(NO_POINT)), None, "what is no point")


def test_a_key_by_which_anyone_signs_is_refused(folder):
    """By each command that takes it: under some of these a signature of zeros is right, whatever is signed."""
    group = json.loads(read(folder, "group.json"))
    why = "the key for signatures of member {} is none: anyone could sign as this member"
    exports = put_exports(folder, (0, 1, 3), "group.json")
    public = group["public"]
    for bad in (*OF_SMALL_ORDER, NO_POINT):
        handed = public[3][:64] + bad
        put(folder, "bad.json", json.dumps({**group, "public": [*public[:3], handed]}))
        for words in (["show", "bad.json"], ["keys", "bad.json", "0.secret", "k"]):
            told = 1, "", f"payd group: bad.json: {why.format(3)}\n"
            same(tool(folder, *words), told, f"{words[0]} with {bad}")
    make = ["make", "--faults", "1", "--opening", "1,..", *public[:3], handed]
    same(tool(folder, *make), (1, "", f"payd group: {why.format(3)}\n"), "make")
    joins = "0" * 62 + "09" + NO_POINT
    for words, member in ((["--rekeys", f"3:{handed}"], 3), (["--joins", joins], 4)):
        told = follows(folder, "next", *words, "group.json", *exports)
        same(told, (1, "", f"payd group: {why.format(member)}\n"), f"next {words[0]}")


# ---- what is written


def test_a_fingerprint_is_of_all_but_ports_and_hosts(folder):
    group = json.loads(read(folder, "group.json"))
    was = does(folder, "show", "group.json").splitlines()[-1]
    same(was, f"fingerprint {group_model.fingerprint(group)}", "the fingerprint")
    moved = {"ports": [1, 2, 3, 4], "hosts": ["a", "b.example", "c", "1.2.3.4"]}
    put(folder, "other.json", json.dumps({**group, **moved}))
    same(does(folder, "show", "other.json").splitlines()[-1], was, "that with other ports and hosts")
    public = group["public"]
    others = {
        "faults": 0,
        "opening": [101, 0, 0, 50],
        "group": "0" * 64,
        "public": [public[1], public[0], *public[2:]],
        "names": ["Ann", "Bob", "Cy", "Di"],
        "former": "0" * 64,
    }
    swapped = [public[0][:64] + public[1][64:], public[1][:64] + public[0][64:], *public[2:]]
    for name, value in [*others.items(), ("public", swapped)]:
        put(folder, "other.json", json.dumps({**group, name: value}))
        other = does(folder, "show", "other.json").splitlines()[-1]
        same(other != was, True, f"the fingerprint tells {name} apart")


def test_a_file_shows_who_is_in_the_group(folder):
    group = {**json.loads(read(folder, "group.json")), "ports": [7, 8, 9, 10], "names": ["Ann", "Bob", "Cy", "Di"]}
    put(folder, "named.json", json.dumps(group))
    group["public"][3] = group["public"][3][:64]
    put(folder, "named.json", json.dumps({**group, "hosts": ["a", "b", "c", "d"], "former": "1" * 64}))
    lines = does(folder, "show", "named.json").splitlines()
    text = group_model.canonical({**group, "former": "1" * 64}).encode("ascii")
    digest = hashlib.sha256(struct.pack(">HH4Q", 4, 1, 100, 0, 0, 50)).hexdigest()
    wanted = [
        "4 members, of whom 1 may lie; 150 in all",
        "member 0 Ann: opens with 100, port 7 at a",
        "member 1 Bob: opens with 0, port 8 at b",
        "member 2 Cy: opens with 0, port 9 at c",
        "member 3 Di: opens with 50, port 10 at d, no key for signatures",
        "goes on for the group 1111111111111111",
        f"digest {hashlib.sha256(text).hexdigest()[:16]}, which its files of keys have",
        f"genesis {digest[:8]}, which a node says at its start",
    ]
    same(lines[:-1], wanted, "what is shown")


def test_secrets_and_keys_are_for_their_owner_alone(folder):
    """At each moment: the calls that open their files make them so. Whatever the umask, which may only take more."""
    opened = []
    script = f"""
import os, runpy, sys
os.umask(0)
was = os.open
def seen(name, flags, *mode, **other):
    if flags & os.O_ACCMODE != os.O_RDONLY and name != os.devnull:
        print(name, bool(flags & os.O_EXCL), *map(oct, mode), file=sys.stderr)
    return was(name, flags, *mode, **other)
os.open = seen
sys.path.insert(0, {os.path.dirname(TOOL)!r})
sys.argv[:] = sys.argv[1:]
runpy.run_path({TOOL!r}, run_name="__main__")
"""
    for words in (["new", "4.secret"], ["keys", "group.json", "0.secret", "keys.json"]):
        ask = [sys.executable, "-c", script, TOOL, *words]
        done = subprocess.run(ask, cwd=folder, capture_output=True, text=True, timeout=SECONDS)
        opened += done.stderr.splitlines()
        same(stat.S_IMODE(os.stat(os.path.join(folder, words[-1])).st_mode), 0o600, f"who may read {words[-1]}")
    same(opened, ["4.secret True 0o600", "keys.json True 0o600"], "the files that are opened to be written")


# ---- what is refused


def test_nothing_is_written_over(folder):
    was = read(folder, "0.secret")
    same(tool(folder, "new", "0.secret"), (1, "", "payd group: 0.secret: File exists\n"), "a second secret")
    same(read(folder, "0.secret"), was, "the first one")
    os.symlink("away", os.path.join(folder, "keys"))
    told = (1, "", "payd group: keys: File exists\n")
    same(tool(folder, "keys", "group.json", "0.secret", "keys"), told, "keys where a link leads away")
    same(tool(folder, "keys", "group.json", "0.secret")[0], 2, "keys without a file")


# Empty, no text, with what can't be seen or turns what follows, of two scripts, not composed, to be taken for a number
# or for several words.
NO_NAMES = "", 7, "c\n", "c\u200b", "c\u202ed", "\u0430nn", "e\u0301", "\u0301", " c", "c ", "c  d", "7", "\u0663"
NO_NAMES += "c:d", "c,d", "-c", "c\u0663", "\u2467", "\ud800", "c" * 64
ALIKE = ("Bob", "Bob"), ("Bob", "bob"), ("Bob", "B0b"), ("Al", "AI"), ("Al", "A1"), ("Barny", "Bamy"), ("A B", "A-B")
# The second of each is Cyrillic, Greek, with an accent, and of full width.
ALIKE += ("cop", "\u0441\u043e\u0440"), ("Nik", "\u039d\u03b9\u03ba"), ("Zoe", "Zo\u00eb")
ALIKE += (("Bob", "\uff22\uff4f\uff42"),)
NAMES_OF_SCRIPTS = "Zo\u00eb", "\u0411\u043e\u0431", "\u0938\u0940\u0924\u093e", "\u674e\u660e"


def test_a_file_that_is_no_group_is_refused(folder):
    group = json.loads(read(folder, "group.json"))
    public, digits = group["public"], "64 digits 0-9 a-f"
    handed = f"public: that of member 3 isn't {digits}, or 128 with the key for signatures"
    members = "for each of the 4 members"
    names, alike = "isn't a name of letters and digits of one script, NFC", "have names that look alike"
    hosts = "isn't a host"
    rows = [
        ({"members": 0}, "a group has 1 to 128 members"),
        ({"members": True}, "a group has 1 to 128 members"),
        ({"faults": 2}, "faults has to be fewer than a third of the members: 1 at most"),
        ({"opening": [100, 0, 0]}, f"opening has to be a list with one {members}"),
        ({"opening": [100, 0, -1, 50]}, "opening: that of member 2 isn't a balance"),
        ({"opening": [2**63 - 1, 1, 0, 0]}, f"the openings come to more than {2**63 - 1}"),
        ({"ports": [1, 2, 3, 65536]}, "ports: that of member 3 isn't a port"),
        ({"names": ["a", "b", "c"]}, f"names has to be a list with one {members}"),
        ({"ports": [1, 2, 3, 2]}, "members 1 and 3 have one port"),
        *(({"names": ["a", "b", it, "d"]}, f"names: that of member 2 {names}") for it in NO_NAMES),
        *(({"names": ["a", one, "c", other]}, f"members 1 and 3 {alike}") for one, other in ALIKE),
        *(({"hosts": ["a", it, "c", "d"]}, f"hosts: that of member 1 {hosts}") for it in ("-oX=y", "a b", "::1")),
        ({"former": "00"}, f"former has to be {digits}"),
        ({"group": "00"}, f"group has to be {digits}"),
        ({"public": [*public[:3], "aa"]}, handed),
        ({"public": [*public[:3], public[3][:-1]]}, handed),
        ({"public": [*public[:3], public[1]]}, "members 1 and 3 have one public key"),
        ({"public": [*public[:3], public[1][:64]]}, "members 1 and 3 have one public key"),
        ({"public": [*public[:3], public[3][:64] + public[1][64:]]}, "members 1 and 3 have one key for signatures"),
        (
            {"public": [*public[:3], "00" * 32]},
            "the public key of member 3 is none: anyone would know this member's keys",
        ),
    ]
    for change, why in rows:
        put(folder, "other.json", json.dumps({**group, **change}))
        for words in (["show", "other.json"], ["keys", "other.json", "0.secret", "keys"]):
            same(tool(folder, *words), (1, "", f"payd group: other.json: {why}\n"), f"{words[0]} of {change}")
    put(folder, "other.json", read(folder, "group.json").replace("{\n", '{"faults": 0,\n', 1))
    twice = "payd group: other.json: an object in it names something twice\n"
    same(tool(folder, "show", "other.json"), (1, "", twice), "a member that stands twice")


def test_names_have_letters_of_any_script(folder):
    """In the file, and in what its keys hang on, for the program too."""
    group = {**json.loads(read(folder, "group.json")), "names": NAMES_OF_SCRIPTS}
    put(folder, "named.json", json.dumps(group))
    lines = does(folder, "show", "named.json").splitlines()
    wanted = [f"member {own} {it}" for own, it in enumerate(NAMES_OF_SCRIPTS)]
    same([it.split(":")[0] for it in lines[1:5]], wanted, "who is shown")
    put(folder, "hosts", "a\nb\nc\nd\n")
    does(folder, "tunnels", "--as", "ssh", "--hosts", "hosts", "named.json", "0.secret", "tunnels")
    with open(os.path.join(folder, "tunnels", "payd-tunnel-1.service"), encoding="utf-8") as unit:
        same(f"ssh to member 1 {NAMES_OF_SCRIPTS[1]}\n" in unit.read(), True, "the unit of a tunnel")
    write_keys(folder, 1, "named.json")
    same(json.loads(read(folder, "keys-1")), group_model.keys(group, 1, secret_of(folder, 1)), "the keys")
    same(desk_of(folder, "named.json"), (0, "front 0 0 0 0\n", ""), "the program by these keys")


def test_a_secret_tells_its_public_key_again(folder):
    group = json.loads(read(folder, "group.json"))
    for own in range(MEMBERS):
        same(does(folder, "public", f"{own}.secret").strip(), group["public"][own], f"the key of member {own}")
    what = "it is a member's secret, and no group's file: 'public' prints the public key of it"
    same(tool(folder, "show", "0.secret"), (1, "", f"payd group: 0.secret: {what}\n"), "a secret that is shown")
    no = "payd group: group.json: it is no secret that 'new' wrote\n"
    same(tool(folder, "public", "group.json"), (1, "", no), "the public key of what is no secret")


def test_the_last_opening_stands_for_all_others(folder):
    public = json.loads(read(folder, "group.json"))["public"]
    for given, opening in (("7,..", [7, 7, 7, 7]), ("1,2,..", [1, 2, 2, 2]), ("1,2,3,4,..", [1, 2, 3, 4])):
        made = does(folder, "make", "--faults", "1", "--opening", given, *public)
        same(json.loads(made)["opening"], opening, given)
    short = "payd group: opening has to be a list with one for each of the 4 members\n"
    for given in ("1,2", "1,2,3,4,5,.."):
        told = tool(folder, "make", "--faults", "1", "--opening", given, *public)
        same(told, (1, "", short), given)
    for given in ("..", ",..", "1,..,2", "1,.."[:-1]):
        same(tool(folder, "make", "--faults", "1", "--opening", given, *public)[0], 2, given)


def test_numbers_are_digits_alone(folder):
    """Of the script that the group's file is in, without sign; a refused word says what would do."""
    public = json.loads(read(folder, "group.json"))["public"]
    make = ["make", "--faults", "1", "--opening", "7,..", *public]
    rows = ("1_000", "1000"), ("+5", "5"), ("\u0663", "3"), (" 7", "7"), ("007", "7"), ("1e3", None), ("", None)
    for given, meant in rows:
        would = f"write {meant or 'digits, as 1000'}\n"
        for words, option in (
            ([*make[:1], "--faults", given, *make[3:]], "--faults"),
            ([*make[:3], "--opening", f"1,{given},..", *public], "--opening"),
            ([*make, "--ports", f"1,{given}"], "--ports"),
            (["tunnels", "--as", "ssh", "--port", given, "group.json", "0.secret", "new"], "--port"),
        ):
            status, output, errors = tool(folder, *words)
            what = "an amount is a whole number from 0" if option == "--opening" else "is no number"
            told = f"error: argument {option}: {given}{':' * (option == '--opening')} {what}: {would}"
            same((status, output, errors[-len(told) :]), (2, "", told), f"{words}")
        status, output, errors = tool(folder, "next", "--leaves", f"{given}:1", "group.json", "export")
        same((status, errors), (1, f"payd group: {given} is no number: {would}"), f"the member {given}")
    for option, given, least, most in (("--faults", "129", 0, 128), ("--ports", f"{2**63}", 0, 2**63 - 1)):
        told = f"argument {option}: {given} won't do: write a number from {least} to {most}\n"
        same(tool(folder, *make, option, given)[2].endswith(told), True, told)


def test_what_the_guide_makes_stays_out_of_the_clone():
    """Its secrets, keys and folders, for what git would take in with all else."""
    words = re.findall(r"^    .*$", read_text(os.path.join(TOP, "docs", "guide.md")), re.MULTILINE)
    pattern = r".*\.(secret|tar)|keys.*\.json|member|tunnels"
    made = {it for line in words for it in line.split() if re.fullmatch(pattern, it)}
    wanted = {"me.secret", "keys.json", "keys-2.json", "member", "member.tar", "tunnels"}
    same(wanted <= made, True, f"what it makes: {made}")
    with tempfile.TemporaryDirectory() as folder:
        shutil.copy(os.path.join(TOP, ".gitignore"), folder)
        for name in made:
            path = os.path.join(folder, name if "." in name else f"{name}/file")
            os.makedirs(os.path.dirname(path), exist_ok=True)
            with open(path, "w", encoding="ascii"):
                pass
        subprocess.run(["git", "init", "--quiet"], cwd=folder, check=True)
        done = subprocess.run(["git", "status", "--porcelain"], cwd=folder, capture_output=True, text=True, check=True)
        same(done.stdout, "?? .gitignore\n", "what git sees")


def test_a_secret_of_nobody_has_no_keys(folder):
    does(folder, "new", "other.secret")
    none = "payd group: other.secret: the secret's public key is none of the group's\n"
    same(tool(folder, "keys", "group.json", "other.secret", "keys"), (1, "", none), "the keys of another's secret")
    no = "payd group: group.json: it is no secret that 'new' wrote\n"
    same(tool(folder, "keys", "group.json", "group.json", "keys"), (1, "", no), "keys of what is no secret")


# ---- the next group

# What the members of that group export: 0 has paid 30 to 1, and 3 waits for 10 more. Member 2 alone
# lists a payment of 5 to itself.
PAID, WAITS, CLAIM = (payment(payee=payee, amount=amount).hex() for payee, amount in ((1, 30), (0, 60), (2, 5)))
SETTLED = {"members": MEMBERS, "faults": 1, "opening": [100, 0, 0, 50], "front": [1, 0, 0, 0]}
SETTLED.update(lists=[[PAID], [], [], [WAITS]], balances=[70, 30, 0, 50])


def put_exports(folder, own, group):
    """Exports of these members, each signed by its own."""
    for member in own:
        given = {**SETTLED, "member": member}
        if member == 2:
            given["lists"] = [[PAID], [], [], [WAITS, CLAIM]]
        write_json(folder, f"export-{member}", given)
        sign(folder, member, group, f"export-{member}")
    return [f"export-{member}" for member in own]


def sign(folder, own, group, name):
    words = [os.path.join(TOP, "tools", "sign"), "--group", group, "--secret", f"{own}.secret", name]
    same(call(words, folder=folder), (0, "", ""), f"the signature of {name}")


# Lines on who signed an export, and on exports of few.
OF_EXPORTS = re.compile(r" signed it( at [\dT:Z-]+)?$|may lack payments that settled: these are of ")


def follows(folder, *words):
    """Status, output and what else is told."""
    status, output, errors = tool(folder, *words)
    lines = errors.splitlines(keepends=True)
    return status, output, "".join(it for it in lines if not OF_EXPORTS.search(it))


def test_the_next_group_opens_with_the_balances_of_the_book(folder):
    group = json.loads(read(folder, "group.json"))
    status, text, errors = follows(folder, "next", "group.json", *put_exports(folder, (0, 2, 3), "group.json"))
    told = "not settled, by the old numbers: "
    lines = ["waits account 3 entry 0 seq 0 to 0 amount 60 short 10", "beyond 1 account 3 seq 1 (export-2)"]
    same((status, errors), (0, "".join(f"{told}{line}\n" for line in lines)), "what is told")
    put(folder, "next.json", text)
    after = json.loads(text)
    former = hashlib.sha256(group_model.canonical(group).encode("ascii")).hexdigest()
    wanted = {**group, "opening": [70, 30, 0, 50], "group": after["group"], "former": former}
    same(after, wanted, "all but openings, `group` and `former` stays")
    same(after["group"] != group["group"], True, "`group` is another one")
    keys = []
    for name in ("group.json", "next.json"):
        write_keys(folder, 0, name)
        keys.append(json.loads(read(folder, "keys-0"))["keys"])
    same(set(keys[0]) & set(keys[1]), {""}, "keys that both groups have")


def test_a_member_that_leaves_gives_its_balance_to_an_heir(folder):
    named = put_named(folder)
    exports = put_exports(folder, (0, 1, 3), "named.json")
    words = ["--faults", "0", "named.json", *exports]
    status, text, errors = follows(folder, "next", "--leaves", "0:1", *words)
    by_name = json.loads(follows(folder, "next", "--leaves", "Ann:Bob", *words)[1])
    same({**by_name, "group": ""}, {**json.loads(text), "group": ""}, "the same by names")
    after = json.loads(text)
    told = (status, after["members"], after["opening"], after["names"])
    same(told, (0, 3, [100, 0, 50], named["names"][1:]), "who is in the next group")
    same((after["public"], after["ports"]), (named["public"][1:], named["ports"][1:]), "of those that stay")
    lines = ["member 0 Ann leaves: its balance goes to member 1 Bob"]
    lines += [f"member {it} {named['names'][it]} is member {it - 1} now" for it in (1, 2, 3)]
    same(errors.splitlines()[:4], lines, "what is told")


NAMES, HOSTS = ["Ann", "Bob", "Cy", "Di"], ["a.example", "b.example", "c.example", "d.example"]


def put_named(folder):
    """The group's file with names and hosts, and a port that is free among its own."""
    group = json.loads(read(folder, "group.json"))
    named = {**group, "names": NAMES, "hosts": HOSTS, "ports": [11000, 11001, 11003, 11004]}
    put(folder, "named.json", json.dumps(named))
    return named


def changes(folder):
    """The options by which member 2 leaves, member 1 has another key, and Eve and Flo join; and the three keys."""
    other, eve, flo = (does(folder, "new", f"{it}.secret").strip() for it in ("other", "eve", "flo"))
    words = ["--leaves", "2:3", "--rekeys", f"1:{other}", "--joins", f"{eve}:Eve:25@e.example"]
    return [*words, "--joins", f"{flo}:Flo@f.example"], (other, eve, flo)


def test_members_join_and_have_other_keys(folder):
    named, (words, keys) = put_named(folder), changes(folder)
    exports = put_exports(folder, (0, 1, 3), "named.json")
    status, text, errors = follows(folder, "next", *words, "named.json", *exports)
    after = json.loads(text)
    wanted = {
        "members": 5,
        "faults": 1,
        "opening": [70, 30, 50, 25, 0],
        "ports": [11000, 11001, 11004, 11002, 11005],
        "group": after["group"],
        "public": [named["public"][0], keys[0], named["public"][3], *keys[1:]],
        "names": ["Ann", "Bob", "Di", "Eve", "Flo"],
        "hosts": ["a.example", "b.example", "d.example", "e.example", "f.example"],
        "former": hashlib.sha256(group_model.canonical(named).encode("ascii")).hexdigest(),
    }
    same((status, after), (0, wanted), "the next group")
    lines = [
        "member 2 Cy leaves: its balance goes to member 3 Di",
        "member 1 Bob has another public key",
        "member 3 Di is member 2 now",
        "member 3 Eve joins: opens with 25, which it brings",
        "member 4 Flo joins: opens with 0, which it brings",
        "not settled, by the old numbers: waits account 3 Di entry 0 seq 0 to 0 Ann amount 60 short 10",
    ]
    same(errors.splitlines(), lines, "what is told")
    put(folder, "next.json", text)
    does(folder, "keys", "next.json", "other.secret", "keys")
    same(json.loads(read(folder, "keys"))["own"], 1, "the number of the member with another key")


def test_what_is_not_settled_is_told_by_names(folder):
    put_named(folder)
    _, _, errors = follows(folder, "next", "named.json", *put_exports(folder, (0, 2, 3), "named.json"))
    told = "not settled, by the old numbers: "
    lines = ["waits account 3 Di entry 0 seq 0 to 0 Ann amount 60 short 10"]
    lines += ["beyond 1 account 3 Di seq 1 (export-2)"]
    same(errors, "".join(f"{told}{line}\n" for line in lines), "what is told")


def test_any_member_makes_the_next_group_anew(folder):
    """With the options that were agreed nothing differs; without them, and with another file, each thing is said."""
    put_named(folder)
    exports, (words, _) = put_exports(folder, (0, 1, 3), "named.json"), changes(folder)
    _, text, told = follows(folder, "next", *words, "named.json", *exports)
    put(folder, "next.json", text)
    print_of = does(folder, "show", "next.json").splitlines()[-1]
    made = follows(folder, "check-next", *words, "named.json", "next.json", *exports)
    same(made, (0, f"as the exports have it\n{print_of}\n", told), "with the options")
    status, lines, _ = follows(folder, "check-next", "named.json", "next.json", *exports)
    wanted = [
        "member 1 Bob isn't in it with its key",
        "member 2 Cy isn't in it with its key",
        "member 3 Di is member 2 there",
        "member 1 Bob is in it with a new key, and opens with 30",
        "member 3 Eve is in it with a new key, and opens with 25",
        "member 4 Flo is in it with a new key, and opens with 0",
    ]
    same((status, lines.splitlines()), (1, wanted), "without the options")


def test_a_next_group_that_is_another_is_told_of(folder):
    named, exports = put_named(folder), put_exports(folder, (0, 1, 3), "named.json")
    _, text, _ = follows(folder, "next", "named.json", *exports)
    after = json.loads(text)
    former = after.pop("former")
    for change, wanted in (
        (
            {"opening": [100, 0, 0, 50]},
            ["member 0 Ann opens with 100 in place of 70", "member 1 Bob opens with 0 in place of 30"],
        ),
        ({"opening": [70, 30, 0, 51]}, ["member 3 Di opens with 51 in place of 50"]),
        ({"names": ["Ann", "Bob", "Cy", "Dee"]}, ["member 3 Di is named Dee in place of Di"]),
        ({"ports": [1, 11001, 11003, 11004]}, ["member 0 Ann has port 1 in place of 11000"]),
        ({"hosts": ["z", *HOSTS[1:]]}, ["member 0 Ann has host z in place of a.example"]),
        ({"hosts": None}, [f"member {it} {NAMES[it]} has host nothing in place of {HOSTS[it]}" for it in range(4)]),
        ({"faults": 0}, ["faults is 0 in place of 1"]),
        ({"former": None}, [f"former is nothing in place of {former}"]),
    ):
        put(folder, "next.json", json.dumps({**after, "former": former, **change}))
        status, lines, _ = follows(folder, "check-next", "named.json", "next.json", *exports)
        same((status, lines.splitlines()), (1, wanted), f"what is said of {change}")
    put(folder, "next.json", json.dumps({**after, "former": former, "group": named["group"]}))
    why = "payd group: next.json: its `group` is that of named.json, and has to be drawn anew\n"
    same(tool(folder, "check-next", "named.json", "next.json", *exports), (1, "", why), "a `group` used again")


def test_no_next_group(folder):
    exports = put_exports(folder, (0, 1, 3), "group.json")
    other = {**json.loads(read(folder, "group.json")), "opening": [101, 0, 0, 50]}
    put(folder, "other.json", json.dumps(other))
    key = does(folder, "new", "new.secret").strip()
    write_json(folder, "bad", {**SETTLED, "member": 2, "lists": 7})
    sign(folder, 2, "group.json", "bad")
    bad = "payd: export 2 BadShape in bad: it is no export, or an account's list is too long"
    for words, why in (
        (["--incomplete", "group.json", exports[0]], "these exports have no book: 6 few 1"),
        (["group.json", exports[0], "gone"], "gone: No such file or directory"),
        (["group.json", *exports, "bad"], f"these exports have no book: {bad}"),
        (["group.json", *exports, exports[0]], "these exports have no book: 5 twice 0 3 (export-0, export-0)"),
        (["other.json", *exports], "export-0: it is no export of this group"),
        (["--leaves", "0:4", "group.json", *exports], "there is no member 4"),
        (["--rekeys", f"4:{key}", "group.json", *exports], "there is no member 4"),
        (
            ["--leaves", "0:1", "--leaves", "1:2", "group.json", *exports],
            "member 1, who is to get the balance of member 0, leaves too",
        ),
        (["--leaves", "0:1", "--leaves", "0:2", "group.json", *exports], "a member leaves twice"),
        (
            ["--leaves", "0:1", "--rekeys", f"0:{key}", "group.json", *exports],
            "member 0 leaves, and needs no other key",
        ),
        (["--leaves", "0:1", "group.json", *exports], "faults has to be fewer than a third of the members: 0 at most"),
        (["--joins", other["public"][1], "group.json", *exports], "members 1 and 4 have one public key"),
        (["--leaves", "Ann:1", "group.json", *exports], "Ann is no number: write digits, as 1000"),
        (["--joins", f"{key}:Eve", "group.json", *exports], "a newcomer has what the group hasn't: names"),
        (["--joins", f"{key}@e", "group.json", *exports], "a newcomer has what the group hasn't: hosts"),
    ):
        same(follows(folder, "next", *words), (1, "", f"payd group: {why}\n"), f"{words}")
    for more in ("Eve:5:6", f"{2**64}", "1_000"):
        same(tool(folder, "next", "--joins", f"{key}:{more}", "group.json", *exports)[0], 2, more)


# ---- nodes


def nodes_of(stack, folder, ports, running=range(MEMBERS)):
    """Nodes that run on the keys of their own files, which are told apart by a file of keys each."""
    found = {}
    for own in running:
        node = Node(own, folder, ports)
        stack.callback(node.kill)
        found[own] = node
    return found


def write_keys(folder, own, group="group.json"):
    """In place of what there is."""
    with contextlib.suppress(FileNotFoundError):
        os.unlink(os.path.join(folder, f"keys-{own}"))
    does(folder, "keys", group, f"{own}.secret", f"keys-{own}")


def test_nodes_run_on_a_groups_file(folder):
    """It is their genesis and their ports."""
    with contextlib.ExitStack() as stack:
        os.symlink("group.json", os.path.join(folder, "genesis"))
        for own in range(MEMBERS):
            write_keys(folder, own)
        nodes = nodes_of(stack, folder, "group.json")
        same(nodes[0].ask("PAY 1 1 30"), "asked 1 seq 0", "a payment")
        for own, node in nodes.items():
            until(node.front, [1, 0, 0, 0], of=f"the front at {own}")
            same(node.balances(), [70, 30, 0, 50], f"the balances at {own}")


def test_a_member_with_another_file_meets_nobody(folder):
    """Its file opens an account with one more, and all others settle without it."""
    with contextlib.ExitStack() as stack:
        os.symlink("group.json", os.path.join(folder, "genesis"))
        put(folder, "other.json", read(folder, "group.json").replace("[100, 0, 0, 50]", "[100, 0, 0, 51]"))
        for own in range(MEMBERS):
            write_keys(folder, own, "other.json" if own == 3 else "group.json")
        nodes = nodes_of(stack, folder, "group.json", range(3))
        words = ["--genesis", "other.json", "--keys", "keys-3", "--ports", "other.json"]
        nodes[3] = Node(3, folder, command=[payd(), "node", *words])
        stack.callback(nodes[3].kill)
        same(nodes[0].ask("PAY 1 1 30"), "asked 1 seq 0", "a payment")
        for own in range(3):
            until(nodes[own].front, [1, 0, 0, 0], of=f"the front at {own}")
            told = {**{peer: "met" for peer in range(3) if peer != own}, 3: UNOPENED}
            until(lambda node=nodes[own]: dict(node.news()), told, of=f"what {own} says of its peers")
        unopened = [(peer, UNOPENED) for peer in range(3)]
        until(lambda: sorted(nodes[3].news()), unopened, of="what the other one says of its peers")
        status, output, errors = nodes[3].stop()
        same((status, json.loads(output)["lists"], errors), (0, [[], [], [], []], ""), "its end")


OTHER_GROUP = of_file("keys 6 OtherGroup", "keys-1")


def desk_of(folder, genesis, keys="keys-1"):
    """Status, answers and errors of member 1's desk, by these files."""
    return call([payd(), "desk", "--genesis", genesis, "--keys", keys], b"FRONT\n", folder=folder)


def test_keys_of_another_group_are_refused(folder):
    """Also where the group's file was changed since, in all but its ports and hosts. Nothing is read behind them."""
    group, answered = json.loads(read(folder, "group.json")), (0, "front 0 0 0 0\n", "")
    public = group["public"]
    named = {**group, "names": ["Ann", "Bob", "Cy", "Di"], "former": "1" * 64}
    changes = [
        {"faults": 0},
        {"opening": [100, 0, 0, 51]},
        {"group": "0" * 64},
        {"public": [*public[:2], public[3], public[2]]},
        {"names": ["Ann", "Bob", "Cy", "Dee"]},
        {"former": "2" * 64},
        *({name: None} for name in ("group", "public", "names", "former")),
    ]
    for name, made in (("named", named), ("plain", group)):
        put(folder, name, json.dumps(made))
        write_keys(folder, 1, name)
        same(json.loads(read(folder, "keys-1")), group_model.keys(made, 1, secret_of(folder, 1)), f"keys of {name}")
        same(desk_of(folder, name), answered, f"keys of the group {name} itself")
        put(folder, "other", json.dumps({**made, "ports": [1, 2, 3, 4], "hosts": list("abcd"), "more": 1}, indent=1))
        same(desk_of(folder, "other"), answered, f"{name} with other ports and hosts, and laid out otherwise")
        for change in changes:
            other = {it: value for it, value in {**made, **change}.items() if value is not None}
            if other != made:
                put(folder, "other", json.dumps(other))
                same(desk_of(folder, "other"), (2, "", OTHER_GROUP), f"{name} with {change}")
    words = ["--genesis", "named", "--keys", "keys-1"]
    for more in (["check"], ["node", "--ports", "gone"], ["export", "--data", "gone"]):
        same(call([payd(), *more, *words], folder=folder), (2, "", OTHER_GROUP), f"{more}")


def test_keys_that_name_no_group_are_of_any(folder):
    """As those are that no tool of this repository made."""
    write_keys(folder, 1)
    keys = json.loads(read(folder, "keys-1"))
    genesis = {it: json.loads(read(folder, "group.json"))[it] for it in ("members", "faults", "opening")}
    put(folder, "genesis", json.dumps(genesis))
    same(desk_of(folder, "genesis"), (2, "", OTHER_GROUP), "keys that name a group, where the genesis is no group's")
    answered, digest = (0, "front 0 0 0 0\n", ""), keys.pop("digest")
    for given in (keys, {**keys, "digest": 7}):
        put(folder, "keys-any", json.dumps(given))
        for name in ("genesis", "group.json"):
            same(desk_of(folder, name, "keys-any"), answered, f"{name} and keys with {given.get('digest')}")
    for wrong in ("", digest[:-1], f"{digest}0", digest.upper() if digest.upper() != digest else "0" * 16):
        put(folder, "keys-1", json.dumps({**keys, "digest": wrong}))
        same(desk_of(folder, "group.json"), (2, "", OTHER_GROUP), f"keys with {wrong!r}")


class Recorded(Server):
    """Sends those who dial a member what it once sent, and counts how often they left."""

    def __init__(self, port, text):
        super().__init__(None, port, meet=self.serve)
        self.text, self.left = text, 0

    def serve(self, stream):
        """Whose a challenge is gets no claim, and then dials without one."""
        with contextlib.suppress(OSError):
            first = received(stream)
            if first and is_challenge(HEAD.unpack_from(first)[5]):
                stream.recv(1)
                return
            stream.sendall(self.text)
            while stream.recv(65536):
                pass
        self.left += 1


@contextlib.contextmanager
def replayed(folder, recorded):
    """Member 1 alone, whose peers send what was recorded."""
    with contextlib.ExitStack() as stack:
        ports = free_ports(MEMBERS)
        write_json(folder, "replayed", {"ports": ports})
        peers = [stack.enter_context(Recorded(ports[peer], text)) for peer, text in recorded.items()]
        node = Node(1, folder, "replayed", ["--dials", "always"])
        stack.callback(node.kill)
        yield node, peers


def test_what_was_recorded_of_a_group_opens_nothing_of_the_next(folder):
    """The same members, secrets and openings, and another `group`. With the first group's keys it is settled again."""
    os.symlink("group.json", os.path.join(folder, "genesis"))
    write_keys(folder, 1)
    keys, recorded = json.loads(read(folder, "keys-1"))["keys"], {}
    for peer in (0, 2, 3):
        kinds = ([SEND] if peer == 0 else []) + [ECHO, READY]
        key = bytes.fromhex(keys[peer])
        frames = [frame(kind, peer, 1, at, value=payment(1, 30), key=key) for at, kind in enumerate(kinds)]
        recorded[peer] = b"".join(frames)
    with replayed(folder, recorded) as (node, _):
        until(node.front, [1, 0, 0, 0], of="the front of member 1 in a group with the same keys")
    group = json.loads(read(folder, "group.json"))
    put(folder, "next.json", json.dumps({**group, "group": f"{1:064x}"}))
    os.unlink(os.path.join(folder, "genesis"))
    os.symlink("next.json", os.path.join(folder, "genesis"))
    write_keys(folder, 1, "next.json")
    with replayed(folder, recorded) as (node, peers):
        until(lambda: [it.left > 0 for it in peers], [True] * 3, of="whether the node left each peer")
        same((node.front(), node.news()), ([0, 0, 0, 0], []), "what is settled of it, and met")
