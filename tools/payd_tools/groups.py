"""A group's file: what it says, the text that its keys hang on, and the keys of its members.

A group's file is a genesis and a file of ports at once. In lowercase hexadecimal it also has `group`, 32 random bytes,
and `public`, each member's X25519 public key, with its Ed25519 public key for signatures behind it where that was
handed over. It may have `unit` and `decimals`, of the amounts that people read and write, `names`, `hosts` and
`former`. The key of members I < J is HKDF-SHA256 (RFC 5869) of the X25519 (RFC 7748) result of one's secret and the
other's public key, with the info `payd pair I J`. Its salt is the SHA-256 of these lines in UTF-8, each with a line
feed: `payd group 1`; `members N`; `faults F`; `opening` and the numbers, each after a blank; `group` and its digits;
for each member in order `public` and the digits; where there are names, for each `name` and it; where there is one,
`former` and its digits. The group's digest is that SHA-256. A file of keys has its first 16 digits as `digest`, beside
the group's `group`; the next group's file has the whole as `former`. The fingerprint is twelve groups of five digits:
from the SHA-512 of the lines, and where there is a unit of one more, `unit`, it and its decimals, each after a blank;
five bytes each as a big-endian number, modulo 100,000.
"""

from __future__ import annotations

import contextlib
import hashlib
import json
import re
import struct
import unicodedata
from typing import Any, Callable, Iterator

from payd_tools.amounts import NoAmount, Unit
from payd_tools.usage import NUMBER, Failure, no_number

try:
    from cryptography.hazmat.primitives import hashes, serialization
    from cryptography.exceptions import InvalidSignature
    from cryptography.hazmat.primitives.asymmetric.ed25519 import Ed25519PrivateKey, Ed25519PublicKey
    from cryptography.hazmat.primitives.asymmetric.x25519 import X25519PrivateKey, X25519PublicKey
    from cryptography.hazmat.primitives.kdf.hkdf import HKDF
except ImportError:
    hashes = None

# What a group's file, a genesis and an export say alike.
GENESIS = "members", "faults", "opening"
MOST_MEMBERS = 128
GREATEST_TOTAL = 2**63 - 1
GREATEST_PORT = 2**16 - 1
KEY_BYTES = 32
# How a public key stands in a file.
HANDED = f"{2 * KEY_BYTES} digits 0-9 a-f, or {4 * KEY_BYTES} with the key for signatures"
# Five digits each, some 199 bits in all: too many for two files to be made with one fingerprint.
FINGERPRINT_GROUPS = 12
# How many of the digest's digits a file of keys says.
DIGITS_OF_KEYS = 16

# What may stand in a name between two of its letters and digits, and the most characters of one.
BETWEEN, LONGEST_NAME = " ._-", 63
# Letters of Cyrillic, Greek and Armenian that are drawn as those of Latin below them.
DRAWN_ALIKE = str.maketrans(
    "\u0430\u0432\u0435\u043a\u043c\u043d\u043e\u0440\u0441\u0442\u0443\u0445"
    "\u0455\u0456\u0458\u0501\u051b\u051d\u04bb\u04af\u0475"
    "\u03b1\u03b2\u03b5\u03b6\u03b7\u03b9\u03ba\u03bc\u03bd\u03bf\u03c1\u03c4"
    "\u03c5\u03c7\u03f2\u0578\u057d\u0585\u0581\u0570\u0566",
    "abekmhopctyxsijdqwhyv" "abezhikuvoptyxcnuoghq",
)
# The name of a machine or its address, as it stands in commands and configurations.
HOST = re.compile("[A-Za-z0-9](?:[A-Za-z0-9.-]{0,251}[A-Za-z0-9])?")


# ---- keys


def need_cryptography() -> None:
    if hashes is None:
        raise Failure("Python's package 'cryptography' is missing: install python3-cryptography")


def is_key(text: str | None) -> bool:
    return isinstance(text, str) and re.fullmatch(f"[0-9a-f]{{{2 * KEY_BYTES}}}", text) is not None


def is_handed(text: str) -> bool:
    """Returns whether a member may hand this over: a public key, or with the one for signatures behind it."""
    return is_key(text) or isinstance(text, str) and is_key(text[: 2 * KEY_BYTES]) and is_key(text[2 * KEY_BYTES :])


def public_of(secret: bytes) -> bytes:
    """Returns the public key of a secret: X25519 with the base point, RFC 7748."""
    need_cryptography()
    public = X25519PrivateKey.from_private_bytes(secret).public_key()
    return public.public_bytes(serialization.Encoding.Raw, serialization.PublicFormat.Raw)


def shared_by(secret: bytes, public: bytes) -> bytes | None:
    """Returns what a secret and another's public key give, by X25519 of RFC 7748; None where any secret would give
    zero."""
    need_cryptography()
    try:
        return X25519PrivateKey.from_private_bytes(secret).exchange(X25519PublicKey.from_public_bytes(public))
    except ValueError:
        return None


def derived(shared: bytes, salt: bytes | None, info: bytes) -> bytes:
    """Returns a key of 32 bytes: HKDF with SHA-256, RFC 5869."""
    need_cryptography()
    return HKDF(algorithm=hashes.SHA256(), length=KEY_BYTES, salt=salt, info=info).derive(shared)


def signing_key_of(secret: bytes) -> Any:
    """Returns the key by which whoever has this secret signs: Ed25519 of RFC 8032, derived of it."""
    return Ed25519PrivateKey.from_private_bytes(derived(secret, None, b"payd sign"))


def openssh_private(secret: bytes) -> str:
    """Returns the Ed25519 key of these 32 secret bytes as the file that ssh reads."""
    need_cryptography()
    how = serialization.Encoding.PEM, serialization.PrivateFormat.OpenSSH, serialization.NoEncryption()
    return Ed25519PrivateKey.from_private_bytes(secret).private_bytes(*how).decode("ascii")


def openssh_public(secret: bytes) -> str:
    """Returns its public half as a file of authorized keys has it."""
    need_cryptography()
    public = Ed25519PrivateKey.from_private_bytes(secret).public_key()
    return public.public_bytes(serialization.Encoding.OpenSSH, serialization.PublicFormat.OpenSSH).decode("ascii")


def is_signed(signature: bytes, public: bytes, text: bytes) -> bool:
    """Returns whether this is a signature of the text under the public half of a key for signatures."""
    need_cryptography()
    try:
        Ed25519PublicKey.from_public_bytes(public).verify(signature, text)
    except (InvalidSignature, ValueError):
        return False
    return True


# The curve of RFC 8032: its prime, d of section 5.1, and a square root of -1.
PRIME = 2**255 - 19
FACTOR = -121665 * pow(121666, PRIME - 2, PRIME) % PRIME
ROOT = pow(2, (PRIME - 1) // 4, PRIME)


def point_of(public: bytes) -> tuple[int, int] | None:
    """Returns the point that these bytes are by RFC 8032, section 5.1.3, or None."""
    whole = int.from_bytes(public, "little")
    sign, y = whole >> 255, whole & (2**255 - 1)
    if y >= PRIME:
        return None
    above, below = (y * y - 1) % PRIME, (FACTOR * y * y + 1) % PRIME
    x = above * pow(below, 3, PRIME) * pow(above * pow(below, 7, PRIME), (PRIME - 5) // 8, PRIME) % PRIME
    if below * x * x % PRIME == PRIME - above:
        x = x * ROOT % PRIME
    if below * x * x % PRIME != above or (x == 0 and sign == 1):
        return None
    return (PRIME - x if x & 1 != sign else x), y


def doubled(point: tuple[int, int]) -> tuple[int, int]:
    """Returns a point of that curve, added to itself."""
    x, y = point
    product = FACTOR * x * x * y * y % PRIME
    over, under = 2 * x * y * pow(1 + product, PRIME - 2, PRIME), (y * y + x * x) * pow(1 - product, PRIME - 2, PRIME)
    return over % PRIME, under % PRIME


def is_for_signatures(public: bytes) -> bool:
    """Returns whether only whoever has the secret signs under this: bytes that are a point, and none of an order up to
    8."""
    point = point_of(public)
    return point is not None and doubled(doubled(doubled(point))) != (0, 1)


def handed_over(secret: bytes) -> str:
    """Returns what a member hands over, in hexadecimal: its public key, and behind it the one for its signatures."""
    raw = serialization.Encoding.Raw, serialization.PublicFormat.Raw
    return (public_of(secret) + signing_key_of(secret).public_key().public_bytes(*raw)).hex()


# ---- the file


def is_count(value: int, most: int) -> bool:
    return type(value) is int and 0 <= value <= most


def is_name(text: str | int) -> bool:
    """Returns whether this is a name: a letter, and then letters, their marks and digits of its script, with single
    marks of BETWEEN among them; composed as Unicode's NFC has it. So it has no control, no direction, and is no
    number."""
    if not isinstance(text, str) or not 0 < len(text) <= LONGEST_NAME or unicodedata.normalize("NFC", text) != text:
        return False
    words = re.split(f"[{BETWEEN}]", text)
    kinds = [unicodedata.category(it) for word in words for it in word]
    is_made = kinds[:1] and kinds[0][0] == "L" and all(it[0] == "L" or it in ("Mn", "Mc", "Nd") for it in kinds)
    return bool(is_made) and all(words) and len({*scripts_of(text)} - {"DIGIT"}) == 1


def scripts_of(name: str) -> Iterator[str]:
    """Yields the scripts that its letters and digits are of, by their names in Unicode; those of Japanese are one."""
    for letter in name:
        if letter not in BETWEEN and unicodedata.category(letter)[0] in "LN":
            script = unicodedata.name(letter, "?").split(" ")[0]
            yield {"HIRAGANA": "CJK", "KATAKANA": "CJK", "KATAKANA-HIRAGANA": "CJK"}.get(script, script)


def is_text_of(pattern: re.Pattern) -> Callable:
    return lambda it: isinstance(it, str) and pattern.fullmatch(it) is not None


def look_of(name: str) -> str:
    """Returns how a name looks at a glance, alike for two that are easily taken for one another."""
    plain = unicodedata.normalize("NFKD", name.translate(str.maketrans("I10\u039d\u039c", "llonm"))).casefold()
    drawn = plain.translate(DRAWN_ALIKE)
    look = "".join(it for it in drawn if it not in BETWEEN and not unicodedata.combining(it))
    return look.replace("rn", "m").replace("vv", "w")


def genesis_digest(members: int, faults: int, opening: list[int]) -> str:
    """Returns SHA-256 of members, faults and openings, in hexadecimal, as the header of a member's log has it."""
    return hashlib.sha256(struct.pack(f">HH{members}Q", members, faults, *opening)).hexdigest()


def unit_in(given: dict[str, Any]) -> Unit:
    """Returns the unit that a group's file says, or none."""
    name, decimals = given.get("unit", ""), given.get("decimals", 0)
    if not isinstance(name, str) or type(decimals) is not int or ("unit" in given) != ("decimals" in given):
        raise Failure("unit has to be a text, and decimals a number beside it")
    try:
        return Unit(name, decimals)
    except NoAmount as why:
        raise Failure(f"unit: {why}") from why


class Group:
    """What a group's file says, checked."""

    def __init__(self, given: dict[str, Any], has_cryptography: bool = True) -> None:
        try:
            self.members, self.faults, self.opening = given["members"], given["faults"], given["opening"]
            self.ports, self.group, self.public = given["ports"], given["group"], given["public"]
            self.names, self.hosts, self.former = (given.get(it) for it in ("names", "hosts", "former"))
            self.unit = unit_in(given)
        except (KeyError, TypeError, AttributeError) as error:
            raise Failure("it isn't an object with members, faults, opening, ports, group and public") from error
        self.check_genesis()
        self.check_lists()
        self.check_list("public", self.public, is_handed, HANDED)
        self.check_differ([it[: 2 * KEY_BYTES] for it in self.public], "one public key")
        # (a member that has none has its number in place of it)
        self.check_differ([it[2 * KEY_BYTES :] or own for own, it in enumerate(self.public)], "one key for signatures")
        for member in range(self.members):
            own = self.handed(member)[1]
            if own and not is_for_signatures(own):
                raise Failure(f"the key for signatures of member {member} is none: anyone could sign as this member")
        if has_cryptography:
            self.check_public()

    def check_genesis(self) -> None:
        if not is_count(self.members, MOST_MEMBERS) or self.members == 0:
            raise Failure(f"a group has 1 to {MOST_MEMBERS} members")
        if not is_count(self.faults, MOST_MEMBERS) or 3 * self.faults >= self.members:
            raise Failure(f"faults has to be fewer than a third of the members: {(self.members - 1) // 3} at most")
        self.check_list("opening", self.opening, lambda it: is_count(it, GREATEST_TOTAL), "a balance")
        if sum(self.opening) > GREATEST_TOTAL:
            raise Failure(f"the openings come to more than {GREATEST_TOTAL}")

    def check_lists(self) -> None:
        self.check_list("ports", self.ports, lambda it: is_count(it, GREATEST_PORT) and it > 0, "a port")
        self.check_differ(self.ports, "one port")
        if self.names is not None:
            self.check_list("names", self.names, is_name, "a name of letters and digits of one script, NFC")
            self.check_differ([look_of(it) for it in self.names], "names that look alike")
        if self.hosts is not None:
            self.check_list("hosts", self.hosts, is_text_of(HOST), "a host")
        for name, digits in (("group", self.group), ("former", self.former)):
            if not (is_key(digits) or name == "former" and digits is None):
                raise Failure(f"{name} has to be {2 * KEY_BYTES} digits 0-9 a-f")

    def check_public(self) -> None:
        for member in range(self.members):
            if shared_by(bytes([1] * KEY_BYTES), self.handed(member)[0]) is None:
                raise Failure(f"the public key of member {member} is none: anyone would know this member's keys")

    def check_differ(self, given: list[int | str], what: str) -> None:
        for member, it in enumerate(given):
            if it in given[:member]:
                raise Failure(f"members {given.index(it)} and {member} have {what}")

    def check_list(self, name: str, given: list[int | str], fits: Callable, what: str) -> None:
        if not isinstance(given, list) or len(given) != self.members:
            raise Failure(f"{name} has to be a list with one for each of the {self.members} members")
        for member, it in enumerate(given):
            if not fits(it):
                raise Failure(f"{name}: that of member {member} isn't {what}")

    def handed(self, member: int) -> tuple[bytes, bytes]:
        """Returns a member's public key, and the one for its signatures, which is empty where the file has none."""
        text = bytes.fromhex(self.public[member])
        return text[:KEY_BYTES], text[KEY_BYTES:]

    def member(self, word: str) -> int:
        """Returns the number of the member that a word says, by number or name."""
        if word in (self.names or []):
            return self.names.index(word)
        if not NUMBER.fullmatch(word):
            none = "" if self.names is None else ", and no name of the group"
            raise Failure(f"{no_number(word)}{none}")
        if int(word) >= self.members:
            raise Failure(f"there is no member {word}")
        return int(word)

    def called(self, member: int) -> str:
        return f"member {member}" if self.names is None else f"member {member} {self.names[member]}"

    def parts(self) -> dict[str, Any]:
        """Returns what the file says, by the names of its members."""
        names = "ports", "group", "public", "names", "hosts", "former"
        parts = {**{name: getattr(self, name) for name in GENESIS}, **self.unit.parts()}
        parts.update((name, getattr(self, name)) for name in names if getattr(self, name) is not None)
        return parts

    def text(self) -> str:
        """Returns the file, a line for each of its members."""
        lines = (f'  "{name}": {json.dumps(value)}' for name, value in self.parts().items())
        return "{\n" + ",\n".join(lines) + "\n}\n"

    def canonical(self) -> bytes:
        """Returns what the keys hang on: all that the file says but its unit, ports and hosts, however it is laid
        out."""
        lines = [
            "payd group 1",
            f"members {self.members}",
            f"faults {self.faults}",
            f"opening {' '.join(map(str, self.opening))}",
            f"group {self.group}",
            *(f"public {it}" for it in self.public),
            *(f"name {it}" for it in self.names or []),
            *(f"former {it}" for it in [self.former] if it is not None),
        ]
        return "".join(f"{line}\n" for line in lines).encode()

    def digest(self) -> str:
        """Returns SHA-256 of the canonical text, in hexadecimal."""
        return hashlib.sha256(self.canonical()).hexdigest()

    def fingerprint(self) -> list[str]:
        """Returns groups of digits to be read aloud: of SHA-512 of the canonical text, and behind it the unit where
        there is one, five bytes each, modulo 100,000."""
        unit = f"unit {self.unit.name} {self.unit.decimals}\n" if self.unit.name else ""
        digest = hashlib.sha512(self.canonical() + unit.encode()).digest()
        groups = (int.from_bytes(digest[5 * at : 5 * at + 5], "big") for at in range(FINGERPRINT_GROUPS))
        return [f"{it % 100_000:05}" for it in groups]

    def genesis_digest(self) -> str:
        return genesis_digest(self.members, self.faults, self.opening)

    def own(self, secret: bytes) -> int:
        """Returns the number of the member whose secret this is."""
        public, every = public_of(secret), [self.handed(it)[0] for it in range(self.members)]
        if public not in every:
            raise Failure("the secret's public key is none of the group's")
        return every.index(public)

    def key(self, secret: bytes, own: int, peer: int) -> bytes:
        """Returns the key of two members, as either has it."""
        shared = shared_by(secret, self.handed(peer)[0])
        one, other = sorted([own, peer])
        return derived(shared, bytes.fromhex(self.digest()), f"payd pair {one} {other}".encode("ascii"))

    def keys(self, secret: bytes) -> str:
        """Returns the file of keys of the member whose secret this is."""
        own = self.own(secret)
        keys = ["" if peer == own else self.key(secret, own, peer).hex() for peer in range(self.members)]
        parts = {"own": own, "keys": keys, "group": self.group, "digest": self.digest()[:DIGITS_OF_KEYS]}
        return json.dumps(parts) + "\n"


class Genesis(Group):
    """A group of which there is no more than a genesis."""

    def __init__(self, given: dict[str, Any]) -> None:
        try:
            self.members, self.faults, self.opening = (given[it] for it in GENESIS)
        except (KeyError, TypeError) as error:
            raise Failure("it is no group's file, and no genesis") from error
        self.names, self.unit = None, Unit()
        self.check_genesis()

    def digest(self) -> str:
        return self.genesis_digest()


# ---- files


@contextlib.contextmanager
def about(name: str) -> Iterator[None]:
    """Failures say which file they are about."""
    try:
        yield
    except OSError as error:
        raise Failure(f"{name}: {error.strerror}") from error
    except (Failure, ValueError, RecursionError) as error:
        raise Failure(f"{name}: {error}") from error


def read_secret(name: str) -> bytes:
    with about(name):
        with open(name, encoding="ascii") as file:
            text = file.read().strip()
        if not is_key(text):
            raise Failure("it is no secret that 'new' wrote")
        return bytes.fromhex(text)


def object_of(pairs: list[tuple[str, Any]]) -> dict[str, Any]:
    """Returns a JSON object, which names nothing twice: of two readers each might take another."""
    parts = dict(pairs)
    if len(parts) != len(pairs):
        raise Failure("an object in it names something twice")
    return parts


# How many bytes of memory parts of JSON take at most, by the signs that they begin with or end with: objects, lists,
# texts, and each behind a comma. What a file says may take so many times its size, and this much more.
PARTS = {"{": 64, ":": 200, "[": 88, '"': 28, ",": 9}
MOST_TIMES, ROOM = 16, 1 << 20


def object_in(text: str) -> list | dict[str, Any]:
    """Returns what a text of JSON says. It is refused before it is read if that would take too much memory."""
    size = len(text) if text.isascii() else len(text.encode(errors="surrogatepass"))
    # (an empty text, of which an export may have many, takes none)
    texts = 2 * PARTS['"'] * text.count('""')
    memory = (3 if text.isascii() else 9) * size + sum(text.count(it) * each for it, each in PARTS.items()) - texts
    if memory > MOST_TIMES * size + ROOM:
        raise Failure(f"its {size} bytes have so many parts that they would take {memory} of memory")
    return json.loads(text, object_pairs_hook=object_of)


def read_group(name: str, has_cryptography: bool = True) -> Group:
    with about(name):
        with open(name, encoding="utf-8") as file:
            text = file.read()
        if is_key(text.strip()):
            raise Failure("it is a member's secret, and no group's file: 'public' prints the public key of it")
        return Group(object_in(text), has_cryptography)


def read_object(name: str) -> dict[str, Any]:
    with open(name, encoding="utf-8") as file:
        given = object_in(file.read())
    if not isinstance(given, dict):
        raise Failure("it is no object")
    return given


def read_members(name: str) -> Group:
    """Returns a group, by its file or by a genesis."""
    with about(name):
        given = read_object(name)
        return Group(given, has_cryptography=False) if "public" in given else Genesis(given)


def read_keys(name: str, group: Group) -> tuple[int, list[bytes]]:
    """Returns a member's number, and its key with each other one; zeros at its own place."""
    with about(name):
        given = read_object(name)
        own, keys = given.get("own"), given.get("keys")
        if not isinstance(keys, list) or len(keys) != group.members or type(own) is not int or not 0 <= own < len(keys):
            raise Failure("it is no file of keys of this group")
        if given.get("digest") not in (None, group.digest()[:DIGITS_OF_KEYS]):
            raise Failure("these are the keys of another group")
        if not all(isinstance(it, str) and is_key(it.lower()) for at, it in enumerate(keys) if at != own):
            raise Failure(f"a key in it isn't {2 * KEY_BYTES} hexadecimal digits")
        return own, [bytes(KEY_BYTES) if at == own else bytes.fromhex(it) for at, it in enumerate(keys)]
