"""Signatures of exports and of evidence: what each is over, and the file that it stands in beside its own.

A signature of an export stands in the file `EXPORT.sig`: `group`, the group's digest, `member`, `time`, and
`signature`, 64 bytes in hexadecimal. It is that of Ed25519 (RFC 8032) over these lines, each with a line feed, and the
export's bytes after them: `payd export 1`; `group` and the digest; `member` and the number; `time` and it. The key's 32
secret bytes are HKDF-SHA256 of the member's secret without salt, with the info `payd sign`. For evidence it is the
same, with `payd evidence 1` as the first line.
"""

from __future__ import annotations

import contextlib
import json
import os
import re
import secrets
import tempfile
from collections import namedtuple
from typing import Iterator

from payd_tools.groups import GENESIS, Failure, Group, about, is_signed, object_in, signing_key_of

# What a member signs: whether an export or evidence, its bytes, and whose it is.
Document = namedtuple("Document", "kind text member")
# An export's bytes, whose it is, whether its member signed them, or None where nobody did, and what is said of that.
Signed = namedtuple("Signed", "text member is_signed said")

TIME = re.compile("[0-9]{4}-[0-9]{2}-[0-9]{2}T[0-9]{2}:[0-9]{2}:[0-9]{2}Z")


def path_of(export: str) -> str:
    return f"{export}.sig"


def text_of(document: Document, group: str, member: int, time: str) -> bytes:
    """Returns what a signature is over, of what is signed and the group's digest."""
    head = f"payd {document.kind} 1\ngroup {group}\nmember {member}\ntime {time}\n"
    return head.encode("ascii") + document.text


def read_document(name: str, group: Group) -> Document:
    """Returns the export or the evidence in a file, of a member of this group."""
    with about(name):
        with open(name, "rb") as file:
            text = file.read()
        given = object_in(text.decode("ascii"))
        if not isinstance(given, dict):
            raise Failure("it is no export of this group")
        if "frames" in given:
            kind, is_of, member = "evidence", given.get("group") == group.digest(), given.get("receiver")
        else:
            is_of = all(given.get(it) == getattr(group, it) for it in GENESIS)
            kind, member = "export", given.get("member")
        if not is_of:
            raise Failure(f"it is no {kind} of this group")
        if type(member) is not int or not 0 <= member < group.members:
            raise Failure(f"it is nobody's {kind}")
        return Document(kind, text, member)


def sign(name: str, group: Group, secret: bytes, time: str) -> None:
    """Writes a member's signature of its own export or evidence."""
    document, own = read_document(name, group), group.own(secret)
    if own != document.member:
        whose = f"it is the {document.kind} of {group.called(document.member)}"
        raise Failure(f"{name}: {whose}, and the secret is that of {group.called(own)}")
    if not group.handed(own)[1]:
        raise Failure(f"the group's file has no key for signatures of {group.called(own)}, who handed none over")
    text = text_of(document, group.digest(), own, time)
    signature = signing_key_of(secret).sign(text)
    if not is_signed(signature, group.handed(own)[1], text):
        raise Failure(f"the group's file has another key for signatures of {group.called(own)}")
    given = {"group": group.digest(), "member": own, "time": time, "signature": signature.hex()}
    with about(path_of(name)):
        replace(path_of(name), json.dumps(given) + "\n")


def replace(path: str, text: str) -> None:
    """Puts a file in the place of what has this name, whole or not at all. Where that is a link, what it leads to stays
    as it is."""
    made = f"{path}.{secrets.token_hex(8)}.new"
    with os.fdopen(os.open(made, os.O_WRONLY | os.O_CREAT | os.O_EXCL, 0o666), "w", encoding="ascii") as file:
        try:
            file.write(text)
            file.flush()
            os.fsync(file.fileno())
            os.replace(made, path)
        except BaseException:
            os.unlink(made)
            raise


def read_signature(name: str) -> tuple[str, int, str, bytes] | None:
    """Returns group, member, time and signature that a file says, or None where it is none."""
    with about(name), open(name, encoding="utf-8") as file:
        try:
            given = object_in(file.read())
            group, member, time, signature = (given[it] for it in ("group", "member", "time", "signature"))
            is_right = isinstance(group, str) and type(member) is int and TIME.fullmatch(time)
            return (group, member, time, bytes.fromhex(signature)) if is_right else None
        except (ValueError, KeyError, TypeError, RecursionError, Failure):
            return None


def read_signed(name: str, group: Group, kind: str = "export") -> Signed:
    """Returns the export in a file, or what else it is to be, and who signed it."""
    document = read_document(name, group)
    if document.kind != kind:
        raise Failure(f"{name}: it is no {kind} of this group")
    return Signed(document.text, document.member, *judged(name, group, document))


@contextlib.contextmanager
def copies_of(exports: list[Signed]) -> Iterator[str | None]:
    """A folder with these, each in the file of its place: so what is read is what was signed, whatever becomes of the
    files that they stood in."""
    with tempfile.TemporaryDirectory() as folder:
        for place, it in enumerate(exports):
            with open(os.path.join(folder, f"{place}"), "wb") as file:
                file.write(it.text)
        yield folder


def judged(name: str, group: Group, document: Document) -> tuple[bool | None, str]:
    """Returns whether its member signed what is in a file, or None where nobody did, and what is said of that."""
    of = document.member
    if not os.path.lexists(path_of(name)):
        return None, "nobody signed it"
    found = read_signature(path_of(name))
    if found is None:
        return False, "what stands beside it is no signature"
    digest, member, time, signature = found
    if digest != group.digest():
        return False, "it is signed for another group"
    if not 0 <= member < group.members:
        return False, "it is signed for nobody of the group"
    if not group.handed(member)[1]:
        return False, f"the group's file has no key for signatures of {group.called(member)}"
    if not is_signed(signature, group.handed(member)[1], text_of(document, digest, member, time)):
        return False, f"this isn't what {group.called(member)} signed"
    if member != of:
        return False, f"{group.called(member)} signed it, and it is the {document.kind} of {group.called(of)}"
    return True, f"{group.called(of)} signed it at {time}"
