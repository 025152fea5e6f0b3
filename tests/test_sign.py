"""Black-box tests of payd sign and payd audit-signed: signatures as openssl has them, and what isn't signed is told."""

import hashlib
import json
import os
import re
import subprocess

import pytest

from models import group_model
from models.audits import FORKED, FRESH, PAID
from support.nodes import write_json
from support.runs import SECONDS, TOP, call, read_bytes, read_text, same, write_text

NAMES = "Ann", "Bob", "Cy", "Dee"
EXPORTS = {"paid": PAID, "fresh": FRESH, "forked": FORKED, "other": {**PAID, "member": 3}}
# What stands before the bytes of an Ed25519 key in DER (RFC 8410).
SECRET_IN_DER = bytes.fromhex("302e020100300506032b657004220420")
PUBLIC_IN_DER = bytes.fromhex("302a300506032b6570032100")


def tool(folder, name, *words):
    return call([os.path.join(TOP, "tools", name), *words], folder=folder)


def make(folder, *names, opening="0,0,0,50"):
    """A group's file of four, each with a secret."""
    for name in names:
        public = []
        for own in range(4):
            command = "public" if os.path.exists(os.path.join(folder, f"{own}.secret")) else "new"
            public.append(tool(folder, "group", command, f"{own}.secret")[1].strip())
        words = "--faults", "1", "--opening", opening, "--names", ",".join(NAMES)
        status, text, errors = tool(folder, "group", "make", *words, *public)
        same((status, errors), (0, ""), "a group's file")
        write_json(folder, name, json.loads(text))
    for name, given in EXPORTS.items():
        write_json(folder, name, given)


def signs(folder, own, export, group="group"):
    return tool(folder, "sign", "--group", group, "--secret", f"{own}.secret", export)


def audited(folder, *exports, group="group"):
    """Status, lines, without the times in them, and errors."""
    status, output, errors = tool(folder, "audit-signed", "--group", group, *exports)
    return status, re.sub(r" at \d{4}-\d\d-\d\dT\d\d:\d\d:\d\dZ\n", "\n", output), errors


def part(folder, name):
    return json.loads(read_text(os.path.join(folder, f"{name}.sig")))


def message(folder, name, given):
    """What a signature is over, as docs/formats.md has it."""
    lines = f"payd export 1\ngroup {given['group']}\nmember {given['member']}\ntime {given['time']}\n"
    return lines.encode() + read_bytes(os.path.join(folder, name))


def test_exports_that_their_members_sign_are_audited(folder):
    make(folder, "group")
    for own, name in ((0, "paid"), (1, "fresh"), (2, "forked")):
        same(signs(folder, own, name), (0, "", ""), f"the signature of {name}")
    lines = "paid: member 0 Ann signed it\nfresh: member 1 Bob signed it\n"
    same(audited(folder, "paid", "fresh"), (0, f"{lines}clean\n", ""), "a clean audit")
    lines = "paid: member 0 Ann signed it\nforked: member 2 Cy signed it\n"
    same(audited(folder, "paid", "forked"), (1, f"{lines}4 fork 0 1 owner 3 seq 0\n", ""), "an audit that isn't")


def change(folder, name, **parts):
    write_json(folder, f"{name}.sig", {**part(folder, name), **parts})


def test_what_its_member_did_not_sign_is_told(folder):
    """And then nothing is audited."""
    make(folder, "group", "another")
    right, wrong = "paid: member 0 Ann signed it\n", "fresh: this isn't what member 1 Bob signed\n"
    signs(folder, 0, "paid")
    same(audited(folder, "paid", "fresh"), (1, f"{right}fresh: nobody signed it\n", ""), "no signature")
    signs(folder, 1, "fresh")
    was = part(folder, "fresh")
    for parts, line in (
        ({"time": "2026-01-01T00:00:00Z"}, wrong),
        ({"signature": "00" * 64}, wrong),
        ({"signature": ""}, wrong),
        ({"member": 2}, "fresh: this isn't what member 2 Cy signed\n"),
        ({"member": 4}, "fresh: it is signed for nobody of the group\n"),
        ({"group": "0" * 64}, "fresh: it is signed for another group\n"),
        # (a line more would be the beginning of another export)
        *(({"time": it}, "fresh: what stands beside it is no signature\n") for it in ("", 7, was["time"] + "\n{")),
        *(({it: None}, "fresh: what stands beside it is no signature\n") for it in ("member", "signature")),
    ):
        change(folder, "fresh", **{**was, **parts})
        same(audited(folder, "paid", "fresh"), (1, right + line, ""), f"{parts}")
    change(folder, "fresh", **was)
    write_json(folder, "fresh", {**FRESH, "note": 1})
    same(audited(folder, "paid", "fresh"), (1, right + wrong, ""), "an export that was changed")
    signs(folder, 1, "fresh", "another")
    same(audited(folder, "fresh"), (1, "fresh: it is signed for another group\n", ""), "a signature for another group")


@pytest.mark.needs("openssl")
def test_another_members_signature_is_told_by_its_name(folder):
    """Cy signs for itself what it then shows as Ann's."""
    make(folder, "group")
    write_json(folder, "paid", {**PAID, "member": 2})
    signs(folder, 2, "paid")
    write_json(folder, "paid", PAID)
    same(audited(folder, "paid")[1], "paid: this isn't what member 2 Cy signed\n", "an export with another member")
    text = message(folder, "paid", part(folder, "paid"))
    change(folder, "paid", signature=by_openssl(folder, key_of(folder, 2), text).hex())
    line = "paid: member 2 Cy signed it, and it is the export of member 0 Ann\n"
    same(audited(folder, "paid"), (1, line, ""), "a signature of another's export")


def test_nobody_signs_what_is_not_its_own(folder):
    make(folder, "group", "bare")
    bare = json.loads(read_text(os.path.join(folder, "bare")))
    public = [it[:64] for it in bare["public"]]
    write_json(folder, "swapped", {**bare, "public": [f"{public[0]}{bare['public'][1][64:]}", *public[1:]]})
    write_json(folder, "bare", {**bare, "public": public})
    write_json(folder, "foreign", {**PAID, "opening": [0, 0, 0, 51]})
    write_json(folder, "nobody", {**PAID, "member": 4})
    none = "the group's file has no key for signatures of member 0 Ann"
    for own, name, group, why in (
        (2, "paid", "group", "paid: it is the export of member 0 Ann, and the secret is that of member 2 Cy"),
        (0, "foreign", "group", "foreign: it is no export of this group"),
        (0, "nobody", "group", "nobody: it is nobody's export"),
        (0, "group", "group", "group: it is nobody's export"),
        (0, "gone", "group", "gone: No such file or directory"),
        (0, "paid", "bare", f"{none}, who handed none over"),
        (0, "paid", "swapped", "the group's file has another key for signatures of member 0 Ann"),
    ):
        status, output, errors = signs(folder, own, name, group)
        same((status, output, errors[: len(why) + 11]), (1, "", f"payd sign: {why}"), f"{own} signs {name}")
        same(os.path.exists(os.path.join(folder, f"{name}.sig")), False, f"a signature of {name}")
    digest = hashlib.sha256(group_model.canonical({**bare, "public": public}).encode()).hexdigest()
    signs(folder, 0, "paid")
    change(folder, "paid", group=digest)
    same(audited(folder, "paid", group="bare"), (1, f"paid: {none}\n", ""), "an audit without keys")


def test_a_signature_is_a_new_file(folder):
    """In place of a link, whose file stays; and what isn't written whole leaves the one before."""
    make(folder, "group")
    write_text(os.path.join(folder, "mine"), "mine")
    place = os.path.join(folder, "paid.sig")
    os.symlink("mine", place)
    same(signs(folder, 0, "paid"), (0, "", ""), "a signature where a link stands")
    same((read_text(os.path.join(folder, "mine")), os.path.islink(place)), ("mine", False), "what the link led to")
    line = "paid: member 0 Ann signed it\n"
    same(audited(folder, "paid"), (0, f"{line}clean\n", ""), "its audit")
    was, files = read_text(place), sorted(os.listdir(folder))
    words = ["--group", "group", "--secret", "0.secret", "paid"]
    full = ["sh", "-c", 'ulimit -f 0; trap "" XFSZ; exec "$@"', "sh"]
    done = call([*full, os.path.join(TOP, "tools", "sign"), *words], folder=folder)
    same(done, (1, "", "payd sign: paid.sig: File too large\n"), "where nothing can be written")
    same((read_text(place), sorted(os.listdir(folder))), (was, files), "what stands there then")
    os.unlink(place)
    os.mkdir(place)
    files = sorted(os.listdir(folder))
    same(signs(folder, 0, "paid"), (1, "", "payd sign: paid.sig: Is a directory\n"), "where a folder stands")
    same(sorted(os.listdir(folder)), files, "what is left of it")


# ---- openssl


def openssl(folder, *words, stream=b""):
    done = subprocess.run(["openssl", *words], cwd=folder, input=stream, capture_output=True, timeout=SECONDS)
    same(done.returncode, 0, f"openssl {words}: {done.stdout}{done.stderr}")
    return done.stdout


def put(folder, name, content):
    with open(os.path.join(folder, name), "wb") as file:
        file.write(content)


def key_of(folder, own):
    """A member's key for signatures, as the model derives it."""
    secret = bytes.fromhex(read_text(os.path.join(folder, f"{own}.secret")))
    return SECRET_IN_DER + group_model.hkdf(secret, b"", b"payd sign")


def by_openssl(folder, key, text):
    put(folder, "key", key)
    put(folder, "text", text)
    openssl(folder, "pkeyutl", "-sign", "-keyform", "DER", "-inkey", "key", "-rawin", "-in", "text", "-out", "made")
    return read_bytes(os.path.join(folder, "made"))


@pytest.mark.needs("openssl")
def test_signatures_are_those_of_openssl(folder):
    """Of the key that the model derives, whose public half is in the group's file; and either reads the other's."""
    make(folder, "group")
    signs(folder, 1, "fresh")
    given = part(folder, "fresh")
    key = key_of(folder, 1)
    public = openssl(folder, "pkey", "-inform", "DER", "-pubout", "-outform", "DER", stream=key)
    in_group = json.loads(read_text(os.path.join(folder, "group")))["public"][1][64:]
    same(public.hex(), PUBLIC_IN_DER.hex() + in_group, "the public half")
    put(folder, "public", public)
    put(folder, "text", message(folder, "fresh", given))
    put(folder, "signature", bytes.fromhex(given["signature"]))
    words = "-verify", "-pubin", "-keyform", "DER", "-inkey", "public", "-rawin", "-in", "text", "-sigfile", "signature"
    same(openssl(folder, "pkeyutl", *words), b"Signature Verified Successfully\n", "what openssl says")
    given["time"] = "2026-01-31T12:00:00Z"
    given["signature"] = by_openssl(folder, key, message(folder, "fresh", given)).hex()
    change(folder, "fresh", **given)
    line = "fresh: member 1 Bob signed it at 2026-01-31T12:00:00Z\n"
    same(tool(folder, "audit-signed", "--group", "group", "fresh"), (0, f"{line}clean\n", ""), "a signature of openssl")
