"""Black-box tests of `audit`: its verdicts, and the faults of exports."""

import json
import os
import random
import subprocess
import tempfile
import threading

from models import audits
from models.audits import audit
from payd_tools.frames import payment
from support.advices import told_plainly
from support.runs import SECONDS, of_file, payd, same, shows, with_files, write_text


def test_model_has_each_verdict():
    for purpose, exports, line in audits.ROWS:
        same(audits.verdict(exports), line, purpose)


def test_all_that_is_wrong():
    """Four of a group, of whom one has another payment, one a wrong front, and one nothing yet; and a stranger."""
    stranger = audits.export([7], [[]], [0], [7])
    behind = {**audits.PAID, "front": [0, 0, 0, 0]}
    shows(
        audit([audits.PAID, audits.FRESH, audits.FORKED, behind, stranger], "--all"),
        1,
        "1 genesis 4\n"
        "1 genesis in 4.json\n"
        "2 front account 3 says 0 right 1 in 3.json\n"
        "4 fork owner 3 seq 0 to 0 amount 5 exports 2 in 0.json 3.json\n"
        "4 fork owner 3 seq 0 to 1 amount 5 exports 1 in 2.json\n",
    )
    shows(audit([audits.PAID, audits.FRESH], "--all"), 0, "clean\n")
    files = {"two": audits.TWO_ENTRIES, "two again": {**audits.TWO_ENTRIES, "balances": [1, 2, 3, 4]}}
    shows(
        with_files(files, ["audit", "--all", *files]),
        1,
        "3 balance 1 account 0\n"
        "3 balance account 0 says 1 right 100 in two again\n"
        "3 balance account 1 says 2 right 5 in two again\n"
        "3 balance account 2 says 3 right 0 in two again\n"
        "3 balance account 3 says 4 right 45 in two again\n",
        of="the names of files may have blanks",
    )


def test_all_that_is_wrong_with_random_exports():
    seeded = random.Random(21)
    for turn in range(300):
        exports = audits.random_exports(seeded)
        lines = audits.findings([(f"{place}.json", given) for place, given in enumerate(exports)])
        text = "".join(f"{line}\n" for line in lines)
        shows(audit(exports, "--all"), 0 if text == "clean\n" else 1, text, of=f"turn {turn}, {exports}")


def test_each_fault_of_an_export():
    """Of each command that reads one, also behind another, and before one that isn't JSON."""
    # (the vectors have more of each kind, for an audit)
    rows = [(audits.changed(members), it) for it, members in {it: has for _, has, it in audits.FAULTS}.items()]
    texts = "", "{", "nan", b"\xef\xbb\xbf{}", b'"\xff"', json.dumps(audits.PAID) + "x"
    rows += [(text, "1 BadJson") for text in texts] + [(text, "2 BadShape") for text in ("[]", "7", "{}")]
    for content, fault in rows:
        files = {"good": audits.PAID, "bad": content, "text": "{"}
        for words in (["audit", "good", "bad", "text"], ["book", "good", "bad", "text"], ["statement", "bad", "0"],
                      ["journal", "bad"]):
            shows(with_files(files, words), 2, "", of_file(f"export {fault}", "bad"), of=f"{words} of {content!r}")
    for words in (["audit", "gone"], ["book", "gone"], ["statement", "gone", "x"], ["journal", "gone"]):
        shows(with_files({}, words), 2, "", "payd: file gone\n", of=f"{words}")


def test_faults_of_files_keep_their_order():
    """A verdict comes after all files, and a fault that is found sooner after one that is named before it."""
    long = json.dumps(audits.export([7], [65536 * [""]], [65536], [7]))
    files = {"paid": audits.PAID, "forked": audits.FORKED, "text": "{", "shape": "[]", "long": long, "torn": long + "x"}
    files["other"] = {**audits.FRESH, "opening": [0, 0, 0, 51]}
    files.update(front={**audits.PAID, "front": [0, 0, 0, 0]}, balance={**audits.PAID, "balances": [0, 0, 0, 50]})
    for wrong in ("forked", "other", "front", "balance"):
        for words, line in (
            (["paid", wrong, "shape"], of_file("export 2 BadShape", "shape")),
            ([wrong, "paid", "text", "shape"], of_file("export 1 BadJson", "text")),
            (["paid", wrong, "gone", "text"], "payd: file gone\n"),
        ):
            same(with_files(files, ["audit", *words]), (2, "", line), f"{words}")
    for words, wanted in (
        (["shape", "gone"], (2, "", of_file("export 2 BadShape", "shape"))),
        (["gone", "shape"], (2, "", "payd: file gone\n")),
        (["paid", "."], (2, "", "payd: file .\n")),
        (["paid", "forked", "text"], (2, "", of_file("export 1 BadJson", "text"))),
        (["paid", "text", "forked", "paid", "gone"], (2, "", of_file("export 1 BadJson", "text"))),
        (["paid", "gone", "forked", "paid", "text"], (2, "", "payd: file gone\n")),
        (["torn", "shape", "gone"], (2, "", of_file("export 1 BadJson", "torn"))),
        (["long", "gone", "torn"], (2, "", "payd: file gone\n")),
        (["paid", "paid", "paid", "paid", "shape", "text"], (2, "", of_file("export 2 BadShape", "shape"))),
        (["paid", "paid", "paid", "forked"], (1, "4 fork 0 3 owner 3 seq 0\n", "")),
        (["paid", *(8 * ["paid"]), "forked"], (1, "4 fork 0 9 owner 3 seq 0\n", "")),
        (["paid", "long", "forked"], (1, "1 genesis 1\n", "")),
    ):
        same(with_files(files, ["audit", *words]), wanted, f"{words}")


def test_longest_lists_and_values():
    for texts, front in ((65536 * [""], 65536), ([1024 * "fF"], 1)):
        given = audits.export([7], [texts], [front], [7])
        shows(audit([given, given]), 0, "clean\n", of=f"{len(texts)} values")


def test_chains_of_debts_settle():
    """Each account but the last pays on what it doesn't have, until the first one, which has it, pays."""
    for members in (64, 128):
        opening = [10] + [0] * (members - 1)
        owed = [[payment(payee=payer + 1, amount=10).hex()] for payer in range(members - 1)] + [[]]
        settled = audits.export(opening, owed, [1] * (members - 1) + [0], opening[::-1])
        waiting = audits.export(opening, [[]] + owed[1:], [0] * members, opening)
        shows(audit([settled, waiting]), 0, "clean\n", of=f"{members} members")
        short = {**settled, "front": [1] * (members - 2) + [0, 0]}
        shows(audit([short]), 1, f"2 front 0 account {members - 2}\n", of=f"{members} members, and one is missed")


def audit_of_pipes(contents, meanwhile):
    """The audit of a file `first`, and after it of pipes, each of which gives its content to one reader. As soon as
    the first pipe is opened, the file's content is another."""
    with tempfile.TemporaryDirectory() as folder:
        first = os.path.join(folder, "first")
        pipes = [os.path.join(folder, f"{place}.pipe") for place in range(1, len(contents))]
        with open(first, "w", encoding="ascii") as file:
            json.dump(contents[0], file)
        for pipe in pipes:
            os.mkfifo(pipe)

        def write():
            for pipe, content in zip(pipes, contents[1:]):
                with open(pipe, "w", encoding="ascii") as file:
                    if pipe == pipes[0]:
                        write_text(first, meanwhile)
                    json.dump(content, file)

        writer = threading.Thread(target=write, daemon=True)
        writer.start()
        done = subprocess.run([payd(), "audit", first, *pipes], capture_output=True, timeout=SECONDS)
        writer.join(SECONDS)
    return done.returncode, done.stdout.decode("ascii"), told_plainly(done.stderr.decode())


def test_each_file_is_read_once():
    paid, fresh, forked = audits.PAID, audits.FRESH, audits.FORKED
    for contents in ([paid, forked, fresh], [fresh, fresh, paid, paid, forked], [forked, fresh, paid], [paid, fresh]):
        line = audits.verdict(contents)
        for meanwhile in ("{", json.dumps(contents[1])):
            shows(audit_of_pipes(contents, meanwhile), 0 if line == "clean" else 1, f"{line}\n", of=line)


def test_words_of_audit():
    same(with_files({}, ["audit"])[:2], (2, ""), "no file")
    shows(with_files({"--x": audits.PAID}, ["audit", "--", "--x"]), 0, "clean\n", of="a name behind --")
    shows(with_files({"a": audits.PAID}, ["audit", "a", "a", "a"]), 0, "clean\n", of="one file three times")
