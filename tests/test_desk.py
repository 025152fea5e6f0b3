"""Black-box tests of the desk."""

import json
import os
import socket
import subprocess
import tempfile
import threading

from models import desks
from support.advices import told_plainly
from support.runs import (
    EXAMPLE_GENESIS, GENESIS, SECONDS, TOP, payd, read_text, write_text, example_keys, of_file, run, same,
    shows, with_files,
)


def desk(text, own=0, genesis=EXAMPLE_GENESIS, keys=None):
    """A run of the desk of a member of four, or of another one, on a text."""
    words = ["desk", "--genesis", genesis, "--keys", keys or example_keys(own)]
    return run(words, text if isinstance(text, bytes) else text.encode())


def lines_of(rows):
    return "".join(f"{row}\n" for row in rows)


def test_desk_answers_an_exchange():
    """The vectors have more of them, of which the model has each."""
    lines, answers = zip(*desks.EXCHANGE)
    shows(desk(lines_of(lines)[:-1]), 0, lines_of(answers), of="the last line without its end")
    shows(desk(b""), 0, "", of="no line")
    for exchange in (desks.EXCHANGE, desks.SEVERAL, desks.WAITING, desks.UNCOVERED, desks.NOTES):
        model = desks.Desk(0, GENESIS["opening"])
        answers = [model.answer(line.encode("latin-1")) for line, _ in exchange]
        same(answers, [answer for _, answer in exchange], "the model")


def test_no_more_than_a_thousand_entries_are_shown():
    for several, values in ((1, 1001), (32, 32)):
        lines = [f"PAYS {number} {' '.join(several * ['1 7'])}" for number in range(values)]
        shown = [f"waiting 0 {number} seq {number // several} to 1 7" for number in range(1000)]
        asked = [f"asked {number} seq {number}" for number in range(values)]
        wanted = lines_of([*asked, *shown, "end 0 short 0"])
        shows(desk(lines_of([*lines, "WAITING 0"])), 0, wanted, of=f"{several} payments in a value")


def test_example_of_a_desk():
    text = read_text(os.path.join(TOP, "examples", "desk.txt"))
    shows(desk(text), 0, read_text(os.path.join(TOP, "examples", "desk-answers.txt")))


def test_long_lines_of_a_desk():
    for size in (128, 129, 1023, 1024, 1025, 1026, 4095, 4096, 4097, 100000):
        for filler in (b"x", b" ", b"0", b"9"):
            text = size * filler
            shows(desk(text), 0, "refused 1 BadLine\n", of=f"{size} bytes {filler} alone")
            wanted = "refused 1 BadLine\nfront 0 0 0 0\n"
            shows(desk(text + b"\nFRONT"), 0, wanted, of=f"{size} bytes {filler}")
    # 32 payments, to a payee of as many digits as the bound leaves: the longest line that may be a command
    for size, answer in ((1024, desks.NO_ACCOUNT), (1025, desks.BAD_LINE)):
        words = [b"PAYS 18446744073709551615", *32 * [b"1 18446744073709551615"]]
        line = b" ".join(words)
        at = 26
        while len(line) < size:
            # a digit more for one payee, up to 20, then for the next one
            end = line.index(b" ", at)
            if end - at == 20:
                at = line.index(b" ", end + 1) + 1
                continue
            line = line[:end] + b"0" + line[end:]
        same(len(line), size, "the length of a line")
        shows(desk(line + b"\nFRONT\n"), 0, f"{answer}\nfront 0 0 0 0\n", of=f"{size} bytes of payments")
    within = b"PAY 1 1 1 " + 1014 * b"x"
    front = "front 0 0 0 0\n"
    shows(desk(b"FRONT\n" + within + b"\n\nFRONT\n"), 0, front + 2 * "refused 1 BadLine\n" + front)


def test_desk_of_one_alone():
    """Nobody can be paid, and notes settle at once."""
    lines = ["PAY 1 0 5", "PAY 1 1 5", "PAY 1 1 0", "BALANCE 0", "FRONT", "STATEMENT 0", "STATE 0 0", "STATE 1 0"]
    lines += ["NOTE 1 order 17", "NOTE 1 order 17", "FRONT", "STATEMENT 0", "STATE 0 0", "ENTRIES 0 0", "WAITING 0"]
    answers = [
        desks.ZERO_OR_SELF,
        desks.NO_ACCOUNT,
        desks.NO_ACCOUNT,
        "balance 0 7",
        "front 0",
        "end 0 balance 7",
        "state 0 0 unknown",
        desks.NO_ACCOUNT,
        "asked 1 seq 0",
        "asked 1 seq 0",
        "front 1",
        "void 0",
        "end 0 balance 7",
        "state 0 0 settled",
        "entry 0 0 seq 0 note order 17",
        "end 0 1",
        "end 0 short 0",
    ]
    files = {"g": {"members": 1, "faults": 0, "opening": [7]}, "k": {"own": 0, "keys": [""]}}
    shows(with_files(files, ["desk", "--genesis", "g", "--keys", "k"], lines_of(lines).encode()), 0, lines_of(answers))


def test_all_numbers_of_a_desk_are_spent():
    pays = [f"PAY {number} 1 {number + 1}" for number in range(desks.ASKS)]
    asked = [f"asked {number} seq {number}" for number in range(desks.ASKS)]
    lines = ["PAY 65536 1 1", "PAY 65536 4 1", "PAY 65536 0 1", "PAY 7 1 8", "PAY 7 1 9", "PAY 65536 1 1"]
    lines.append("STATE 0 65535")
    answers = [
        desks.SPENT,
        desks.NO_ACCOUNT,
        desks.ZERO_OR_SELF,
        "asked 7 seq 7",
        desks.ID_USED,
        desks.SPENT,
        "state 0 65535 asked",
    ]
    was = desk(lines_of(pays + lines))
    wanted = lines_of(asked + answers)
    same((was[0], was[1] == wanted, was[2]), (0, True, ""), "65,536 payments and some lines more")


def test_desk_answers_line_by_line():
    words = [payd(), "desk", "--genesis", EXAMPLE_GENESIS, "--keys", example_keys(0)]
    child = subprocess.Popen(words, stdin=subprocess.PIPE, stdout=subprocess.PIPE, stderr=subprocess.PIPE, bufsize=0)
    watchdog = threading.Timer(SECONDS, child.kill)
    watchdog.start()
    try:
        for line, answer in desks.EXCHANGE:
            for piece in (line[:3], line[3:], "\n"):
                child.stdin.write(piece.encode())
            same(child.stdout.readline(), f"{answer}\n".encode(), line)
        output, errors = child.communicate()
    finally:
        watchdog.cancel()
    shows((child.returncode, output.decode(), errors.decode()), 0, "")


def test_answers_to_one_read_are_written_at_once():
    """By a socket that keeps each write apart: as many as there are reads of 4,096 bytes."""
    lines = lines_of(f"PAY {order} 1 1" for order in range(1000))
    near, far = socket.socketpair(socket.AF_UNIX, socket.SOCK_SEQPACKET)
    with near, far, tempfile.TemporaryFile() as file:
        file.write(lines.encode())
        file.seek(0)
        words = [payd(), "desk", "--genesis", EXAMPLE_GENESIS, "--keys", example_keys(0)]
        child = subprocess.Popen(words, stdin=file, stdout=far, stderr=subprocess.DEVNULL)
        far.close()
        writes = []
        while piece := near.recv(1 << 17):
            writes.append(piece.decode())
        same(child.wait(timeout=SECONDS), 0, "the end of the desk")
    same("".join(writes), lines_of(f"asked {order} seq {order}" for order in range(1000)), "the answers")
    same(len(writes), -(-len(lines) // 4096), "writes")


def test_files_come_before_lines(folder):
    bad = os.path.join(folder, "bad")
    write_text(bad, "{")
    for words, line in (
        (["desk", "--genesis", bad, "--keys", example_keys(0)], "genesis 1 BadJson"),
        (["desk", "--genesis", EXAMPLE_GENESIS, "--keys", bad], "keys 1 BadJson"),
        (["check", "--genesis", bad], "genesis 1 BadJson"),
        (["audit", bad], "export 1 BadJson"),
    ):
        # nothing is written, and the input stays open
        source, sink = os.pipe()
        done = subprocess.run([payd(), *words], stdin=source, capture_output=True, timeout=SECONDS)
        os.close(source)
        os.close(sink)
        was = done.returncode, done.stdout, told_plainly(done.stderr.decode())
        same(was, (2, b"", of_file(line, bad)), f"{words}")


def test_keys_that_are_made_fit(folder):
    made = subprocess.run([os.path.join(TOP, "examples", "make-keys"), "4", folder], capture_output=True)
    same((made.returncode, made.stdout, made.stderr), (0, b"", b""), "make-keys")
    keys = []
    for own in range(4):
        name = os.path.join(folder, f"keys-{own}.json")
        shows(desk("FRONT\n", keys=name), 0, "front 0 0 0 0\n", of=name)
        with open(name, encoding="ascii") as file:
            keys.append(json.load(file)["keys"])
    same(all(keys[a][b] == keys[b][a] for a in range(4) for b in range(4)), True, "a pair shares its key")
    same(len({key for row in keys for key in row}), 7, "each pair has its own")


def test_what_make_keys_refuses():
    """Each fault is named, and what stands isn't written over."""
    make = os.path.join(TOP, "examples", "make-keys")

    def refuses(status, fault, *words):
        done = subprocess.run([make, *words], capture_output=True, text=True, timeout=SECONDS)
        was = done.returncode, done.stdout, done.stderr.startswith(fault)
        same(was, (status, "", True), f"{words}: {done.stderr}")

    with tempfile.TemporaryDirectory() as folder:
        subprocess.run([make, "128", folder], check=True, timeout=SECONDS)
        same(sorted(os.listdir(folder)), sorted(f"keys-{own}.json" for own in range(128)), "the files of 128")
        for words in (["0", folder], ["129", folder], ["four", folder], ["-1", folder], ["4"], [], ["4", folder, "x"]):
            refuses(2, "Makes files of keys", *words)
        first, third = (os.path.join(folder, f"keys-{own}.json") for own in (0, 2))
        for own in (0, 1):
            os.unlink(os.path.join(folder, f"keys-{own}.json"))
        refuses(1, f"examples/make-keys: {third} is there already\n", "4", folder)
        same(os.path.exists(first), False, "a file beside one that was there")
        below = os.path.join(third, "keys")
        refuses(1, f"examples/make-keys: {below}: Not a directory\n", "4", below)
