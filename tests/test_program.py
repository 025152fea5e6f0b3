"""Black-box tests of the program as it is called: its words, what README shows, and where it is run."""

import os
import re
import subprocess
import tempfile

from payd_tools.repository.completions import Command, commands_of
from support.nodes import free_ports, write_json
from support.runs import SECONDS, TOP, call, heard, in_gate, payd, read_bytes, read_text, run, same
from test_check import BAD_TAG
from test_file import TWICE

# ---- words


def test_help_is_printed():
    for words in (["--help"], ["check", "--help"]):
        status, output, errors = run(words)
        same((status, errors), (0, ""), f"{words}")
        same("check" in output, True, f"{words}: speaks of check")


def test_help_calls_the_program_by_its_name():
    status, output, _ = call([os.path.join(TOP, "payd"), "--help"])
    same((status, "\nUsage: payd [COMMAND]\n" in output), (0, True), output)


def test_help_names_the_options_that_there_are():
    """A line of a command's help that begins with a dash begins with an option of that command."""
    for name in commands_of(run(["--help"])[1]):
        status, output, errors = run([name, "--help"])
        same((status, errors), (0, ""), name)
        begins = {line.split()[0] for line in output.splitlines() if line.lstrip().startswith("-")}
        same(begins - {*Command(name, output).options, "-h,"}, set(), f"{name}: what are no options")


def test_unknown_words_are_refused():
    for words in (["fly"], ["--fly"], ["check", "fly"], ["check", "--fly"], ["check", "check"]):
        status, output, errors = run(words, TWICE)
        same((status, output), (2, ""), f"{words}")
        same(errors != "", True, f"{words}: standard error has a word")


# Words that nothing takes, with what is said of them first, and with what it says to do.
MISTAKES = (
    (["chekc"], "unrecognized subcommand 'chekc'", "  tip: a similar subcommand exists: 'check'"),
    (["node", "--nonsense"], "unexpected argument '--nonsense' found", None),
    (["check", "--valuse"], "unexpected argument '--valuse' found", "  tip: a similar argument exists: '--values'"),
    (["check", "a", "b"], "unexpected argument 'a' found", None),
    (["desk", "--keys", "k"], "the following required arguments were not provided:", "  --genesis <FILE>"),
    (["audit"], "the following required arguments were not provided:", "  <FILE>..."),
    (["check", "--keys"], "a value is required for '--keys <FILE>' but none was supplied", None),
    (["check", "--values=1"], "unexpected value '1' for '--values' found; no more were expected", None),
)


def test_mistakes_say_what_is_right():
    """In lines of the program's own, the wrong word first, and last where there is help."""
    for words, said, tip in MISTAKES:
        status, output, errors = run(words)
        same((status, output), (2, ""), words)
        lines = errors.splitlines()
        same([line for line in lines if not line.startswith("payd: ")], [], f"{words}: other lines")
        same(lines[0], f"payd: {said}", f"{words}: what is wrong")
        same(tip is None or f"payd: {tip}" in lines, True, f"{words}: {lines}")
        same(lines[-1], "payd: For more information, try '--help'.", f"{words}: where there is help")


# ---- what README and the tutorial show


def shown_commands(text):
    """The commands of a text's console blocks, each with the output that is shown after it."""
    for block in re.findall(r"^```console\n(.*?)^```$", text, re.MULTILINE | re.DOTALL):
        for example in re.split(r"^\$ ", block, flags=re.MULTILINE)[1:]:
            command, _, output = example.partition("\n")
            yield command, output


def test_pages_show_what_is_printed():
    commands = [it for page in ("README.md", "docs/tutorial.md") for it in shown_commands(read_text(f"{TOP}/{page}"))]
    same(len(commands) >= 4, True, "the pages have their examples")
    for command, output in commands:
        done = subprocess.run(["bash", "-c", command], cwd=TOP, capture_output=True, timeout=SECONDS)
        same((done.stdout.decode(), heard(done.stderr.decode())), (output, ""), command)
    with tempfile.TemporaryDirectory() as folder:
        # the ports that the example names may be somebody else's here
        write_json(folder, "ports", {"ports": free_ports(4)})
        done = subprocess.run([f"{TOP}/examples/four-nodes", f"{folder}/ports"], capture_output=True, timeout=SECONDS)
        said = done.stdout.decode().splitlines()[-2:]
        same(said, ["node 3: front 1 0 0 1, balances 90 30 0 30", "audit of their exports: clean"], "four nodes")


def test_pages_are_drawn():
    """Of the examples, by the tools that the pages name."""
    for words, beginning in (
        (["report", "examples/export-0.json", "examples/export-2.json"], "<!DOCTYPE html>"),
        (["draw", "examples/double-spend.txt"], "<svg "),
    ):
        done = subprocess.run([f"{TOP}/payd", *words], cwd=TOP, capture_output=True, timeout=SECONDS)
        same((done.returncode, done.stdout.decode()[: len(beginning)]), (0, beginning), f"{words}")


def test_example_stream_is_encoded():
    encoded = subprocess.run([os.path.join(TOP, "examples", "make-frames")], capture_output=True, check=True)
    same(read_bytes(os.path.join(TOP, "examples", "frames.bin")), encoded.stdout, "examples/frames.bin")


# ---- how it is run


def test_any_folder_to_run_in():
    same(call([payd()], BAD_TAG, folder="/"), (0, "1 refused 4 BadTag\n", ""), "run in /")


def test_not_utf8_words():
    for words in ([b"\xff"], [b"check", b"\xff"], [b"\xff", b"--help"]):
        done = subprocess.run([payd().encode(), *words], input=TWICE, capture_output=True, timeout=SECONDS)
        same((done.returncode, done.stdout), (2, b""), f"{words}")
        same(b"UTF-8" in done.stderr, True, f"{words}: standard error says why")


def test_version_is_printed():
    """By ./payd, which says whether the program is proved: of one that isn't on standard output too."""
    for word in ("--version", "-V"):
        done = subprocess.run([os.path.join(TOP, "payd"), word], input=TWICE, capture_output=True, timeout=SECONDS)
        is_proved = in_gate() or done.stderr.startswith(b"payd: proved")
        same((done.returncode, done.stdout), (0, b"payd 0.1.0\n" if is_proved else b"payd 0.1.0 unverified\n"), word)
        said = r"payd: proved, of sources [0-9a-f]{16}, by \S.*\n" if is_proved else r"payd: (UNVERIFIED|not ).*\n"
        same(bool(re.fullmatch(said, done.stderr.decode())), True, f"{word}: {done.stderr}")
