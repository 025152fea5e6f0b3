"""Black-box tests of how ./payd runs the tools beside the program."""

import os
import shutil
import subprocess

from payd_tools.groups import genesis_digest
from payd_tools.repository import building
from support.nodes import write_json
from support.runs import EXAMPLE_GENESIS, GENESIS, SECONDS, TOP, example_keys, read_text, same, shows

WORDS = "send", "pay", "status", "follow", "desk-page", "move-out", "group", "sign", "audit-signed", "evidence"
WORDS += "books", "report", "draw", "demo"


def test_payd_runs_its_tools(repository):
    """Where nothing is compiled yet; what the program says of itself stands before what is said of them."""
    for word in WORDS:
        status, output, errors = repository.run("payd", word, "--help")
        same((status, f"usage: payd {word} " in output, errors), (0, True, ""), word)
    same(repository.run("payd", "status", "--data", "gone")[0], 2, "a tool's status")
    repository.write("tools/draw", "#!/bin/sh\necho $#\nexec cat\n", 0o755)
    shows(repository.run("payd", "draw", "a b", "", stream=b"a\nb"), 0, "2\na\nb", of="a tool's words and input")
    same(repository.calls(), [], "what was compiled for that")
    repository.run("payd")
    words = read_text(os.path.join(TOP, "tools", "words"))
    same([line.split()[0] for line in words.splitlines() if line.startswith("  ")], [*WORDS], "the words")
    for word in ("--help", "-h"):
        same(repository.run("payd", word)[:2], (0, f"helped \n{words}"), word)
    same(repository.run("payd", "--help", "7")[:2], (7, "helped 7\n"), "the program's own words and status")


def test_programs_own_help_comes_first():
    how = {"capture_output": True, "text": True, "timeout": SECONDS}
    own = subprocess.run(["payd", "--help"], executable=building.chosen()[0], **how).stdout
    done = subprocess.run([os.path.join(TOP, "payd"), "--help"], **how)
    same((done.returncode, done.stdout.startswith(own)), (0, True), "what payd says")
    same(done.stdout[len(own) :].startswith("\nBeside the program"), True, "what stands behind it")


# A file's name that would forge a line, clear the screen, turn what follows and break a text of Unicode.
TEXT = "a\nclean\x1b[2J\x7f\u202e"
NAME = TEXT.encode() + b"\xff"
EXPORT = os.path.join(TOP, "examples", "export-2.json")
OF_PAGES = "--keys", example_keys(0), "--socket", NAME
OF_EVIDENCE = "--keys", example_keys(0), "--group", EXAMPLE_GENESIS


def test_names_forge_no_line(folder):
    """Whatever a file is called: in what tools write of it nothing is but what can be printed."""
    shutil.copy(os.path.join(TOP, "examples", "export-0.json"), os.path.join(folder, TEXT))
    write_json(folder, "names", {"names": ["Ada", "Bo\nclean", "Cy", "Dee"]})
    write_json(folder, "a\nfrom", {"group": genesis_digest(**GENESIS), "frames": [{"frame": "00"}]})
    for words, said in (
        (["report", TEXT, EXPORT], "a control character"),
        (["report", b"no" + NAME], "payd report: "),
        (["draw", b"no" + NAME], "payd draw: "),
        (["status", "--data", NAME], "payd status: "),
        (["status", "--data", NAME, NAME], "payd status: error: unrecognized arguments: a\\nclean"),
        (["follow", "--data", NAME], "payd follow: "),
        (["pay", "--data", NAME, "--yes", "1", "1"], "payd pay: "),
        (["pay", *OF_PAGES, "--data", folder, "--yes", "1", "1"], "payd pay: nobody listens at a\\nclean"),
        (["status", *OF_PAGES, "--data", folder, "--group", "names"], "payd status: names: its names are"),
        (["desk-page", "--data", NAME], "payd desk-page: "),
        (["group", "show", NAME], "payd group: a\\nclean"),
        (["group", "keys", NAME, NAME, NAME], "payd group: a\\nclean"),
        (["group", NAME], "payd group: error: "),
        (["evidence", "--data", NAME], "payd evidence: a\\nclean"),
        (["evidence", "--check", NAME, *OF_EVIDENCE], "payd evidence: a\\nclean"),
        (["evidence", "--check", "a\nfrom", *OF_EVIDENCE], "a\\nfrom: frame 0: it is no vote"),
        (["group", "tunnels", "--as", "ssh", EXAMPLE_GENESIS, NAME, NAME], "payd group: "),
    ):
        tool = os.path.join(TOP, "tools", words[0])
        done = subprocess.run([tool, *words[1:]], cwd=folder, capture_output=True, timeout=SECONDS)
        text = (done.stdout + done.stderr).decode()
        same([it for it in text.replace("\n", "") if not it.isprintable()], [], f"what {words} writes of controls")
        same([it for it in text.splitlines() if it.startswith("clean")], [], f"lines of {words}")
        same(said in text, True, f"what {words} writes: {text[-300:]}")
