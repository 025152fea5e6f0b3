"""Black-box tests of tools/install: what stands below the prefix works without the repository."""

import functools
import os
import re
import shlex
import shutil
import stat
import subprocess
import sys
import tempfile
import urllib.parse
import urllib.request

import pytest

from support.nodes import export_text, started, write_json, write_member
from support.runs import SECONDS, TOP, call, payd, read_text, same, write_text

COMMANDS = "check", "sim", "desk", "node", "export", "audit", "book", "statement", "journal"
TOOLS = "send", "pay", "status", "follow", "desk-page", "move-out", "group", "sign", "audit-signed", "evidence"
TOOLS += "books", "report", "draw"
LICENCES = "LICENSE-APACHE", "LICENSE-MIT"
ALONE = {"members": 1, "faults": 0, "opening": [7]}


# (it goes away with this process)
KEPT = tempfile.TemporaryDirectory()


@functools.lru_cache(None)
def installer():
    """The script in a repository that holds the program to be proved, which the one that runs here may not be."""
    for name in ("HANDLES", "CHANGELOG.md", "README.md", *LICENCES, "crates", "crates.txt", "payd", "payd-prove"):
        os.symlink(os.path.join(TOP, name), os.path.join(KEPT.name, name))
    for name in ("docs", "examples", "tools"):
        shutil.copytree(os.path.join(TOP, name), os.path.join(KEPT.name, name), symlinks=True)
    holds = f"from payd_tools.repository import building as it; it.keep(it.PROVED, it.sums().whole, {payd()!r})"
    subprocess.run([sys.executable, "-c", holds], cwd=os.path.join(KEPT.name, "tools"), check=True)
    return os.path.join(KEPT.name, "tools", "install")


@functools.lru_cache(None)
def installed():
    """A prefix for those that change nothing below it."""
    prefix = os.path.join(KEPT.name, "prefix")
    same(call([installer(), prefix])[::2], (0, ""), "what the installer says")
    return prefix


def test_installed_program_stands_alone(folder):
    done = subprocess.run([installer(), "prefix"], cwd=folder, capture_output=True, text=True, timeout=SECONDS)
    same((done.returncode, done.stdout.startswith("installed below ")), (0, True), done.stdout + done.stderr)
    payd = os.path.join(folder, "prefix", "bin", "payd")
    proved = read_text(os.path.join(folder, "prefix", "lib", "payd", "proved"))
    same(proved.startswith("proved, of sources "), True, "what was proved")
    for word in ("--version", "-V"):
        same(call([payd, word], folder=folder), (0, "payd 0.1.0\n", f"payd: {proved}"), word)
    same(call([payd], folder=folder), (0, "", ""), "nothing to judge")
    words = [payd, *write_member(folder, genesis=ALONE), "--data", "member", "--new"]
    export = export_text(0, [7], [[]], [0], [7])
    status, output, errors = call(words, b"FRONT\n", folder=folder)
    same((status, output, started(errors)), (0, f"front 0\n{export}", "payd: log: new\n"), "a node")
    words = [payd, "export", "--genesis", "genesis", "--keys", "keys", "--data", "member"]
    same(call(words, folder=folder), (0, export, ""), "its export")
    unit = os.path.join(folder, "prefix", "lib", "systemd", "system", "payd@.service")
    same(f'\nExecStart="{payd}" node ' in read_text(unit), True, "the program of its service")
    for page in ("README.md", "CHANGELOG.md", *LICENCES, "docs/guide.md", "examples/shop"):
        same(os.path.isfile(os.path.join(folder, "prefix", "share", "doc", "payd", page)), True, page)


def test_install_of_a_careful_administrator(folder):
    """Whose umask hides what it makes, below a prefix that has blanks and signs, in which links wait for it."""
    prefix, other = os.path.join(folder, "a prefix of 100%"), os.path.join(folder, "other")
    os.makedirs(os.path.join(prefix, "lib", "payd"))
    write_text(other, "kept")
    for name in ("payd", "proved"):
        os.symlink(other, os.path.join(prefix, "lib", "payd", f"{name}.part"))
    os.chmod(os.path.join(prefix, "lib"), 0o700)
    how = {"capture_output": True, "text": True, "timeout": SECONDS, "preexec_fn": lambda: os.umask(0o077)}
    done = subprocess.run([installer(), prefix], **how)
    same((done.returncode, done.stderr), (0, ""), done.stdout)
    same(read_text(other), "kept", "what a link led to")
    for at, folders, files in os.walk(prefix):
        place = os.path.relpath(at, prefix)
        mode = stat.S_IMODE(os.stat(at).st_mode)
        same(mode, 0o700 if place in (".", "lib", "lib/payd") else 0o755, f"who may enter {place}")
        for name in files:
            mode = stat.S_IMODE(os.stat(os.path.join(at, name)).st_mode)
            same(mode in (0o644, 0o755), True, f"who may read {place}/{name}")
    payd = os.path.join(prefix, "bin", "payd")
    same(call([payd, "--version"], folder=folder)[:2], (0, "payd 0.1.0\n"), "the program")
    same(call([payd, "pay", "--help"], folder=folder)[0], 0, "a tool")
    unit = os.path.join(prefix, "lib", "systemd", "system", "payd@.service")
    [command] = re.findall("^ExecStart=(.*)$", read_text(unit), re.MULTILINE)
    same(shlex.split(command.replace("%%", "%"))[:2], [payd, "node"], "the command of the service")
    if shutil.which("systemd-analyze"):
        done = subprocess.run(["systemd-analyze", "verify", unit], capture_output=True, text=True, timeout=SECONDS)
        same([it for it in done.stderr.splitlines() if "payd@" in it], [], "what is said of the service")
    for wrong in "\n'\"\\":
        done = subprocess.run([installer(), f"{folder}/a{wrong}b"], capture_output=True, timeout=SECONDS)
        same(done.returncode, 2, f"a prefix with {wrong!r}")


def below(top):
    """The paths of all that stands below a folder."""
    return {os.path.relpath(os.path.join(at, it), top) for at, *names in os.walk(top) for it in sum(names, [])}


def test_installed_is_removed_again(folder):
    """All but what others made, below a folder that is to be moved. What an earlier version had goes at once."""
    top, env = os.path.join(folder, "usr"), {**os.environ, "DESTDIR": folder}

    def run(*words):
        done = subprocess.run([installer(), *words, "/usr"], env=env, capture_output=True, text=True, timeout=SECONDS)
        return done.returncode, done.stdout.partition(":")[0], done.stderr

    os.makedirs(os.path.join(top, "bin"))
    same(run("--uninstall"), (1, "", f"tools/install: nothing is installed below {top}\n"), "what isn't there")
    for _ in range(2):
        same(run(), (0, f"installed below {top}", ""), "an installation")
        same({"bin/payd", "lib/payd/payd", "share/doc/payd/LICENSE-MIT"} - below(top), set(), "what stands there")
        same(folder in read_text(os.path.join(top, "bin", "payd")), False, "the folder in the program")
        write_text(os.path.join(top, "libexec", "payd", "former"), "")
        with open(os.path.join(top, "lib", "payd", "installed"), "a", encoding="utf-8") as names:
            names.write("libexec/payd/former\n")
    same(run(), (0, f"installed below {top}", ""), "a later one")
    same("libexec/payd/former" in below(top), False, "a file of the earlier one")
    write_text(os.path.join(top, "share", "man", "man1", "other.1"), "")
    same(run("--uninstall"), (0, f"removed below {top}\n", ""), "its end")
    same(below(top), {"bin", "share", "share/man", "share/man/man1", "share/man/man1/other.1"}, "what is left")


def test_installed_tools_stand_alone(folder):
    prefix = os.path.join(folder, "prefix")
    subprocess.run([installer(), prefix], check=True, capture_output=True, timeout=SECONDS)
    payd = os.path.join(prefix, "bin", "payd")
    for word in TOOLS:
        status, output, errors = call([payd, word, "--help"], folder=folder)
        same((status, f"usage: payd {word} " in output, errors), (0, True, ""), word)
    exports = [os.path.join(TOP, "examples", f"export-{it}.json") for it in (0, 2)]
    status, output, errors = call([payd, "report", *exports], folder=folder)
    same((status, "4 fork 0 1 owner 3 seq 0" in output, errors), (0, True, ""), "the report")
    status, output, errors = call([payd, "draw", os.path.join(TOP, "examples", "honest-day.txt")], folder=folder)
    same((status, output[:5], errors), (0, "<svg ", ""), "a picture")
    said = "payd status: gone: there is no member here: it has no log\n"
    same(call([payd, "status", "--data", "gone"], folder=folder), (2, "", said), "no member")
    said = call([os.path.join(prefix, "lib", "payd", "payd"), "--help"], folder=folder)[1]
    with open(os.path.join(prefix, "libexec", "payd", "words"), encoding="ascii") as file:
        same(call([payd, "--help"], folder=folder), (0, said + file.read(), ""), "what payd says of itself")
    write_text(os.path.join(prefix, "libexec", "payd", "draw"), "#!/bin/sh\necho $#\nexec cat\n")
    same(call([payd, "draw", "a b", ""], b"a\nb", folder=folder), (0, "2\na\nb", ""), "a tool's words and input")
    words = [payd, "desk-page", "--keys", os.path.join(TOP, "examples", "keys-0.json"), "--data", folder]
    with subprocess.Popen(words, stdout=subprocess.PIPE, text=True) as child:
        try:
            address = child.stdout.readline().strip()
            with urllib.request.urlopen(address, timeout=SECONDS) as answer:
                same(answer.read().startswith(b"<!DOCTYPE html>"), True, "the page")
            for part in ("page.js", "style.css"):
                with urllib.request.urlopen(urllib.parse.urljoin(address, part), timeout=SECONDS) as answer:
                    same(answer.status, 200, part)
        finally:
            child.kill()


def test_manual_and_completions(folder):
    prefix = installed()
    text = read_text(os.path.join(prefix, "share", "man", "man1", "payd.1"))
    same(text.isascii(), True, "whether the page is of ASCII alone")
    for head in ("NAME", "SYNOPSIS", "DESCRIPTION", "EXIT STATUS", "SEE ALSO"):
        same(text.count(f".SH {head}\n"), 1, f"the manual page's {head}")
    same("\npayd node [OPTIONS] \\-\\-genesis <FILE>" in text, True, "how a node is called")
    for command in (*COMMANDS, *(it.replace("-", "\\-") for it in TOOLS)):
        same(text.count(f".SH {command.upper()}\n"), 1, f"the manual page on {command}")
    text = read_text(os.path.join(prefix, "share", "man", "man5", "payd.5"))
    heads = ".SH THE FOLDER OF A MEMBER\n", ".SH A MEMBER'S LOG\n", ".SH FAULTS OF A LOG\n"
    for said in (*heads, "the keys' fingerprint", "\\fB3 BadGenesis\\fR"):
        same(said in text, True, f"the manual page on files has {said!r}")
    script = os.path.join(prefix, "share", "bash-completion", "completions", "payd")
    write_json(folder, "my keys.json", {})
    for words, found in (
        ("node --da", ["--data"]),
        ("node --dials a", ["always"]),
        ("node --keys my", ["my keys.json"]),
        ("node --keys none", [""]),
        ("audit ''", ["my keys.json"]),
        ("journal m", ["my keys.json"]),
        ("audit -", ["--all"]),
        ("send --so", ["--socket"]),
        ("send --data m", ["my keys.json"]),
        ("node --so", ["--socket"]),
        ("se", ["send"]),
        ("pa", ["pay"]),
        ("pay --even", ["--even-if-uncovered"]),
        ("pay --data m", ["my keys.json"]),
        ("desk-page --ke", ["--keys"]),
        ("group my", ["my keys.json"]),
        ("follow --f", ["--from"]),
    ):
        ask = f"source '{script}'; COMP_WORDS=(payd {words}); COMP_CWORD=$((${{#COMP_WORDS[@]}} - 1)); _payd"
        told = call(["bash", "-c", f"{ask}; printf '%s\\n' \"${{COMPREPLY[@]}}\" | sort"], folder=folder)
        same(told, (0, "".join(f"{it}\n" for it in found), ""), f"completions of {words}")


COMPLETIONS = {
    "bash": "share/bash-completion/completions/payd",
    "zsh": "share/zsh/site-functions/_payd",
    "fish": "share/fish/vendor_completions.d/payd.fish",
}


def test_completions_for_each_shell():
    """Each is there, and has all commands and the options of a node."""
    for shell, place in COMPLETIONS.items():
        words = set(re.findall(r"[a-z]+", read_text(os.path.join(installed(), place))))
        options = "genesis keys ports dials ahead data stay socket all date".split()
        tools = {part for it in TOOLS for part in it.split("-")}
        same({*COMMANDS, *tools, *options} - words, set(), f"words that the completions for {shell} lack")


def test_completions_are_read():
    """By each shell that is here, which refuses what is no script."""
    for shell in filter(shutil.which, COMPLETIONS):
        read = call([shell, "-n", os.path.join(installed(), COMPLETIONS[shell])])
        same(read, (0, "", ""), f"{shell} reads its completions")
        same(call([shell, "-n"], b"if (\n")[0] != 0, True, f"{shell} refuses what is no script")


@pytest.mark.needs("groff")
def test_manual_pages_are_read():
    for part in (1, 5):
        page = os.path.join(installed(), "share", "man", f"man{part}", f"payd.{part}")
        status, output, errors = call(["groff", "-man", "-t", "-Tascii", "-ww", page])
        same((status, f"PAYD({part})" in output, errors), (0, True, ""), f"what groff makes of payd.{part}")


@pytest.mark.needs("fish")
def test_fish_completes_a_node():
    """As bash in the test of the manual; zsh completes in a terminal only."""
    ask = f"source {os.path.join(installed(), COMPLETIONS['fish'])}; complete -C 'payd node --da'"
    same(call(["fish", "--no-config", "-c", ask]), (0, "--data\n", ""), "a completion")


def test_words_of_install_and_package():
    for words in ([], ["one", "two"], ["--uninstall"], ["--remove", "one"]):
        for script in ("install", "package"):
            status, output, errors = call([os.path.join(os.path.dirname(installer()), script), *words])
            same((status, output, f"usage: tools/{script}" in errors), (2, "", True), f"{script} {words}")
    status, output, errors = call([installer(), "--help"])
    same((status, "usage: tools/install" in output, errors), (0, True, ""), "--help")
