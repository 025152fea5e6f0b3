"""What stands below a prefix once the program is installed, by tools/install or as a package of tools/package."""

from __future__ import annotations

import contextlib
import glob
import os
import shlex
import subprocess
from typing import Iterator

from payd_tools.repository import completions, manual
from payd_tools.repository.toolchain import TOP

# What the tools import and serve.
MODULES = "tools/payd_tools/*.py", "tools/payd_tools/page/*"
# Examples that run or are read where they are installed, and how their scripts find what stands elsewhere then.
EXAMPLES = ("shop", "pay-order", "alerts.yml", "genesis.json", "*.txt", "export-*.json")
FINDS_PROGRAM = '$(dirname -- "$(readlink -f -- "$0")")/../payd'
IMPORTS_TOOLS = "from payd_tools import"

DOCUMENTS = "README.md", "CHANGELOG.md", "LICENSE-*", "docs/*.md", "docs/*.png"

UNIT = "payd@.service"
# The account that nodes run as, and the folder above those of its members, which nobody removes; and the account that
# tunnels run as, which owns nothing.
SYSUSERS = 'u payd - "Members of payment groups" /var/lib/payd\nu payd-tunnel - "Tunnels of payment groups"\n'
TMPFILES = "d /var/lib/payd 0750 payd payd\n"

START = """#!/bin/sh
# Runs the program, or the tool that the first word names, and says before the version what was proved, by what.
tools={libexec}
. "$tools/folder.sh"
case $* in {told}) (echo "payd: $(cat {lib}/proved)" >&2) ;; esac
case $* in --help | -h) {lib}/payd "$@" && exec cat "$tools/words" || exit ;; esac
exec {lib}/payd "$@"
"""
# Before which words of the program it is told.
OF_PROVED, OF_UNPROVED = "--version | -V", "*"


def said(path: str, *words: str) -> str:
    """Returns what the program or a tool at this path says on standard output, which is called payd."""
    how = {"executable": path, "stdin": subprocess.DEVNULL, "stdout": subprocess.PIPE, "universal_newlines": True}
    return subprocess.run(["payd", *words], check=True, **how).stdout


def contents(name: str) -> bytes:
    with open(os.path.join(TOP, name), "rb") as file:
        return file.read()


def matching(*patterns: str) -> list[str]:
    """Returns the files here of these names."""
    return [os.path.relpath(path, TOP) for it in patterns for path in sorted(glob.glob(f"{glob.escape(TOP)}/{it}"))]


def version_of(program: str) -> str:
    return said(program, "--version").split()[-1]


def files(prefix: str, program: str, proof: str, told: str = OF_PROVED) -> dict[str, tuple[bytes | str, bool]]:
    """Returns the content of each file and whether it is run, by its place below the prefix; of a program, and what is
    to be told of it."""
    lib, libexec = (shlex.quote(os.path.join(prefix, it, "payd")) for it in ("lib", "libexec"))
    with open(program, "rb") as file:
        found = {"lib/payd/payd": (file.read(), True)}
    found["lib/payd/proved"] = f"{proof}\n", False
    found["bin/payd"] = START.format(lib=lib, libexec=libexec, told=told), True
    helps = {it: said(os.path.join(TOP, "tools", it), "--help") for it in tools()}
    for name in ("words", "folder.sh", "named", *helps):
        found[f"libexec/payd/{name}"] = contents(f"tools/{name}"), name not in ("words", "folder.sh")
    found.update({f"libexec/payd/{it[len('tools/'):]}": (contents(it), False) for it in matching(*MODULES)})
    found[f"lib/systemd/system/{UNIT}"] = unit(prefix), False
    found["lib/sysusers.d/payd.conf"] = SYSUSERS, False
    found["lib/tmpfiles.d/payd.conf"] = TMPFILES, False
    found.update({f"share/doc/payd/{it}": (contents(it), False) for it in matching(*DOCUMENTS)})
    found.update(examples(prefix))
    found.update((place, (text, False)) for place, text in texts(program, helps))
    return found


def tools() -> list[str]:
    """Returns the words that name tools."""
    return completions.WORD.findall(contents("tools/words").decode())


def unit(prefix: str) -> str:
    """Returns the service, with the program's path as the service manager reads it."""
    program = os.path.join(prefix, "bin", "payd").replace("%", "%%")
    text = contents(f"examples/{UNIT}").decode().replace("below /usr/local", f"below {prefix}")
    return text.replace("/usr/local/bin/payd", f'"{program}"')


def examples(prefix: str) -> Iterator[tuple[str, tuple[str, bool]]]:
    program, tools_of = (os.path.join(prefix, it) for it in ("bin/payd", "libexec/payd"))
    for name in matching(*(f"examples/{it}" for it in EXAMPLES)):
        text = contents(name).decode()
        finds_tools = f"sys.path.insert(0, {tools_of!r})\n{IMPORTS_TOOLS}"
        text = text.replace(FINDS_PROGRAM, shlex.quote(program)).replace(IMPORTS_TOOLS, finds_tools)
        yield f"share/doc/payd/{name}", (text, os.access(os.path.join(TOP, name), os.X_OK))


def texts(program: str, helps_of_tools: dict[str, str]) -> Iterator[tuple[str, str]]:
    """Yields manual pages and completions, of what the program and the tools say of themselves."""
    about, version = said(program, "--help"), version_of(program)
    helps = {it: said(program, it, "--help") for it in completions.commands_of(about)}
    commands = [completions.Command(*it) for it in helps.items()]
    commands += [completions.Tool(*it) for it in helps_of_tools.items()]
    about += contents("tools/words").decode()

    def read(page: str) -> str:
        return contents(f"docs/{page}").decode()

    yield "share/man/man1/payd.1", manual.of_commands(version, about, {**helps, **helps_of_tools}, read)
    yield "share/man/man5/payd.5", manual.of_files(version, read)
    yield "share/bash-completion/completions/payd", completions.bash(commands)
    yield "share/zsh/site-functions/_payd", completions.zsh(commands)
    yield "share/fish/vendor_completions.d/payd.fish", completions.fish(commands)


def make_folder(path: str) -> None:
    """Makes a folder, and those above it, for all to enter whatever the umask; one that is there stays as it is."""
    if not os.path.isdir(path):
        make_folder(os.path.dirname(path))
        os.mkdir(path)
        os.chmod(path, 0o755)


def write(top: str, place: str, content: str | bytes, mode: int) -> None:
    """Writes a file, whole. The part that is written first is made anew, whatever stands there."""
    path = os.path.join(top, place)
    part = f"{path}.part"
    make_folder(os.path.dirname(path))
    with contextlib.suppress(FileNotFoundError):
        os.unlink(part)
    with os.fdopen(os.open(part, os.O_WRONLY | os.O_CREAT | os.O_EXCL | os.O_NOFOLLOW, 0o600), "wb") as file:
        file.write(content if isinstance(content, bytes) else content.encode())
        os.fchmod(file.fileno(), mode)
    os.replace(part, path)
