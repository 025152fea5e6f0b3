"""Completions of the program's commands and the tools for shells, made of what their --help says."""

from __future__ import annotations

import re
from typing import Sequence

COMMAND = re.compile(r"^  (\w+) ", re.MULTILINE)
OPTION = re.compile(r"^ +(?:-\w, )?(--\w+)(?: <(.+?)>)?", re.MULTILINE)
# A tool in the list of their words, and an option in a tool's usage.
WORD = re.compile(r"^  ([\w-]+)  ", re.MULTILINE)
OPTION_OF_TOOL = re.compile(r"(--[a-z-]+)(?: ([A-Z][^\s|)\]]*))?")
# What may stand after an option, by what --help calls it; a file or a folder where it isn't here.
TAKES = {"COUNT": "1 2 4 8", "COUNT|always": "always", "YYYY-MM-DD": None}
OF_FILES = re.compile("<(?:FILE|EXPORT)>")


def part(text: str, head: str) -> str:
    """Returns the lines of a text below this one, up to an empty line."""
    return text.partition(f"{head}:\n")[2].partition("\n\n")[0]


def commands_of(text: str) -> list[str]:
    return COMMAND.findall(part(text, "Commands"))


class Command:
    """A command's options, each with what it takes, and whether its other words are files."""

    def __init__(self, name: str, text: str) -> None:
        self.name = name
        self.options = {option: takes for option, takes in OPTION.findall(part(text, "Options")) if option != "--help"}
        usage = re.sub(r"--\w+ <.+?>", "", text.partition("Usage: ")[2].partition("\n")[0])
        self.takes_files = OF_FILES.search(usage) is not None


class Tool:
    """The same of a tool, by its usage: all its words may be files."""

    takes_files = True

    def __init__(self, name: str, text: str) -> None:
        self.name = name
        usage = text.partition("usage: ")[2].partition("\n\n")[0]
        self.options = {**dict(OPTION_OF_TOOL.findall(usage)), "--help": ""}


def bash(commands: Sequence[Command | Tool]) -> str:
    takes = {option: it for command in commands for option, it in command.options.items() if it}
    cases = "\n".join(f"        {it.name}) words='{' '.join(it.options)}' ;;" for it in commands)
    words = "\n".join(f"        {option}) words={bash_words(it)} ;;" for option, it in sorted(takes.items()))
    files = [it.name for it in commands if it.takes_files]
    return f"""# Completions of payd for bash.
_payd() {{
    local words current=${{COMP_WORDS[COMP_CWORD]}} before=${{COMP_WORDS[COMP_CWORD - 1]}}
    if [ "$COMP_CWORD" = 1 ]; then
        words='{' '.join(it.name for it in commands)} --help --version'
    else
        case ${{COMP_WORDS[1]}} in
{cases}
        esac
        case ${{COMP_WORDS[1]}}:$current in
            {' | '.join(f'{it}:-*' for it in files)}) ;;
            {' | '.join(f'{it}:*' for it in files)}) words= ;;
        esac
    fi
    case $before in
{words}
    esac
    mapfile -t COMPREPLY < <(compgen -W "$words" -- "$current")
    [ "${{#COMPREPLY[@]}}" -gt 0 ] || mapfile -t COMPREPLY < <(compgen -f -- "$current")
}}
complete -o filenames -F _payd payd
"""


def bash_words(takes: str) -> str:
    return "$(date -u +%F)" if takes == "YYYY-MM-DD" else f"'{TAKES.get(takes, '')}'"


def zsh(commands: Sequence[Command | Tool]) -> str:
    cases = "\n".join(
        f"    {it.name}) _arguments {' '.join(map(zsh_option, it.options.items()))} '*:file:_files' ;;"
        for it in commands
    )
    return f"""#compdef payd
# Completions of payd for zsh.
if (( CURRENT == 2 )); then
  _values command {' '.join(it.name for it in commands)}
else
  case $words[2] in
{cases}
  esac
fi
"""


def zsh_option(option: tuple[str, str]) -> str:
    name, takes = option
    if not takes:
        return f"'{name}'"
    words = TAKES.get(takes, "_files")
    what = "" if words is None else words if words == "_files" else f"({words})"
    return f"'{name}:{takes.split('|')[0].lower()}:{what}'"


def fish(commands: Sequence[Command | Tool]) -> str:
    lines = ["# Completions of payd for fish."]
    lines.append(f"complete -c payd -n __fish_use_subcommand -a '{' '.join(it.name for it in commands)}' -f")
    for command in commands:
        for option, takes in command.options.items():
            words = TAKES.get(takes, "")
            after = "" if not takes else " -x" if words is None else f" -x -a '{words}'" if words else " -r"
            lines.append(f"complete -c payd -n '__fish_seen_subcommand_from {command.name}' -l {option[2:]}{after}")
    return "\n".join(lines) + "\n"
