"""`enc-tool completion`: a script for a shell that completes commands, options and names of files. It is made of the
parsers, so it knows what they know."""

from __future__ import annotations

import argparse
import re
from typing import Dict, List, Sequence

from ._tool_screen import Screen
from ._tool_words import Command, Parser, finished

SHELLS = ("bash", "zsh", "fish")

_WHERE = {
    "bash": '  eval "$(enc-tool completion bash)"      # in ~/.bashrc',
    "zsh": '  eval "$(enc-tool completion zsh)"       # in ~/.zshrc, behind compinit',
    "fish": "  enc-tool completion fish | source       # in ~/.config/fish/config.fish",
}


def completion_parser() -> Parser:
    """What may stand behind `completion`."""
    about = "Prints a script that completes the words of enc-tool in a shell."
    made = Parser("completion", "bash|zsh|fish", about, "\n".join(_WHERE.values()))
    made.add_argument("shell", choices=SHELLS, metavar="SHELL", help="bash, zsh or fish")
    return finished(made)


def _options(command: Command) -> List[argparse.Action]:
    """The options of a command."""
    return command.parser().options()


def _values(command: Command) -> Dict[str, List[str]]:
    """The words that may stand behind options that have a choice."""
    return {
        name: [str(one) for one in action.choices]
        for action in _options(command)
        if action.choices
        for name in action.option_strings
    }


def _takes_value(action: argparse.Action) -> bool:
    """Whether a value stands behind an option."""
    return action.nargs != 0


def _takes_file(action: argparse.Action) -> bool:
    """Whether that is the name of a file or a folder."""
    return _takes_value(action) and action.metavar in ("FILE", "DIR", "NAME=BASE[,DELTA..]")


def _bash(commands: Sequence[Command]) -> str:
    """The script for bash."""
    cases, values, names = [], {}, " ".join(one.name for one in commands)
    for command in commands:
        options = " ".join(name for action in _options(command) for name in action.option_strings)
        cases.append(f'        {command.name}) options="{options}" ;;')
        values.update({name: " ".join(words) for name, words in _values(command).items()})
    of_values = [f'        {name}) words="{words}" ;;' for name, words in values.items()]
    lines = [
        "_enc_tool() {",
        "    local word=${COMP_WORDS[COMP_CWORD]} before=${COMP_WORDS[COMP_CWORD-1]} options= words=",
        "    COMPREPLY=()",
        '    if [ "$COMP_CWORD" = 1 ]; then',
        f'        mapfile -t COMPREPLY < <(compgen -W "{names} --help --version" -- "$word")',
        "        return",
        "    fi",
        "    case ${COMP_WORDS[1]} in",
        *cases,
        "    esac",
        "    case $before in",
        *of_values,
        f'        completion) words="{" ".join(SHELLS)}" ;;',
        "    esac",
        '    if [ -n "$words" ]; then',
        '        mapfile -t COMPREPLY < <(compgen -W "$words" -- "$word")',
        '    elif [ "${word:0:1}" = - ]; then',
        '        mapfile -t COMPREPLY < <(compgen -W "$options" -- "$word")',
        "    else",
        '        mapfile -t COMPREPLY < <(compgen -f -- "$word")',
        "        compopt -o filenames 2>/dev/null || true",
        "    fi",
        "}",
        "complete -F _enc_tool enc-tool",
    ]
    return "\n".join(lines)


def _quoted(text: str) -> str:
    """A text between single quotes."""
    return "'" + text.replace("'", "'\\''") + "'"


def _zsh_option(action: argparse.Action) -> List[str]:
    """The specification of an option."""
    about = re.sub(r"([\[\]:\\])", r"\\\1", action.help or "")
    value = ""
    if action.choices:
        value = f":value:({' '.join(map(str, action.choices))})"
    elif _takes_value(action):
        value = ":value:" + ("_files" if _takes_file(action) else "")
    return [_quoted(f"{name}[{about}]{value}") for name in action.option_strings]


def _zsh(commands: Sequence[Command]) -> str:
    """The script for zsh."""
    described = [f"        {_quoted(command.name + ':' + command.about)}" for command in commands]
    cases = []
    for command in commands:
        options = [spec for action in _options(command) for spec in _zsh_option(action)]
        rest = f"'*:shell:({' '.join(SHELLS)})'" if command.name == "completion" else "'*:file:_files'"
        cases.append(f"        {command.name}) _arguments {' '.join(options)} {rest} ;;")
    lines = [
        "#compdef enc-tool",
        "_enc_tool() {",
        "    local -a commands",
        "    commands=(",
        *described,
        "    )",
        "    if (( CURRENT == 2 )); then",
        "        _describe command commands",
        "        return",
        "    fi",
        "    local command=$words[2]",
        "    shift words",
        "    (( CURRENT-- ))",
        "    case $command in",
        *cases,
        "    esac",
        "}",
        'if [ "$funcstack[1]" = "_enc_tool" ]; then _enc_tool "$@"; else compdef _enc_tool enc-tool; fi',
    ]
    return "\n".join(lines)


def _fish(commands: Sequence[Command]) -> str:
    """The script for fish."""
    lines = []
    for command in commands:
        about = _quoted(command.about)
        lines.append(f"complete -c enc-tool -n __fish_use_subcommand -f -a {command.name} -d {about}")
        seen = f"-n '__fish_seen_subcommand_from {command.name}'"
        for action in _options(command):
            names = [f"-l {one[2:]}" if one.startswith("--") else f"-s {one[1:]}" for one in action.option_strings]
            value = f" -x -a {_quoted(' '.join(map(str, action.choices)))}" if action.choices else ""
            value = value or (" -r" if _takes_file(action) else " -x" if _takes_value(action) else "")
            lines.append(f"complete -c enc-tool {seen} {' '.join(names)}{value} -d {_quoted(action.help or '')}")
    lines.append(f"complete -c enc-tool -n '__fish_seen_subcommand_from completion' -f -a '{' '.join(SHELLS)}'")
    return "\n".join(lines)


def script(shell: str, commands: Sequence[Command]) -> str:
    """The script for a shell."""
    return {"bash": _bash, "zsh": _zsh, "fish": _fish}[shell](commands)


def completion(given: argparse.Namespace, screen: Screen, commands: Sequence[Command]) -> int:
    """Prints a script."""
    made = script(given.shell, commands)
    if given.json:
        screen.document({"shell": given.shell, "script": made})
    else:
        screen.put(made)
    return 0
