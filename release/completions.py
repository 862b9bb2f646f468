#!/usr/bin/env python3
"""Prints how a shell completes the words of bsonraw-dump: its commands, their options and the values of these, by the help texts of the
program, which are in bin/words.

    completions.py bash|zsh|fish [FILE]   FILE has the help texts; without it, it is bin/words/bsonraw_dump.txt
"""

import re
import sys
from pathlib import Path
from typing import Callable, Dict, List, NamedTuple

PROGRAM = "bsonraw-dump"
NOT_A_FILE = ("N", "OFFSET", "COUNT")


class Option(NamedTuple):
    names: List[str]
    """Its names, as `-q` and `--quiet`, and those that stand for it."""
    value: str
    """What its value is called; empty if it takes none."""
    values: List[str]
    """The values that there are, if they are few."""
    help: str


class Command(NamedTuple):
    name: str
    help: str
    options: List[Option]
    words: List[str]
    """What it takes before its FILEs, as `PATHS`."""


def texts(file: Path) -> Dict[str, str]:
    """The help texts, by the words that ask for them."""
    found = {}
    for part in re.split(r"(?m)^== ", file.read_text(encoding="utf-8"))[1:]:
        head, _, text = part.partition("\n")
        found[head.partition(" | ")[2].strip()] = text
    return found


def options(text: str) -> List[Option]:
    found = []
    part = text.partition("\nOptions:\n")[2]
    for names, value, words in re.findall(r"(?m)^ +((?:-\w, )?--[\w-]+)(?: <(\w+)>)? +(.*)", part):
        values = re.search(r" \[possible values: (.*?)\]", words)
        aliases = re.search(r" \[alias(?:es)?: (.*?)\]", words)
        more = aliases[1].split(", ") if aliases else []
        found.append(Option([*names.split(", "), *more], value, values[1].split(", ") if values else [], re.sub(r" \[.*", "", words)))
    return found


def commands(by_words: Dict[str, str]) -> List[Command]:
    part = by_words["--help"].partition("\nCommands:\n")[2].partition("\n\n")[0]
    found = []
    for name, words in re.findall(r"(?m)^  (\w+) +(.*)", part):
        if name == "help":
            continue
        text = by_words[f"{name} --help"]
        usage = re.search(r"(?m)^Usage: .*", text)
        found.append(Command(name, words, options(text), re.findall(r" <(\w+)>", usage[0] if usage else "")))
    return found


def escaped(text: str) -> str:
    """A text between single quotes of a shell."""
    return text.replace("'", "'\\''")


def in_bash(top: List[Option], all_commands: List[Command]) -> str:
    names = " ".join([*(it.name for it in all_commands), "help", *(name for it in top for name in it.names)])
    text = f"# bash completion for {PROGRAM}\n\n_{PROGRAM.replace('-', '_')}() {{\n"
    text += "    local word=${COMP_WORDS[COMP_CWORD]} before=${COMP_WORDS[COMP_CWORD - 1]} options=\n    COMPREPLY=()\n"
    text += f'    if [ "$COMP_CWORD" = 1 ]; then\n        mapfile -t COMPREPLY < <(compgen -W "{names}" -- "$word")\n        return\n    fi\n'
    text += '    [ "$before" != = ] || before=${COMP_WORDS[COMP_CWORD - 2]}\n    [ "$word" != = ] || word=\n    case ${COMP_WORDS[1]}:$before in\n'
    for command in all_commands:
        for option in command.options:
            if option.value and (option.values or option.value in NOT_A_FILE):
                keys = " | ".join(f"{command.name}:{name}" for name in option.names)
                words = f"mapfile -t COMPREPLY < <(compgen -W \"{' '.join(option.values)}\" -- \"$word\")" if option.values else ":"
                text += f"    {keys}) {words}; return ;;\n"
    text += "    esac\n    case ${COMP_WORDS[1]} in\n"
    for command in all_commands:
        text += f"    {command.name}) options=\"{' '.join(name for it in command.options for name in it.names)}\" ;;\n"
    text += f"    help) mapfile -t COMPREPLY < <(compgen -W \"{' '.join(it.name for it in all_commands)}\" -- \"$word\"); return ;;\n    esac\n"
    text += '    case $word in\n    -*) mapfile -t COMPREPLY < <(compgen -W "$options" -- "$word") ;;\n'
    text += '    *) mapfile -t COMPREPLY < <(compgen -f -- "$word") ;;\n    esac\n}\n\n'
    return text + f"complete -o filenames -F _{PROGRAM.replace('-', '_')} {PROGRAM}\n"


def zsh_option(option: Option) -> List[str]:
    words = re.sub(r"([\[\]:])", r"\\\1", option.help)
    value = ""
    if option.value:
        action = f"({' '.join(option.values)})" if option.values else " " if option.value in NOT_A_FILE else "_files"
        value = f":{option.value}:{action}"
    together = f"({' '.join(option.names)})" if len(option.names) > 1 else ""
    return [f"'{together}{name}{'=' if value and name.startswith('--') else ''}[{escaped(words)}]{value}'" for name in option.names]


def in_zsh(top: List[Option], all_commands: List[Command]) -> str:
    text = f"#compdef {PROGRAM}\n\n_{PROGRAM.replace('-', '_')}() {{\n    local -a commands\n    commands=(\n"
    text += "".join(f"        '{it.name}:{escaped(it.help)}'\n" for it in all_commands) + "        'help:Print help'\n    )\n"
    text += "    if (( CURRENT == 2 )); then\n        _describe command commands\n"
    text += "        _arguments " + " ".join(it for option in top for it in zsh_option(option)) + "\n        return\n    fi\n"
    text += "    shift words\n    (( CURRENT-- ))\n    case $words[1] in\n"
    for command in all_commands:
        lines = [it for option in command.options for it in zsh_option(option)]
        lines += [f"':{it}: '" for it in command.words] + ["'*:FILE:_files'"]
        text += f"    {command.name})\n        _arguments -s \\\n" + " \\\n".join(f"            {it}" for it in lines) + "\n        ;;\n"
    return text + f"    help) _describe command commands ;;\n    esac\n}}\n\n_{PROGRAM.replace('-', '_')} \"$@\"\n"


def fish_line(condition: str, option: Option) -> str:
    text = f"complete -c {PROGRAM} -n '{condition}'"
    for name in option.names:
        text += f" -l {name[2:]}" if name.startswith("--") else f" -s {name[1:]}"
    if option.values:
        text += f" -x -a '{' '.join(option.values)}'"
    elif option.value:
        text += " -x" if option.value in NOT_A_FILE else " -r"
    return text + f" -d '{escaped(option.help)}'\n"


def in_fish(top: List[Option], all_commands: List[Command]) -> str:
    text = f"# fish completion for {PROGRAM}\n\n"
    for command in all_commands:
        text += f"complete -c {PROGRAM} -n __fish_use_subcommand -f -a {command.name} -d '{escaped(command.help)}'\n"
    text += f"complete -c {PROGRAM} -n __fish_use_subcommand -f -a help -d 'Print help'\n"
    text += "".join(fish_line("__fish_use_subcommand", it) for it in top)
    names = " ".join(it.name for it in all_commands)
    text += f"complete -c {PROGRAM} -n '__fish_seen_subcommand_from help' -f -a '{names}'\n"
    for command in all_commands:
        text += "".join(fish_line(f"__fish_seen_subcommand_from {command.name}", it) for it in command.options)
    return text


SHELLS: Dict[str, Callable[[List[Option], List[Command]], str]] = {"bash": in_bash, "zsh": in_zsh, "fish": in_fish}


def main(arguments: List[str]) -> int:
    if not 1 <= len(arguments) <= 2 or arguments[0] not in SHELLS:
        print(__doc__, file=sys.stderr)
        return 2
    file = Path(arguments[1]) if arguments[1:] else Path(__file__).resolve().parent.parent / "bin" / "words" / "bsonraw_dump.txt"
    by_words = texts(file)
    sys.stdout.write(SHELLS[arguments[0]](options(by_words["--help"]), commands(by_words)))
    return 0


if __name__ == "__main__":
    sys.exit(main(sys.argv[1:]))
