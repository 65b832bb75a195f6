"""The scripts by which bash, zsh and fish complete `pitplan`, made from its parser: subcommands, options, their words, files and folders."""

from __future__ import annotations

import argparse
from argparse import Action
from dataclasses import dataclass
from pathlib import Path
from typing import Iterator

from ..config.project import settable
from .parser import Parser, parser

# What completes an argument: paths by the name that help gives to it, words, or nothing.
FILE, FOLDER, PROJECT, WORDS, KEYS, NOTHING = "file", "folder", "project", "words", "keys", "nothing"
PATHS = {"FILE": FILE, "TABLE": FILE, "PLACE": FILE, "FOLDER": FOLDER, "TARGET": FOLDER, "PROJECT": PROJECT}


@dataclass(frozen=True)
class CompletedSubcommand:
    """A subcommand: its name, what it does, its arguments in order, and its options, `--help` last."""

    name: str
    does: str
    arguments: tuple[Action, ...]
    options: tuple[Action, ...]

    @property
    def spellings(self) -> list[str]:
        return [spelling for option in self.options for spelling in option.option_strings]


def script(shell: str) -> str:
    """Returns the script of a shell: bash, zsh or fish."""
    top = parser()
    keys = " ".join(f"{path}=" for path in settable())
    return {"bash": of_bash, "zsh": of_zsh, "fish": of_fish}[shell](subcommands_of(top), options_of(top)).replace(
        "SETTABLE", keys
    )


def subcommands_of(top: Parser) -> list[CompletedSubcommand]:
    """Returns the subcommands of a parser. The arguments and options of a subcommand's own subcommands count as its own."""
    found = []
    for name, sub in nested(top).items():
        parsers = [sub, *nested(sub).values()]
        arguments = [it for each in parsers for it in each._actions if not it.option_strings]
        options = {tuple(it.option_strings): it for each in parsers for it in options_of(each)}
        does = (sub.description or "").partition(". ")[0].rstrip(".")
        found.append(CompletedSubcommand(name, does, tuple(arguments), tuple(options.values())))
    return found


def nested(top: Parser) -> dict[str, Parser]:
    return {
        name: sub
        for action in top._actions
        if isinstance(action, argparse._SubParsersAction)
        for name, sub in action.choices.items()
    }


def options_of(top: Parser) -> tuple[Action, ...]:
    """Returns the options of a parser, `--help` last."""
    found = [it for it in top._actions if it.option_strings]
    return tuple(sorted(found, key=lambda it: "--help" in it.option_strings))


def name_of(action: Action) -> str:
    """Returns the name of an argument, or of the value of an option, as help has it."""
    return action.metavar if isinstance(action.metavar, str) else action.dest.upper()


def help_of(action: Action) -> str:
    return (action.help or "").replace("%%", "%")


def kind_of(action: Action) -> str:
    """Returns what completes an argument, or the value of an option. A path must have a name of PATHS."""
    if action.choices is not None:
        return WORDS
    if action.type is Path:
        return PATHS[name_of(action)]
    return KEYS if name_of(action) == "KEY=VALUE" else NOTHING


def words_of(action: Action) -> tuple[str, ...]:
    return tuple(action.choices or ())


def has_value(option: Action) -> bool:
    return option.nargs != 0


def repeats(argument: Action) -> bool:
    """Returns whether several values may follow each other."""
    return argument.nargs in ("+", "*")


BASH = """# Completion of pitplan for bash, written by `pitplan completion bash`.
_pitplan_words() {
    mapfile -t COMPREPLY < <(compgen -W "$1" -- "${COMP_WORDS[COMP_CWORD]}")
}

_pitplan_paths() {
    local word=${COMP_WORDS[COMP_CWORD]}
    compopt -o filenames 2> /dev/null
    case $1 in
    file) mapfile -t COMPREPLY < <(compgen -f -- "$word") ;;
    folder) mapfile -t COMPREPLY < <(compgen -d -- "$word") ;;
    project) mapfile -t COMPREPLY < <(compgen -f -X '!*.toml' -- "$word"; compgen -d -- "$word") ;;
    esac
}

_pitplan_keys() {
    compopt -o nospace 2> /dev/null
    _pitplan_words "SETTABLE"
}

_pitplan() {
    local command=${COMP_WORDS[1]} before=${COMP_WORDS[COMP_CWORD - 1]} options="" valued="" given=0 k
    COMPREPLY=()
    if [ "$COMP_CWORD" -eq 1 ]; then
        _pitplan_words "SUBCOMMANDS"
        return
    fi
    case "$command $before" in
VALUES
    esac
    case $command in
OPTIONS
    esac
    # Arguments before this one: words that are neither options nor their values, which bash divides at = and :.
    for ((k = 2; k < COMP_CWORD; k++)); do
        case ${COMP_WORDS[k]} in
        = | :) k=$((k + 1)) ;;
        -*) [[ " $valued " != *" ${COMP_WORDS[k]} "* ]] || k=$((k + 1)) ;;
        *) given=$((given + 1)) ;;
        esac
    done
    case "${COMP_WORDS[COMP_CWORD]}" in
    -*) ;;
    *)
        case "$command $given" in
ARGUMENTS
        esac
        ;;
    esac
    _pitplan_words "$options"
}
complete -F _pitplan pitplan
"""


def of_bash(subcommands: list[CompletedSubcommand], top: tuple[Action, ...]) -> str:
    """Returns the script for bash. An option that takes neither words nor a path completes nothing."""
    cases: dict[str, list[str]] = {}
    for sub in subcommands:
        for option in sub.options:
            if has_value(option):
                cases.setdefault(bash_action(option), []).extend(f'"{sub.name} {it}"' for it in option.option_strings)
    values = [f"    {' | '.join(patterns)})\n        {action}\n        ;;" for action, patterns in cases.items()]
    options = []
    for sub in subcommands:
        valued = " ".join(it for option in sub.options if has_value(option) for it in option.option_strings)
        options.append(f'    {sub.name}) options="{" ".join(sub.spellings)}" valued="{valued}" ;;')
    arguments = [
        f'        "{sub.name} "{"*" if repeats(argument) else place}) {bash_action(argument)} ;;'
        for sub in subcommands
        for place, argument in enumerate(sub.arguments)
    ]
    words = [*(sub.name for sub in subcommands), *(it for option in top for it in option.option_strings)]
    filled = BASH.replace("SUBCOMMANDS", " ".join(words)).replace("VALUES", "\n".join(values))
    return filled.replace("OPTIONS", "\n".join(options)).replace("ARGUMENTS", "\n".join(arguments))


def bash_action(argument: Action) -> str:
    kind = kind_of(argument)
    if kind == WORDS:
        return f'_pitplan_words "{" ".join(words_of(argument))}" && return'
    if kind == KEYS:
        return "_pitplan_keys && return"
    return "return" if kind == NOTHING else f"_pitplan_paths {kind} && return"


ZSH = """#compdef pitplan
# Completion of pitplan for zsh, written by `pitplan completion zsh`.

_pitplan_keys() {
    compadd -S '' -- SETTABLE
}

_pitplan() {
    local context state state_descr line
    local -A opt_args
    _arguments -C TOP '1:subcommand:->subcommand' '*::argument:->argument'
    case $state in
    subcommand)
        local -a subcommands
        subcommands=(
SUBCOMMANDS
        )
        _describe subcommand subcommands
        ;;
    argument)
        case $words[1] in
ARGUMENTS
        esac
        ;;
    esac
}

if [ "$funcstack[1]" = _pitplan ]; then
    _pitplan "$@"
else
    compdef _pitplan pitplan
fi
"""


def of_zsh(subcommands: list[CompletedSubcommand], top: tuple[Action, ...]) -> str:
    """Returns the script for zsh, by `_arguments`, as a function to load or a file to source."""
    listed = [f"            {quoted(colons(sub.name) + ':' + colons(sub.does))}" for sub in subcommands]
    arguments = []
    for sub in subcommands:
        specs = [
            f"{quoted('*' if repeats(it) else str(place))}:{zsh_value(it)}" for place, it in enumerate(sub.arguments, 1)
        ]
        specs += [zsh_option(option) for option in sub.options]
        arguments.append(
            f"        {sub.name})\n            _arguments " + " \\\n                ".join(specs) + "\n            ;;"
        )
    filled = ZSH.replace("TOP", " ".join(zsh_option(option) for option in top))
    return filled.replace("SUBCOMMANDS", "\n".join(listed)).replace("ARGUMENTS", "\n".join(arguments))


def zsh_option(option: Action) -> str:
    """Returns an option as `_arguments` takes it: those that exclude it, its spellings, its help, and its value."""
    spellings, is_repeated = option.option_strings, isinstance(option, argparse._AppendAction)
    ends = "--help" in spellings or "--version" in spellings
    exclude = "(- *)" if ends else f"({' '.join(spellings)})" if len(spellings) > 1 else ""
    spelled = f"{{{','.join(spellings)}}}" if len(spellings) > 1 else spellings[0]
    value = f":{zsh_value(option)}" if has_value(option) else ""
    text = help_of(option).replace("[", "\\[").replace("]", "\\]")
    before = quoted("*" if is_repeated else exclude) if is_repeated or exclude else ""
    return f"{before}{spelled}{quoted(f'[{text}]')}{value}"


def zsh_value(argument: Action) -> str:
    """Returns the name of a value and what completes it; a space completes nothing."""
    action = {
        FILE: "_files",
        FOLDER: "_files -/",
        PROJECT: '_files -g "*.toml"',
        KEYS: "_pitplan_keys",
        NOTHING: " ",
    }.get(kind_of(argument))
    return quoted(f"{colons(name_of(argument))}:{action or '(' + ' '.join(words_of(argument)) + ')'}")


def colons(text: str) -> str:
    return text.replace(":", "\\:")


def quoted(text: str) -> str:
    return "'" + text.replace("'", "'\\''") + "'"


FISH = """# Completion of pitplan for fish, written by `pitplan completion fish`.
complete -c pitplan -f
function __pitplan_keys
    string split " " "SETTABLE"
end
"""


def of_fish(subcommands: list[CompletedSubcommand], top: tuple[Action, ...]) -> str:
    lines = [
        f"complete -c pitplan -n __fish_use_subcommand{fish_spellings(option)} -d {fish_quoted(help_of(option))}"
        for option in top
    ]
    for sub in subcommands:
        lines.append(f"complete -c pitplan -n __fish_use_subcommand -a {sub.name} -d {fish_quoted(sub.does)}")
    for sub in subcommands:
        lines += fish_lines(sub)
    return FISH + "\n".join(lines) + "\n"


def fish_lines(sub: CompletedSubcommand) -> Iterator[str]:
    """Yields the lines of a subcommand: its arguments, in any number, and its options."""
    begin = f"complete -c pitplan -n '__fish_seen_subcommand_from {sub.name}'"
    for argument in sub.arguments:
        if kind_of(argument) != NOTHING:
            yield f"{begin}{fish_value(argument)}"
    for option in sub.options:
        value = f" -r{fish_value(option)}" if has_value(option) else ""
        yield f"{begin}{fish_spellings(option)}{value} -d {fish_quoted(help_of(option))}"


def fish_value(argument: Action) -> str:
    """Returns what completes a value: words or paths."""
    kind, suffix = kind_of(argument), "(__fish_complete_suffix .toml)"
    words = {
        FOLDER: "(__fish_complete_directories)",
        PROJECT: suffix,
        KEYS: "(__pitplan_keys)",
        WORDS: " ".join(words_of(argument)),
    }.get(kind)
    return " -F" if kind == FILE else f" -fa {fish_quoted(words)}" if words else " -f"


def fish_spellings(option: Action) -> str:
    return "".join(f" -l {it[2:]}" if it.startswith("--") else f" -s {it[1:]}" for it in option.option_strings)


def fish_quoted(text: str) -> str:
    return "'" + text.replace("\\", "\\\\").replace("'", "\\'") + "'"
