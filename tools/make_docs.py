#!/usr/bin/env python3
"""Makes what repeats the help of `pitshell` and `pitschedule`: man pages, completions; of pitshell also the table of options in docs/FORMATS.md
and the stored words of tests.

    tools/make_docs.py            writes them
    tools/make_docs.py --check    only compares; status 1 if a file differs

The help comes from the programs that PITSHELL and PITSCHEDULE name, otherwise from those in build/. What repeats the help of a program that is
missing stays as it is, except with --check, which needs both. Text around it is in man/NAME.1.in, where a
line

    @name                     is the sentence under NAME
    @synopsis                 each subcommand with its options
    @about COMMAND            what the subcommand does
    @options .. @end          all options in the order of the help; the lines below @more NAME follow the words of that option, or those for
                              one subcommand below @more NAME COMMAND
    @statuses                 the table of exit statuses
"""
import itertools
import os
import pathlib
import re
import subprocess
import sys
from typing import NamedTuple

TOP = pathlib.Path(__file__).resolve().parent.parent
NAMES = ("pitshell", "pitschedule")
PROGRAMS = {name: pathlib.Path(os.environ.get(name.upper(), TOP / "build" / name)) for name in NAMES}
OPTION = re.compile(r"^ +(?:-h, )?--(\w+)(?: <(\w+)>)? +(\S.*?)(?: \[default: (\w+)\])?$", re.MULTILINE)
CHOICE = re.compile(r"^((?:\w+, )*\w+) or (\w+):")
BEGIN, END = "<!-- options, by tools/make_docs.py -->\n", "<!-- end of options -->\n"
MADE = "Completion of {}, by tools/make_docs.py"


class Option(NamedTuple):
    """An option: its name, what the help calls its value (empty for --help), its words, its default, and whether it must be given."""

    name: str
    value: str
    words: str
    default: str
    required: bool

    def choices(self) -> list[str]:
        """The words that the option takes, if the help lists them first."""
        found = CHOICE.match(self.words)
        return [*found[1].split(", "), found[2]] if found else []


class Command(NamedTuple):
    """A subcommand: its name, what it does, and its options in the order of the help."""

    name: str
    about: str
    options: list[Option]

    def own(self) -> list[Option]:
        """All options except --help."""
        return [option for option in self.options if option.name != "help"]


class Help(NamedTuple):
    """What the help of a program says."""

    program: str
    about: str
    version: str
    commands: list[Command]
    statuses: list[tuple[str, str]]


def said(program: str, *words: str) -> str:
    """What a program prints to standard output."""
    return subprocess.run([PROGRAMS[program], *words], capture_output=True, text=True, check=True, timeout=60).stdout


def command_of(program: str, name: str) -> Command:
    text = said(program, name, "--help")
    usage = re.search(r"^Usage: (.*)$", text, re.MULTILINE)[1]
    found = [Option(*words, f"--{words[0]} <" in usage) for words in OPTION.findall(text)]
    return Command(name, text.partition("\n")[0], found)


def read_help(program: str) -> Help:
    text = said(program, "--help")
    listed = text.partition("Commands:\n")[2].partition("\n\n")[0]
    names = [name for name in re.findall(r"^  (\w+) ", listed, re.MULTILINE) if name != "help"]
    statuses = re.findall(r"^  (\d)  (.+)$", text, re.MULTILINE)
    version = said(program, "--version").split()[1]
    return Help(program, text.partition("\n")[0], version, [command_of(program, name) for name in names], statuses)


def grouped(known: Help) -> list[tuple[Option, list[str]]]:
    """Each option with the subcommands that have it in these words, in the order of the help."""
    groups: dict[Option, list[str]] = {}
    for command in known.commands:
        for option in command.own():
            groups.setdefault(option, []).append(command.name)
    return list(groups.items())


# The man page.


def roff(text: str) -> str:
    return text.replace("\\", "\\\\").replace("-", "\\-")


def synopsis(known: Help) -> list[str]:
    lines = []
    for command in known.commands:
        lines.append(f'.SY "{known.program} {command.name}"')
        for option in command.own():
            lines.append(f'.BI \\-\\-{option.name} " {option.value}"' if option.required else f".OP \\-\\-{option.name} {option.value}")
    return [*lines, f'.SY "{known.program} help"', ".RI [ COMMAND ]", ".YS"]


def option_lines(known: Help, more: dict[str, list[str]]) -> list[str]:
    """All options of the man page, each followed by the lines that `more` has for it."""
    named: dict[str, list[tuple[Option, list[str]]]] = {}
    for option, having in grouped(known):
        named.setdefault(option.name, []).append((option, having))
    lines = []
    for name, variants in named.items():
        lines += [".TP", f'.BI \\-\\-{name} " {variants[0][0].value}"']
        # An option may be required by one subcommand alone.
        variants = variants[:1] if len({(option.words, option.default) for option, _ in variants}) == 1 else variants
        for option, having in variants:
            lines += ["With", f".BR {having[0]} :"] if len(variants) > 1 else []
            lines += [f"{roff(option.words)}.", *([f"The default is {option.default}."] if option.default else [])]
            lines += more.pop(f"{name} {having[0]}" if len(variants) > 1 else name, [])
    if more:
        sys.exit(f"man/{known.program}.1.in: the help has no option for @more {', @more '.join(more)}")
    return lines


def manual(known: Help, template: str) -> str:
    lines: list[str] = []
    more: dict[str, list[str]] = {}
    below: list[str] | None = None
    for line in template.splitlines():
        word, _, rest = line.partition(" ") if line.startswith("@") else ("", "", "")
        if word == "@more":
            below = more.setdefault(rest, [])
        elif word == "@end":
            lines += option_lines(known, more)
            below = None
        elif below is not None:
            below.append(line)
        elif word == "@name":
            lines.append(f"{known.program} \\- {roff(known.about[:1].lower() + known.about[1:])}")
        elif word == "@synopsis":
            lines += synopsis(known)
        elif word == "@about":
            lines += [f"{roff(command.about)}." for command in known.commands if command.name == rest]
        elif word == "@statuses":
            lines += itertools.chain.from_iterable((".TP", f".B {number}", roff(words)) for number, words in known.statuses)
        elif word != "@options":
            lines.append(line.replace("@version@", known.version))
    return "\n".join(lines) + "\n"


# The completions.


def bash(known: Help) -> str:
    options = [option for option, _ in grouped(known)]
    files = " | ".join(dict.fromkeys(f"--{option.name}" for option in options if option.value == "FILE"))
    others = " | ".join(dict.fromkeys(f"--{option.name}" for option in options if option.value != "FILE" and not option.choices()))
    chosen = {option.name: option.choices() for option in options if option.choices()}
    names = " ".join(command.name for command in known.commands)
    words = "".join(
        f'    --{name})\n        mapfile -t COMPREPLY < <(compgen -W "{" ".join(choices)}" -- "$word")\n        return\n        ;;\n'
        for name, choices in chosen.items()
    )
    cases = "".join(
        f'    {command.name}) options="{" ".join(f"--{option.name}" for option in command.options)}" ;;\n' for command in known.commands
    )
    return f"""# {MADE.format(known.program)}, for bash.
_{known.program}() {{
    local word=${{COMP_WORDS[COMP_CWORD]}} before=${{COMP_WORDS[COMP_CWORD - 1]}} options=""
    COMPREPLY=()
    if [ "$COMP_CWORD" -eq 1 ]; then
        mapfile -t COMPREPLY < <(compgen -W "{names} help --help --version" -- "$word")
        return
    fi
    case $before in
    {files})
        compopt -o filenames 2> /dev/null
        mapfile -t COMPREPLY < <(compgen -f -- "$word")
        return
        ;;
{words}    {others}) return ;;
    esac
    case ${{COMP_WORDS[1]}} in
{cases}    help) options="{names}" ;;
    esac
    mapfile -t COMPREPLY < <(compgen -W "$options" -- "$word")
}}
complete -F _{known.program} {known.program}
"""


def quoted(words: str) -> str:
    """Words within a quoted specification of zsh."""
    return re.sub(r"([\[\]:\\])", r"\\\1", words).replace("'", "'\\''")


def zsh_option(option: Option) -> str:
    if option.name == "help":
        return f"            '(- *)'{{-h,--help}}'[{quoted(option.words)}]'"
    action = f"({' '.join(option.choices())})" if option.choices() else "_files" if option.value == "FILE" else ""
    return f"            '--{option.name}[{quoted(option.words)}]:{option.value.lower()}:{action}'"


def zsh(known: Help) -> str:
    listed = "\n".join(f"            '{command.name}:{quoted(command.about)}'" for command in known.commands)
    cases = "\n".join(
        f"    {command.name})\n        _arguments \\\n" + " \\\n".join(map(zsh_option, command.options)) + "\n        ;;"
        for command in known.commands
    )
    return f"""#compdef {known.program}
# {MADE.format(known.program)}, for zsh.

_{known.program}() {{
    if (( CURRENT == 2 )); then
        local -a commands
        commands=(
{listed}
            'help:Print help'
        )
        _describe 'command' commands
        _arguments '(- *)'{{-h,--help}}'[Print help]' '(- *)'{{-V,--version}}'[Print version]'
        return
    fi
    local command=$words[2]
    shift words
    (( CURRENT-- ))
    case $command in
{cases}
    help) _values 'command' {" ".join(command.name for command in known.commands)} ;;
    esac
}}

_{known.program} "$@"
"""


def fish(known: Help) -> str:
    complete = f"complete -c {known.program}"
    lines = [f"# {MADE.format(known.program)}, for fish.", f"{complete} -f"]
    quote = str.maketrans({"\\": "\\\\", "'": "\\'"})
    for name, about in [*((command.name, command.about) for command in known.commands), ("help", "Print help")]:
        lines.append(f"{complete} -n __fish_use_subcommand -a {name} -d '{about.translate(quote)}'")
    lines.append(f"{complete} -n __fish_use_subcommand -s V -l version -d 'Print version'")
    lines.append(f"{complete} -s h -l help -d 'Print help'")
    for option, having in grouped(known):
        kind = f"-xa '{' '.join(option.choices())}'" if option.choices() else "-rF" if option.value == "FILE" else "-x"
        of = f"-n '__fish_seen_subcommand_from {' '.join(having)}'"
        lines.append(f"{complete} {of} -l {option.name} {kind} -d '{option.words.translate(quote)}'")
    return "\n".join(lines) + "\n"


# The table of options, and the stored words.


def table(known: Help) -> str:
    rows = ["| Option | Of | Default | Meaning |", "|---|---|---|---|"]
    for option, having in grouped(known):
        default = "required" if option.required else f"`{option.default}`" if option.default else "–"
        rows.append(f"| `--{option.name} {option.value}` | {', '.join(f'`{name}`' for name in having)} | {default} | {option.words} |")
    return "\n".join(rows) + "\n"


def page(known: Help, text: str) -> str:
    before, begin, rest = text.partition(BEGIN)
    _, end, after = rest.partition(END)
    if not begin or not end:
        sys.exit(f"docs/FORMATS.md: the marks {BEGIN.strip()} and {END.strip()} are missing")
    return f"{before}{BEGIN}\n{table(known)}\n{END}{after}"


def stored_words(text: str) -> str:
    """What the program says to each command line of the stored words."""
    told = []
    for line in re.findall(r"^\$ pitshell(.*)$", text, re.MULTILINE):
        ran = subprocess.run([PROGRAMS["pitshell"], *line.split()], capture_output=True, text=True, timeout=60)
        told.append(f"$ pitshell{line}\nstatus {ran.returncode}\n{ran.stdout}{ran.stderr}")
    return "".join(told)


def of_program(known: Help) -> dict[pathlib.Path, str]:
    """The man page and the completions of a program, each with the text that it must have."""
    template = TOP / "man" / f"{known.program}.1.in"
    return {
        TOP / "man" / f"{known.program}.1": manual(known, template.read_text(encoding="utf-8")),
        TOP / "completions" / f"{known.program}.bash": bash(known),
        TOP / "completions" / f"_{known.program}": zsh(known),
        TOP / "completions" / f"{known.program}.fish": fish(known),
    }


def made() -> dict[pathlib.Path, str]:
    """Each file with the text that it must have."""
    helps = {name: read_help(name) for name in NAMES if PROGRAMS[name].is_file()}
    formats, stored = TOP / "docs" / "FORMATS.md", TOP / "tests" / "stored_words.txt"
    found = {}
    if known := helps.get("pitshell"):
        found = {formats: page(known, formats.read_text(encoding="utf-8")), stored: stored_words(stored.read_text(encoding="utf-8"))}
    for known in helps.values():
        found |= of_program(known)
    return found


def main() -> int:
    for name, program in PROGRAMS.items():
        if not program.is_file():
            said = f"{program} is missing: run `make`, or name a program by {name.upper()}"
            if "--check" in sys.argv[1:]:
                sys.exit(said)
            print(f"what repeats the help of {name} stays as it is: {said}")
    differing = [(file, text) for file, text in made().items() if not file.is_file() or file.read_text(encoding="utf-8") != text]
    for file, text in differing:
        if "--check" in sys.argv[1:]:
            print(f"{file.relative_to(TOP)}: says other than the help of the program: run `make docs`")
        else:
            file.write_text(text, encoding="utf-8")
    return 1 if differing and "--check" in sys.argv[1:] else 0


if __name__ == "__main__":
    sys.exit(main())
