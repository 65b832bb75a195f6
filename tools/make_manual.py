#!/usr/bin/python3
"""Makes man/pitplan.1 from the parser of `pitplan` and man/pitplan.1.in.

    tools/make_manual.py            writes it
    tools/make_manual.py --check    only compares; status 1 if it differs

In man/pitplan.1.in the line

    @name                       is the sentence under NAME
    @synopsis                   is each subcommand with its options and arguments
    @subcommands .. @end        is what each subcommand does, in the groups of `pitplan -h`
    @arguments .. @end          is each argument, with the subcommands that take it
    @options .. @end            is each option, with the subcommands that take it

Lines below `@more NAME` follow the words of that subcommand, argument or option. `@version@` is the version.
"""

import pathlib
import sys
from argparse import Action
from typing import Iterable, NamedTuple

TOP = pathlib.Path(__file__).resolve().parent.parent
sys.path.insert(0, str(TOP / "python"))

from pitplan import __version__  # noqa: E402
from pitplan.cli.completions import CompletedSubcommand, has_value, help_of, name_of, options_of, repeats, subcommands_of, words_of  # noqa: E402
from pitplan.cli.parser import DESCRIPTION, Parser, parser  # noqa: E402

# The longest list of words that stands for a value; a longer one has a name.
WIDEST = 40
PAGE, TEMPLATE = TOP / "man" / "pitplan.1", TOP / "man" / "pitplan.1.in"


class Parts(NamedTuple):
    """What the parser says: its subcommands in groups, and the descriptions of their help."""

    groups: dict[str, list[CompletedSubcommand]]
    descriptions: dict[str, str]
    top: Parser

    def subcommands(self) -> list[CompletedSubcommand]:
        return [sub for group in self.groups.values() for sub in group]


def parts() -> Parts:
    top = parser()
    known = {sub.name: sub for sub in subcommands_of(top)}
    groups: dict[str, list[CompletedSubcommand]] = {}
    for line in (top.epilog or "").splitlines():
        if line.endswith(":") and not line.startswith(" "):
            groups[line[:-1]] = []
        elif line:
            groups[list(groups)[-1]].append(known[line.split()[0]])
    subparsers = next(action.choices for action in top._subparsers._group_actions)
    return Parts(groups, {name: sub.description for name, sub in subparsers.items()}, top)


def roff(text: str) -> str:
    """Text whose backslashes, hyphens and quotes roff leaves alone."""
    return text.replace("\\", "\\\\").replace("-", "\\-").replace('"', "\\(dq")


def sentence(text: str) -> str:
    return f"{roff(text[:1].upper() + text[1:]).rstrip('.')}."


def value_of(argument: Action) -> str:
    """The value of an option or argument: its words if they are few, otherwise its name."""
    count, words = len(words_of(argument)), ",".join(words_of(argument))
    if count == 1 or len(words) > WIDEST:
        return words if count == 1 else name_of(argument)
    return "{" + words + "}" if words else name_of(argument)


def on_the_line(argument: Action) -> str:
    """An argument as command lines have it: in brackets if it may be left out, with dots if several may follow."""
    value = f"[{value_of(argument)}]" if argument.nargs == "?" else value_of(argument)
    return f"{value} ..." if repeats(argument) else value


def described(part: Action) -> str:
    """What an argument or option is for, and whether it is required."""
    return sentence(help_of(part)) + (" Required." if part.option_strings and part.required else "")


def heading(part: Action) -> str:
    """The line of an option, with all its spellings, or of an argument."""
    if not part.option_strings:
        return f"\\fI{value_of(part)}\\fR"
    value = f" \\fI{value_of(part)}\\fR" if has_value(part) else ""
    return ", ".join(f"\\fB{roff(spelling)}\\fR{value}" for spelling in part.option_strings)


def synopsis(known: Parts) -> list[str]:
    lines = []
    for sub in known.subcommands():
        lines.append(f'.SY "pitplan {sub.name}"')
        for option in sub.options:
            if option.option_strings != ["-h", "--help"]:
                spelling = max(option.option_strings, key=len)
                value = f" {value_of(option)}" if has_value(option) else ""
                lines.append(f'.BI {roff(spelling)} "{value}"' if option.required else f".OP {roff(spelling)}{value}")
        lines += [f".I {on_the_line(argument)}" for argument in sub.arguments]
    return [*lines, ".SY pitplan", '.BR \\-\\-version " | " \\-\\-help', ".YS"]


def subcommand_lines(known: Parts, more: dict[str, list[str]]) -> list[str]:
    lines = []
    for title, subs in known.groups.items():
        lines.append(f".SS {title.capitalize()}")
        for sub in subs:
            arguments = " ".join(map(on_the_line, sub.arguments))
            lines += [".TP", f'.BI {sub.name} " {arguments}"', sentence(known.descriptions[sub.name])]
            lines += more.pop(sub.name, [])
    return lines


def part_lines(found: Iterable[tuple[str, Action]], more: dict[str, list[str]]) -> list[str]:
    """Arguments or options, each with its words and the subcommands that take it in these words."""
    named: dict[str, dict[str, dict[str, list[str]]]] = {}
    for sub, part in found:
        headings = named.setdefault(max(part.option_strings, key=len, default=name_of(part)).lstrip("-"), {})
        headings.setdefault(heading(part), {}).setdefault(described(part), []).append(f"\\fB{sub}\\fR")
    lines = []
    for name, headings in named.items():
        for line, variants in headings.items():
            lines += [".TP", line]
            for number, (words, subs) in enumerate(variants.items()):
                lines += [".IP"] * (number > 0) + [words, f"[{', '.join(subs)}]"]
        lines += more.pop(name, [])
    return lines


def option_lines(known: Parts, more: dict[str, list[str]]) -> list[str]:
    """All options; those of all subcommands are last."""
    own = [(sub.name, option) for sub in known.subcommands() for option in sub.options if "--help" not in option.option_strings]
    lines = part_lines(own, more)
    for option in options_of(known.top):
        lines += [".TP", heading(option), sentence(help_of(option))]
    return lines


def argument_lines(known: Parts, more: dict[str, list[str]]) -> list[str]:
    own = [(sub.name, argument) for sub in known.subcommands() for argument in sub.arguments]
    return part_lines([(sub, argument) for sub, argument in own if len(words_of(argument)) != 1], more)


SECTIONS = {"@subcommands": subcommand_lines, "@arguments": argument_lines, "@options": option_lines}


def manual(known: Parts, template: str) -> str:
    """The page. Exits if the template adds to something that the parser does not have."""
    lines: list[str] = []
    more: dict[str, list[str]] = {}
    section, below = "", None
    for line in template.splitlines():
        word, _, rest = line.partition(" ")
        if word in SECTIONS:
            section, more = word, {}
        elif word == "@more":
            below = more.setdefault(rest, [])
        elif word == "@end":
            lines += SECTIONS[section](known, more)
            if more:
                sys.exit(f"{TEMPLATE.name}: {section} has no @more {', @more '.join(more)}: see `pitplan -h`")
            below = None
        elif below is not None:
            below.append(line)
        elif word == "@name":
            lines.append(f"pitplan \\- {roff(DESCRIPTION[:1].lower() + DESCRIPTION[1:].rstrip('.'))}")
        elif word == "@synopsis":
            lines += synopsis(known)
        else:
            lines.append(line.replace("@version@", __version__))
    return "\n".join(lines) + "\n"


def main() -> int:
    text = manual(parts(), TEMPLATE.read_text(encoding="utf-8"))
    same = PAGE.is_file() and PAGE.read_text(encoding="utf-8") == text
    if "--check" not in sys.argv[1:]:
        PAGE.write_text(text, encoding="utf-8")
    elif not same:
        print(f"{PAGE.relative_to(TOP)}: says other than `pitplan -h`: run `make docs`")
        return 1
    return 0


if __name__ == "__main__":
    sys.exit(main())
