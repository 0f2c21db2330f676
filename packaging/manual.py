#!/usr/bin/env python3
"""Prints the man page of a program, from its own table of arguments."""
import argparse
import re
from typing import List, Tuple

import manual_sections
from argument_table import Argument, Command, Table, table_of
from roff import body, bold, filled, item, italic, plain

# Where the examples of a help begin: `Example:`, or what the example goes with.
EXAMPLE = re.compile(r"^Examples?\b(.*):$", re.M)


def page(table: Table, date: str) -> str:
    name = table.name
    lines = [
        f'.TH {name.upper()} 1 "{date}" "{name} {table.version.split()[0]}" "User Commands"',
        ".SH NAME",
        f"{name} \\- {plain(table.about)}",
        ".SH SYNOPSIS",
        *synopsis(name, table),
        ".SH DESCRIPTION",
        *body(manual_sections.DESCRIPTION)[1:],
        ".SH OPTIONS",
        *described(table.options),
        ".SH COMMANDS",
        *(line for command in table.commands for line in section(table, command)),
        *topics(table),
        ".SH EXIT STATUS",
        *items(manual_sections.STATUS),
        ".SH ENVIRONMENT",
        *items(manual_sections.ENVIRONMENT),
        ".SH FILES",
        *items(manual_sections.FILES),
        ".SH EXAMPLES",
        *[line for command in table.commands for line in examples(command)][1:],
        ".SH SEE ALSO",
        *references(manual_sections.SEE_ALSO),
        ".SH COPYRIGHT",
        plain(manual_sections.COPYRIGHT),
    ]
    # A word isn't broken at the end of a line, and spaces aren't widened.
    return "\n".join([lines[0], ".nh", ".ad l", *lines[1:], ""])


def synopsis(name: str, table: Table) -> List[str]:
    options = " | ".join(bold(spelling) for option in table.options for spelling in option.spellings)
    return [bold(name), italic("COMMAND"), f"[{italic('OPTION')} | {italic('ARGUMENT')}]...", ".br", bold(name), options]


def usage(argument: Argument) -> str:
    """An argument as it stands on a command line. It isn't broken."""
    shown = bold(argument.spellings[-1]) if argument.option else ""
    if argument.value:
        shown += ("\\ " if shown else "") + italic(argument.value)
    shown = shown if argument.required else f"[{shown}]"
    return f"{shown}..." if argument.repeatable else shown


def described(arguments: List[Argument]) -> List[str]:
    lines = []
    for argument in arguments:
        spelled = ", ".join(bold(each) for each in argument.spellings) if argument.option else ""
        value = italic(argument.value) if argument.value else ""
        about = f"{argument.help}. Each command has this option too." if argument.shared else f"{argument.help}."
        lines += item(" ".join(filter(None, (spelled, value))), about)
    return lines


def section(table: Table, command: Command) -> List[str]:
    """The section of a command. What it has in common with all commands, or with a topic, stands in their sections."""
    options = [option for option in command.options if not option.shared]
    lines = [f".SS {table.name} {plain(command.name)}", *filled(f"{command.about}."), ".PP", bold(f"{table.name} {command.name}")]
    lines += [usage(argument) for argument in [*options, *command.places]]
    lines += described([*command.places, *options])
    text = EXAMPLE.split(command.examples)[0].rstrip("\n")
    for topic in table.topics:
        if topic.text and text.startswith(topic.text):
            text = f"The section {topic.name.upper()} has the forms of the values.{text[len(topic.text):]}"
    return [*lines, *(body(text) if text else [])]


def topics(table: Table) -> List[str]:
    """A section of each topic. That of the faults has an item for each."""
    lines = []
    for topic in table.topics:
        lines += [f".SH {topic.name.upper()}", *body(topic.text or topic.about + ", and what to do:")[1:]]
        if not topic.text:
            heads = [fault.line.partition(": ") for fault in table.faults]
            lines += [line for head, _, meaning in heads for line in item(bold(head), f"{meaning[:1].upper()}{meaning[1:]}.")]
    return lines


def items(rows: List[Tuple[str, str]]) -> List[str]:
    return [line for head, text in rows for line in item(bold(head), text)]


def examples(command: Command) -> List[str]:
    """The examples of a command's help, below what it does."""
    found = EXAMPLE.search(command.examples)
    if found is None:
        return []
    return body(f"{command.about}{found[1]}:{command.examples[found.end():]}")


def references(names: List[str]) -> List[str]:
    """Other pages, as `tc(8)`."""
    lines = []
    for place, name in enumerate(names):
        page_name, _, number = name.partition("(")
        lines.append(f".BR {plain(page_name)} ({number}{',' if place < len(names) - 1 else ''}")
    return [*lines, ".PP", *filled("toxi-find, toxi-sweep and toxi-merge, the commands of the Python package, have help: toxi-find --help and so on.")]


def main() -> None:
    parser = argparse.ArgumentParser(description=__doc__)
    parser.add_argument("program", metavar="PROGRAM", help="the path of the program")
    parser.add_argument("date", metavar="DATE", help="the date that the page shows")
    arguments = parser.parse_args()
    print(page(table_of(arguments.program), arguments.date), end="")


if __name__ == "__main__":
    main()
