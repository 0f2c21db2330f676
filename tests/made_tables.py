"""Texts that are made of the program's own tables."""
# An attribute whose most is the largest number is bounded by another, as its words say.
NO_BOUND = 2**64 - 1
# What the documents link in the words of a fault's advice.
LINKS = {"the type's attributes": "TOXICS.md", "its range": "TOXICS.md"}
HEAD = '''"""The toxics of a rule, as dataclasses. All fields are given by keyword.

The program checks the values when it reads the script, so a wrong one raises a `ToxiFault` at the start. This file is made by
tests/tables of the program's own table.
"""
from dataclasses import dataclass
from typing import TYPE_CHECKING, Optional

from ._toxic import REQUIRED, Stream, Toxic, Toxicity

__all__ = [{names}]

# The longest time that a toxic takes, in milliseconds.
MAX_MS = {max_ms:_}
'''
CLASS = '''

@dataclass(frozen=True, repr=False)
class {name}(Toxic):
    """{words}.

{attributes}
    """

    type = "{type}"
{fields}
'''
# Fields with defaults of the base class stand before, so a checker of types is told by a signature what has to be given.
SIGNATURE = '''
    if TYPE_CHECKING:

        def __init__(
            self,
            *,
{parameters}
            name: Optional[str] = None,
            stream: Stream = "downstream",
            toxicity: Optional[Toxicity] = None,
        ) -> None: ...
'''


def range_of(attribute):
    """The range in words, or none where another attribute bounds it."""
    return "" if attribute.most == NO_BOUND else f"{attribute.least:,} to {attribute.most:,}"


def of_type(table, toxic):
    """The attributes of a type."""
    return [attribute for attribute in table.attributes if attribute.toxic == toxic.name]


def class_name(toxic):
    return "".join(word.capitalize() for word in toxic.name.split("_"))


def field_name(attribute):
    """`from` is a word of Python."""
    return attribute.name + ("_" if attribute.name == "from" else "")


def sentence(attribute):
    """What an attribute does, its unit and its range."""
    told = f", {range_of(attribute)}" if range_of(attribute) else ""
    needed = "; it has to be given" if attribute.required else ""
    return f"{attribute.words}. In {attribute.unit}{told}{needed}."


def python_attribute(attribute):
    return f"    `{field_name(attribute)}`: {sentence(attribute)}"


def python_default(attribute):
    return "REQUIRED" if attribute.required else attribute.default


def python_parameter(attribute):
    default = "" if attribute.required else f" = {attribute.default}"
    return f"            {field_name(attribute)}: int{default},"


def python_signature(table, toxic):
    """The signature of a type that has attributes which have to be given. The others need none."""
    attributes = of_type(table, toxic)
    if not any(attribute.required for attribute in attributes):
        return ""
    return SIGNATURE.format(parameters="\n".join(map(python_parameter, attributes)))


def python_class(table, toxic):
    return CLASS.format(
        name=class_name(toxic),
        words=toxic.words[0].upper() + toxic.words[1:],
        attributes="\n".join(python_attribute(attribute) for attribute in of_type(table, toxic)),
        type=toxic.name,
        fields="\n".join(f"    {field_name(attribute)}: int = {python_default(attribute)}" for attribute in of_type(table, toxic)),
    ) + python_signature(table, toxic)


def python_toxics(table):
    """The file of the Python package with a class for each type."""
    names = ["Stream", "Toxic", "Toxicity"] + [class_name(toxic) for toxic in table.toxics]
    max_ms = max(attribute.most for attribute in table.attributes if attribute.unit == "milliseconds")
    return HEAD.format(names=", ".join(f'"{name}"' for name in sorted(names)), max_ms=max_ms) + "".join(python_class(table, toxic) for toxic in table.toxics)


def attributes(table):
    """The rows of the attributes of all types."""
    yield ("Type", "Attribute", "What it does", "In", "Range", "Absent")
    yield ("---",) * 6
    for attribute in table.attributes:
        default = "" if attribute.required else str(attribute.default)
        yield (f"`{attribute.toxic}`", f"`{attribute.name}`", attribute.words, attribute.unit, range_of(attribute), default)


def option_name(argument):
    shown = f"--{argument.name} {argument.value}" if argument.option else argument.value
    return f"`{shown.rstrip()}`"


def absence(argument):
    """What holds without an argument."""
    if argument.required:
        return "must be given"
    if argument.unless:
        return "must be given, or " + ", ".join(f"`--{name}`" for name in argument.unless)
    return argument.default


def option_row(command, argument):
    values = argument.range or " or ".join(argument.values)
    return (command, option_name(argument), argument.words, values, absence(argument), argument.environment and f"`{argument.environment}`")


def options(table):
    """The rows of the options of all commands."""
    yield ("Command", "Option", "What it is", "Range", "Default", "Environment")
    yield ("---",) * 6
    for option in table.options:
        if option.shared:
            yield option_row("every command", option)
    for command in table.commands:
        own = [argument for argument in [*command.options, *command.places] if not argument.shared]
        for place, argument in enumerate(own):
            yield option_row("" if place else f"`{command.name}`", argument)


def linked(words):
    """Advice with the links of the documents."""
    for text, page in LINKS.items():
        words = words.replace(text, f"[{text}]({page})")
    return words


def faults(table):
    """The rows of all faults."""
    yield ("Code", "Name", "Then", "What it means", "What to do")
    yield ("---",) * 5
    for fault in table.faults:
        yield (fault.code, fault.name, fault.subject, fault.means, linked(fault.advice))
