"""The completions of zsh."""
from typing import Iterable, List, Tuple

from argument_table import Argument, Command, Table

# Words of the table stand in place of @types@ and its like.
TOXICS = r"""# A toxic: its type, and behind a colon its keys with their numbers.
_toxi_toxics() {
    local type=${PREFIX%%:*}
    local -a types keys
    if ! compset -P 1 '*:'; then
        types=(@types@
        )
        _describe -t toxics toxic types -qS :
        return
    fi
    case $type in
@keys@
    esac
    _values -s , "key of $type" "${(@)^keys}:number: "
}
"""

MAIN = r"""_toxi() {
    local context state state_descr line
    typeset -A opt_args
    @program@
    case $state in
    command) _toxi_commands ;;
    argument)
        case $words[1] in
@commands@
        esac
        ;;
    esac
}

_toxi "$@"
"""


def completions(table: Table) -> str:
    types = [(toxic.name, ", ".join(toxic.keys)) for toxic in table.toxics]
    keys = [f"    {toxic.name}) keys=({' '.join(toxic.keys)}) ;;" for toxic in table.toxics]
    commands = [(command.name, command.about) for command in table.commands]
    rows = [row for command in table.commands for row in command_rows(command)]
    program = arguments("-C", table.options, ["'1:command:->command'", "'*::argument:->argument'"])
    return "\n".join(
        [
            f"#compdef {table.name}",
            f"# Completions of {table.name} for zsh.",
            "",
            *described("commands", "command", commands),
            *described("topics", "topic", [(topic.name, topic.about) for topic in table.topics]),
            *described("faults", "fault", [(fault.code, fault.name) for fault in table.faults]),
            TOXICS.replace("@types@", pairs(types)).replace("@keys@", "\n".join(keys)),
            "_toxi_help() {",
            "    _alternative 'commands:command:_toxi_commands' 'topics:topic:_toxi_topics' 'faults:fault:_toxi_faults'",
            "}",
            "",
            MAIN.replace("@program@", program).replace("@commands@", "\n".join(rows)),
        ]
    )


def described(name: str, word: str, words: Iterable[Tuple[str, str]]) -> List[str]:
    """A function that offers words with what they mean."""
    return [f"_toxi_{name}() {{", f"    local -a {name}", f"    {name}=({pairs(words)}", "    )", f"    _describe -t {name} {word} {name}", "}", ""]


def pairs(words: Iterable[Tuple[str, str]]) -> str:
    return "".join("\n        " + quoted(f"{word}:{about}") for word, about in words)


def command_rows(command: Command) -> List[str]:
    places = []
    for place in command.places:
        where = "*" if place.repeatable else "1"
        places.append(quoted(f"{where}:{place.value}:{action(place)}"))
    return [f"        {command.name})", f"            {arguments('', command.options, places)}", "            ;;"]


def arguments(flags: str, options: List[Argument], places: List[str]) -> str:
    """A call of `_arguments`."""
    specs = [spec for option in options for spec in option_specs(option)]
    return f"_arguments {flags}" + "".join(f" \\\n                {spec}" for spec in [*specs, *places])


def option_specs(option: Argument) -> List[str]:
    """The option as `_arguments` has it, in each spelling. One that may not be repeated isn't offered again in another one."""
    about = option.help
    for plain in "\\[]":
        about = about.replace(plain, "\\" + plain)
    before = "*" if option.repeatable else f"({' '.join(option.spellings)})"
    sign, after = ("=", f":{option.value}:{action(option)}") if option.value else ("", "")
    return [quoted(f"{before}{each}{sign}[{about}]{after}") for each in option.spellings]


def action(argument: Argument) -> str:
    """What completes a value."""
    if argument.values:
        return f"({' '.join(argument.values)})"
    return {"file": "_files", "folder": "_files -/", "toxic": "_toxi_toxics", "topic": "_toxi_help"}.get(argument.kind, " ")


def quoted(text: str) -> str:
    return "'" + text.replace("'", "'\\''") + "'"
