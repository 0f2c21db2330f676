"""The completions of fish."""
from typing import Iterable, List, Tuple

from argument_table import Argument, Command, Table

# Words of the table stand in place of @types@ and its like.
FUNCTIONS = r"""# Whether this is the command on the line: the first word that is no option. Without a name, whether there is none yet.
function __toxi_has
    set -l words (commandline -opc)
    for word in $words[2..-1]
        if not string match -q -- '-*' $word
            test "$word" = "$argv[1]"
            return
        end
    end
    test -z "$argv[1]"
end

# Whether nothing stands behind the command yet.
function __toxi_has_alone
    __toxi_has $argv[1]; and test (commandline -opc)[-1] = $argv[1]
end

# The types of toxics, and behind a type and a colon the keys that aren't there yet.
function __toxi_toxics
    set -l typed (commandline -ct | string replace -r '^--[\w-]+=' '')
    if not string match -q '*:*' -- $typed
@types@
        return
    end
    # What stands behind a = is a number.
    string match -q -r '=[^,]*$' -- $typed; and return
    set -l begun (string replace -r '[^:,]*$' '' -- $typed)
    for key in (__toxi_keys (string split -m 1 : -- $typed)[1])
        string match -q -r "[:,]$key=" -- $begun; or echo $begun$key=
    end
end

function __toxi_keys
    switch $argv[1]
@keys@
    end
end

function __toxi_topics
@topics@
end

"""


def completions(table: Table) -> str:
    types = [(f"{toxic.name}:", ", ".join(toxic.keys)) for toxic in table.toxics]
    keys = [row for toxic in table.toxics for row in (f"        case {toxic.name}", f"            printf '%s\\n' {' '.join(toxic.keys)}")]
    functions = FUNCTIONS.replace("@types@", f"        {printed(types)}").replace("@keys@", "\n".join(keys)).replace("@topics@", f"    {printed(table.shown_by_help)}")
    lines = [f"# Completions of {table.name} for fish.", "", *functions.split("\n")[:-1], "complete -c toxi -f"]
    for option in table.options:
        lines.append(option_line("", option))
    for command in table.commands:
        lines.append(f"complete -c toxi -n '__toxi_has' -a {command.name} -d {quoted(command.about)}")
    for command in table.commands:
        lines += command_lines(command)
    return "\n".join([*lines, ""])


def printed(words: Iterable[Tuple[str, str]]) -> str:
    """A command that prints words with what they mean."""
    return "printf '%s\\t%s\\n'" + "".join(f" \\\n            {word} {quoted(about)}" for word, about in words)


def command_lines(command: Command) -> List[str]:
    lines = [option_line(command.name, option) for option in command.options]
    for place in command.places:
        condition = f"__toxi_has{'' if place.repeatable else '_alone'} {command.name}"
        lines.append(f"complete -c toxi -n '{condition}'{offered(place)}")
    return lines


def option_line(command: str, option: Argument) -> str:
    short = f" -s {option.short}" if option.short else ""
    value = "" if not option.value else " -r" + offered(option) if option.kind == "file" else " -x" + offered(option)
    condition = f"__toxi_has {command}".rstrip()
    return f"complete -c toxi -n '{condition}'{short} -l {option.name}{value} -d {quoted(option.help)}"


def offered(argument: Argument) -> str:
    """What is offered for a value."""
    if argument.values:
        return f" -a '{' '.join(argument.values)}'"
    kinds = {"file": " -F", "folder": " -a '(__fish_complete_directories)'", "toxic": " -a '(__toxi_toxics)'", "topic": " -a '(__toxi_topics)'"}
    return kinds.get(argument.kind, "")


def quoted(text: str) -> str:
    return "'" + text.replace("\\", "\\\\").replace("'", "\\'") + "'"
