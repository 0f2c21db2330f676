"""The completions of bash."""
from shlex import quote
from typing import List

from argument_table import Argument, Command, Table

# Words of the table stand in place of @types@ and its like. `typed` is what is to be completed: the word at the cursor, or what stands behind its
# `--option=`.
FUNCTIONS = r"""# Sets `words` to the words up to the cursor. The shell splits them at each = and : too.
_toxi_words() {
    local rest=${COMP_LINE:0:COMP_POINT} part
    words=()
    for part in "${COMP_WORDS[@]:0:COMP_CWORD}"; do
        _toxi_next_word
        words[-1]+=$part
        rest=${rest#"$part"}
    done
    _toxi_next_word
    words[-1]+=$rest
}

# Begins a word where there is room before it.
_toxi_next_word() {
    local bare=${rest#"${rest%%[![:space:]]*}"}
    [[ $rest == "$bare" && ${#words[@]} -gt 0 ]] || words+=('')
    rest=$bare
}

# Offers the words that begin with what is typed. What readline replaces begins behind the last = or : that splits words.
_toxi_offer() {
    local each tail=${words[-1]}
    [[ $COMP_WORDBREAKS != *=* ]] || tail=${tail##*=}
    [[ $COMP_WORDBREAKS != *:* ]] || tail=${tail##*:}
    for each; do
        [[ $each != "$typed"* ]] || COMPREPLY+=("$tail${each#"$typed"}")
    done
}

# Offers the types of toxics, and behind a type and a colon the keys that aren't there yet.
_toxi_toxic() {
    local type=${typed%%:*} last=${typed##*[:,]} key
    compopt -o nospace
    if [[ $typed != *:* ]]; then
        _toxi_offer @types@
        return
    fi
    [[ $last != *=* ]] || return
    for key in $(_toxi_keys "$type"); do
        [[ $typed == *[:,]"$key"=* ]] || _toxi_offer "${typed%"$last"}$key="
    done
}

# Offers what a value of this kind may be. The shell completes and quotes the names of files itself.
_toxi_value() {
    case $1 in
    file) compopt -o default ;;
    folder) compopt -o dirnames ;;
    toxic) _toxi_toxic ;;
    topic) _toxi_offer @topics@ ;;
    esac
}
"""

MAIN = r"""_toxi() {
    local words typed command= option= options= place= kind= names= each
    COMPREPLY=()
    _toxi_words
    typed=${words[-1]}
    for each in "${words[@]:1:${#words[@]}-2}"; do
        [[ $each == -* ]] || { command=$each; break; }
    done
    if [[ $typed == *[\<\>]* || ${words[-2]} == *[\<\>]* ]]; then
        compopt -o default
        return
    fi
    option=${words[-2]}
    if [[ $typed == --*=* ]]; then
        option=${typed%%=*} typed=${typed#*=}
    fi
    case "$command $option" in
@kinds@
    esac
    if [[ $kind ]]; then
        [[ $kind != names ]] || _toxi_offer $names
        _toxi_value "$kind"
        return
    fi
    case $command in
@commands@
    esac
    if [[ $typed == -* || ! $place ]]; then
        _toxi_offer $options
    else
        _toxi_value "$place"
    fi
}
complete -F _toxi toxi
"""


def completions(table: Table) -> str:
    keys = [f"    {toxic.name}) echo {' '.join(toxic.keys)} ;;" for toxic in table.toxics]
    kinds = [row for command in table.commands for option in command.options for row in kind_rows(command, option)]
    topics = " ".join(topic for topic, _ in table.shown_by_help)
    words = [*(command.name for command in table.commands), *spelled(table.options)]
    rows = [f"    '') options={quote(' '.join(words))} ;;", *(command_row(command) for command in table.commands)]
    return "\n".join(
        [
            f"# Completions of {table.name} for bash.",
            "",
            FUNCTIONS.replace("@types@", " ".join(toxic.name for toxic in table.toxics)).replace("@topics@", topics),
            "# The keys of a type of toxics.",
            "_toxi_keys() {",
            "    case $1 in",
            *keys,
            "    esac",
            "}",
            "",
            MAIN.replace("@kinds@", "\n".join(kinds)).replace("@commands@", "\n".join(rows)),
        ]
    )


def spelled(options: List[Argument]) -> List[str]:
    return [spelling for option in options for spelling in option.spellings]


def kind_rows(command: Command, option: Argument) -> List[str]:
    """The rows of an option with a value: what that is, by the command and each spelling."""
    if not option.value:
        return []
    kind = f"kind=names names={quote(' '.join(option.values))}" if option.values else f"kind={option.kind}"
    return [f"    '{command.name} {spelling}') {kind} ;;" for spelling in option.spellings]


def command_row(command: Command) -> str:
    """The row of a command: its options, and what stands without one. What may not be repeated stands right behind the command."""
    row = f"    {command.name}) options={quote(' '.join(spelled(command.options)))}"
    for place in command.places:
        condition = "" if place.repeatable else f" [[ ${{words[-2]}} != {command.name} ]] ||"
        row += f";{condition} place={place.kind}"
    return f"{row} ;;"
