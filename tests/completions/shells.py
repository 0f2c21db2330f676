"""The shells, each with the completions of a program: what is offered behind a line, and what the line becomes."""
import os
import re
import shlex
import subprocess
from typing import Dict, Set

from terminal import Terminal

ALL = "\x182"
FIRST = "\t"

BASH = """
PS1='> '
bind 'set bell-style none'
bind 'set enable-bracketed-paste off'
show() { printf %s "$READLINE_LINE" >"$ANSWER.new"; mv "$ANSWER.new" "$ANSWER"; READLINE_LINE= READLINE_POINT=0; }
bind -x '"\\C-x1": show'
bind '"\\C-x2": insert-completions'
"""

ZSH = """
PS1='> '
unsetopt beep
autoload -Uz compinit
compinit -D -u
show() { print -rn -- "$BUFFER" >"$ANSWER.new"; command mv "$ANSWER.new" "$ANSWER"; BUFFER= }
zle -N show
bindkey '^X1' show
zle -C all-matches complete-word _generic
bindkey '^X2' all-matches
zstyle ':completion:all-matches::::' completer _all_matches _complete
zstyle ':completion:all-matches:*' insert true
zstyle ':completion:*' accept-exact-dirs true
"""

FISH = """
function fish_prompt; echo '> '; end
function fish_greeting; end
function show; printf %s (commandline | string collect) >$ANSWER.new; command mv $ANSWER.new $ANSWER; commandline ''; end
bind \\cx1 show
"""

STARTS = {"bash": BASH, "zsh": ZSH, "fish": FISH}


class Shell:
    """A shell that is typed into. `all` types what offers all words, and inserts them."""

    def __init__(self, terminal: Terminal):
        self.terminal = terminal

    def completed(self, line: str) -> str:
        """What the line becomes by the tabulator."""
        return self.terminal.edited(line + FIRST)

    def offered(self, line: str) -> Set[str]:
        """The words that are offered in place of the last one."""
        edited = self.terminal.edited(line + ALL)
        if edited == line:
            return set()
        return set(shlex.split(edited)[len(shlex.split(line + "x")) - 1 :])

    def close(self) -> None:
        self.terminal.close()


class Fish(Shell):
    """fish prints what it offers by a command of its own."""

    def __init__(self, terminal: Terminal, file: str, folder: str):
        super().__init__(terminal)
        self.file = file
        self.folder = folder

    def offered(self, line: str) -> Set[str]:
        words = ["fish", "--no-config", "-c", "source $argv[1]; complete -C $argv[2]", self.file, line]
        ran = subprocess.run(words, check=True, stdout=subprocess.PIPE, text=True, cwd=self.folder)
        return {each.split("\t")[0] for each in ran.stdout.splitlines()}


def shell_of(name: str, file: str, folder: str, scratch: str, first: str = "") -> Shell:
    """A shell that has run a first line, has read the completions in a file, and works in a folder."""
    environment: Dict[str, str] = {"PATH": os.environ["PATH"], "HOME": scratch, "TERM": "xterm", "LC_ALL": "C.UTF-8", "ZDOTDIR": scratch}
    # zsh looks for a file of this name.
    start = os.path.join(scratch, ".zshrc")
    read = f"fpath=({os.path.dirname(file)} $fpath)" if name == "zsh" else f"source {file}"
    with open(start, "w", encoding="utf-8") as written:
        written.write("\n".join([first, read, STARTS[name]]))
    command = {
        "bash": ["bash", "--noprofile", "--rcfile", start, "-i"],
        "zsh": ["zsh", "-d", "-i"],
        "fish": ["fish", "--no-config", "-i", "-C", f"source {start}"],
    }[name]
    terminal = Terminal(command, folder, os.path.join(scratch, "answer"), environment)
    return Fish(terminal, file, folder) if name == "fish" else Shell(terminal)
