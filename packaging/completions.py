#!/usr/bin/env python3
"""Prints the completions of a shell for a program, from its own table of arguments."""
import argparse

import bash_completions
import fish_completions
import zsh_completions
from argument_table import table_of

SHELLS = {"bash": bash_completions, "zsh": zsh_completions, "fish": fish_completions}


def main() -> None:
    parser = argparse.ArgumentParser(description=__doc__)
    parser.add_argument("program", metavar="PROGRAM", help="the path of the program")
    parser.add_argument("shell", choices=SHELLS, help="the shell that reads them")
    arguments = parser.parse_args()
    print(SHELLS[arguments.shell].completions(table_of(arguments.program)), end="")


if __name__ == "__main__":
    main()
