"""A setup from a shell script."""
import re
import shlex
from typing import List, Optional

from .api import perform_call
from .blocks import loop_at, opened, pieces_of
from .cli import perform_command
from .setups import Setup
from .shell import CALL, CLI, Statement, commands_of, statements
from .variables import Variables, assigned, plain_value

SLEEP = "sleep"
# A command whose name is a variable of the shell, with the words of one that `toxiproxy-cli` has.
VARIABLE_CALL = re.compile(r"""(["']?\$\{?\w+\}?["']?)\s+(?:(?:-h|--host)[ =]\S+\s+)?(create|delete|toggle|toxic)\s""")


def read_script(text: str, setup: Setup) -> None:
    """The commands of `toxiproxy-cli`, the calls of its interface, and `sleep`. What they change later is named, and so are commands of a variable."""
    _Reader(setup).read(pieces_of(statements(text)))


class _Reader:
    """Reads the pieces of a script in order, with the variables that are known so far."""

    def __init__(self, setup: Setup) -> None:
        self.setup = setup
        self.variables = Variables()

    def read(self, pieces: List[Statement], depth: int = 0) -> None:
        """Reads pieces that stand in so many blocks which may not run."""
        at = 0
        while at < len(pieces):
            loop = loop_at(pieces, at)
            words = self._words(loop[1]) if loop else None
            if loop is not None and words is not None:
                self._read_loop(loop[0], words, pieces[at + 1 : loop[2]], depth)
                at = loop[2] + 1
                continue
            depth = max(depth + opened(pieces[at].text), 0)
            self._read_piece(pieces[at], depth)
            at += 1

    def _words(self, text: str) -> Optional[List[str]]:
        """The words that a loop goes through. None where the shell computes them."""
        text = self.variables.expanded(text)
        if re.search(r"[$`*?]", text):
            return None
        try:
            return shlex.split(text)
        except ValueError:
            return None

    def _read_loop(self, name: str, words: List[str], body: List[Statement], depth: int) -> None:
        for word in words:
            self.variables.set(name, word)
            self.read(body, depth)

    def _read_piece(self, piece: Statement, depth: int) -> None:
        found = assigned(piece.text)
        if found is not None:
            self.variables.set(found[1], None if depth else plain_value(self.variables.expanded(found[2])))
            return
        self._read_commands(Statement(piece.number, self.variables.expanded(piece.text), self._document(piece)))

    def _document(self, piece: Statement) -> Optional[str]:
        return None if piece.document is None else self.variables.expanded(piece.document)

    def _read_commands(self, piece: Statement) -> None:
        place = self.setup.place(piece.number)
        called = VARIABLE_CALL.search(piece.text)
        if called:
            self.setup.miss(place, f"`{called[1]} {called[2]}`: a variable of the shell isn't known here")
        try:
            commands = commands_of(piece)
        except ValueError:
            if CALL.search(piece.text):
                self.setup.miss(place, "its quotes can't be read")
            self.setup.other_command()
            return
        for command in commands:
            found = command.behind(CLI)
            if found is not None:
                perform_command(found[1], place, self.setup)
            elif not perform_call(command, place, self.setup) and command.words:
                self.setup.other_command()
            slept = command.behind(SLEEP)
            if slept is not None:
                self.setup.sleep(slept[1])
