"""What a check adds to the answers of functions' proofs, in the files in which the prover looks for them."""
import os
import re

from edits import files_in, text_of, write_text

# The answer to the one goal of a body that is left out. It is wrong, which is known at once, where a search takes seconds to find nothing.
WRONG_ANSWER = """use Rattle.{}.Goals as goal

pub unreachable-requires : goal.unreachable-requires
unreachable-requires = tt
"""
# The prover looks for what could be written for each goal that is left, and prints it, which takes up to a third of a check. It doesn't where the function's
# file has an error. This one says nothing of any goal.
ERROR = """
-- Keeps the prover from printing what to write.
error-on-purpose : Unit {0}
error-on-purpose = name-of-nothing
"""
TYPE = re.compile(r"(?:pub(?:\([a-z]+\))? )?(?:struct|enum) (\w+)", re.MULTILINE)


class Answers:
    """The files of answers of the functions of a crate in a folder. A method's stands beside the module of its type."""

    def __init__(self, folder, crate):
        self.folder = folder
        self.crate = crate
        self.types = {name: file for file in files_in(folder, "src") for name in TYPE.findall(text_of(folder, file))}

    def place(self, function):
        """The folder of the function's proof, or None for a method of another crate's type."""
        name = max((it for it in self.types if function.owner.startswith(it)), key=len, default=None)
        if function.owner and not name:
            return None
        return function.place(self.types[name] if function.owner else function.file)

    def answer_wrongly(self, function):
        """Writes the answer of a function without its body."""
        place = self.place(function)
        if place:
            self.write(f"{place}/Answers.antt", WRONG_ANSWER.format(f"{self.crate}/{place}".replace("/", ".")))

    def add_errors(self, functions):
        """Adds an error behind the answers of functions. Returns the line at which it begins in each file."""
        places = (self.place_with_sign(it) for it in functions if not self.has_cycle_attribute(it))
        return dict(self.add_error(f"{it}/Answers.antt") for it in places if it)

    def place_with_sign(self, function):
        """The folder of the function's proof: that of one which calls itself has a plus sign before its name."""
        place = self.place(function)
        if not place:
            return None
        above, name = os.path.split(place)
        signed = f"{above}/+{name}"
        return signed if os.path.isdir(os.path.join(self.folder, signed)) else place

    def has_cycle_attribute(self, function):
        lines = text_of(self.folder, function.file).split("\n")
        return any(line.lstrip().startswith("#[cycle(") for line in lines[function.first - 1 : function.last])

    def add_error(self, file):
        is_there = os.path.isfile(os.path.join(self.folder, file))
        text = text_of(self.folder, file) if is_there else ""
        self.write(file, text + ERROR)
        return file, text.count("\n") + 1

    def write(self, file, text):
        os.makedirs(os.path.join(self.folder, os.path.dirname(file)), exist_ok=True)
        write_text(self.folder, file, text)
