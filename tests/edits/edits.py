"""An edit of `must-fail/`, and the functions that it changes."""
import os
import re
from dataclasses import dataclass, field, replace

FUNCTION = re.compile(r"( *)(?:pub(?:\([a-z]+\))? )?(?:const )?(?:unsafe )?fn (\w+)")
CONSTANT = re.compile(r"(?:pub(?:\([a-z]+\))? )?const (\w+):", re.MULTILINE)
BLOCK = re.compile(r"(?:pub )?(?:impl|trait)\b(?:<.*?>)? (?:(?P<trait>.*) for )?&?(?P<type>\w+)")


@dataclass(frozen=True)
class Function:
    """A function of a source file and its lines, from 1, with its attributes, its comment and the last line.

    `owner` is the type of a method, with the words of its trait behind it: the name that the prover gives the block. `body` is the line that opens a
    body of several lines. A copy under another name may stand beside it where it is no method `of_trait`.
    """

    file: str
    owner: str
    of_trait: bool
    name: str
    first: int
    body: int | None
    last: int

    def holds(self, file, line):
        """Whether the line of a file stands in the function, or in a file of its proof.

        That is proofs/MODULE/NAME/FILE, and of a method proofs/MODULE/OWNER/NAME/FILE, where MODULE is that of the type, wherever the method
        stands. The name has a plus sign before it in a cycle of calls. fn/NAME/CLOSURE stands in the name's place for a closure in the function.
        """
        if file == self.file:
            return self.first <= line <= self.last
        before = [".+", self.owner] if self.owner else module_of(self.file)
        place = "/".join(["proofs", *before, rf"(\+?{self.name}|fn/{self.name}/\w+)", r"\w+\.antt"])
        return re.fullmatch(place, file) is not None

    def path(self):
        """The end of the name that the prover gives the function."""
        return "::".join([*([self.owner] if self.owner else module_of(self.file)), self.name])

    def place(self, file):
        """The folder of its proof. The file is that of the type of a method, or its own."""
        return "/".join(["proofs", *module_of(file), *([self.owner] if self.owner else []), self.name])


class BadEdit(Exception):
    """An edit that doesn't fit the files."""


@dataclass
class Edit:
    """`changes` are (file, old, new) in order, and `places` the function or the name of the constant in which each stands, or None. `functions` are
    those in which the changes stand, or that name a changed constant. `in_types` where a change, or a name of a changed constant, stands elsewhere, as in
    a type.
    """

    name: str
    changes: list
    places: list = field(default_factory=list)
    functions: list = field(default_factory=list)
    in_types: bool = False

    def is_wide(self):
        """Whether a change stands outside of functions: then goals of others may fail too."""
        return any(not isinstance(place, Function) for place in self.places)

    def fits_copy(self):
        """Whether copies of its functions can be changed in place of these, with copies of the constants that they name."""
        return not self.in_types and bool(self.functions) and not any(it.of_trait for it in self.functions)

    def apply(self, folder):
        """Changes the files below the folder, or raises BadEdit."""
        for change in self.changes:
            file = change[0]
            write_text(folder, file, replaced(text_of(folder, file), change))

    def unchanged(self):
        """The edit without its changes."""
        return replace(self, changes=[])

    def meets(self, other):
        """Whether the two can't share a check: they clash, or one is wide, and no copy can be changed in its place."""
        if any(it.is_wide() and not it.fits_copy() for it in (self, other)):
            return True
        return self.clashes(other) and not self.fits_copy() and not other.fits_copy()

    def clashes(self, other):
        """Whether the two change one function, or one writes a text that the other changes."""
        one_function = any(function in other.functions for function in self.functions)
        return one_function or self.writes_text_of(other) or other.writes_text_of(self)

    def writes_text_of(self, other):
        """Whether a new text holds a text that the other changes."""
        return any(old in new for _, _, new in self.changes for _, old, _ in other.changes)


def module_of(file):
    """The path of the module that a source file holds."""
    module = file.removeprefix("src/").removesuffix(".rt").split("/")
    return [] if module in (["lib"], ["main"]) else module


def files_in(folder, part):
    """The files of a part of the crate in the folder, by their paths from there."""
    places = os.walk(os.path.join(folder, part))
    return [os.path.relpath(os.path.join(place, name), folder) for place, _, names in places for name in names]


def text_of(folder, file):
    with open(os.path.join(folder, file), encoding="utf-8") as source:
        return source.read()


def write_text(folder, file, text):
    with open(os.path.join(folder, file), "w", encoding="utf-8") as source:
        source.write(text)


def replaced(text, change):
    """The text with a change of its file in it."""
    file, old, new = change
    if text.count(old) != 1:
        raise BadEdit(f"an `old:` text stands in {file} {text.count(old)} times, and not once")
    return text.replace(old, new)


def body_of(lines, number, indent):
    """The lines, from 0, that open and end the body of the function that begins at a line, as `rt fmt` has laid it out. No line opens a body that ends in
    its first line, nor that of a trait's method without one."""
    for at in range(number, len(lines)):
        line = lines[at]
        if line == indent + "{" or line.endswith(" {") and (at == number or line.startswith(indent + ")")):
            return at, lines.index(indent + "}", at)
        if line == indent + "{}" or at == number and line.endswith("}") or line.endswith(";") and lines[at + 1].strip() in ("", "}"):
            return None, at
    return None, number


def functions_of(folder, file):
    """The functions of a source file."""
    lines = text_of(folder, file).split("\n")
    owner, of_trait = None, False
    for number, line in enumerate(lines):
        block, begins = BLOCK.match(line), FUNCTION.match(line)
        if block:
            trait = re.sub(r"\w+::", "", block["trait"] or "")
            owner = block["type"] + "".join(re.findall(r"(?<!')\b\w+", trait))
            of_trait = bool(trait) or block[0].startswith(("trait", "pub trait"))
        if begins:
            body, last = body_of(lines, number, begins[1])
            first = number
            while lines[first - 1].startswith((begins[1] + "#[", begins[1] + "///")):
                first -= 1
            is_method = bool(begins[1])
            yield Function(file, owner if is_method else "", is_method and of_trait, begins[2], first + 1, body and body + 1, last + 1)


def place_of(text, old):
    """Where the text that is changed begins, past its spaces."""
    return text.find(old) + len(old) - len(old.lstrip())


def changed_function(folder, file, line):
    """The innermost function that holds the line of the file, or None."""
    found = [it for it in functions_of(folder, file) if it.holds(file, line)] if file.startswith("src/") else []
    return max(found, key=lambda it: it.first, default=None)


def item_at(text, at):
    """The item of a source file's text that holds this place. A blank line stands between two items."""
    end = text.find("\n\n", at)
    return text[text.rfind("\n\n", 0, at) + 1 : end if end >= 0 else len(text)].strip("\n")


def changed_constant(text, at):
    """The name of the constant whose item holds this place of a text, or None."""
    constant = CONSTANT.search(item_at(text, at))
    return constant and constant[1]


def places_naming(folder, words):
    """The functions of the crate in the folder that name one of these constants, and None where a line outside of them does, but for those that define or
    import it."""
    for file in files_in(folder, "src"):
        functions = list(functions_of(folder, file))
        for number, line in enumerate(text_of(folder, file).split("\n"), 1):
            named = words & set(re.findall(r"\w+", line))
            constant = CONSTANT.match(line)
            if named - {constant and constant[1]} and not line.startswith(("use ", "pub use ", "ghost use ", "//")):
                yield next((it for it in functions if it.first <= number <= it.last), None)


def places_of(folder, changes):
    """For each change the function in which it stands, or the name of the constant whose item it stands in, or None. A later change may find its text
    only where an earlier one has changed another place of that text. Lines stay where they are."""
    texts = {}
    for file, old, new in changes:
        text = texts.get(file) or text_of(folder, file)
        at = place_of(text, old)
        texts[file] = replaced(text, (file, old, new))
        yield changed_function(folder, file, text.count("\n", 0, at) + 1) or changed_constant(text, at)


def read_edit(folder, path):
    """Reads an edit of the crate in the folder."""
    changes, file, old = [], None, None
    with open(path, encoding="utf-8") as lines:
        for line in lines:
            word, _, rest = line.rstrip("\n").partition(":")
            if word == "file":
                file = rest.strip()
            elif word == "old":
                old = rest[1:]
            elif word == "new":
                changes.append((file, old, rest[1:]))
    try:
        places = list(places_of(folder, changes))
    except BadEdit as fault:
        raise BadEdit(f"{path}: {fault}") from fault
    constants = {it for it in places if isinstance(it, str)}
    found = {*places, *(places_naming(folder, constants) if constants else ())} - constants
    functions = sorted(found - {None}, key=Function.path)
    return Edit(os.path.basename(path), changes, places, functions, None in found)


def edits_of(folder):
    """The edits of the crate in the folder, by name. All are read, so that each fits the crate's files, or BadEdit is raised."""
    names = sorted(file for file in files_in(folder, "must-fail") if file.endswith(".edit"))
    return [read_edit(folder, os.path.join(folder, name)) for name in names]


def in_groups(edits):
    """Groups of edits that can share one check. A wide edit that can't change copies has a group of its own, behind the others: it makes anew what a check
    has kept."""
    groups = []
    for edit in sorted(edits, key=Edit.is_wide):
        fitting = (group for group in groups if not any(edit.meets(other) for other in group))
        group = next(fitting, None)
        if group is None:
            groups.append([edit])
        else:
            group.append(edit)
    return groups
