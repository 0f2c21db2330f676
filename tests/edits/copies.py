"""Edits that clash and yet share a check: the first changes its functions, each other one copies of its own under other names. An edit of a constant
changes copies too: of the constant, and of the functions that name it."""
import os
import re

from edits import BLOCK, CONSTANT, files_in, functions_of, item_at, module_of, replaced, text_of, write_text


def apply_all(edits, folder, source):
    """Changes the crate in the folder, a copy of the one in `source`, by edits that can share a check. Returns the functions that each changes, by its
    name."""
    in_place, others = [], []
    for edit in sorted(edits, key=lambda it: it.fits_copy()):
        reaches_others = edit.is_wide() and len(edits) > 1
        (others if reaches_others or any(edit.clashes(it) for it in in_place) else in_place).append(edit)
    for edit in in_place:
        edit.apply(folder)
    # A copy holds texts that the edits in place have changed.
    copies = {edit.name: apply_to_copies(edit, folder, source, number) for number, edit in enumerate(others, 2)}
    return {edit.name: edit.functions for edit in in_place} | copies


def apply_to_copies(edit, folder, source, number):
    """Adds copies of the edit's functions and constants, changed, behind all else in their files, so that other lines keep their numbers. Returns the
    functions' copies."""
    places = dict(zip(edit.places, (file for file, _, _ in edit.changes)))
    constants = {name: file for name, file in places.items() if isinstance(name, str)}
    for name, file in constants.items():
        copy_constant(edit, name, file, folder, source, number)
    return [copy_function(edit, it, constants, folder, source, number) for it in edit.functions]


def changed_at(edit, place, text):
    """The text of a function or a constant with the edit's changes of it."""
    for where, change in zip(edit.places, edit.changes):
        if where == place:
            text = replaced(text, change)
    return text


def copy_constant(edit, name, file, folder, source, number):
    """Adds a changed copy of a constant."""
    text = text_of(source, file)
    item = item_at(text, next(it.start() for it in CONSTANT.finditer(text) if it[1] == name))
    item = changed_at(edit, name, item).replace(name, f"{name}_{number}")
    add_text(folder, file, item)


def add_text(folder, file, text):
    """Adds a text behind all else in a file, but not twice."""
    whole = text_of(folder, file)
    if f"\n{text}\n" not in whole:
        write_text(folder, file, f"{whole}\n{text}\n")


def copy_function(edit, function, constants, folder, source, number):
    """Adds a changed copy of a function, which names the copies of constants of these files, and returns it."""
    name = f"{function.name}_{number}"
    lines = text_of(source, function.file).split("\n")
    text = changed_at(edit, function, "\n".join(lines[function.first - 1 : function.last]))
    for constant, file in constants.items():
        text = re.sub(rf"\b{constant}\b", f"{constant}_{number}", text)
        if file != function.file:
            add_text(folder, function.file, f"use {'::'.join(['crate', *module_of(file), f'{constant}_{number}'])};")
    text = re.sub(rf"\bfn {function.name}\b", f"fn {name}", text, count=1)
    if function.owner:
        text = "\n".join([*head_of_block(lines, function.first), text, "}"])
    add_text(folder, function.file, text)
    copy_proof(function, name, folder, source)
    return next(it for it in functions_of(folder, function.file) if (it.owner, it.name) == (function.owner, name))


def head_of_block(lines, number):
    """The lines that open the block in which a line, from 1, stands, and those that name what its clauses use."""
    first = max(at for at in range(number) if BLOCK.match(lines[at]))
    last = next(at for at in range(first, number) if lines[at].endswith("{"))
    return [*lines[first : last + 1], *(it for it in lines[last:number] if it.startswith("    ghost use "))]


def copy_proof(function, name, folder, source):
    """Copies the files of the function's proof for its copy."""
    for file in files_in(source, "proofs"):
        if function.holds(file, 0):
            place = re.sub(rf"/{function.name}/", f"/{name}/", file)
            os.makedirs(os.path.join(folder, os.path.dirname(place)), exist_ok=True)
            write_text(folder, place, re.sub(rf"\.{function.name}\.", f".{name}.", text_of(source, file)))
