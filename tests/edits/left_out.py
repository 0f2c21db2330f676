"""Bodies that a check leaves out, since only other functions are tried."""
import os
import re

from edits import files_in, functions_of, text_of

# What a body that is left out says. It is not proved.
NO_BODY = "unreachable!()"
# A constant's value may come from a body.
CONSTANT_FUNCTION = re.compile(r"\bconst fn\b")


def leave_out_bodies(folder, answers, tried):
    """Leaves out the bodies of the crate in the folder, but for those of the tried functions: what these call is known to them by its clauses alone.
    Each line keeps its number. Returns the functions that are left out."""
    files = files_in(folder, "src")
    left = [it for file in files for it in leave_out_of(folder, file, tried)]
    for file in files_in(folder, "proofs"):
        if any(it.holds(file, 0) for it in left):
            # What is said of a proof may not fit the function without its body, as where that called itself.
            os.remove(os.path.join(folder, file))
    for function in left:
        answers.answer_wrongly(function)
    return left


def leave_out_of(folder, file, tried):
    """Leaves out the bodies of a file, unless some call each other: these are proved together."""
    lines = text_of(folder, file).split("\n")
    if any(line.lstrip().startswith("#[cycle(") for line in lines):
        return []
    left = [it for it in functions_of(folder, file) if can_be_left_out(it, lines, tried)]
    for function in left:
        for at in range(function.first - 1, function.last - 1):
            if at >= function.body or lines[at].lstrip().startswith("#[tactic("):
                lines[at] = NO_BODY if at == function.body else ""
    with open(os.path.join(folder, file), "w", encoding="utf-8") as source:
        source.write("\n".join(lines))
    return left


def can_be_left_out(function, lines, tried):
    """Whether it has a body of several lines, and none of the tried functions stands in it."""
    has_body = function.body is not None and function.last - function.body > 1
    if not has_body or CONSTANT_FUNCTION.search("\n".join(lines[function.first - 1 : function.body])):
        return False
    return not any(it.file == function.file and function.first <= it.first <= function.last for it in tried)
