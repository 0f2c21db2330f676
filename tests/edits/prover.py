"""One check of a crate with edits in it, by the kit's prover, and what it said."""
import os
import re
import shutil
import subprocess
import sys
import tempfile

from answers import Answers
from copies import apply_all
from left_out import leave_out_bodies

KIT_PROGRAMS = os.path.dirname(os.path.realpath(shutil.which("rt") or "rt"))
sys.path.insert(0, KIT_PROGRAMS)
import rtlib  # noqa: E402  (the kit's own library, which knows how a crate of crates.txt is checked)

# The first call sets a signal's handler, which only the main thread may.
GUARDED = rtlib.guarded()

# An unproved goal: a note at the code, or an error in a file of a proof.
NOT_PROVED = re.compile(r"note: (?:\./)?(src/[^:]+):(\d+):\d+: |\./(proofs/[^:]+):(\d+):\d+: error")
# The status of a check that is asked for a function that it can't find.
NO_FUNCTION = 2
LIMIT = re.compile(r"ran out of (stack|the (steps|memory))|(outgrew the memory limit|stopped at the step limit) \(")
# An error in the code or its specs, as in a clause that lacks a name.
MISSTATED = re.compile(r"(?:\./)?(?:src|specs)/\S+:\d+:\d+: error: ")
UNREAD = re.compile(MISSTATED.pattern + "(?!`)")
NOT_COMPILED = re.compile(r".*\berror\[[\w-]+\]")


class Report:
    """What a check said. `changed` has the functions that each edit changed, by its name. `left_out` are those that were checked without their bodies.
    `errors` are the files of proofs that were given an error at their end, each with its line, which says nothing.
    """

    def __init__(self, status, text, changed, left_out, errors):
        self.status = status
        self.changed = changed
        self.left_out = left_out
        self.lines = text.rstrip("\n").split("\n")
        self.refused = status == 1 and self.lines[-1].startswith(("logic=not-proved", "only="))
        self.proved = status == 0
        self.at_limit = status == 3 and any(LIMIT.search(line) for line in self.lines)
        bad = UNREAD if self.refused else NOT_COMPILED
        # A line of an edited text that can't be read, or isn't compiled.
        self.unread = next((line for line in self.lines if bad.match(line)), None)
        found = (NOT_PROVED.match(line) for line in self.lines)
        places = ((it[1] or it[3], int(it[2] or it[4])) for it in found if it)
        # The files and lines at which a goal isn't proved.
        self.places = [(file, line) for file, line in places if file not in errors or line < errors[file]]

    def refuses(self, edit):
        """Whether a goal of a function that the edit changed isn't proved."""
        return any(it.holds(file, line) for it in self.changed[edit.name] for file, line in self.places)

    def tells_of_edits(self):
        """Whether each goal that isn't proved tells of the edit of its function: the check has ended, what it checked is stated well, and no goal elsewhere is
        left."""
        has_ended = self.refused or self.proved
        return has_ended and not any(MISSTATED.match(line) for line in self.lines) and not self.names_others()

    def names_others(self):
        """Whether a goal isn't proved outside of the changed functions and those without their bodies."""
        known = [*(it for functions in self.changed.values() for it in functions), *self.left_out]
        return any(not any(it.holds(file, line) for it in known) for file, line in self.places)


class Prover:
    """Checks copies of one crate of a repository whose libraries are built. What a check proves serves the next one."""

    def __init__(self, root, name):
        self.crate = next(it for it in rtlib.crates_below(root) if it.name == name)
        self.kept = tempfile.mkdtemp(prefix="toxi-edits-")

    def __enter__(self):
        return self

    def __exit__(self, *_):
        shutil.rmtree(self.kept, ignore_errors=True)

    def check(self, edits, every=False, whole=True, offers=True):
        """Checks a copy of the crate with the edits in it: every function, or those that are changed and those that they call. Where it isn't whole, the
        bodies of the others are left out. Without offers no changed function is proved, but what it says of goals stands."""
        report = self.checked(edits, every, whole, offers)
        return self.checked(edits, True, True, offers) if report.status == NO_FUNCTION and not every else report

    def checked(self, edits, every, whole, offers):
        with tempfile.TemporaryDirectory(prefix="toxi-edited-") as copy:
            for part in rtlib.PARTS:
                if os.path.isdir(f"{self.crate.folder}/{part}"):
                    shutil.copytree(f"{self.crate.folder}/{part}", f"{copy}/{part}")
            changed = apply_all(edits, copy, self.crate.folder)
            tried = {it for functions in changed.values() for it in functions}
            answers = Answers(copy, self.crate.name)
            left_out = [] if whole else leave_out_bodies(copy, answers, tried)
            errors = {} if offers else answers.add_errors(tried)
            words = [*self.crate.words(["--jobs", "1"], keeps=False), "--incremental", self.kept]
            if not every:
                words += [word for path in sorted({it.path() for it in tried}) for word in ("--only", path)]
            ran = subprocess.run(
                [*GUARDED, rtlib.RATTLE, "check", *words],
                cwd=copy,
                stdin=subprocess.DEVNULL,
                stdout=subprocess.PIPE,
                stderr=subprocess.STDOUT,
                errors="replace",
                check=False,
            )
        return Report(ran.returncode, ran.stdout, changed, left_out, errors)
