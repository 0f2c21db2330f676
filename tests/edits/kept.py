"""The edits that this run or an earlier one on this machine refused."""
import contextlib
import hashlib
import os

FOLDER = os.path.join(os.environ.get("XDG_CACHE_HOME") or os.path.expanduser("~/.cache"), "toxi", "edits")


def own_programs():
    """What the programs in this folder say."""
    folder = os.path.dirname(os.path.abspath(__file__))
    for name in sorted(os.listdir(folder)):
        if name == "check" or name.endswith(".py"):
            with open(os.path.join(folder, name), "rb") as file:
                yield file.read()


class Kept:
    """A file for each refused edit. Its name is a sum of all that the check read: `stamp` stands for the crate, those below it and the kit."""

    def __init__(self, stamp):
        self.stamp = repr((stamp, list(own_programs())))
        self.refused = set()

    def place(self, edit):
        sum_of_all = hashlib.sha256((self.stamp + repr(edit.changes)).encode())
        return os.path.join(FOLDER, sum_of_all.hexdigest())

    def has(self, edit):
        return edit.name in self.refused or os.path.exists(self.place(edit))

    def add(self, edit):
        self.refused.add(edit.name)
        # Where no file can be written, the next run tries the edit again.
        with contextlib.suppress(OSError):
            os.makedirs(FOLDER, exist_ok=True)
            with open(self.place(edit), "w", encoding="utf-8"):
                pass

    def forget(self, edits):
        for edit in filter(self.has, edits):
            os.remove(self.place(edit))
