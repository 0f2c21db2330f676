"""Which crate's edits are tried next."""
import re
import threading

from cores import idle_cores

# What `rt ci` prints of a crate that it has proved.
PROVED = re.compile(r"rt: (\w+) (?:proved|is kept: .*)$")
# Over how many seconds one looks for an idle core, and how much of it must be idle. Beside proofs on all cores an edit would take up to twice the processor
# time, and slow them.
SECONDS = 5
IDLE = 0.8


class Turns:
    """The crates that are left, in the order in which they are to be tried.

    Beside `rt ci`, whose output is `lines`, each is tried once it is proved and a core is idle, and one at a time, for the sake of memory. Once the lines have
    ended, or where there are none, as many are tried as ask.
    """

    def __init__(self, names, lines=None):
        self.left = list(names)
        self.proved = set()
        self.is_beside = lines is not None
        self.has_idle_core = False
        self.taken = 0
        self.changed = threading.Condition()
        if self.is_beside:
            threading.Thread(target=self.follow, args=(lines,), daemon=True).start()
            threading.Thread(target=self.watch_cores, daemon=True).start()

    def follow(self, lines):
        """Takes down what is proved until the lines end."""
        for line in lines:
            found = PROVED.match(line)
            with self.changed:
                self.proved.update(found.groups() if found else ())
                self.changed.notify_all()
        with self.changed:
            self.is_beside = False
            self.changed.notify_all()

    def watch_cores(self):
        """Looks for an idle core until the lines end."""
        while self.is_beside:
            has_idle_core = idle_cores(SECONDS) >= IDLE
            with self.changed:
                self.has_idle_core = has_idle_core
                self.changed.notify_all()

    def can_take(self, name):
        return not self.is_beside or name in self.proved and self.has_idle_core and not self.taken

    def take(self):
        """The next crate, once one can be tried, or None where none is left."""
        with self.changed:
            while self.left:
                name = next(filter(self.can_take, self.left), None)
                if name:
                    self.left.remove(name)
                    self.taken += 1
                    return name
                self.changed.wait()
        return None

    def give_back(self):
        """Says that the edits of a crate were tried."""
        with self.changed:
            self.taken -= 1
            self.changed.notify_all()
