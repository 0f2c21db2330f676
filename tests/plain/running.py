"""A run of the program within limits of time and memory, and the form that each run must have."""
import re
import resource
import subprocess

SECONDS = 20
MEMORY = 256 << 20
FAULT = re.compile(r"toxi: (A[1-4]|L[1-4]|W[1-3]|Q[12]|S[1-9]|C[1-8]|P[1-5]|F1|M1|[LWCSPF]0) [A-Za-z0-9]+( [^\n]+)?\n")


class Run:
    """A finished run: its status, and what it printed on standard output and standard error.

    A run that takes more than SECONDS has no status. `memory` is the most address space that it may take.
    """

    def __init__(self, command, given=b"", memory=MEMORY):
        def limit():
            resource.setrlimit(resource.RLIMIT_CORE, (0, 0))
            resource.setrlimit(resource.RLIMIT_AS, (memory, memory))

        try:
            done = subprocess.run(command, input=given, capture_output=True, preexec_fn=limit, timeout=SECONDS)
            self.status, self.printed, self.said = done.returncode, done.stdout, done.stderr.decode()
        except subprocess.TimeoutExpired:
            self.status, self.printed, self.said = None, b"", ""

    def wrong(self):
        """What no run may do, or None."""
        if self.status == 0:
            return "status 0 and a line on standard error" if self.said else None
        if self.status == 1:
            return None if FAULT.fullmatch(self.said) and not self.printed else "status 1 without a fault line alone"
        if self.status == 2:
            return None if self.said.startswith("error: ") and not self.printed else "status 2 without its reason alone"
        return f"not within {SECONDS} s" if self.status is None else f"status {self.status}"

    def answer(self):
        return self.status, self.printed.decode(), self.said
