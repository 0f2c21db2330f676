"""What the tests of an image, a pod and compose share."""
import os
import unittest

FOLDER = os.path.dirname(os.path.dirname(os.path.abspath(__file__)))
# A network that all tests may use.
NETWORK = "tried"
# The least milliseconds of an answer under the latency of the files, 100 with a jitter of 20.
LEAST = 80


class ContainerCase(unittest.TestCase):
    """Tests with an engine, with the program that the image holds, and with the folder that the image was built of, which main.py sets."""

    engine = None
    program = None
    context = None

    def check_answer(self, printed):
        """What the client of the files prints: an answer that was slow."""
        status, took = printed.split()
        self.assertEqual(status, "200")
        self.assertGreaterEqual(int(took), LEAST)

    def check_totals(self, container, links):
        """A container of Toxi has ended with its totals, of so many links."""
        self.assertEqual(self.engine.status(container), 0)
        self.assertRegex(self.engine.lines(container)[-1], rf"^total \S+ {links} up \d+ down \d+$")
