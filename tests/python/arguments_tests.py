"""The command lines of the scripts in `examples` and `packaging`: help, and what can't be read. Needs nothing installed."""
import os
import subprocess
import unittest

ROOT = os.path.dirname(os.path.dirname(os.path.dirname(os.path.abspath(__file__))))
SCRIPTS = ["examples/with-toxi", "examples/from-toxiproxy", *(f"packaging/{name}.py" for name in ("manual", "completions", "notices"))]


class ArgumentsTests(unittest.TestCase):
    def ran(self, script, *words):
        return subprocess.run([os.path.join(ROOT, script), *words], capture_output=True, text=True, check=False)

    def test_each_has_help_and_refuses_what_it_does_not_know(self):
        for script in SCRIPTS:
            shown = self.ran(script, "--help")
            self.assertEqual((shown.returncode, shown.stderr), (0, ""), script)
            self.assertTrue(shown.stdout.startswith(f"usage: {os.path.basename(script)} "), script)
            # A converter takes any number of inputs, but two outputs behind them.
            wrong = ("a", "b") if script.endswith("from-toxiproxy") else ("a", "b", "c", "d")
            for words in ((), wrong, ("--unknown", "a", "b", "c")):
                refused = self.ran(script, *words)
                self.assertEqual((refused.returncode, refused.stdout), (2, ""), (script, words))
                self.assertTrue(refused.stderr.startswith("usage: "), script)

    def test_completions_know_three_shells(self):
        self.assertEqual(self.ran("packaging/completions.py", os.environ["TOXI"], "csh").returncode, 2)
        for shell in ("bash", "zsh", "fish"):
            self.assertIn("serve", self.ran("packaging/completions.py", os.environ["TOXI"], shell).stdout)
