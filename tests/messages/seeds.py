"""The seed that `serve --any-seed` draws."""
import re
import subprocess

PATIENCE = 60
PROXY = ["serve", "--listen", "localhost:0", "--upstream", "localhost:1", "--links", "1"]
TOLD = re.compile(r"toxi: seed (\d+)\n")


def refusal(program, *seed):
    """How a command line with these options is refused."""
    ran = subprocess.run([program, *PROXY, *seed], stdin=subprocess.DEVNULL, capture_output=True, timeout=PATIENCE, encoding="utf-8", check=False)
    return ran.returncode, ran.stdout, ran.stderr.split("\n")[0]


def drawn(program):
    """The seed that a start draws and tells."""
    with subprocess.Popen([program, *PROXY, "--any-seed"], stdin=subprocess.DEVNULL, stdout=subprocess.PIPE, stderr=subprocess.PIPE, encoding="utf-8") as served:
        try:
            found = TOLD.fullmatch(served.stderr.readline())
            listening = served.stdout.readline()
        finally:
            served.kill()
    assert found and int(found[1]) < 2**64, "no seed"
    assert listening.startswith("listening default "), listening
    return int(found[1])


def draws_a_seed(program, _folder):
    assert len({drawn(program) for _ in range(3)}) == 3, "a seed came again"


def wants_one_seed(program, _folder):
    assert refusal(program)[:2] == (2, "")
    assert refusal(program, "--seed", "1", "--any-seed")[:2] == (2, "")


CASES = [draws_a_seed, wants_one_seed]
