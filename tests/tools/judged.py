"""Runs a client's command and judges what it says: a tool that succeeds must have the whole answer.

    judged.py ANSWER COMMAND ..

ANSWER is a file with the right standard output, which the first run writes. The status is 0 where the output is right, FAILED where the command itself
fails, which a fault may make it do, and WRONG with a line on standard error where it succeeds with another output.
"""
import pathlib
import subprocess
import sys

WRONG, FAILED = 1, 7
# So much of another answer is told, in bytes.
MAX_TOLD = 60


def mistake(answer: bytes, right: bytes) -> str:
    """What is wrong with an answer, in words."""
    if not answer:
        return "status 0 and no output"
    if right.startswith(answer):
        return f"status 0 and {len(answer):,} of {len(right):,} bytes"
    return f"status 0 and another output: {answer[:MAX_TOLD].decode(errors='replace').strip()} for {right[:MAX_TOLD].decode(errors='replace').strip()}"


def main() -> int:
    path, *command = sys.argv[1:]
    ran = subprocess.run(command, stdout=subprocess.PIPE, check=False)
    if ran.returncode != 0:
        return FAILED
    kept = pathlib.Path(path)
    if not kept.exists():
        kept.write_bytes(ran.stdout)
    right = kept.read_bytes()
    if ran.stdout == right:
        return 0
    print(mistake(ran.stdout, right), file=sys.stderr)
    return WRONG


if __name__ == "__main__":
    sys.exit(main())
