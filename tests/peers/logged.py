"""The logs of a served case. `toxi replay` judges each one, and it tells what the line of its link tells."""
import os
import re
import subprocess

from .waiting import check

VERDICT = re.compile(r"(faithful|unfinished) (.+) (\d+) (upstream|downstream) in (\d+) out (\d+)(?: (open|closed|reset)[ \d]*)? writes .*")


def verdicts(program, folder):
    """What `replay` says of each log of a folder, by link and stream. None may be unfaithful or ill formed."""
    names = sorted(os.path.join(folder, name) for name in os.listdir(folder))
    done = subprocess.run([program, "replay", "-"], input="".join(f"{name}\n" for name in names), capture_output=True, text=True, check=False)
    lines = done.stdout.splitlines()
    check(done.returncode == 0 and len(lines) == len(names), f"`replay` says {done.stderr} and {lines}")
    found = [VERDICT.fullmatch(line) for line in lines]
    check(all(found), f"`replay` says {lines}")
    return {(int(line[3]), line[4]): line for line in found}


def agree(program, folder, links, may_be_cut):
    """Checks that both streams of each link have a log, which tells the bytes and the end of its line."""
    judged = verdicts(program, folder)
    for number, line in links.items():
        for stream, count, end in (("upstream", line[2], line[3]), ("downstream", line[4], line[5])):
            verdict = judged.get((number, stream))
            if may_be_cut and (verdict is None or verdict[1] == "unfinished"):
                continue
            check(verdict, f"`{line[0]}` has no log of {stream}")
            if end == "broken":
                # A slice is noted once its last byte was taken.
                check(int(verdict[6]) <= int(count), f"`{verdict[0]}`, and the line is `{line[0]}`")
            else:
                told = (verdict[1], verdict[6], verdict[7])
                check(told == ("faithful", count, end), f"`{verdict[0]}`, and the line is `{line[0]}`")
