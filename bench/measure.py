"""Loads, and programs measured in turn."""
import os
import subprocess
import sys
import time

HERE = os.path.dirname(os.path.abspath(__file__))
ROOT = os.path.dirname(HERE)
TOXI = os.path.join(ROOT, "crates", "toxi", "out", "toxi")
INPUT = 16_777_216
WORDS = ["--words", "7,11,250,3,1999,4,123456789"]
FOUR = [
    "latency:latency=10,jitter=5",
    "bandwidth:rate=1000",
    "slicer:average_size=1000,size_variation=500,delay=10",
    "limit_data:bytes=1000000000",
]


def write_load(path, length, room=INPUT):
    """As many arrivals of this length as fit an input of that many bytes, a microsecond apart."""
    data = os.urandom(length).hex()
    micros = 0
    with open(path, "w") as text:
        while True:
            line = f"{micros} data {data}\n"
            if len(line) > room:
                break
            text.write(line)
            room -= len(line)
            micros += 1


def build_plain(folder):
    """The plain Rust program."""
    plain = os.path.join(folder, "plain")
    source = os.path.join(HERE, "plain", "main.rs")
    subprocess.run(["rustc", "--edition", "2024", "-O", "-o", plain, source], check=True)
    return plain


def measure(command, load, output):
    """Seconds and peak bytes of one run."""
    with open(load) as source, open(output, "w") as sink:
        before = time.monotonic()
        child = subprocess.Popen(command, stdin=source, stdout=sink)
        _, status, usage = os.wait4(child.pid, 0)
        seconds = time.monotonic() - before
    child.returncode = os.waitstatus_to_exitcode(status)
    if child.returncode:
        sys.exit(f"{' '.join(command)}: status {child.returncode}")
    return seconds, usage.ru_maxrss * 1024


def measure_in_turn(commands, load, folder, rounds):
    """The least time and the greatest peak of each command. All must print the same."""
    outputs = [os.path.join(folder, f"output{place}") for place in range(len(commands))]
    best = [(float("inf"), 0) for _ in commands]
    for _ in range(rounds):
        for place, command in enumerate(commands):
            seconds, peak = measure(command, load, outputs[place])
            best[place] = (min(best[place][0], seconds), max(best[place][1], peak))
    for output in outputs[1:]:
        if subprocess.run(["cmp", outputs[0], output]).returncode:
            sys.exit(f"the outputs of {commands} differ")
    return best


def compared(first, second):
    """Two measured runs as text, with their ratios."""
    (time_a, peak_a), (time_b, peak_b) = first, second
    return (
        f"{time_a:>7.3f}s {time_b:>7.3f}s {time_a / time_b:>6.2f}"
        f"   {peak_a / 1e6:>6.1f}MB {peak_b / 1e6:>6.1f}MB {peak_a / peak_b:>6.2f}"
    )
