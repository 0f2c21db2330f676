#!/usr/bin/env python3
"""Runs each planted bug through `toxi serve`, without the Python package: four runs a bug.

    python3 verify.py [--times N] [--jobs N] [--grid] [--toxi PROGRAM] [qNN ..]

Without a fault both clients are right. Under FAULT the bug shows (a wrong answer, an exception that isn't allowed, or a hang), and the mended
client is right or fails as allowed. `--grid` also runs the mended client under 232 other faults an upstream. The status is 0 if all holds.
"""
import argparse
import concurrent.futures
import importlib
import json
import pathlib
import subprocess
import sys
import tempfile
import threading
import time

HERE = pathlib.Path(__file__).parent
sys.path.insert(0, str(HERE))

import shared  # noqa: E402


def _script(faults):
    lines = []
    for fault in faults:
        lines += ["[[rule]]", f'proxy = "{fault.upstream}"', f"first = {fault.first}"]
        lines += [f"last = {fault.last}"] if fault.last is not None else []
        attributes = ", ".join(f"{key} = {value}" for key, value in fault.attributes.items())
        lines += ["[[rule.toxic]]", f'type = "{fault.toxic}"', f'stream = "{fault.stream}"', f"attributes = {{ {attributes} }}"]
    return "\n".join(lines) + "\n"


class Proxies:
    """`toxi serve` before each of the services, under the faults. Entering gives the proxies' addresses."""

    def __init__(self, program, services, faults):
        self.program, self.services, self.faults = program, services, faults

    def __enter__(self):
        self.folder = tempfile.TemporaryDirectory(prefix="planted-")
        config, script = (pathlib.Path(self.folder.name, name) for name in ("proxies.json", "script.toml"))
        config.write_text(json.dumps([{"name": n, "listen": "127.0.0.1:0", "upstream": f"{h}:{p}"} for n, (h, p) in self.services.items()]))
        script.write_text(_script(self.faults))
        command = [self.program, "serve", "--config", config, "--script", script, "--seed", "1", "--workers", "2", "--quiet"]
        self.process = subprocess.Popen(command, stdout=subprocess.PIPE, stderr=subprocess.DEVNULL, text=True)
        addresses = {}
        for _ in self.services:
            _, name, address = self.process.stdout.readline().split()
            host, port = address.rsplit(":", 1)
            addresses[name] = host, int(port)
        return addresses

    def __exit__(self, *_):
        self.process.kill()
        self.process.communicate()
        self.folder.cleanup()


def _outcome(module, client, addresses):
    """Runs a client once. Returns `right`, `allowed ..`, `wrong ..`, `raised ..` or `hang`, and its seconds."""
    getattr(module, "before", lambda: None)()
    told = []

    def run():
        try:
            answer = client(addresses)
            told.append("right" if shared.is_right(module, answer) else f"wrong {answer!r:.60}")
        except module.ALLOWED as error:
            told.append(f"allowed {error!r:.60}")
        except Exception as error:
            told.append(f"raised {error!r:.60}")

    thread = threading.Thread(target=run, daemon=True)
    begun = time.monotonic()
    thread.start()
    thread.join(module.WITHIN)
    return told[0] if told else "hang", time.monotonic() - begun


def _grid(module):
    """Faults that a mended client must bear: each upstream and stream, connection 1, 1 and 2, or all."""
    toxics = [("limit_data", {"bytes": n}) for n in (0, 1, 5, 12, 20, 33, 60, 150, 700)]
    toxics += [("timeout", {"timeout": 0, "after": n}) for n in (0, 1, 7, 30, 200)] + [("reset_peer", {"timeout": 0, "after": n}) for n in (1, 9, 40)]
    toxics += [("latency", {"latency": n}) for n in (100, 170, 220, 300, 400, 550, 900)] + [("reset_peer", {"timeout": 0}), ("slow_close", {"delay": 500})]
    toxics += [("bandwidth", {"rate": 1}), ("slicer", {"average_size": 3, "delay": 20000}), ("slicer", {"average_size": 40, "delay": 100000})]
    places = [(upstream, stream) for upstream in module.SERVICES for stream in ("downstream", "upstream")]
    connections = ((1, 1), (2, 2), (1, 2), (1, None))
    return [shared.Fault(*place, *toxic, *span) for place in places for toxic in toxics for span in connections]


def _failures(name, program, grid):
    """What doesn't hold of one planted bug, and a line on it."""
    module = importlib.import_module(name)
    services = shared.start(module)
    failures, told = [], []

    def run(client, faults, expected):
        with Proxies(program, services, faults) as addresses:
            outcome, seconds = _outcome(module, client, addresses)
        if outcome.split()[0] not in expected:
            failures.append(f"{name}: {client.__name__} under {faults}: {outcome}, {seconds:.2f} s")
        told.append(f"{outcome} {seconds:.2f} s")

    run(module.client, [], ("right",))
    run(module.fixed, [], ("right",))
    run(module.client, [module.FAULT], ("wrong", "raised", "hang"))
    run(module.fixed, [module.FAULT], ("right", "allowed"))
    line = f"{name:22} {' | '.join(told)}"
    for fault in _grid(module) if grid else ():
        run(module.fixed, [fault], ("right", "allowed"))
    return failures, line


def main():
    parser = argparse.ArgumentParser(description=__doc__.splitlines()[0])
    parser.add_argument("--times", type=int, default=1)
    parser.add_argument("--jobs", type=int, default=4)
    parser.add_argument("--grid", action="store_true")
    parser.add_argument("--toxi", default=str(HERE.parents[2] / "toxi"))
    parser.add_argument("names", nargs="*", help="the beginnings of the files' names")
    arguments = parser.parse_args()
    names = [path.stem for path in sorted(HERE.glob("q[0-9]*.py")) if not arguments.names or path.stem.startswith(tuple(arguments.names))]
    failures = []
    for _ in range(arguments.times):
        with concurrent.futures.ProcessPoolExecutor(arguments.jobs, max_tasks_per_child=1) as pool:
            for found, line in pool.map(_failures, names, [arguments.toxi] * len(names), [arguments.grid] * len(names)):
                print(line, *found, sep="\n  ", flush=True)
                failures += found
    print(f"{len(names)} bugs, {arguments.times} times: {len(failures)} failures")
    return 1 if failures else 0


if __name__ == "__main__":
    sys.exit(main())
