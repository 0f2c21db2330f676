"""What a measurement begins and ends with."""
import os
import signal
import sys
import tempfile


def tell_load():
    print(f"load of the machine at the start: {os.getloadavg()[0]:.1f} on {os.cpu_count()} cores", flush=True)


def end_group():
    """Ends whatever else runs in the group, and waits for it."""
    signal.signal(signal.SIGTERM, signal.SIG_IGN)
    os.killpg(0, signal.SIGTERM)
    try:
        while True:
            os.wait()
    except ChildProcessError:
        return


def run(main):
    """Calls it with a fresh folder, in a process group of its own. What it leaves behind goes, also after a failure."""
    if os.getpgrp() != os.getpid():
        os.setpgrp()
    signal.signal(signal.SIGTERM, lambda *_: sys.exit(1))
    with tempfile.TemporaryDirectory() as folder:
        try:
            main(folder)
        finally:
            end_group()
