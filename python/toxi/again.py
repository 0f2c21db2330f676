"""What `again.sh` runs: the test of what was found, at the upstreams that its arguments name."""
import argparse
from pathlib import Path
from typing import Callable, Mapping, Optional

from ._search.services import absent_services
from .client_arguments import named_upstream
from .errors import ToxiError
from .rerunning import upstreams_of

ABOUT = "Runs the client again under script.toml, and fails until it is mended. The status is 2 where nobody listens at an upstream."


def run_again(test: Callable[[Mapping[str, str]], object], folder: Path, times: int) -> Optional[str]:
    """Calls a test with the upstreams of a folder, or those of the command line. Returns what is wrong, for `sys.exit`, or None.

    An upstream that nobody listens at, and one that the folder doesn't name, end the program with status 2.
    """
    parser = argparse.ArgumentParser(prog="again.sh", description=ABOUT, allow_abbrev=False)
    parser.add_argument("upstreams", metavar="NAME=HOST:PORT", nargs="*", type=named_upstream, help="where a service is now; else it is where it was")
    given = dict(parser.parse_args().upstreams)
    known = upstreams_of(folder)
    unknown = sorted(given.keys() - known.keys())
    if unknown:
        parser.error(f"no upstream {unknown[0]!r}; there are {', '.join(known)}")
    upstreams = {**known, **given}
    absent = "".join(f"nobody listens at {upstream}, the upstream {name!r}: {why}\n" for name, upstream, why in absent_services(upstreams))
    if absent:
        parser.exit(2, absent)
    try:
        test(upstreams)
    except (AssertionError, ToxiError) as wrong:
        return str(wrong)
    print(f"right in {times} of {times} runs under script.toml")
    return None
