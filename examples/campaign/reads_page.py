"""A client for docs/CAMPAIGNS.md, as a function and as a command: it reads a page, and takes one that is cut in its head for an empty one."""
import http.client
import os
import sys
import urllib.request
from typing import Mapping

# The status of a connection that fails, with which the command may end under a fault.
FAILED = 7


def reads_page(addresses: Mapping[str, object]) -> bytes:
    """The page of the service `shop`. Raises `OSError` or `HTTPException` where the connection fails."""
    with urllib.request.urlopen(f"http://{addresses['shop']}/", timeout=2) as answer:
        page: bytes = answer.read()
        return page


if __name__ == "__main__":
    try:
        sys.exit(0 if reads_page({"shop": os.environ["TOXI_SHOP"]}).endswith(b"</html>\n") else 1)
    except (OSError, http.client.HTTPException):
        sys.exit(FAILED)
