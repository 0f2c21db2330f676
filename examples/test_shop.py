"""A client's timeout and retry, under pytest. Put your own service and client in place of these two."""
import http.server
import threading
import urllib.request

import pytest

from toxi import Latency, ResetPeer, Rule


@pytest.fixture
def shop():
    """The service under test."""
    with http.server.ThreadingHTTPServer(("127.0.0.1", 0), http.server.SimpleHTTPRequestHandler) as server:
        threading.Thread(target=server.serve_forever, daemon=True).start()
        yield f"127.0.0.1:{server.server_port}"
        server.shutdown()


def get(address, timeout=10):
    """The client under test."""
    with urllib.request.urlopen(f"http://{address}/", timeout=timeout) as answer:
        return answer.status


def test_slow_answer_times_out(toxi, shop):
    served = toxi({"shop": shop}, [Rule("shop", [Latency(latency=2000)])])
    with pytest.raises(OSError, match="timed out"):
        get(served.address("shop"), timeout=0.5)


def test_second_try_works(toxi, shop):
    served = toxi({"shop": shop}, [Rule("shop", [ResetPeer(timeout=0)], last=1)])
    with pytest.raises(OSError):
        get(served.address("shop"))
    assert get(served.address("shop")) == 200
    assert served.wait_for_link("shop", 1).down_end == "reset"
