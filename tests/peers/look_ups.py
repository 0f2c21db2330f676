"""Look-ups of an upstream's name that never answer."""
import time

from .registry import start
from .served import Engine
from .shim import environment, with_shim
from .stops import ALWAYS, Stopped
from .waiting import check


@start
@with_shim
def look_up_that_hangs_holds_up_no_other(program, folder):
    """The first look-up of the upstream's name never answers. The next client is served, and by workers the first one with it, whose
    upstream is the same."""
    with Stopped(program, folder, upstream_host="shop.test", env=environment(TOXI_LOOK_UPS_THAT_HANG=1)) as toxi:
        toxi.echo_first_bytes()
        with toxi.client() as first:
            first.sendall(b"a")
            time.sleep(0.2)
            with toxi.client() as second:
                second.sendall(b"b")
                check(second.recv(1) == b"b", "the second client isn't served")
            check(not Engine.workers or first.recv(1) == b"a", "the first client isn't served")
        toxi.tell(limit=ALWAYS)


@start
@with_shim
def look_ups_that_hang_hold_up_no_end(program, folder):
    """All look-ups of the upstream's name hang, and more clients wait than look-ups are made at once. The total comes nevertheless."""
    with Stopped(program, folder, upstream_host="shop.test", env=environment(TOXI_LOOK_UPS_THAT_HANG=1000)) as toxi:
        clients = [toxi.client() for _ in range(40)]
        time.sleep(0.2)
        lines = toxi.tell(limit=ALWAYS)
        check(lines and lines[-1].startswith("total shop "), f"the last lines are {lines[-2:]}")
        for client in clients:
            client.close()
