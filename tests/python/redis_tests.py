"""A Redis client under faults, with Debian's python3-pytest, python3-redis and redis-server."""
import concurrent.futures
import time

import pytest
import redis
from services import running

from toxi import Bandwidth, Latency, LimitData, ResetPeer, Rule, Timeout

# Longer than anything here takes on a busy machine, in seconds.
PATIENCE = 20


def answers(port):
    try:
        with redis.Redis(port=port, socket_timeout=PATIENCE) as client:
            return client.ping()
    except redis.ConnectionError:
        return False


@pytest.fixture(scope="session")
def upstream(tmp_path_factory):
    folder = str(tmp_path_factory.mktemp("redis"))
    with running(lambda port: ["redis-server", "--port", str(port), "--bind", "127.0.0.1", "--save", "", "--dir", folder], answers) as address:
        yield address


@pytest.fixture
def shop(toxi, upstream):
    """Starts a proxy before Redis with these toxics. Further options are those of the rule."""

    def start(*toxics, seed=None, **covered):
        options = {} if seed is None else {"seed": seed}
        return toxi({"shop": upstream}, [Rule("shop", toxics, **covered)], **options)

    return start


def client_of(served, timeout=PATIENCE, **options):
    """A client that makes one connection and tries once."""
    host, port = served.address("shop")
    return redis.Redis(host, port, socket_timeout=timeout, **options)


def works(served):
    """Whether a new connection carries a PING."""
    with client_of(served) as client:
        try:
            return client.ping()
        except redis.ConnectionError:
            return False


def test_slow_answer_times_out(shop):
    served = shop(Latency(latency=10_000))
    with client_of(served, timeout=0.3) as client, pytest.raises(redis.TimeoutError):
        client.ping()


def test_reset_raises_connection_error(shop):
    served = shop(ResetPeer(timeout=0))
    with client_of(served) as client, pytest.raises(redis.ConnectionError):
        client.ping()
    assert served.wait_for_link("shop", 1, PATIENCE).down_end == "reset"


def test_answer_is_cut(shop, upstream):
    redis.Redis.from_url(f"redis://{upstream}").set("long", "x" * 1000)
    served = shop(LimitData(bytes=100))
    with client_of(served) as client, pytest.raises(redis.ConnectionError):
        client.get("long")
    assert served.wait_for_link("shop", 1, PATIENCE).down == 100


def test_second_command_hangs(shop):
    served = shop(Timeout(after=len("+PONG\r\n")))
    with client_of(served, timeout=1) as client:
        assert client.ping()
        with pytest.raises(redis.TimeoutError):
            client.ping()
    link = served.wait_for_link("shop", 1, PATIENCE)
    assert (link.down, link.down_end) == (len("+PONG\r\n"), "open")


def test_third_connection_works(shop):
    served = shop(ResetPeer(timeout=0), last=2)
    assert [works(served) for _ in range(3)] == [False, False, True]


def test_client_retries_by_itself(shop):
    from redis.backoff import NoBackoff
    from redis.retry import Retry

    served = shop(ResetPeer(timeout=0), last=2)
    retry = Retry(NoBackoff(), 4)
    with client_of(served, retry=retry, retry_on_error=[redis.ConnectionError]) as client:
        assert client.ping()


def test_same_seed_fails_the_same_links(shop):
    def sequence(seed):
        served = shop(LimitData(bytes=0, toxicity="0.333"), seed=seed)
        return [works(served) for _ in range(30)]

    first = sequence(7)
    assert first == sequence(7)
    assert first != sequence(8)
    assert 3 <= first.count(False) <= 20


def test_large_value_takes_its_time(shop, upstream):
    redis.Redis.from_url(f"redis://{upstream}").set("large", "x" * 300_000)
    served = shop(Bandwidth(rate=500))
    with client_of(served) as client:
        begun = time.monotonic()
        assert len(client.get("large")) == 300_000
        assert time.monotonic() - begun >= 0.6


def test_pool_of_50_connections(shop):
    served = shop(Latency(latency=20))
    host, port = served.address("shop")
    pool = redis.BlockingConnectionPool(host=host, port=port, max_connections=50, timeout=PATIENCE, socket_timeout=PATIENCE)
    client = redis.Redis(connection_pool=pool)
    # 50 connections are held at once.
    held = [pool.get_connection("PING") for _ in range(50)]
    for connection in held:
        pool.release(connection)
    with concurrent.futures.ThreadPoolExecutor(50) as threads:
        assert list(threads.map(lambda n: client.incr(f"count:{n}"), range(50))) == [1] * 50
    pool.disconnect()
    for number in range(1, 51):
        link = served.wait_for_link("shop", number, PATIENCE)
        assert (link.up_end, link.down_end) == ("closed", "closed")
