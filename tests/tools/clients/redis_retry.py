"""Counts by redis-py, with one more try after an error of the connection."""
import sys

import redis
from redis.backoff import NoBackoff
from redis.retry import Retry

errors = [redis.ConnectionError, redis.TimeoutError]
host, port = sys.argv[1:]
client = redis.Redis(host, int(port), socket_timeout=1, retry=Retry(NoBackoff(), 1), retry_on_error=errors)
print(client.incr("count"))
