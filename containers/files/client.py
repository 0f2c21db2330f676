"""A client, which prints the status of the answer and the milliseconds that it took: `client.py URL`."""
import sys
import time
import urllib.request

PATIENCE = 10

begun = time.monotonic()
status = urllib.request.urlopen(sys.argv[1], timeout=PATIENCE).status
print(status, int((time.monotonic() - begun) * 1000))
