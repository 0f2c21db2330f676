"""Prints a page by httpx, with its time limit and its check of the status."""
import sys

import httpx

answer = httpx.get(sys.argv[1], timeout=1)
answer.raise_for_status()
sys.stdout.buffer.write(answer.content)
