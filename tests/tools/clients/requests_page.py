"""Prints a page by requests, with its time limit and its check of the status."""
import sys

import requests

answer = requests.get(sys.argv[1], timeout=1)
answer.raise_for_status()
sys.stdout.buffer.write(answer.content)
