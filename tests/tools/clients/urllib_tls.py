"""Prints a page by urllib over TLS. The certificate is the test's own, so it isn't checked."""
import ssl
import sys
import urllib.request

context = ssl.create_default_context()
context.check_hostname = False
context.verify_mode = ssl.CERT_NONE
with urllib.request.urlopen(sys.argv[1], timeout=1, context=context) as answer:
    sys.stdout.buffer.write(answer.read())
