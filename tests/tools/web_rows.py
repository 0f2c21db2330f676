"""The rows of tools that fetch a page."""
from typing import Any

from row import CLIENTS, PYTHON, Row, Service, Tool, Words, module, python_client
from web import chunked, gzipped, over_tls, with_length

CHUNKS = Service("264 bytes in chunks", chunked)
GZIP = Service("2,112 bytes by gzip, without a length", gzipped)
LENGTH = Service("264 bytes with a length", with_length)
TLS = Service("2,112 bytes over TLS, without a length", over_tls, "openssl", "/usr/bin/openssl")
PAGE, SIZED_PAGE = "http://{server}/", "http://{server}/264"

WGET = Tool("wget", "wget", ("wget", "--version"))
CURL = Tool("curl", "curl", ("curl", "--version"))
REQUESTS = module("requests", "requests", "python3-requests")
HTTPX = module("httpx", "httpx", "python3-httpx")
AIOHTTP = module("aiohttp", "aiohttp", "python3-aiohttp")
URLLIB = Tool("urllib of Python", "python3", (PYTHON, "--version"))
NODE = Tool("Node", "nodejs", ("node", "--version"))
JAVA = Tool("Java", "default-jdk-headless", ("javac", "--version"))
GO = Tool("net/http of Go", "golang-go", ("go", "version"))
OPENSSL = Tool("openssl s_client", "openssl", ("openssl", "version"))

CUT = "a cut page is taken for a whole one"
# It prints what the server answers until the server ends it. The head has a date.
S_CLIENT = "set -o pipefail; printf 'GET / HTTP/1.0\\r\\n\\r\\n' | openssl s_client -quiet -connect {server} | LC_ALL=C sed '1,/^\\r$/d'"


def wget(page: str) -> Words:
    return ("wget", "-q", "-O", "-", "--tries=1", "--timeout=1", page)


def curl(*words: str) -> Words:
    return ("curl", "-s", "-f", "--max-time", "1", *words)


def node(client: str, page: str) -> Words:
    return ("node", str(CLIENTS / client), page)


def java(name: str, client: str) -> Row:
    """A client in Java, which is compiled once."""
    return Row(name, JAVA, LENGTH, ("java", "-cp", ".", client, SIZED_PAGE), CUT, build=("javac", "-d", ".", str(CLIENTS / f"{client}.java")))


def go(name: str, service: Service, limit: str, page: str, wrong: str, **options: Any) -> Row:
    """A client in Go with a time limit in seconds, which is compiled once."""
    build = ("go", "build", "-o", "page", str(CLIENTS / "page.go"))
    return Row(name, GO, service, ("./page", limit, page), wrong, build=build, **options)


ROWS = (
    Row("wget-chunked", WGET, CHUNKS, wget(PAGE), CUT),
    Row("wget-length", WGET, LENGTH, wget(SIZED_PAGE), CUT),
    Row("curl-gzip", CURL, GZIP, curl("--compressed", PAGE), CUT),
    Row("curl-length", CURL, LENGTH, curl(SIZED_PAGE), CUT),
    Row("requests-length", REQUESTS, LENGTH, python_client("requests_page.py", SIZED_PAGE), CUT),
    Row("requests-chunked", REQUESTS, CHUNKS, python_client("requests_page.py", PAGE), CUT),
    Row("httpx-gzip", HTTPX, GZIP, python_client("httpx_page.py", PAGE), CUT),
    Row("httpx-length", HTTPX, LENGTH, python_client("httpx_page.py", SIZED_PAGE), CUT),
    Row("aiohttp-gzip", AIOHTTP, GZIP, python_client("aiohttp_page.py", PAGE), CUT),
    Row("aiohttp-length", AIOHTTP, LENGTH, python_client("aiohttp_page.py", SIZED_PAGE), CUT),
    Row("urllib-tls", URLLIB, TLS, python_client("urllib_tls.py", "https://{server}/"), CUT),
    Row("node-fetch", NODE, GZIP, node("node_fetch.js", PAGE), CUT),
    Row("node-pipe", NODE, LENGTH, node("node_pipe.js", SIZED_PAGE), CUT),
    java("java-connection", "Connected"),
    java("java-client", "Asked"),
    go("go-length", LENGTH, "1", SIZED_PAGE, CUT),
    go("go-gzip", GZIP, "1", PAGE, CUT),
    go("go-default", LENGTH, "0", SIZED_PAGE, "its default client has no time limit", faults=("silent",), within=4.0, max_found=1),
    Row("openssl-s-client", OPENSSL, TLS, ("bash", "-c", S_CLIENT), CUT),
)
