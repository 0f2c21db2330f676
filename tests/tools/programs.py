"""Servers that are programs of Debian: Redis, PostgreSQL, MariaDB, Mosquitto, the daemons of git and rsync, and sshd. Each keeps its files in a given folder."""
import contextlib
import getpass
import os
import pathlib
import socket
import subprocess
from typing import Sequence

from services import running

# How long a connect to a server may take, in seconds.
PATIENCE = 5
# sshd needs this folder where root starts it.
SSHD_FOLDER = pathlib.Path("/run/sshd")


def _accepts(port: int) -> bool:
    """Whether a server listens at a port."""
    with contextlib.suppress(OSError), socket.create_connection(("127.0.0.1", port), PATIENCE):
        return True
    return False


def _server(command: Sequence[object]) -> contextlib.AbstractContextManager[str]:
    """A program, whose words have its port as `{port}`."""
    return running(lambda port: [str(word).replace("{port}", str(port)) for word in command], _accepts)


def redis(folder: pathlib.Path) -> contextlib.AbstractContextManager[str]:
    return _server(["redis-server", "--port", "{port}", "--bind", "127.0.0.1", "--save", "", "--dir", folder])


def mosquitto(_: pathlib.Path) -> contextlib.AbstractContextManager[str]:
    return _server(["mosquitto", "-p", "{port}"])


def postgres(_: pathlib.Path) -> contextlib.AbstractContextManager[str]:
    """A new database. The tests that start it can be imported only where PostgreSQL is installed."""
    from postgres_tests import postgres as server

    return server()


def mariadb(folder: pathlib.Path) -> contextlib.AbstractContextManager[str]:
    """A new database without passwords."""
    files = ["--no-defaults", f"--user={getpass.getuser()}", f"--datadir={folder}/data"]
    subprocess.run(["mariadb-install-db", *files], check=True, capture_output=True)
    served = ["mariadbd", *files, f"--socket={folder}/socket", f"--pid-file={folder}/pid", "--bind-address=127.0.0.1", "--skip-grant-tables"]
    return _server([*served, "--port={port}"])


def git(folder: pathlib.Path) -> contextlib.AbstractContextManager[str]:
    """A daemon with the repository `shop`, of one commit."""
    shop = folder / "shop"
    subprocess.run(["git", "init", "-q", shop], check=True)
    (shop / "page").write_text("x" * 264, encoding="utf-8")
    for words in (["add", "page"], ["-c", "user.name=Toxi", "-c", "user.email=toxi@localhost", "commit", "-q", "-m", "a page"]):
        subprocess.run(["git", "-C", shop, *words], check=True)
    return _server(["git", "daemon", "--export-all", f"--base-path={folder}", "--listen=127.0.0.1", "--port={port}"])


def rsync(folder: pathlib.Path) -> contextlib.AbstractContextManager[str]:
    """A daemon with the module `shop`, of one file."""
    shop = folder / "shop"
    shop.mkdir()
    (shop / "page").write_text("x" * 264, encoding="utf-8")
    settings = folder / "rsyncd.conf"
    settings.write_text(f"use chroot = no\n[shop]\npath = {shop}\n", encoding="utf-8")
    return _server(["rsync", "--daemon", "--no-detach", "--address=127.0.0.1", "--port={port}", f"--config={settings}"])


def ssh(folder: pathlib.Path) -> contextlib.AbstractContextManager[str]:
    """sshd with a new key, `key` of the folder, which is the host's and the user's."""
    subprocess.run(["ssh-keygen", "-q", "-t", "ed25519", "-N", "", "-f", folder / "key"], check=True)
    if os.geteuid() == 0:
        SSHD_FOLDER.mkdir(exist_ok=True)
    options = {"ListenAddress": "127.0.0.1", "HostKey": folder / "key", "AuthorizedKeysFile": folder / "key.pub", "StrictModes": "no", "PidFile": "none"}
    named = [word for name, value in options.items() for word in ("-o", f"{name}={value}")]
    return _server(["/usr/sbin/sshd", "-D", "-f", "/dev/null", *named, "-p", "{port}"])
