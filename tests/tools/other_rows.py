"""The rows of databases, queues, git and ssh."""
import functools

from programs import git, mariadb, mosquitto, postgres, redis, rsync, ssh
from row import Row, Service, Tool, module, python_client

REDIS = Service("Redis", redis, "redis-server", "/usr/bin/redis-server")
POSTGRES = Service("PostgreSQL", postgres, "postgresql", "/usr/lib/postgresql/*/bin/postgres")
MARIADB = Service("MariaDB", mariadb, "mariadb-server", "/usr/sbin/mariadbd")
MOSQUITTO = Service("Mosquitto", mosquitto, "mosquitto", "/usr/sbin/mosquitto")
GIT_DAEMON = Service("git daemon", git, "git", "/usr/lib/git-core/git-daemon")
RSYNC_DAEMON = Service("rsync daemon", rsync, "rsync", "/usr/bin/rsync")
SSHD = Service("sshd", ssh, "openssh-server", "/usr/sbin/sshd")

REDIS_PY = module("redis", "redis-py", "python3-redis")
REDIS_CLI = Tool("redis-cli", "redis-tools", ("redis-cli", "--version"))
ASYNCPG = module("asyncpg", "asyncpg", "python3-asyncpg")
PSYCOPG2 = module("psycopg2", "psycopg2", "python3-psycopg2")
PSYCOPG = module("psycopg", "psycopg", "python3-psycopg")
PYMYSQL = module("pymysql", "PyMySQL", "python3-pymysql")
# It tells a version of its own before that of MariaDB.
MARIADB_CLIENT = Tool("mariadb", "mariadb-client", ("sh", "-c", "mariadb --version | sed 's/.*Distrib//'"))
MOSQUITTO_PUB = Tool("mosquitto_pub", "mosquitto-clients", ("sh", "-c", "mosquitto_pub --version || test $? = 1"))
GIT = Tool("git", "git", ("git", "--version"))
RSYNC = Tool("rsync", "rsync", ("rsync", "--version"))
SSH = Tool("ssh", "openssh-client", ("ssh", "-V"))

HOST, PORT = "{server.host}", "{server.port}"
# A row whose streams fall silent. One hang is enough, since each run of it takes the whole of `within`.
silent_row = functools.partial(Row, faults=("silent",), within=4.0, max_found=1)
NO_LIMIT = "there is no time limit"
BEHIND_CONNECT = "no time limit holds behind the connect"
KEEP_ALIVE = "its only time limit is the keep-alive of 60 s"
# A query whose answer is a row.
QUERY = "SELECT 7"
# What ssh needs to come in without a question, by the key that the service has made.
SSH_OPTIONS = ("BatchMode=yes", "StrictHostKeyChecking=no", "UserKnownHostsFile=/dev/null", "ConnectTimeout=1", "IdentityFile=key")

ROWS = (
    Row(
        "redis-py-retry",
        REDIS_PY,
        REDIS,
        python_client("redis_retry.py", HOST, PORT),
        "one call counts twice",
        before="redis-cli -h {host} -p {port} del count > /dev/null",
    ),
    silent_row("redis-cli-ping", REDIS_CLI, REDIS, ("redis-cli", "-h", HOST, "-p", PORT, "ping"), NO_LIMIT),
    silent_row("asyncpg-close", ASYNCPG, POSTGRES, python_client("asyncpg_query.py", HOST, PORT), "`close` has no time limit"),
    silent_row("psycopg2-query", PSYCOPG2, POSTGRES, python_client("psycopg_query.py", "psycopg2", HOST, PORT), BEHIND_CONNECT),
    silent_row("psycopg-query", PSYCOPG, POSTGRES, python_client("psycopg_query.py", "psycopg", HOST, PORT), BEHIND_CONNECT),
    silent_row("pymysql-query", PYMYSQL, MARIADB, python_client("pymysql_query.py", HOST, PORT), BEHIND_CONNECT),
    silent_row(
        "mariadb-query",
        MARIADB_CLIENT,
        MARIADB,
        ("mariadb", "--no-defaults", "-h", HOST, "-P", PORT, "-u", "root", "--connect-timeout=1", "-e", QUERY),
        BEHIND_CONNECT,
    ),
    silent_row("mosquitto-pub", MOSQUITTO_PUB, MOSQUITTO, ("mosquitto_pub", "-h", HOST, "-p", PORT, "-t", "shop", "-m", "page", "-q", "1"), KEEP_ALIVE),
    silent_row("git-ls-remote", GIT, GIT_DAEMON, ("git", "ls-remote", "git://{server}/shop"), NO_LIMIT),
    Row(
        "git-clone",
        GIT,
        GIT_DAEMON,
        ("sh", "-c", "rm -rf copy && git clone -q git://{server}/shop copy && git -C copy log --format=%s && cat copy/page"),
        "a cut repository is taken for a whole one",
    ),
    silent_row("rsync-list", RSYNC, RSYNC_DAEMON, ("rsync", "rsync://{server}/shop/"), NO_LIMIT),
    Row(
        "rsync-copy",
        RSYNC,
        RSYNC_DAEMON,
        ("sh", "-c", "rm -rf copy && rsync -q --timeout=1 rsync://{server}/shop/page copy && cat copy"),
        "a cut file is taken for a whole one",
    ),
    silent_row(
        "ssh-command",
        SSH,
        SSHD,
        ("ssh", "-q", "-F", "none", *(word for option in SSH_OPTIONS for word in ("-o", option)), "-p", PORT, HOST, "echo page"),
        BEHIND_CONNECT,
    ),
)
