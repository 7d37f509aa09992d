"""A database on this host for as long as it is needed: one server and its synchronous standby, on free ports of 127.0.0.1.

A commit is answered once both have it on disk. Everything lies in a temporary folder, and ends with this process.
"""
import os
import pwd
import secrets
import shutil
import signal
import socket
import subprocess
import tempfile
import time
from pathlib import Path

import psycopg

from parts import HERE, MISSING, fail

NEEDED = ("initdb", "postgres", "pg_basebackup")
SECONDS_TO_START = 20
PORTS_TRIED = 3
SETTINGS = """
listen_addresses = '127.0.0.1'
unix_socket_directories = ''
wal_level = replica
hot_standby = on
wal_keep_size = 256MB
max_connections = 80
shared_buffers = 64MB
autovacuum_naptime = 10s
"""


def find_binaries():
    """The folder with PostgreSQL's programs: Debian's newest, or that of the path."""
    folders = sorted(Path("/usr/lib/postgresql").glob("*/bin"), key=lambda path: float(path.parent.name), reverse=True)
    folders += [Path(folder) for folder in os.environ.get("PATH", "").split(":") if folder]
    for folder in folders:
        if all(os.access(folder / name, os.X_OK) for name in NEEDED):
            return folder
    fail("PostgreSQL is not here; on Debian it is the package postgresql", MISSING)


def free_port():
    with socket.socket() as one:
        one.bind(("127.0.0.1", 0))
        return one.getsockname()[1]


def children_of(pid):
    """The numbers of the processes that this one started."""
    found = []
    for path in Path("/proc").glob("[0-9]*/stat"):
        try:
            if int(path.read_text().rpartition(")")[2].split()[1]) == pid:
                found.append(int(path.parent.name))
        except OSError:
            pass  # it has ended meanwhile
    return found


class Server:
    def __init__(self, cluster, name):
        self.cluster, self.name = cluster, name
        self.data, self.output = cluster.folder / name, cluster.folder / f"{name}.log"
        self.port, self.process = None, None

    @property
    def target(self):
        return f"host=127.0.0.1 port={self.port} user=fleet connect_timeout=2"

    def start(self):
        """Takes a free port, and another one where somebody was faster."""
        for _ in range(PORTS_TRIED):
            self.port = free_port()
            if self._starts():
                return
        last = self.output.read_text(errors="replace").strip().splitlines()[-3:]
        fail(f"the database server {self.name} did not start: {' / '.join(last)}")

    def _starts(self):
        with open(self.output, "ab") as output:
            self.process = subprocess.Popen([*self.cluster.as_postgres, "--pdeathsig", "INT", self.cluster.binaries / "postgres", "-D", self.data, "-p", str(self.port)],
                                            cwd=self.cluster.folder, env=self.cluster.surroundings, stdin=subprocess.DEVNULL, stdout=output, stderr=output,
                                            start_new_session=True)
        until = time.monotonic() + SECONDS_TO_START
        while time.monotonic() < until and self.process.poll() is None:
            try:
                psycopg.connect(f"{self.target} dbname=postgres").close()
                return True
            except psycopg.OperationalError:
                time.sleep(0.05)
        self.stop()
        return False

    def die(self):
        """As where the machine loses power: all its processes at once, without a word."""
        for pid in [self.process.pid, *children_of(self.process.pid)]:
            try:
                os.kill(pid, signal.SIGKILL)
            except ProcessLookupError:
                pass  # it ended between being found and being killed
        self.process.wait()

    def stop(self):
        if self.process is not None and self.process.poll() is None:
            self.process.send_signal(signal.SIGINT)
            try:
                self.process.wait(20)
            except subprocess.TimeoutExpired:
                self.die()


class Cluster:
    """A context manager; `target` finds the server of the two that takes writes."""

    def __init__(self):
        self.binaries = find_binaries()
        if shutil.which("setpriv") is None:
            fail("setpriv is not here; on Debian it is in the package util-linux", MISSING)
        self.as_postgres = ["setpriv"]
        if os.geteuid() == 0:
            # The server refuses to run as root.
            try:
                pwd.getpwnam("postgres")
            except KeyError:
                fail("there is no user postgres, and as root the database cannot run", MISSING)
            self.as_postgres += ["--reuid", "postgres", "--regid", "postgres", "--init-groups"]
        self.folder = Path(tempfile.mkdtemp(prefix="fleet-"))
        self.servers = []

    def _run(self, *words):
        done = subprocess.run([*self.as_postgres, *words], cwd=self.folder, env=self.surroundings, stdin=subprocess.DEVNULL, capture_output=True, text=True, timeout=60)
        if done.returncode:
            fail(f"{Path(words[0]).name} failed: {done.stderr.strip().splitlines()[-1:]}")

    def _password(self):
        """A password for this cluster alone: other users of the host reach the port too."""
        password = secrets.token_hex(16)
        once, kept = self.folder / "password", self.folder / "passwords"
        for path, text in ((once, password), (kept, f"127.0.0.1:*:*:fleet:{password}\n")):
            path.touch(0o600)
            path.write_text(text)
            if os.geteuid() == 0:
                shutil.chown(path, "postgres", "postgres")
        self.surroundings = {"PATH": f"{self.binaries}:/usr/bin:/bin", "LANG": "C.UTF-8", "PGPASSFILE": str(kept)}
        os.environ["PGPASSFILE"] = str(kept)
        return once

    def __enter__(self):
        try:
            if os.geteuid() == 0:
                shutil.chown(self.folder, "postgres", "postgres")
            password = self._password()
            first, second = Server(self, "first"), Server(self, "second")
            self.servers = [first, second]
            self._run(self.binaries / "initdb", "-D", first.data, "-U", "fleet", "-E", "UTF8", "-A", "scram-sha-256", "--pwfile", password, "--no-sync")
            with open(first.data / "postgresql.conf", "a") as settings:
                settings.write(SETTINGS)
            first.start()
            self._run(self.binaries / "pg_basebackup", "-d", f"{first.target} application_name=standby", "-D", second.data, "-R", "-X", "stream", "-c", "fast", "--no-sync")
            second.start()
            ports = f"{first.port},{second.port}"
            self.target = f"host=127.0.0.1,127.0.0.1 port={ports} dbname=fleet user=fleet target_session_attrs=read-write connect_timeout=2"
            with psycopg.connect(f"{first.target} dbname=postgres", autocommit=True) as link:
                link.execute("create database fleet")
                link.execute("alter system set synchronous_standby_names = 'FIRST 1 (\"standby\")'")
                link.execute("select pg_reload_conf()")
            with psycopg.connect(self.target, autocommit=True) as link:
                link.execute((HERE / "schema.sql").read_text())
            self._wait_for_standby()
        except BaseException:
            self.__exit__()
            raise
        return self

    def _wait_for_standby(self):
        until = time.monotonic() + SECONDS_TO_START
        with psycopg.connect(f"{self.servers[0].target} dbname=fleet", autocommit=True) as link:
            while link.execute("select count(*) from pg_stat_replication where sync_state = 'sync'").fetchone()[0] != 1:
                if time.monotonic() > until:
                    fail("the standby does not follow")
                time.sleep(0.05)

    def fail_over(self):
        """The first server dies, and the standby is made the one that takes writes. On machines of their own patroni does this."""
        self.servers[0].die()
        with psycopg.connect(f"{self.servers[1].target} dbname=postgres", autocommit=True) as link:
            if not link.execute("select pg_promote(true, 30)").fetchone()[0]:
                fail("the standby was not promoted")

    def __exit__(self, *_):
        for server in self.servers:
            server.stop()
        shutil.rmtree(self.folder, ignore_errors=True)
