"""Servers of Debian's packages, each in a folder of its own, that run until they are stopped. They listen on a Unix socket, or
on a port of 127.0.0.1 where a program needs one.
"""
import os
import shutil
import signal
import socket
import subprocess
import time
from pathlib import Path

SECONDS = 60
os.environ["PATH"] += os.pathsep + "/usr/sbin"


class Failed(Exception):
    """A server doesn't start, or rejects what it is told."""


def free_port():
    """A free port of 127.0.0.1."""
    with socket.create_server(("127.0.0.1", 0)) as listening:
        return listening.getsockname()[1]


class Process:
    """A server's process: what all kinds have in common."""

    all = []

    def __init__(self, folder):
        self.folder = Path(folder)
        self.process = None
        self.all.append(self)
        self.folder.mkdir(parents=True, exist_ok=True)

    def words(self):
        """The command that starts the server."""
        raise NotImplementedError

    def is_ready(self):
        raise NotImplementedError

    def start(self):
        """Starts the server, and waits until it takes connections."""
        with open(self.folder / "output", "ab") as output:
            self.process = subprocess.Popen(self.words(), stdout=output, stderr=output, start_new_session=True)
        for _ in range(SECONDS * 20):
            if self.process.poll() is not None:
                break
            if self.is_ready():
                return self
            time.sleep(0.05)
        raise Failed(f"{self.words()[0]} didn't start: {(self.folder / 'output').read_text()[-500:]}")

    def stop(self):
        """Stops the server as an administrator does."""
        if self.process:
            self.process.terminate()
            self.process.wait()

    @classmethod
    def stop_all(cls):
        """Stops all that still run, after a fault of the check."""
        for server in cls.all:
            if server.process and server.process.poll() is None:
                server.stop()

    def kill(self):
        """Kills the server by signal 9, with the processes that it started."""
        os.killpg(self.process.pid, signal.SIGKILL)
        self.process.wait()


class Mariadb(Process):
    """A MariaDB server that writes a binary log."""

    def __init__(self, folder, number=1, options=(), port=None):
        super().__init__(folder)
        self.socket, self.number, self.options, self.port = self.folder / "socket", number, list(options), port
        install = ["mariadb-install-db", "--no-defaults", "--user=root", f"--datadir={self.folder}/data", "--skip-test-db"]
        subprocess.run(install + ["--auth-root-authentication-method=normal"], check=True, capture_output=True)

    @staticmethod
    def is_installed():
        return all(map(shutil.which, ["mariadbd", "mariadb", "mariadb-install-db"]))

    def words(self):
        network = ["--bind-address=127.0.0.1", f"--port={self.port}"] if self.port else ["--skip-networking"]
        options = ["--no-defaults", "--user=root", f"--datadir={self.folder}/data", f"--socket={self.socket}", *network]
        options += [f"--log-bin={self.folder}/log", "--binlog-format=ROW", "--binlog-row-metadata=FULL"]
        options += [f"--server-id={self.number}", f"--pid-file={self.folder}/pid", "--log-slave-updates"]
        options += ["--innodb-buffer-pool-size=32M", "--innodb-log-file-size=16M", "--innodb-flush-log-at-trx-commit=1"]
        return [shutil.which("mariadbd"), *options, "--sync-binlog=1", *self.options]

    def is_ready(self):
        return subprocess.run(self.client("SELECT 1"), capture_output=True).returncode == 0

    def client(self, *statements):
        words = ["mariadb", "--no-defaults", "--user=root", f"--socket={self.socket}", "--batch", "--skip-column-names"]
        return [*words, "--default-character-set=utf8mb4", *(["-e", *statements] if statements else [])]

    def ask(self, statements):
        """The rows that the server returns, each a list of texts."""
        told = subprocess.run(self.client(), input=statements, text=True, capture_output=True)
        if told.returncode:
            raise Failed(f"the server rejected a statement: {told.stderr}")
        return [line.split("\t") for line in told.stdout.splitlines()]

    def logs(self):
        """The paths of its logs, in their order."""
        return sorted(self.folder.glob("log.[0-9]*"))


class Postgresql(Process):
    """A PostgreSQL server, of the user postgres if the check runs as root, which the server refuses."""

    def __init__(self, folder):
        super().__init__(folder)
        folders = sorted(Path("/usr/lib/postgresql").glob("*/bin"), key=lambda it: int(it.parent.name))
        self.programs = folders[-1]
        user = ["setpriv", "--reuid=postgres", "--regid=postgres", "--clear-groups", "--"]
        self.as_user = user if os.getuid() == 0 else []
        if self.as_user:
            shutil.chown(self.folder, "postgres")
        words = [self.programs / "initdb", "-D", self.folder / "data", "-U", "postgres", "-A", "trust", "-E", "UTF8", "-N"]
        subprocess.run([*self.as_user, *words], check=True, capture_output=True, cwd="/")

    @staticmethod
    def is_installed():
        return bool(list(Path("/usr/lib/postgresql").glob("*/bin/initdb")))

    def start(self):
        """Starts the server; the processes of one that was killed take a moment to end."""
        for _ in range(20):
            try:
                return super().start()
            except Failed as failed:
                fault = failed
                time.sleep(0.3)
        raise fault

    @property
    def address(self):
        """The words of psycopg2 that connect to it."""
        return f"host={self.folder} user=postgres dbname=postgres"

    def words(self):
        options = ["-D", f"{self.folder}/data", "-k", str(self.folder), "-h", ""]
        return [*self.as_user, str(self.programs / "postgres"), *options]

    def is_ready(self):
        words = ["psql", "-h", self.folder, "-U", "postgres", "-c", "SELECT 1"]
        return subprocess.run(words, capture_output=True, cwd="/").returncode == 0


class Redis(Process):
    """A Redis server that keeps each command on disk."""

    def __init__(self, folder):
        super().__init__(folder)
        self.socket = self.folder / "socket"

    @staticmethod
    def is_installed():
        return bool(shutil.which("redis-server"))

    @property
    def address(self):
        return f"unix://{self.socket}"

    def words(self):
        words = ["redis-server", "--port", "0", "--unixsocket", str(self.socket), "--dir", str(self.folder)]
        return [*words, "--appendonly", "yes", "--appendfsync", "always", "--save", ""]

    def is_ready(self):
        ran = subprocess.run(["redis-cli", "-s", self.socket, "PING"], capture_output=True, text=True)
        return ran.stdout.strip() == "PONG"


class Nats(Process):
    """A NATS server with JetStream, on a port of 127.0.0.1."""

    def __init__(self, folder):
        super().__init__(folder)
        self.port = free_port()

    @staticmethod
    def is_installed():
        return bool(shutil.which("nats-server"))

    @property
    def address(self):
        return f"127.0.0.1:{self.port}"

    def words(self):
        settings = self.folder / "settings"
        settings.write_text(f'listen: "{self.address}"\njetstream {{ store_dir: "{self.folder}/data" }}\n')
        return ["nats-server", "-c", str(settings)]

    def is_ready(self):
        try:
            with socket.create_connection(("127.0.0.1", self.port), 1) as connected:
                return connected.recv(4) == b"INFO"
        except OSError:
            return False
