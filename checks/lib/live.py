"""binlog-capture under a workload: what the checks of it and of its targets have in common."""
import contextlib
import os
import random
import signal
import subprocess
import threading
import time
from pathlib import Path

import programs

try:
    import pymysql
except ImportError:
    pymysql = None

CAPTURE = programs.ROOT / "capture/binlog-capture"
BEGIN_SECONDS = 2
TABLE = (
    "CREATE TABLE w.t (id INT PRIMARY KEY AUTO_INCREMENT, name VARCHAR(300), number BIGINT, at DATETIME(3), raw VARBINARY(40))"
)


class Fault(Exception):
    """What isn't as it has to be."""


class Workload(threading.Thread):
    """Random transactions, until it is told to stop; while the server is down it waits."""

    def __init__(self, server, seed, pause=0.0):
        """After each transaction it waits for so many seconds, and now and then a little longer."""
        super().__init__(daemon=True)
        self.pause = pause
        self.server, self.draw, self.is_over, self.transactions = server, random.Random(seed), threading.Event(), 0

    def run(self):
        while not self.is_over.is_set():
            with contextlib.suppress(pymysql.Error, OSError):
                with pymysql.connect(unix_socket=str(self.server.socket), user="root", autocommit=True) as connection:
                    with connection.cursor() as cursor:
                        while not self.is_over.is_set():
                            self.transaction(cursor)
            self.is_over.wait(0.1)

    def values(self, count):
        """Values of so many rows."""
        row = "({}, {}, NOW(3), {})"
        texts = ["NULL", "'a'", "'it''s'", "REPEAT('long ', 40)", "'\"commit\":true}'", "'ünï'"]
        cells = [(self.draw.choice(texts), self.draw.randint(-(2**60), 2**60)) for _ in range(count)]
        return ", ".join(row.format(text, number, "x'0a0d00ff'") for text, number in cells)

    def transaction(self, cursor):
        draw, insert = self.draw, "INSERT INTO w.t (name, number, at, raw) VALUES "
        kind = draw.random()
        if kind < 0.02:
            cursor.execute("FLUSH BINARY LOGS")
        elif kind < 0.03:
            cursor.execute(f"CREATE OR REPLACE TABLE w.other{draw.randint(0, 3)} (a INT)")
        elif kind < 0.6:
            cursor.execute(insert + self.values(draw.choice([1, 1, 2, 20])))
        elif kind < 0.61:
            cursor.execute(insert + self.values(1000))
        elif kind < 0.8:
            cursor.execute(f"UPDATE w.t SET number = number DIV 2 WHERE id % 17 = {draw.randint(0, 16)} LIMIT 40")
        else:
            cursor.execute("BEGIN")
            cursor.execute(insert + self.values(draw.randint(1, 5)))
            cursor.execute(f"DELETE FROM w.t WHERE id % 13 = {draw.randint(0, 12)} LIMIT {draw.randint(1, 30)}")
            cursor.execute("COMMIT" if draw.random() < 0.9 else "ROLLBACK")
        self.transactions += 1
        self.is_over.wait(self.pause + draw.choice([0, 0, 0.001, 0.02]))

    def end(self):
        self.is_over.set()
        self.join()


class Running:
    """binlog-capture, started again as a service is."""

    all = []

    def __init__(self, folder, words):
        self.words = [CAPTURE, "--programs", folder / "bin", "--max-pause", "0.5", *words]
        self.errors, self.kills = folder / "errors", 0
        self.all.append(self)
        self.start()

    def start(self):
        with open(self.errors, "ab") as errors:
            self.process = subprocess.Popen(list(map(str, self.words)), stdout=errors, stderr=errors)
        self.begun = time.monotonic()

    def kill(self):
        """Kills it and starts it again."""
        self.process.kill()
        self.process.wait()
        self.kills += 1
        self.start()

    def kill_follow(self):
        """Kills its child, if it has one now."""
        with contextlib.suppress(OSError, IndexError, ValueError):
            children = Path(f"/proc/{self.process.pid}/task/{self.process.pid}/children").read_text().split()
            os.kill(int(children[0]), signal.SIGKILL)
            self.kills += 1

    @classmethod
    def close_all(cls):
        """Ends all that still run, after a fault of the check."""
        for running in cls.all:
            running.process.kill()
            running.process.wait()

    def end(self):
        """Ends it as an administrator does, once it has had time to begin: before that a signal just kills it."""
        time.sleep(max(0, self.begun + BEGIN_SECONDS - time.monotonic()))
        self.process.terminate()
        if self.process.wait(30):
            raise Fault(f"ended with status {self.process.returncode}: {self.errors.read_text()[-600:]}")


def json_lines(folder, logs):
    """What `binlog-changes json` prints of each log: a killed server leaves logs that don't lead to the next one."""
    how = {"stdout": subprocess.PIPE, "stderr": subprocess.DEVNULL}
    return b"".join(subprocess.run([folder / "bin/binlog-changes", "json", log], **how).stdout for log in logs)
