"""Where the lines go: a file, which is kept to whole transactions, or a command that says what it has."""
import contextlib
import fcntl
import json
import os
import subprocess
import threading
import zlib

from .faults import Final, Stuck
from .server import NOWHERE, Place

TAIL, CHUNK, MARK = 1 << 20, 1 << 16, 4096
BEGINNINGS = (b'{"type":"', b'{"ts":')  # of lines, and of those with --transactions
END_SECONDS = 60


def write_whole(path, text):
    """Replaces a file by one with this text, which is never seen in part."""
    beside = f"{path}.new"
    with open(beside, "w", encoding="utf-8") as file:
        file.write(text)
        file.flush()
        os.fsync(file.fileno())
    os.replace(beside, path)


def write_all(number, data):
    """Writes all bytes to a file descriptor."""
    rest = memoryview(data)
    while rest:
        rest = rest[os.write(number, rest) :]


class State:
    """What isn't in the lines, in a file beside the output: how far quiet logs were read, all GTIDs, and the server."""

    def __init__(self, path):
        self.path, self.kept = path, {}
        with contextlib.suppress(FileNotFoundError, ValueError):
            self.kept = json.loads(open(path, encoding="utf-8").read()) if path else {}
        self.kept = self.kept if isinstance(self.kept, dict) else {}

    def save(self, **members):
        made = {**self.kept, **members}
        if made != self.kept:
            self.kept = made
            if self.path:
                write_whole(self.path, json.dumps(made) + "\n")

    def place(self):
        """The place that was saved, or nowhere."""
        found = self.kept.get("file"), self.kept.get("position"), self.kept.get("gtids")
        return Place(*found) if isinstance(found[0], str) and isinstance(found[1], int) else NOWHERE


class Output:
    """A file of JSON lines. What it has decides where reading goes on; the state only adds what lines don't say."""

    def __init__(self, path, kept_program):
        self.path, self.kept_program = path, kept_program
        self.number = self.open()
        self.state = State(f"{path}.state")
        self.length, self.whole, self.kept = 0, 0, NOWHERE

    def open(self):
        """Opens the file, which nobody else may write."""
        try:
            number = os.open(self.path, os.O_RDWR | os.O_CREAT, 0o644)
            fcntl.flock(number, fcntl.LOCK_EX | fcntl.LOCK_NB)
            return number
        except BlockingIOError:
            raise Final(f"{self.path}: another binlog-capture writes it", 3) from None
        except OSError as error:
            raise Final(f"{self.path}: {error.strerror}", 3) from error

    def rotate(self, place, last):
        """Moves the file away, and begins another one after the same place. The state has the place before the file is gone."""
        found = {"file": place.file, "position": place.position, "gtids": place.gtids, "last": list(last[:2])}
        try:
            os.fsync(self.number)
            self.state.save(length=0, mark=0, **found)
            os.rename(self.path, f"{self.path}.{last.file}.{last.position:010}")
        except OSError as error:
            raise Stuck(f"{self.path}: {error.strerror}") from error
        before, self.number = self.number, self.open()
        os.close(before)
        self.length = self.whole = 0

    def resume(self):
        """Removes what follows the last whole transaction; returns the place after it, or nowhere."""
        self.length, file, position = self.find_end()
        self.whole, self.kept = self.length, Place(file, position, None) if file else NOWHERE
        os.ftruncate(self.number, self.length)
        os.lseek(self.number, self.length, os.SEEK_SET)
        if self.is_of_state():
            if not self.length and self.state.kept.get("last"):
                self.kept = Place(*self.state.kept["last"], None)
            return self.state.place()
        return self.kept

    def earlier(self):
        """Where reading has to begin again, if the last line says that this is before the end of its transaction; else None."""
        line = self.last_line()
        file, _, position = json.loads(line).get("resume", "").rpartition(":") if line else ("", "", "")
        return Place(file, int(position), None) if file else None

    def last_line(self):
        """The last line that is kept; no bytes if there is none."""
        start, line = self.length, b""
        while start > 0 and b"\n" not in line[:-1]:
            before = max(0, start - CHUNK)
            line = os.pread(self.number, start - before, before) + line
            start = before
        return line[line.rfind(b"\n", 0, -1) + 1 :]

    def find_end(self):
        """What `binlog-kept` finds: the length to keep, the log and the position. It gets the end of the file first, from the
        beginning of a line on, and more of it if that has no whole transaction.
        """
        size, span = os.fstat(self.number).st_size, TAIL
        while True:
            start = self.line_start(max(0, size - span))
            os.lseek(self.number, start, os.SEEK_SET)
            ran = subprocess.run([self.kept_program, "--json"], stdin=self.number, stdout=subprocess.PIPE, text=True)
            if ran.returncode:
                raise Final(f"{self.path} isn't output of binlog-changes, or can't be read", 3)
            length, position, file = ran.stdout.rstrip("\n").split(" ", 2) if ran.stdout.count(" ") > 1 else ("0", "4", "")
            if int(length):
                return start + int(length), file, int(position)
            if start == 0:
                self.check_beginning(size)
                return 0, file, int(position)
            span *= 8

    def check_beginning(self, size):
        """Ends the run if a file without a whole transaction isn't the beginning of one: another file isn't to be emptied."""
        head = os.pread(self.number, max(map(len, BEGINNINGS)), 0)
        if size and not any(it.startswith(head[: len(it)]) for it in BEGINNINGS):
            raise Final(f"{self.path} isn't output of binlog-changes", 3)

    def line_start(self, offset):
        """The beginning of the first line at this offset or after it."""
        if offset == 0:
            return 0
        offset -= 1
        while chunk := os.pread(self.number, CHUNK, offset):
            found = chunk.find(b"\n")
            if found >= 0:
                return offset + found + 1
            offset += len(chunk)
        return offset

    def mark(self, length):
        """A checksum of the bytes before an offset."""
        return zlib.crc32(os.pread(self.number, min(MARK, length), max(0, length - MARK)))

    def is_of_state(self):
        """Whether the state was saved when the output had exactly these bytes."""
        kept = self.state.kept
        return kept.get("length") == self.length and kept.get("mark") == self.mark(self.length)

    def lines_after_state(self):
        """The lines after those that the state knows; all of them if it knows others."""
        with open(self.path, "rb") as file:
            file.seek(self.state.kept["length"] if self.knows_beginning() else 0)
            while file.tell() < self.length:
                yield file.readline()

    def knows_beginning(self):
        """Whether the state is of a beginning of this output."""
        length = self.state.kept.get("length")
        return isinstance(length, int) and length <= self.length and self.state.kept.get("mark") == self.mark(length)

    def write(self, lines, is_whole):
        """Appends lines: whole transactions, or the beginning of one that is long. If that fails, for example on a full disk,
        what was written is removed again.
        """
        try:
            write_all(self.number, lines)
        except OSError as error:
            with contextlib.suppress(OSError):
                os.ftruncate(self.number, self.length)
                os.lseek(self.number, self.length, os.SEEK_SET)
            raise Stuck(f"{self.path}: {error.strerror}") from error
        self.length += len(lines)
        self.whole = self.length if is_whole else self.whole

    def sync(self):
        """Makes the output durable."""
        try:
            os.fsync(self.number)
        except OSError as error:
            raise Stuck(f"{self.path}: {error.strerror}") from error

    def save(self, place, _written, **members):
        """Makes the output durable, and then saves how far it goes."""
        try:
            os.fsync(self.number)
            found = {"file": place.file, "position": place.position, "gtids": place.gtids}
            self.state.save(length=self.whole, mark=self.mark(self.whole), **found, **members)
        except OSError as error:
            raise Stuck(f"{self.path}.state: {error.strerror}") from error

    def stop(self):
        """Nothing waits in a file."""

    def close(self):
        os.close(self.number)


class Receiver:
    """A command that takes the lines on its standard input, and prints a JSON object with `file` and `position` of what it has:
    first at its start, then after each commit. It begins anew with each connection.
    """

    def __init__(self, command, state_path):
        self.command, self.state = command, State(state_path)
        self.process, self.reader, self.on_end = None, None, None
        self.place = self.kept = NOWHERE

    def resume(self):
        """Starts the command, and returns the place that it has."""
        self.finish()
        try:
            self.process = subprocess.Popen(self.command, stdin=subprocess.PIPE, stdout=subprocess.PIPE, start_new_session=True)
        except OSError as error:
            raise Final(f"{self.command[0]}: {error.strerror}", 2) from error
        self.place = self.place_in(self.process.stdout.readline())
        if self.place is None:
            status = self.end_status()
            kind = Final if status in (2, 126, 127) else Stuck
            raise kind(f"{self.command[0]} didn't say what it has, and ended with status {status}")
        self.kept = self.place
        self.reader = threading.Thread(target=self.read, daemon=True)
        self.reader.start()
        return self.state.place() if self.state.kept.get("after") == list(self.place[:2]) else self.place

    def place_in(self, line):
        """The place that a line of the command says; None if it isn't one."""
        try:
            found = json.loads(line)
            return Place(found.get("file"), found.get("position"), found.get("gtid"))
        except (ValueError, AttributeError):
            return None

    def read(self):
        """Takes what the command has, until it ends."""
        for line in self.process.stdout:
            self.place = self.place_in(line) or self.place
        if self.on_end:
            self.on_end()

    def earlier(self):
        """What a command has doesn't say where reading would have to begin again."""

    def lines_after_state(self):
        return ()

    def knows_beginning(self):
        return True

    def write(self, lines, _is_whole):
        try:
            write_all(self.process.stdin.fileno(), lines)
        except OSError:
            raise Stuck(f"{self.command[0]} ended with status {self.end_status()}") from None

    def save(self, place, written, **members):
        """Saves how far logs were read, if the command has all that was written, and only for as long as it has nothing more."""
        has = self.place
        if not written.file or written[:2] == has[:2]:
            gtids = place.gtids or self.state.kept.get("gtids")
            self.state.save(file=place.file, position=place.position, gtids=gtids, after=list(has[:2]), **members)

    def end_status(self):
        """The status of the command, which gets no more lines. It is killed if it doesn't end in a minute."""
        with contextlib.suppress(OSError):
            self.process.stdin.close()
        try:
            return self.process.wait(END_SECONDS)
        except subprocess.TimeoutExpired:
            self.process.kill()
            return self.process.wait()

    def stop(self):
        """Ends a command that hasn't said yet what it has."""
        if self.process and not self.reader:
            self.process.terminate()

    def finish(self):
        """Waits until the command has taken all lines and ended."""
        if self.process:
            self.end_status()
            if self.reader:
                self.reader.join()
            self.process.stdout.close()
            self.process, self.reader = None, None

    def close(self):
        self.finish()
