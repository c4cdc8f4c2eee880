"""A run: connection after connection, each from the end of what was written, until it is told to stop."""
import collections
import contextlib
import json
import os
import select
import signal
import subprocess
import sys
import threading
import time

from .acknowledging import Acknowledging
from .faults import Dropped, Final, Stuck
from .gtids import gtids_of
from .output import write_all
from .packets import Packets
from .server import FATAL_READ_ERROR, NOWHERE, Place, Server
from .starts import first_place
from .status import Status

COMMIT, PROGRESS, GAP = b',"commit":true}\n', b'{"type":"progress"', b'{"type":"gap"'
READ_SIZE, PIPE_SIZE, MAX_WAITING = 1 << 18, 1 << 20, 1 << 25
FIRST_PAUSE, TICK, WELL_SECONDS = 0.1, 0.2, 2  # a connection that held so long was well
MAX_STOPS, MAX_UNKNOWN = 4, 10  # how often in sequence follow may stop at one place, and a server may not know the GTIDs


def say(text):
    """Writes a line to standard error; a signal's handler may do it too."""
    os.write(2, f"binlog-capture: {text}\n".encode(errors="replace"))


class Lines:
    """The lines of one connection: finds the whole transactions among them."""

    def __init__(self, by_transaction):
        self.end = b"\n" if by_transaction else COMMIT
        self.waiting, self.searched = bytearray(), 0

    def push(self, data):
        """Takes bytes; returns the whole transactions and the lines between them. The others wait."""
        waiting = self.waiting
        waiting += data
        found = waiting.rfind(self.end, max(0, self.searched - len(self.end)))
        at = found + len(self.end) if found >= 0 else 0
        while waiting.startswith((PROGRESS, GAP), at) and (after := waiting.find(b"\n", at) + 1):
            at = after
        return self.take(at)

    def take(self, at):
        taken = bytes(memoryview(self.waiting)[:at])
        del self.waiting[:at]
        self.searched = len(self.waiting)
        return taken

    def part(self):
        """The whole lines of a transaction that is too long to wait for its end."""
        return self.take(self.waiting.rfind(b"\n") + 1) if len(self.waiting) > MAX_WAITING else b""


class Capture:
    def __init__(self, options, sink, login, programs):
        self.options, self.sink, self.login, self.programs = options, sink, login, programs
        self.stopping, self.server, self.status = threading.Event(), None, Status()
        self.turn, self.place, self.written, self.gtids, self.last_line = 0, NOWHERE, NOWHERE, None, b""
        self.passed, self.logs = collections.deque(), {}
        self.reports_progress = self.knows_progress()
        self.next_tick = self.next_save = self.next_metrics = 0.0
        self.is_saved, self.pump_fault, self.stops, self.skipped = True, None, 0, None
        sink.on_end = self.hang_up

    def knows_progress(self):
        """Whether this binlog-changes can say how far it read, which matters if it selects changes."""
        ran = subprocess.run([self.programs.changes, "follow", "--help"], stdout=subprocess.PIPE, stderr=subprocess.STDOUT)
        return b"--progress" in ran.stdout

    def stop(self, *_):
        self.stopping.set()
        self.sink.stop()
        self.hang_up()

    def hang_up(self):
        if self.server:
            self.server.hang_up()

    def run(self):
        """Runs until it is told to stop, or until another try can't succeed."""
        signal.signal(signal.SIGTERM, self.stop)
        signal.signal(signal.SIGINT, self.stop)
        signal.signal(signal.SIGUSR1, lambda *_: os.write(2, (self.status.line(self.current()) + "\n").encode()))
        pause, unknown = FIRST_PAUSE, 0
        while not self.stopping.is_set():
            before, begun = self.status.counts(), time.monotonic()
            try:
                self.session()
            except Dropped as fault:
                drop = fault
            came, written = (now != then for now, then in list(zip(self.status.counts(), before))[1:3])
            self.stops = 0 if written or not self.has_stopped else self.stops + 1
            unknown = unknown + 1 if self.is_unknown else 0
            self.end_session()
            if self.stopping.is_set():
                break
            if self.stops >= MAX_STOPS or unknown >= MAX_UNKNOWN:
                raise Final(drop)
            is_well = written or time.monotonic() > begun + WELL_SECONDS
            is_well = is_well and not (self.stops or unknown or isinstance(drop, Stuck))
            pause = FIRST_PAUSE if is_well else min(2 * pause, self.options.max_pause)
            self.turn += not came or self.is_unknown  # another server, if this one gave nothing
            say(f"{drop}; trying again in {pause:g} s")
            self.write_metrics()
            self.stopping.wait(pause)

    def session(self):
        """One connection, from the request to its end, which is always a fault but if the run is to stop."""
        self.has_stopped = self.is_unknown = False
        place = self.sink.resume()
        server = self.server = Server(self.options.server[self.turn % len(self.options.server)], self.login)
        if self.stopping.is_set():
            return
        place = self.rewound(server, self.prepare(server, place))
        is_semi_sync = self.is_waited_for(server)
        packets = Packets(is_semi_sync=is_semi_sync)
        if self.gtids is not None and self.reports_progress:
            self.passed.clear()
            packets.on_gtid = lambda *passed: self.passed.append(passed)
        self.request(server, place, is_semi_sync)
        self.status.connected(server.name, packets)
        acknowledging = Acknowledging() if is_semi_sync else None
        process = self.start_follow(place, acknowledging)
        self.pump_fault = None
        pump = threading.Thread(target=self.pump, args=(server, packets, process.stdin, acknowledging))
        pump.start()
        try:
            self.copy(process.stdout.fileno(), acknowledging)
        finally:
            fault = self.pump_fault  # none, if follow ended before the connection did
            server.hang_up()
            process.stdout.close()  # so that neither follow nor the pump waits for us
            pump.join()
            status = process.wait()
            if acknowledging:
                acknowledging.close()
        self.judge(status, fault)

    def is_waited_for(self, server):
        """Whether a COMMIT waits for the output, as far as that is wanted."""
        if not self.options.semi_sync:
            return False
        waits = server.waits_for_replicas()
        if not waits:
            say(f"{server.name}: semi-synchronous replication is off: no COMMIT waits for the output")
        return waits

    def request(self, server, place, is_semi_sync):
        by_gtids = self.gtids is not None and place.gtids is not None
        server.request(place, by_gtids, self.options.heartbeat, is_semi_sync)
        said = f"after {place.gtids or 'no GTID'}" if by_gtids else f"from {place.file} {place.position}"
        say(f"connected to {server.name}, {said}")

    def prepare(self, server, place):
        """The place to ask from, with its GTIDs if they are what is asked for; in the first run where the options begin."""
        kept = self.sink.state.kept if self.sink.knows_beginning() else {}
        if place == NOWHERE:
            place = first_place(self.options, server)
            self.gtids = gtids_of(server.is_mariadb, place.gtids) if self.options.gtid else None
            if place.file is None and self.gtids is None:
                raise Final("a start by GTIDs needs --gtid", 2)
            self.remember(place, server)
        elif self.options.gtid:
            known = gtids_of(server.is_mariadb, kept.get("gtids"))
            for line in self.sink.lines_after_state():
                self.add_gtid(known, line)
            known.join(place.gtids or "")
            self.gtids = known
            place = place._replace(gtids=str(known) if str(known) or kept.get("gtids") is not None else None)
        elif kept.get("server") not in (None, server.identity()):
            raise Final(f"{server.name} is another server than {kept['server']}, whose positions these are: use --gtid")
        self.place, self.written, self.last_line, self.is_saved = place, NOWHERE, b"", True
        return place

    def rewound(self, server, place):
        """The place to ask from. While an XA transaction is prepared the lines say it; otherwise it is the beginning of the log
        after follow stopped, then that of the log before: an XA transaction that is committed here may have been prepared there.
        Lines up to the end of what is kept are then skipped.
        """
        kept, self.skipped = self.sink.kept, None
        if not kept.file or self.gtids is not None:
            return place
        earlier = self.sink.earlier()
        if earlier and not self.stops:
            self.skipped = kept
            return earlier
        if not self.stops:
            return place
        logs = server.logs()
        at = logs.index(kept.file) + 1 - self.stops if kept.file in logs else -1
        if at < 0:
            return place
        self.skipped = kept
        return Place(logs[at], 4, None)

    def remember(self, place, server):
        """Saves where the first run begins."""
        self.sink.save(place, NOWHERE, server=server.identity())

    def add_gtid(self, known, line):
        """Adds the GTID of a line that ends a transaction."""
        if line.endswith(self.end_of_transaction()):
            gtid = json.loads(line).get("gtid")
            if isinstance(gtid, str):
                known.add(gtid)

    def end_of_transaction(self):
        return b"\n" if self.options.by_transaction else COMMIT

    def start_follow(self, place, acknowledging):
        words = [self.programs.changes, "follow", *self.options.follow]
        words += ["--log-name", place.file] if place.file else []
        words += ["--progress", "1"] if self.reports_progress else []
        kept = []
        if acknowledging:
            words += ["--semi-sync", acknowledging.path()]
            kept = [acknowledging.into]
        process = subprocess.Popen(
            words, stdin=subprocess.PIPE, stdout=subprocess.PIPE, bufsize=0, start_new_session=True, pass_fds=kept
        )
        if acknowledging:
            acknowledging.begun()
        with contextlib.suppress(ImportError, AttributeError, OSError):
            import fcntl

            fcntl.fcntl(process.stdin.fileno(), fcntl.F_SETPIPE_SZ, PIPE_SIZE)
        return process

    def pump(self, server, packets, pipe, acknowledging):
        """Passes the packets of the answer to follow, until either ends: a thread of its own."""
        try:
            for piece in server.answer(packets, acknowledging):
                self.status.arrived()
                write_all(pipe.fileno(), piece)
            self.pump_fault = Dropped(f"{server.name}: the server ended its answer")
        except BrokenPipeError:
            self.pump_fault = None
        except (Dropped, Final, OSError) as fault:
            self.pump_fault = fault
        finally:
            with contextlib.suppress(OSError):
                pipe.close()

    def copy(self, number, acknowledging):
        """Writes the lines of follow, whole transactions at once, until it ends."""
        lines = Lines(self.options.by_transaction)
        waited = [number, acknowledging.asked] if acknowledging else [number]
        while True:
            ready, packet = select.select(waited, [], [], TICK)[0], b""
            if acknowledging and acknowledging.asked in ready:
                packet = acknowledging.read()
                if packet is None:
                    waited = [number]
                ready = select.select([number], [], [], 0)[0]  # follow wrote the lines before
            while ready:
                data = os.read(number, READ_SIZE)
                if not data:
                    return self.save()
                self.take(lines, data)
                ready = select.select([number], [], [], 0)[0] if packet else []
            if packet:
                self.sink.sync()
                acknowledging.send(packet)
            self.tick()

    def take(self, lines, data):
        """Takes what follow wrote, and writes what is whole of it."""
        if whole := lines.push(data):
            self.write(whole)
        if not self.skipped and (part := lines.part()):
            self.sink.write(part, False)

    def write(self, lines):
        """Writes whole transactions, without the lines that say how far follow read."""
        progress = None
        if PROGRESS in lines:
            kept = lines.splitlines(keepends=True)
            found = [line for line in kept if line.startswith(PROGRESS)]
            if found:
                lines, progress = b"".join(line for line in kept if not line.startswith(PROGRESS)), json.loads(found[-1])
        if self.skipped:
            lines, progress = self.after_skipped(lines), None
        if lines:
            self.sink.write(lines, True)
            self.status.wrote(lines)
            self.last_line, self.is_saved = lines[lines.rfind(b"\n", 0, -1) + 1 :], False
            if self.gtids is not None:
                for line in lines.splitlines(keepends=True):
                    self.add_gtid(self.gtids, line)
            if self.options.rotate and self.sink.length >= self.options.rotate * 10**6:
                place = self.current()
                self.sink.rotate(place, self.written)
        if progress:
            self.went_on(progress["file"], progress["position"])

    def after_skipped(self, lines):
        """The lines after the transaction that is the last one kept; none until it has come."""
        file, position = self.skipped[:2]
        needle, after = f'"file":{json.dumps(file)},"position":{position}'.encode(), 0
        for line in lines.splitlines(keepends=True):
            after += len(line)
            if line.endswith(self.end_of_transaction()) and needle in line:
                found = json.loads(line)
                if (found["file"], found["position"]) == (file, position):
                    self.skipped = None
                    return lines[after:]
        return b""

    def went_on(self, file, position):
        """Notes that everything up to a position was read, and what is selected of it written."""
        self.current()
        self.place, self.is_saved = Place(file, position, None), False
        order = self.logs
        while self.passed:
            log, begin, gtid = self.passed[0]
            order.setdefault(log, len(order))
            if order[log] > order.get(file, len(order)) or log == file and begin >= position:
                break
            self.gtids.add(gtid)
            self.passed.popleft()

    def current(self):
        """The place after what was written, with its GTIDs."""
        if self.last_line and not self.last_line.startswith(GAP):
            found = json.loads(self.last_line)
            self.place = self.written = Place(found["file"], found["position"], None)
            self.last_line = b""
        return self.place._replace(gtids=None if self.gtids is None else str(self.gtids))

    def save(self):
        """Makes what was written durable."""
        if not self.is_saved and not self.last_line.startswith(GAP):
            place = self.current()
            self.sink.save(place, self.written)
            self.is_saved = True

    def tick(self):
        """What is done from time to time."""
        now = time.monotonic()
        if now < self.next_tick:
            return
        self.next_tick = now + TICK
        if now >= self.next_save:
            self.save()
            self.next_save = now + self.options.sync
        if now >= self.next_metrics:
            self.write_metrics()

    def write_metrics(self):
        self.next_metrics = time.monotonic() + 5
        if self.options.metrics:
            self.status.write_metrics(self.options.metrics)

    def judge(self, status, fault):
        """Raises what a connection's end means."""
        if self.stopping.is_set():
            return
        if status == 2:
            raise Final("binlog-changes follow doesn't take these options", 2)
        self.has_stopped = status == 1 and fault is None
        if isinstance(fault, Final) and self.gtids is not None and fault.number == FATAL_READ_ERROR:
            self.is_unknown = True
            raise Dropped(str(fault))
        if isinstance(fault, (Dropped, Final)):
            raise fault
        raise Dropped(f"binlog-changes follow ended with status {status}")

    def end_session(self):
        """Closes the connection, and keeps its counts."""
        if self.server:
            self.server.close()
        self.status.dropped()
        self.server = None


def raw(server, request):
    """Prints the packets of a server's answer to a dump request, up to the one that ends it or to the next log."""
    server.forward(request)
    packets = Packets(ends_at_next_log=True)
    for piece in server.answer(packets):
        write_all(sys.stdout.fileno(), piece)
    if packets.next_log:
        say(f"the next log is {packets.next_log}")
