"""What is said of a run: a line of JSON on SIGUSR1, and a file of metrics in Prometheus' text format."""
import contextlib
import json
import re
import time

from .output import write_whole

# Each metric: its name, whether it only grows, and what it is.
METRICS = [
    ("connected", False, "Whether a server sends events."),
    ("lag_seconds", False, "Seconds from the time of the newest event to when it was read; 0 while a server has nothing new."),
    ("silence_seconds", False, "Seconds since anything came from a server, heartbeats too."),
    ("log_number", False, "The number at the end of the newest log's name."),
    ("position", False, "The position in this log up to which events were read."),
    ("events_total", True, "Events that were read."),
    ("received_bytes_total", True, "Bytes of a server's answers."),
    ("lines_total", True, "Lines that were written."),
    ("written_bytes_total", True, "Bytes of these lines."),
    ("reconnects_total", True, "Connections after the first one."),
    ("last_line_timestamp_seconds", False, "When the newest line was written."),
]


class Status:
    """The numbers of a run. Those of connections that ended are added to those of the one that is."""

    def __init__(self):
        self.packets, self.server, self.connections = None, "", 0
        self.past_events = self.past_bytes = self.lines = self.written = 0
        self.last_arrival = self.last_line = 0.0
        self.lag = 0.0
        self.before = (time.monotonic(), self.counts())

    def connected(self, server, packets):
        self.server, self.packets, self.connections = server, packets, self.connections + 1
        self.last_arrival = time.time()

    def dropped(self):
        if self.packets:
            self.past_events, self.past_bytes = self.counts()[:2]
            self.packets = None

    def arrived(self):
        """Notes how old the newest event is; called when packets have come."""
        self.last_arrival = time.time()
        self.lag = 0.0 if self.packets.is_idle else max(0.0, self.last_arrival - self.packets.time)

    def wrote(self, lines):
        self.lines += lines.count(b"\n")
        self.written += len(lines)
        self.last_line = time.time()

    def counts(self):
        """Events and bytes that came, lines and bytes that were written."""
        events, received = (self.packets.events, self.packets.bytes) if self.packets else (0, 0)
        return self.past_events + events, self.past_bytes + received, self.lines, self.written

    def values(self):
        events, received, lines, written = self.counts()
        digits = re.search(r"\d+$", self.packets.log) if self.packets else None
        return {
            "connected": int(self.packets is not None),
            "lag_seconds": round(self.lag, 3),
            "silence_seconds": round(time.time() - self.last_arrival, 3) if self.last_arrival else 0,
            "log_number": int(digits[0]) if digits else 0,
            "position": self.packets.position if self.packets else 0,
            "events_total": events,
            "received_bytes_total": received,
            "lines_total": lines,
            "written_bytes_total": written,
            "reconnects_total": max(0, self.connections - 1),
            "last_line_timestamp_seconds": round(self.last_line, 3),
        }

    def rates(self):
        """Events, bytes and lines a second since the last call."""
        now, counts = time.monotonic(), self.counts()
        seconds = max(now - self.before[0], 1e-3)
        rates = [round((new - old) / seconds, 1) for new, old in zip(counts, self.before[1])]
        self.before = (now, counts)
        return dict(
            zip(["events_per_second", "received_bytes_per_second", "lines_per_second", "written_bytes_per_second"], rates)
        )

    def line(self, place):
        """One line of JSON."""
        log = self.packets.log if self.packets else None
        known = {"type": "status", "server": self.server, "log": log, **self.values(), **self.rates()}
        return json.dumps({**known, "written_file": place.file, "written_position": place.position, "gtids": place.gtids})

    def write_metrics(self, path):
        """Writes the file for monitoring; that it can't be written ends nothing."""
        text, values, server = "", self.values(), json.dumps(self.server)
        for name, grows, about in METRICS:
            text += f"# HELP binlog_capture_{name} {about}\n# TYPE binlog_capture_{name} {'counter' if grows else 'gauge'}\n"
            text += f"binlog_capture_{name}{{server={server}}} {values[name]}\n"
        with contextlib.suppress(OSError):
            write_whole(path, text)
