"""What the targets have in common: the transactions of JSON lines, and what a target says that it has.

A target reads lines of binlog-changes or binlog-capture in one of two ways. From a file, or from standard input, it skips the
bytes that it has, whose number it keeps with its data; with --follow it waits for more at the end of the file. With
--acknowledge, as `binlog-capture -- COMMAND` calls it, it prints what it has at its start and after each commit, and the
lines begin after that.
"""
import argparse
import json
import os
import re
import select
import sys
import time
from collections import namedtuple
from pathlib import Path

HERE = Path(__file__).resolve().parent
# The module of GTIDs is that of binlog-capture, in a clone or where it is installed.
sys.path += [str(HERE.parent / "capture"), str(HERE.parents[2] / "lib/cuvragyen")]
sys.dont_write_bytecode = True
from binlog_capture import gtids  # noqa: E402

COMMIT = b',"commit":true}'
READ_SIZE, WAIT_SECONDS, MAX_BATCH = 1 << 20, 0.1, 5000

# The position after a transaction, the GTIDs up to there, and how many bytes of the input that is.
Place = namedtuple("Place", "file position gtids offset", defaults=(None, None, None, 0))
NOWHERE = Place()
# The lines of a transaction, as they are and as objects, and the place after it.
Transaction = namedtuple("Transaction", "texts lines place")


class Stop(Exception):
    """The lines can't be applied."""


def with_gtid(known, gtid):
    """GTIDs, as a text, with that of one more transaction."""
    if not isinstance(gtid, str):
        return known
    found = gtids.gtids_of(bool(re.fullmatch(r"\d+-\d+-\d+", gtid)), known)
    found.add(gtid)
    return str(found)


def expanded(line):
    """The changes of a line, which has one, or with --transactions all of its transaction."""
    if "changes" in line:
        common = {name: value for name, value in line.items() if name != "changes"}
        return [{**common, **change} for change in line["changes"]]
    return [line]


def key_of(line):
    """Table and primary key of a line: the lines of one row have the same, as long as its key stays."""
    row = line.get("data", {})
    values = [row.get(name) for name in line.get("primary_key", ())]
    return json.dumps([line["database"], line.get("table"), *values], ensure_ascii=False, separators=(",", ":"))


def entries(transaction):
    """What a stream gets of a transaction: of each change its number from 1, its line, and its text."""
    is_same = len(transaction.texts) == len(transaction.lines)
    for row, line in enumerate(transaction.lines, 1):
        if is_same:
            yield row, line, transaction.texts[row - 1]
        else:
            yield row, line, json.dumps(line, ensure_ascii=False, separators=(",", ":")).encode()


def log_number(file):
    """The number at the end of a log's name."""
    found = re.search(r"\d+$", file)
    return int(found[0]) if found else 0


def arguments(about, target, target_help, add=lambda parser: None):
    """The words of a target's command line, which all targets have, and what `add` adds."""
    parser = argparse.ArgumentParser(description=about.split("\n")[0], epilog="docs/RECIPES.md has the details.")
    parser.add_argument("--acknowledge", action="store_true", help="print what it has; for `binlog-capture -- COMMAND`")
    parser.add_argument("--follow", action="store_true", help="wait for more lines at the end of FILE")
    parser.add_argument("--source", default="changes", metavar="NAME", help="the name of these lines in the target: changes")
    parser.add_argument("--version", action="version", version="%(prog)s 0.1.0")
    add(parser)
    parser.add_argument(target, help=target_help)
    parser.add_argument("file", nargs="?", metavar="FILE", help="JSON lines; by default standard input")
    options = parser.parse_args()
    if options.follow and not options.file or options.acknowledge and options.file:
        parser.error("--follow needs a FILE, and --acknowledge standard input")
    return options


class Lines:
    """The transactions of the input, after those that the target has."""

    def __init__(self, options, place):
        self.options, self.place = options, place
        self.number = os.open(options.file, os.O_RDONLY) if options.file else 0
        self.rest, self.texts, self.newest = b"", [], place
        if options.acknowledge:
            self.say()
        else:
            self.skip()

    def say(self):
        """Says what the target has."""
        if self.options.acknowledge:
            known = {"file": self.place.file, "position": self.place.position, "gtid": self.place.gtids}
            os.write(1, (json.dumps(known if self.place.file else {}) + "\n").encode())

    def skip(self):
        """Skips the bytes that the target has; they have to end with the transaction that it has."""
        left, last = self.place.offset, b""
        while left:
            data = os.read(self.number, min(READ_SIZE, left))
            if not data:
                raise Stop(f"the lines are shorter than those that the target has: {self.place.offset} bytes")
            left, last = left - len(data), last[last.rfind(b"\n", 0, -1) + 1 :] + data
        if last:
            line = json.loads(last[last.rfind(b"\n", 0, -1) + 1 :])
            if (line.get("file"), line.get("position")) != (self.place.file, self.place.position):
                raise Stop(f"these aren't the lines that the target has: it has {self.place.file} {self.place.position}")

    def more(self):
        """More bytes; none at the end of the input."""
        while True:
            data = os.read(self.number, READ_SIZE)
            if data or not self.options.follow:
                return data
            time.sleep(WAIT_SECONDS)

    def batches(self):
        """Lists of transactions: those that are there without waiting, but not many more than MAX_BATCH lines."""
        batch, count = [], 0
        while data := self.more():
            *lines, self.rest = (self.rest + data).split(b"\n")
            for text in lines:
                found = self.take(text)
                if found:
                    batch.append(found)
                    count += len(found.lines)
                if count >= MAX_BATCH:
                    yield self.given(batch)
                    batch, count = [], 0
            if batch and not (self.options.acknowledge and select.select([self.number], [], [], 0)[0]):
                yield self.given(batch)
                batch, count = [], 0
        if batch:
            yield self.given(batch)

    def given(self, batch):
        """A batch; once the target comes back for the next one, it has this one."""
        self.place = batch[-1].place
        return batch

    def take(self, text):
        """Takes a line. Returns the transaction that it ends, or None."""
        self.texts.append(text)
        if not text.endswith(COMMIT) and b'"changes":[' not in text:
            return None
        texts, self.texts = self.texts, []
        parsed = list(map(json.loads, texts))
        lines, last = [line for one in parsed for line in expanded(one)], parsed[-1]
        if "position" not in last:
            raise Stop(f"no line of binlog-changes: {text[:200]!r}")
        size = sum(map(len, texts)) + len(texts)
        known = with_gtid(self.newest.gtids, last.get("gtid"))
        self.newest = Place(last["file"], last["position"], known, self.newest.offset + size)
        return Transaction(texts, [line for line in lines if line.get("type") != "gap"], self.newest)


def run(make, options):
    """Gives a target all batches, and says what it has after each. The target has `place` and `apply(batch)`."""
    name = Path(sys.argv[0]).name
    try:
        target = make(options)
        lines = Lines(options, target.place)
        for batch in lines.batches():
            target.apply(batch)
            lines.say()
        target.close()
    except (Stop, OSError, ValueError) as stop:
        sys.exit(f"{name}: {stop}")
    except KeyboardInterrupt:
        sys.exit(130)
