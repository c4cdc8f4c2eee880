"""JSON lines with the members that `--with` adds, whose values are those that the log was made with: a part of `changes`."""
import io
import itertools
import json
import struct
import subprocess

import events
import logs
from exact_lines import TAGGED, UUID
from json_lines import expect, lines_of

UUID_BYTES = bytes.fromhex(UUID.replace("-", ""))
# Microseconds since 1970, and the bit that says that the time of another server follows.
MICROS, FOLLOWS = 1_795_000_000_123_456, 1 << 55
# The members of a transaction in their order, and those of a change.
OF_TRANSACTION, OF_CHANGE = ("begin", "ts_ms", "xid", "thread_id"), ("query", "row")
TYPE_OF_TIMESTAMPS = b"\2"


def gtid(number, times=b"", kind=TYPE_OF_TIMESTAMPS):
    """The body of a GTID event of MySQL 5.7, or of a newer one with these times and what follows them."""
    return b"\1" + UUID_BYTES + struct.pack("<q", number) + kind + struct.pack("<qq", 3, 4) + times


def newest(number):
    """The body of a GTID event of MySQL 8: the time of the commit, the transaction's length, and the server's version."""
    return gtid(number, MICROS.to_bytes(7, "little") + b"\xfc\x10\1" + struct.pack("<I", 80400))


def replicated(number):
    """The same on a replica: the time of the commit there, and that on its source."""
    return gtid(number, (MICROS | FOLLOWS).to_bytes(7, "little") + (MICROS - 5_000_000).to_bytes(7, "little") + b"\x10")


# The body of a tagged GTID's event with the time of the commit: an integer of eight bytes, the first of which counts them.
TAGGED_AT = TAGGED + b"\x0c\x7f" + MICROS.to_bytes(7, "little") + b"\x10\x42"
# The first event of a transaction's GTID, and the milliseconds in it.
FIRSTS = [
    (None, None),
    ((events.GTID, gtid(1)), None),
    ((events.GTID, gtid(1)[:25]), None),
    ((events.GTID, gtid(1, MICROS.to_bytes(7, "little"), kind=b"\1")), None),
    ((events.GTID, newest(2)), MICROS // 1000),
    ((events.GTID, replicated(3)), MICROS // 1000),
    ((events.ANONYMOUS_GTID, newest(0)), MICROS // 1000),
    ((events.TAGGED_GTID, TAGGED), None),
    ((events.TAGGED_GTID, TAGGED_AT), MICROS // 1000),
    ((events.TAGGED_GTID, b"\2\0"), None),
]


class Written(logs.GENERATE.Log):
    """A log, and the lines that it has: each a table or a statement, with the members that can be added."""

    def __init__(self, algorithm):
        super().__init__(io.BytesIO(), 0, algorithm)
        self.lines, self.open, self.thread, self.query_text, self.count = [], {}, 0, None, 0

    def query(self, schema, text):
        body = struct.pack("<IIBHH", self.thread, 1, len(schema), 0, 0) + schema + b"\0" + text
        self.event(events.QUERY, body)

    def started(self, first, milliseconds, thread, begin=b"BEGIN"):
        """Begins a transaction with this event of its GTID, or makes one of a statement alone."""
        self.open, self.thread, self.query_text, self.count = {"begin": self.position}, thread, None, 0
        if first:
            self.event(*first)
        if milliseconds is not None:
            self.open["ts_ms"] = milliseconds
        if thread:
            self.open["thread_id"] = thread
        self.query(b"shop", begin)

    def said(self, text, length=None):
        """Writes the statement that changes rows; the length before it is that of a text of up to 255 bytes."""
        self.query_text = text
        self.event(logs.ROWS_QUERY, bytes([len(text) % 256 if length is None else length]) + text.encode())

    def rows(self, table, numbers):
        """Inserts rows."""
        self.event(events.TABLE_MAP, logs.GENERATE.map_body(7, b"shop", table.encode(), [3]))
        images = b"".join(logs.GENERATE.image([it], False) for it in numbers)
        self.event(events.WRITE_ROWS, logs.GENERATE.rows_start(7, 1) + images)
        for number in numbers:
            self.added(table, number, {} if self.query_text is None else {"query": self.query_text})

    def updates(self, table, numbers):
        """Updates rows, each to the next number."""
        self.event(events.TABLE_MAP, logs.GENERATE.map_body(7, b"shop", table.encode(), [3]))
        images = b"".join(logs.GENERATE.image([it + more], False) for it in numbers for more in (0, 1))
        start = logs.GENERATE.rows_start(7, 1) + b"\1"
        self.event(events.UPDATE_ROWS, start + images)
        for number in numbers:
            self.added(table, number + 1, {} if self.query_text is None else {"query": self.query_text})

    def statement(self, text):
        """Writes a statement within the transaction."""
        self.query(b"shop", text.encode())
        self.added(None, text, {})

    def added(self, table, what, members):
        self.count += 1
        self.lines.append({"table": table, "what": what, "transaction": self.open, "row": self.count, **members})

    def ended(self, xid=None):
        """Commits the transaction, by an XID event or a statement."""
        if xid is None:
            self.query(b"shop", b"COMMIT")
        else:
            self.event(events.XID, struct.pack("<Q", xid))
            self.open["xid"] = xid

    def bytes(self):
        return self.file.getvalue()


def written(algorithm, firsts):
    """A log of transactions with these events of their GTIDs."""
    log = Written(algorithm)
    for number, (first, milliseconds) in enumerate(firsts):
        log.started(first, milliseconds, number)
        log.rows("a", [1, 2, 3])
        log.said(f'INSERT INTO b VALUES ("ä\\", {number})')
        log.rows("b", [4])
        log.updates("a", [5, 6])
        log.statement("SAVEPOINT s")
        log.said("DELETE " + "x" * 300, 44)
        log.rows("b", [8, 9])
        log.ended(2**64 - 1 - number if number % 2 else None)
        log.started(first, milliseconds, 2**32 - 1, b"CREATE TABLE c (a INT)")
        log.added(None, "CREATE TABLE c (a INT)", {})
        log.started(first, milliseconds, 3)
        log.said("a statement that is rolled back")
        log.event(events.TABLE_MAP, logs.GENERATE.map_body(7, b"shop", b"a", [3]))
        log.event(events.WRITE_ROWS, logs.GENERATE.rows_start(7, 1) + logs.GENERATE.image([5], False))
        log.query(b"shop", b"ROLLBACK")
    return log


def members_of(line, names):
    """The members with these names that a line has to have."""
    has = {**line["transaction"], **{name: line[name] for name in OF_CHANGE if name in line}}
    return {name: has[name] for name in (*OF_TRANSACTION, *OF_CHANGE) if name in names and name in has}


def plain(it):
    """What a change was made of: its table, and its number or its text."""
    return it.get("table"), it["sql"] if it["type"] == "statement" else it["data"]["@0"]


def compared(program, path, log, names, *words):
    """The lines have the members with these names, and no others; returns their number."""
    given = ["--with", ",".join(names), *words, path]
    tables = words[1:2] and words[1].split(".")[1]
    wanted = [it for it in log.lines if not tables or it["table"] == tables]
    lines, alone = lines_of(program, *given), lines_of(program, *words, path)
    asked = set(OF_TRANSACTION + OF_CHANGE) if "all" in names else set(names)
    expect([plain(it) for it in lines] == [(it["table"], it["what"]) for it in wanted], f"{given}: other lines")
    for line, without, it in zip(lines, alone, wanted):
        added = {name: value for name, value in line.items() if name not in without}
        expect({**without, **added} == line, f"{given}: {line}, and without the option {without}")
        expect(added == members_of(it, asked), f"{given}: {added}, not {members_of(it, asked)}")
    transactions = lines_of(program, "--transactions", *given)
    changes = [it for one in transactions for it in one["changes"]]
    expect(len(changes) == len(wanted), f"{given}: other changes by transaction")
    for change, it in zip(changes, wanted):
        here = {name: change[name] for name in OF_CHANGE + OF_TRANSACTION if name in change}
        expect(here == members_of(it, asked & set(OF_CHANGE)), f"{given}: {change}")
    firsts = [next(some) for _, some in itertools.groupby(wanted, lambda it: id(it["transaction"]))]
    for one, it in zip(transactions, firsts, strict=True):
        here = {name: one[name] for name in OF_TRANSACTION + OF_CHANGE if name in one}
        expect(here == members_of(it, asked & set(OF_TRANSACTION)), f"{given}: {one}")
    return len(lines)


def refused(program, path):
    """An unknown name is an error that lists the names."""
    for names in ("", "xids", "xid,", ",xid", "xid,,row", "all,none", "XID"):
        ran = subprocess.run([program, "json", "--with", names, path], capture_output=True, text=True)
        is_said = all(name in ran.stderr for name in ("--with", *OF_TRANSACTION, *OF_CHANGE, "all"))
        expect(ran.returncode == 2 and is_said and not ran.stdout, f"--with {names}: {ran}")


def order(program, path):
    """Members are in the order of docs/FORMAT.md."""
    ran = subprocess.run([program, "json", "--with", "all", path], capture_output=True, text=True, check=True)
    for line in ran.stdout.splitlines():
        names = [it for it, _ in json.loads(line, object_pairs_hook=list)]
        wanted = ["type", "database", "table", "ts", "server_id", "gtid", "file", "position", *OF_TRANSACTION]
        wanted += ["query", "data", "old", "sql", "row", "commit"]
        expect(names == [it for it in wanted if it in names], f"--with all: {names}")


def added(program, folder):
    """Compares the lines of all these logs; returns their number."""
    path, count = folder / "added", 0
    for algorithm, firsts in itertools.product((0, 1), (FIRSTS, FIRSTS[:1] * 3)):
        log = written(algorithm, firsts)
        path.write_bytes(log.bytes())
        every = [["all"], [*OF_TRANSACTION, *OF_CHANGE], ["xid", "xid"], *([it] for it in OF_TRANSACTION + OF_CHANGE)]
        for names in every:
            count += compared(program, path, log, names)
        for table in ("a", "b"):
            count += compared(program, path, log, ["all"], "--table", f"shop.{table}")
            count += compared(program, path, log, ["row"], "--table", f"shop.{table}")
        order(program, path)
    refused(program, path)
    return count
