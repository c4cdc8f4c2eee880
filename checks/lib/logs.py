"""Makes binary logs of every kind for other checks, with the makers of bench/generate and more: columns of every type, updates
and deletes, partial updates of JSON documents, GTIDs, and logs without a description.

usage: logs.py FOLDER

Writes each log to a file of its name, with underscores for spaces. As a module it has `all_logs`.
"""
import io
import random
import sys
from pathlib import Path

import events
import programs

FIRST_POSITION = len(events.MAGIC)
GENERATE = programs.script(programs.ROOT / "bench/generate")
ROWS = programs.script(programs.ROOT / "bench/rows")


def fixed(length):
    """Cells of random bytes, of this length."""
    return lambda draw: draw.randbytes(length)


def counted(width, most):
    """Cells with a length in a number of bytes, and of at most a maximum length."""

    def cell(draw):
        data = draw.randbytes(draw.randint(0, most))
        return len(data).to_bytes(width, "little") + data

    return cell


def decimal(draw):
    """Cells of a DECIMAL(14,4)."""
    return ROWS.decimal(draw.randrange(-(10**10), 10**10))


def document(draw):
    """Cells of JSON documents."""
    values = [None, True, draw.randrange(10**6), draw.random(), "text", [1, "b", {"c": []}]]
    data = b"\0" + GENERATE.json_container({"a": draw.choice(values), "bc": draw.choice(values)})
    return len(data).to_bytes(4, "little") + data


# Columns of every type: number, metadata and cells. The first eight have a sign.
COLUMNS = [
    (1, b"", fixed(1)),
    (2, b"", fixed(2)),
    (9, b"", fixed(3)),
    (3, b"", fixed(4)),
    (8, b"", fixed(8)),
    (4, b"\4", fixed(4)),
    (5, b"\x08", fixed(8)),
    (246, b"\x0e\4", decimal),
    (13, b"", fixed(1)),
    (10, b"", fixed(3)),
    (11, b"", fixed(3)),
    (12, b"", fixed(8)),
    (7, b"", fixed(4)),
    (19, b"\6", fixed(6)),
    (18, b"\3", fixed(7)),
    (17, b"\6", fixed(7)),
    (15, b"\x28\0", counted(1, 20)),
    (15, b"\x2c\1", counted(2, 20)),
    (254, b"\xfe\x14", counted(1, 20)),
    (254, b"\xf7\1", fixed(1)),
    (254, b"\xf8\2", fixed(2)),
    (16, b"\4\1", fixed(2)),
    (249, b"\1", counted(1, 20)),
    (252, b"\2", counted(2, 40)),
    (255, b"\4", counted(4, 20)),
    (245, b"\4", document),
]
# The types of rows events in version 2 and in version 1.
WRITES, UPDATES, DELETES = (events.WRITE_ROWS, 23), (events.UPDATE_ROWS, 24), (events.DELETE_ROWS, 25)
ROWS_QUERY = 29


def field(number, value):
    """A field of a table map's optional metadata."""
    return bytes([number]) + GENERATE.lenenc(len(value)) + value


def table_map(log, table_id, table, columns):
    """A table map, with the signs, names and keys of its columns, and a character set."""
    signs = field(1, b"\x55") if columns == COLUMNS else b""
    names = b"".join(b"\2c" + bytes([97 + index]) for index in range(len(columns)))
    metadata = b"".join(column[1] for column in columns)
    body = GENERATE.map_body(table_id, b"shop", table, [column[0] for column in columns], metadata)
    log.event(events.TABLE_MAP, body + signs + field(2, b"\x2d") + field(4, names) + field(8, b"\0"))


def image(draw, columns):
    """An image of a row, in which some cells are NULL."""
    nulls = [draw.random() < 0.1 for _ in columns]
    bits = sum(is_null << index for index, is_null in enumerate(nulls))
    cells = b"".join(cell(draw) for (_, _, cell), is_null in zip(columns, nulls) if not is_null)
    return bits.to_bytes((len(columns) + 7) // 8, "little") + cells


def rows(log, kind, table_id, columns, images):
    """A rows event of this type, in version 1 or 2."""
    start = GENERATE.rows_start(table_id, len(columns))
    if kind < WRITES[0]:
        start = start[:8] + start[10:]
    if kind in UPDATES or kind == events.PARTIAL_UPDATE_ROWS:
        start += GENERATE.bits_up_to(len(columns))
    log.event(kind, start + b"".join(images))


def changes(log):
    """Transactions that insert, update and delete rows of columns of every type."""
    draw = random.Random(201)
    while not log.is_full():
        log.begin(b"shop")
        table_map(log, 201, b"all types", COLUMNS)
        for kinds, count in ((WRITES, 1), (UPDATES, 2), (DELETES, 1)):
            rows(log, draw.choice(kinds), 201, COLUMNS, [image(draw, COLUMNS) for _ in range(count)])
        log.commit()


def partial_updates(log):
    """Transactions with partial updates of JSON documents."""
    draw = random.Random(202)
    columns = [(3, b"", fixed(4)), (245, b"\4", document)]
    while not log.is_full():
        number = draw.randbytes(4)
        value = b"\x05" + draw.randbytes(2)
        diffs = b"".join(bytes([operation, 3]) + b"$.a" + b"\3" + value for operation in (0, 1)) + b"\2\3$.b"
        after = b"\1\1\0" + number + len(diffs).to_bytes(4, "little") + diffs
        log.begin(b"shop")
        table_map(log, 202, b"documents", columns)
        rows(log, events.PARTIAL_UPDATE_ROWS, 202, columns, [b"\0" + number + document(draw) + after] * 2)
        log.commit()


def identifiers(log):
    """Transactions with GTIDs of each format: rows and statements, committed or rolled back, and statements alone."""
    draw = random.Random(203)
    columns = [(3, b"", fixed(4)), (15, b"\x28\0", counted(1, 20))]
    uuid = draw.randbytes(16)
    number = 0
    while not log.is_full():
        number += 1
        forms = [
            (events.GTID, b"\1" + uuid + number.to_bytes(8, "little")),
            (events.ANONYMOUS_GTID, bytes(25)),
            (events.TAGGED_GTID, b"\2\0tag'" + bytes([number])),
        ]
        log.event(*forms[number % 3])
        if number % 4 == 0:
            log.query(b"shop", b"CREATE TABLE t%d (a INT)" % number)
            continue
        log.begin(b"shop")
        log.event(ROWS_QUERY, b"\0INSERT INTO notes ..")
        table_map(log, 203, b"notes", columns)
        rows(log, WRITES[0], 203, columns, [image(draw, columns) for _ in range(3)])
        log.query(b"shop", b"savepoint 's'")
        if number % 5 == 0:
            log.query(b"shop", b"ROLLBACK")
        elif number % 2 == 0:
            log.query(b"shop", b"COMMIT")
        else:
            log.commit()
    log.event(events.ROTATE, FIRST_POSITION.to_bytes(8, "little") + b"binlog.000043")


class Undescribed(GENERATE.Log):
    """A log without a description."""

    def __init__(self, file, size):
        self.file, self.size, self.algorithm = file, size, 0
        self.position, self.transactions = FIRST_POSITION, 0
        file.write(events.MAGIC)


def all_logs():
    """Logs of every kind: the name of each, its bytes, and whether its events end with checksums."""
    made = [("one insert", events.one_insert(), False)]
    makers = [
        (GENERATE.small, 1500),
        (changes, 3000),
        (partial_updates, 1200),
        (identifiers, 4000),
        (GENERATE.statements, 2500),
        (GENERATE.json, 200),
        (GENERATE.wide, 200),
        (GENERATE.blobs, 70_000),
    ]
    for maker, size in makers:
        files = {
            "without a description": lambda file: Undescribed(file, size),
            "without checksums": lambda file: GENERATE.Log(file, size, 0),
            "with checksums": lambda file: GENERATE.Log(file, size, 1),
        }
        for form, opened in files.items():
            file = io.BytesIO()
            maker(opened(file))
            made.append((f"{maker.__name__} {form}", file.getvalue(), form == "with checksums"))
    return made


if __name__ == "__main__":
    for name, data, _ in all_logs():
        (Path(sys.argv[1]) / name.replace(" ", "_")).write_bytes(data)
