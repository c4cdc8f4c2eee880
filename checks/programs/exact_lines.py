"""Logs whose JSON lines are known exactly: documents, tagged GTIDs, and cells that servers write seldom: a part of `changes`."""
import io
import struct
import subprocess
import sys
from pathlib import Path

sys.path.insert(0, str(Path(__file__).resolve().parents[1] / "lib"))
import events
import logs

# MySQL's numbers of the types within a document.
OBJECT, LITERAL, DOUBLE, STRING, OPAQUE = 0, 4, 11, 12, 15
DECIMAL, DATE, TIME, DATETIME, BLOB = 246, 10, 11, 12, 252


def packed(year, month, day, hour=0, minute=0, second=0, micros=0):
    """A date and a time of day as a document has them."""
    days = (year * 13 + month) << 5 | day
    seconds = hour << 12 | minute << 6 | second
    return (days << 17 | seconds) << 24 | micros


def opaque(number, data):
    return OPAQUE, bytes([number, len(data)]) + data


def container(members):
    """A small object: the keys in MySQL's order, each with the type and the bytes of its value."""
    members = sorted(members.items(), key=lambda it: (len(it[0]), it[0]))
    keys, values = b"".join(key for key, _ in members), b""
    start = 4 + 7 * len(members)
    of_keys, of_values, at = b"", b"", start
    for key, (kind, data) in members:
        of_keys += struct.pack("<HH", at, len(key))
        at += len(key)
        if kind == LITERAL:
            of_values += struct.pack("<BH", kind, data)
        else:
            of_values += struct.pack("<BH", kind, start + len(keys) + len(values))
            values += data
    body = of_keys + of_values + keys + values
    return bytes([OBJECT]) + struct.pack("<HH", len(members), 4 + len(body)) + body


DOCUMENT = {
    b"a": opaque(DECIMAL, b"\x03\x02\x81\x32"),
    b"d": opaque(DATE, struct.pack("<q", packed(2026, 11, 28))),
    b"e": (DOUBLE, struct.pack("<d", 1.5)),
    b"m": opaque(DATETIME, struct.pack("<q", packed(2026, 11, 28, 10, 0, 0, 123456))),
    b"n": (LITERAL, 0),
    b"o": opaque(BLOB, b"abc"),
    b"s": (STRING, b"\x041.50"),
    b"t": opaque(TIME, struct.pack("<q", -(packed(0, 0, 0, 12, 0, 0, 1)))),
    b"$a": (LITERAL, 1),
    b"$$a": (LITERAL, 1),
    b"diffs": (LITERAL, 2),
    b"base64": (STRING, b"\x04aGk="),
    b"base6": (LITERAL, 2),
}
DOCUMENT_TEXT = (
    '{"$$$a":true,"$$a":true,"a":{"$decimal":"1.50"},"base6":false,"$base64":"aGk=","d":{"$date":"2026-11-28"},'
    '"$diffs":false,"e":1.5,"m":{"$datetime":"2026-11-28 10:00:00.123456"},"n":null,"o":{"$type":252,"base64":"YWJj"},"s":"1.50",'
    '"t":{"$time":"-12:00:00.000001"}}'
)
# The body of a tagged GTID's event: the format's version 1, the size, no field that must be known, the flags, and these fields.
UUID, TAG = "896e7882-18fe-11ef-ab88-22222d34d411", "foobaz"
TAGGED = (
    bytes.fromhex("02760000 02 02 2502dcf0090230f90322bd03ad02210244445a68510322 04 04 06 0c")
    + TAG.encode()
    + bytes.fromhex("0800 0a04")
)

# Columns, the bytes of their cells, and their JSON. The character sets are those of the table map: none, unless the names say so.
CELLS = [
    ((13, b""), b"\0", "0"),
    ((13, b""), b"\x7e", "2026"),
    ((7, b""), b"\0\0\0\0", '"0000-00-00 00:00:00"'),
    ((7, b""), b"\xff\xff\xff\xff", '"2106-02-07 06:28:15"'),
    ((17, b"\3"), b"\0\0\0\0\x13\x88", '"1970-01-01 00:00:00.500"'),
    ((17, b"\1"), b"\0\0\0\1\x0c", '"1970-01-01 00:00:01.120000"'),
    ((18, b"\0"), bytes.fromhex("99bb78a000"), '"2026-11-28 10:00:00"'),
    ((19, b"\0"), bytes.fromhex("7ff000"), '"-01:00:00"'),
    ((254, b"\xf7\1"), b"\3", "3"),
    ((254, b"\xf8\1"), b"\5", "5"),
    ((254, b"\xf8\x09"), bytes(8) + b"\1", '"AAAAAAAAAAAB"'),
    ((16, b"\0\x08"), b"\xff" * 8, "18446744073709551615"),
    ((16, b"\1\x08"), b"\1" + bytes(8), '"AQAAAAAAAAAA"'),
    ((15, b"\x28\0"), b"\2hi", '{"base64":"aGk="}'),
    ((255, b"\4"), b"\2\0\0\0hi", '"aGk="'),
    ((4, b"\4"), struct.pack("<f", 0.1), "0.1"),
    ((5, b"\x08"), struct.pack("<d", 1e300), "1e300"),
    ((5, b"\x08"), struct.pack("<d", -0.0), "-0.0"),
]
# The bytes of a format description before the post-header lengths of the event types.
BEFORE_LENGTHS = 57


def log_of(write):
    """A log of a transaction, whose events this writes."""
    file = io.BytesIO()
    log = logs.GENERATE.Log(file, 0, 1)
    write(log)
    return file.getvalue()


def row_of(columns, cells, metadata=b""):
    """What writes a transaction with a row of these columns; `metadata` is the optional metadata of its table map."""

    def write(log):
        log.begin(b"shop")
        body = logs.GENERATE.map_body(7, b"shop", b"t", [it[0] for it in columns], b"".join(it[1] for it in columns))
        log.event(events.TABLE_MAP, body + metadata)
        nulls = bytes((len(columns) + 7) // 8)
        log.event(events.WRITE_ROWS, logs.GENERATE.rows_start(7, len(columns)) + nulls + b"".join(cells))
        log.commit()

    return write


def tagged(log):
    """Writes a transaction with a tagged GTID."""
    log.event(events.TAGGED_GTID, TAGGED)
    log.query(b"shop", b"CREATE TABLE t (a INT)")


def short_ids(log):
    """Writes rows of two tables. Table maps have a post-header length of 6, as MySQL before 5.1 wrote: ids of four bytes."""
    log.position = log.file.seek(len(events.MAGIC))
    description = bytearray(logs.GENERATE.description_body(log.algorithm))
    description[BEFORE_LENGTHS + events.TABLE_MAP - 1] = 6
    log.event(events.FORMAT_DESCRIPTION, bytes(description))
    log.begin(b"shop")
    for name in (b"t", b"u"):
        body = logs.GENERATE.map_body(7, b"shop", name, [3], b"")
        log.event(events.TABLE_MAP, body[:4] + body[6:])
        log.event(events.WRITE_ROWS, logs.GENERATE.rows_start(7, 1) + b"\0" + struct.pack("<i", 1))
    log.commit()


def names(*all_names):
    """The field of the optional metadata with these names."""
    return logs.field(4, b"".join(bytes([len(it)]) + it for it in all_names))


def compare(program, folder, write, piece, *words):
    """The lines of a log have this piece; returns what is said on standard error."""
    path = folder / "exact"
    path.write_bytes(log_of(write))
    ran = subprocess.run([program, "json", *words, path], capture_output=True, text=True, check=True)
    if piece not in ran.stdout:
        sys.exit(f"changes: {ran.stdout}has no {piece}")
    return ran.stderr


def unnamed_character_sets(program, folder):
    """A log that names no character set: text is in Base64, which is said, unless an option says what it is."""
    row = row_of([(15, b"\x28\0")] * 2, [b"\2h\xe9", b"\2hi"])
    for name, piece in (
        ("", '"@0":{"base64":"aOk="},"@1":{"base64":"aGk="}'),
        ("utf8mb4", '"@0":{"base64":"aOk="},"@1":"hi"'),
        ("latin1", '"@0":"h\u00e9","@1":"hi"'),
    ):
        words = ["--character-set", name] if name else []
        said = compare(program, folder, row, piece, *words)
        if ("character sets of text" in said) == bool(name):
            sys.exit(f"changes: {words}: {said}")
    ran = subprocess.run([program, "json", "--character-set", "klingon", folder / "exact"], capture_output=True, text=True)
    if ran.returncode != 2 or "--character-set" not in ran.stderr:
        sys.exit(f"changes: an unknown character set: {ran}")


def exact(program, folder):
    """Compares the lines of all these logs; returns their number."""
    data = container(DOCUMENT)
    compare(program, folder, row_of([(245, b"\4")], [struct.pack("<I", len(data)) + data]), f'"data":{{"@0":{DOCUMENT_TEXT}}}')
    compare(program, folder, tagged, f'"gtid":"{UUID}:{TAG}:1"')
    compare(program, folder, short_ids, '"table":"u"')
    for column, cell, text in CELLS:
        compare(program, folder, row_of([column], [cell]), f'"data":{{"@0":{text}}}')
    numbers = [(3, b""), (3, b"")], [struct.pack("<i", 1), struct.pack("<i", 2)]
    by_index, key = '"data":{"@0":1,"@1":2}', logs.field(8, b"\1\0")
    for metadata, piece in (
        (names(b"a", b"b") + key, '"primary_key":["b","a"],"data":{"a":1,"b":2}'),
        (names(b"a", b"b") + logs.field(9, b"\1\3\0\0"), '"primary_key":["b","a"],"data":{"a":1,"b":2}'),
        (names(b"a") + key, f'"primary_key":["@1","@0"],{by_index}'),
        (names(b"a", b"a"), by_index),
        (names(b"@1", b"\xff"), by_index),
        (names(b"@1", b"@0"), '"data":{"@1":1,"@0":2}'),
        (key[:1] + b"\2\2\0", by_index),
    ):
        compare(program, folder, row_of(*numbers, metadata), piece)
    unnamed_character_sets(program, folder)
    quoted = [(8, b""), (3, b"")], [struct.pack("<q", 2**53 + 1), struct.pack("<i", -1)]
    compare(program, folder, row_of(*quoted), '"data":{"@0":"9007199254740993","@1":-1}', "--numbers-as-strings")
    compare(program, folder, row_of(*quoted), '"data":{"@0":9007199254740993,"@1":-1}')
    return 3 + len(CELLS) + 7 + 3 + 2
