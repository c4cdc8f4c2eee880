"""What `binlog-changes json` prints, and that the lines of a MariaDB server's logs give its tables: parts of `changes`."""
import collections
import itertools
import json
import re
import shutil
import struct
import subprocess
import sys
from base64 import b64decode, b64encode
from pathlib import Path

import programs

SERVER = programs.script(Path(__file__).resolve().parent / "mariadb_server")


def lines_of(program, *words, data=None, status=0):
    """The objects that `json` prints."""
    ran = subprocess.run([program, "json", *words], input=data, capture_output=True)
    if ran.returncode != status:
        sys.exit(f"changes: json {words}: status {ran.returncode}: {ran.stderr.decode()}")
    return [json.loads(line) for line in ran.stdout.splitlines()]


def expect(condition, what):
    if not condition:
        sys.exit(f"changes: {what}")


# GEOMETRY counts among the columns with a character set. Members of ENUM and SET have one too.
SHAPES = """SET NAMES utf8mb4;
CREATE DATABASE drawn;
CREATE TABLE drawn.shapes (g POINT, l VARCHAR(9) CHARACTER SET latin1, b VARBINARY(9), u VARCHAR(9) CHARACTER SET utf8mb4,
  e ENUM('é', 'b') CHARACTER SET latin1, s SET('ü', 'ä') CHARACTER SET latin1);
INSERT INTO drawn.shapes VALUES (POINT(1, 2), 'é', 'ab', 'ü', 'é', 'ü,ä');
"""
SHAPE = {"l": "é", "b": "YWI=", "u": "ü", "e": "é", "s": ["ü", "ä"]}

# Primary keys whose columns aren't in the table's order, one of them with a prefix; values that a log has in a rare form.
KEYS = """CREATE TABLE drawn.turned (a INT, b INT, c INT, PRIMARY KEY (c, a));
CREATE TABLE drawn.prefixed (a INT, s VARCHAR(9) CHARACTER SET latin1, PRIMARY KEY (s(3), a));
CREATE TABLE drawn.unkeyed (a INT, b INT);
CREATE TABLE drawn.rare (t TIMESTAMP(3) NULL, z TIMESTAMP NULL, e ENUM('a', 'b'), d DATETIME(2), b BIT(64));
SET sql_mode = '', time_zone = '+00:00';
INSERT INTO drawn.turned VALUES (1, 2, 3);
INSERT INTO drawn.prefixed VALUES (1, 'x');
INSERT INTO drawn.unkeyed VALUES (1, 2);
INSERT INTO drawn.rare VALUES ('1970-01-01 00:00:00.5', '0000-00-00', 'none', '2026-11-28 10:00:00.25', b'1');
"""
PRIMARY_KEYS = {"turned": ["c", "a"], "prefixed": ["s", "a"], "unkeyed": None, "rare": None}
RARE = {"t": "1970-01-01 00:00:00.500", "z": "0000-00-00 00:00:00", "e": 0, "d": "2026-11-28 10:00:00.25", "b": 1}

# Character sets whose text is printed in Base64, each with text that is in it.
UNDECODED = {"gbk": "茅é", "gb2312": "中", "big5": "中", "sjis": "ア", "cp932": "ア", "ujis": "ア", "eucjpms": "ア", "euckr": "한"}
UNICODE = ("utf8mb3", "utf8mb4", "ucs2", "utf16", "utf16le", "utf32")


# For the types of columns, the server's expression for a cell, and how its text and the JSON value compare.
def forms(kind):
    """The server's expression for a column of this type, and what both its text and the JSON value are made into."""
    if kind.startswith(("FLOAT", "DOUBLE")):
        code = ">f" if kind == "FLOAT" else ">d"
        return "{}", lambda text: struct.pack(code, float(text)), lambda value: struct.pack(code, float(value))
    if kind.startswith("BIT"):
        return "{}+0", int, int
    if kind.startswith(("DECIMAL", "DATE", "TIME")):
        return "{}", str, str
    if kind.startswith("ENUM"):
        return "{}", str, str
    if kind.startswith("SET"):
        return "{}", str, ",".join
    if kind.startswith("BINARY"):
        return "HEX({})", lambda text: bytes.fromhex(text).rstrip(b"\0"), lambda value: b64decode(value).rstrip(b"\0")
    if "BINARY" in kind or "BLOB" in kind:
        return "HEX({})", bytes.fromhex, b64decode
    if "CHAR" in kind or "TEXT" in kind:
        return "HEX({})", bytes.fromhex, str.encode
    return "{}", int, int


def server_rows(server, database):
    """Each table's rows."""
    held = {}
    for table, columns in SERVER.TABLES.items():
        made = [forms(kind) for kind, _ in columns]
        cells = ", ".join(it[0].format(f"c{index}") for index, it in enumerate(made))
        rows = server.ask(f"SET time_zone = '+00:00'; SELECT {cells} FROM {database}.{table};")
        held[database, table] = collections.Counter(
            tuple(None if cell is None else it[1](cell) for it, cell in zip(made, row)) for row in rows
        )
    return held


def replayed(lines):
    """The rows of the tables after the changes of the lines."""
    held = {}
    for line in lines:
        if line["type"] == "statement":
            continue
        columns = SERVER.TABLES[line["table"]]
        made = [forms(kind) for kind, _ in columns]
        row = lambda data: tuple(None if (v := data[f"c{i}"]) is None else it[2](v) for i, it in enumerate(made))
        rows = held.setdefault((line["database"], line["table"]), collections.Counter())
        if line["type"] == "update":
            rows[row({**line["data"], **line["old"]})] -= 1
        rows[row(line["data"])] += -1 if line["type"] == "delete" else 1
    return {table: collections.Counter({row: n for row, n in rows.items() if n}) for table, rows in held.items()}


def texts(server):
    """Statements that insert text in each of the server's character sets, and what the lines must have of it, by table."""
    found = server.ask("SELECT character_set_name FROM information_schema.character_sets WHERE maxlen = 1;")
    statements, wanted = [], {}
    for (name,) in found:
        if name == "binary":
            continue
        one = "HEX(CONVERT(CONVERT(UNHEX('{:02X}') USING {}) USING utf8mb4))"
        codes = server.ask("SELECT " + ", ".join(one.format(byte, name) for byte in range(1, 256)) + ";")[0]
        characters = [bytes.fromhex(code).decode() for code in codes]
        known, lost = [], []
        for byte, character in enumerate(characters, 1):
            is_own = characters.index(character) == byte - 1 and character != "\ufffd" and (character != "?" or byte == 63)
            (known if is_own else lost).append(byte)
        rows = [bytes(known), *([bytes(lost)] if lost else [])]
        shown = ["".join(characters[byte - 1] for byte in known), {"base64": b64encode(bytes(lost)).decode()}]
        wanted[f"in_{name}"] = [(text, "a") for text in shown[: len(rows)]]
        statements += [text_table(name, "a"), *(f"INSERT INTO drawn.in_{name} VALUES (UNHEX('{it.hex()}'), 1);" for it in rows)]
    for name in UNICODE:
        text = 'aé"\\\n茅' + ("" if name in ("utf8mb3", "ucs2") else "😀")
        wanted[f"in_{name}"] = [(text, "é")]
        statements += [
            text_table(name, "é"),
            f"INSERT INTO drawn.in_{name} VALUES (CONVERT(UNHEX('{text.encode().hex()}') USING utf8mb4), 1);",
        ]
    for name, text in UNDECODED.items():
        encoded = server.ask(f"SELECT HEX(CONVERT('{text}' USING {name}));")[0][0]
        value = {"base64": b64encode(bytes.fromhex(encoded)).decode()}
        wanted[f"in_{name}"] = [(value, value), ({"base64": "aGk="}, value)]
        statements += [text_table(name, text), f"INSERT INTO drawn.in_{name} VALUES ('{text}', 1), ('hi', 1);"]
    return "\n".join(statements), wanted


def text_table(name, member):
    """The statement that makes a table with text and an ENUM in a character set."""
    return f"CREATE TABLE drawn.in_{name} (t VARCHAR(300) CHARACTER SET {name}, e ENUM('{member}') CHARACTER SET {name});"


def compare_texts(lines, wanted):
    """Compares the lines of the tables with text."""
    for table, rows in wanted.items():
        found = [(it["data"]["t"], it["data"]["e"]) for it in lines if it.get("table") == table]
        expect(found == rows, f"{table}: {found} and not {rows}")


def compare_keys(lines):
    """Compares the lines of the tables with primary keys and rare values."""
    keys = {it["table"]: it.get("primary_key") for it in lines if it.get("table") in PRIMARY_KEYS}
    expect(keys == PRIMARY_KEYS, f"primary keys: {keys}")
    rare = [it["data"] for it in lines if it.get("table") == "rare"]
    expect(rare == [RARE], f"rare values: {rare}")


def compare_gtids(lines, paths):
    """Compares the GTIDs of the lines with those that mariadb-binlog prints, and their statements with its annotations."""
    if shutil.which(SERVER.PRINT[0]) is None:
        return
    printed = subprocess.run([*SERVER.PRINT, "--base64-output=decode-rows", *paths], capture_output=True, check=True).stdout
    gtids = [it.decode() for it in re.findall(rb"\tGTID (\d+-\d+-\d+)", printed)]
    found = [gtid for gtid, _ in itertools.groupby(it["gtid"] for it in lines)]
    expect(found == gtids, f"GTIDs: {found} and not {gtids}")
    expect(all("query" in it for it in lines if it["type"] != "statement"), "rows without their statement")


def with_server(program, daemon, folder):
    """The lines of a server's logs give its tables; returns their number."""
    server = SERVER.Server(daemon, folder)
    try:
        server.ask("SET GLOBAL binlog_row_metadata = FULL;")
        server.ask(SERVER.script("checked"))
        server.ask(SHAPES)
        server.ask(KEYS)
        statements, wanted_texts = texts(server)
        server.ask("SET NAMES utf8mb4; SET sql_mode = '';" + statements)
        server.ask("SET GLOBAL log_bin_compress = ON; SET GLOBAL log_bin_compress_min_len = 10;")
        server.ask(SERVER.script("compressed"))
        server.ask("SET GLOBAL binlog_checksum = NONE;")
        server.ask(SERVER.script("unchecked"))
        wanted = {}
        for database in ("checked", "compressed", "unchecked"):
            wanted.update(server_rows(server, database))
    finally:
        server.stop()
    paths = sorted(folder.glob("log.0*"))
    lines = lines_of(program, *paths, "--with", "query")
    compare_gtids(lines, paths)
    shapes = [it["data"] for it in lines if it.get("table") == "shapes"]
    expect([{name: it[name] for name in SHAPE} for it in shapes] == [SHAPE], f"shapes: {shapes}")
    compare_keys(lines)
    compare_texts(lines, wanted_texts)
    held = replayed([it for it in lines if it.get("database") != "drawn"])
    for table, rows in wanted.items():
        found = held.get(table, collections.Counter())
        for row in (rows - found) + (found - rows):
            sys.exit(f"changes: {table}: {'the server' if row in rows else 'the output'} alone has {row}")
    return len(lines)
