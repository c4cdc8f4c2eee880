"""What the JSON lines of a log say, made of its binary records: a second reader of cells, in the terms of docs/FORMAT.md."""
import base64
import json
import struct

ENUM, SET = 247, 248


def text_or_base64(data):
    """Bytes as the lines have them whose character set isn't one of UTF-8: only the Base64 can be compared."""
    return {"base64": base64.b64encode(bytes(data)).decode()}


def member_text(data):
    try:
        return bytes(data).decode()
    except UnicodeDecodeError:
        return text_or_base64(data)


def bits_of(number, members):
    """A SET as an array of its members."""
    if not members:
        return number
    return [member_text(members[bit]) if bit < len(members) else 1 << bit for bit in range(64) if number >> bit & 1]


def value_of(record, column, value):
    """The value of a cell as a line's JSON has it."""
    if value is None or isinstance(value, (int, float)):
        if isinstance(value, int) and column.type == ENUM:
            return member_text(column.members[value - 1]) if 0 < value <= len(column.members) else value
        if isinstance(value, int) and column.type == SET:
            return bits_of(value, column.members)
        if isinstance(value, float) and value != value:
            return "NaN"
        if isinstance(value, float) and value in (float("inf"), float("-inf")):
            return "inf" if value > 0 else "-inf"
        return value
    if isinstance(value, (record.JsonText, record.JsonUpdates)):
        return json.loads(value)
    if isinstance(value, memoryview):
        return bytes(value)
    return str(value)


def fits(value, json_value):
    """Whether a value of a record is that of a line; bytes may be text of a character set, or Base64."""
    if isinstance(value, bytes):
        if isinstance(json_value, dict):
            return json_value == text_or_base64(value)
        if base64.b64encode(value).decode() == json_value:
            return True
        return any(
            decoded(value, name) == json_value for name in ("utf-8", "latin-1", "cp1252", "utf-16-be", "utf-32-be", "utf-16-le")
        )
    if isinstance(value, float) and isinstance(json_value, float):
        return value == json_value or struct.pack("<f", value) == struct.pack("<f", json_value)
    return value == json_value and isinstance(value, bool) == isinstance(json_value, bool)


def decoded(data, name):
    try:
        return data.decode(name)
    except UnicodeDecodeError:
        return None


def image(record, columns, cells):
    """The cells that are there, by the names of their columns."""
    assert len(columns) == len(cells)
    names = [column.name for column in columns]
    if len(set(names)) < len(names) or not all(names):
        names = [f"@{at}" for at in range(len(names))]
    return {
        name: value_of(record, column, cell) for name, column, cell in zip(names, columns, cells) if cell is not record.ABSENT
    }


def changes_in(record, data):
    """What the records say, change by change: the kind, the members of a line, and the images."""
    at = 0
    while at < len(data):
        length = int.from_bytes(data[at + 8 : at + 16], "little")
        transaction = record.Record(data[at : at + length])
        at += length
        gtid = transaction.gtid
        shared = {
            "gtid": json.loads(gtid) if (gtid or "").startswith("{") else gtid,
            "position": transaction.position,
            "begin": transaction.begin,
            "server_id": transaction.server_id,
        }
        changes = rows = 0
        for change in transaction.changes():
            changes += 1
            if isinstance(change, record.Statement):
                rows += 1
                yield "statement", {
                    **shared,
                    "database": change.database,
                    "ts": change.time,
                    "sql": change.text.decode(errors="replace"),
                }, None, None
                continue
            table, count = change.table, 0
            for row in change.rows():
                count += 1
                before = None if row.before is None else image(record, table.columns, row.before)
                after = None if row.after is None else image(record, table.columns, row.after)
                yield change.kind, {**shared, "database": table.database, "table": table.name, "ts": change.time}, before, after
            assert count == change.row_count
            rows += count
        assert (changes, rows) == (transaction.change_count, transaction.row_count)


def differs(record, data, lines):
    """What differs between the records of a log and its JSON lines; None if nothing does."""
    lines = [json.loads(line) for line in lines.splitlines()]
    found = list(changes_in(record, data))
    if len(found) != len(lines):
        return f"{len(found)} changes, and {len(lines)} lines"
    for number, ((kind, members, before, after), line) in enumerate(zip(found, lines)):
        if kind != line["type"]:
            return f"change {number}: {kind}, and {line['type']}"
        for name, value in members.items():
            if name in line and not fits(value, line[name]):
                return f"change {number}: {name} {value!r}, and {line[name]!r}"
        if kind == "statement":
            continue
        wanted = line["data"]
        merged = {**(before or {}), **(after or {})}
        if set(merged) != set(wanted):
            return f"change {number}: columns {sorted(merged)}, and {sorted(wanted)}"
        for name, value in merged.items():
            if not fits(value, wanted[name]):
                return f"change {number}: {name} {value!r}, and {wanted[name]!r}"
        for name, value in line.get("old", {}).items():
            if not fits(before[name], value):
                return f"change {number}: old {name} {before[name]!r}, and {value!r}"
        if kind == "update" and any(
            name in before
            and name in after
            and before[name] != after[name]
            and name not in line["old"]
            and after[name] == after[name]
            for name in before
        ):
            return f"change {number}: an old value isn't in the line"
    return None
