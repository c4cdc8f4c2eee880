"""Transactions as values: binary records, as docs/library/RECORDS.md describes them, read without a copy."""
from __future__ import annotations

from decimal import Decimal
from struct import Struct
from typing import Dict, Iterator, List, NamedTuple, Optional, Tuple, Union

VERSION = 1
_HEAD = Struct("<IIQQQIIIIQQ")
_ELEMENT = Struct("<IIQ")
_EVENT = Struct("<II")
_ROWS = Struct("<IIQ")
_COLUMN = Struct("<BBHQQ")
_WORD = Struct("<Q")
_SIGNED = Struct("<q")
_FLOAT = Struct("<f")
_DOUBLE = Struct("<d")
KINDS = {1: "insert", 2: "update", 3: "delete"}
STATEMENT, TABLE = 4, 5
ABSENT_CELL, NULL_CELL, SIGNED, UNSIGNED, FLOAT, DOUBLE = range(6)
BYTES, DECIMAL, TIME, JSON, JSON_UPDATES = range(8, 13)


class Absent:
    """The value of a cell that the log hasn't: `cuvragyen.ABSENT`."""

    def __repr__(self) -> str:
        return "ABSENT"

    def __bool__(self) -> bool:
        return False


ABSENT = Absent()
Value = Union[None, int, float, str, memoryview, Decimal, Absent]
Image = List[Value]


class JsonText(str):
    """A JSON document as its text."""

    __slots__ = ()


class JsonUpdates(str):
    """The updates of a JSON document, as JSON."""

    __slots__ = ()


class Column(NamedTuple):
    """A column of a table. `collation` is the number of its collation, 63 for bytes; 0: it isn't known, or has none."""

    name: str
    type: int
    is_unsigned: bool
    is_key: bool
    is_nullable: bool
    collation: int
    members: Tuple[bytes, ...]


class Table(NamedTuple):
    """A table: its names and its columns."""

    database: str
    name: str
    columns: Tuple[Column, ...]


class Statement(NamedTuple):
    """A statement that changed something: its database, its text, the time of its event, and the position after it."""

    database: str
    text: bytes
    time: int
    position: int


class Row(NamedTuple):
    """A row: its image before the change, of an update or a delete, and the one after it, of an update or an insert."""

    before: Optional[Image]
    after: Optional[Image]


def _text(view: memoryview, at: int) -> Tuple[memoryview, int]:
    """The text at an offset, and the offset of its end."""
    (length,) = _WORD.unpack_from(view, at)
    return view[at + 8 : at + 8 + length], at + 8 + length


def _name(view: memoryview) -> str:
    return str(view, "utf-8", "surrogateescape")


def _table(view: memoryview) -> Table:
    database, at = _text(view, 0)
    name, at = _text(view, at)
    (count,) = _WORD.unpack_from(view, at)
    at += 8
    columns = []
    for _ in range(count):
        number, bits, collation, members, length = _COLUMN.unpack_from(view, at)
        at += _COLUMN.size + length
        column, values = _name(view[at - length : at]), []
        for _ in range(members):
            value, at = _text(view, at)
            values.append(bytes(value))
        columns.append(Column(column, number, bool(bits & 1), bool(bits & 2), bool(bits & 4), collation, tuple(values)))
    return Table(_name(database), _name(name), tuple(columns))


def _image(view: memoryview, at: int, count: int) -> Tuple[Image, int]:
    """The cells of an image at an offset, and the offset of its end."""
    cells: Image = []
    append, word = cells.append, _WORD.unpack_from
    for _ in range(count):
        kind = view[at]
        at += 1
        if kind == NULL_CELL:
            append(None)
        elif kind == ABSENT_CELL:
            append(ABSENT)
        elif kind >= BYTES:
            (length,) = word(view, at)
            at += 8 + length
            value = view[at - length : at]
            if kind == BYTES:
                append(value)
            elif kind == DECIMAL:
                append(Decimal(str(value, "ascii")))
            elif kind == TIME:
                append(str(value, "ascii"))
            else:
                text = str(value, "utf-8", "surrogateescape")
                append(JsonUpdates(text) if kind == JSON_UPDATES else JsonText(text))
        else:
            if kind == SIGNED:
                append(_SIGNED.unpack_from(view, at)[0])
            elif kind == UNSIGNED:
                append(word(view, at)[0])
            elif kind == FLOAT:
                append(_FLOAT.unpack_from(view, at)[0])
            else:
                append(_DOUBLE.unpack_from(view, at)[0])
            at += 8
    return cells, at


class Rows:
    """Rows of a table that one event inserted, updated or deleted.

    Integers, years and bits are int, FLOAT and DOUBLE float, DECIMAL Decimal; dates and times str, as MySQL writes
    them; JSON documents JsonText, and their updates JsonUpdates; bytes and text memoryview, without a copy, valid as
    long as the record. NULL is None, and a cell that the log hasn't ABSENT. The member of an ENUM is its number from 1
    on, a SET a number with a bit for each member.
    """

    __slots__ = ("kind", "table", "time", "position", "row_count", "_view")

    def __init__(self, kind: str, table: Table, view: memoryview) -> None:
        self.kind = kind
        self.table = table
        self.time, self.position, self.row_count = _ROWS.unpack_from(view)
        self._view = view

    def rows(self) -> Iterator[Row]:
        """The rows, one by one."""
        view, at, count = self._view, _ROWS.size, len(self.table.columns)
        for _ in range(self.row_count):
            first, at = _image(view, at, count)
            if self.kind == "insert":
                yield Row(None, first)
            elif self.kind == "delete":
                yield Row(first, None)
            else:
                second, at = _image(view, at, count)
                yield Row(first, second)


Change = Union[Rows, Statement]


class Record:
    """A transaction as a binary record. It and its views are valid until its log goes on; one of bytes of your own for good."""

    __slots__ = ("begin", "position", "time", "server_id", "change_count", "row_count", "gtid", "_view", "_start")

    def __init__(self, data: Union[bytes, memoryview]) -> None:
        view = memoryview(data)
        if len(view) < _HEAD.size:
            raise ValueError("the bytes aren't a record: open the log with records=True")
        head = _HEAD.unpack_from(view)
        (
            version,
            _,
            length,
            self.change_count,
            self.row_count,
            self.begin,
            self.position,
            self.time,
            self.server_id,
            _,
            gtid,
        ) = head
        if version != VERSION or length != len(view):
            raise ValueError("the bytes aren't a record: open the log with records=True")
        self._start = _HEAD.size + gtid
        self.gtid: Optional[str] = _name(view[_HEAD.size : self._start]) or None
        self._view = view

    def changes(self) -> Iterator[Change]:
        """Its changes, in the order of the log: Rows, and Statements."""
        view, at, tables = self._view, self._start, {}  # type: memoryview, int, Dict[int, Table]
        while at < len(view):
            kind, table, length = _ELEMENT.unpack_from(view, at)
            content = view[at + 16 : at + 16 + length]
            at += 16 + length
            if kind in KINDS:
                yield Rows(KINDS[kind], tables[table], content)
            elif kind == TABLE:
                tables[table] = _table(content)
            elif kind == STATEMENT:
                time, position = _EVENT.unpack_from(content)
                database, end = _text(content, 8)
                yield Statement(_name(database), bytes(_text(content, end)[0]), time, position)
