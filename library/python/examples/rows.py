"""Prints each changed row of logs with its cells, through binary records: rows.py FILE..

A line is what happened, the table, the position after the event, and the images: a cell is its column, "=", a letter for its
kind, and its value; bytes are hexadecimal.
"""
import struct
import sys
from decimal import Decimal
from typing import List

import cuvragyen
from cuvragyen import _record


def named(text: str) -> str:
    return text.encode("utf-8", "surrogateescape").hex()


def value_text(column: cuvragyen.Column, value: _record.Value) -> str:
    if value is None or value is cuvragyen.ABSENT:
        return "N" if value is None else "A"
    if isinstance(value, int):
        return f"{'u' if column.is_unsigned or column.type in (13, 16, 247, 248) else 'i'}{value}"
    if isinstance(value, float):
        return f"f{struct.pack('>f', value).hex()}" if column.type == 4 else f"d{struct.pack('>d', value).hex()}"
    if isinstance(value, Decimal):
        return f"D{value:f}"
    if isinstance(value, cuvragyen.JsonText):
        return f"J{named(value)}"
    if isinstance(value, cuvragyen.JsonUpdates):
        return f"U{named(value)}"
    return f"T{named(value)}" if isinstance(value, str) else f"b{value.hex()}"


def image(table: cuvragyen.Table, cells: List[_record.Value]) -> str:
    return "".join(f" {named(column.name)}={value_text(column, cell)}" for column, cell in zip(table.columns, cells))


def print_change(change: _record.Change) -> None:
    if isinstance(change, cuvragyen.Statement):
        print(f"statement {named(change.database)} {change.position} | {change.text.hex()}")
        return
    table = change.table
    for row in change.rows():
        images = "".join(f" |{image(table, cells)}" for cells in row if cells is not None)
        print(f"{change.kind} {named(table.database)}.{named(table.name)} {change.position}{images}")


def main() -> None:
    for path in sys.argv[1:]:
        try:
            for transaction in cuvragyen.log(path, records=True):
                for change in transaction.record().changes():
                    print_change(change)
        except cuvragyen.Fault as fault:
            print(f"rows: {path}: {fault}", file=sys.stderr)


if __name__ == "__main__":
    main()
