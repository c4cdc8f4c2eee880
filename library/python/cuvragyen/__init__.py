"""The committed changes of MySQL's binary logs, by the proved reader libcuvragyen.

    import cuvragyen

    for transaction in cuvragyen.log("binlog.000001", table=["shop.orders"]):
        for change in transaction.changes():
            print(change["type"], change["data"])

With records=True a transaction is a binary record instead, whose rows and cells are values:

    for transaction in cuvragyen.log("binlog.000001", records=True):
        for change in transaction.record().changes():
            if isinstance(change, cuvragyen.Rows):
                for before, after in change.rows():
                    print(change.kind, change.table.name, before, after)

The library is loaded from the path in CUVRAGYEN_LIBRARY, or as the loader finds libcuvragyen.so.0.
"""
from ._library import Fault, crc32, kept_json, request, version
from ._log import End, Header, Log, Transaction, log
from ._record import ABSENT, Column, JsonText, JsonUpdates, Record, Row, Rows, Statement, Table

__all__ = [
    "ABSENT",
    "Column",
    "End",
    "Fault",
    "Header",
    "JsonText",
    "JsonUpdates",
    "Log",
    "Record",
    "Row",
    "Rows",
    "Statement",
    "Table",
    "Transaction",
    "crc32",
    "kept_json",
    "log",
    "request",
    "version",
]
