"""Logs that arrive in pieces, and their transactions."""
from __future__ import annotations

import ctypes
import json
import os
from typing import Any, Dict, Iterator, NamedTuple, Optional, Sequence, Union

from . import _library as c
from ._record import Record

PIECE_LEN = 1 << 18
Names = Union[str, Sequence[str]]


class Header(NamedTuple):
    """The event that committed a transaction: its time in seconds since 1970, its server, and the position after it."""

    time: int
    server_id: int
    position: int


class End(NamedTuple):
    """How the reading of a log ended, as cuvragyen_end of the header."""

    verdict: str
    offset: int
    remaining: int
    last_commit: Optional[int]
    event_type: Optional[int]
    event_size: Optional[int]
    newest_type: Optional[int]
    is_open: bool
    is_cut: bool

    @property
    def is_whole(self) -> bool:
        """Whether the log has no fault, and ends after an event and outside a transaction."""
        return self.verdict == "End" and not self.is_open and not self.is_cut


def _is_there(result: int) -> None:
    """Raises an error if a call found no transaction."""
    if result == c.OK:
        raise ValueError("the log has gone on from this transaction")
    if result != c.TRANSACTION:
        raise c.Fault(result)


class Transaction:
    """A committed transaction. It and its views are valid until its log goes on."""

    def __init__(self, log: Log) -> None:
        self._log = log

    @property
    def header(self) -> Header:
        """The event that committed it."""
        header = c.CommitHeader()
        _is_there(c.LIBRARY.cuvragyen_commit(self._log._handle, ctypes.byref(header)))
        return Header(header.time, header.server_id, header.position)

    def view(self) -> memoryview:
        """Its JSON lines, or its binary record, without a copy."""
        view = c.View()
        _is_there(c.LIBRARY.cuvragyen_show(self._log._handle, ctypes.byref(view)))
        return memoryview((ctypes.c_ubyte * view.len).from_address(view.at)).cast("B").toreadonly()

    def record(self) -> Record:
        """It as a binary record, without a copy, of a log that was opened with records=True."""
        return Record(self.view())

    def lines(self) -> bytes:
        """Its JSON lines, each with a line feed."""
        return bytes(self.view())

    def changes(self) -> Iterator[Dict[str, Any]]:
        """Its changes: the objects of its JSON lines."""
        return map(json.loads, self.lines().splitlines())


def _options(file: str, flags: Dict[str, Union[Names, int, bool, None]]) -> bytes:
    """The options as the text that cuvragyen_open takes."""
    lines = ["file=" + file]
    for name, value in flags.items():
        values = [value] if isinstance(value, (str, int)) else value or []
        lines += [f"{name.replace('_', '-')}={int(it) if isinstance(it, bool) else it}" for it in values]
    if any("\n" in line for line in lines):
        raise ValueError("an option has a line feed")
    return "\n".join(lines).encode()


class Log:
    """A binary log that arrives in pieces. The options are those of cuvragyen_open, with underscores for hyphens.

    `schema` is the text of a schema that completes table maps, as binlog-changes --schema takes it. A Fault of it has the line.
    """

    def __init__(self, file: str = "", schema: bytes = b"", **options: Union[Names, int, bool, None]) -> None:
        self._handle = c.Handle()
        text = _options(file, {"with" if name == "with_" else name: value for name, value in options.items()})
        line = ctypes.c_uint64(0)
        result = c.LIBRARY.cuvragyen_open_with_schema(self._handle, text, len(text), schema, len(schema), ctypes.byref(line))
        if result != c.OK:
            raise c.Fault(result, line.value)

    def push(self, piece: Union[bytes, bytearray, memoryview]) -> None:
        """Keeps the next bytes of the log, a piece of any length. Take its transactions before the next piece."""
        data = piece if isinstance(piece, bytes) else bytes(piece)
        result = c.LIBRARY.cuvragyen_push(self._handle, data, len(data))
        if result != c.OK:
            raise c.Fault(result)

    def __iter__(self) -> Iterator[Transaction]:
        """The transactions that are complete and that the options select."""
        go_on, transaction = c.LIBRARY.cuvragyen_next, Transaction(self)
        while True:
            result = go_on(self._handle)
            if result == c.TRANSACTION:
                yield transaction
            elif result == c.OK:
                return
            else:
                raise c.Fault(result)

    def stop(self) -> End:
        """Ends the log, and returns how it ended: by End if it has no fault."""
        end = c.Ended()
        result = c.LIBRARY.cuvragyen_stop(self._handle, ctypes.byref(end))
        if result != c.OK:
            raise c.Fault(result)
        return End(
            c.verdict_name(end.verdict),
            end.offset,
            end.remaining,
            end.last_commit if end.has_last_commit else None,
            end.event_type if end.has_event else None,
            end.event_size if end.has_event else None,
            end.newest_type if end.has_newest_type else None,
            end.is_open,
            end.is_cut,
        )

    def close(self) -> None:
        """Closes the log, and frees what it has."""
        c.LIBRARY.cuvragyen_close(self._handle)

    def __enter__(self) -> Log:
        return self

    def __exit__(self, *_: object) -> None:
        self.close()

    def __del__(self) -> None:
        if hasattr(self, "_handle"):
            self.close()


def log(path: Union[str, os.PathLike], schema: bytes = b"", **options: Union[Names, int, bool, None]) -> Iterator[Transaction]:
    """The transactions of a log in a file. Raises a Fault where the log can't be read further, or isn't whole."""
    options.setdefault("file", os.path.basename(os.fspath(path)))
    file = str(options.pop("file"))
    with open(path, "rb") as source, Log(file, schema, **options) as reader:
        while True:
            piece = source.read(PIECE_LEN)
            if not piece:
                break
            reader.push(piece)
            yield from reader
        end = reader.stop()
        if not end.is_whole:
            raise c.Fault(c.END)
