"""The calls of cuvragyen.h."""
from __future__ import annotations

import ctypes
import os
from typing import Optional, Tuple


def _path() -> str:
    """The shared library: that which the environment names, that of a wheel, or that which the system finds."""
    own = os.path.join(os.path.dirname(os.path.abspath(__file__)), "libcuvragyen.so")
    return os.environ.get("CUVRAGYEN_LIBRARY") or (own if os.path.exists(own) else "libcuvragyen.so.0")


LIBRARY = ctypes.CDLL(_path())
OK, TRANSACTION = 0, 1
NAMES = {2: "ClosedHandle", 3: "Option", 4: "Value", 6: "Schema"}
BAD_SCHEMA = 6
END = 100
MAX_FILE_LEN = 1024


class Handle(ctypes.Structure):
    _fields_ = [("log", ctypes.c_void_p), ("state", ctypes.c_void_p), ("options", ctypes.c_void_p)]


class View(ctypes.Structure):
    _fields_ = [("at", ctypes.c_void_p), ("len", ctypes.c_size_t)]


class CommitHeader(ctypes.Structure):
    _fields_ = [("time", ctypes.c_uint32), ("server_id", ctypes.c_uint32), ("position", ctypes.c_uint32)]


class Ended(ctypes.Structure):
    _fields_ = [
        ("offset", ctypes.c_uint64),
        ("remaining", ctypes.c_uint64),
        ("verdict", ctypes.c_uint32),
        ("last_commit", ctypes.c_uint32),
        ("event_type", ctypes.c_uint32),
        ("event_size", ctypes.c_uint32),
        ("newest_type", ctypes.c_uint32),
        ("has_last_commit", ctypes.c_bool),
        ("has_event", ctypes.c_bool),
        ("has_newest_type", ctypes.c_bool),
        ("is_open", ctypes.c_bool),
        ("is_cut", ctypes.c_bool),
    ]


class Kept(ctypes.Structure):
    _fields_ = [
        ("len", ctypes.c_uint64),
        ("file_len", ctypes.c_uint64),
        ("position", ctypes.c_uint32),
        ("has_position", ctypes.c_bool),
    ]


def _declare(name: str, result: object, *arguments: object) -> None:
    call = getattr(LIBRARY, "cuvragyen_" + name)
    call.restype = result
    call.argtypes = arguments


U32, SIZE, BYTES = ctypes.c_uint32, ctypes.c_size_t, ctypes.c_void_p
_declare("version", ctypes.c_char_p)
_declare("open", U32, ctypes.POINTER(Handle), ctypes.c_char_p, SIZE)
_declare(
    "open_with_schema", U32, ctypes.POINTER(Handle), ctypes.c_char_p, SIZE, ctypes.c_char_p, SIZE, ctypes.POINTER(ctypes.c_uint64)
)
_declare("push", U32, ctypes.POINTER(Handle), BYTES, SIZE)
_declare("next", U32, ctypes.POINTER(Handle))
_declare("show", U32, ctypes.POINTER(Handle), ctypes.POINTER(View))
_declare("commit", U32, ctypes.POINTER(Handle), ctypes.POINTER(CommitHeader))
_declare("stop", U32, ctypes.POINTER(Handle), ctypes.POINTER(Ended))
_declare("close", None, ctypes.POINTER(Handle))
_declare("verdict_name", None, U32, ctypes.POINTER(View))
_declare("crc32", U32, ctypes.c_char_p, SIZE)
_declare("request", SIZE, U32, U32, ctypes.c_char_p, SIZE, ctypes.c_char_p, SIZE)
_declare("kept_json", U32, ctypes.c_char_p, SIZE, ctypes.POINTER(Kept), ctypes.c_char_p, SIZE)


class Fault(Exception):
    """Why a log can't be opened or read further. `number` is that of the header's constants, `line` that of a schema's line."""

    def __init__(self, number: int, line: int = 0) -> None:
        self.number = number
        self.line = line
        super().__init__(verdict_name(number) + (f", line {line}" if line else ""))


def verdict_name(number: int) -> str:
    """The name of a verdict, such as Checksum; ClosedHandle for a closed log, Option, Value or Schema for what can't be taken."""
    if number in NAMES:
        return NAMES[number]
    view = View()
    LIBRARY.cuvragyen_verdict_name(number, ctypes.byref(view))
    return ctypes.string_at(view.at, view.len).decode() if view.len else "Unknown"


def version() -> str:
    """The version of the library."""
    return LIBRARY.cuvragyen_version().decode()


def crc32(data: bytes) -> int:
    """The CRC-32 of bytes, with which MySQL checksums the events of a log."""
    return LIBRARY.cuvragyen_crc32(data, len(data))


def request(position: int, server_id: int, name: str) -> bytes:
    """The packet that asks a server for the events of a log from a position on. A name is at most 511 bytes long."""
    name_bytes = name.encode()
    packet = ctypes.create_string_buffer(len(name_bytes) + 15)
    length = LIBRARY.cuvragyen_request(position, server_id, name_bytes, len(name_bytes), packet, len(packet))
    if not length:
        raise ValueError("the name is longer than 511 bytes")
    return packet.raw[:length]


def kept_json(lines: bytes) -> Tuple[int, Optional[Tuple[str, int]]]:
    """How much of truncated JSON lines is complete transactions, and the log and the position to resume from."""
    kept, file = Kept(), ctypes.create_string_buffer(MAX_FILE_LEN)
    result = LIBRARY.cuvragyen_kept_json(lines, len(lines), ctypes.byref(kept), file, len(file))
    if result != OK:
        raise Fault(result)
    point = (file.raw[: kept.file_len].decode(errors="replace"), kept.position) if kept.has_position else None
    return kept.len, point
