#!/usr/bin/python3
"""Prints a MariaDB server's answer over all its logs from one on, with its own events, up to its end.

usage: answer.py SOCKET LOG POSITION
"""
import struct
import sys
from argparse import Namespace
from pathlib import Path

sys.path.insert(0, str(Path(__file__).resolve().parents[2] / "capture"))
sys.dont_write_bytecode = True
from binlog_capture.faults import Final  # noqa: E402
from binlog_capture.packets import Packets  # noqa: E402
from binlog_capture.server import CHECKSUMS, DUMP, Login, Server  # noqa: E402

NON_BLOCK, SERVER_ID = 1, 77
OPTIONS = Namespace(defaults_file=None, user="root", tls=False, tls_ca=None, tls_cert=None, tls_key=None, server_id=SERVER_ID)


def main():
    socket, name, position = sys.argv[1:]
    server = Server(socket, Login(OPTIONS))
    server.row(CHECKSUMS)
    server.row("SET @mariadb_slave_capability = 4")
    server.command(DUMP, struct.pack("<IHI", int(position), NON_BLOCK, SERVER_ID) + name.encode())
    try:
        for piece in server.answer(Packets()):
            sys.stdout.buffer.write(piece)
    except Final:
        pass  # the answer ends with the server's error


main()
