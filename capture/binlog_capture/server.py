"""A server: the login, which is PyMySQL's, where its log begins and ends, and dump requests."""
import os
import select
import ssl
import struct
import sys
from collections import namedtuple

from . import gtids
from .faults import Dropped, Final
from .packets import Packets

try:
    import pymysql
    from pymysql.constants import CLIENT, COMMAND
    from pymysql.optionfile import Parser
except ImportError:
    sys.exit("binlog-capture: PyMySQL isn't installed for this Python: apt-get install python3-pymysql")

# A dump has no call in PyMySQL: these parts of its connections are used, which are the same from version 0.10 to 1.1.
INTERNALS = ("_execute_command", "_read_ok_packet", "_get_server_information", "_process_auth", "_force_close")
CHECKSUMS = "SET @master_binlog_checksum = @@GLOBAL.binlog_checksum, @source_binlog_checksum = @@GLOBAL.binlog_checksum"
REGISTER, DUMP, DUMP_BY_GTIDS = 0x15, 0x12, 0x1E
ANNOTATES, THROUGH_GTID = 2, 4  # flags of requests: MariaDB's and MySQL's
UNKNOWN_VARIABLE, PARSE_ERROR = 1193, 1064
# Errors that another try doesn't set right: access denied, no right, a user that isn't let in.
REFUSALS = (1044, 1045, 1049, 1130, 1227, 1251, 1698, 2049, 2059)
FATAL_READ_ERROR = 1236
CONNECT_SECONDS = 10
READ_SIZE = 1 << 17
SEMI_SYNC = ("rpl_semi_sync_master_enabled", "rpl_semi_sync_source_enabled")

# A position of a log, and the GTIDs up to it as a text; None where it isn't known.
Place = namedtuple("Place", "file position gtids")
NOWHERE = Place(None, None, None)


class Connection(pymysql.connections.Connection):
    """PyMySQL's, which falls back to plain text if a server has no TLS, and sends a password in clear text if one asks."""

    def _get_server_information(self):
        super()._get_server_information()
        if self.ssl and not self.server_capabilities & CLIENT.SSL:
            raise Final("the server has no TLS")

    def _process_auth(self, plugin_name, auth_packet):
        if plugin_name in (b"mysql_clear_password", b"mysql_old_password", b"dialog") and not self._secure:
            raise Final(f"the server wants the password in clear text ({plugin_name.decode()}): use TLS")
        return super()._process_auth(plugin_name, auth_packet)


class Login:
    """Who logs in, and how: the same for all servers."""

    def __init__(self, options):
        missing = [name for name in INTERNALS if not hasattr(Connection, name)]
        if missing:
            raise Final(f"PyMySQL {pymysql.VERSION} has no {missing[0]}: versions 0.10 to 1.1 were looked at", 3)
        found = self.read(options.defaults_file) if options.defaults_file else {}
        self.user = options.user or found.get("user") or "root"
        self.password = os.fsencode(os.environ.get("MYSQL_PWD", "")) or found.get("password", "").encode()
        self.tls, self.server_id = None, options.server_id
        if options.tls or options.tls_ca or options.tls_cert:
            try:
                self.tls = ssl.create_default_context(cafile=options.tls_ca)
                if options.tls_cert:
                    self.tls.load_cert_chain(options.tls_cert, options.tls_key)
            except OSError as error:
                raise Final(f"TLS: {options.tls_ca or options.tls_cert}: {error}", 2) from error

    def read(self, path):
        """User and password of an option file of MySQL's programs, from its group [client]."""
        parser = Parser()
        if not parser.read(os.path.expanduser(path)):
            raise Final(f"{path} can't be read", 2)
        return {name: parser.get("client", name) for name in ("user", "password") if parser.has_option("client", name)}


def address(text):
    """PyMySQL's words for SOCKET, HOST, HOST:PORT or [IPv6]:PORT."""
    if "/" in text:
        return {"unix_socket": text}
    host, sign, port = text.rpartition(":") if text.count(":") == 1 or "]:" in text else (text, "", "")
    if not host or sign and not port.isdigit():
        raise Final(f"--server {text}: SOCKET, HOST or HOST:PORT is wanted", 2)
    return {"host": host.strip("[]"), "port": int(port or 3306)}


class Server:
    """A connection that is logged in."""

    def __init__(self, name, login):
        self.name, self.login = name, login
        try:
            self.connection = Connection(
                **address(name),
                user=login.user,
                password=login.password,
                ssl=login.tls,
                charset="utf8mb4",
                autocommit=None,
                connect_timeout=CONNECT_SECONDS,
                read_timeout=3 * CONNECT_SECONDS,
            )
        except ssl.SSLCertVerificationError as error:
            raise Final(f"{name}: the certificate isn't good: {error.verify_message}") from error
        except (pymysql.Error, OSError, RuntimeError) as error:
            raise self.fault(error) from error
        self.is_mariadb = "mariadb" in self.connection.server_version.lower()

    def fault(self, error):
        """What an error of PyMySQL, or one that ended an answer, means for the run."""
        cause = getattr(error, "original_exception", error)
        if isinstance(cause, ssl.SSLCertVerificationError):
            return Final(f"{self.name}: the certificate isn't good: {cause.verify_message}")
        number = error.args[0] if error.args and isinstance(error.args[0], int) else 0
        text = f"{self.name}: {error.args[-1] if error.args else error}"
        return Final(text) if number in REFUSALS else Dropped(text)

    def row(self, query, ignored=()):
        """The first row of a query; None if there is none, or if the server has one of these errors."""
        try:
            with self.connection.cursor() as cursor:
                cursor.execute(query)
                return cursor.fetchone()
        except pymysql.Error as error:
            if error.args and error.args[0] in ignored:
                return None
            raise self.fault(error) from error
        except OSError as error:
            raise self.fault(error) from error

    def logs(self):
        """The names of the logs that the server has, in their order."""
        try:
            with self.connection.cursor() as cursor:
                cursor.execute("SHOW BINARY LOGS")
                return [row[0] for row in cursor.fetchall()]
        except (pymysql.Error, OSError) as error:
            raise self.fault(error) from error

    def identity(self):
        """What tells this server from others: its UUID; of MariaDB only its server id."""
        uuid = None if self.is_mariadb else self.row("SELECT @@GLOBAL.server_uuid", [UNKNOWN_VARIABLE])
        return uuid[0] if uuid else f"server id {self.row('SELECT @@GLOBAL.server_id')[0]}"

    def newest(self):
        """The end of the newest log."""
        found = self.row("SHOW MASTER STATUS", [PARSE_ERROR]) or self.row("SHOW BINARY LOG STATUS", [PARSE_ERROR])
        if not found:
            raise Final(f"{self.name}: the server writes no binary log")
        known = None if self.is_mariadb or len(found) < 5 else found[4]
        return self.with_gtids(found[0], found[1], known)

    def oldest(self):
        """The beginning of the oldest log that the server has."""
        logs = self.logs()
        if not logs:
            raise Final(f"{self.name}: the server has no binary log")
        purged = None if self.is_mariadb else self.row("SELECT @@GLOBAL.gtid_purged", [UNKNOWN_VARIABLE])
        return self.with_gtids(logs[0], 4, purged and purged[0])

    def with_gtids(self, file, position, known=None):
        """A place with the GTIDs up to it, as far as the server says them."""
        if self.is_mariadb:
            quoted = self.connection.escape(file)
            known = (self.row(f"SELECT BINLOG_GTID_POS({quoted}, {int(position)})") or [None])[0]
        return Place(file, int(position), known)

    def command(self, number, payload):
        """Sends a command with its payload, after which an answer begins."""
        try:
            self.connection._execute_command(number, payload)
        except (pymysql.Error, OSError) as error:
            raise self.fault(error) from error

    def waits_for_replicas(self):
        """Whether a COMMIT waits until a semi-synchronous replica has acknowledged its transaction."""
        return any((self.row(f"SELECT @@GLOBAL.{name}", [UNKNOWN_VARIABLE]) or [0])[0] for name in SEMI_SYNC)

    def request(self, place, by_gtids, period, is_semi_sync=False):
        """Asks for the events after a place, without an end, with a heartbeat after so many seconds without an event."""
        self.row(CHECKSUMS, [UNKNOWN_VARIABLE])
        nanoseconds = int(period * 10**9)
        self.row(f"SET @master_heartbeat_period = {nanoseconds}, @source_heartbeat_period = {nanoseconds}")
        if self.is_mariadb:
            self.row("SET @mariadb_slave_capability = 4")
        if is_semi_sync:
            self.row("SET @rpl_semi_sync_slave = 1, @rpl_semi_sync_replica = 1")
        if by_gtids and self.is_mariadb:
            self.row(f"SET @slave_connect_state = {self.connection.escape(place.gtids)}")
            self.row("SET @slave_gtid_strict_mode = 1, @slave_gtid_ignore_duplicates = 0")
        self.register(self.login.server_id)
        self.connection._sock.settimeout(3 * period + CONNECT_SECONDS)
        server = struct.pack("<I", self.login.server_id)
        if by_gtids and not self.is_mariadb:
            encoded = gtids.MysqlGtids(place.gtids).encoded()
            head = struct.pack("<H", THROUGH_GTID) + server + struct.pack("<IQI", 0, 4, len(encoded))
            self.command(DUMP_BY_GTIDS, head + encoded)
        else:
            file, position = (b"", 4) if by_gtids else (os.fsencode(place.file), place.position)
            flags = ANNOTATES if self.is_mariadb else 0
            self.command(DUMP, struct.pack("<IH", position, flags) + server + file)

    def register(self, server_id):
        self.command(REGISTER, struct.pack("<I3xHII", server_id, 0, 0, 0))
        try:
            self.connection._read_ok_packet()
        except (pymysql.Error, OSError) as error:
            raise self.fault(error) from error

    def forward(self, request):
        """Sends a dump request that was made elsewhere, a packet, for the replica that it names."""
        self.row(CHECKSUMS, [UNKNOWN_VARIABLE])
        self.register(int.from_bytes(request[11:15], "little"))
        self.connection._sock.settimeout(None)
        self.command(request[4], request[5:])

    def answer(self, packets: Packets, acknowledging=None):
        """The whole packets of the answer, piece by piece, as they arrive. Meanwhile it sends acknowledgements that are due."""
        sock, reader = self.connection._sock, self.connection._rfile
        while not packets.is_over:
            try:
                if acknowledging:
                    self.acknowledge(sock, acknowledging)
                    data = sock.recv(READ_SIZE)
                else:
                    data = reader.read1(READ_SIZE)
            except (OSError, ValueError) as error:
                raise Dropped(f"{self.name}: the connection dropped: {error}") from error
            if not data:
                raise Dropped(f"{self.name}: the connection dropped")
            yield packets.push(data)
        if packets.error:
            number, text = packets.error.number, f"{self.name}: error {packets.error.number}: {packets.error}"
            raise Final(text, number=number) if number in (FATAL_READ_ERROR, *REFUSALS) else Dropped(text)

    def acknowledge(self, sock, acknowledging):
        """Sends acknowledgements until there is something to read. Only this thread uses the connection, as TLS wants it."""
        while not (isinstance(sock, ssl.SSLSocket) and sock.pending()):
            ready = select.select([sock, acknowledging.due], [], [], sock.gettimeout())[0]
            if acknowledging.due in ready:
                sock.sendall(acknowledging.take())
            if sock in ready or not ready:
                break

    def hang_up(self):
        """Ends the connection, also while another thread reads from it."""
        sock = self.connection._sock
        try:
            if sock is not None:
                super(ssl.SSLSocket, sock).shutdown(2) if isinstance(sock, ssl.SSLSocket) else sock.shutdown(2)
        except OSError:
            pass

    def close(self):
        self.hang_up()
        self.connection._force_close()


assert COMMAND.COM_BINLOG_DUMP == DUMP and COMMAND.COM_REGISTER_SLAVE == REGISTER
