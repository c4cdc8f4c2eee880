"""GTIDs that have been read: what a server is asked to continue after, MariaDB's and MySQL's."""
import re
import struct


class MariadbGtids:
    """The newest GTID of each domain, `0-1-100,1-2-5`: a replica's gtid_slave_pos."""

    PATTERN = re.compile(r"(\d+)-(\d+)-(\d+)")

    def __init__(self, text=""):
        self.newest = {}
        for gtid in filter(None, re.split(r"[,\s]+", text or "")):
            self.add(gtid)

    def add(self, gtid):
        """Adds the GTID of a transaction that was read after those added before."""
        found = self.PATTERN.fullmatch(gtid)
        if not found:
            raise ValueError(f"{gtid} isn't a GTID of MariaDB")
        domain, server, sequence = map(int, found.groups())
        self.newest[domain] = (server, sequence)

    def join(self, text):
        """Adds GTIDs that were read too; the newer one of a domain counts."""
        for domain, (server, sequence) in MariadbGtids(text).newest.items():
            if sequence > self.newest.get(domain, (0, -1))[1]:
                self.newest[domain] = (server, sequence)

    def __str__(self):
        return ",".join(f"{domain}-{server}-{sequence}" for domain, (server, sequence) in sorted(self.newest.items()))


class MysqlGtids:
    """A GTID set, `UUID:1-23:25,..`: a replica's gtid_executed. Of a UUID that isn't known yet, the first GTID stands for all
    before it too, since a log has them in order.
    """

    UUID = re.compile(r"[0-9a-f]{8}(?:-[0-9a-f]{4}){3}-[0-9a-f]{12}")

    def __init__(self, text=""):
        self.ranges = {}
        for part in filter(None, re.split(r"[,\s]+", text or "")):
            uuid, *ranges = part.lower().split(":")
            for one in ranges:
                first, _, last = one.partition("-")
                self.add_range(uuid, int(first), int(last or first))

    def add_range(self, uuid, first, last):
        """Adds numbers of a UUID; ranges that meet are joined."""
        if not self.UUID.fullmatch(uuid):
            raise ValueError(f"{uuid} isn't the UUID of a GTID")
        joined = []
        for other in self.ranges.get(uuid, []):
            if other[1] + 1 < first or last + 1 < other[0]:
                joined.append(other)
            else:
                first, last = min(first, other[0]), max(last, other[1])
        self.ranges[uuid] = sorted([*joined, (first, last)])

    def add(self, gtid):
        """Adds the GTID of a transaction. One with a tag can't be encoded for the request."""
        uuid, *rest = gtid.split(":")
        if len(rest) != 1 or not rest[0].isdigit():
            raise ValueError(f"{gtid} has a tag: GTIDs with tags can't be asked for; use positions")
        number = int(rest[0])
        self.add_range(uuid, number if uuid in self.ranges else 1, number)

    def join(self, text):
        """Adds GTIDs that were read too."""
        for uuid, ranges in MysqlGtids(text).ranges.items():
            for first, last in ranges:
                self.add_range(uuid, first, last)

    def __str__(self):
        parts = []
        for uuid, ranges in sorted(self.ranges.items()):
            parts.append(":".join([uuid, *(f"{first}-{last}" if first < last else str(first) for first, last in ranges)]))
        return ",".join(parts)

    def encoded(self):
        """The set as COM_BINLOG_DUMP_GTID has it: each range ends before its second number."""
        made = struct.pack("<Q", len(self.ranges))
        for uuid, ranges in sorted(self.ranges.items()):
            made += bytes.fromhex(uuid.replace("-", "")) + struct.pack("<Q", len(ranges))
            made += b"".join(struct.pack("<QQ", first, last + 1) for first, last in ranges)
        return made


def gtids_of(is_mariadb, text):
    """The GTIDs that a text has, of one kind of server."""
    return MariadbGtids(text) if is_mariadb else MysqlGtids(text)
