"""Where the first run begins: a position, the position of a dump, now, or the oldest log of the server."""
import gzip
import re

from .faults import Final
from .server import Place

# What mariadb-dump --master-data and mysqldump --source-data write near the beginning of a dump.
POSITION = re.compile(rb"(?:MASTER|SOURCE)_LOG_FILE='([^']+)',\s*(?:MASTER|SOURCE)_LOG_POS=(\d+)")
MARIADB_GTIDS = re.compile(rb"gtid_slave_pos\s*=\s*'([^']*)'")
MYSQL_GTIDS = re.compile(rb"GTID_PURGED\s*=\s*(?:/\*.*?\*/)?\s*'([^']*)'", re.S)
HEAD = 1 << 20


def place_of_dump(path):
    """The place that a dump states, which may be compressed by gzip."""
    try:
        with open(path, "rb") as file:
            is_compressed = file.read(2) == b"\x1f\x8b"
        with (gzip.open if is_compressed else open)(path, "rb") as file:
            head = file.read(HEAD)
    except OSError as error:
        raise Final(f"{path}: {error.strerror or error}", 2) from error
    position, known = POSITION.search(head), MARIADB_GTIDS.search(head) or MYSQL_GTIDS.search(head)
    if not position and not known:
        raise Final(f"{path} states no position: make it by mariadb-dump --single-transaction --master-data=2", 2)
    gtids = re.sub(r"\s", "", known[1].decode()) if known else None
    return Place(position[1].decode() if position else None, int(position[2]) if position else None, gtids)


def place_of_words(words):
    """The place FILE:POSITION."""
    file, _, position = words.rpartition(":")
    if not file or not position.isdigit():
        raise Final(f"--start {words}: FILE:POSITION is wanted", 2)
    return Place(file, int(position), None)


def first_place(options, server):
    """Where the options begin, with the GTIDs up to there, as far as they are known."""
    if options.from_now:
        return server.newest()
    if options.snapshot:
        place = place_of_dump(options.snapshot)
    elif options.start:
        place = place_of_words(options.start)
    elif options.start_gtids is not None:
        return Place(None, None, options.start_gtids)
    else:
        return server.oldest()
    if place.gtids is None and options.gtid:
        return server.with_gtids(place.file, place.position)
    return place
