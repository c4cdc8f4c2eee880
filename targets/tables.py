"""What the targets with tables have in common: the rows that a batch leaves, and the statements that empty or remove a table."""
import json
import re

from transactions import Stop

NAME = r"(?:`((?:[^`]|``)+)`|([\w$]+))"
EMPTIED = re.compile(rf"\s*TRUNCATE\s+(?:TABLE\s+)?(?:{NAME}\s*\.\s*)?{NAME}", re.I)
REMOVED = re.compile(
    rf"\s*(?:DROP\s+TABLE\s+(?:IF\s+EXISTS\s+)?|CREATE\s+OR\s+REPLACE\s+TABLE\s+)(?:{NAME}\s*\.\s*)?{NAME}\s*(,)?", re.I
)


def table_in(found, database):
    """The database and the table that a statement names."""
    first, second, third, fourth = found.groups()[:4]
    named = (first or second or database or "").replace("``", "`")
    return named, (third or fourth).replace("``", "`")


def stored(value):
    """A value as a column takes it: a document is its text."""
    return json.dumps(value, ensure_ascii=False) if isinstance(value, (dict, list, bool)) else value


class Changes:
    """The changes of a batch for one table with a key: the keys that are deleted, and after that the rows that are put."""

    def __init__(self, key):
        self.key, self.gone, self.rows = tuple(key), {}, {}

    def key_of(self, row):
        try:
            return tuple(stored(row[name]) for name in self.key)
        except KeyError as missing:
            raise Stop(f"a row without {missing}, which is in its key") from None

    def add(self, line):
        """Adds a line that doesn't change the key."""
        key = self.key_of(line["data"])
        if line["type"] == "delete":
            self.gone[key] = self.rows.pop(key, None)
        else:
            self.rows[key] = {**self.rows.get(key, {}), **line["data"]}


class Tables:
    """A target with tables. A subclass has the commands of its database:

    - prepare(table, key, line): makes or extends the table so that the row of a line fits
    - delete(table, key, keys) and upsert(table, key, names, rows): for keys and rows of one table
    - move(table, line): an update that changes the key
    - apply_without_key(table, line)
    - empty(table) and remove(table)
    - other(line): any other statement
    """

    def apply_lines(self, lines):
        """Applies the changes of a batch."""
        waiting = {}
        for line in lines:
            if line["type"] == "statement":
                self.flush(waiting)
                self.statement(line)
                continue
            table, key = (line["database"], line["table"]), line.get("primary_key")
            self.prepare(table, key or (), line)
            if key and not any(name in line.get("old", ()) for name in key):
                if table in waiting and waiting[table].key != tuple(key):
                    self.flush(waiting)
                waiting.setdefault(table, Changes(key)).add(line)
            else:
                self.flush(waiting)
                self.move(table, line) if key else self.apply_without_key(table, line)
        self.flush(waiting)

    def flush(self, waiting):
        """Applies what waits, deletions first."""
        for table, changes in waiting.items():
            if changes.gone:
                self.delete(table, changes.key, list(changes.gone))
            by_names = {}
            for row in changes.rows.values():
                by_names.setdefault(tuple(row), []).append(list(row.values()))
            for names, rows in by_names.items():
                self.upsert(table, changes.key, names, rows)
        waiting.clear()

    def statement(self, line):
        """Applies a statement that empties or removes a table; others are given to `other`."""
        text = line["sql"] if isinstance(line["sql"], str) else ""
        text = re.sub(r"^\s*/\*.*?\*/\s*", "", text, flags=re.S)
        if found := EMPTIED.match(text):
            self.empty(table_in(found, line["database"]))
            return
        while found := REMOVED.match(text):
            self.remove(table_in(found, line["database"]))
            if not found[5]:
                return
            text = "DROP TABLE " + text[found.end() :]
        self.other(line)
