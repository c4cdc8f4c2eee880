"""Counts the rows that logs insert, update and delete, by table, through binary records: count_rows.py FILE.."""
import collections
import sys

import cuvragyen


def main() -> None:
    counts = collections.defaultdict(collections.Counter)
    for path in sys.argv[1:]:
        for transaction in cuvragyen.log(path, records=True):
            for change in transaction.record().changes():
                if isinstance(change, cuvragyen.Rows):
                    counts[f"{change.table.database}.{change.table.name}"][change.kind] += change.row_count
    for table, found in sorted(counts.items()):
        print(table, found["insert"], found["update"], found["delete"])


if __name__ == "__main__":
    main()
