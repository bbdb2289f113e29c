"""SQLite in memory over the tables and the runs of a script of `joins.sh`: processor seconds from the CSV files to the rows."""

import csv
import sqlite3
import sys
import time

STATEMENT = (
    "SELECT c.region, COUNT(*), SUM(i.qty) FROM customers c JOIN orders o ON c.id = o.cid JOIN items i ON o.id = i.oid "
    "WHERE o.day BETWEEN ? AND ? AND i.ship BETWEEN ? AND ? GROUP BY c.region ORDER BY c.region"
)
COLUMNS = {
    "customers": "id INTEGER, region TEXT",
    "orders": "id INTEGER, cid INTEGER, day INTEGER",
    "items": "oid INTEGER, qty INTEGER, ship INTEGER",
}

begin = time.process_time()
base = sqlite3.connect(":memory:")
for table, columns in COLUMNS.items():
    base.execute(f"CREATE TABLE {table} ({columns})")
    with open(f"{table}.csv", newline="") as file:
        rows = csv.reader(file)
        next(rows)
        places = ",".join("?" * (columns.count(",") + 1))
        base.executemany(f"INSERT INTO {table} VALUES ({places})", rows)
for table, column in (("orders", "day"), ("orders", "id"), ("items", "oid")):
    base.execute(f"CREATE INDEX {table}_{column} ON {table} ({column})")
loaded = time.process_time()
count = 0
with open(sys.argv[1]) as script:
    for line in script:
        if line.startswith("run "):
            count += len(base.execute(STATEMENT, [int(word) for word in line.split()[2:]]).fetchall())
end = time.process_time()
print(f"sqlite {end - begin:.3f} (tables and indexes {loaded - begin:.3f}), {count} rows")
