# The book of `full_cube` in SQLite, in memory and indexed.
#
#   cube_sqlite.py BOOK BOOKINGS QUERIES
#
# BOOK is what `full_cube book` writes; its entries are the lines that were accepted. Prints the figures of the questions as
# `full_cube` does, and on standard error the nanoseconds of processor time for one inserted entry and for one query, each the
# least of so many bookings or queries.
import sqlite3
import sys
import time

ROWS = COLUMNS = 40
BASE = 12 * 2015
BLOCK = ROWS * COLUMNS + 1
LAST_DAY = 20241231
# known on, valued at
QUESTIONS = [
    (20161231, 20161231),
    (20191231, 20191231),
    (20221231, 20221231),
    (LAST_DAY, LAST_DAY),
    (20221231, 20191231),
    (LAST_DAY, 20191231),
]

# A movement has the kind that it counts as, P or R; the origin and development months are what a triangle needs of the days.
SCHEMA = """
CREATE TABLE entries (
    number INTEGER PRIMARY KEY, booked INTEGER, claim INTEGER, kind TEXT, names INTEGER,
    effective INTEGER, effective_month INTEGER, cents INTEGER,
    report INTEGER, report_month INTEGER, occurrence_month INTEGER);
CREATE INDEX replacing ON entries (names, booked) WHERE names IS NOT NULL;
CREATE INDEX dating ON entries (claim, number, booked) WHERE report IS NOT NULL;
CREATE INDEX booking ON entries (booked);
"""

# The claim days in force are those of the claim's last opening or redating that is known; in SQLite the other columns of a row
# with max(number) are those of that row. A movement stands if no known entry names it.
QUERY = f"""
WITH dated AS MATERIALIZED (
    SELECT claim, max(number), report, report_month, (occurrence_month - {BASE} + 1200) / 3 - 400 AS row
    FROM entries WHERE report IS NOT NULL AND booked <= :known GROUP BY claim),
placed AS (
    SELECT row, (effective_month - {BASE} - 3 * row + 1200) / 3 - 400 AS column, iif(kind = 'P', cents, 0) AS paid, cents AS incurred, 0 AS count
    FROM entries AS movement JOIN dated USING (claim)
    WHERE movement.kind IS NOT NULL AND movement.booked <= :known AND movement.effective <= :valued
    AND NOT EXISTS (SELECT 1 FROM entries AS later WHERE later.names = movement.number AND later.booked <= :known)
    UNION ALL
    SELECT row, (report_month - {BASE} - 3 * row + 1200) / 3 - 400, 0, 0, 1 FROM dated WHERE report <= :valued)
SELECT iif(row BETWEEN 0 AND {ROWS - 1} AND column BETWEEN 0 AND {COLUMNS - 1}, row * {COLUMNS} + column, {BLOCK - 1}) AS cell,
    sum(paid), sum(incurred), sum(count)
FROM placed GROUP BY cell
"""


def month(day):
    return 12 * (day // 10000) + day // 100 % 100 - 1


def read_entries(path):
    """The rows of the table, in the order of booking."""
    rows, claims = {}, 0
    with open(path) as book:
        for line in book:
            letter, *numbers = line.strip().split(",")
            booked, claim, names, effective, cents, inception, occurrence, report, number = map(int, numbers)
            if number <= 0:
                continue
            if letter == "O":
                claims += 1
                claim = claims
            kind = letter if letter in "PR" else None
            if letter in "KV":
                claim = rows[names][2]
                kind = rows[names][3] if letter == "K" else None
            rows[number] = (
                number, booked, claim, kind, names or None,
                effective or None, month(effective) if effective else None, cents or None,
                report or None, month(report) if report else None, month(occurrence) if report else None)
    return list(rows.values())


def booked(rows):
    """A new data base with the rows, and the nanoseconds that inserting them took."""
    data = sqlite3.connect(":memory:", isolation_level=None)
    data.executescript(SCHEMA)
    start = time.process_time_ns()
    data.execute("BEGIN")
    data.executemany("INSERT INTO entries VALUES (?, ?, ?, ?, ?, ?, ?, ?, ?, ?, ?)", rows)
    data.execute("COMMIT")
    return data, time.process_time_ns() - start


def triangles(data, known, valued):
    """The three blocks of a sheet."""
    blocks = [[0] * BLOCK for _ in range(3)]
    for cell, *sums in data.execute(QUERY, {"known": known, "valued": valued}):
        for block, amount in zip(blocks, sums):
            block[cell] = amount
    return blocks


def dated(day):
    return f"{day // 10000}-{day // 100 % 100:02}-{day % 100:02}"


def show(blocks):
    for name, cells in zip(["paid", "incurred", "count"], blocks):
        checksum = 0
        for cell in cells:
            checksum = (checksum * 1099511628211 + cell) % 2**64
        print(f"    {name:<8}  total {sum(cells):>13}  beyond {cells[-1]:>11}  checksum {checksum:016x}")


def main():
    path, bookings, queries = sys.argv[1], int(sys.argv[2]), int(sys.argv[3])
    rows = read_entries(path)
    booking = min(booked(rows)[1] for _ in range(bookings)) / max(len(rows), 1)
    data = booked(rows)[0]
    data.execute("ANALYZE")
    query = float("inf")
    for _ in range(queries):
        start = time.process_time_ns()
        triangles(data, LAST_DAY, LAST_DAY)
        query = min(query, time.process_time_ns() - start)
    for known, valued in QUESTIONS:
        print(f"  known on {dated(known)}, valued at {dated(valued)}")
        show(triangles(data, known, valued))
    print(f"{booking:.1f} {query:.1f}", file=sys.stderr)


main()
