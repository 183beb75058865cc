"""Databases of the example folders, made anew for each test."""
import csv
import os
import re
import sqlite3
from pathlib import Path

EXAMPLES = Path(__file__).resolve().parents[3] / "examples"

_TABLE = re.compile(r"table (\w+) \(([^;]*)\);")
_COLUMN = re.compile(r"(\w+): (int|bool|text)")
_SQLITE = {"int": "INTEGER", "bool": "INTEGER", "text": "TEXT"}
_POSTGRES = {"int": "bigint", "bool": "boolean", "text": 'text COLLATE "C"'}
_VALUES = {"int": int, "bool": lambda cell: cell == "true", "text": str}


def tables(schema):
    """The name of each table of a schema text, with its columns and their types."""
    text = re.sub("#.*", "", Path(schema).read_text(encoding="utf-8"))
    return [(name, _COLUMN.findall(columns)) for name, columns in _TABLE.findall(text)]


def rows(folder, name, columns):
    """The rows of a table's CSV file, in the types of its columns."""
    with open(folder / f"{name}.csv", encoding="utf-8", newline="") as file:
        reader = csv.reader(file)
        next(reader)
        return [[_VALUES[kind](cell) for (_, kind), cell in zip(columns, row)] for row in reader]


def fill(cursor, schema, folder, kinds, mark):
    """Makes the tables of a schema and fills them from a folder."""
    for name, columns in tables(schema):
        made = ", ".join(f'"{column}" {kinds[kind]} NOT NULL' for column, kind in columns)
        cursor.execute(f'CREATE TABLE "{name}" ({made})')
        marks = ", ".join(mark for _ in columns)
        cursor.executemany(f'INSERT INTO "{name}" VALUES ({marks})', rows(folder, name, columns))


def sqlite(schema, folder, file=":memory:"):
    """A SQLite database of an example folder."""
    connection = sqlite3.connect(file)
    fill(connection.cursor(), schema, folder, _SQLITE, "?")
    connection.commit()
    return connection


def postgres(schema, folder):
    """A PostgreSQL connection whose own temporary tables are those of an example folder.

    The variable NQ_POSTGRES names the server, as postgresql://.. does. None where it is not set or
    no driver is there.
    """
    if not os.environ.get("NQ_POSTGRES"):
        return None
    try:
        import psycopg as driver
    except ImportError:
        try:
            import psycopg2 as driver
        except ImportError:
            return None
    connection = driver.connect(os.environ["NQ_POSTGRES"])
    with connection.cursor() as cursor:
        cursor.execute("DROP SCHEMA IF EXISTS nq_tests CASCADE")
        cursor.execute("CREATE SCHEMA nq_tests")
        cursor.execute("SET search_path TO nq_tests")
        fill(cursor, schema, folder, _POSTGRES, "%s")
    connection.commit()
    return connection
