"""Drafts of schemas, from the tables of a database or from a folder of CSV files.

A schema tells nq the columns of each table with their types, `int`, `bool` or `text`. A draft
leaves out what no schema can say, and names it in a comment. A second comment names the columns
that may be NULL, for which nq has no value.
"""
import csv
import re
from contextlib import closing
from dataclasses import dataclass, field
from pathlib import Path
from typing import List, Optional

from .drivers import is_postgres, is_sqlite
from .errors import Error
from .language import GREATEST, is_word
from .snapshot import snapshot

_INTEGER = re.compile(r"-?[0-9]+")

# The most tables that a schema has, and the most columns of a table.
_MOST = 64


@dataclass
class Column:
    """A column: its type for nq, or None, and its type as a database names it."""

    name: str
    kind: Optional[str]
    declared: str = ""
    may_be_null: bool = False


@dataclass
class Table:
    """A table with its columns, and the names of those of its key, in the key's order.

    `needs_all` says that the table can only be had with all of its columns.
    """

    name: str
    columns: List[Column]
    key: List[str] = field(default_factory=list)
    needs_all: bool = False


def draft_schema(connection, tables=()):
    """A schema of the tables and views of a SQLite or PostgreSQL connection, or of those named.

    Raises `Error` for another driver, for a name that is no table, and for more than 64 tables.
    """
    with closing(connection.cursor()) as cursor, snapshot(connection, cursor):
        if is_sqlite(connection):
            found = _sqlite_tables(cursor)
        elif is_postgres(connection):
            found = _postgres_tables(cursor)
        else:
            raise Error("schemas are drafted from SQLite and PostgreSQL alone")
    return _schema_text(found, tables)


def draft_schema_of_files(folder, tables=()):
    """A schema of the CSV files of a folder, or of those named: the file of the table t is t.csv.

    A column is an int or a bool where all its cells are, and else a text. nq reads all columns of a
    file or none, so a file with a column whose name is no word is left out. Raises `Error` for a
    name that is no file of the folder, and for more than 64 files.
    """
    return _schema_text([_csv_table(file) for file in sorted(Path(folder).glob("*.csv"))], tables)


def _sqlite_tables(cursor):
    cursor.execute("SELECT name, sql FROM sqlite_master WHERE type IN ('table', 'view')"
                   " AND name NOT LIKE 'sqlite\\_%' ESCAPE '\\' ORDER BY name")
    tables = []
    for name, sql in cursor.fetchall():
        cursor.execute('SELECT name, type, "notnull", pk FROM pragma_table_info(?)', (name,))
        columns, key = [], []
        for column, declared, is_not_null, place in cursor.fetchall():
            kind = _sqlite_kind(column, declared, sql)
            # (an INTEGER that is the key alone is the number of the row, which is never NULL)
            is_filled = is_not_null or (place and declared.upper() == "INTEGER")
            columns.append(Column(column, kind, declared, not is_filled))
            if place:
                key.append((place, column))
        tables.append(Table(name, columns, [column for _, column in sorted(key)]))
    return tables


def _sqlite_kind(column, declared, sql):
    """The type of a column by SQLite's rules of affinity; of 0 and 1 alone, bool."""
    is_bool = rf'CHECK\s*\(\s*"?{re.escape(column)}"?\s+IN\s*\(\s*0\s*,\s*1\s*\)'
    declared = declared.upper()
    if "BOOL" in declared or re.search(is_bool, sql or "", re.IGNORECASE):
        return "bool"
    if "INT" in declared:
        return "int"
    return "text" if any(word in declared for word in ("CHAR", "CLOB", "TEXT")) else None


_POSTGRES_COLUMNS = """
SELECT c.relname, a.attname, format_type(a.atttypid, NULL), NOT a.attnotnull,
       array_position(i.indkey::int2[], a.attnum)
FROM pg_class c
JOIN pg_namespace n ON n.oid = c.relnamespace
JOIN pg_attribute a ON a.attrelid = c.oid AND a.attnum > 0 AND NOT a.attisdropped
LEFT JOIN pg_index i ON i.indrelid = c.oid AND i.indisprimary
WHERE c.relkind IN ('r', 'p', 'v', 'm', 'f') AND pg_table_is_visible(c.oid)
  AND NOT c.relispartition AND n.nspname NOT IN ('pg_catalog', 'information_schema')
ORDER BY c.relname, a.attnum
"""

_POSTGRES_KINDS = {"bigint": "int", "integer": "int", "smallint": "int", "boolean": "bool",
                   "text": "text", "character varying": "text"}


def _postgres_tables(cursor):
    cursor.execute(_POSTGRES_COLUMNS)
    tables, keys = {}, {}
    for name, column, declared, may_be_null, place in cursor.fetchall():
        table = tables.setdefault(name, Table(name, []))
        kind = _POSTGRES_KINDS.get(declared)
        table.columns.append(Column(column, kind, declared, may_be_null))
        if place is not None:
            keys.setdefault(name, []).append((place, column))
    for name, key in keys.items():
        tables[name].key = [column for _, column in sorted(key)]
    return list(tables.values())


def _csv_table(file):
    """The table of a CSV file, whose first line has the names of the columns."""
    with open(file, encoding="utf-8-sig", errors="surrogateescape", newline="") as lines:
        try:
            rows = [row for row in csv.reader(lines) if row]
        except csv.Error as error:
            raise Error(f"{file}: {error}") from error
    columns = [Column(name, _kind_of(row[at] for row in rows[1:] if at < len(row)))
               for at, name in enumerate(rows[0] if rows else [])]
    return Table(file.stem, columns, needs_all=True)


def _kind_of(cells):
    """The one type that all these cells have, and else text."""
    kinds = {_kind(cell) for cell in cells}
    return kinds.pop() if len(kinds) == 1 else "text"


def _kind(cell):
    if cell in ("true", "false", "t", "f"):
        return "bool"
    # (Python reads no number of more than some thousand digits)
    digits = cell.lstrip("-0") or "0"
    is_int = (_INTEGER.fullmatch(cell) and len(digits) <= len(str(GREATEST))
              and int(digits) <= GREATEST + cell.startswith("-"))
    return "int" if is_int else "text"


def _schema_text(tables, names):
    """The schema of those tables that are named, or of all where none is."""
    have = {table.name: table for table in tables}
    for name in names:
        if name not in have:
            raise Error(f"there is no table {name}; there are: {', '.join(sorted(have))}")
    chosen = [have[name] for name in dict.fromkeys(names)] or tables
    if len(chosen) > _MOST:
        raise Error(f"there are {len(chosen)} tables, and a schema has at most {_MOST}: name those "
                    "that the query needs")
    return "".join(line + "\n" for table in chosen for line in _table_lines(table))


def _table_lines(table):
    """The line of a table, behind comments on what it leaves out and what may be NULL."""
    kept = [column for column in table.columns if column.kind and is_word(column.name)][:_MOST]
    lost = [column for column in table.columns if column not in kept]
    named = ", ".join(_shown(column.name) + f" ({column.declared})" * bool(column.declared)
                      for column in lost)
    if not is_word(table.name):
        return [f"# left out: {_shown(table.name)}, a name that is no word"]
    if not table.columns:
        return [f"# left out: {table.name}, which has no columns"]
    if not kept or lost and table.needs_all:
        return [f"# left out: {table.name}, which has columns that nq cannot have: {named}"]
    lines = [f"# left out of {table.name}: {named}"] if lost else []
    nullable = ", ".join(column.name for column in kept if column.may_be_null)
    if nullable:
        lines.append(f"# may be NULL in {table.name}, for which nq has no value: {nullable}")
    parts = [f"{column.name}: {column.kind}" for column in kept]
    if table.key and set(table.key) <= {column.name for column in kept}:
        parts.append(f"key ({', '.join(table.key)})")
    lines.append(f"table {table.name} ({', '.join(parts)});")
    return lines


def _shown(name):
    """A name as it stands in a comment, which ends with its line."""
    return name if is_word(name) else ascii(name)
