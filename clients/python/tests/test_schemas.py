"""Drafts of schemas, each worked out by hand."""
import os
import re
import sqlite3
import subprocess
import sys
import tempfile
import unittest
from pathlib import Path

import nq

from .databases import EXAMPLES, postgres, sqlite

COMPANY, SHOP = EXAMPLES / "company", EXAMPLES / "shop"


def lines_of(schema):
    """The lines of tables of a schema file, without their keys."""
    text = re.sub(", key \\([^)]*\\)", "", Path(schema).read_text(encoding="utf-8"))
    return sorted(line for line in text.splitlines() if line.startswith("table"))


class Files(unittest.TestCase):
    """Drafts from folders of CSV files."""

    def draft(self, tables=(), **files):
        with tempfile.TemporaryDirectory() as folder:
            for name, text in files.items():
                (Path(folder) / f"{name}.csv").write_bytes(text)
            return nq.draft_schema_of_files(folder, tables)

    def test_examples(self):
        for folder, schema in ((COMPANY, "org"), (SHOP, "shop")):
            self.assertEqual(nq.draft_schema_of_files(folder / "data").splitlines(),
                             lines_of(folder / schema))

    def test_types(self):
        self.assertEqual(
            self.draft(t=b"a,b,c,d,e,f\r\n-1,true,x,1,9223372036854775807,9223372036854775808\r\n"
                         b"02,f,,t,-9223372036854775808,%s\r\n" % (b"1" * 5000)),
            "table t (a: int, b: bool, c: text, d: text, e: int, f: text);\n")

    def test_no_rows(self):
        self.assertEqual(self.draft(t=b"a\n"), "table t (a: text);\n")

    def test_mark_quotes_and_empty_lines(self):
        self.assertEqual(self.draft(t=b'\xef\xbb\xbf"a",b\n\n"1","x\ny"\n'),
                         "table t (a: int, b: text);\n")

    def test_left_out(self):
        self.assertEqual(
            self.draft(**{"a": b"", "b": b"unit price,n\n1,2\n", "c": b"x\n1\n", "d-e": b"x\n"}),
            "# left out: a, which has no columns\n"
            "# left out: b, which has columns that nq cannot have: 'unit price'\n"
            "table c (x: int);\n# left out: 'd-e', a name that is no word\n")

    def test_bytes_that_are_no_utf8(self):
        self.assertEqual(self.draft(t=b"a,b\n1,\xff\n"), "table t (a: int, b: text);\n")
        self.assertEqual(self.draft(t=b"\xff\n"), 
                         "# left out: t, which has columns that nq cannot have: '\\udcff'\n")

    def test_named(self):
        files = {"t": b"a\n1\n", "u": b"b\n1\n"}
        self.assertEqual(self.draft(["u"], **files), "table u (b: int);\n")
        with self.assertRaisesRegex(nq.Error, "there is no table v; there are: t, u"):
            self.draft(["v"], **files)

    def test_many(self):
        files = {f"t{number}": b"a\n" for number in range(65)}
        with self.assertRaisesRegex(nq.Error, "there are 65 tables, and a schema has at most 64"):
            self.draft(**files)
        self.assertEqual(self.draft(["t64", "t3"], **files),
                         "table t64 (a: text);\ntable t3 (a: text);\n")
        self.assertEqual(self.draft(t=b",".join(b"a%d" % at for at in range(65)) + b"\n"),
                         "# left out: t, which has columns that nq cannot have: a64\n")


class Databases(unittest.TestCase):
    """Drafts from the tables of a database."""

    def draft(self, *statements, tables=()):
        connection = sqlite3.connect(":memory:")
        for statement in statements:
            connection.execute(statement)
        drafted = nq.draft_schema(connection, tables)
        self.assertFalse(connection.in_transaction)
        connection.close()
        return drafted

    def test_sqlite(self):
        self.assertEqual(
            self.draft("CREATE TABLE invoices (id INTEGER PRIMARY KEY, at VARCHAR(20), total REAL,"
                       " paid BOOLEAN NOT NULL, sent INT NOT NULL CHECK (sent IN (0, 1)), note)",
                       "CREATE TABLE lines (invoice INT NOT NULL, place INT NOT NULL,"
                       " \"unit price\" INT, PRIMARY KEY (place, invoice))",
                       "CREATE TABLE \"old lines\" (a INT)",
                       "CREATE TABLE rates (rate REAL)",
                       "CREATE VIEW firsts AS SELECT invoice FROM lines WHERE place = 1"),
            "# may be NULL in firsts, for which nq has no value: invoice\n"
            "table firsts (invoice: int);\n"
            "# left out of invoices: total (REAL), note\n"
            "# may be NULL in invoices, for which nq has no value: at\n"
            "table invoices (id: int, at: text, paid: bool, sent: bool, key (id));\n"
            "# left out of lines: 'unit price' (INT)\n"
            "table lines (invoice: int, place: int, key (place, invoice));\n"
            "# left out: 'old lines', a name that is no word\n"
            "# left out: rates, which has columns that nq cannot have: rate (REAL)\n")

    def test_key_that_is_left_out(self):
        self.assertEqual(
            self.draft("CREATE TABLE t (a REAL NOT NULL, b TEXT NOT NULL, PRIMARY KEY (a, b))"),
            "# left out of t: a (REAL)\ntable t (b: text);\n")

    def test_named(self):
        made = ["CREATE TABLE t (a INT NOT NULL)", "CREATE TABLE u (b REAL)"]
        self.assertEqual(self.draft(*made, tables=["t"]), "table t (a: int);\n")

    def test_other_driver(self):
        class Connection:
            def cursor(self):
                return sqlite3.connect(":memory:").cursor()

        with self.assertRaisesRegex(nq.Error, "SQLite and PostgreSQL alone"):
            nq.draft_schema(Connection())

    def test_value_over_the_draft(self):
        connection = sqlite(COMPANY / "org", COMPANY / "data")
        drafted = nq.draft_schema(connection)
        value = nq.Query(drafted, COMPANY / "staff").to_json(connection)
        self.assertEqual(value, nq.Query(COMPANY / "org", COMPANY / "staff").to_json(connection))

    def test_postgres(self):
        connection = postgres(COMPANY / "org", COMPANY / "data")
        if connection is None:
            self.skipTest("no PostgreSQL: set NQ_POSTGRES, with psycopg or psycopg2 at hand")
        self.assertEqual(nq.draft_schema(connection).splitlines(), lines_of(COMPANY / "org"))
        with connection.cursor() as cursor:
            cursor.execute("CREATE TABLE kinds (a smallint, b varchar(3) NOT NULL, c char(3),"
                           " d numeric, e date, f boolean NOT NULL, g bigint, PRIMARY KEY (g, a))")
        connection.commit()
        self.assertEqual(
            nq.draft_schema(connection, ["kinds"]),
            "# left out of kinds: c (character), d (numeric), e (date)\n"
            "table kinds (a: int, b: text, f: bool, g: int, key (g, a));\n")
        connection.close()


class Command(unittest.TestCase):
    """`python -m nq schema`."""

    def run_words(self, *words):
        path = str(Path(nq.__file__).resolve().parents[1])
        done = subprocess.run([sys.executable, "-m", "nq", "schema", *words], capture_output=True,
                              cwd=COMPANY, env=dict(os.environ, PYTHONPATH=path), check=False)
        return done.returncode, done.stdout.decode("utf-8"), done.stderr.decode("utf-8")

    def test_folder(self):
        drafted = "table departments (name: text);\ntable tasks (employee: text, task: text);\n"
        self.assertEqual(self.run_words("csv:data", "departments", "tasks"), (0, drafted, ""))

    def test_database(self):
        with tempfile.TemporaryDirectory() as name:
            file = os.path.join(name, "company.db")
            sqlite(COMPANY / "org", COMPANY / "data", file).close()
            self.assertEqual(self.run_words(f"sqlite:{file}", "departments"),
                             (0, "table departments (name: text);\n", ""))

    def test_faults(self):
        self.assertEqual(self.run_words("csv:nowhere"), (1, "", "there is no folder nowhere\n"))
        self.assertEqual(self.run_words("sqlite:nowhere"), (1, "", "there is no file nowhere\n"))
        self.assertEqual(self.run_words("sqlite:org"), (1, "", "file is not a database\n"))
        self.assertEqual(self.run_words("csv:data", "t")[:2], (1, ""))


if __name__ == "__main__":
    unittest.main()
