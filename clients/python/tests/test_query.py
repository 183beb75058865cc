"""Whole runs of the package, against the program's own answers over the same tables."""
import glob
import json
import os
import sqlite3
import subprocess
import sys
import tempfile
import threading
import unittest
from pathlib import Path
from unittest import mock

import nq
from nq.drivers import connect
from nq.program import program

from .databases import EXAMPLES, postgres, sqlite
from .queries import FORTY

COMPANY, SHOP = EXAMPLES / "company", EXAMPLES / "shop"
FOLDERS = [(COMPANY, "org"), (SHOP, "shop")]
STAFF = {"schema": COMPANY / "org", "query": COMPANY / "staff"}


def by_program(schema, query, folder):
    """The value that the program itself gives over the CSV files of a folder."""
    with tempfile.TemporaryDirectory() as name:
        file = Path(name) / "query"
        file.write_text(query, encoding="utf-8")
        words = [program(), "run", "json", str(schema), str(file), str(folder)]
        done = subprocess.run(words, capture_output=True, check=True)
    return done.stdout.decode("utf-8").rstrip("\n")


def example_queries(folder):
    """The query files of an example folder."""
    return [file.with_suffix("") for file in sorted(folder.glob("*.out"))
            if not file.stem.endswith(".sql")]


class Values(unittest.TestCase):
    """The same value as the program's, byte for byte."""

    def check_folder(self, connect):
        for folder, schema in FOLDERS:
            connection = connect(folder / schema, folder / "data")
            if connection is None:
                self.skipTest("no PostgreSQL: set NQ_POSTGRES, with psycopg or psycopg2 at hand")
            for file in example_queries(folder):
                with self.subTest(query=str(file)):
                    query = nq.Query(folder / schema, file)
                    wanted = by_program(folder / schema, file.read_text(), folder / "data")
                    self.assertEqual(query.to_json(connection), wanted)
            connection.close()

    def test_examples_on_sqlite(self):
        self.check_folder(sqlite)

    def test_examples_on_postgres(self):
        self.check_folder(postgres)

    def check_forty(self, connect):
        connection = connect(COMPANY / "org", COMPANY / "data")
        if connection is None:
            self.skipTest("no PostgreSQL: set NQ_POSTGRES, with psycopg or psycopg2 at hand")
        self.assertEqual(len(FORTY), 40)
        for text in FORTY:
            with self.subTest(query=text):
                wanted = by_program(COMPANY / "org", text, COMPANY / "data")
                self.assertEqual(nq.Query(COMPANY / "org", text).to_json(connection), wanted)
        connection.close()

    def test_forty_queries_on_sqlite(self):
        self.check_forty(sqlite)

    def test_forty_queries_on_postgres(self):
        self.check_forty(postgres)

    def test_value_by_hand(self):
        query = nq.Query(
            "table people (name: text, at: text, paid: bool); table places (name: text);",
            "for (p <- table places) [(place = p.name, people = for (q <- table people) "
            "where (q.at == p.name) [(name = q.name, paid = q.paid)])]",
        )
        connection = sqlite3.connect(":memory:")
        connection.execute("CREATE TABLE people (name TEXT, at TEXT, paid INTEGER)")
        connection.execute("CREATE TABLE places (name TEXT)")
        connection.execute("INSERT INTO people VALUES ('Ann \"A\"', 'Bergen', 1), ('Bo', 'Bergen', 0)")
        connection.execute("INSERT INTO places VALUES ('Oslo'), ('Bergen')")
        connection.commit()
        # (records are ordered by their fields, and the empty bag stands before every other)
        self.assertEqual(query.run(connection), [
            {"people": [], "place": "Oslo"},
            {"people": [{"name": 'Ann "A"', "paid": True}, {"name": "Bo", "paid": False}],
             "place": "Bergen"},
        ])


class Queries(unittest.TestCase):
    """What a compiled query tells, and how it is asked."""

    def test_parts(self):
        query = nq.Query(**STAFF)
        self.assertEqual(query.type, "[(department: text, people: [(name: text, tasks: [text])])]")
        self.assertEqual(query.columns, [
            ["int", "int", "text", "int", "int"],
            ["int", "int", "text", "int", "int"],
            ["int", "int", "text"],
        ])
        self.assertEqual(len(query.texts), 3)
        self.assertTrue(query.texts[1].startswith('WITH "q.1" AS ('))

    def test_texts_are_asked_as_they_are(self):
        asked = []
        connection = sqlite(COMPANY / "org", COMPANY / "data")
        connection.set_trace_callback(asked.append)
        query = nq.Query(**STAFF)
        query.run(connection)
        self.assertEqual(asked, ["BEGIN", *query.texts, "ROLLBACK"])

    def test_cursor(self):
        connection = sqlite(COMPANY / "org", COMPANY / "data")
        query = nq.Query(**STAFF)
        self.assertEqual(query.run(connection.cursor()), query.run(connection))

    def test_fresh_each_time(self):
        connection = sqlite(COMPANY / "org", COMPANY / "data")
        query = nq.Query(**STAFF)
        query.run(connection).clear()
        self.assertEqual(len(query.run(connection)), 4)

    def test_transaction_of_the_caller(self):
        connection = sqlite(COMPANY / "org", COMPANY / "data")
        connection.execute("DELETE FROM tasks")
        self.assertTrue(connection.in_transaction)
        tasks = nq.Query(COMPANY / "org", "table tasks")
        self.assertEqual(tasks.run(connection), [])
        self.assertTrue(connection.in_transaction)
        connection.rollback()
        self.assertNotEqual(tasks.run(connection), [])
        self.assertFalse(connection.in_transaction)

    def test_one_snapshot(self):
        """A change between two texts is not seen."""
        with tempfile.TemporaryDirectory() as name:
            file = os.path.join(name, "company.db")
            reader = sqlite(COMPANY / "org", COMPANY / "data", file)
            reader.execute("PRAGMA journal_mode=WAL")
            writer = sqlite3.connect(file)
            query = nq.Query(**STAFF)
            before = query.to_json(reader)

            def change(text):
                if text.startswith("WITH"):
                    writer.execute("DELETE FROM departments")
                    writer.commit()

            reader.set_trace_callback(change)
            self.assertEqual(query.to_json(reader), before)
            reader.set_trace_callback(None)
            self.assertEqual(query.run(reader), [])
            reader.close()
            writer.close()

    def test_side_by_side(self):
        with tempfile.TemporaryDirectory() as name:
            file = os.path.join(name, "company.db")
            sqlite(COMPANY / "org", COMPANY / "data", file).close()
            query = nq.Query(**STAFF)
            values = []

            def ask():
                connection = sqlite3.connect(file)
                values.append(query.to_json(connection))
                connection.close()

            threads = [threading.Thread(target=ask) for _ in range(20)]
            for thread in threads:
                thread.start()
            for thread in threads:
                thread.join()
        self.assertEqual(len(values), 20)
        self.assertEqual(len(set(values)), 1)

    def test_command(self):
        with tempfile.TemporaryDirectory() as name:
            file = os.path.join(name, "company.db")
            sqlite(COMPANY / "org", COMPANY / "data", file).close()
            values = [self.run_command(*form, "org", "staff", f"sqlite:{file}").stdout
                      for form in ([], ["json"], ["text"])]
            refused = self.run_command("org", "org", f"sqlite:{file}")
        wanted = by_program(COMPANY / "org", (COMPANY / "staff").read_text(), COMPANY / "data")
        json_line = (wanted + "\n").encode("utf-8")
        self.assertEqual(values, [json_line, json_line, (COMPANY / "staff.out").read_bytes()])
        self.assertEqual((refused.returncode, refused.stdout), (4, b""))
        self.assertTrue(refused.stderr.startswith(b"org:2:24: "))

    def test_no_driver(self):
        with mock.patch.dict(sys.modules, {"psycopg": None, "psycopg2": None}):
            with self.assertRaisesRegex(nq.Error, "needs psycopg or psycopg2"):
                connect("postgresql://localhost/nowhere")

    def run_command(self, *words):
        """The ended process of `python -m nq run` with these words, in the folder of the company."""
        path = str(Path(nq.__file__).resolve().parents[1])
        return subprocess.run([sys.executable, "-m", "nq", "run", *words], capture_output=True,
                              check=False, cwd=COMPANY, env=dict(os.environ, PYTHONPATH=path))


class Readme(unittest.TestCase):
    """The example of the README, as it stands."""

    def test_example(self):
        package = Path(nq.__file__).resolve().parents[1]
        text = (package / "README.md").read_text(encoding="utf-8")
        example = text.split("```python\n")[1].split("```")[0]
        with tempfile.TemporaryDirectory() as name:
            sqlite(COMPANY / "org", COMPANY / "data", os.path.join(name, "company.db")).close()
            for file in ("org", "staff"):
                (Path(name) / file).write_bytes((COMPANY / file).read_bytes())
            done = subprocess.run([sys.executable, "-c", example], capture_output=True, check=True,
                                  cwd=name, env=dict(os.environ, PYTHONPATH=str(package)))
        self.assertEqual(done.stdout.decode("utf-8"),
                         "Product ['Alex', 'Bert']\nQuality []\nResearch ['Cora', 'Drew']\n"
                         "Sales ['Erik', 'Fred', 'Gina']\n")


class Faults(unittest.TestCase):
    """Every exception, and that nothing is left behind."""

    def setUp(self):
        self.folders = set(glob.glob(os.path.join(tempfile.gettempdir(), "nq-*")))

    def tearDown(self):
        left = set(glob.glob(os.path.join(tempfile.gettempdir(), "nq-*"))) - self.folders
        self.assertEqual(left, set())

    def answer(self, table, row, query="table t"):
        """Runs a query over a table of one row."""
        connection = sqlite3.connect(":memory:")
        connection.execute("CREATE TABLE t (a, b)")
        connection.execute("INSERT INTO t VALUES (1, 'x')")
        connection.execute("INSERT INTO t VALUES (?, ?)", row)
        connection.commit()
        return nq.Query(f"table t ({table});", query).run(connection)

    def test_schema(self):
        with self.assertRaises(nq.Refused) as caught:
            nq.Query("table t (a: int, a: int);", "table t")
        error = caught.exception
        self.assertEqual((error.status, error.fault, error.place), (3, "TwiceColumn", 17))
        self.assertEqual((error.line, error.column), (1, 18))
        self.assertTrue(str(error).startswith("schema:1:18: An earlier column of this table has"))

    def test_query(self):
        with self.assertRaises(nq.Refused) as caught:
            nq.Query("table t (a: int);", "for (x <- table t)\n  where x.a == 1 [x]")
        error = caught.exception
        self.assertEqual((error.status, error.fault, error.line, error.column), (4, "Unexpected", 2, 9))
        self.assertEqual(str(error), "query:2:9: The condition stands in parentheses, as in "
                         "where (c.vip).\n  where x.a == 1 [x]\n        ^\nfound: x\nexpected: (")

    def test_type(self):
        with self.assertRaises(nq.Refused) as caught:
            nq.Query("table t (a: int);", "table u")
        error = caught.exception
        self.assertEqual((error.status, error.rule, error.fault, error.place), (5, 5, None, 0))
        self.assertEqual(str(error).splitlines()[1:], ["table u", "^", "tables: t", "nearest: t"])

    def test_too_long(self):
        with self.assertRaises(nq.Refused) as caught:
            nq.Query("table t (a: int);", " " * 1_048_577)
        self.assertEqual((caught.exception.status, caught.exception.fault), (10, "TooLong"))

    def test_no_file(self):
        with self.assertRaises(FileNotFoundError):
            nq.Query("nowhere", "table t")

    def check_cell(self, table, row, fault, column):
        with self.assertRaises(nq.AnswerError) as caught:
            self.answer(table, row)
        error = caught.exception
        self.assertEqual((error.fault, error.text, error.row, error.column), (fault, 1, 2, column))

    def test_cells(self):
        self.check_cell("a: int, b: text", (None, "x"), "Null", 3)
        self.check_cell("a: int, b: text", (1.5, "x"), "Type", 3)
        self.check_cell("a: int, b: text", ("1", "x"), "Type", 3)
        self.check_cell("a: int, b: text", (1, 2), "Type", 4)
        self.check_cell("a: int, b: text", (1, b"x"), "Type", 4)

    def test_truth_values(self):
        with self.assertRaises(nq.AnswerError) as caught:
            self.answer("a: bool, b: text", (2, "x"))
        self.assertEqual((caught.exception.fault, caught.exception.column), ("Type", 3))
        self.assertEqual(self.answer("a: bool, b: text", (0, "y")),
                         [{"a": False, "b": "y"}, {"a": True, "b": "x"}])

    def test_integers(self):
        with self.assertRaises(nq.AnswerError) as caught:
            self.answer("a: int, b: text", (2**62, "x"), "for (x <- table t) [x.a + x.a]")
        self.assertEqual(caught.exception.fault, "Type")

    def test_driver(self):
        connection = sqlite3.connect(":memory:")
        with self.assertRaises(sqlite3.OperationalError):
            nq.Query("table t (a: int);", "table t").run(connection)
        self.assertFalse(connection.in_transaction)

    def test_broken_between_two_texts(self):
        class Cursor:
            def __init__(self, inner):
                self.inner, self.asked = inner, 0

            def execute(self, text):
                self.asked += 1
                if self.asked == 3:
                    raise OSError("the connection broke")
                return self.inner.execute(text)

            def fetchall(self):
                return self.inner.fetchall()

        connection = sqlite(COMPANY / "org", COMPANY / "data")
        cursor = Cursor(connection.cursor())
        cursor.connection = connection
        with self.assertRaisesRegex(OSError, "the connection broke"):
            nq.Query(**STAFF).run(cursor)
        self.assertFalse(connection.in_transaction)

    def test_rows_that_do_not_link(self):
        class Cursor:
            connection = None
            answers = [[(0, 1, "a", 1, 1)], [(1, 2, "b")]]

            def execute(self, text):
                self.now = self.answers[int(text.startswith("WITH"))]

            def fetchall(self):
                return self.now

        query = nq.Query("table t (a: text);",
                         "for (x <- table t) [(a = x.a, b = for (y <- table t) [y.a])]")
        with self.assertRaises(nq.AnswerError) as caught:
            query.run(Cursor())
        error = caught.exception
        self.assertEqual((error.fault, error.text, error.row), ("Dangling", 2, 1))

    def test_too_long_answer(self):
        class Cursor:
            connection = None

            def execute(self, text):
                pass

            def fetchall(self):
                return [(0, 1, "x" * 1_000_000)] * 68

        with self.assertRaisesRegex(nq.AnswerTooLong, "64 MiB"):
            nq.Query("table t (a: text);", "for (x <- table t) [x.a]").run(Cursor())

    def test_program(self):
        was = os.environ.get("NQ")
        try:
            for words in ("/nowhere/nq", "/bin/false"):
                os.environ["NQ"] = words
                with self.assertRaises(nq.ProgramError):
                    nq.Query("table t (a: int);", f"for (x <- table t) ['{words}']")
        finally:
            os.environ.pop("NQ")
            if was is not None:
                os.environ["NQ"] = was


if __name__ == "__main__":
    unittest.main()
