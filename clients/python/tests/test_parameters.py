"""Parameters of queries: how they are written, and what they come to."""
import os
import subprocess
import sys
import tempfile
import unittest
from collections import OrderedDict
from pathlib import Path
from unittest import mock

import nq
from nq import query as queries
from nq.parameters import lets_at_head, of_words

from .databases import EXAMPLES, postgres, sqlite

COMPANY = EXAMPLES / "company"
NAMES = "for (e <- table employees) where (e.dept == dept && e.salary > least) [e.name]"
TEXTS = ["", "'", "''", "' ++ ['x'] #", "line\nline\r\n", "# no comment", "\t", "ü 猫 🐈", "\\",
         '"']


def whole(query, parameters):
    """A query with its parameters."""
    text = query.encode("utf-8")
    at, lets = lets_at_head(text, parameters)
    return (text[:at] + lets + text[at:]).decode("utf-8")


class Written(unittest.TestCase):
    """The query that the program is given."""

    def test_none(self):
        self.assertEqual(whole("table t", None), "table t")
        self.assertEqual(whole("table t", {}), "table t")

    def test_values(self):
        values = {"a": "it's", "b": True, "c": False, "d": 0, "e": -7, "f": 2**63 - 1,
                  "g": -(2**63)}
        self.assertEqual(whole("table t", values), (
            " let a = 'it''s'; let b = true; let c = false; let d = 0; let e = -7; "
            "let f = 9223372036854775807; let g = -9223372036854775807 - 1; \ntable t"
        ))

    def test_behind_the_header(self):
        self.assertEqual(whole("nq 2;\n[n]", {"n": 1}), "nq 2; let n = 1; \n     \n[n]")
        self.assertEqual(whole("# x\nnq# y\n2 ; [n]", {"n": 1}),
                         "# x\nnq# y\n2 ; let n = 1; \n    [n]")
        self.assertEqual(whole("\ufeffnq 2;[n]", {"n": 1}), "\ufeffnq 2; let n = 1; \n     [n]")

    def test_no_header(self):
        for text in ("nq 22; [n]", "nq2; [n]", "nqq 2; [n]", "# nq 2;\n[n]"):
            self.assertEqual(whole(text, {"n": 1}), " let n = 1; \n" + text)
        self.assertEqual(whole("\ufeff[n]", {"n": 1}), "\ufeff let n = 1; \n[n]")

    def test_refused_names(self):
        for name in ("", "a b", "1a", "a'", "for", "text", "a" * 65, "ü", 1):
            with self.assertRaises(nq.ParameterError):
                lets_at_head(b"[1]", {name: 1})
        for name in ("count", "sum"):
            self.assertEqual(whole("[1]", {name: 1}), f" let {name} = 1; \n[1]")
            with self.assertRaises(nq.ParameterError):
                lets_at_head(b"nq 2; [1]", {name: 1})

    def test_refused_values(self):
        for value in (None, 1.5, b"x", [1], 2**63, -(2**63) - 1, "\ud800"):
            with self.assertRaises(nq.ParameterError):
                lets_at_head(b"[1]", {"n": value})

    def test_words(self):
        self.assertEqual(
            of_words(["a=1", "b=-2", "c=true", "d=Oslo", "e='5'", "f=", "g=a=b", "h='"]),
            {"a": 1, "b": -2, "c": True, "d": "Oslo", "e": "5", "f": "", "g": "a=b", "h": "'"},
        )
        for words in (["a"], ["a=1", "a=2"]):
            with self.assertRaises(nq.ParameterError):
                of_words(words)


class Runs(unittest.TestCase):
    """What queries with parameters give."""

    def test_values_of_a_query(self):
        connection = sqlite(COMPANY / "org", COMPANY / "data")
        for dept, least, names in [("Sales", 900, ["Erik", "Gina"]), ("Sales", 2**63 - 1, []),
                                   ("Product", -(2**63), ["Alex", "Bert"]),
                                   ("x' OR '1'='1", 0, [])]:
            query = nq.Query(COMPANY / "org", NAMES, {"dept": dept, "least": least})
            self.assertEqual(query.run(connection), names)

    def check_texts(self, connection):
        if connection is None:
            self.skipTest("no PostgreSQL: set NQ_POSTGRES, with psycopg or psycopg2 at hand")
        for text in TEXTS:
            with self.subTest(text=text):
                query = nq.Query(COMPANY / "org", "[(t = t, is = t == t)]", {"t": text})
                self.assertEqual(query.run(connection), [{"t": text, "is": True}])
        connection.close()

    def test_texts_on_sqlite(self):
        self.check_texts(sqlite(COMPANY / "org", COMPANY / "data"))

    def test_texts_on_postgres(self):
        self.check_texts(postgres(COMPANY / "org", COMPANY / "data"))

    def test_second_edition(self):
        connection = sqlite(COMPANY / "org", COMPANY / "data")
        query = nq.Query(COMPANY / "org", f"nq 2; [count({NAMES})]", {"dept": "Sales", "least": 0})
        self.assertEqual(query.run(connection), [3])

    def test_places(self):
        """A refusal is at the place in the query as it was given."""
        for text, place, line, column in [("[x]\n++ [y]", 8, 2, 5), ("nq 2; [x, 1]", 8, 1, 9)]:
            with self.assertRaises(nq.Refused) as caught:
                nq.Query("table t (a: int);", text, {"x": "a\nb\nc"})
            error = caught.exception
            self.assertEqual((error.place, error.line, error.column), (place, line, column))
            self.assertTrue(str(error).startswith(f"query:{line}:{column}: "), str(error))

    def test_types(self):
        with self.assertRaises(nq.Refused) as caught:
            nq.Query(COMPANY / "org", NAMES, {"dept": 1, "least": 0})
        self.assertEqual((caught.exception.status, caught.exception.place), (5, NAMES.index("==")))

    def test_few_are_kept(self):
        with mock.patch.object(queries, "_compiled", OrderedDict()) as kept:
            with mock.patch.object(queries, "_MOST_COMPILED", 2):
                for number in (1, 2, 1, 3):
                    nq.Query("table t (a: int);", "[n]", {"n": number})
            self.assertEqual([text.decode("utf-8") for _, text in kept],
                             [whole("[n]", {"n": number}) for number in (1, 3)])

    def test_command(self):
        with tempfile.TemporaryDirectory() as name:
            file = os.path.join(name, "company.db")
            sqlite(COMPANY / "org", COMPANY / "data", file).close()
            query = os.path.join(name, "query")
            Path(query).write_text(NAMES, encoding="utf-8")
            path = str(Path(nq.__file__).resolve().parents[1])
            words = ["run", "text", "org", query, f"sqlite:{file}", "dept=Sales", "least=900"]
            texts = [subprocess.run([sys.executable, "-m", "nq", *form], capture_output=True,
                                    check=True, cwd=COMPANY, env=dict(os.environ, PYTHONPATH=path))
                     for form in (words, [words[0], *words[2:]])]
        self.assertEqual([done.stdout for done in texts],
                         [b"{'Erik', 'Gina'}\n", b'["Erik","Gina"]\n'])


if __name__ == "__main__":
    unittest.main()
