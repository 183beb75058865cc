#!/usr/bin/env python3
"""Measures ways to fetch departments with their people and the tasks of each from a SQLite file.

    python3 measure.py [DEPARTMENTS]

Each way gives the same lists and dicts, and is timed alone, the best of three. Those of SQLAlchemy
are left out where it is not installed.
"""
import sqlite3
import sys
import tempfile
import time
from contextlib import closing
from pathlib import Path

sys.path.insert(0, str(Path(__file__).resolve().parent))
import nq

SCHEMA = """
table departments (name: text, key (name));
table employees (dept: text, name: text, key (name));
table tasks (employee: text, task: text);
"""
QUERY = """
for (d <- table departments)
[(name = d.name,
  people = for (e <- table employees) where (e.dept == d.name)
    [(name = e.name, tasks = for (t <- table tasks) where (t.employee == e.name) [t.task])])]
"""


def make(file, departments):
    """Fills a SQLite file: three people in a department, and four tasks among them."""
    with closing(sqlite3.connect(file)) as connection, connection:
        connection.executescript("""
            CREATE TABLE departments (name TEXT NOT NULL PRIMARY KEY);
            CREATE TABLE employees (name TEXT NOT NULL PRIMARY KEY,
                                    dept TEXT NOT NULL REFERENCES departments);
            CREATE TABLE tasks (id INTEGER PRIMARY KEY, task TEXT NOT NULL,
                                employee TEXT NOT NULL REFERENCES employees);
            CREATE INDEX by_dept ON employees (dept);
            CREATE INDEX by_employee ON tasks (employee);
        """)
        connection.executemany("INSERT INTO departments VALUES (?)",
                               ((f"d{d}",) for d in range(departments)))
        connection.executemany("INSERT INTO employees VALUES (?, ?)",
                               ((f"e{e}", f"d{e // 3}") for e in range(3 * departments)))
        connection.executemany("INSERT INTO tasks (task, employee) VALUES (?, ?)",
                               ((f"t{t % 7}", f"e{t * 3 // 4}") for t in range(4 * departments)))


def by_nq(file):
    """Three texts, and stitching by the program."""
    query = nq.Query(SCHEMA, QUERY)
    with closing(sqlite3.connect(file)) as connection:
        return query.run(connection)


def row_by_row(file):
    """A statement for each department and each of its people."""
    with closing(sqlite3.connect(file)) as connection:
        def column(text, *cells):
            return [row[0] for row in connection.execute(text, cells)]
        return [
            {"name": d, "people": [
                {"name": e, "tasks": column("SELECT task FROM tasks WHERE employee = ?", e)}
                for e in column("SELECT name FROM employees WHERE dept = ?", d)]}
            for d in column("SELECT name FROM departments")]


def by_orm(loading):
    """SQLAlchemy, with its relations loaded in a way of its own."""
    from sqlalchemy import Column, ForeignKey, Integer, Text, create_engine
    from sqlalchemy.orm import Session, declarative_base, relationship

    base = declarative_base()

    class Task(base):
        __tablename__ = "tasks"
        id = Column(Integer, primary_key=True)
        task = Column(Text)
        employee = Column(Text, ForeignKey("employees.name"))

    class Employee(base):
        __tablename__ = "employees"
        name = Column(Text, primary_key=True)
        dept = Column(Text, ForeignKey("departments.name"))
        tasks = relationship(Task, lazy=loading)

    class Department(base):
        __tablename__ = "departments"
        name = Column(Text, primary_key=True)
        people = relationship(Employee, lazy=loading)

    def fetch(file):
        with Session(create_engine(f"sqlite:///{file}")) as session:
            return [
                {"name": d.name, "people": [
                    {"name": e.name, "tasks": [t.task for t in e.tasks]} for e in d.people]}
                for d in session.query(Department).all()]
    return fetch


def sorted_deep(departments):
    """The same with its lists in one order, since no way but nq's promises one."""
    return sorted(
        (d["name"], sorted((e["name"], tuple(sorted(e["tasks"]))) for e in d["people"]))
        for d in departments)


def main(departments):
    """Times each way, and prints a line for it."""
    ways = {"nq, three texts": by_nq, "a statement for each row": row_by_row}
    try:
        ways["SQLAlchemy, selectin"] = by_orm("selectin")
        ways["SQLAlchemy, joined"] = by_orm("joined")
        ways["SQLAlchemy, lazy"] = by_orm("select")
    except ImportError:
        print("SQLAlchemy is not installed")
    with tempfile.TemporaryDirectory() as folder:
        file = Path(folder) / "tables.db"
        make(file, departments)
        wanted = None
        for name, fetch in ways.items():
            times = []
            for _ in range(3):
                begun = time.perf_counter()
                got = fetch(file)
                times.append(time.perf_counter() - begun)
            got = sorted_deep(got)
            wanted = wanted or got
            print(f"{name}: {min(times):.2f} s" + ("" if got == wanted else ", another value"))


if __name__ == "__main__":
    main(int(sys.argv[1]) if len(sys.argv) > 1 else 2000)
