"""One state of the database for all texts of a query.

A change between two texts can put elements under wrong parents, and nothing need show it. So all
texts are asked in one read-only snapshot.
"""
from contextlib import contextmanager

from .drivers import is_postgres, is_sqlite
from .errors import SnapshotError

_READ_ONLY = "ISOLATION LEVEL REPEATABLE READ READ ONLY"


@contextmanager
def snapshot(connection, cursor):
    """Holds one snapshot while the block runs, begun as the driver's database asks.

    For SQLite and PostgreSQL it is begun here, and ended. In a transaction of the caller's it is
    the caller's, which PostgreSQL has to run at REPEATABLE READ or SERIALIZABLE. For every other
    driver it is the caller who begins a transaction that reads one state.
    """
    if is_sqlite(connection):
        begun = not connection.in_transaction
        if begun:
            cursor.execute("BEGIN")
    elif is_postgres(connection):
        begun = _begin_postgres(connection, cursor)
    else:
        begun = False
    try:
        yield
    finally:
        if begun:
            _end(connection, cursor)


def _begin_postgres(connection, cursor):
    """Begins a snapshot unless the connection is in a transaction, and says whether it did."""
    info = connection.info
    if int(info.transaction_status) == 0:
        begin = "BEGIN " if connection.autocommit else "SET TRANSACTION "
        cursor.execute(begin + _READ_ONLY)
        return True
    cursor.execute("SHOW transaction_isolation")
    level = cursor.fetchone()[0]
    if level not in ("repeatable read", "serializable"):
        raise SnapshotError(
            f"the connection is in a transaction at {level.upper()}, in which each text may see "
            "another state: end it, or begin it at REPEATABLE READ"
        )
    return False


def _end(connection, cursor):
    """Ends the snapshot. Nothing was written, so nothing is lost by rolling back."""
    if getattr(connection, "autocommit", False) is True:
        cursor.execute("ROLLBACK")
    else:
        connection.rollback()
