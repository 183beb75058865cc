"""Answers of a database as nq reads them: each cell is tried before anything is written."""
from decimal import Decimal

from .errors import AnswerError, AnswerTooLong
from .language import GREATEST, LEAST

# The most bytes of all answers together that nq takes.
LIMIT = 67_108_864


def cell_text(value, kind, text, row, column):
    """The CSV text of a cell of the type int, bool or text."""
    if value is None:
        raise _error("Null", f"is NULL; the column has the type {kind}", text, row, column)
    if kind == "text" and isinstance(value, str):
        return '"' + value.replace('"', '""') + '"'
    if kind == "bool" and (isinstance(value, bool) or value in (0, 1) and isinstance(value, int)):
        return "true" if value else "false"
    if kind == "int" and not isinstance(value, bool):
        if isinstance(value, Decimal) and value == value.to_integral_value():
            value = int(value)
        if isinstance(value, int):
            if not LEAST <= value <= GREATEST:
                raise _error("Range", f"{value} is no integer of 64 bits", text, row, column)
            return str(value)
    raise _error("Type", f"{value!r} is a {type(value).__name__} and no {kind}", text, row, column)


def answer_bytes(rows, kinds, text):
    """The CSV bytes of the answer to the text of this number, whose columns have these types."""
    names = ["ot", "on"] + [f"c{at}" for at in range(1, len(kinds) - 1)]
    lines = [",".join(names)]
    for number, row in enumerate(rows, 1):
        if len(row) != len(kinds):
            raise _error("Width", f"it has {len(row)} columns and not {len(kinds)}", text, number)
        lines.append(",".join(
            cell_text(value, kind, text, number, column)
            for column, (value, kind) in enumerate(zip(row, kinds), 1)
        ))
    lines.append("")
    try:
        return "\n".join(lines).encode("utf-8")
    except UnicodeEncodeError as error:
        raise AnswerError(f"answer {text}: a text is no UTF-8: {error}", text, "Type") from error


def write_answers(folder, answers, columns):
    """Writes each answer as FOLDER/K.csv, K from 1. Each is tried before the first is written."""
    every = [answer_bytes(rows, kinds, number)
             for number, (rows, kinds) in enumerate(zip(answers, columns), 1)]
    total = sum(map(len, every))
    if total > LIMIT:
        raise AnswerTooLong(
            f"the answers have {total} bytes together, and nq stitches at most {LIMIT} (64 MiB): "
            "ask for less at once, for example one part of the outermost table at a time"
        )
    for number, answer in enumerate(every, 1):
        (folder / f"{number}.csv").write_bytes(answer)


def _error(fault, why, text, row, column=None):
    where = f"answer {text}, row {row}" + (f", column {column}" if column else "")
    return AnswerError(f"{where}: {why}", text, fault, row, column)
