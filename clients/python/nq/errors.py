"""What can go wrong, as exceptions."""


class Error(Exception):
    """Every error of this package."""


class ProgramError(Error):
    """The program nq is missing, is not built, or ended in a way that no input brings about."""


class Refused(Error):
    """nq refused the schema or the query.

    `status` is the exit status of nq and `note` its line. `fault` is the name of the fault, or None
    for a broken typing rule, whose number is `rule`. `place` counts bytes before the fault in
    `file`; `line` and `column` count from 1, columns in characters. What does not apply is None.
    """

    def __init__(self, message, status, note, fault=None, rule=None, file=None, place=None,
                 line=None, column=None):
        super().__init__(message)
        self.status = status
        self.note = note
        self.fault = fault
        self.rule = rule
        self.file = file
        self.place = place
        self.line = line
        self.column = column


class ParameterError(Error):
    """A parameter has a name or a value that no query can have."""


class AnswerError(Error):
    """An answer of the database is not one that can be stitched.

    `text` is the number of the SQL text, `row` and `column` tell the cell, all counted from 1 and
    None where the fault has none. `fault` is one word: Null, Type or Range for a cell; Dangling or
    Twice for a row that does not link, which no database gives within one snapshot.
    """

    def __init__(self, message, text, fault, row=None, column=None, earlier=None):
        super().__init__(message)
        self.text = text
        self.fault = fault
        self.row = row
        self.column = column
        self.earlier = earlier


class AnswerTooLong(Error):
    """The answers together are longer than nq takes."""


class SnapshotError(Error):
    """The connection is in a transaction whose statements may see different states."""
