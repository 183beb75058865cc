"""What words and integers the language of nq has."""
import re

LEAST, GREATEST = -(2**63), 2**63 - 1

_WORD = re.compile(r"[A-Za-z_][A-Za-z0-9_]{0,63}")


def is_word(name):
    """Whether a name can be one of a table, a column or a variable, reserved words apart."""
    return _WORD.fullmatch(name) is not None
