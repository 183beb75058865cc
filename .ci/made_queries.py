"""Queries and tables that are made from a seed, for tests beside other databases."""
import random


class Made:
    """Makes a query from a seed, typed as it is made, and small tables with equal rows."""

    SCHEMA = "table s (a: int, b: text); table t (a: int, c: bool, b: text); table u (b: text);"
    TABLES = {
        "s": [("a", "int"), ("b", "text")],
        "t": [("a", "int"), ("c", "bool"), ("b", "text")],
        "u": [("b", "text")],
    }
    TEXTS = ["", "a", "B", "b'", "ü", "two words"]

    def __init__(self, seed):
        self.random = random.Random(seed)
        self.names = 0

    def cell(self, kind, is_alone):
        """The cell of a row, which has others beside it unless it is alone."""
        if kind == "int":
            return str(self.random.randint(-2, 3))
        # (sqlite3 takes an empty line for an empty text, so `show load` refuses both)
        texts = self.TEXTS[1:] if is_alone else self.TEXTS
        return self.random.choice(["true", "false"] if kind == "bool" else texts)

    def tables(self, folder):
        """Writes the tables: few rows, many of them equal."""
        for name, columns in self.TABLES.items():
            lines = [",".join(column for column, _ in columns)]
            for _ in range(self.random.randint(0, 6)):
                is_alone = len(columns) == 1
                lines.append(",".join(f'"{self.cell(kind, is_alone)}"' for _, kind in columns))
            (folder / f"{name}.csv").write_text("\n".join(lines) + "\n")

    def of_base(self, kind, scope, depth):
        """A term of a base type."""
        fields = [f"{name}.{column}" for name, columns in scope
                  for column, at in columns if at == kind]
        if fields and self.random.random() < 0.6:
            return self.random.choice(fields)
        if depth > 0 and self.random.random() < 0.3:
            test = self.of_base("bool", scope, depth - 1)
            yes, no = (self.of_base(kind, scope, depth - 1) for _ in range(2))
            return f"(if {test} then {yes} else {no})"
        if kind == "int":
            if depth > 0 and self.random.random() < 0.5:
                op = self.random.choice("+-*")
                left, right = (self.of_base("int", scope, depth - 1) for _ in range(2))
                return f"({left} {op} {right})"
            if depth > 0 and self.random.random() < 0.3:
                return f"count({self.bag(('base', 'text'), scope, 1)})"
            return str(self.random.randint(0, 3))
        if kind == "text":
            return "'" + self.random.choice(self.TEXTS).replace("'", "''") + "'"
        if depth > 0 and self.random.random() < 0.3:
            return f"empty({self.bag(('base', 'int'), scope, 1)})"
        if depth > 0:
            side = self.random.choice(["int", "text", "bool"])
            # (two literals compare by the collation of the database, so no texts are ordered)
            ops = ["==", "!="] if side == "text" else ["==", "!=", "<", "<=", ">", ">="]
            left, right = (self.of_base(side, scope, depth - 1) for _ in range(2))
            return f"({left} {self.random.choice(ops)} {right})"
        return self.random.choice(["true", "false"])

    def kind(self, depth):
        """A type of elements."""
        if depth == 0 or self.random.random() < 0.3:
            return "base", self.random.choice(["int", "text", "bool"])
        labels = self.random.sample(["k", "l", "m", "n"], self.random.randint(1, 3))
        return "record", [(label, self.field_kind(depth)) for label in labels]

    def field_kind(self, depth):
        """A type of fields."""
        if self.random.random() < 0.5:
            return "bag", self.kind(depth - 1)
        return self.kind(0)

    def element(self, kind, scope, depth):
        """A term of a type of elements, or of bags of them."""
        if kind[0] == "base":
            return self.of_base(kind[1], scope, 2)
        if kind[0] == "bag":
            return self.bag(kind[1], scope, depth)
        fields = [f"{label} = {self.element(of, scope, depth)}" for label, of in kind[1]]
        return "(" + ", ".join(fields) + ")"

    def bag(self, kind, scope, depth):
        """A bag of elements of a type."""
        if depth > 0 and self.random.random() < 0.25:
            return f"(({self.bag(kind, scope, depth - 1)}) ++ ({self.bag(kind, scope, depth - 1)}))"
        bound = []
        for _ in range(self.random.randint(1, 2) if depth > 0 else self.random.randint(0, 1)):
            self.names += 1
            bound.append((f"x{self.names}", self.random.choice(list(self.TABLES))))
        inner = scope + [(name, self.TABLES[table]) for name, table in bound]
        loops = "".join(f"for ({name} <- table {table}) " for name, table in bound)
        where = f"where ({self.of_base('bool', inner, 2)}) " if self.random.random() < 0.7 else ""
        return f"({loops}{where}[{self.element(kind, inner, depth - 1 if depth > 0 else 0)}])"

    def query(self):
        return "nq 2;\n" + self.bag(self.kind(2), [], 2) + "\n"
