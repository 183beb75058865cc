"""Forty queries over the schema of examples/company, each of another form."""

FORTY = [
    "table departments",
    "table employees",
    "[1]",
    "[true] ++ [false] ++ [true]",
    "['it''s'] ++ ['']",
    "[()]",
    "[: int]",
    "[(a = 1, b = (c = true, d = 'x'))]",
    "[[1] ++ [2]] ++ [[: int]]",
    "for (d <- table departments) [d.name]",
    "for (d <- table departments) [(d = d.name, e = [: text])]",
    "for (e <- table employees) where (e.salary < 1000) [e.name]",
    "for (e <- table employees) where (!(e.salary < 1000)) [e.name]",
    "for (e <- table employees) where (e.dept != 'Sales' || e.salary >= 700) [e.salary]",
    "for (e <- table employees) [e.salary + 1]",
    "for (e <- table employees) [-e.salary * 2 - 3]",
    "for (e <- table employees) [e.salary > 900 && e.name < 'E']",
    "for (e <- table employees) [if e.salary > 900 then 'rich' else e.name]",
    "for (c <- table contacts) where (c.client) [c]",
    "for (c <- table contacts) [(client = c.client, of = [c.dept])]",
    "(for (t <- table tasks) [t.task]) ++ (for (t <- table tasks) [t.employee])",
    "for (d <- table departments) [(d = d.name, es = for (e <- table employees) "
    "where (e.dept == d.name) [e.name])]",
    "for (d <- table departments) [for (e <- table employees) where (e.dept == d.name) [e.name]]",
    "for (d <- table departments) [(name = d.name, count = for (e <- table employees) "
    "where (e.dept == d.name) [()])]",
    "for (d <- table departments) where (empty(for (e <- table employees) "
    "where (e.dept == d.name) [()])) [d]",
    "for (d <- table departments) where (!empty(for (e <- table employees) "
    "where (e.dept == d.name) [()])) [d]",
    "for (e <- table employees) for (f <- table employees) where (e.dept == f.dept) "
    "[(e = e.name, f = f.name)]",
    "for (e <- table employees) [(e = e.name, ts = for (t <- table tasks) "
    "where (t.employee == e.name) [(t = t.task, by = for (u <- table tasks) "
    "where (u.task == t.task) [u.employee])])]",
    "for (d <- table departments) [(d = d.name, both = (for (e <- table employees) "
    "where (e.dept == d.name) [e.name]) ++ (for (c <- table contacts) "
    "where (c.dept == d.name) [c.name]))]",
    "let twice = fun (n: int) -> n + n; for (e <- table employees) [twice(twice(e.salary))]",
    "let of = fun (d: text) -> for (e <- table employees) where (e.dept == d) [e.name]; "
    "for (d <- table departments) [of(d.name)]",
    "let name = 'Sales'; for (d <- table departments) where (d.name == name) [d]",
    "for (x <- for (e <- table employees) [(n = e.name, s = e.salary)]) where (x.s > 0) [x.n]",
    "nq 2; [count(table employees)]",
    "nq 2; [sum(for (e <- table employees) [e.salary])]",
    "nq 2; for (d <- table departments) [(d = d.name, n = count(for (e <- table employees) "
    "where (e.dept == d.name) [()]))]",
    "nq 2; for (d <- table departments) [(d = d.name, s = sum(for (e <- table employees) "
    "where (e.dept == d.name) [e.salary]), es = for (e <- table employees) "
    "where (e.dept == d.name) [e.name])]",
    "nq 2; for (d <- table departments) where (count(for (e <- table employees) "
    "where (e.dept == d.name) [()]) > 1) [d.name]",
    "for (a <- [1] ++ [2]) for (b <- [10] ++ [20]) [(a = a, b = for (c <- [a + b]) [c])]",
    "for (d <- table departments) [(d = d.name, w = if d.name == 'Sales' then [1] else [2] ++ [3])]",
]
