"""For writing books in Python: each method enters a record and answers its formula number; a formula that is there is not entered
again, so formulas may be named wherever they are wanted. docs/BOOKS.md says what the records are.

    from book import Book
    b = Book()
    p1, p2, k1, n1 = b.principal(1), b.principal(2), b.key(1), b.datum(1)
    b.assume(b.believes(p1, b.shared_key(p1, k1, p2)))
    b.message(p2, p1, b.encrypted(n1, k1, p2))
    b.goal(1, b.believes(p1, b.said(p2, n1)))
    b.write("one.book")

Nothing is checked here: the library reads the book and refuses it where it is none.
"""


class Book:
    def __init__(self):
        self.formulas = {}
        self.records = []

    def bytes(self):
        return b"".join(bytes([kind]) + b"".join(x.to_bytes(2, "big") for x in fields) for kind, *fields in self.records)

    def write(self, path):
        with open(path, "wb") as out:
            out.write(self.bytes())

    def formula(self, *record):
        if record not in self.formulas:
            self.formulas[record] = len(self.formulas)
            self.records.append(record)
        return self.formulas[record]

    def principal(self, name):
        return self.formula(1, name)

    def key(self, name):
        return self.formula(2, name)

    def datum(self, name):
        return self.formula(3, name)

    def conjunction(self, *members):
        """(X, Y, Z) is (X, (Y, Z))."""
        if len(members) == 2:
            return self.formula(4, *members)
        return self.formula(4, members[0], self.conjunction(*members[1:]))

    def encrypted(self, x, key, sender):
        return self.formula(5, x, key, sender)

    def signed(self, x, key, sender):
        return self.formula(6, x, key, sender)

    def combined(self, x, secret):
        return self.formula(7, x, secret)

    def shared_key(self, p, key, q):
        return self.formula(8, p, key, q)

    def public_key(self, key, owner):
        return self.formula(9, key, owner)

    def shared_secret(self, p, x, q):
        return self.formula(10, p, x, q)

    def fresh(self, x):
        return self.formula(11, x)

    def believes(self, p, x):
        return self.formula(12, p, x)

    def sees(self, p, x):
        return self.formula(13, p, x)

    def said(self, p, x):
        return self.formula(14, p, x)

    def controls(self, p, x):
        return self.formula(15, p, x)

    def variable(self, name):
        """It stands wherever a key does."""
        return self.formula(16, name)

    def for_every(self, variable, control):
        return self.formula(17, variable, control)

    def assume(self, statement):
        self.records.append((32, statement))

    def message(self, sender, receiver, x):
        self.records.append((33, sender, receiver, x))

    def goal(self, after, statement):
        self.records.append((34, after, statement))
