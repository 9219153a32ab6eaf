"""Writes `stdout` of this program. The books of seeds are drawn here again from document 02's words; the prover in Python of the
survey's trials, which works on sets of facts over trees, says how many facts are held and which goals are reached.

    python3 expected.py > stdout
"""
import pathlib
import sys

sys.path.append(str(pathlib.Path(__file__).resolve().parents[2] / "tests"))
from trials import cases_of, script

prover = script("search_trials")

# The sorts of fields: name, principal, key or variable, formula of kinds 3 to 15 or 17, variable, control, statement, message number.
SORTS = {1: "n", 2: "n", 3: "n", 4: "ff", 5: "fkp", 6: "fkp", 7: "ff", 8: "pkp", 9: "kp", 10: "pfp", 11: "f", 12: "pf",
         13: "pf", 14: "pf", 15: "pf", 16: "n", 17: "vc", 32: "s", 33: "ppf", 34: "ms"}
KINDS = {"p": (1,), "k": (2, 16), "f": (*range(3, 16), 17), "v": (16,), "c": (15,), "s": (12, 13)}
MOST = {32: 64, 33: 16, 34: 32}


def variables(forms, x):
    """The variables that stand in a formula outside kind 17, and 17 for a kind 17."""
    kind, fields = forms[x]
    if kind in (16, 17):
        return {x} if kind == 16 else {"17"}
    return set().union(*(variables(forms, y) for sort, y in zip(SORTS[kind], fields) if sort not in "np"))


def joins(rs, kind, fields):
    """Whether the record is neither refused nor present; by the rules of document 01 on one record, and document 02's on order and on
    variables."""
    forms = [r for r in rs if r[0] <= 17]
    if kind >= 32 and any(r[0] > kind for r in rs):
        return False
    for sort, x in zip(SORTS[kind], fields):
        if sort in KINDS and (x >= len(forms) or forms[x][0] not in KINDS[sort]):
            return False
    if kind in (8, 10) and forms[fields[0]][1] >= forms[fields[2]][1]:
        return False
    if kind == 33 and fields[0] == fields[1]:
        return False
    if kind == 17 and variables(forms, fields[1]) - {fields[0]} or kind >= 32 and variables(forms, fields[-1]) - {"17"}:
        return False
    if kind <= 17:
        return len(forms) < 256 and (kind, fields) not in forms
    return sum(1 for r in rs if r[0] == kind) < MOST[kind]


class Draft:
    """A book as it grows. A formula is drawn from a run, from `low` up to `high` or, where that is None, to the last present."""

    def __init__(self, seed, most, variables=0):
        self.state, self.rs, self.low, self.high, self.v = seed, [], 0, None, variables
        self.p = 2 + self.draw() % most
        for kind, last in ((1, self.p), (2, 2), (16, variables), (3, 3)):
            self.rs += [(kind, [i + 1]) for i in range(last)]

    def draw(self):
        self.state = (self.state + 2654435769) % 2**32
        return self.state ^ (self.state // 65536)

    def formulas(self):
        return sum(1 for r in self.rs if r[0] <= 17)

    def field(self, sort):
        if sort == "p":
            return self.draw() % self.p
        if sort == "k":
            return self.p + self.draw() % (2 + self.v)
        if sort == "v":
            return self.p + 2 + self.draw() % self.v
        if sort == "m":
            return self.draw() % (1 + sum(1 for r in self.rs if r[0] == 33))
        high = self.formulas() if self.high is None else self.high
        return self.low + self.draw() % (high - self.low)

    def enter(self, kind, fields):
        if joins(self.rs, kind, fields):
            self.rs.append((kind, fields))

    def tries(self, times, kinds, low=0, high=None, believed=False):
        """One kind is not drawn; of a run of them, the kind is drawn first."""
        self.low, self.high = low, high
        for _ in range(times):
            kind = kinds if isinstance(kinds, int) else kinds[self.draw() % len(kinds)]
            self.enter(kind, [self.field(sort) for sort in SORTS[kind]])
            if believed:
                self.enter(12, [self.draw() % self.p, self.formulas() - 1])
        return self.formulas()


def practice(seed):
    d = Draft(seed, 6)
    d.tries(40, list(range(4, 16)))
    d.tries(8, 32)
    d.tries(4, 33)
    d.tries(4, 34)
    return written(d.rs)


def thick(seed):
    d = Draft(seed, 2)
    datum = d.p + 2
    pairs = d.tries(5, [4], datum)
    sealed = d.tries(24, [8, 9, 10, 11, 15], datum, pairs, True)
    d.tries(10, [5, 6, 7], datum, pairs)
    rest = d.tries(10, [4, 5, 6, 7], sealed)
    d.tries(12, [4, 12, 13, 14, 15], datum)
    d.tries(48, 32, pairs, sealed)
    d.tries(16, 33, sealed, rest)
    d.tries(16, 34, pairs)
    return written(d.rs)


def mixed(seed):
    """Formula records among the assumptions, the messages and the goals."""
    d = Draft(seed, 2)
    datum = d.p + 2
    pairs = d.tries(5, [4], datum)
    beliefs = d.tries(24, [8, 9, 10, 11, 15], datum, pairs, True)
    rest = d.tries(40, [32, 32, 32, 12], pairs, beliefs)
    d.tries(10, [5, 6, 7], datum, pairs)
    d.tries(24, [33, 33, 5, 6, 4], rest)
    d.tries(6, [4, 12, 13, 14, 15], datum)
    d.tries(24, [34, 34, 12], pairs)
    return written(d.rs)


def delegating(seed):
    """Keys and one variable in pairs and alone; who controls what; that for every V; beliefs in it and in another's belief."""
    d = Draft(seed, 2, 1)
    datum = d.p + 3
    parts = d.tries(12, [8, 9, 9, 4], datum)
    controls = d.tries(10, [15], datum, parts)
    every = d.tries(10, [17], parts, controls)
    thoughts = d.tries(16, [12], datum, parts)
    beliefs = d.tries(40, [12], controls, thoughts)
    d.tries(64, 32, thoughts, beliefs)
    d.tries(4, 33, datum, thoughts)
    d.tries(16, 34, every)
    return written(d.rs)


def confided(seed):
    """The same between two principals, with messages of what is sealed."""
    d = Draft(seed, 1, 1)
    datum = d.p + 3
    parts = d.tries(8, [9, 8, 9, 4], datum)
    controls = d.tries(10, [15], datum, parts)
    every = d.tries(10, [17], parts, controls)
    sealed = d.tries(24, [5, 6, 5], datum, parts)
    d.tries(30, [11, 8, 9, 12, 14], datum, parts, True)
    d.tries(24, [12], controls, every)
    d.tries(64, 32, sealed)
    d.tries(60, [33] * 7 + [34], every)
    return written(d.rs)


def written(rs):
    return b"".join(bytes([k]) + b"".join(bytes([x // 256, x % 256]) for x in f) for k, f in rs)


def line(book):
    rs = prover.records(book)
    forms = prover.trees([r for r in rs if r[0] <= 17])
    table = prover.survey(book)
    goals = [r[1] for r in rs if r[0] == 34]
    reached = sum(prover.reached(forms, table, goal) for goal in goals)
    held = sum(1 for v in table if v)
    return "F %d, held %d, surveys agree, %d of %d reached, all accepted" % (len(table), held, reached, len(goals))


CERTIFICATE = [(1, [1]), (1, [2]), (1, [3]), (2, [1]), (2, [2]), (3, [1]), (9, [3, 1]), (4, [6, 5]), (6, [7, 4, 2]), (9, [4, 2]),
               (12, [0, 9]), (11, [5]), (12, [0, 11]), (15, [2, 6]), (12, [0, 13]), (12, [0, 6])]
REST = [(32, [10]), (32, [12]), (32, [14]), (33, [2, 0, 8]), (34, [1, 15])]
SEALED = [(5, [5, 3, 1]), (4, [16, 5]), (6, [17, 4, 2]), (12, [2, 17]), (12, [0, 19]), (12, [2, 5]), (12, [0, 21]),
          (32, [10]), (32, [12]), (33, [2, 0, 18]), (34, [1, 20]), (34, [1, 22])]


# The cases of document 02's wishes 1 and 4, and what is refused of them.
BESIDE = [(1, [1]), (3, [1]), (12, [0, 1]), (32, [2]), (3, [2]), (12, [0, 3]), (32, [4]), (4, [1, 3]), (12, [0, 5]), (34, [0, 6])]
REFUSED = {"257 formulas": "9 at 256", "9 principals": "9 at 21", "an assumption behind a goal": "3 at 11",
           "a formula named before it comes": "4 at 3", "a ninth principal behind an assumption": "9 at 11",
           "another variable": "23 at 10", "a goal with a loose variable": "22 at 10"}
DELEGATIONS = ("delegation over any key", "no key, and V not in Z", "one key throughout", "no freshness of what has a variable",
               "another's belief in a delegation", "no other variable", "clear where what is controlled is", "doubled in a delegation",
               "another variable", "a goal with a loose variable")


def in_front(records):
    return sorted(records, key=lambda r: r[0] > 17)


def last_named(r):
    return max(x for sort, x in zip(SORTS[r[0]], r[1]) if sort != "m")


def beside(records):
    """The formulas in their order, and each other record as soon as the formulas that it names are there."""
    out, others, placed = [], [r for r in records if r[0] > 17], 0
    for formula in (r for r in records if r[0] <= 17):
        out, placed = out + [formula], placed + 1
        while others and last_named(others[0]) < placed:
            out.append(others.pop(0))
    return out


def without(records, one):
    return [r for r in records if r != one]


def filled(principals, data):
    """The certificate with more names behind its formulas."""
    more = [(1, [i]) for i in range(4, principals + 1)] + [(3, [i]) for i in range(2, data + 1)]
    return CERTIFICATE + more + REST


def exact(places):
    for size, said in ((places, "held 15"), (places - 1, "refused 14 at 0")):
        print("survey in %d bytes: %s" % (size, said))
    for w, d in ((0, 0), (1, 0), (0, 1)):
        said = "refused 14 at 0" if w + d else "reached, held 15, accepted"
        print("prover in %d and %d bytes: %s" % (places * 8 - w, places * 12 - d, said))


def main():
    own = [(6, [7, 4, 0]) if r[0] == 6 else r for r in CERTIFICATE]
    for label, rs in (("the certificate", CERTIFICATE + REST),
                      ("goal after 0", CERTIFICATE + REST[:-1] + [(34, [0, 15])]),
                      ("without assumption 12", CERTIFICATE + without(REST, (32, [12]))),
                      ("without assumption 14", CERTIFICATE + without(REST, (32, [14]))),
                      ("record 8 from P1", own + REST),
                      ("a pair with a sealed part", CERTIFICATE + SEALED),
                      ("the empty book", []),
                      ("256 formulas", filled(3, 241)),
                      ("257 formulas", None),
                      ("8 principals", filled(8, 1)),
                      ("9 principals", None),
                      ("256 formulas, 8 principals", filled(8, 236)[:-1]),
                      ("formulas beside their assumptions", BESIDE),
                      ("the same with the formulas in front", in_front(BESIDE)),
                      ("an assumption behind a goal", None),
                      ("a formula named before it comes", None),
                      ("a ninth principal behind an assumption", None),
                      ("the certificate, formulas beside", beside(CERTIFICATE + REST)),
                      ("record 8 from P1, formulas beside", beside(own + REST)),
                      ("a pair with a sealed part, formulas beside", beside(CERTIFICATE + SEALED)),
                      ("256 formulas, formulas behind the goal", beside(filled(3, 241)))):
        print("%s: %s" % (label, "refused " + REFUSED[label] if rs is None else line(written(rs))))
    books = {title: book for book, title, _ in cases_of("second_prover")}
    for label in ("two principals with the same facts", "the largest survey"):
        print("%s: %s" % (label, line(books[label])))
    for label in DELEGATIONS:
        print("%s: %s" % (label, "refused " + REFUSED[label] if label in REFUSED else line(books[label])))
    exact(432)
    exact(38912)
    for seed in range(60):
        print("practice book %d: %s" % (seed, line(practice(seed))))
    for seed in range(80):
        print("thick book %d: %s" % (seed, line(thick(seed))))
    for seed in range(60):
        print("mixed book %d: %s" % (seed, line(mixed(seed))))
    for seed in range(60):
        print("delegating book %d: %s" % (seed, line(delegating(seed))))
    for seed in range(40):
        print("confided book %d: %s" % (seed, line(confided(seed))))


if __name__ == "__main__":
    main()
