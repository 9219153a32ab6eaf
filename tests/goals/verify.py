"""Checks what the program `goals` printed of a book, apart from the library.

    python3 tests/goals/verify.py BOOK OUTPUT

Reading, texts and rules are written here once more from document 01 and document 02's wishes 1 and 4; whether a goal is reached is
asked of the second prover of crates/search_trials. Each step must be what its bracket claims, premises being earlier steps; no fact stands twice, each step but
the last is used, and the last is the goal. A step printed as `too long` stands for every fact so long that meets its claim. Ends
with 0 if all is right; otherwise it names the first line that it finds wrong, and ends with 1.
"""
import pathlib
import re
import sys
from fractions import Fraction

sys.path.append(str(pathlib.Path(__file__).resolve().parents[1]))
from trials import script

LIMIT = 4096

WHO, KEY, ANY, ALL, VARIABLE, CONTROL = (1,), (2, 16), (*range(3, 16), 17), range(1, 18), (16,), (15,)
# of each kind, what its fields refer to; None is a number that refers to nothing
FIELDS = {
    1: (None,), 2: (None,), 3: (None,), 4: (ANY, ANY), 5: (ANY, KEY, WHO), 6: (ANY, KEY, WHO), 7: (ANY, ANY), 8: (WHO, KEY, WHO),
    9: (KEY, WHO), 10: (WHO, ANY, WHO), 11: (ANY,), 12: (WHO, ANY), 13: (WHO, ANY), 14: (WHO, ANY), 15: (WHO, ANY),
    16: (None,), 17: (VARIABLE, CONTROL),
    32: (ALL,), 33: (WHO, WHO, ANY), 34: (None, ALL),
}
SHAPES = {5: "{%s}%s from %s", 6: "{%s}%s' from %s", 7: "<%s>%s", 8: "%s -%s- %s", 9: "%s of %s", 10: "%s =%s= %s",
          11: "fresh %s", 12: "%s believes %s", 13: "%s sees %s", 14: "%s said %s", 15: "%s controls %s", 17: "all %s: %s"}
NAMES = {1: "P", 2: "K", 3: "N", 16: "V"}


class Wrong(Exception):
    pass


class Book:
    """The records up to the first refusal, if there is one; a fact is (mode, P, Q, X) as document 01 writes it."""

    def __init__(self, data):
        self.formulas, self.assumptions, self.messages, self.goals = [], [], [], []
        self.variables, self.delegates = [], []  # of each formula the variables outside kind 17, and whether it is or holds a kind 17
        self.lists = {32: self.assumptions, 33: self.messages, 34: self.goals}
        self.refusal, at, number = None, 0, 0
        while at < len(data) and self.refusal is None:
            kind = data[at]
            size = len(FIELDS.get(kind, ()))
            body = data[at + 1:at + 1 + 2 * size]
            fields = tuple(body[i] * 256 + body[i + 1] for i in range(0, len(body) - 1, 2))
            fault = 1 if kind not in FIELDS else 2 if len(body) < 2 * size else self.fault(kind, fields)
            if fault:
                self.refusal = (fault, number)
            elif kind <= 17:
                self.enter(kind, fields)
            else:
                self.lists[kind].append(fields)
            at, number = at + 1 + 2 * size, number + 1
        self.sealed, self.texts = [], []
        for kind, fields in self.formulas:
            self.sealed.append(kind in (5, 6) or kind not in NAMES and any(self.sealed[x] for x in fields))
            self.texts.append(self.text(kind, fields))

    def enter(self, kind, fields):
        parts = () if kind in NAMES else fields
        own = {len(self.formulas)} if kind == 16 else set()
        self.variables.append(set() if kind == 17 else own.union(*(self.variables[x] for x in parts)))
        self.delegates.append(kind == 17 or any(self.delegates[x] for x in parts))
        self.formulas.append((kind, fields))

    def fault(self, kind, fields):
        """The first number that fits the record, 0 for none."""
        refers = [(x, sort) for x, sort in zip(fields, FIELDS[kind]) if sort]
        if any(self.lists[later] for later in self.lists if 32 <= kind < later):
            return 3
        if kind <= 17 and len(self.formulas) == 256 or kind == 1 and sum(k == 1 for k, _ in self.formulas) == 8:
            return 9
        if kind >= 32 and len(self.lists[kind]) == {32: 64, 33: 16, 34: 32}[kind]:
            return 9
        if any(x >= len(self.formulas) for x, _ in refers):
            return 4
        if any(self.formulas[x][0] not in sort for x, sort in refers):
            return 5
        if kind in (8, 10) and self.formulas[fields[0]][1] >= self.formulas[fields[2]][1]:
            return 6
        if kind == 17 and (self.delegates[fields[1]] or not self.variables[fields[1]] <= {fields[0]}):
            return 23
        if kind == 33 and fields[0] == fields[1]:
            return 7
        if kind in (32, 34) and self.formulas[fields[-1]][0] not in (12, 13):
            return 10
        if kind >= 32 and self.variables[fields[-1]]:
            return 22
        if kind == 34 and fields[0] > len(self.messages):
            return 11
        return 8 if kind <= 17 and (kind, fields) in self.formulas else 0

    def text(self, kind, fields):
        """The text of a formula, None where it is too long; a text with such a part is too long itself."""
        if kind in NAMES:
            return NAMES[kind] + str(fields[0])
        parts = [self.texts[x] for x in fields]
        if None in parts:
            return None
        if kind == 4:
            right = parts[1][1:] if self.formulas[fields[1]][0] == 4 else parts[1] + ")"
            words = "(" + parts[0] + ", " + right
        else:
            words = SHAPES[kind] % tuple(parts)
        return words if len(words) <= LIMIT else None

    def fact_text(self, fact):
        mode, p, q, x = fact
        if self.texts[x] is None:
            return "too long"
        words = {1: " sees ", 2: " believes ", 3: " believes fresh ", 4: " believes %s said ", 5: " believes %s believes "}[mode]
        words = self.texts[p] + (words % self.texts[q] if mode >= 4 else words) + self.texts[x]
        return words if len(words) <= LIMIT else "too long"

    def belief(self, p, x):
        """P believes X, opened."""
        kind, fields = self.formulas[x]
        if kind == 11:
            return (3, p, 0, fields[0])
        return ({14: 4, 12: 5}[kind], p) + fields if kind in (14, 12) else (2, p, 0, x)

    def stated(self, formula):
        """The fact of an assumption or a goal."""
        kind, (p, x) = self.formulas[formula]
        return self.belief(p, x) if kind == 12 else (1, p, 0, x)

    def pairs(self):
        return [(c, *fields) for c, (kind, fields) in enumerate(self.formulas) if kind == 4]

    def put(self, v, x):
        """The records that are x with one key in the place of v; x itself where v does not stand in it."""
        if v not in self.variables[x]:
            return {x}
        numbers, found = {r: y for y, r in enumerate(self.formulas)}, set()
        for key in (y for y, (kind, _) in enumerate(self.formulas) if kind == 2):
            place = {v: key}
            for y, (kind, fields) in enumerate(self.formulas[:x + 1]):
                if v not in self.variables[y]:
                    place[y] = y
                elif y != v:
                    place[y] = numbers.get((kind, tuple(place[z] for z in fields)))
            found.add(place[x])
        return found - {None}

    def concluded(self, rule, *premises):
        """The facts that the rule concludes from the premises in the order printed; of rules 12 and 13 there may be several."""
        modes = tuple(f[0] for f in premises)
        p, q, x, y = premises[0][1], premises[-1][2], premises[0][3], premises[-1][3]
        (first, a), (last, b) = self.formulas[x], self.formulas[y]
        if any(f[1] != p for f in premises):
            return set()
        other = a[0] if first in (8, 10) and p == a[2] else a[-1]
        if rule in (1, 9) and modes == (2, 1) and (first, last) == (8, 5) and p in (a[0], a[2]) and a[1] == b[1] and b[2] != p:
            return {(4, p, other, b[0]) if rule == 1 else (1, p, 0, b[0])}
        if rule in (2, 11) and modes == (2, 1) and (first, last) == (9, 6) and a[0] == b[1] and b[2] != p:
            return {(4, p, a[1], b[0]) if rule == 2 else (1, p, 0, b[0])}
        if rule == 3 and modes == (2, 1) and (first, last) == (10, 7) and p in (a[0], a[2]) and a[1] == b[1]:
            return {(4, p, other, b[0])}
        if rule == 4 and modes == (3, 4) and x == y and not self.sealed[x]:
            return {(5, p, q, x)}
        if rule == 5 and modes == (2, 5) and first == 15 and a == (q, y):
            return {self.belief(p, y)}
        if rule in (6, 7) and modes == (1,) and first == 4:
            return {(1, p, 0, a[rule - 6])}
        if rule == 8 and modes == (1,) and first == 7:
            return {(1, p, 0, a[0])}
        if rule == 10 and modes == (2, 1) and (first, last) == (9, 5) and a == (b[1], p) and b[2] != p:
            return {(1, p, 0, b[0])}
        if rule in (12, 13) and modes == (3,):
            return {(3, p, 0, pair[0]) for pair in self.pairs() if pair[rule - 11] == x}
        if rule in (14, 15) and modes == (4,) and first == 4:
            return {(4, p, q, a[rule - 14])}
        if rule in (16, 17) and modes == (5,) and first == 4:
            return {(5, p, q, a[rule - 16])}
        if rule in (18, 19) and modes == (2,) and first == 4:
            return {self.belief(p, a[rule - 18])}
        if rule == 20 and len(modes) == 2:
            return {(2, p, 0, c) for c, left, right in self.pairs() if (self.belief(p, left), self.belief(p, right)) == premises}
        if rule == 21 and modes == (2, 5) and first == 17:
            who, what = self.formulas[a[1]][1]
            return {self.belief(p, y)} if q == who and y in self.put(a[0], what) else set()
        if rule == 22 and modes == (2,) and first == 17:
            return {(2, p, 0, c) for c in self.put(a[0], a[1])}
        return set()


class Output:
    """Lines taken one after the other; `at` is the number of the last one taken, from 1."""

    def __init__(self, data):
        self.lines, self.at = data.decode("ascii", "replace").split("\n"), 0
        if self.lines.pop() != "":
            self.at = len(self.lines) + 1
            self.wrong("does not end in a line feed")

    def wrong(self, why):
        raise Wrong("line %d: %s" % (self.at, why))

    def take(self):
        self.at += 1
        if self.at > len(self.lines):
            self.wrong("is missing")
        return self.lines[self.at - 1]

    def expect(self, line):
        if self.take() != line:
            self.wrong("should be: " + line)

    def numbers(self, shape):
        """The numbers of a line of this shape, which has one for each %d, printed without zeros in front."""
        line = self.take()
        found = re.fullmatch(re.escape(shape).replace("%d", r"(\d{1,9})"), line)
        if not found or shape % tuple(map(int, found.groups())) != line:
            self.wrong("should be as: " + shape.replace("%d", "N"))
        return [int(x) for x in found.groups()]

    def end(self):
        if self.at < len(self.lines):
            self.at += 1
            self.wrong("should not be there")


def claimed(book, out, after, claim, earlier, used):
    """The facts that a claim allows, `earlier` being those of the earlier steps."""
    found = re.fullmatch(r"(assumption|message) (\d{1,9})|rule (\d{1,9}) from (\d{1,9})(?: and (\d{1,9}))?", claim)
    if not found or re.search(r"\b0\d", claim):
        out.wrong("the bracket is not of the form asked for")
    number = int(found[2] or 0)
    if found[1] == "assumption":
        return {book.stated(book.assumptions[number][0])} if number < len(book.assumptions) else set()
    if found[1] == "message":
        return {(1, book.messages[number - 1][1], 0, book.messages[number - 1][2])} if 1 <= number <= after else set()
    steps = [int(x) for x in found.groups()[3:] if x is not None]
    if any(step >= len(earlier) for step in steps):
        out.wrong("a premise is not an earlier step")
    used.update(steps)
    choices = [()]
    for step in steps:
        choices = [chosen + (f,) for chosen in choices for f in earlier[step]]
    return set().union(*(book.concluded(int(found[3]), *chosen) for chosen in choices))


def derivation(book, out, after, goal):
    """Takes the lines of a derivation that ends in the goal; answers how many steps it has."""
    count, = out.numbers("  reached, %d steps")
    start, earlier, used = out.at + 1, [], set()
    for number in range(count):
        line = out.take()
        found = re.fullmatch(r" *\d+\. (.*)  \[(.*)\]", line)
        if not found or line != "%4d. %s  [%s]" % (number, found[1], found[2]):
            out.wrong("should be step %d, as `%4d. FACT  [CLAIM]`" % (number, number))
        allowed = claimed(book, out, after, found[2], earlier, used)
        facts = {f for f in allowed if book.fact_text(f) == found[1]}
        if not facts:
            out.wrong("%s gives %s" % (found[2], ", ".join(map(book.fact_text, sorted(allowed))) or "nothing"))
        if len(facts) == 1 and facts in earlier:
            out.wrong("the fact of step %d again" % earlier.index(facts))
        earlier.append(facts)
    if not earlier or goal not in earlier[-1]:
        out.wrong("the last step is not the goal")
    for number in range(count - 1):
        if number not in used:
            out.at = start + number
            out.wrong("step %d is not used" % number)
    return count


def verify(data, printed):
    book, out = Book(data), Output(printed)
    if book.refusal:
        out.expect("refused %d at %d" % book.refusal)
        out.end()
        return "refused %d at %d, as it should be" % book.refusal
    prover = script("search_trials")
    forms = prover.trees([r for r in prover.records(data) if r[0] <= 17])
    table = prover.survey(data)
    reached, steps = 0, 0
    for number, (after, formula) in enumerate(book.goals):
        goal = book.stated(formula)
        out.expect("goal %d after %d: %s" % (number, after, book.fact_text(goal)))
        if prover.reached(forms, table, (after, formula)):
            reached, steps = reached + 1, steps + derivation(book, out, after, goal)
        else:
            out.expect("  not reached: no derivation exists")
    share = round(Fraction(100 * reached, len(book.goals) or 1))  # of fractions `round` takes halves to the even neighbour
    out.expect("goals %d of %d, %d per cent" % (reached, len(book.goals), share))
    out.end()
    return "%d of %d goals reached in %d steps, as it should be" % (reached, len(book.goals), steps)


def main():
    if len(sys.argv) != 3:
        sys.exit("verify.py BOOK OUTPUT")
    try:
        print(verify(pathlib.Path(sys.argv[1]).read_bytes(), pathlib.Path(sys.argv[2]).read_bytes()))
    except Wrong as wrong:
        sys.exit("%s: %s" % (sys.argv[2], wrong))


main()
