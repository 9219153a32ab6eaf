"""Writes `stdout` of this program: a second prover, built apart, works on sets of facts over trees. It takes the books from
`stdin`, reads them without the library, and closes the facts of all principals together, as document 01 and document 02's wish 4
state the rules. For a variable it puts each key of the book and one that the book has not: the trees that come of it need be no
records, and facts about them are closed too.

    python3 expected.py > stdout
"""
import functools
import pathlib

SIZES = {1: 1, 2: 1, 3: 1, 4: 2, 5: 3, 6: 3, 7: 2, 8: 3, 9: 2, 10: 3, 11: 1, 12: 2, 13: 2, 14: 2, 15: 2, 16: 1, 17: 2, 32: 1, 33: 3, 34: 2}
LEAVES = (1, 2, 3, 16)


def records(book):
    at, out = 0, []
    while at < len(book):
        kind, size = book[at], SIZES[book[at]]
        fields = [book[at + 1 + 2 * i] * 256 + book[at + 2 + 2 * i] for i in range(size)]
        out.append((kind, fields))
        at += 1 + 2 * size
    return out


class Tree(tuple):
    """A formula as a tuple of its kind and its parts. Trees share their parts: there is one for all that are equal, so that they are
    quickly compared, and each keeps its hash, whether it is clear and its variables, and never computes them twice."""

    planted = {}

    @classmethod
    def of(cls, *items):
        tree = cls(items)
        return cls.planted.setdefault(tree, tree)

    def __hash__(self):
        if "kept" not in self.__dict__:
            self.kept = tuple.__hash__(self)
        return self.kept

    def parts(self):
        return () if self[0] in LEAVES else self[1:]

    def is_clear(self):
        if "clear" not in self.__dict__:
            self.clear = self[0] not in (5, 6) and all(x.is_clear() for x in self.parts())
        return self.clear

    def loose(self):
        """The variables that stand outside kind 17."""
        if "variables" not in self.__dict__:
            inner = [] if self[0] == 17 else [x.loose() for x in self.parts()]
            self.variables = frozenset([self]) if self[0] == 16 else frozenset().union(*inner)
        return self.variables


def trees(formulas):
    out = []
    for kind, fields in formulas:
        out.append(Tree.of(kind, *(fields if kind in LEAVES else [out[x] for x in fields])))
    return out


def put(v, key, x, done):
    """The tree x with the key in the place of the variable v, throughout; those that are done already."""
    if v not in x.loose():
        return x
    if x not in done:
        done[x] = key if x == v else Tree.of(x[0], *(put(v, key, y, done) for y in x.parts()))
    return done[x]


def within(xs):
    """These trees and all that stand in them, each once."""
    found, left = {}, list(xs)
    while left:
        x = left.pop()
        if x not in found:
            found[x] = True
            left += x.parts()
    return found


def delegated(forms):
    """Of each kind 17 who controls what, with one key after the other in the place of its variable: the keys that are there, and one
    that is not."""
    keys = [x for x in forms if x[0] == 2]
    keys.append(Tree.of(2, max((x[1] for x in keys), default=0) + 1))
    done = {}
    out = {}
    for x in forms:
        if x[0] == 17:
            out[x] = [put(x[1], key, x[2], done.setdefault((x[1], key), {})) for key in keys]
    return out


def belief(p, x):
    opened = {11: ("fresh", p, x[1]), 14: ("said", p) + x[1:], 12: ("holds", p) + x[1:]}
    return opened.get(x[0], ("believes", p, x))


def stated(x):
    return belief(x[1], x[2]) if x[0] == 12 else ("sees", x[1], x[2])


def partner(p, pair):
    return pair[3] if p == pair[1] else pair[1]


def by_key(p, y, e):
    """What p, believing y, has of e, which he sees: rules 1, 2, 3, 9, 10, 11."""
    if y[0] == 8 and e[0] == 5 and y[2] == e[2] and e[3] != p and p in (y[1], y[3]):
        yield ("said", p, partner(p, y), e[1])
        yield ("sees", p, e[1])
    if y[0] == 9 and e[0] == 6 and y[1] == e[2] and e[3] != p:
        yield ("said", p, y[2], e[1])
        yield ("sees", p, e[1])
    if y[0] == 9 and e[0] == 5 and y[1] == e[2] and y[2] == p and e[3] != p:
        yield ("sees", p, e[1])
    if y[0] == 10 and e[0] == 7 and y[2] == e[2] and p in (y[1], y[3]):
        yield ("said", p, partner(p, y), e[1])


def parts(f):
    """Rules 6 to 8 and 14 to 19."""
    x = f[-1]
    if x[0] == 4:
        if f[0] in ("sees", "said", "holds"):
            yield f[:-1] + (x[1],)
            yield f[:-1] + (x[2],)
        if f[0] == "believes":
            yield belief(f[1], x[1])
            yield belief(f[1], x[2])
    if x[0] == 7 and f[0] == "sees":
        yield ("sees", f[1], x[1])


class Facts:
    """The facts that follow from those given so far. Each is looked at once, when it comes, with all that came before it."""

    def __init__(self, forms):
        self.all, self.kinds, self.queue = set(), {}, []
        self.delegated = delegated(forms)
        self.wholes = {}  # the conjunctions, of the book and of what is delegated, by their parts
        for c in within([*forms, *(z for zs in self.delegated.values() for z in zs)]):
            if c[0] == 4 and not c.loose():
                for x in {c[1], c[2]}:
                    self.wholes.setdefault(x, []).append(c)

    def of(self, kind, p):
        return self.kinds.setdefault((kind, p), [])

    def give(self, given):
        self.queue.append(given)
        while self.queue:
            f = self.queue.pop()
            if f not in self.all:
                self.all.add(f)
                self.of(f[0], f[1]).append(f)
                self.queue += self.concluded(f)

    def concluded(self, f):
        """What follows at once from f and facts that are there."""
        p, x = f[1], f[-1]
        yield from parts(f)
        if f[0] == "sees":
            for g in self.of("believes", p):
                yield from by_key(p, g[2], x)
        if f[0] == "believes":
            for g in self.of("sees", p):
                yield from by_key(p, x, g[2])
            if x[0] == 15 and ("holds", p, x[1], x[2]) in self.all:
                yield belief(p, x[2])
            for z in self.delegated.get(x, []):
                yield ("believes", p, z)
                if ("holds", p, z[1], z[2]) in self.all:
                    yield belief(p, z[2])
        if f[0] == "holds" and ("believes", p, (15, f[2], x)) in self.all:
            yield belief(p, x)
        if f[0] == "holds":
            yield from (belief(p, x) for g in self.of("believes", p) if (15, f[2], x) in self.delegated.get(g[2], []))
        if f[0] == "fresh":
            yield from (("fresh", p, c) for c in self.wholes.get(x, []))
            yield from (("holds", p, g[2], x) for g in self.of("said", p) if g[3] == x and x.is_clear())
        if f[0] == "said" and ("fresh", p, x) in self.all and x.is_clear():
            yield ("holds", p, f[2], x)
        for y in believed(f):
            for c in self.wholes.get(y, []):
                if belief(p, c[1]) in self.all and belief(p, c[2]) in self.all:
                    yield belief(p, c)


def believed(f):
    """The formulas in which f is a belief."""
    if f[0] == "believes":
        return [f[2]]
    return [(11, f[2])] if f[0] == "fresh" else [({"said": 14, "holds": 12}[f[0]],) + f[2:]] if f[0] in ("said", "holds") else []


def places(forms):
    """The place of a fact about a record by document 01's rule, as a function of the fact."""
    who, numbers = [x for x in forms if x[0] == 1], {x: i for i, x in enumerate(forms)}
    p, n = len(who), len(forms)

    def place(fact):
        column = {"sees": 0, "believes": 1, "fresh": 2}.get(fact[0])
        if column is None:
            column = 3 + who.index(fact[2]) + (p if fact[0] == "holds" else 0)
        return (who.index(fact[1]) * n + numbers[fact[-1]]) * (3 + 2 * p) + column

    return place


def reached(forms, table, goal):
    """Whether a goal, a message number and a formula, is reached by what a survey holds."""
    return 1 <= table[places(forms)(stated(forms[goal[1]]))] <= 1 + goal[0]


@functools.lru_cache(maxsize=None)
def survey(book):
    rs = records(book)
    forms = trees([r for r in rs if r[0] <= 17])
    facts = Facts(forms)
    for r in rs:
        if r[0] == 32:
            facts.give(stated(forms[r[1][0]]))
    first = {f: 1 for f in facts.all}
    for m, r in enumerate(r for r in rs if r[0] == 33):
        facts.give(("sees", forms[r[1][1]], forms[r[1][2]]))
        for f in facts.all:
            first.setdefault(f, m + 2)
    p, n = sum(1 for x in forms if x[0] == 1), len(forms)
    table = [0] * (p * n * (3 + 2 * p))
    place = places(forms)
    recorded = set(forms)
    for f, byte in first.items():
        if f[-1] in recorded:
            table[place(f)] = byte
    return table


def main():
    for line in (pathlib.Path(__file__).parent / "stdin").read_text().splitlines():
        if line.startswith("#"):
            continue
        title, case = line.split(":")
        size, book = case.split("<") if "<" in case else (None, case)
        table = survey(bytes.fromhex(book))
        held = sum(1 for v in table if v)
        if size is None:
            places = "".join(" %d:%d" % (i, v) for i, v in enumerate(table) if v)
            print("%s: held %d%s" % (title, held, places))
        elif int(size) < len(table):
            print("%s: refused 14 at 0, 440 bytes as they were" % title)
        else:
            print("%s: held %d, %d bytes as they were" % (title, held, 440 - len(table)))


if __name__ == "__main__":
    main()
