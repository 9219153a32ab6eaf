"""Writes `stdout` of this program: a second checker, built apart, goes through the derivations of `stdin`. Each fact is one tree, of
kind 12 or 13, and each rule is a pattern of trees as document 01 and document 02's wish 4 print it. The second reader of the reader's
trials reads the books.

    python3 expected.py > stdout
"""
import pathlib
import sys

sys.path.append(str(pathlib.Path(__file__).resolve().parents[2] / "tests"))
from trials import cases_of, script

reader = script("book_trials")

PAIR, SEALED, SIGNED, COMBINED, SHARED, PUBLIC, SECRET, FRESH, BELIEVES, SEES, SAID, CONTROLS, VARIABLE, ALL = range(4, 18)
LEAVES = (1, 2, 3, VARIABLE)
P, Q, R, K, V, X, Y = "PQRKVXY"

# Rule, premises, conclusion. P may stand at either end of what is shared, so rules 1, 3 and 9 have two lines.
RULES = [
    (1, [(BELIEVES, P, (SHARED, P, K, Q)), (SEES, P, (SEALED, X, K, R))], (BELIEVES, P, (SAID, Q, X))),
    (1, [(BELIEVES, P, (SHARED, Q, K, P)), (SEES, P, (SEALED, X, K, R))], (BELIEVES, P, (SAID, Q, X))),
    (2, [(BELIEVES, P, (PUBLIC, K, Q)), (SEES, P, (SIGNED, X, K, R))], (BELIEVES, P, (SAID, Q, X))),
    (3, [(BELIEVES, P, (SECRET, P, Y, Q)), (SEES, P, (COMBINED, X, Y))], (BELIEVES, P, (SAID, Q, X))),
    (3, [(BELIEVES, P, (SECRET, Q, Y, P)), (SEES, P, (COMBINED, X, Y))], (BELIEVES, P, (SAID, Q, X))),
    (4, [(BELIEVES, P, (FRESH, X)), (BELIEVES, P, (SAID, Q, X))], (BELIEVES, P, (BELIEVES, Q, X))),
    (5, [(BELIEVES, P, (CONTROLS, Q, X)), (BELIEVES, P, (BELIEVES, Q, X))], (BELIEVES, P, X)),
    (6, [(SEES, P, (PAIR, X, Y))], (SEES, P, X)),
    (7, [(SEES, P, (PAIR, X, Y))], (SEES, P, Y)),
    (8, [(SEES, P, (COMBINED, X, Y))], (SEES, P, X)),
    (9, [(BELIEVES, P, (SHARED, P, K, Q)), (SEES, P, (SEALED, X, K, R))], (SEES, P, X)),
    (9, [(BELIEVES, P, (SHARED, Q, K, P)), (SEES, P, (SEALED, X, K, R))], (SEES, P, X)),
    (10, [(BELIEVES, P, (PUBLIC, K, P)), (SEES, P, (SEALED, X, K, R))], (SEES, P, X)),
    (11, [(BELIEVES, P, (PUBLIC, K, Q)), (SEES, P, (SIGNED, X, K, R))], (SEES, P, X)),
    (12, [(BELIEVES, P, (FRESH, X))], (BELIEVES, P, (FRESH, (PAIR, X, Y)))),
    (13, [(BELIEVES, P, (FRESH, Y))], (BELIEVES, P, (FRESH, (PAIR, X, Y)))),
    (14, [(BELIEVES, P, (SAID, Q, (PAIR, X, Y)))], (BELIEVES, P, (SAID, Q, X))),
    (15, [(BELIEVES, P, (SAID, Q, (PAIR, X, Y)))], (BELIEVES, P, (SAID, Q, Y))),
    (16, [(BELIEVES, P, (BELIEVES, Q, (PAIR, X, Y)))], (BELIEVES, P, (BELIEVES, Q, X))),
    (17, [(BELIEVES, P, (BELIEVES, Q, (PAIR, X, Y)))], (BELIEVES, P, (BELIEVES, Q, Y))),
    (18, [(BELIEVES, P, (PAIR, X, Y))], (BELIEVES, P, X)),
    (19, [(BELIEVES, P, (PAIR, X, Y))], (BELIEVES, P, Y)),
    (20, [(BELIEVES, P, X), (BELIEVES, P, Y)], (BELIEVES, P, (PAIR, X, Y))),
    # Y is X with one key in the place of V.
    (21, [(BELIEVES, P, (ALL, V, (CONTROLS, Q, X))), (BELIEVES, P, (BELIEVES, Q, Y))], (BELIEVES, P, Y)),
    (22, [(BELIEVES, P, (ALL, V, (CONTROLS, Q, X)))], (BELIEVES, P, (CONTROLS, Q, Y))),
]
PREMISES = {rule: len(premises) for rule, premises, _ in RULES}


def fits(pattern, tree, bound):
    """Whether the tree is the pattern with one tree put for each letter throughout."""
    if isinstance(pattern, str):
        return bound.setdefault(pattern, tree) == tree
    return pattern[0] == tree[0] and all(fits(x, y, bound) for x, y in zip(pattern[1:], tree[1:]))


def is_clear(x):
    return x[0] not in (SEALED, SIGNED) and (x[0] in LEAVES or all(is_clear(y) for y in x[1:]))


def keys_for(v, x, y, met):
    """What stands in y where the variable v stands in x outside kind 17; None where they differ in more. A pair of trees that was met
    tells nothing new, however often it is a part."""
    if (id(x), id(y)) in met:
        return set()
    met.add((id(x), id(y)))
    if x == v:
        return {y}
    if x[0] in LEAVES or x[0] == ALL or x[0] != y[0]:
        return set() if x == y else None
    found = [keys_for(v, a, b, met) for a, b in zip(x[1:], y[1:])]
    return None if None in found else set().union(*found)


def is_put(v, x, y):
    """Whether y is x with one key, the same throughout, in the place of v."""
    keys = keys_for(v, x, y, set())
    return keys is not None and len(keys) <= 1 and all(key[0] == 2 for key in keys)


def is_instance(rule, premises, conclusion):
    for number, patterns, last in RULES:
        bound = {}
        if number == rule and all(fits(x, y, bound) for x, y in zip(patterns + [last], premises + [conclusion])):
            right = is_clear(bound[X]) if rule == 4 else is_put(bound[V], bound[X], bound[Y]) if rule >= 21 else True
            return bound.get(R) != bound[P] and right
    return False


def trees(rs):
    out = []
    for kind, *fields in reader.formulas(rs):
        out.append((kind, *(fields if kind in LEAVES else [out[x] for x in fields])))
    return out


def word(bytes, i):
    return 256 * bytes[i] + bytes[i + 1]


def fact(forms, loose, bytes):
    """The tree of a written fact, or None if it is malformed."""
    mode, p, q, x = bytes[0], word(bytes, 1), word(bytes, 3), word(bytes, 5)
    if mode not in range(1, 6) or max(p, q, x) >= len(forms):
        return None
    who, whom, what = forms[p], forms[q], forms[x]
    if who[0] != 1 or what[0] not in (*range(3, 16), ALL) or loose[x] or (whom[0] != 1 if mode >= 4 else q != 0):
        return None
    if mode == 2 and what[0] in (FRESH, BELIEVES, SAID):
        return None
    if mode == 1:
        return (SEES, who, what)
    return (BELIEVES, who, {2: what, 3: (FRESH, what), 4: (SAID, whom, what), 5: (BELIEVES, whom, what)}[mode])


def size(kind):
    return 8 + 2 * PREMISES.get(kind - 65, 1)


def fault(forms, loose, given, steps, bytes):
    """The first number that fits the step at the front of the bytes, behind the steps; or 0."""
    if len(steps) >= 65535:
        return 21
    kind = bytes[0]
    if not 64 <= kind <= 87 or len(bytes) < size(kind):
        return 16
    concluded = fact(forms, loose, bytes[1:8])
    if concluded is None:
        return 17
    numbers = [word(bytes, i) for i in range(8, size(kind), 2)]
    if kind <= 65:
        return 0 if given.get((kind, numbers[0])) == concluded else 19
    if any(i >= len(steps) for i in numbers):
        return 18
    return 0 if is_instance(kind - 65, [steps[i] for i in numbers], concluded) else 19


def check(book, goal, bytes):
    rs, refusal = reader.read(book)
    if refusal:
        return "refused %d at %d" % refusal
    goals = reader.of_kind(rs, 34)
    if goal >= len(goals):
        return "refused 13 at %d" % goal
    forms, loose, (_, m, asked) = trees(rs), reader.loose(reader.formulas(rs)), goals[goal]
    # What assumptions and the messages up to m say, by the step's kind and number.
    given = {(64, i): forms[r[1]] for i, r in enumerate(reader.of_kind(rs, 32))}
    given.update({(65, i + 1): (SEES, forms[r[2]], forms[r[3]]) for i, r in enumerate(reader.of_kind(rs, 33)[:m])})
    steps, at = [], 0
    while at < len(bytes):
        cause = fault(forms, loose, given, steps, bytes[at:at + 12])
        if cause:
            return "refused %d at %d" % (cause, len(steps))
        steps.append(fact(forms, loose, bytes[at + 1:at + 8]))
        at += size(bytes[at])
    return "accepted" if steps and steps[-1] == forms[asked] else "refused 20 at %d" % len(steps)


def longest(length, other):
    """The same step 65,536 times, with another one as number 65,534; of that the front."""
    step = bytes.fromhex("40020000000000160006")
    return (step * 65534 + other + step)[:length]


def main():
    for book, title, case in cases_of("checker_trials"):
        sign = "!" if "!" in case else "?"
        number, derivation = case.split(sign)
        number, derivation = int(number), bytes.fromhex(derivation)
        answer = check(book, 3, longest(number, derivation)) if sign == "!" else check(book, number, derivation)
        print("%s: %s" % (title, answer))


if __name__ == "__main__":
    main()
