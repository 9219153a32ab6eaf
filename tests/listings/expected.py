"""Writes the books of this folder and what the listing program has to print of each, worked out apart from the library: facts by the
second prover of crates/search_trials, texts here. For a refused book the refusal is written beside it by hand.

    python3 expected.py
"""
import functools
import pathlib
import sys
from fractions import Fraction

HERE = pathlib.Path(__file__).parent
ROOT = HERE.resolve().parents[1]
sys.path.append(str(ROOT / "tests"))
from trials import script

prover = script("search_trials")
NAMES = {1: "P", 2: "K", 16: "V"}


def encoded(records):
    return b"".join(bytes([r[0]]) + b"".join(x.to_bytes(2, "big") for x in r[1:]) for r in records)


def by_name(forms, t):
    """How a datum of a book prints, whose formulas are given too: another listing may show it by them."""
    return "N%d" % t[1]


def members(t, datum):
    return [text(t[1], datum)] + members(t[2], datum) if t[0] == 4 else [text(t, datum)]


def text(t, datum):
    """The text of a formula; `datum` says how a datum prints."""
    kind = t[0]
    if kind == 3:
        return datum(t)
    if kind in NAMES:
        return NAMES[kind] + str(t[1])
    if kind == 4:
        return "(" + ", ".join(members(t, datum)) + ")"
    shapes = {5: "{%s}%s from %s", 6: "{%s}%s' from %s", 7: "<%s>%s", 8: "%s -%s- %s", 9: "%s of %s", 10: "%s =%s= %s",
              11: "fresh %s", 12: "%s believes %s", 13: "%s sees %s", 14: "%s said %s", 15: "%s controls %s", 17: "all %s: %s"}
    return shapes[kind] % tuple(text(x, datum) for x in t[1:])


def fact_text(who, forms, place, datum):
    p, n = len(who), len(forms)
    rest, column = divmod(place, 3 + 2 * p)
    owner, formula = divmod(rest, n)
    names = [text(q, datum) for q in who]
    words = ["sees ", "believes ", "believes fresh "]
    words += ["believes %s said " % q for q in names] + ["believes %s believes " % q for q in names]
    return "%s %s%s" % (names[owner], words[column], text(forms[formula], datum))


def listing(book, shown=by_name):
    """The listing of a book in which a datum prints as `shown` says."""
    rs = prover.records(book)
    forms = prover.trees([r for r in rs if r[0] <= 17])
    who = [x for x in forms if x[0] == 1]
    table = prover.survey(book)
    datum = functools.partial(shown, forms)
    lines = []
    for place, byte in enumerate(table):
        if byte:
            words = fact_text(who, forms, place, datum)
            lines.append("%d %s" % (byte - 1, words if len(words) <= 4096 else "too long"))
    lines.append("held %d" % len(lines))
    goals = [r[1] for r in rs if r[0] == 34]
    reached = sum(prover.reached(forms, table, goal) for goal in goals)
    share = round(Fraction(100 * reached, len(goals))) if goals else 0  # of fractions `round` takes halves to the even neighbour
    lines.append("goals %d of %d, %d per cent" % (reached, len(goals), share))
    return "".join(line + "\n" for line in lines)


# P1, P2, P3, K1, K2, N1, N2, then a formula of every other kind and conjunctions nested on the left and on the right; P2 sees all.
KINDS = [
    (1, 1), (1, 2), (1, 3), (2, 1), (2, 2), (3, 1), (3, 2),
    (5, 5, 3, 0), (6, 5, 4, 2), (7, 5, 6), (8, 0, 3, 1), (9, 4, 2), (10, 0, 5, 1), (11, 6), (12, 0, 5), (13, 2, 6), (14, 0, 6),
    (15, 2, 10), (4, 5, 6), (4, 18, 7), (4, 8, 19), (4, 20, 9), (4, 10, 11), (4, 12, 22), (4, 21, 23), (4, 13, 14), (4, 15, 16),
    (4, 17, 26), (4, 25, 27), (4, 24, 28), (12, 1, 10), (12, 1, 13), (13, 1, 5), (12, 1, 12),
    (32, 30), (32, 31), (33, 0, 1, 29), (34, 0, 32), (34, 1, 32), (34, 1, 33),
]


# P1, P2, P3, K1, K2, N1, V1, V9, then a variable in every field of a key, delegations of it, and these in other formulas. P1 believes one
# of them and that P3 believes it of K1, so that rules 86 and 87 conclude something; P2 is sent all, and knows only what P3 believes.
DELEGATIONS = [
    (1, 1), (1, 2), (1, 3), (2, 1), (2, 2), (3, 1), (16, 1), (16, 9),
    (8, 0, 6, 1), (9, 7, 2), (5, 5, 6, 2), (6, 5, 7, 1), (4, 8, 10),
    (15, 2, 8), (17, 6, 13), (15, 2, 9), (17, 7, 15), (15, 1, 10), (17, 6, 17), (15, 1, 11), (17, 7, 19), (15, 2, 12), (17, 6, 21),
    (15, 2, 5), (17, 6, 23), (4, 14, 16), (4, 18, 20), (4, 25, 26), (7, 22, 24), (4, 27, 28), (11, 14), (10, 0, 16, 1),
    (8, 0, 3, 1), (8, 0, 4, 1), (15, 2, 32), (15, 2, 33), (12, 2, 32), (12, 2, 33), (12, 0, 14), (12, 0, 36), (12, 0, 37), (12, 0, 32),
    (12, 0, 34), (12, 0, 30), (12, 1, 31), (12, 0, 35), (12, 0, 33), (12, 2, 14), (12, 1, 47), (15, 2, 14), (12, 1, 49), (12, 1, 32),
    (32, 38), (32, 39), (32, 43), (32, 44), (32, 48), (33, 0, 1, 29), (33, 0, 1, 16),
    (34, 0, 41), (34, 0, 42), (34, 0, 45), (34, 0, 46), (34, 2, 50), (34, 2, 51),
]


def sized(last):
    """P2 sees a text of some length, which ends in that of the name `last`."""
    rs, chain = [(1, 1), (1, 2), (3, 1), (3, last)], [2]
    for _ in range(9):
        rs.append((7, chain[-1], chain[-1]))
        chain.append(len(rs) - 1)
    rs.append((7, 2, 3))
    for x in chain[2:]:
        rs.append((7, x, len(rs) - 1))
    return rs + [(33, 0, 1, len(rs) - 1)]


def full():
    """As many records as a book can have: 256 formulas, 64 assumptions, 16 messages, 32 goals."""
    rs = [(1, n) for n in range(1, 9)] + [(2, 1)] + [(3, n) for n in range(1, 21)]
    rs += [(12, p, 9 + x) for p in range(4) for x in range(20)]
    rs += [(5, 9 + x, 8, p) for p in range(8) for x in range(20)][: 256 - len(rs)]
    return rs + [(32, 29 + x) for x in range(64)] + [(33, x % 2, 1 - x % 2, 150 + x) for x in range(16)] + [(34, x % 17, 29 + 2 * x) for x in range(32)]


def with_reached(reached, all_goals):
    """So many goals, of which so many are reached: one belief is assumed, another is not."""
    rs = [(1, 1), (3, 1), (3, 2), (12, 0, 1), (12, 0, 2), (32, 3)]
    return rs + [(34, 0, 3)] * reached + [(34, 0, 4)] * (all_goals - reached)


PRINCIPALS = [(1, 1), (1, 2)]
BELIEF = PRINCIPALS + [(3, 1), (12, 0, 2)]
REFUSED = {
    "unknown-kind": (encoded(PRINCIPALS) + b"\x12", 1, 2),
    "cut-body": (encoded(PRINCIPALS) + b"\x03\x00", 2, 2),
    "out-of-order": (encoded(BELIEF + [(33, 0, 1, 2), (3, 2), (32, 3)]), 3, 6),
    "later-reference": (encoded(PRINCIPALS + [(11, 2)]), 4, 2),
    "later-formula": (encoded(PRINCIPALS + [(32, 3), (3, 1), (12, 0, 2)]), 4, 2),
    "wrong-sort": (encoded(PRINCIPALS + [(11, 1)]), 5, 2),
    "names-falling": (encoded(PRINCIPALS + [(2, 1), (8, 1, 2, 0)]), 6, 3),
    "to-itself": (encoded(BELIEF + [(33, 0, 0, 2)]), 7, 4),
    "repeated": (encoded(BELIEF + [(3, 1)]), 8, 4),
    "ninth-principal": (encoded([(1, n) for n in range(9)]), 9, 8),
    "not-stated": (encoded(BELIEF + [(32, 2)]), 10, 4),
    "after-the-last": (encoded(BELIEF + [(33, 0, 1, 2), (34, 2, 3)]), 11, 5),
    "loose-variable": (encoded(PRINCIPALS + [(16, 1), (9, 2, 1), (12, 0, 3), (32, 4)]), 22, 5),
    "loose-message": (encoded(PRINCIPALS + [(16, 1), (9, 2, 1), (33, 0, 1, 3)]), 22, 4),
    "other-variable": (encoded(PRINCIPALS + [(16, 1), (16, 2), (9, 2, 1), (15, 0, 4), (17, 3, 5)]), 23, 6),
    "delegation-within": (encoded(PRINCIPALS + [(16, 1), (9, 2, 1), (15, 0, 3), (17, 2, 4), (15, 1, 5), (17, 2, 6)]), 23, 7),
    "one-goal-more": (encoded(full() + [(34, 0, 29)]) + bytes(3000), 9, 368),
    "much-too-long": (bytes(5000), 1, 0),
}


def keep(name, book, out):
    (HERE / (name + ".book")).write_bytes(book)
    (HERE / (name + ".out")).write_text(out)


def main():
    for name in ("certificate", "certificate-own", "kerberos", "kerberos-own-time", "kerberos-by-message"):
        keep(name, (ROOT / "examples" / (name + ".book")).read_bytes(), listing((ROOT / "examples" / (name + ".book")).read_bytes()))
    keep("empty", b"", listing(b""))
    keep("every-kind", encoded(KINDS), listing(encoded(KINDS)))
    keep("delegations", encoded(DELEGATIONS), listing(encoded(DELEGATIONS)))
    for name, last in (("text-of-4096", 100), ("text-of-4097", 1000)):
        out = listing(encoded(sized(last)))
        longest = max((len(line.split(" ", 1)[1]) for line in out.split("\n") if " sees " in line), default=0)
        assert (longest == 4096) == (last == 100) and ("too long" in out) == (last == 1000), (name, longest)
        keep(name, encoded(sized(last)), out)
    keep("full", encoded(full()), listing(encoded(full())))
    for reached, all_goals in ((0, 0), (1, 8), (3, 8), (5, 8), (5, 11), (6, 11)):
        book = encoded(with_reached(reached, all_goals))
        keep("goals-%d-of-%d" % (reached, all_goals), book, listing(book))
    for name, (book, number, place) in REFUSED.items():
        keep(name, book, "refused %d at %d\n" % (number, place))


if __name__ == "__main__":
    main()
