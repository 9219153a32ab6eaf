"""Writes `stdout` of this program, worked out apart from the library: the cases are taken from `stdin`, the surveys from the prover on
sets of `search_trials`, and the lines are written as document 01 prints them, the per cent as document 02 rounds it.

    python3 expected.py > stdout
"""
import pathlib
import sys
from fractions import Fraction

ROOT = pathlib.Path(__file__).resolve().parents[2]
sys.path.append(str(ROOT / "tests"))
from trials import cases_of, script

prover = script("search_trials")

# The books that document 01 turns away, with the number and the record.
TURNED_AWAY = {
    "0100": (2, 0),
    "0100010100020900000000": (5, 2),
    "ff": (1, 0),
}
# As document 01 prints it.
PRINTED = """0 P1 believes fresh N1
0 P1 believes fresh (K1 of P2, N1)
1 P1 sees {(K1 of P2, N1)}K2' from P1
0 P1 believes K2 of P3
0 P1 believes P3 controls K1 of P2
held 5
goals 0 of 1, 0 per cent
"""
TEXTS = {
    5: "{%s}%s from %s", 6: "{%s}%s' from %s", 7: "<%s>%s", 8: "%s -%s- %s", 9: "%s of %s", 10: "%s =%s= %s", 11: "fresh %s",
    12: "%s believes %s", 13: "%s sees %s", 14: "%s said %s", 15: "%s controls %s", 17: "all %s: %s",
}
NAMES = {1: "P", 2: "K", 3: "N", 16: "V"}


def members(rs, x, guest):
    kind, f = rs[x]
    return [text(rs, f[0], guest)] + members(rs, f[1], guest) if kind == 4 else [text(rs, x, guest)]


def text(rs, x, guest=False):
    """The text of formula x; for a guest a datum is `N#` and its formula number."""
    kind, f = rs[x]
    if guest and kind == 3:
        return "N#%d" % x
    if kind in NAMES:
        return NAMES[kind] + str(f[0])
    if kind == 4:
        return "(" + ", ".join(members(rs, x, guest)) + ")"
    return TEXTS[kind] % tuple(text(rs, y, guest) for y in f)


def modes(rs):
    """What stands between principal and formula, for each place that they have."""
    who = [text(rs, x) for x, (kind, _) in enumerate(rs) if kind == 1]
    columns = [" sees ", " believes ", " believes fresh "]
    columns += [" believes %s said " % q for q in who]
    return columns + [" believes %s believes " % q for q in who]


def facts(rs, guest=False):
    """The text of every fact in the order of the places, or None where it may not be written."""
    texts = [text(rs, x, guest) for x in range(len(rs))]
    loose = [x.loose() for x in prover.trees(rs)]
    for p in (x for x, (kind, _) in enumerate(rs) if kind == 1):
        for x, (kind, _) in enumerate(rs):
            for between in modes(rs):
                unopened = between == " believes " and kind in (11, 12, 14)
                yield None if kind in (1, 2, 16) or loose[x] or unopened else texts[p] + between + texts[x]


def fact_line(t, v):
    if t is None or v == 0:
        return ""
    return "%d %s\n" % (v - 1, t if len(t) <= 4096 else "too long")


def goal_place(rs, x):
    """The place of what a goal's formula states, by its text: beliefs are opened, so no two places have the same."""
    return list(facts(rs)).index(text(rs, x))


def goals_line(r, g):
    c = round(Fraction(100 * r, g)) if g else 0  # of fractions `round` is exact, halves go to the even neighbour
    return b"goals %d of %d, %d per cent\n" % (r, g, c)


def lines(book, table, guest=False):
    rs = prover.records(book)
    forms = [r for r in rs if r[0] <= 17]
    goals = [f for kind, f in rs if kind == 34]
    out = [fact_line(t, v) for t, v in zip(facts(forms, guest), table)]
    reached = sum(1 for m, x in goals if 1 <= table[goal_place(forms, x)] <= 1 + m)
    out.append("held %d\n" % sum(1 for v in table if v))
    return [s.encode() for s in out] + [goals_line(reached, len(goals))]


def places(book):
    forms = [r for r in prover.records(book) if r[0] <= 17]
    p = sum(1 for kind, _ in forms if kind == 1)
    return p * len(forms) * (3 + 2 * p)


def summed(front):
    total = 0
    for b in front + b"." * (4168 - len(front)):
        total = (total * 31 + b) % 1000003
    return total


def told(answer, front=b""):
    sys.stdout.buffer.write(b"%s, sum %d\n%s" % (answer.encode(), summed(front), front))


def piece(all_lines, at, size):
    """Tells a piece. The number of the line to go on from, or None where the listing is over or stops."""
    if len(all_lines) <= at:
        return told("over")
    front, next_at = b"", at
    while next_at < len(all_lines) and len(front) + len(all_lines[next_at]) <= size:
        front += all_lines[next_at]
        next_at += 1
    if not front:
        return told("refused 14 at 0")
    told("piece %d bytes, next %d" % (len(front), next_at), front)
    return next_at


def listed(length, at, size, sign, byte, book):
    if book.hex() in TURNED_AWAY:
        return told("refused %d at %d" % TURNED_AWAY[book.hex()])
    count = places(book)
    if length < count:
        return told("refused 14 at 0")
    all_lines = lines(book, [byte] * count if sign in "=<" else prover.survey(book), sign == "@")
    at = piece(all_lines, at, size)
    while sign in "<>@" and at is not None:
        at = piece(all_lines, at, size)


def told_line(line, size):
    whole = (line[:size] + b"." * 4168)[:len(line)]
    end = b"\n" if size < len(line) else b""
    sys.stdout.buffer.write(b"line of %d, sum %d\n%s%s" % (len(line), summed(whole), whole, end))


def tried(case):
    sign = next(c for c in case if c in "=/<>@!%")
    numbers, data = case.split(sign)
    data = bytes.fromhex(data)
    numbers = [int(x) for x in numbers.split(",")]
    if sign == "!":
        high, low, size = numbers
        told_line(b"refused %d at %d\n" % (data[0], high * 2**32 + low), size)
    elif sign == "%":
        told_line(goals_line(*numbers[:2]), numbers[2])
    else:
        listed(*numbers, sign, data[0], data[1:])


def main():
    own = (ROOT / "examples" / "certificate-own.book").read_bytes()
    assert b"".join(lines(own, prover.survey(own))).decode() == PRINTED
    for _, title, case in cases_of("listing_trials"):
        sys.stdout.buffer.write(title.encode() + b": ")
        tried(case)


if __name__ == "__main__":
    main()
