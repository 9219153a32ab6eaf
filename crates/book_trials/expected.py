"""Writes `stdout` of this program: a second reader, built apart from document 01 and document 02's wishes 1 and 4, reads the books and
enters the records of `stdin`.

    python3 expected.py > stdout
"""
import pathlib

# The sorts of fields: name, principal, key or variable, formula of kinds 3 to 15 or 17, variable, control, statement, message number.
SORTS = {1: "n", 2: "n", 3: "n", 4: "ff", 5: "fkp", 6: "fkp", 7: "ff", 8: "pkp", 9: "kp", 10: "pfp", 11: "f", 12: "pf",
         13: "pf", 14: "pf", 15: "pf", 16: "n", 17: "vc", 32: "s", 33: "ppf", 34: "ms"}
MAY_BE = {"p": (1,), "k": (2, 16), "f": (*range(3, 16), 17), "v": (16,), "c": (15,)}
MOST = {32: 64, 33: 16, 34: 32}
CLASSES = {32: "assumptions", 33: "messages", 34: "goals"}


def size(kind):
    return 1 + 2 * len(SORTS[kind])


def record_at(bytes):
    kind = bytes[0]
    return (kind,) + tuple(256 * bytes[i] + bytes[i + 1] for i in range(1, size(kind), 2))


def formulas(rs):
    return [r for r in rs if r[0] <= 17]


def of_kind(rs, kind):
    return [r for r in rs if r[0] == kind]


def loose(fs):
    """Of each formula the variables that stand in it outside kind 17, as formula numbers."""
    out = []
    for x, (kind, *fields) in enumerate(fs):
        inner = [out[y] for sort, y in zip(SORTS[kind], fields) if sort != "n" and kind != 17]
        out.append(frozenset([x]) if kind == 16 else frozenset().union(*inner))
    return out


def delegating(fs):
    """Of each formula whether it is of kind 17 or holds one."""
    out = []
    for kind, *fields in fs:
        out.append(kind == 17 or any(out[y] for sort, y in zip(SORTS[kind], fields) if sort != "n"))
    return out


def over_limit(rs, kind):
    if kind > 17:
        return len(of_kind(rs, kind)) >= MOST[kind]
    return len(formulas(rs)) >= 256 or kind == 1 and len(of_kind(rs, 1)) >= 8


def fault(rs, r):
    """The first number that fits a whole record behind the records rs, or 0."""
    kind, fs = r[0], formulas(rs)
    fields = list(zip(SORTS[kind], r[1:]))
    if kind >= 32 and any(q[0] > kind for q in rs):
        return 3
    if over_limit(rs, kind):
        return 9
    if any(sort not in "nm" and x >= len(fs) for sort, x in fields):
        return 4
    if any(sort in MAY_BE and fs[x][0] not in MAY_BE[sort] for sort, x in fields):
        return 5
    if kind in (8, 10) and fs[r[1]][1] >= fs[r[3]][1]:
        return 6
    if kind == 17 and (delegating(fs)[r[2]] or loose(fs)[r[2]] - {r[1]}):
        return 23
    if kind == 33 and r[1] == r[2]:
        return 7
    if any(sort == "s" and fs[x][0] not in (12, 13) for sort, x in fields):
        return 10
    if kind >= 32 and loose(fs)[r[-1]]:
        return 22
    if kind == 34 and r[1] > len(of_kind(rs, 33)):
        return 11
    return 8 if r in fs else 0


def read(bytes):
    """The records, and a refusal or None."""
    rs = []
    while bytes:
        kind = bytes[0]
        if kind not in SORTS:
            return rs, (1, len(rs))
        if len(bytes) < size(kind):
            return rs, (2, len(rs))
        r = record_at(bytes)
        if fault(rs, r):
            return rs, (fault(rs, r), len(rs))
        rs.append(r)
        bytes = bytes[size(kind):]
    return rs, None


def enter(buffer, used, bytes):
    """The answer, and whether the record was appended, to the buffer itself."""
    if used > len(buffer):
        return "refused 12 at 0", False
    rs, refusal = read(buffer[:used])
    if refusal:
        return "refused %d at %d" % refusal, False
    if not bytes:
        return "refused 2 at %d" % len(rs), False
    if bytes[0] not in SORTS:
        return "refused 1 at %d" % len(rs), False
    if len(bytes) != size(bytes[0]):
        return "refused 2 at %d" % len(rs), False
    r = record_at(bytes)
    if r in formulas(rs):
        return "present as %d" % formulas(rs).index(r), False
    if fault(rs, r):
        return "refused %d at %d" % (fault(rs, r), len(rs)), False
    if used + len(bytes) > len(buffer):
        return "refused 12 at %d" % len(rs), False
    buffer[used:used + len(bytes)] = bytes
    number = len(formulas(rs)) if r[0] <= 17 else len(of_kind(rs, r[0])) + (r[0] == 33)
    return "added as %d" % number, True


def reading(bytes):
    rs, refusal = read(bytes)
    if refusal:
        return "refused %d at %d" % refusal
    counts = [len(formulas(rs)), len(of_kind(rs, 1))] + [len(of_kind(rs, kind)) for kind in CLASSES]
    return "accepted %d formulas, %d principals, %d assumptions, %d messages, %d goals" % tuple(counts)


def entering(buffer, used, record):
    answer, added = enter(buffer, used, record)
    used += len(record) if added else 0
    return "%s, %d bytes used, sum %d" % (answer, used, sum(buffer)), used


def repeating(buffer, used, record, times, counts_up):
    added = 0
    for _ in range(times):
        if enter(buffer, used, record)[1]:
            added, used = added + 1, used + len(record)
        if counts_up:
            record[-1] = (record[-1] + 1) % 256
    return "%d added, %d bytes used" % (added, used), used


def tried(case, buffer, used):
    """What a line says, and the length used then."""
    for sign in "+@*^":
        if sign in case:
            number, record = case.split(sign)
            record = bytearray.fromhex(record)
            if sign == "+":
                return entering(buffer, used, record)
            if sign == "@":
                return entering(buffer, int(number), record)[0], used
            return repeating(buffer, used, record, int(number), sign == "^")
    return reading(bytes.fromhex(case)), used


def main():
    parts = (pathlib.Path(__file__).parent / "stdin").read_text().split("\n\n")
    for length, part in zip((51, 2400, 60), parts):
        buffer, used = bytearray([170] * length), 0
        for line in part.splitlines():
            if not line.startswith("#"):
                title, case = line.split(":")
                answer, used = tried(case, buffer, used)
                print("%s: %s" % (title, answer))


if __name__ == "__main__":
    main()
