"""Writes `stdout` of this program, worked out apart from the library: the cases are taken from `stdin`, the second reader of the reader's
trials reads the books, and texts, lines and sentences are written here once more.

    python3 expected.py > stdout
"""
import pathlib
import sys

sys.path.append(str(pathlib.Path(__file__).resolve().parents[2] / "tests"))
from trials import cases_of, script

reader = script("book_trials")
BUFFER = 8400
LIMIT = 4096

SHAPES = {
    5: "{%s}%s from %s", 6: "{%s}%s' from %s", 7: "<%s>%s", 8: "%s -%s- %s", 9: "%s of %s", 10: "%s =%s= %s", 11: "fresh %s",
    12: "%s believes %s", 13: "%s sees %s", 14: "%s said %s", 15: "%s controls %s", 17: "all %s: %s",
}
NAMES = {1: "P", 2: "K", 3: "N", 16: "V"}
# Of a fact by its mode; Q stands in modes 4 and 5.
MODES = {1: "{p} sees {x}", 2: "{p} believes {x}", 3: "{p} believes fresh {x}", 4: "{p} believes {q} said {x}",
         5: "{p} believes {q} believes {x}"}
TWO_PREMISES = (1, 2, 3, 4, 5, 9, 10, 11, 20, 21)
# What the place of a refusal counts, and the sentence.
REASONS = {
    1: ("record", "an unknown kind byte"),
    2: ("record", "a body that is not of its kind's length"),
    3: ("record", "an assumption behind a message or a goal, or a message behind a goal"),
    4: ("record", "a reference that is not to an earlier formula"),
    5: ("record", "a reference of the wrong sort"),
    6: ("record", "two principals whose names are equal or falling"),
    7: ("record", "a sender that is the receiver"),
    8: ("record", "a formula that is there already"),
    9: ("record", "one more than the limit of its kind"),
    10: ("record", "an assumption or a goal that is not of kind 12 or 13"),
    11: ("record", "a goal after a message that is not there"),
    12: ("record", "no space for it, or a used length above the buffer's"),
    13: ("goal", "there is no such goal"),
    14: (None, "a buffer that is too short"),
    15: (None, "a text above 4,096 bytes or above its buffer"),
    16: ("step", "an unknown kind of step, or a step that is cut"),
    17: ("step", "a malformed fact"),
    18: ("step", "a premise that is not an earlier step"),
    19: ("step", "it does not follow"),
    20: ("step", "the steps end here, and the last one is not the goal"),
    21: ("step", "a step numbered 65,535 or above"),
    22: ("record", "an assumption, a message or a goal with a variable outside every kind 17"),
    23: ("record", "a kind 17 that holds another kind 17 or another variable"),
}


def text(forms, texts, kind, fields):
    """The text of a formula, by those of the formulas before; None where it is too long. What holds one that is too long is so itself."""
    if kind in NAMES:
        return NAMES[kind] + str(fields[0])
    parts = [texts[x] for x in fields]
    if None in parts:
        return None
    if kind == 4:
        joined = forms[fields[1]][0] == 4
        words = "(%s, %s)" % (parts[0], parts[1][1:-1] if joined else parts[1])
    else:
        words = SHAPES[kind] % tuple(parts)
    return words if len(words) <= LIMIT else None


class Book:
    """What is printed of a book; for a guest a datum is `N#` and its formula number."""

    def __init__(self, data, guest=False):
        rs, self.refusal = reader.read(data)
        self.forms, self.texts, self.goals = reader.formulas(rs), [], reader.of_kind(rs, 34)
        self.loose = reader.loose(self.forms)
        for x, (kind, *fields) in enumerate(self.forms):
            hidden = guest and kind == 3
            self.texts.append("N#%d" % x if hidden else text(self.forms, self.texts, kind, fields))

    def kind(self, x):
        return self.forms[x][0] if x < len(self.forms) else None

    def printed(self, mode, p, q, x):
        if self.texts[x] is None:
            return "too long"
        words = MODES[mode].format(p=self.texts[p], q=self.texts[q], x=self.texts[x])
        return words if len(words) <= LIMIT else "too long"

    def stated(self, x):
        """The fact of a goal's formula, its belief opened."""
        kind, p, y = self.forms[x]
        if kind == 13:
            return (1, p, 0, y)
        inner, *fields = self.forms[y]
        if inner == 11:
            return (3, p, 0, fields[0])
        return ({14: 4, 12: 5}[inner], p, *fields) if inner in (14, 12) else (2, p, 0, y)

    def is_malformed(self, mode, p, q, x):
        if mode not in MODES or self.kind(p) != 1 or self.kind(x) not in (*range(3, 16), 17) or self.loose[x]:
            return True
        if mode == 2 and self.kind(x) in (11, 12, 14):
            return True
        return self.kind(q) != 1 if mode >= 4 else q != 0

    def step_line(self, i, step):
        """The line of step i, or the number of the refusal."""
        if numbers(step[0]) == 0 or len(step) < size(step[0]):
            return 16
        fact = (step[1], *words(step[2:8]))
        if self.is_malformed(*fact):
            return 17
        return b"%4d. %s  [%s]\n" % (i, self.printed(*fact).encode(), why(step[0], *words(step[8:])).encode())


def words(data):
    return [256 * data[i] + data[i + 1] for i in range(0, len(data), 2)]


def numbers(kind):
    return 0 if not 64 <= kind <= 87 else 2 if kind - 65 in TWO_PREMISES else 1


def size(kind):
    return 8 + 2 * numbers(kind)


def why(kind, *named):
    if kind <= 65:
        return "%s %d" % ("assumption" if kind == 64 else "message", *named)
    return "rule %d from %s" % (kind - 65, " and ".join(map(str, named)))


def steps(derivation):
    """The bytes of each step. One of unknown kind goes as far as its fact."""
    at, out = 0, []
    while at < len(derivation):
        out.append(derivation[at:at + size(derivation[at])])
        at += size(derivation[at])
    return out


def told(answer, front=b""):
    sys.stdout.buffer.write(b"%s, %d bytes as they were\n%s" % (answer.encode(), BUFFER - len(front), front))


def told_whole(words, room):
    """A text that is written whole or not at all."""
    if room < len(words):
        told("refused 14 at 0")
    else:
        told("written %d" % len(words), words)


def told_line(line, room):
    """A line of which as much is written as has room."""
    told("line of %d" % len(line), line[:room])
    if room < len(line):
        sys.stdout.buffer.write(b"\n")


def goal_line(book, goal, room):
    if book.refusal:
        return told("refused %d at %d" % book.refusal)
    if len(book.goals) <= goal:
        return told("refused 13 at %d" % goal)
    _, after, asked = book.goals[goal]
    told_whole(b"goal %d after %d: %s\n" % (goal, after, book.printed(*book.stated(asked)).encode()), room)


def piece(book, found, at, room):
    """Tells a piece. The number of the step to go on from, or None where they are over or it is refused."""
    if book.refusal:
        return told("refused %d at %d" % book.refusal)
    if len(found) <= at:
        return told("over")
    front, i = b"", at
    while i < len(found):
        line = book.step_line(i, found[i])
        if i == at and line in (16, 17):
            return told("refused %d at %d" % (line, at))
        if line in (16, 17) or room < len(front + line):
            break
        front, i = front + line, i + 1
    if not front:
        return told("refused 14 at 0")
    told("piece %d bytes, next %d" % (len(front), i), front)
    return i


def explain(book, length, at, room, sign, few):
    found = steps(bytes(few[i % len(few)] for i in range(length)))
    at = piece(book, found, 2**64 - 1 - at if sign == "<" else at, room)
    while sign == ">" and at is not None:
        at = piece(book, found, at, room)


def sentence(number, room):
    words = REASONS.get(number, (None, ""))[1].encode()
    told_whole(words, room)
    if len(words) <= room:
        sys.stdout.buffer.write(b"\n")


def reason_line(number, place, room):
    counted, words = REASONS[number]
    told_line(("%s %d: " % (counted, place) if counted else "").encode() + words.encode() + b"\n", room)


def tried(book, case):
    sign = next(c for c in case if c in '?/><"!+-')
    given, data = case.split(sign)
    given, data = [int(x) for x in given.split(",")], bytes.fromhex(data)
    if sign == "?":
        goal_line(book, *given)
    elif sign in "/><":
        explain(book, *given, sign, data)
    elif sign == '"':
        sentence(*given)
    elif sign == "!":
        reason_line(data[0], given[0] * 2**32 + given[1], given[2])
    elif sign == "+":
        told_line(b"  reached, %d steps\n" % (given[0] * 2**32 + given[1]), given[2])
    else:
        told_line(b"  not reached: no derivation exists\n", *given)


def main():
    for book, title, case in cases_of("goal_trials"):
        sys.stdout.buffer.write(title.encode() + b": ")
        tried(Book(book), case)


if __name__ == "__main__":
    main()
