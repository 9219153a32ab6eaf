"""Writes `stdin` and `stdout` of this program, worked out apart from the library. The second reader of crates/book_trials says which books are
refused, and the second prover of crates/search_trials what follows before each message is sent: a sender is asked for his beliefs then, and
no survey is looked at. What a sender is asked about is found by the words of document 02's wish 7, as a set of formula numbers that grows
until the words give nothing more.

    python3 expected.py
"""
import pathlib
import sys

HERE = pathlib.Path(__file__).resolve().parent
ROOT = HERE.parents[1]
sys.path.append(str(ROOT / "tests"))
from trials import script

prover = script("search_trials")
reader = script("book_trials")

MOST_INPUT = 65536  # the program reads no more
ASKED_ABOUT = (*range(8, 16), 17)


# ---------------------------------------------------------------------------------------------------------- the report

def onward(forms, sender, x, inside):
    """Where the words of the wish lead from formula x at once: formulas, and whether they are inside a section from the sender."""
    kind, fields = forms[x]
    if kind == 4:
        return {(fields[0], inside), (fields[1], inside)}
    if kind == 7:
        return {(fields[0], inside)}
    if kind in (5, 6) and fields[2] == sender:
        return {(fields[0], True)}
    return set()


def met(forms, sender, top):
    """All that is met in a message: formulas, and whether they are inside."""
    found = {(top, False)}
    while True:
        grown = found.union(*(onward(forms, sender, x, inside) for x, inside in found))
        if grown == found:
            return found
        found = grown


def asked(book):
    """What each message asks its sender to believe: message number, formula number, and the message after which he first does, or None."""
    rs = prover.records(book)
    forms = [r for r in rs if r[0] <= 17]
    sent = [fields for kind, fields in rs if kind == 33]
    trees = prover.trees(forms)
    facts = prover.Facts(trees)
    for kind, fields in rs:
        if kind == 32:
            facts.give(prover.stated(trees[fields[0]]))
    held = [set(facts.all)]
    for _, receiver, top in sent:
        facts.give(("sees", trees[receiver], trees[top]))
        held.append(set(facts.all))
    out = []
    for m, (sender, _, top) in enumerate(sent, 1):
        for x, inside in sorted(met(forms, sender, top)):
            if inside and forms[x][0] in ASKED_ABOUT:
                belief = prover.belief(trees[sender], trees[x])
                out.append((m, x, next((k for k, known in enumerate(held) if belief in known), None)))
    return out


def is_believed(m, first):
    """Whether what is first believed after message `first` is believed before message m."""
    return first is not None and first < m


def report(book):
    named = [(m, x) for m, x, first in asked(book) if not is_believed(m, first)]
    return b"".join(m.to_bytes(2, "big") + x.to_bytes(2, "big") for m, x in named)


def filled(length):
    """A buffer as it is before."""
    return bytes((200 + i) % 256 for i in range(length))


def answer(book, length):
    """What is answered, and the buffer afterwards."""
    refusal = reader.read(book)[1]
    if refusal:
        return "refused %d at %d" % refusal, filled(length)
    named = report(book)
    if length < len(named):
        return "refused 14 at 0", filled(length)
    return "written %d" % len(named), named + filled(length)[len(named):]


# --------------------------------------------------------------------------------------------------------- certain books

# Document 02's cases: what is tried, the book, and the report.
CERTIFICATE = ("010001 010002 010003 020001 020002 030001 0900030001 0400060005 0600070004000%d 0900040002 0c00000009 0b0005 0c0000000b "
               "0f00020006 0c0000000d 0c00000006 20000a 20000c 20000e 21000200000008 220001000f")
LEARNED = ("010001 010002 020001 030001 0900020000 08000000020001 05000400020000 05000400020001 0c00010005 0f00000004 0c00010009 0b0004 "
           "0c0001000b 200008 20000a 20000c ")
OWN_BELIEF = "010001 010002 020001 0900020000 0c00000003 05000400020000 0c00000004 200004 %s21000000010005"
DELEGATION = "010001 010002 020001 100001 0900030001 0f00000004 1100030005 06000600020000 0c00000006 %s21000000010007"
TOLD = [
    ("the certificate", CERTIFICATE % 2, "00010006"),
    ("its section from somebody else", CERTIFICATE % 0, ""),
    ("what message 1 taught him he may send", LEARNED + "21000000010006 21000100000007", "00010004"),
    ("what message 2 teaches him he may not send", LEARNED + "21000100000007 21000000010006", "00010004 00020004"),
    ("nothing is asked in the open, in Y and in a section from somebody else",
     "010001 010002 020001 030001 0900020000 0b0003 05000400020001 0700060005 0400070004 0400080005 06000900020000 04000a0005 0700050004 "
     "04000b000c 2100000001000d", "00010004 00010005"),
    ("he believes it and sends that he does", OWN_BELIEF % "", "00010004"),
    ("he believes that he believes it", OWN_BELIEF % "200006 ", ""),
    ("he saw it and sends that he sees it",
     "010001 010002 020001 030001 0d00000003 05000400020000 21000100000003 21000000010005", "00020004"),
    ("a delegation", DELEGATION % "", "00010006"),
    ("a delegation that he believes", DELEGATION % "200008 ", ""),
]
# P1 sends sections within sections, from him and from P2; a formula that is met in the open and inside, and one in the open alone; and both
# send one section.
PEOPLE = "010001 010002 020001 030001 0900020000 0900020001 "
NESTED = [
    ("a section of his own in one from somebody else", PEOPLE + "05000400020000 05000600020001 21000000010007"),
    ("a section from somebody else in one of his own",
     PEOPLE + "05000400020001 0400060005 06000700020000 21000000010008"),
    ("a section of his own in one of his own", PEOPLE + "05000400020000 0400060005 06000700020000 21000000010008"),
    ("met in the open and inside", PEOPLE + "05000400020000 0400040006 0400060004 21000000010007 21000000010008"),
    ("only in the open", PEOPLE + "0400040005 0700060004 21000000010007"),
    ("the same section from the other sender", PEOPLE + "05000400020000 21000000010006 21000100000006"),
]
REFUSED = [
    ("an unknown kind", 8, "010001 12"),
    ("a cut message", 8, PEOPLE + "05000400020000 210000000100"),
    ("to himself", 8, PEOPLE + "05000400020000 21000000000006"),
    ("a variable outside kind 17", 8, "010001 010002 020001 100001 0900030001 05000400020000 21000000010005"),
    ("a refused book and no buffer", 0, PEOPLE + "05000400020000 21000000010007"),
    ("one message too many", 100, PEOPLE + "05000400020000" + " 21000000010006" * 17),
]


def encoded(rs):
    return b"".join(bytes([kind]) + b"".join(x.to_bytes(2, "big") for x in fields) for kind, *fields in rs)


def sixteenth():
    """The last of 16 messages alone names something; the others are N1."""
    rs = [(1, 1), (1, 2), (2, 1), (3, 1), (9, 2, 0), (5, 4, 2, 0)]
    return encoded(rs + [(33, i % 2, 1 - i % 2, 3) for i in range(15)] + [(33, 0, 1, 5)])


def longest():
    """The longest report: 126 statements in one conjunction, in a section, sent 16 times. There are two principals, a key and the section;
    of 252 other formulas 126 at most can be members."""
    rs = [(1, 1), (1, 2), (2, 1), (9, 2, 0), (9, 2, 1), (8, 0, 2, 1)]
    while len(rs) < 3 + 126:
        x, turn = divmod(len(rs) - 6, 9)
        rs.append((11, 3 + x) if turn == 8 else (12 + turn // 2, turn % 2, 3 + x))
    whole = 3
    for x in range(4, 3 + 126):
        rs.append((4, x, whole))
        whole = len(rs) - 1
    rs += [(6, whole, 2, 0), (3, 1)]
    return encoded(rs + [(33, 0, 1, 254)] * 16)


def doubled():
    """K1 of P1 in 250 conjunctions, of which each has the one before twice, in a section."""
    rs = [(1, 1), (1, 2), (2, 1), (9, 2, 0)] + [(4, x, x) for x in range(3, 253)]
    return encoded(rs + [(5, 253, 2, 0), (33, 0, 1, 254)])


# ----------------------------------------------------------------------------------------------------------- drawn books

class Draws:
    """Numbers from a seed, the same in every version of Python."""

    def __init__(self, seed):
        self.state = seed

    def below(self, n):
        self.state = (self.state * 6364136223846793005 + 1442695040888963407) % 2**64
        return (self.state >> 33) % n

    def one_of(self, items):
        return items[self.below(len(items))]


class Drawn:
    """A book while it is drawn: each sender puts statements into sections, of which he believes some and learns others in time or too late."""

    def __init__(self, draws):
        self.draws, self.forms, self.assumed, self.sent = draws, [], [], []
        self.who = [self.formula(1, name) for name in range(1, 3 + draws.below(2))]
        self.keys = [self.formula(2, name) for name in (1, 2)]
        self.data = [self.formula(3, name) for name in (1, 2)]
        self.variable = self.formula(16, 1)
        self.stated = []
        for _ in range(1 + draws.below(3)):
            self.message()

    def formula(self, *record):
        """Its number; it is entered if it is not there."""
        if record not in self.forms:
            self.forms.append(record)
        return self.forms.index(record)

    def other(self, p):
        return self.draws.one_of([q for q in self.who if q != p])

    def assume(self, p, x):
        self.assumed.append(self.formula(12, p, x))

    def two(self, kind, p, x, q):
        """A key or secret shared by two, the smaller name first."""
        return self.formula(kind, min(p, q), x, max(p, q))

    def section(self, x, p):
        return self.formula(5 + self.draws.below(2), x, self.draws.one_of(self.keys), p)

    def statement(self, sender):
        """A formula of kind 8 to 15 or 17, one that was drawn before among them."""
        draws = self.draws
        kind = draws.one_of(ASKED_ABOUT + (0, 0))
        p = draws.one_of((sender, draws.one_of(self.who)))
        x = draws.one_of(self.data + self.stated)
        if kind == 0 and self.stated:
            return draws.one_of(self.stated)
        if kind in (8, 10):
            return self.two(kind, p, draws.one_of(self.keys) if kind == 8 else x, self.other(p))
        if kind == 11:
            return self.formula(11, x)
        if kind == 17:
            open_one = self.two(8, p, self.variable, self.other(p)) if draws.below(2) else self.formula(9, self.variable, p)
            return self.formula(17, self.variable, self.formula(15, self.other(p), open_one))
        return self.formula(kind, p, x) if kind >= 12 else self.formula(9, draws.one_of(self.keys), p)

    def body(self, sender, depth, held):
        """What a section holds. The statements are added to `held`."""
        draws = self.draws
        shape = draws.below(4) if depth == 0 else draws.below(14)
        if shape == 0:
            return draws.one_of(self.data)
        if shape <= 4:
            held.append(self.statement(sender))
            self.stated.append(held[-1])
            return held[-1]
        x = self.body(sender, depth - 1, held)
        if shape <= 6:
            return self.section(x, sender if draws.below(3) else self.other(sender))
        return self.formula(7 if shape <= 8 else 4, x, self.body(sender, depth - 1, held))

    def teach(self, p, x):
        """Somebody tells p x, and p believes him."""
        q, key, nonce = self.other(p), self.draws.one_of(self.keys), self.draws.one_of(self.data)
        signed = self.draws.below(2)
        self.assume(p, self.formula(9, key, q) if signed else self.two(8, p, key, q))
        self.assume(p, self.formula(11, nonce))
        self.assume(p, self.formula(15, q, x))
        self.sent.append((q, p, self.formula(5 + signed, self.formula(4, x, nonce), key, q)))

    def message(self):
        draws, held, later = self.draws, [], []
        sender = draws.one_of(self.who)
        body = self.body(sender, 3, held)
        own = self.section(body, sender)
        whole = [own, own, own, self.formula(4, own, body), self.formula(7, own, body)][draws.below(5)]
        for x in held:
            turn = draws.below(6)
            if turn < 2:
                self.assume(sender, x)
            elif turn == 2:
                self.teach(sender, x)
            elif turn == 3:
                later.append(x)
            if self.forms[x][0] in (12, 13) and draws.below(3) == 0:
                self.assumed.append(x)
        self.sent.append((sender, self.other(sender), whole))
        for x in later:
            self.teach(sender, x)

    def records(self, beside):
        """Formulas in front, or each beside the assumption or message that first needs it."""
        rest = [(32, x) for x in self.assumed] + [(33, *fields) for fields in self.sent]
        if not beside:
            return self.forms + rest
        out, placed = [], 0
        for r in rest:
            out += self.forms[placed:max(r[1:]) + 1] + [r]
            placed = max(placed, max(r[1:]) + 1)
        return out + self.forms[placed:]


def is_telling(book):
    """Whether a message after the first asks for a belief that its sender has and for one that he has not."""
    answers = {(m, is_believed(m, first)) for m, _, first in asked(book)}
    return any({(m, True), (m, False)} <= answers for m in range(2, 17))


def drawn(seed):
    draws = Draws(seed)
    while True:
        book = encoded(Drawn(draws).records(seed % 2))
        if len(book) <= 420 and reader.read(book)[1] is None and is_telling(book):
            return book


def is_met_twice(book):
    """Whether something that a sender is asked about is met in the open too."""
    rs = prover.records(book)
    forms = [r for r in rs if r[0] <= 17]
    found = [met(forms, fields[0], fields[2]) for kind, fields in rs if kind == 33]
    return any((x, not inside) in one for one in found for x, inside in one if forms[x][0] in ASKED_ABOUT)


def check_drawn(books):
    """Among the drawn books every kind is asked about, believed and not; senders have learned what they send, or learn it too late; and
    something is met in the open and inside."""
    kinds, learned, late = set(), False, False
    for book in books:
        forms = [r for r in prover.records(book) if r[0] <= 17]
        for m, x, first in asked(book):
            kinds.add((forms[x][0], is_believed(m, first)))
            learned = learned or is_believed(m, first) and first > 0
            late = late or first is not None and first >= m
    assert kinds == {(kind, believed) for kind in ASKED_ABOUT for believed in (True, False)}, kinds
    assert learned and late and any(map(is_met_twice, books))


# ------------------------------------------------------------------------------------------------------------- the cases

def spaced(book):
    """The bytes in hex digits, with blanks between the records, as far as these go."""
    rs, at = reader.read(book)[0], 0
    parts = []
    for r in rs:
        parts.append(book[at:at + reader.size(r[0])])
        at += reader.size(r[0])
    return " ".join(part.hex() for part in parts + [book[at:]] if part)


def cases():
    """Comments, and cases: what is tried, the length of the buffer, and the book."""
    yield "The cases of document 02, in 16 bytes, and in one byte less than the report, or in none."
    for title, book, named in TOLD:
        book, named = bytes.fromhex(book), bytes.fromhex(named)
        assert report(book) == named, title
        yield title, 16, book
        yield title + (", a byte short" if named else ", no buffer"), max(len(named) - 1, 0), book
    yield "The empty book."
    yield "the empty book", 0, b""
    yield "the empty book, 4 bytes", 4, b""
    yield "Sections in sections, and what is met twice."
    for title, book in NESTED:
        yield title, 12, bytes.fromhex(book)
    yield "Refused books."
    for title, length, book in REFUSED:
        yield title, length, bytes.fromhex(book)
    yield "The last of 16 messages; as many pairs as there can be; as many shared parts as there can be."
    yield "the sixteenth message", 6, sixteenth()
    yield "the sixteenth message, a byte short", 3, sixteenth()
    yield "the longest report", 8064, longest()
    yield "the longest report, a byte short", 8063, longest()
    yield "each conjunction the one before twice", 5, doubled()
    yield "The exchanges of the examples."
    for path in sorted((ROOT / "examples").glob("*.book")):
        book = path.read_bytes()
        yield path.stem, len(report(book)) + 4, book
    yield "Drawn books: the buffer is exact, longer, or a byte short."
    books = [drawn(seed) for seed in range(1, 41)]
    check_drawn(books)
    for i, book in enumerate(books):
        more, words = (-1, ", a byte short") if i % 8 == 7 else [(0, ""), (5, ", 5 bytes more")][i % 2]
        yield "drawn %d%s" % (i + 1, words), len(report(book)) + more, book


def main():
    given, expected = [], []
    for case in cases():
        if isinstance(case, str):
            given.append("# " + case)
            continue
        title, length, book = case
        said, buffer = answer(book, length)
        given.append(("%s: %d < %s" % (title, length, spaced(book))).rstrip())
        expected.append("%s: %s [%s]" % (title, said, buffer.hex()))
    given, expected = ("".join(line + "\n" for line in lines) for lines in (given, expected))
    assert len(given) < MOST_INPUT, len(given)
    (HERE / "stdin").write_text(given)
    (HERE / "stdout").write_text(expected)


if __name__ == "__main__":
    main()
