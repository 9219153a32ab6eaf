"""Writes the books of this folder and what the program of the guest's listing has to print of each, worked out apart from the library:
facts by the second prover of crates/search_trials, what is refused by the second reader of crates/book_trials, texts by the script of
tests/listings, with another way for a datum to print. The books of tests/listings have their outputs here too. Two books NAME-a and
NAME-b differ in the names of data only: they have one output, NAME.

    python3 expected.py
"""
import pathlib
import re
import sys

HERE = pathlib.Path(__file__).parent
TESTS = HERE.resolve().parents[0]
sys.path.append(str(TESTS))
from trials import script

listings = script("../tests/listings")  # no crate, but a folder beside them
reader = script("book_trials")

# The cases of document 02's wish 5, and what is told of them.
CERTIFICATE = ("010001010002010003020001020002%s09000300010400060005060007000400000900040002"
               "0c000000090b00050c0000000b0f000200060c0000000d0c0000000620000a20000c20000e21000200000008220001000f")
OF_CERTIFICATE = """0 P1 believes fresh N#5
0 P1 believes fresh (K1 of P2, N#5)
1 P1 sees {(K1 of P2, N#5)}K2' from P1
0 P1 believes K2 of P3
0 P1 believes P3 controls K1 of P2
held 5
goals 0 of 1, 0 per cent
"""
LONGER_BY_NAME = ("010001010002%s0700020002070003000307000400040700050005"
                  "070006000607000700070700080008070009000907000a000a2100000001000b")
LONGER_FOR_GUEST = ("010001010002%s0700020002070003000307000400040700050005070006000607000700070700080008"
                    "070009000907000a000a07000b000a07000c00092100000001000d")
BY_FORMULA_NUMBER = "0100010300090300040200070900030000040001000204000500040c00000006200007"
OF_FORMULA_NUMBERS = """0 P1 believes N#1
0 P1 believes N#2
0 P1 believes K7 of P1
0 P1 believes (N#1, N#2)
0 P1 believes ((N#1, N#2), K7 of P1)
held 5
goals 0 of 0, 0 per cent
"""


def by_number(forms, t):
    return "N#%d" % forms.index(t)


def guest_listing(book):
    refusal = reader.read(book)[1]
    return "refused %d at %d\n" % refusal if refusal else listings.listing(book, by_number)


def texts(out):
    """The text of each fact of a listing."""
    return [line.split(" ", 1)[1] for line in out.splitlines()[:-2]]


class Draws:
    """Numbers from a seed, the same in every version of Python."""

    def __init__(self, seed):
        self.state = seed

    def below(self, n):
        self.state = (self.state * 6364136223846793005 + 1442695040888963407) % 2**64
        return (self.state >> 33) % n

    def one_of(self, items):
        return items[self.below(len(items))]

    def names(self, count, low, high):
        """So many names from low on and below high, each once."""
        names = []
        while len(names) < count:
            name = low + self.below(high - low)
            if name not in names:
                names.append(name)
        return names


# The names at the front of a drawn book: P1, P2, P3, K1, K2, two data, V1 and a third datum.
NAMED = [(1, 1), (1, 2), (1, 3), (2, 1), (2, 2), (3, 1), (3, 2), (16, 1), (3, 3)]
# Kinds to draw from, and how often: formulas first, then more of them, data too, beside the assumptions and messages. The names of one
# figure are enough for so many data.
MOST_DATA = 8
TURNS = [(tuple(range(4, 16)) + (17,), 30), ((3, 4, 5, 12, 12, 13, 32, 32, 32), 24), ((3, 4, 7, 11, 33, 33), 14), ((34,), 4)]
# Names from one of these on and below the other: of one figure, of two or three, of five, any.
RANGES = [(0, 10), (10, 1000), (60000, 65536), (0, 65536)]


def field(draws, rs, sort):
    """A field of this sort for a record behind the records rs, often one of the latest formulas."""
    if sort == "n":
        return 1000 + len(rs)
    if sort == "m":
        return draws.below(len(reader.of_kind(rs, 33)) + 1)
    kinds = (12, 13) if sort == "s" else reader.MAY_BE[sort]
    fitting = [x for x, r in enumerate(reader.formulas(rs)) if r[0] in kinds] or [0]
    return draws.one_of(fitting[-8:] if draws.below(2) else fitting)


def drawn(draws):
    """The records of a book: a record that would be refused is passed over. The data have names for the time being."""
    rs = list(NAMED)
    for kinds, times in TURNS:
        for _ in range(times):
            kind = draws.one_of(kinds)
            record = (kind, *(field(draws, rs, sort) for sort in reader.SORTS[kind]))
            is_over = kind == 3 and len(reader.of_kind(rs, 3)) == MOST_DATA
            if not is_over and not reader.fault(rs, record):
                rs.append(record)
    return rs


def renamed(rs, draws, names_from):
    """The book of these records with other names of data."""
    names = iter(draws.names(len(reader.of_kind(rs, 3)), *names_from))
    return listings.encoded([(3, next(names)) if r[0] == 3 else r for r in rs])


def late_data(rs):
    """The formula numbers of data that have other record numbers, as they stand behind an assumption or a message."""
    return {len(reader.formulas(rs[:i])) for i, r in enumerate(rs) if r[0] == 3 and len(reader.formulas(rs[:i])) != i}


def drawn_pair(seed):
    """Two books with the names of their data from two of the ranges. Several facts with data print, and one with such a late datum."""
    draws = Draws(seed)
    while True:
        rs = drawn(draws)
        two = [renamed(rs, draws, RANGES[(seed + i) % len(RANGES)]) for i in (0, 1)]
        printed = [set(map(int, re.findall(r"N#(\d+)", t))) for t in texts(guest_listing(two[0]))]
        if sum(map(bool, printed)) >= 8 and late_data(rs) & set().union(*printed):
            return two


def of_datum(book, *names):
    """The books with a datum of these names in the place that the hexadecimal digits leave open."""
    return [bytes.fromhex(book % ("03%04x" % name)) for name in names]


def pairs():
    out = {"drawn-%02d" % seed: drawn_pair(seed) for seed in range(1, 13)}
    out["certificate-own-renamed"] = of_datum(CERTIFICATE, 1, 777)
    # The listings of this pair differ in `too long`: N65535 makes a text of 4,102 bytes, N7 one of 2,054.
    out["longer-by-name"] = of_datum(LONGER_BY_NAME, 65535, 7)
    # Here only the guest's are too long, in both books.
    out["longer-for-guest"] = of_datum(LONGER_FOR_GUEST, 1, 2)
    return out


def check_pair(name, a, b):
    """The records are equal but for names of data, both books are accepted, the guest sees no difference, and the owner does."""
    (first, refusal), (second, other_refusal) = reader.read(a), reader.read(b)
    assert refusal is None and other_refusal is None, name
    assert a != b and len(first) == len(second), name
    assert all(r == s or r[0] == s[0] == 3 for r, s in zip(first, second)), name
    assert guest_listing(a) == guest_listing(b), name
    assert listings.listing(a) != listings.listing(b), name
    long = ["too long" in listings.listing(book) for book in (a, b)]
    assert long == [name == "longer-by-name", False], (name, long)


def check_told(two):
    """What document 02 tells of its cases, with the longer texts by their lengths and fronts."""
    assert [guest_listing(book) for book in two["certificate-own-renamed"]] == [OF_CERTIFICATE] * 2
    book = two["longer-by-name"][0]
    assert listings.listing(book).splitlines().count("1 too long") == 1
    longest = max(texts(guest_listing(book)), key=len)
    assert longest.startswith("P2 sees <<<<<<<<<N") and len(longest) == 2566
    assert max(len(t) for t in texts(listings.listing(two["longer-by-name"][1]))) == 2054
    book = two["longer-for-guest"][0]
    assert max(len(t) for t in texts(listings.listing(book))) == 3590
    assert guest_listing(book).splitlines().count("1 too long") == 1
    book = bytes.fromhex(BY_FORMULA_NUMBER)
    assert guest_listing(book) == OF_FORMULA_NUMBERS and len(texts(OF_FORMULA_NUMBERS)[3]) == 22
    assert guest_listing(b"\0") == "refused 1 at 0\n"


def keep(name, book):
    (HERE / (name + ".book")).write_bytes(book)


def keep_out(name, book):
    (HERE / (name + ".out")).write_text(guest_listing(book))


def main():
    two = pairs()
    single = {"by-formula-number": bytes.fromhex(BY_FORMULA_NUMBER), "zero-byte": b"\0"}
    listed = {path.stem: path for path in (TESTS / "listings").glob("*.book")}
    assert not listed.keys() & (two.keys() | single.keys())  # an output is found by its name
    check_told(two)
    for name, path in listed.items():
        keep_out(name, path.read_bytes())
        refused = guest_listing(path.read_bytes()).startswith("refused")
        assert not refused or guest_listing(path.read_bytes()) == path.with_suffix(".out").read_text(), name
    for name, book in single.items():
        keep(name, book)
        keep_out(name, book)
    for name, (a, b) in two.items():
        check_pair(name, a, b)
        keep(name + "-a", a)
        keep(name + "-b", b)
        keep_out(name, a)


if __name__ == "__main__":
    main()
