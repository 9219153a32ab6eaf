"""Writes the books of this folder and what the program `honest` has to print of each, worked out apart from the library: facts by the second
prover of crates/search_trials, what is refused and texts by the scripts of crates/book_trials and crates/goal_trials. What a sender has to
believe is told here of each tree by those of its parts. The books of the examples and of tests/listings have their outputs here too.

    python3 expected.py
"""
import functools
import pathlib
import sys

HERE = pathlib.Path(__file__).parent
ROOT = HERE.resolve().parents[1]
sys.path.append(str(ROOT / "tests"))
from trials import script

listings = script("../tests/listings")  # no crate, but a folder beside them
prover = script("search_trials")
texts = script("goal_trials")
trials = script("honesty_trials")

# The cases of document 02's wish 7, and what is to be printed of each.
CERTIFICATE = ("01000101000201000302000102000203000109000300010400060005060007000400%s0900040002"
               "0c000000090b00050c0000000b0f000200060c0000000d0c0000000620000a20000c20000e21000200000008220001000f")
LEARNED = ("01000101000202000103000109000200000800000002000105000400020000050004000200010c00010005"
           "0f000000040c000100090b00040c0001000b20000820000a20000c%s")
OWN_BELIEF = "01000101000202000109000200000c00000003050004000200000c00000004200004%s21000000010005"
DELEGATION = "01000101000202000110000109000300010f000000041100030005060006000200000c00000006%s21000000010007"
HONEST = "all senders are honest\n"
TOLD = {
    "signed-by-sender": (CERTIFICATE % "02", "message 1: P3 does not believe K1 of P2\n"),
    "signed-by-another": (CERTIFICATE % "00", HONEST),
    "taught-before": (LEARNED % "2100000001000621000100000007", "message 1: P1 does not believe K1 of P1\n"),
    "taught-too-late": (LEARNED % "2100010000000721000000010006",
                        "message 1: P2 does not believe K1 of P1\nmessage 2: P1 does not believe K1 of P1\n"),
    "met-inside": ("01000101000202000103000109000200000b0003050004000200010700060005040007000404000800050600090002000004000a0005"
                   "070005000404000b000c2100000001000d",
                   "message 1: P1 does not believe K1 of P1\nmessage 1: P1 does not believe fresh N1\n"),
    "own-belief": (OWN_BELIEF % "", "message 1: P1 does not believe P1 believes K1 of P1\n"),
    "own-belief-held": (OWN_BELIEF % "200006", HONEST),
    "seen-not-believed": ("0100010100020200010300010d00000003050004000200002100010000000321000000010005",
                          "message 2: P1 does not believe P1 sees N1\n"),
    "delegation-sent": (DELEGATION % "", "message 1: P1 does not believe all V1: P1 controls V1 of P2\n"),
    "delegation-believed": (DELEGATION % "200008", HONEST),
}


# ------------------------------------------------------------------------------------------------------ what is printed

@functools.lru_cache(maxsize=None)
def required(t, sender, inside):
    """The formulas in which he who sends t must believe, where t stands in the open or inside a section from him."""
    kind = t[0]
    if kind == 4:
        return required(t[1], sender, inside) | required(t[2], sender, inside)
    if kind == 7:
        return required(t[1], sender, inside)
    if kind in (5, 6):
        return required(t[1], sender, True) if t[3] == sender else frozenset()
    return frozenset([t]) if inside and kind != 3 else frozenset()


def pairs(data):
    """The message and the formula, by their numbers, where the survey has no byte of a belief, or one that says too late."""
    rs = prover.records(data)
    forms = prover.trees([r for r in rs if r[0] <= 17])
    table, place = prover.survey(data), prover.places(forms)
    for m, (sender, _, sent) in enumerate((fields for kind, fields in rs if kind == 33), 1):
        believed = required(forms[sent], forms[sender], False)
        for x, t in enumerate(forms):
            if t in believed and not 1 <= table[place(prover.belief(forms[sender], t))] <= m:
                yield m, sender, x


def printed(data):
    book = texts.Book(data)
    if book.refusal:
        return "refused %d at %d\n" % book.refusal
    lines = ["message %d: %s does not believe %s\n" % (m, book.texts[p], book.texts[x] or "too long") for m, p, x in pairs(data)]
    return "".join(lines) or HONEST


# ------------------------------------------------------------------------------------------------------------- the books

def sent(rs, x):
    """P1 sends P2 formula x in a section of his own."""
    key = len(rs)
    return rs + [(2, 1), (5, x, key, 0), (33, 0, 1, key + 1)]


def seeing(last):
    """Formulas, of which the last is that P2 sees something, in a text of 4,096 bytes for the name 100 and of one more for 1000."""
    rs = listings.sized(last)[:-1]
    return rs + [(13, 1, len(rs) - 1)]


def longest_line():
    """A text of 4,096 bytes in message 16, from the principal with the longest name."""
    rs = seeing(100)
    rs = sent([(1, 65535)] + rs[1:], len(rs) - 1)
    return rs[:-1] + [(33, 0, 1, 2)] * 15 + rs[-1:]


def fresh_doubled():
    """That something is fresh whose text is much too long, as each of 200 formulas in it has the one before twice."""
    rs = [(1, 1), (1, 2), (3, 1)] + [(4, x, x) for x in range(2, 202)] + [(11, 202)]
    return sent(rs, 203)


def made():
    """The books that are made here, but for those of which it is told what is printed."""
    out = {"drawn-%02d" % seed: trials.drawn(100 + seed) for seed in range(1, 13)}
    out["text-of-4096-sent"] = trials.encoded(sent(seeing(100), len(seeing(100)) - 1))
    out["text-of-4097-sent"] = trials.encoded(sent(seeing(1000), len(seeing(1000)) - 1))
    out["longest-line"] = trials.encoded(longest_line())
    out["much-too-long-sent"] = trials.encoded(fresh_doubled())
    out["longest-report"] = trials.longest()
    out["shared-parts"] = trials.doubled()
    out["sixteenth-message"] = trials.sixteenth()
    return out


def check_made(out):
    """The lengths of the long lines, and how many lines the longest report has."""
    heading = len("message 1: P1 does not believe ")
    assert len(out["text-of-4096-sent"]) == heading + 4096 + 1
    assert out["text-of-4097-sent"] == "message 1: P1 does not believe too long\n"
    assert out["much-too-long-sent"] == "message 1: P1 does not believe too long\n"
    assert len(out["longest-line"]) == len("message 16: P65535 does not believe ") + 4096 + 1
    assert out["longest-report"].count("\n") == 16 * 126
    assert out["shared-parts"] == "message 1: P1 does not believe K1 of P1\n"
    assert out["sixteenth-message"] == "message 16: P1 does not believe K1 of P1\n"


def found():
    """The books of the examples and of tests/listings; those that have the same name are the same."""
    out = {}
    for path in [*(ROOT / "examples").glob("*.book"), *(ROOT / "tests/listings").glob("*.book")]:
        assert out.setdefault(path.stem, path.read_bytes()) == path.read_bytes(), path.stem
    return out


def main():
    told = {name: bytes.fromhex(book) for name, (book, _) in TOLD.items()}
    own = {**told, **made()}
    others = found()
    assert not own.keys() & others.keys()  # an output is found by its name
    outputs = {name: printed(book) for name, book in {**own, **others}.items()}
    assert {name: outputs[name] for name in TOLD} == {name: out for name, (_, out) in TOLD.items()}
    check_made(outputs)
    for name, book in own.items():
        (HERE / (name + ".book")).write_bytes(book)
    for name, out in outputs.items():
        (HERE / (name + ".out")).write_text(out)


if __name__ == "__main__":
    main()
