"""Writes the books of this folder: each shows a slip that is easily made. docs/RULES.md says what each one shows and which of its
goals are reached.

    python3 make.py
"""
import pathlib
import sys

HERE = pathlib.Path(__file__).resolve().parent
sys.path.insert(0, str(HERE.parent))
sys.dont_write_bytecode = True
from book import Book


def own_message(b):
    """P1 gets back what he sealed himself, and then the same from P2."""
    p1, p2, k1, n1 = b.principal(1), b.principal(2), b.key(1), b.datum(1)
    b.assume(b.believes(p1, b.shared_key(p1, k1, p2)))
    b.message(p2, p1, b.encrypted(n1, k1, p1))
    b.message(p2, p1, b.encrypted(n1, k1, p2))
    said = b.believes(p1, b.said(p2, n1))
    b.goal(1, said)  # not reached
    b.goal(1, b.sees(p1, n1))  # not reached
    b.goal(2, said)  # reached


def from_server(b, group):
    """The server P3 sends P1 a timestamp, the key K3 for P1 and P2, and this sealed for P2. `group` puts the three together."""
    p1, p2, p3, n1 = b.principal(1), b.principal(2), b.principal(3), b.datum(1)
    k1, k2, k3 = b.key(1), b.key(2), b.key(3)
    key = b.shared_key(p1, k3, p2)
    text = group(n1, key, b.encrypted(key, k2, p3))
    b.assume(b.believes(p1, b.shared_key(p1, k1, p3)))
    b.assume(b.believes(p1, b.fresh(n1)))
    b.assume(b.believes(p1, b.controls(p3, key)))
    b.message(p3, p1, b.encrypted(text, k1, p3))
    b.goal(1, b.believes(p1, b.said(p3, key)))  # reached
    b.goal(1, b.believes(p1, b.believes(p3, text)))  # not reached
    b.goal(1, b.believes(p1, key))  # in sealed-part not reached, in grouped-apart reached


def sealed_part(b):
    from_server(b, b.conjunction)


def grouped_apart(b):
    from_server(b, lambda time, key, ticket: b.conjunction(b.conjunction(time, key), ticket))


def seen_apart(b):
    p1, p2, n1, n2 = b.principal(1), b.principal(2), b.datum(1), b.datum(2)
    b.message(p2, p1, n1)
    b.message(p2, p1, n2)
    b.goal(2, b.sees(p1, n1))  # reached
    b.goal(2, b.sees(p1, n2))  # reached
    b.goal(2, b.sees(p1, b.conjunction(n1, n2)))  # not reached


def said_apart(b):
    """N2 is fresh and N1 may be old: if the two were joined, N1 would pass for recent."""
    p1, p2, k1, n1, n2 = b.principal(1), b.principal(2), b.key(1), b.datum(1), b.datum(2)
    b.assume(b.believes(p1, b.shared_key(p1, k1, p2)))
    b.assume(b.believes(p1, b.fresh(n2)))
    b.message(p2, p1, b.encrypted(n1, k1, p2))
    b.message(p2, p1, b.encrypted(n2, k1, p2))
    b.goal(2, b.believes(p1, b.said(p2, n1)))  # reached
    b.goal(2, b.believes(p1, b.believes(p2, n2)))  # reached
    b.goal(2, b.believes(p1, b.said(p2, b.conjunction(n1, n2))))  # not reached
    b.goal(2, b.believes(p1, b.believes(p2, n1)))  # not reached


def believed_apart(b):
    p1, p2, n1, n2 = b.principal(1), b.principal(2), b.datum(1), b.datum(2)
    one, other = b.believes(p2, n1), b.believes(p2, n2)
    b.assume(b.believes(p1, one))
    b.assume(b.believes(p1, other))
    b.goal(0, b.believes(p1, b.believes(p2, b.conjunction(n1, n2))))  # not reached
    b.goal(0, b.believes(p1, b.conjunction(one, other)))  # reached


def beliefs_joined(b):
    p1, p2, k1, n1 = b.principal(1), b.principal(2), b.key(1), b.datum(1)
    key, fresh = b.shared_key(p1, k1, p2), b.fresh(n1)
    b.assume(b.believes(p1, key))
    b.assume(b.believes(p1, fresh))
    joined = b.believes(p1, b.conjunction(key, fresh))
    b.goal(0, joined)  # reached
    b.goal(0, b.believes(p1, b.conjunction(fresh, key)))  # reached
    b.goal(0, b.believes(p1, joined))  # not reached


def key_of_others(b):
    """P3 knows whose key it is, and does not have it."""
    p1, p2, p3, k1, n1 = b.principal(1), b.principal(2), b.principal(3), b.key(1), b.datum(1)
    shared, sealed = b.shared_key(p1, k1, p2), b.encrypted(n1, k1, p1)
    b.assume(b.believes(p2, shared))
    b.assume(b.believes(p3, shared))
    b.message(p1, p2, sealed)
    b.message(p1, p3, sealed)
    b.goal(2, b.sees(p2, n1))  # reached
    b.goal(2, b.believes(p2, b.said(p1, n1)))  # reached
    b.goal(2, b.sees(p3, n1))  # not reached
    b.goal(2, b.believes(p3, b.said(p1, n1)))  # not reached


def fresh_whole(b):
    p1, p2, k1, n1, n2, n3 = b.principal(1), b.principal(2), b.key(1), b.datum(1), b.datum(2), b.datum(3)
    b.assume(b.believes(p1, b.fresh(n1)))
    b.assume(b.believes(p1, b.fresh(b.conjunction(n2, n3))))
    b.goal(0, b.believes(p1, b.fresh(b.conjunction(n3, n1))))  # reached
    b.goal(0, b.believes(p1, b.fresh(n2)))  # not reached
    b.goal(0, b.believes(p1, b.fresh(b.encrypted(n1, k1, p2))))  # not reached


def asked_early(b):
    p1, p2, n1, n2 = b.principal(1), b.principal(2), b.datum(1), b.datum(2)
    b.message(p2, p1, n1)
    b.message(p2, p1, n2)
    seen = b.sees(p1, n1)
    b.goal(0, seen)  # not reached
    b.goal(1, seen)  # reached
    b.goal(2, seen)  # reached
    b.goal(1, b.sees(p1, n2))  # not reached


def said_assumed(b):
    p1, p2, p3, n1, n2 = b.principal(1), b.principal(2), b.principal(3), b.datum(1), b.datum(2)
    both = b.said(p2, b.conjunction(n1, n2))
    b.assume(b.believes(p1, both))
    b.assume(b.believes(p1, b.fresh(n1)))
    b.assume(b.believes(p1, b.believes(p3, both)))
    one = b.said(p2, n1)
    b.goal(0, b.believes(p1, one))  # reached
    b.goal(0, b.believes(p1, b.believes(p2, n2)))  # reached
    b.goal(0, b.believes(p1, b.conjunction(one, b.said(p2, n2))))  # reached
    b.goal(0, b.believes(p1, b.believes(p3, one)))  # not reached


def no_record(b):
    p1, p2, k1, n1, n2 = b.principal(1), b.principal(2), b.key(1), b.datum(1), b.datum(2)
    b.assume(b.believes(p1, b.shared_key(p1, k1, p2)))
    b.assume(b.believes(p1, b.fresh(n1)))
    b.message(p2, p1, b.encrypted(b.conjunction(n1, n2), k1, p2))
    b.goal(1, b.believes(p1, b.believes(p2, n2)))  # reached
    b.goal(1, b.believes(p1, n2))  # not reached


def public_keys(b):
    """K1 is the public key of P2, as P1 and P2 know. N1 is encrypted under it, N2 is signed under its inverse."""
    p1, p2, p3, k1, n1, n2 = b.principal(1), b.principal(2), b.principal(3), b.key(1), b.datum(1), b.datum(2)
    owned, sealed = b.public_key(k1, p2), b.encrypted(n1, k1, p3)
    b.assume(b.believes(p1, owned))
    b.assume(b.believes(p2, owned))
    b.message(p3, p1, sealed)
    b.message(p3, p2, sealed)
    b.message(p2, p1, b.signed(n2, k1, p2))
    b.goal(3, b.sees(p1, n1))  # not reached
    b.goal(3, b.sees(p2, n1))  # reached
    b.goal(3, b.believes(p2, b.said(p3, n1)))  # not reached
    b.goal(3, b.sees(p1, n2))  # reached
    b.goal(3, b.believes(p1, b.said(p2, n2)))  # reached


def one_key(b):
    """P1 trusts P3 for every key that it is the key of P1 and of P2: one key, the same in both places."""
    p1, p2, p3, k1, k2, v1 = b.principal(1), b.principal(2), b.principal(3), b.key(1), b.key(2), b.variable(1)
    same = b.conjunction(b.public_key(k1, p1), b.public_key(k1, p2))
    other = b.conjunction(b.public_key(k1, p1), b.public_key(k2, p2))
    b.assume(b.believes(p1, b.for_every(v1, b.controls(p3, b.conjunction(b.public_key(v1, p1), b.public_key(v1, p2))))))
    b.assume(b.believes(p1, b.believes(p3, same)))
    b.assume(b.believes(p1, b.believes(p3, other)))
    b.goal(0, b.believes(p1, same))  # reached
    b.goal(0, b.believes(p1, other))  # not reached
    b.goal(0, b.believes(p1, b.controls(p3, same)))  # reached
    b.goal(0, b.believes(p1, b.controls(p3, other)))  # not reached


def trust_of_others(b):
    """P1 knows that P2 trusts P3 for every key, and does not do so himself."""
    p1, p2, p3, k1, v1, v2 = b.principal(1), b.principal(2), b.principal(3), b.key(1), b.variable(1), b.variable(2)
    trust = b.for_every(v1, b.controls(p3, b.public_key(v1, p2)))
    b.assume(b.believes(p1, b.believes(p2, trust)))
    b.message(p2, p1, trust)
    b.goal(1, b.believes(p1, b.believes(p2, b.controls(p3, b.public_key(k1, p2)))))  # not reached
    b.goal(1, b.believes(p1, b.controls(p3, b.public_key(k1, p2))))  # not reached
    b.goal(1, b.believes(p1, b.believes(p2, b.for_every(v2, b.controls(p3, b.public_key(v2, p2))))))  # not reached
    b.goal(1, b.sees(p1, trust))  # reached


SLIPS = [own_message, sealed_part, grouped_apart, seen_apart, said_apart, believed_apart, beliefs_joined, key_of_others,
         fresh_whole, asked_early, said_assumed, no_record, public_keys, one_key, trust_of_others]


def main():
    for slip in SLIPS:
        b = Book()
        slip(b)
        b.write(HERE / (slip.__name__.replace("_", "-") + ".book"))


main()
