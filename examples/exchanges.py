"""Writes the example books of the Andrew handshake, of Needham and Schroeder's exchange with public keys and of X.509: each as
source document 000 has it, and with something changed. README.md says what follows from them and what does not.

    python3 examples/exchanges.py

A class has the names of an exchange and its common parts; a function makes one book: what is assumed, sent and asked. Where the
source trusts somebody in all keys, most books name the one key that is sent; those with `any_key` in their name say it of every key.
"""
import pathlib
import sys

sys.dont_write_bytecode = True
from book import Book


class Handshake(Book):
    """Section 5. P1 is A, a client, and P2 is B, his server; they share K1, and K2 is the session key that B chooses."""

    def __init__(self):
        super().__init__()
        self.a, self.b = self.principal(1), self.principal(2)
        self.old, self.new, self.na = self.key(1), self.key(2), self.datum(1)
        self.old_key = self.shared_key(self.a, self.old, self.b)
        self.new_key = self.shared_key(self.a, self.new, self.b)

    def keys_assumed(self, any_key):
        self.assume(self.believes(self.a, self.old_key))  # both know the key that they share
        self.assume(self.believes(self.b, self.old_key))
        self.assume(self.believes(self.a, self.trust(any_key)))  # A trusts B to choose a session key
        self.assume(self.believes(self.b, self.new_key))  # B has chosen one

    def trust(self, any_key):
        """B's control of the session key, or of any key that he chooses for the two."""
        if not any_key:
            return self.controls(self.b, self.new_key)
        v = self.variable(1)
        return self.for_every(v, self.controls(self.b, self.shared_key(self.a, v, self.b)))

    def four_messages(self, mended, any_key=False):
        """The handshake of the source; when it is mended, message 4 has A's nonce too."""
        nb, start = self.datum(2), self.datum(3)  # B's nonce, a first sequence number
        both = self.conjunction(self.na, nb)
        text = self.conjunction(self.new_key, start)
        last = self.conjunction(text, self.na) if mended else text
        self.keys_assumed(any_key)
        self.assume(self.believes(self.a, self.fresh(self.na)))  # each has just made his own nonces
        self.assume(self.believes(self.b, self.fresh(nb)))
        self.assume(self.believes(self.b, self.fresh(start)))
        self.message(self.a, self.b, self.encrypted(self.na, self.old, self.a))  # message 1: A's nonce
        self.message(self.b, self.a, self.encrypted(both, self.old, self.b))  # message 2: A's nonce returned, and B's
        self.message(self.a, self.b, self.encrypted(nb, self.old, self.a))  # message 3: B's nonce returned
        self.message(self.b, self.a, self.encrypted(last, self.old, self.b))  # message 4: the session key
        # what the source obtains
        self.goal(4, self.believes(self.b, self.new_key))
        self.goal(2, self.believes(self.a, self.believes(self.b, both)))
        self.goal(3, self.believes(self.b, self.believes(self.a, nb)))
        self.goal(4, self.believes(self.a, self.said(self.b, text)))
        # what it does not obtain of the handshake as it was
        self.goal(4, self.believes(self.a, self.believes(self.b, self.new_key)))
        self.goal(4, self.believes(self.a, self.new_key))
        self.goal(4, self.believes(self.b, self.believes(self.a, self.new_key)))


def andrew():
    """As it was: nothing in message 4 is fresh to A."""
    e = Handshake()
    e.four_messages(mended=False)
    return e


def andrew_mended():
    """A's nonce is added to message 4."""
    e = Handshake()
    e.four_messages(mended=True)
    return e


def andrew_any_key():
    """Mended, and A trusts B for every key, as the source has it."""
    e = Handshake()
    e.four_messages(mended=True, any_key=True)
    return e


def andrew_short():
    """The shorter exchange at the end of section 5: two sealed messages."""
    e = Handshake()
    e.keys_assumed(any_key=False)
    e.assume(e.believes(e.a, e.fresh(e.na)))  # A has just made his nonce, and has sent it in clear
    e.assume(e.believes(e.b, e.fresh(e.new_key)))  # B has just chosen the session key
    e.message(e.b, e.a, e.encrypted(e.conjunction(e.na, e.new_key), e.old, e.b))  # B sends the session key with A's nonce
    e.message(e.a, e.b, e.encrypted(e.new_key, e.new, e.a))  # A answers under the session key
    # what the source obtains
    e.goal(1, e.believes(e.a, e.new_key))
    e.goal(2, e.believes(e.b, e.new_key))
    e.goal(1, e.believes(e.a, e.believes(e.b, e.new_key)))
    e.goal(2, e.believes(e.b, e.believes(e.a, e.new_key)))
    # before A has answered
    e.goal(1, e.believes(e.b, e.believes(e.a, e.new_key)))
    return e


class PublicKeys(Book):
    """Section 6. P1 is A, P2 is B, P3 is the authority S; K1, K2, K3 are their public keys, N1 is A's nonce, N2 is B's."""

    def __init__(self):
        super().__init__()
        self.a, self.b, self.s = self.principal(1), self.principal(2), self.principal(3)
        self.ka, self.kb, self.ks = self.key(1), self.key(2), self.key(3)
        self.na, self.nb = self.datum(1), self.datum(2)
        self.key_of_a = self.public_key(self.ka, self.a)
        self.key_of_b = self.public_key(self.kb, self.b)
        self.key_of_s = self.public_key(self.ks, self.s)
        self.secret_na = self.shared_secret(self.a, self.na, self.b)
        self.secret_nb = self.shared_secret(self.a, self.nb, self.b)

    def trust(self, owner, key, any_key):
        """S's control of a principal's public key, or of any key that he says is that principal's."""
        if not any_key:
            return self.controls(self.s, self.public_key(key, owner))
        v = self.variable(1)
        return self.for_every(v, self.controls(self.s, self.public_key(v, owner)))

    def assumed(self, any_key=False):
        """The fifteen assumptions of the source."""
        self.assume(self.believes(self.a, self.key_of_a))  # each knows his own key, and that of S
        self.assume(self.believes(self.b, self.key_of_b))
        self.assume(self.believes(self.a, self.key_of_s))
        self.assume(self.believes(self.b, self.key_of_s))
        self.assume(self.believes(self.s, self.key_of_a))  # S knows all keys
        self.assume(self.believes(self.s, self.key_of_b))
        self.assume(self.believes(self.s, self.key_of_s))
        self.assume(self.believes(self.a, self.trust(self.b, self.kb, any_key)))  # S is trusted to say whose key it is
        self.assume(self.believes(self.b, self.trust(self.a, self.ka, any_key)))
        self.assume(self.believes(self.a, self.fresh(self.na)))  # each has just made his own nonce
        self.assume(self.believes(self.b, self.fresh(self.nb)))
        self.assume(self.believes(self.a, self.secret_na))  # and shows it to nobody but the other
        self.assume(self.believes(self.b, self.secret_nb))
        self.assume(self.believes(self.a, self.fresh(self.key_of_b)))  # the weak point: certificates are taken for new
        self.assume(self.believes(self.b, self.fresh(self.key_of_a)))

    def sent(self, text6, text7):
        """Messages 2, 3, 5, 6, 7 of the source; 1 and 4 say nothing. B says text6 with Na as the secret, A says text7 with Nb."""
        self.message(self.s, self.a, self.signed(self.key_of_b, self.ks, self.s))  # message 2: B's key
        self.message(self.a, self.b, self.encrypted(self.na, self.kb, self.a))  # message 3: A's nonce, which proves nothing yet
        self.message(self.s, self.b, self.signed(self.key_of_a, self.ks, self.s))  # message 5: A's key
        self.message(self.b, self.a, self.encrypted(self.combined(text6, self.na), self.ka, self.b))  # message 6
        self.message(self.a, self.b, self.encrypted(self.combined(text7, self.nb), self.kb, self.a))  # message 7

    def asked(self):
        # what the source obtains of the keys
        self.goal(1, self.believes(self.a, self.key_of_b))
        self.goal(3, self.believes(self.b, self.key_of_a))
        # on the way to the secrets
        self.goal(2, self.sees(self.b, self.na))
        self.goal(4, self.believes(self.a, self.said(self.b, self.secret_nb)))
        self.goal(5, self.believes(self.b, self.said(self.a, self.secret_na)))
        # what the source obtains of the secrets
        self.goal(4, self.believes(self.a, self.believes(self.b, self.secret_nb)))
        self.goal(5, self.believes(self.b, self.believes(self.a, self.secret_na)))
        # what it does not claim
        self.goal(5, self.believes(self.a, self.secret_nb))
        self.goal(5, self.believes(self.b, self.secret_na))


def needham_schroeder():
    """As the source has it."""
    e = PublicKeys()
    e.assumed()
    e.sent(e.secret_nb, e.secret_na)
    e.asked()
    return e


def needham_schroeder_any_key():
    """S is trusted for every key, as the source has it."""
    e = PublicKeys()
    e.assumed(any_key=True)
    e.sent(e.secret_nb, e.secret_na)
    e.asked()
    return e


def needham_schroeder_fresh_secrets():
    """Two assumptions more: each takes the statement about the other's secret for new."""
    e = PublicKeys()
    e.assumed()
    e.assume(e.believes(e.a, e.fresh(e.secret_nb)))
    e.assume(e.believes(e.b, e.fresh(e.secret_na)))
    e.sent(e.secret_nb, e.secret_na)
    e.asked()
    return e


def needham_schroeder_said_nonces():
    """The nonce that proves who speaks is also part of what is said."""
    e = PublicKeys()
    e.assumed()
    e.sent(e.conjunction(e.na, e.secret_nb), e.conjunction(e.nb, e.secret_na))
    e.asked()
    return e


class Directory(Book):
    """Section 7. P1 is A, P2 is B, K1 and K2 are their public keys. Each sends a timestamp, a nonce, open and private data."""

    def __init__(self):
        super().__init__()
        self.a, self.b = self.principal(1), self.principal(2)
        self.ka, self.kb = self.key(1), self.key(2)
        self.ta, self.na, self.xa, self.ya = self.datum(1), self.datum(2), self.datum(3), self.datum(4)
        self.tb, self.nb, self.xb, self.yb = self.datum(5), self.datum(6), self.datum(7), self.datum(8)

    def assumed(self, checked_by_a=True, checked_by_b=True):
        """The assumptions of the source; a timestamp that is not checked is not fresh to its reader."""
        self.assume(self.believes(self.a, self.public_key(self.ka, self.a)))  # each knows both keys
        self.assume(self.believes(self.b, self.public_key(self.kb, self.b)))
        self.assume(self.believes(self.a, self.public_key(self.kb, self.b)))
        self.assume(self.believes(self.b, self.public_key(self.ka, self.a)))
        self.assume(self.believes(self.a, self.fresh(self.na)))  # each has just made his own nonce
        self.assume(self.believes(self.b, self.fresh(self.nb)))
        if checked_by_a:
            self.assume(self.believes(self.a, self.fresh(self.tb)))
        if checked_by_b:
            self.assume(self.believes(self.b, self.fresh(self.ta)))

    def private_a(self):
        """A's private data, for B alone to read."""
        return self.encrypted(self.ya, self.kb, self.a)

    def private_b(self):
        """B's private data, for A alone to read."""
        return self.encrypted(self.yb, self.ka, self.b)

    def text1(self, private):
        """The text of message 1: the clear part is a group of its own, so that rule 4 can be used on it."""
        return self.conjunction(self.conjunction(self.ta, self.na, self.xa), private)

    def text2(self, private):
        """The text of message 2, grouped in the same way; A's nonce is returned in it."""
        return self.conjunction(self.conjunction(self.tb, self.nb, self.na, self.xb), private)

    def sent(self, text1, text2, text3):
        self.message(self.a, self.b, self.signed(text1, self.ka, self.a))
        self.message(self.b, self.a, self.signed(text2, self.kb, self.b))
        self.message(self.a, self.b, self.signed(text3, self.ka, self.a))

    def asked(self):
        # of the open data
        self.goal(1, self.believes(self.b, self.said(self.a, self.xa)))
        self.goal(1, self.believes(self.b, self.believes(self.a, self.xa)))
        self.goal(3, self.believes(self.b, self.believes(self.a, self.xa)))
        self.goal(2, self.believes(self.a, self.believes(self.b, self.xb)))
        # of the private data
        self.goal(1, self.sees(self.b, self.ya))
        self.goal(2, self.sees(self.a, self.yb))
        self.goal(3, self.believes(self.b, self.said(self.a, self.ya)))
        self.goal(3, self.believes(self.b, self.believes(self.a, self.ya)))
        self.goal(2, self.believes(self.a, self.said(self.b, self.yb)))
        self.goal(2, self.believes(self.a, self.believes(self.b, self.yb)))
        # of B's nonce, which message 3 returns
        self.goal(3, self.believes(self.b, self.believes(self.a, self.nb)))


def x509():
    """As the source has it: B checks the timestamp Ta, A checks Tb."""
    e = Directory()
    e.assumed()
    e.sent(e.text1(e.private_a()), e.text2(e.private_b()), e.nb)
    e.asked()
    return e


def x509_one_list():
    """The same, each text entered as one list: no clear part with a timestamp or nonce in it is left."""
    e = Directory()
    e.assumed()
    e.sent(e.conjunction(e.ta, e.na, e.xa, e.private_a()), e.conjunction(e.tb, e.nb, e.na, e.xb, e.private_b()), e.nb)
    e.asked()
    return e


def x509_unchecked_time():
    """B does not check Ta."""
    e = Directory()
    e.assumed(checked_by_b=False)
    e.sent(e.text1(e.private_a()), e.text2(e.private_b()), e.nb)
    e.asked()
    return e


def x509_third_message():
    """Nobody checks a timestamp, and message 3, which names B, says Xa again."""
    e = Directory()
    e.assumed(checked_by_a=False, checked_by_b=False)
    e.sent(e.text1(e.private_a()), e.text2(e.private_b()), e.conjunction(e.nb, e.xa))
    e.asked()
    return e


def x509_signed_data():
    """Private data are signed before they are sealed: A signs Ya alone, B signs Yb with A's nonce."""
    e = Directory()
    e.assumed()
    signed_a = e.signed(e.ya, e.ka, e.a)
    signed_b = e.signed(e.conjunction(e.na, e.yb), e.kb, e.b)
    e.sent(e.text1(e.encrypted(signed_a, e.kb, e.a)), e.text2(e.encrypted(signed_b, e.ka, e.b)), e.nb)
    e.asked()
    return e


def main():
    for make in (andrew, andrew_mended, andrew_any_key, andrew_short,
                 needham_schroeder, needham_schroeder_any_key, needham_schroeder_fresh_secrets, needham_schroeder_said_nonces,
                 x509, x509_one_list, x509_unchecked_time, x509_third_message, x509_signed_data):
        make().write(pathlib.Path(__file__).parent / (make.__name__.replace("_", "-") + ".book"))


main()
