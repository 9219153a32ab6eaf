"""Writes `stdout` of this program, worked out apart from the library: the cases are taken from `stdin`, and the script of the goals' trials has
the texts of facts and what is malformed.

    python3 expected.py > stdout
"""
import pathlib
import sys

sys.path.append(str(pathlib.Path(__file__).resolve().parents[2] / "tests"))
from trials import cases_of, script

goals = script("goal_trials")
BUFFER = 4200


def answer(book, fact, room):
    """What is answered, and the bytes that stand at the front of the buffer then."""
    if book.refusal:
        return "refused %d at %d" % book.refusal, b""
    if len(fact) != 7 or book.is_malformed(fact[0], *goals.words(fact[1:])):
        return "refused 17 at 0", b""
    text = book.printed(fact[0], *goals.words(fact[1:])).encode()
    if text == b"too long" or room < len(text):
        return "refused 15 at 0", b""
    return "written %d %s" % (len(text), text.decode() if len(text) <= 200 else "long"), text


def main():
    for data, title, case in cases_of("text_trials"):
        guest = "@" in case
        room, fact = case.split("@" if guest else "?")
        told, front = answer(goals.Book(data, guest), bytes.fromhex(fact), int(room))
        print("%s: %s, sum %d" % (title, told, sum(front + b"." * (BUFFER - len(front))) % 1000000))


if __name__ == "__main__":
    main()
