"""Writes `stdout` of this program. The second prover of the survey's trials says which goals are reached and how many facts are
held, and the second reader of the reader's trials which books are refused; which derivation is written is free, so of a derivation
only that the checker accepts it is expected, and of the certificate's that it has nine steps of 108 bytes in all.

    python3 expected.py > stdout
"""
import pathlib
import sys

sys.path.append(str(pathlib.Path(__file__).resolve().parents[2] / "tests"))
from trials import cases_of, script

prover = script("search_trials")
reader = script("book_trials")


def answer(book, goal):
    """What is said of a goal, and F."""
    refusal = reader.read(book)[1]
    if refusal:
        return "refused %d at %d" % refusal, 0
    rs = prover.records(book)
    forms = prover.trees([r for r in rs if r[0] <= 17])
    goals = [r[1] for r in rs if r[0] == 34]
    table = prover.survey(book)
    if goal >= len(goals):
        return "refused 13 at %d" % goal, len(table)
    held = sum(1 for v in table if 1 <= v <= 1 + goals[goal][0])
    if prover.reached(forms, table, goals[goal]):
        return "reached, held %d, accepted" % held, len(table)
    return "not reached, held %d" % held, len(table)


def lent(book, goal, work, derivation):
    said, places = answer(book, goal)
    if not said.startswith("refused") and (work < places * 8 or derivation < places * 12):
        said = "refused 14 at 0"
    return said + ", 44 of 44 kept, 5192 of 5192 kept"


def main():
    for book, title, case in cases_of("prove_trials"):
        numbers = [int(x) for x in case.rstrip("<? ").split(",")]
        print("%s: %s" % (title, lent(book, *numbers) if "<" in case else answer(book, *numbers)[0]))


if __name__ == "__main__":
    main()
