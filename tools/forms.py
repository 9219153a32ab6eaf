#!/usr/bin/env python3
"""Counts the places in crates/*/src that are written in an older form, by the points of docs/DESIGN-PASS.md.

    python3 tools/forms.py [FOLDER]         the counts
    python3 tools/forms.py FOLDER POINT     each place of a point, with its file and line
"""
import glob
import os
import re
import sys

SIMPLE = {
    # an enum with a case for what went wrong beside those for what came of it
    "1a own enums of the shape of Result": r"^    \w+\((?:Refusal|Cause|Status)\),$",
    # a number that stands for nothing
    "1b numbers that stand for nothing": r"\bNO_[A-Z]+\b|\bNONE\b|== 256\b|\b256 where\b",
    # a kind of fault as a number
    "1c refusals as numbers": r"return (?:1[0-9]|2[0-3]);|fn number_of\(cause|fault == 1[67]",
    "3a while": r"^\s*while ",
    "3b an index counted by hand": r"^\s*\w+ \+= 1;$|^\s*\w+ -= 1;$",
    "4a conversion by `as`": r"\bas (?:u8|u16|u32|u64|usize|i32|i64)\b",
    "4b and, or, not, least, equality, conversion as functions":
        r"fn (?:both|either|any|all|fails|least|one_if|bit|as_byte|wide|high|low|join|plus|kept|same|is_either|one_less|no_record|no_counts)\(",
    "4c a test that answers true or false by hand": r"^\s*return (?:true|false);$|\{ true \} else|else \{ false \}|else \{ true \}",
    "7 a switch on what to run": r"enum Use\b|Use::\w+|match wanted\b",
}


def sources(top):
    return sorted(glob.glob(os.path.join(top, "crates/*/src/*.rt")))


def name_of(top, path):
    return os.path.relpath(path, top)


def by_line(top, pattern):
    found = []
    for path in sources(top):
        for number, line in enumerate(open(path, encoding="utf-8"), 1):
            if line.lstrip().startswith("//"):
                continue
            if re.search(pattern, line):
                found.append((name_of(top, path), number, line.strip()))
    return found


def functions(top):
    """Each function: its file, line, name and the names and types of its parameters."""
    for path in sources(top):
        text = open(path, encoding="utf-8").read()
        for m in re.finditer(r"^[ ]*(?:pub(?:\(crate\))? )?(?:extern \"C\" )?fn (\w+)(?:<[^(]*>)?\(([^{]*?)\)\s*(?:->|requires|ensures|\{)", text, re.M | re.S):
            parts = [p.strip() for p in re.split(r",\s*(?![^<\[(]*[>\])])", m.group(2)) if p.strip()]
            yield name_of(top, path), text.count("\n", 0, m.start()) + 1, m.group(1), parts


def bodies(top):
    """Each function with its body, its own names and white space apart."""
    for path in sources(top):
        text = open(path, encoding="utf-8").read()
        for m in re.finditer(r"^([ ]*)(?:pub(?:\(crate\))? )?fn (\w+)", text, re.M):
            start = re.compile(rf"^{m.group(1)}(?:\)[^{{\n]*|(?:pub(?:\(crate\))? )?fn [^\n]*)?\{{$", re.M).search(text, m.start())
            end = re.compile(rf"^{m.group(1)}\}}$", re.M).search(text, m.start())
            if start and end and start.start() < end.start():
                yield name_of(top, path), text.count("\n", 0, m.start()) + 1, m.group(2), " ".join(text[start.end():end.start()].split())


def same_bodies(top):
    """Functions with one body: most of the twins were found by this."""
    found = {}
    for path, line, name, body in bodies(top):
        found.setdefault(body, []).append((path, line, name))
    return [place for body, places in sorted(found.items()) if len(places) > 1 for place in places]


def numbered_names(top):
    """Functions that a number of theirs tells apart: few, some, more, many; small, large."""
    return [(p, l, n) for p, l, n, _ in functions(top) if re.search(r"^(?:check|write)_(?:few|some|more|many|small|large)$", n)]


def long_lists(top):
    return [(p, l, f"{n}: {len(a)} parameters") for p, l, n, a in functions(top) if len(a) >= 6]


def pairs(top):
    """The index of a book as two parameters, and the principal's and book's tables side by side."""
    found = []
    for p, l, n, a in functions(top):
        types = " ".join(a)
        if re.search(r"(?:table|index): &\[u64\]", types) and re.search(r"\bf: usize|\bn: Counts", types):
            found.append((p, l, f"{n}: index and number of formulas"))
        elif re.search(r"words: &", types) and re.search(r"(?:users|pending|before): &", types):
            found.append((p, l, f"{n}: words and what goes with them"))
        elif re.search(r"heads: &", types) and re.search(r"next: &", types):
            found.append((p, l, f"{n}: heads and next"))
    return found


def lengths(top):
    """A buffer with the length of its part that counts, or the place behind it, beside it."""
    found = []
    for p, l, n, a in functions(top):
        types = ", ".join(a)
        if re.search(r"(?:bytes|just|report|pairs|line|derivation|log|text): &(?:mut )?\[\w+\], (?:\w+: [^,]+, )?(?:n|m|k|count): (?:usize|u16)\b", types):
            found.append((p, l, f"{n}: a buffer and its length"))
        elif re.search(r"(?:out|buffer): &mut \[u8\], at: usize", types):
            found.append((p, l, f"{n}: a buffer and the place behind what is put"))
    return found


POINTS = {name: (lambda pattern: lambda top: by_line(top, pattern))(pattern) for name, pattern in SIMPLE.items()}
POINTS["2a functions with one body"] = same_bodies
POINTS["2b functions that a number tells apart"] = numbered_names
POINTS["5a functions of six parameters or more"] = long_lists
POINTS["5b parameters that travel together"] = pairs
POINTS["6 buffers with a length beside them"] = lengths


def answers(top):
    files = glob.glob(os.path.join(top, "crates/*/proofs/**/Answers.antt"), recursive=True)
    return len(files), sum(sum(1 for _ in open(f, encoding="utf-8")) for f in files)


def main():
    top = sys.argv[1] if len(sys.argv) > 1 else "."
    if len(sys.argv) > 2:
        for name, find in sorted(POINTS.items()):
            if name.startswith(sys.argv[2]):
                for place in find(top):
                    print(*place)
        return
    for name, find in sorted(POINTS.items()):
        print(f"{len(find(top)):5}  {name}")
    count, lines = answers(top)
    print(f"{count:5}  8 files of answers, {lines} lines")


main()
