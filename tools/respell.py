#!/usr/bin/env python3
"""Brings the repository's own definitions and lemmas to today's spelling: snake case, for camelCase and for words joined by dashes.

usage: respell.py            at the top of the repository, once, after the toolchain's own script has turned it

What is turned: each name that a file of specs/ or proofs/ declares, wherever it stands in the .antt files, in the clauses and comments of
src/, in the edits and in the backquoted words of the pages. What is left: names of the toolchain's library, names that the check makes, functions
of src/, strings, inputs and outputs. Where a lemma would fall together with a definition, the lemma gets `_lem`; what falls together otherwise
is printed, and nothing is written.
"""
import collections
import glob
import os
import re
import sys

W = r"[^\s(){}.;,@\"«»\[\]\\:]+"
TOKEN = re.compile(r"--[^\n]*|//[^\n]*|\"(?:[^\"\\]|\\.)*\"|[^\s(){}.;,@\"«»\[\]\\]+")
WORDS = re.compile(r"[^\s(){}.;,@\"«»\[\]\\`':?!]+")
DECLARED = re.compile(r"^(\s*)((?:(?:abbrev|unfoldable|opaque|pub|private|record|field|constructor)\s+)*)((?:" + W + r"\s+)*?" + W + r")\s*:(?![=:])")
MADE = re.compile(r"\btie\.|→ statement ")
GLYPHS = set("λ→∀×≡≤<+-*/")


def texts(kind):
    for folder in ("specs", "proofs"):
        for p in sorted(glob.glob(f"crates/*/{folder}/**/*.antt", recursive=True)):
            yield p


def crates():
    return {n for n in os.listdir("crates") if os.path.isdir(os.path.join("crates", n, "src"))}


def turns(name):
    """A name of several words: parts joined by dashes, or camelCase that begins with a small letter."""
    if not re.fullmatch(r"[\w'₀-₉-]+", name) or name.startswith("-") or name.endswith("-") or "--" in name:
        return False
    return "-" in name or re.match(r"[a-z][a-z0-9_]*[A-Z]", name) is not None


def snake(name):
    parts = []
    for part in name.split("-"):
        if re.match(r"[a-z]", part):
            part = re.sub(r"(?<=[a-z0-9'])([A-Z])(?![A-Z]|$)", lambda m: "_" + m.group(1).lower(), part)
        parts.append(part)
    return "_".join(parts)


def main():
    own = crates()
    library, declared, defined = set(), collections.Counter(), set()
    use = re.compile(r"^\s*(?:pub )?(?:ghost )?use ([\w.·+-]+?)(?:\.\{([^}]*)\})?(?: as .*)?;?$")
    rts = sorted(glob.glob("crates/*/src/*.rt"))
    present = set()
    for p in list(texts("")) + rts:
        with open(p, encoding="utf-8") as f:
            for line in f:
                m = use.match(line.rstrip())
                if m and m.group(2) is not None:
                    top = m.group(1).split(".")
                    if not (top[0] == "Rattle" and len(top) > 1 and top[1] in own):
                        library |= {n.strip().split(" as ")[0] for n in m.group(2).split(",")}
                if p.endswith(".rt"):
                    present |= set(re.findall(r"(\w+): [&\w\[]", line)) if "fn " in line else set()
                elif not line.strip().startswith(("--", "use ", "pub use ")):
                    # a name below another one, as in `c.f`, is that of a field
                    present |= set(re.findall(r"(?<![\w.'·◌-])[a-z][\w']*_[\w']*(?![\w'-])", re.sub(r'"[^"]*"', "", line)))
    for p in texts(""):
        spec = "/specs/" in p
        with open(p, encoding="utf-8") as f:
            for line in f:
                bare = line.strip()
                if bare.startswith(("--", "use ", "pub use ", "λ", "(", "→")):
                    continue
                m = DECLARED.match(line)
                if not m or MADE.search(line):
                    continue
                for n in m.group(3).split():
                    if turns(n):
                        declared[n] += 1
                        if spec and not m.group(1):
                            defined.add(n)
    # names bound in a telescope, as a parameter or a premise
    for p in texts(""):
        with open(p, encoding="utf-8") as f:
            for line in f:
                if line.strip().startswith("--"):
                    continue
                for group in re.findall(r"[({]([^(){}:=]+) : ", line):
                    for n in group.split():
                        if turns(n):
                            declared[n] += 1
                for group in re.findall(r"λ ([^.()]+)\. ", line):
                    for n in group.split():
                        if turns(n):
                            declared[n] += 1
                for n in re.findall(r"\blet ([^\s:=()]+) [:=]", line):
                    if turns(n):
                        declared[n] += 1
    clash = sorted(n for n in declared if n in library)
    for n in clash:
        print("also a name of the library, left:", n)
    to = {}
    for n in declared:
        if n not in library:
            to[n] = snake(n)
    back = collections.defaultdict(list)
    for n, s in to.items():
        back[s].append(n)
    bad, kept = 0, {}
    for s, names in sorted(back.items()):
        others = list(names)
        if s in present and s not in names:
            others.append(s)
        if len(others) < 2:
            continue
        camel = [n for n in others if "-" not in n]
        dashed = [n for n in others if "-" in n]
        if len(others) == 2 and len(names) == 1 and camel == others:
            # a lemma that the toolchain's script brought to the spelling of this definition
            kept[s] = {"record_of": "its_record"}.get(s, s + "_lem")
            continue
        if len(camel) <= 1 and len(dashed) == 1:
            to[dashed[0]] = s + "_lem"
            if s + "_lem" in present or s + "_lem" in back:
                print("falls together even so:", s, others)
                bad += 1
            continue
        print("falls together:", s, others)
        bad += 1
    if "--list" in sys.argv:
        for n in sorted(to):
            print(n, to[n])
    if bad:
        return 1
    to["getD_inside"], to["getD_map_in"] = "get_or_inside", "get_or_map_in"
    # what the toolchain's script turned already and the edits and pages still have in the old spelling
    spelled = set(to.values()) | present | library

    def late(t):
        return to.get(t, snake(t) if turns(t) and t not in library and snake(t) in spelled else t)

    def code(text, rust=False):
        def one(m):
            t = m.group(0)
            if t.startswith(("--", "//")):
                return words(t)
            if t.startswith('"'):
                return t
            if t in kept and m.string[m.start() - 1 : m.start()] != "." and not rust:
                return kept[t]
            return to.get(t, t)

        return TOKEN.sub(one, text)

    def edit(text):
        text = re.sub(r"Rattle·(\w+)·(specs|proofs)\.\2\.", r"Rattle.\1.\2.", text).replace("′", "'")
        text = re.sub(r"(?<![\w◌])_(\+\+|&&|\|\||[+*/%∷≡<≤-])_(?![\w◌])", r"◌\1◌", text)
        return TOKEN.sub(lambda m: m.group(0) if m.group(0).startswith('"') else late(m.group(0)), text)

    def words(text):
        return WORDS.sub(lambda m: to[m.group(0)] if m.group(0) in to and comment(m.group(0)) else m.group(0), text)

    # in plain words a dash joins English words too: there only camelCase and the names with three parts or more are surely names
    def comment(n):
        return "-" not in n

    changed = 0
    for p in list(texts("")) + rts:
        with open(p, encoding="utf-8") as f:
            old = f.read()
        new = code(old, p.endswith(".rt"))
        if new != old:
            changed += 1
            with open(p, "w", encoding="utf-8") as f:
                f.write(new)
    for p in sorted(glob.glob("crates/*/must-fail/*.edit")):
        with open(p, encoding="utf-8") as f:
            old = f.read()
        new = "\n".join((l.split(":", 1)[0] + ":" + edit(l.split(":", 1)[1])) if l.startswith(("old:", "new:")) else l for l in old.split("\n"))
        if new != old:
            changed += 1
            with open(p, "w", encoding="utf-8") as f:
                f.write(new)
    for p in ["README.md"] + sorted(glob.glob("docs/**/*.md", recursive=True)):
        if os.path.basename(p) == "PORT.md":
            continue
        with open(p, encoding="utf-8") as f:
            old = f.read()
        new = re.sub(r"`([^`\n]+)`", lambda m: "`" + TOKEN.sub(lambda t: late(t.group(0)), m.group(1)) + "`", old)
        if new != old:
            changed += 1
            with open(p, "w", encoding="utf-8") as f:
                f.write(new)
    print("respell:", len(to), "names in", changed, "files")
    return 0


if __name__ == "__main__":
    raise SystemExit(main())
