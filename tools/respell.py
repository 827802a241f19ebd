#!/usr/bin/env python3
"""Brings this repository's own definitions and lemmas to the spelling of today's Rattle. Run once, at the top, after port.py.

A name that the crates' specs/ and proofs/ declare is respelled so:
  a definition    in snake case, as `first_place`
  a field         in snake case
  a lemma         in snake case; a dash stays where it joins the names of two definitions, as in `length-collect`
A lemma whose name would be that of another definition or lemma gets `_lem` behind it, and a definition whose name would
be that of a field in a record that names it `_of`: the field would hide it. The rows are printed, old and new.
What Rattle makes (the words behind a dot in the proof of a function, its goals) and what a library declares stays as it is.
Only whole words turn: in specs/ and proofs/, in clauses and `ghost use` items of src/, in the pages' code spans.
"""

import collections
import glob
import re
import sys

WORD = re.compile(r'[^\s(){}.;,@"«»`]+')
DECLARED = re.compile(r'^(\s*)((?:pattern |unfoldable |abbrev |pub |let )*)(?:(record|data) )?([^\s(){}.;,@"«»:`]+)((?: [({][^)}]*[)}])*) : ?(.*)$')
FIELD = re.compile(r"^  (?:pub )?([^\s(){}.;,@\"«»:`]+) :")
# Words of a library that the left side of a lemma may name.
KNOWN = set("length take drop append map set get_or add sub mul div mod pow le lt eq zero suc nil cons eqb ltb leb cond min max get fold filter reverse All".split())
# Names that Rattle makes in the proof of a function.
MADE = re.compile(r"^(returns|loop|while|branch|overflow|bound|call|if\d|post|pre|exit|measure|falls|in-|spec$)")


def snake(name):
    return re.sub(r"(?<=[a-z0-9_])([A-Z])", lambda m: "_" + m[1].lower(), name)


def lemma_files():
    return sorted(glob.glob("crates/*/specs/**/*.antt", recursive=True) + glob.glob("crates/*/proofs/*.antt"))


def function_files():
    return sorted(set(glob.glob("crates/*/proofs/**/*.antt", recursive=True)) - set(lemma_files()))


def declared():
    """The names that are declared: definitions and types, fields, lemmas."""
    plain, fields, lemmas = set(), set(), set()
    for path in lemma_files() + function_files():
        proof = path.endswith("Proof.antt")
        record = False
        for line in open(path, encoding="utf-8"):
            if line.lstrip().startswith("--"):
                continue
            m = DECLARED.match(line.rstrip("\n"))
            field = FIELD.match(line) if record else None
            record = (re.match(r"\s*(pub )?record .* where", line) or (record and line.startswith("  "))) and True
            if field:
                fields.add(field[1])
            elif m and not (proof and "tie." in m[6]):
                name = m[4]
                if proof and MADE.match(name):
                    continue
                lemma = "-" in name or (path.count("/proofs/") and "abbrev" not in m[2] and "unfoldable" not in m[2] and not m[3])
                (lemmas if lemma else plain).add(name)
    return plain, fields, lemmas


def hidden_words():
    """The words that a record names beside a field that would be spelled alike."""
    out = set()
    for path in lemma_files():
        fields, named = set(), set()
        for line in open(path, encoding="utf-8").read().split("\n") + ["."]:
            field = FIELD.match(line)
            if field:
                fields.add(field[1])
                line = line[field.end() :]
            if line.startswith("  ") and (field or fields):
                named.update(m[0] for m in WORD.finditer(line) if line[m.start() - 1] != ".")
            elif line.strip():
                out |= {n for n in named for f in fields if n != f and snake(n) == snake(f).replace("-", "_")}
                fields, named = set(), set()
    return out


def joined(name, known):
    """A lemma's name: a dash stays between two names of definitions."""
    parts = name.split("-")
    out = parts[0]
    last = parts[0]
    for part in parts[1:]:
        keeps = last in known and part in known
        out += ("-" if keeps else "_") + part
        last = part if keeps else last + "_" + part
    return out


def table():
    plain, fields, lemmas = declared()
    special = {"ARRAY-ELEMENT": "array_element_label", "LOADER": "loader_label", "ESCAPED": "escaped_code"}
    rows = {}
    hidden = hidden_words()
    for n in plain:
        if n in special:
            rows[n] = special[n]
        elif not n[0].isupper():
            new = snake(n)
            rows[n] = new + "_of" if n in hidden else new
    for n in special:
        if n in lemmas:
            rows[n] = special[n]
    known = KNOWN | {rows.get(n, n) for n in plain}
    for n in fields:
        if n not in rows and not n[0].isupper():
            rows[n] = snake(n).replace("-", "_")
    taken = collections.Counter(v for n, v in rows.items() if n in plain) + collections.Counter(n for n in plain if n not in rows)
    met = []
    for n in sorted(lemmas):
        if n not in rows and "-" not in n and snake(n) == n:
            if taken[n]:
                met.append((n, n))
                rows[n] = n + "_lem"
            taken[rows.get(n, n)] += 1
    for n in sorted(lemmas):
        if n in rows or n[0] in "⊎≤":
            continue
        new = joined(snake(n).replace("getD", "get_or"), known)
        if new != n:
            if new in taken:
                met.append((n, new))
                new += "_lem"
            taken[new] += 1
            rows[n] = new
    return {o: n for o, n in rows.items() if o != n}, met, fields


def words(text, rows, dotted):
    """Turns whole words; those behind a dot by the rows of dotted alone."""
    def turn(m):
        behind = m.start() > 0 and text[m.start() - 1] == "."
        # a name of a module's list, `M.{a, b}`, stands behind a brace and not behind a dot
        return (dotted if behind else rows).get(m[0], m[0])
    return WORD.sub(turn, text)


def spans(text, rows):
    return re.sub(r"`[^`\n]+`", lambda m: WORD.sub(lambda w: rows.get(w[0], w[0]), m[0]), text)


def comment(text, rows):
    camel = {o: n for o, n in rows.items() if re.search(r"[a-z0-9][A-Z]", o)}
    return re.sub(r"\b[a-z]\w*[A-Z]\w*\b", lambda m: camel.get(m[0], m[0]), spans(text, rows))


def antt(text, rows, dotted):
    lines = []
    for line in text.split("\n"):
        at = re.search(r"(?<![^\s])--(?=\s|$)", line)
        code, rest = (line[: at.start()], line[at.start() :]) if at else (line, "")
        lines.append(words(code, rows, dotted) + comment(rest, rows))
    return "\n".join(lines)


def rattle(text, rows, dotted):
    out, at = [], 0
    start = re.compile(r"//[^\n]*|\bghost use\b[^;]*;|\b(?:requires|ensures|ghost)\b\*?\s*(?:\w+\s*)?(?::\s*)?\{")
    while True:
        m = start.search(text, at)
        if not m:
            out.append(text[at:])
            return "".join(out)
        out.append(text[at : m.start()])
        if m[0].startswith("//"):
            out.append(comment(m[0], rows))
            at = m.end()
        elif m[0].startswith("ghost use"):
            out.append(words(m[0], rows, dotted))
            at = m.end()
        else:
            depth, end = 1, m.end()
            while depth:
                depth += {"{": 1, "}": -1}.get(text[end], 0)
                end += 1
            out.append(m[0] + words(text[m.end() : end], rows, dotted))
            at = end


def main():
    rows, met, fields = table()
    dotted = {n: rows[n] for n in fields if n in rows}
    pages = dict(rows)
    names = set().union(*declared())
    for path in lemma_files() + function_files():
        with open(path, encoding="utf-8") as f:
            old = f.read()
        # in the proof of a function a word behind a dot is mostly one that Rattle makes
        new = antt(old, rows, dotted if path in set(lemma_files()) else {n: v for n, v in dotted.items() if "-" in n})
        if new != old:
            open(path, "w", encoding="utf-8").write(new)
    for path in sorted(glob.glob("crates/*/src/**/*.rt", recursive=True)):
        with open(path, encoding="utf-8") as f:
            old = f.read()
        new = rattle(old, rows, dotted)
        if new != old:
            open(path, "w", encoding="utf-8").write(new)
    for path in ["README.md"] + sorted(glob.glob("docs/*.md")):
        with open(path, encoding="utf-8") as f:
            old = f.read()
        new = spans(old, pages)
        # a name that port.py turned: the page still has the dash
        def late(m):
            w = m[0]
            return w.replace("-", "_") if "-" in w and w not in rows and w not in names and w.replace("-", "_") in names else w
        new = re.sub(r"`[^`\n]+`", lambda m: WORD.sub(late, m[0]), new)
        if new != old:
            open(path, "w", encoding="utf-8").write(new)
    for old in sorted(rows):
        print(f"{old}\t{rows[old]}")
    for old, new in met:
        print(f"# met another name: {old} would be {new}", file=sys.stderr)


if __name__ == "__main__":
    main()
