#!/usr/bin/env python3
"""Writes what a clause reads of a reference as today's Rattle does: `(entry x)` is `x.now` or, at a `&mut`, `x.old`, and `(exit x)` is `x.new`.

Run once, at the top, after respell.py. Where `entry` or `exit` is handed to a definition with the references behind it, `now_of`, `old_of` and `new_of` of
columns' specs/Loans.antt stand for it.
"""

import glob
import re

TOKEN = re.compile(r"[A-Za-z_][\w]*")


def turned(sig, clauses, path):
    muts = set(re.findall(r"\b(\w+)\s*:\s*&\s*(?:'\w+\s+)?mut\b", sig))
    refs = set(re.findall(r"\b(\w+)\s*:\s*&", sig)) - muts
    if re.search(r"&\s*(?:'\w+\s+)?mut self", sig):
        muts.add("self")
    elif re.search(r"&\s*(?:'\w+\s+)?self", sig):
        refs.add("self")

    def one(m):
        x = m[2]
        if x not in muts | refs:
            print(f"look: {path}: {m[0]}")
            return m[0]
        return x + ("." + ("now" if x in refs else "old" if m[1] == "entry" else "new"))

    clauses = re.sub(r"\((entry|exit) (\w+)\)", one, clauses)
    clauses = re.sub(r"(?<=[({ ])(entry|exit) (\w+)(?= [≡×<≤→+]| \}| !)(?<!_)", lambda m: one(m) if not re.search(r"[\w)] $", clauses[: m.start()]) else m[0], clauses)

    def word(m):
        behind = [t for t in TOKEN.findall(clauses[m.end() : m.end() + 400].split("\n")[0]) if t in muts | refs]
        first = behind[:12]
        if not first:
            print(f"look: {path}: {clauses[max(0, m.start() - 40) : m.end() + 40]!r}")
            return m[0]
        kinds = {t in muts for t in first}
        if len(kinds) > 1:
            print(f"look: {path}: both kinds behind {m[0]}: {first}")
        return "now_of" if first[0] in refs else ("old_of" if m[0] == "entry" else "new_of")

    return re.sub(r"(?<![\w.])(entry|exit)(?![\w.])", word, clauses)


def main():
    for path in sorted(glob.glob("crates/*/src/**/*.rt", recursive=True)):
        with open(path, encoding="utf-8") as f:
            text = f.read()
        if "specs.Loans" not in text:
            continue
        new = re.sub(r"(\bfn \w+[^{]*?)(\n    (?:requires|ensures).*?\n)(\{)", lambda m: m[1] + turned(m[1], m[2], path) + m[3], text, flags=re.S)
        body = re.sub(r"ghost use [^;]*;|//[^\n]*", "", new)
        words = [w for w in ("now_of", "old_of", "new_of", "entry", "exit") if re.search(rf"(?<![\w.]){w}(?![\w.(:])", body)]
        line = f"ghost use Rattle.columns.specs.Loans.{{{', '.join(words)}}};\n" if words else ""
        new = re.sub(r"ghost use Rattle\.columns\.specs\.Loans\.\{[^}]*\};\n", line, new)
        with open(path, "w", encoding="utf-8") as f:
            f.write(new)
    with open("crates/columns/specs/Loans.antt", "w", encoding="utf-8") as f:
        f.write(
            """-- What a clause hands to a definition that reads the columns lent to a call. Assumes nothing.
use Rattle.std.specs.Borrow.{Bor, MutBor}
use denote.Triple.Both.{Both}

-- what a `&` refers to, as an `ensures` has the parameter: a clause's `x.now`
abbrev pub now_of : {X : Type 0} → Both (Bor X) (Bor X) → X
now_of x = x.entry.now

-- what a `&mut` refers to as the call begins, and what the call leaves there: a clause's `x.old` and `x.new`
abbrev pub old_of : {X : Type 0} → Both (MutBor X) (MutBor X) → X
old_of x = x.entry.now

abbrev pub new_of : {X : Type 0} → Both (MutBor X) (MutBor X) → X
new_of x = x.exit.now
"""
        )


if __name__ == "__main__":
    main()
