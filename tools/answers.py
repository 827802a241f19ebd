#!/usr/bin/env python3
"""Turns the proofs of functions from the older form, a Proof.antt that calls `tie.spec`, to Invariants.antt and Answers.antt.

usage: python3 tools/answers.py NAMES CRATE..

NAMES is the names.json of `rt check --generated DIR --old-names` in the crate. What it can't turn it says on a line that begins 'look:'.
"""

import json
import os
import re
import sys

W = r"[^\s(){}.;,@\"«»\[\]]+"
PATH = re.compile(rf"(?<![\w.\-'₀-₉])({W})((?:\.{W})+)")


def norm(name):
    return name.replace("_", "-")


def split_decls(text):
    """The `use` lines, and the declarations: (comment lines, name, signature, mark, unfolding lines, clause lines)."""
    head, uses, decls, notes = [], [], [], []
    lines = text.split("\n")
    i = 0
    while i < len(lines):
        line = lines[i]
        if line.startswith("use "):
            use = line
            while use.count("{") > use.count("}"):
                i += 1
                use += " " + lines[i].strip()
            uses.append(use)
        elif line.startswith("--"):
            (head if not uses and not decls else notes).append(line)
        elif line.strip():
            block = [line]
            while i + 1 < len(lines) and (not lines[i + 1].strip() or lines[i + 1][0] in " \t" or lines[i + 1].startswith(")") or lines[i + 1].startswith("}") or lines[i + 1].startswith("unfolding ") or (block and same_name(block, lines[i + 1]))):
                i += 1
                block.append(lines[i])
            while block and not block[-1].strip():
                block.pop()
            decls.append(decl(notes, block))
            notes = []
        i += 1
    return head, uses, decls


def name_of(line):
    m = re.match(rf"((?:abbrev |pub |unfoldable )*)({W})(?: \{{[^}}]*\}})? :(?=\s|$)", line)
    return m


def same_name(block, line):
    m = name_of(block[0])
    return m and re.match(re.escape(m[2]) + r"(?=\s|$)", line) and not name_of(line)


def decl(notes, block):
    m = name_of(block[0])
    if not m:
        return {"notes": notes, "name": None, "text": block}
    sig, unfolding, clauses = [block[0][m.end() :].strip()], [], []
    for line in block[1:]:
        if line.startswith("unfolding "):
            unfolding.append(line)
        elif same_name(block, line) or clauses:
            clauses.append(line)
        else:
            sig.append(line.strip())
    return {"notes": notes, "name": m[2], "mark": m[1], "sig": " ".join(sig), "unfolding": unfolding, "clauses": clauses, "text": block}


def args_of(text):
    """The arguments of an application, in its order."""
    out, i = [], 0
    while i < len(text):
        if text[i].isspace():
            i += 1
            continue
        if text[i] in "({":
            depth, j = 0, i
            while True:
                depth += {"(": 1, "{": 1, ")": -1, "}": -1}.get(text[j], 0)
                j += 1
                if not depth:
                    break
            while j < len(text) and not text[j].isspace() and text[j] not in "()":
                j += 1
        else:
            j = i
            while j < len(text) and not text[j].isspace() and text[j] not in "()":
                j += 1
        out.append(text[i:j])
        i = j
    return out


def items_of(text):
    """What commas part, outside of brackets."""
    out, depth, last = [], 0, 0
    for k, ch in enumerate(text):
        depth += {"(": 1, "{": 1, "[": 1, ")": -1, "}": -1, "]": -1}.get(ch, 0)
        if ch == "," and not depth:
            out.append(text[last:k].strip())
            last = k + 1
    if text[last:].strip():
        out.append(text[last:].strip())
    return out


class Turn:
    def __init__(self, crate, folder, path, names, labels):
        self.crate, self.folder, self.path, self.names, self.labels = crate, folder, path, names, labels
        self.said = []
        self.steps, self.callee, self.arms = {}, {}, {}
        for place in names["places"]:
            old, new = place[2]
            if old:
                self.steps[norm(old)] = new
                self.callee[norm(old)] = place[3]
        for arm in names["arms"]:
            for field, step, path_ in arm[2] if arm else []:
                if step and path_:
                    self.arms[(norm(step), tuple(path_))] = (arm[0], field)
        self.params = params_of(crate, path)
        self.needs = {norm(o): n for o, n in names["needs"]}

    def say(self, text):
        self.said.append(f"look: {self.folder}: {text}")

    def run(self):
        file = os.path.join(self.folder, "Proof.antt")
        with open(file, encoding="utf-8") as f:
            text = f.read()
        self.head, self.uses, decls = split_decls(text)
        last = decls[-1]
        self.unfolding = last.get("unfolding", [])
        body = " ".join(line.strip() for line in last["clauses"] or last["text"])
        m = re.search(r"tie\.spec\b", body)
        if not m:
            self.say("no tie.spec in the last declaration")
            return False
        rest = body[m.end() :]
        depth, end = 0, len(rest)
        for k, ch in enumerate(rest):
            depth += {"(": 1, ")": -1}.get(ch, 0)
            if depth < 0:
                end = k
                break
        args = args_of(rest[:end])
        self.decls = {d["name"]: d for d in decls[:-1] if d["name"]}
        self.order = [d["name"] for d in decls[:-1] if d["name"]]
        for d in decls[:-1]:
            if not d["name"]:
                self.say("not read: " + d["text"][0][:80])
        answers, used = {}, set()
        loops = [pair for pair, _ in self.names["loops"]]
        given = []
        for a in args:
            d = self.decls.get(a)
            if d and re.match(r"tie\.(invariant|decreases)-", d["sig"]):
                used.add(a)
                continue
            given.append(a)
        needs = self.names["needs"]
        by_place = len(given) == len(needs)
        if not by_place:
            self.say(f"{len(given)} answers for {len(needs)} goals")
        for k, a in enumerate(given):
            d = self.decls.get(a)
            goal = needs[k][1] if by_place else None
            if d:
                m = re.match(rf"tie\.Need-({W})", d["sig"])
                if m:
                    old = norm(m[1])
                    old = re.sub(r"^overflow-", "", old)
                    by_name = self.needs.get(old)
                    if by_name and not (by_place and norm(needs[k][0]) == old):
                        goal = by_name
                    elif not by_place and not by_name:
                        used.add(a)
                        if not old.startswith("same-length"):
                            self.say(f"no goal for {a} : {m[1]}")
                        continue
                used.add(a)
                answers[goal] = ("decl", d)
            elif goal is None:
                if not re.fullmatch(r"\(λ c( κs)?\. (search rules|tt)\)", a):
                    self.say(f"no goal for {a[:100]}")
            elif not re.fullmatch(r"\(λ c( κs)?\. (search rules|tt)\)", a):
                answers[goal] = ("term", a)
        self.helpers = {n: d for n, d in self.decls.items() if n not in used}
        self.kinds = {}
        for n, d in self.helpers.items():
            m = re.match(r"((?:(?:tie\.[^→()]+|\(\w+ : tie\.[^→()]+\)(?= \{|)) *(?:→|(?=\{)) *)+)(.*)$", d["sig"])
            if m and "tie." in d["sig"]:
                count = m[1].count("tie.")
                named = re.search(r"\((\w+) : tie", m[1])
                clause = self.clause(d)
                if clause is None:
                    self.kinds[n] = ("bad",)
                    self.say(f"helper {n} has more than one clause")
                    continue
                params, term = clause
                self.kinds[n] = ("tie", count, params, term, m[2], named and named[1])
            elif "tie." in " ".join(d["text"]):
                self.kinds[n] = ("bad",)
                self.say(f"helper {n} names tie")
            else:
                self.kinds[n] = ("plain",)
        # helpers that only go back: they are `c`
        for n, k in self.kinds.items():
            if k[0] == "tie" and k[1] == 1 and re.fullmatch(r"tie\..*", k[4]):
                self.kinds[n] = ("back",)
        inv = self.invariants(loops)
        ans = self.answers(answers)
        self.write(inv, ans)
        return True

    def clause(self, d):
        text = "\n".join(d["clauses"])
        m = re.match(rf"{re.escape(d['name'])}((?:\s[^=]*?)?)\s=(?=\s)", text)
        if not m:
            return None
        rest = text[m.end() :]
        if re.search(rf"(?m)^{re.escape(d['name'])} ", rest):
            return None
        return args_of(m[1]), rest.strip("\n")

    def invariants(self, loops):
        out = []
        for name, d in self.decls.items():
            m = re.match(r"tie\.(invariant|decreases)-(\S+)", d["sig"])
            if not m:
                continue
            at = [k for k, pair in enumerate(loops) if norm(pair[0]) == norm(m[2])]
            if not at:
                self.say(f"no loop {m[2]}")
                continue
            k = at[0]
            variables, changed = self.names["loops"][k][1], self.names["changed"][k]
            clause = self.clause(d)
            if clause is None:
                self.say(f"{name}: more than one clause")
                continue
            params, term = clause
            moved = [v for v, c in zip(variables, changed) if c]
            if len(params) != len(variables) + len(moved):
                self.say(f"{name}: {len(params)} parameters for {variables} {moved}")
            table = {}
            for p, v, c in zip(params, variables, changed):
                table[p] = f"l.initial.{v}" if c else f"l.{v}"
            for p, v in zip(params[len(variables) :], moved):
                table[p] = f"l.{v}"
            term = re.sub(rf"(?<![\w.\-'₀-₉]){W}", lambda w: table.get(w[0], w[0]), term)
            new = f"{m[1]}-{loops[k][1]}"
            out.append((d["notes"], new, d["unfolding"], term))
        return out

    def term(self, text, var):
        """A term of an answer: `before` goes, steps get their names, what only goes back is `c`."""
        back = {var}
        text = re.sub(rf"(?<![\w.\-'₀-₉]){re.escape(var)}(?=\.)", "c", text) if var != "c" else text
        backs = [n for n, k in self.kinds.items() if k[0] == "back"]
        ties = [n for n, k in self.kinds.items() if k[0] == "tie"]
        changed = True
        aliases = {"c"} | ({var} if var else set())
        for _ in range(60):
            before = text
            text = PATH.sub(lambda m: self.dotted(m, aliases), text)
            for a in sorted(aliases - {"c"}, key=len, reverse=True):
                text = re.sub(rf"(?<![\w.\-'₀-₉]){re.escape(a)}(?![\w\-'₀-₉])", "c", text)
            for n in backs:
                text = re.sub(rf"\(\s*{re.escape(n)}\s+c\s*\)", "c", text)
                text = re.sub(rf"(?<![\w.\-'₀-₉]){re.escape(n)}\s+c(?![\w\-'₀-₉.])", "c", text)
            m = re.search(rf"let ({W})(?: : [^=]*?)? =\s+c\s+in(?=\s)\s*", text)
            if m:
                aliases.add(m[1])
                text = text[: m.start()] + text[m.end() :]
            if text == before:
                break
        text = re.sub(r"\(\s*c\s*\)", "c", text)
        for n in ties:
            c = r"(?:\s+c(?![\w\-'₀-₉.]))" * self.kinds[n][1]
            text = re.sub(rf"\(\s*{re.escape(n)}{c}\s*\)", n, text)
            text = re.sub(rf"(?<![\w.\-'₀-₉]){re.escape(n)}{c}", n, text)
        return text

    def inlined(self, text):
        """A helper with implicit arguments, which no `let` can have, is written out where it stands."""
        for n, k in self.kinds.items():
            if k[0] != "tie" or not k[4].lstrip().startswith("{") or len(k[2]) != k[1] + 1:
                continue
            body = self.term(k[3], k[2][0])
            while True:
                m = re.search(rf"(?<![\w.\-'₀-₉]){re.escape(n)}\s+(?=[(\w])", text)
                if not m:
                    break
                arg = args_of(text[m.end() :])[0] if text[m.end()] != "(" else None
                if arg is None:
                    depth = 0
                    for j in range(m.end(), len(text)):
                        depth += {"(": 1, ")": -1}.get(text[j], 0)
                        if not depth:
                            break
                    arg = text[m.end() : j + 1]
                arg_end = m.end() + len(arg)
                put = re.sub(rf"(?<![\w.\-'₀-₉]){re.escape(k[2][1])}(?![\w\-'₀-₉])", lambda _: arg, body)
                text = text[: m.start()] + "(" + put.strip() + ")" + text[arg_end:]
        return text

    def dotted(self, m, aliases):
        if m[1] not in aliases and m[1] != "c":
            return m[1] + "".join("." + (p.replace("-", "_") if p.replace("-", "_") in self.params else p) for p in m[2].split(".")[1:])
        parts = [p for p in m[2].split(".")[1:] if p != "before"]
        if not parts:
            return "c"
        if parts[0] == "pre":
            return "c." + ".".join(self.pre(parts[1:]))
        head = parts[0] = {"good": "well_formed", "well-formed": "well_formed"}.get(parts[0], parts[0])
        if head == "fits" and "fits" not in self.steps and len(parts) == 2:
            return f"c.ranges.{parts[1].replace('-', '_')}.fits"
        if norm(head) not in self.steps and head.endswith("_lem") and norm(head[:-4]) in self.steps:
            parts[0] = head = head[:-4]
        numbered = re.fullmatch(r"(.*?)-?\d+", head)
        if norm(head) not in self.steps and numbered and norm(numbered[1]) in self.steps and not any(key[0] == norm(head) for key in self.arms):
            parts[0] = head = numbered[1]
        for k in range(len(parts), 0, -1):
            arm = self.arms.get((norm(head), tuple(parts[1:k])))
            if arm:
                return ".".join(["c", "\x01" + arm[0], arm[1], *parts[k:]])
        if head == "requires" and len(self.labels) > 1 and parts[1:] and parts[1].isdigit():
            return "c." + ".".join(self.clause_at("requires", self.labels, parts[1:]))
        if head in ("args", "ranges"):
            parts[1:] = [p.replace("-", "_") for p in parts[1:]]
        elif norm(head) in self.steps:
            callee = self.callee.get(norm(head))
            if parts[1:2] == ["kept"] and parts[2:] and parts[2].isdigit():
                parts[1] = "auto"
            if parts[1:2] == ["last"] and parts[2:] and parts[2].isdigit():
                parts[1] = "new"
            parts[0] = "\x01" + self.steps[norm(head)]  # so that a second pass knows it
            if parts[1:2] in (["auto"], ["new"]) and parts[2:] and parts[2].isdigit() and callee in self.names["params"]:
                ones = 0
                while ones + 2 < len(parts) and parts[ones + 2] == "1":
                    ones += 1
                params = self.names["params"][callee]
                if ones < len(params):
                    parts[2:] = [params[ones]] + parts[3 + ones :]
            if parts[1:2] == ["ensures"] and parts[2:] and parts[2].isdigit() and callee:
                labels = labels_of(callee.split("::")[0], callee.replace("::", ".").partition(".")[2], "ensures")
                if len(labels) > 1:
                    parts[1:] = self.clause_at("ensures", labels, parts[2:])
            parts[1:] = ["false" if p == "left" else p if p in ("true", "false", "ensures", "invariant", "result") else p.replace("-", "_") for p in parts[1:]]
            if parts[1:3] == ["given", "1"]:
                parts[1:3] = ["is"]
        return "c." + ".".join(parts)

    def clause_at(self, word, labels, parts):
        """A clause by its place: of two, `.0` and `.1`; of more, as they are nested or in a row."""
        n = len(labels)
        if parts[0] == "1" and n > 2:
            ones = 0
            while ones < len(parts) and parts[ones] == "1" and ones < n - 1:
                ones += 1
            rest = parts[ones:]
            if ones < n - 1 and rest[:1] == ["0"]:
                rest = rest[1:]
            return [word, labels[ones], *rest]
        return [word, labels[int(parts[0])], *parts[1:]]

    def record(self, term, labels):
        """A tuple that answers several clauses, as a record of them."""
        text = term.rstrip()
        if len(labels) < 2 or not text.endswith(")"):
            return term
        depth, at = 0, None
        for k in range(len(text) - 1, -1, -1):
            depth += {")": 1, "(": -1}.get(text[k], 0)
            if not depth:
                at = k
                break
        before = text[:at].rstrip()
        if before and not re.search(r"(?<![\w.-])in$", before):
            return term
        items = items_of(text[at + 1 : -1])
        while len(items) == 2 and len(labels) > 2 and items[-1].startswith("(") and items[-1].endswith(")") and len(items) < len(labels):
            break
        flat = items
        while len(flat) < len(labels) and flat[-1].startswith("(") and flat[-1].endswith(")"):
            inner = items_of(flat[-1][1:-1])
            if len(inner) < 2:
                break
            flat = flat[:-1] + inner
        if len(flat) != len(labels):
            return term
        return (before + " " if before else "") + "record { " + "; ".join(f"{a} = {b}" for a, b in zip(labels, flat)) + " }"

    def pre(self, parts):
        ones = 0
        for p in parts:
            if p != "1":
                break
            ones += 1
        rest = parts[ones:]
        n = len(self.labels)
        if n <= 1:
            return ["requires"] + rest
        if rest[:1] == ["0"] and ones < n - 1:
            rest = rest[1:]
        if ones < n:
            return ["requires", self.labels[ones]] + rest
        return ["requires"] + parts

    def uses_of(self, text):
        return [n for n in self.order if n in self.helpers and re.search(rf"(?<![\w.\-'₀-₉]){re.escape(n)}(?![\w\-'₀-₉])", text)]

    def lets(self, text):
        """The helpers of a term that name a step, as `let`s in front of it."""
        need, seen = [], set()

        def add(t):
            for n in self.uses_of(t):
                if n in seen or self.kinds[n][0] != "tie":
                    continue
                seen.add(n)
                count, params, term, kind, named = self.kinds[n][1:]
                if named:
                    kind = self.term(kind, named)
                    add(kind)
                body = self.term(term, params[0])
                for p in params[1:count]:
                    body = re.sub(rf"(?<![\w.\-'₀-₉]){re.escape(p)}(?![\w\-'₀-₉])", "c", body)
                    body = self.term(body, "c")
                add(body)
                if len(params) > count:
                    body = "λ " + " ".join(params[count:]) + ". " + body
                need.append(f"    let {n} : {kind} =\n        {body.strip()} in\n")
                self.unfolded.update(x for line in self.helpers[n]["unfolding"] for x in line.split()[1:])

        add(text)
        return "".join(need)

    def answers(self, answers):
        out = []
        for old, goal in self.names["needs"]:
            if goal not in answers or norm(old).startswith("same-length"):
                continue
            kind, it = answers[goal]
            self.unfolded = set()
            if kind == "decl":
                clause = self.clause(it)
                if clause is None:
                    out.append((it["notes"], goal, it["unfolding"], "\n".join(it["clauses"]).replace(it["name"] + " ", goal + " "), True))
                    self.say(f"{goal}: more than one clause")
                    continue
                params, term = clause
                unfolding, notes = it["unfolding"], it["notes"]
            else:
                m = re.fullmatch(r"\(λ ([^.]*)\. (.*)\)", it, re.S)
                if not m:
                    out.append(([], goal, [], f"{goal} = {it}", True))
                    self.say(f"{goal}: {it[:60]}")
                    continue
                params, term, unfolding, notes = m[1].split(), m[2], self.unfolding, []
            var = params[0] if params else "c"
            if not params:
                out.append((notes, goal, unfolding, f"{goal} = {term}", True))
                self.say(f"{goal}: no parameter")
                continue
            term = self.inlined(self.term(term, var))
            lets = self.lets(term).replace("\x01", "")
            term = self.record(term.replace("\x01", ""), self.asked(goal, old))
            if self.unfolded:
                mine = [x for line in unfolding for x in line.split()[1:]]
                unfolding = ["unfolding " + " ".join(mine + sorted(self.unfolded - set(mine)))]
            for p in re.findall(rf"let ({W}) = c\.requires in", term) if len(self.labels) > 1 else []:
                term = re.sub(rf"(?<![\w.\-'₀-₉]){re.escape(p)}\.([01][.01]*\d?(?:\.\d)*)(?=[^\w]|$)", lambda m: p + "." + ".".join(self.clause_at("requires", self.labels, m[1].strip(".").split("."))[1:]), term)
            # a test of `!x` says what x is
            term = re.sub(r"\bnot-(?:true|false) _ (c\.if-not-[\w-]+\.(?:true|false))", r"\1", term)
            extra = [q for q in params[1:] if q != "κs"]
            if extra:
                term = "λ " + " ".join(extra) + ". " + term.strip()
            if lets:
                term = "\n" + lets + "    " + term.strip()
            out.append((notes, goal, unfolding, term, False))
        return out

    def asked(self, goal, old):
        """The clauses that a goal covers."""
        if goal.startswith("returns"):
            return labels_of(self.crate, self.path, "ensures")
        m = re.match(r"(.*)-requires(-\d+)?$", norm(old))
        if m:
            for callee in set(self.callee.values()) - {None}:
                if norm(callee.split("::")[-1]) == m[1]:
                    return labels_of(callee.split("::")[0], callee.replace("::", ".").partition(".")[2])
        return []

    def write(self, inv, ans):
        os.remove(os.path.join(self.folder, "Proof.antt"))
        module = f"Rattle.{self.crate}.proofs.{self.path}"
        if inv:
            text = []
            for notes, name, unfolding, term in inv:
                text += notes + [f"abbrev pub {name} : goal.{name}"] + unfolding + [f"{name} l =" + (" " + term.strip() if "\n" not in term.strip() else "\n    " + term.strip())] + [""]
            self.file("Invariants.antt", text, f"use {module}.Given as goal", plain=True)
        if ans:
            text = []
            for notes, name, unfolding, term, whole in ans:
                text += notes + [f"pub {name} : goal.{name}"] + unfolding
                text += [term] if whole else [f"{name} c =" + (" " + term.strip() if not term.startswith("\n") else "\n" + term.strip("\n"))]
                text.append("")
            self.file("Answers.antt", text, f"use {module}.Goals as goal", plain=True)

    def file(self, name, text, goal, plain):
        body = "\n".join(text)
        # the helpers that name no step
        got, more = [], True
        while more:
            more = False
            for n in self.uses_of(body + "\n".join("\n".join(self.helpers[g]["text"]) for g in got)):
                if self.kinds[n][0] == "plain" and n not in got:
                    got.append(n)
                    more = True
        helped = []
        for n in self.order:
            if n in got:
                helped += self.helpers[n]["notes"] + self.helpers[n]["text"] + [""]
        body = "\n".join(helped) + ("\n" if helped else "") + body
        uses = []
        for use in self.uses:
            if use.endswith(".Tie as tie") or ".Statement.{statement}" in use:
                continue
            m = re.match(r"use ([^{]*)\.\{(.*)\}$", use)
            if not m:
                uses.append(use)
                continue
            kept = [it for it in re.split(r",\s*", m[2].strip().strip(",")) if self.used(it, body)]
            if kept:
                uses.append(f"use {m[1]}.{{{', '.join(kept)}}}")
        with open(os.path.join(self.folder, name), "w", encoding="utf-8") as f:
            f.write("\n".join(self.head + uses + [goal, ""]) + "\n" + body.rstrip("\n") + "\n")

    def used(self, it, body):
        word = it.split(" as ")[-1]
        word = word.split(".")[-1] if "." in word else word
        if "◌" in word:
            parts = [p for p in word.split("◌") if p]
            return all(p in body for p in parts)
        return re.search(rf"(?<![\w\-'₀-₉]){re.escape(word)}(?![\w\-'₀-₉])", body)


def params_of(crate, path):
    """The names of a function's parameters."""
    out = set()
    for folder, _, files in os.walk(f"crates/{crate}/src"):
        for f in files:
            with open(os.path.join(folder, f), encoding="utf-8") as it:
                m = re.search(rf"\bfn {re.escape(path.split('.')[-1])}\b(.*?)\n?\{{", it.read(), re.S)
            out |= set(re.findall(r"\b(\w+)\s*:", m[1])) if m else set()
    return out


def labels_of(crate, path, word="requires"):
    """The names of a function's clauses of a kind, in order."""
    name = path.split(".")[-1].lstrip("+")
    best = []
    for folder, _, files in os.walk(f"crates/{crate}/src"):
        for f in files:
            with open(os.path.join(folder, f), encoding="utf-8") as it:
                text = it.read()
            m = re.search(rf"\bfn {re.escape(name)}\b(.*?)\n\{{", text, re.S)
            where = os.path.splitext(f)[0]
            if m:
                labels = re.findall(rf"\n\s+{word}\*?\s+(\w+)\s*\{{", m[1])
                unnamed = len(re.findall(rf"\n\s+{word}\*?\s*\{{", m[1]))
                found = labels or [""] * unnamed
                if where in path.split(".") or not best:
                    best = found
    return best


def main():
    with open(sys.argv[1], encoding="utf-8") as f:
        names = json.load(f)
    for crate in sys.argv[2:]:
        for folder, _, files in sorted(os.walk(f"crates/{crate}/proofs")):
            if "Proof.antt" not in files:
                continue
            path = os.path.relpath(folder, f"crates/{crate}/proofs").replace("/", ".")
            key = f"Rattle-{crate}-proofs.{path}.Lts"
            with open(os.path.join(folder, "Proof.antt"), encoding="utf-8") as f:
                if "tie.spec" not in f.read():
                    print(f"look: {folder}: by hand")
                    continue
            if key not in names:
                print(f"look: {folder}: not in the names")
                continue
            it = Turn(crate, folder, path, names[key], labels_of(crate, path))
            it.run()
            print("\n".join(it.said), end="\n" if it.said else "")


if __name__ == "__main__":
    main()
