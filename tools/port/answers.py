#!/usr/bin/env python3
"""Turns the proof files of functions, Proof.antt of the older Rattle, into Invariants.antt and Answers.antt.

usage: tools/port/answers.py NAMES CRATE [FUNCTION ..]      at the top; NAMES is the folder that 'rt names' wrote

A proof file that walks the code by hand stays as it is. An answer that was the plain search goes: the checker finds it alone.
What it cannot turn it leaves as it reads, and says so.
"""
import json
import os
import re
import sys

PATH = re.compile(r"(?<![\w.'-])([A-Za-z][A-Za-z0-9_']*)((?:\.[A-Za-z0-9_'-]+)+)")


def plain(name):
    name = name.replace("_", "-").lower()
    return re.sub(r"-lem$", "", name)


def index_of(tokens):
    """The place that a path of pairs, .1.1.0, leads to, and how many steps it has."""
    k = 0
    while k < len(tokens) and tokens[k] == "1":
        k += 1
    if k < len(tokens) and tokens[k] == "0":
        return k, k + 1
    return None, 0


def clause_of(tokens, n):
    """Which of n clauses, joined in pairs to the right, a path leads to, and how many steps it has."""
    k = 0
    while k < n - 1 and k < len(tokens) and tokens[k] == "1":
        k += 1
    if k == n - 1 and n > 1:
        return k, k
    if n > 1 and k < len(tokens) and tokens[k] == "0":
        return k, k + 1
    return None, 0


def requires_of(root, crate, function):
    """The names of the requires clauses of a function of ours, in order."""
    parts = function.split(".")
    base = os.path.join(root, "crates", crate, "src")
    files = [os.path.join(base, f) for f in ("lib.rt", "main.rt")] if len(parts) == 1 else [os.path.join(base, *parts[:-1]) + ".rt"]
    for f in files:
        if os.path.isfile(f):
            t = open(f).read()
            m = re.search(rf"\bfn {parts[-1]}\b", t)
            if m:
                head = t[m.start() :]
                head = re.split(r"\n\{\n|\n\}\n", head)[0]
                return re.findall(r"requires (\w+) \{", head)
    return []


class Function:
    def __init__(self, names, root, crate, function):
        self.n = names
        self.function = function
        self.places = [p[0] for p in names["places"]]
        self.at = {p[0]: i for i, p in enumerate(names["places"])}
        self.pre = requires_of(root, crate, function)
        self.said = []
        self.named = []

    def parent(self, i):
        return self.at.get(self.n["places"][i][1])

    def step(self, i, tokens):
        """Turns the tokens of a path that begins with the own step of place i. Gives the new tokens, or None."""
        place = self.n["places"][i]
        old, new = place[2]
        if old and plain(tokens[0]) == plain(old):
            arm = self.n["arms"][i]
            if arm:
                best = None
                for field, step, path in arm[2]:
                    if plain(step) == plain(tokens[0]) and tokens[1 : 1 + len(path)] == path:
                        if best is None or len(path) > len(best[1]):
                            best = (field, path)
                if best:
                    return [arm[0], best[0]] + self.tail(i, tokens[1 + len(best[1]) :])
            rest = tokens[1:]
            if rest:
                for a, b in place[4]:
                    if plain(a) == plain(rest[0]):
                        rest = [b] + rest[1:]
                        break
                rest = self.tail(i, rest)
            return [new] + rest
        return None

    def tail(self, i, rest):
        """The fields of a call: its clauses and what its parameters hold, by name."""
        if not rest:
            return rest
        place = self.n["places"][i]
        callee = place[3]
        if rest[0] == "type-inv":
            rest = ["type_inv"] + rest[1:]
        if rest[0] in ("ensures",) and len(rest) > 1 and rest[1].isdigit():
            c = self.n["clauses"][i] or self.clauses_near(i)
            if c:
                k, used = clause_of(rest[1:], len(c["fields"]))
                if k is not None:
                    return ["ensures", c["fields"][k]] + rest[1 + used :]
        if rest[0] in ("new", "auto") and callee:
            params = self.n["params"].get(callee, [])
            k, used = index_of(rest[1:])
            if k is not None and k < len(params):
                return [rest[0], params[k]] + rest[1 + used :]
        return rest

    def clauses_near(self, i):
        return None

    def walk(self, i, tokens):
        """From place i: gives ('place', j), ('text', tokens) or None."""
        while tokens and tokens[0] == "before":
            i = self.parent(i)
            if i is None:
                return None
            tokens = tokens[1:]
        if not tokens:
            return "place", i, None
        if self.places[i] == "Start" and tokens[0] in ("args", "ranges", "requires", "well-formed", "well_formed", "lifetimes", "ghost"):
            tokens = list(tokens)
            if tokens[0] == "well-formed":
                tokens[0] = "well_formed"
            if tokens[0] == "requires" and len(tokens) > 1 and tokens[1].isdigit() and self.pre:
                k, used = clause_of(tokens[1:], len(self.pre))
                if k is not None:
                    tokens = ["requires", self.pre[k]] + tokens[1 + used :]
            return "text", tokens, None
        got = self.step(i, tokens)
        if got is None:
            # the arms of a match: a step of a place that fell together with this one
            arm = self.n["arms"][i]
            if arm:
                for field, step, path in arm[2]:
                    if plain(step) == plain(tokens[0]) and tokens[1 : 1 + len(path)] == path:
                        return "text", [arm[0], field] + tokens[1 + len(path) :], i
            return None
        return "text", got, i

    def body(self, text, place):
        """Turns an answer that is asked at a place."""
        env = {"c": ("place", place)}
        out, pos = [], 0
        # a let that only names a place: drop it, and read its name as c
        token = re.compile(r"let ([A-Za-z][A-Za-z0-9_']*) = ([A-Za-z][A-Za-z0-9_']*)((?:\.[A-Za-z0-9_'-]+)*) in\s*|" + PATH.pattern)
        while True:
            m = token.search(text, pos)
            if not m:
                out.append(text[pos:])
                break
            out.append(text[pos : m.start()])
            pos = m.end()
            if m.group(1):
                name, var, tail = m.group(1), m.group(2), [t for t in m.group(3).split(".") if t]
                if var in env:
                    got = self.resolve(env[var], tail)
                    if got and got[0] == "place":
                        env[name] = ("place", got[1])
                        continue
                    if got:
                        behind = env[var][0] == "step"
                        whole = env[var][2] + got[1] if behind else got[1]
                        env[name] = ("step", name, whole, got[2], (env[var][4] + tail) if behind else tail)
                        out.append(f"let {name} = {var if behind else 'c'}.{'.'.join(got[1])} in" + m.group()[m.group().rindex(" in") + 3 :])
                        continue
                out.append(m.group())
                if var in env:
                    self.said.append("not turned: " + m.group().strip())
                continue
            var, tail = m.group(4), [t for t in m.group(5).split(".") if t]
            if var not in env:
                out.append(m.group())
                continue
            got = self.resolve(env[var], tail)
            if not got or got[0] == "place":
                self.said.append("not turned: " + m.group())
                out.append(m.group())
            elif env[var][0] == "step":
                out.append(".".join([var, *got[1]]))
            else:
                out.append("c." + ".".join(got[1]))
        return "".join(out)

    def nearest(self, i, tail):
        """Where the chain has another length today: the step of that name nearest to where it was sought."""
        depth = 0
        while depth < len(tail) and tail[depth] == "before":
            depth += 1
        tokens = tail[depth:]
        if not tokens:
            return "place", i, None
        if tokens[0] in ("args", "ranges", "requires", "well-formed", "well_formed", "lifetimes"):
            return self.walk(0, tokens)
        best, k, j = None, 0, i
        while j is not None:
            got = self.walk(j, tokens)
            if got and (best is None or abs(k - depth) < abs(best[0] - depth)):
                best = (k, got)
            j, k = self.parent(j), k + 1
        return best and best[1]

    def resolve(self, value, tail):
        if value[0] == "place":
            return self.walk(value[1], tail) or self.nearest(value[1], tail)
        # a variable that names a step, or a part of one
        _, name, prefix, place, old = value
        if not tail:
            return "text", [], place
        if prefix == ["requires"]:
            k, used = clause_of(tail, len(self.pre))
            if self.pre and k is not None:
                tail = [self.pre[k]] + tail[used:]
            return "text", tail, place
        if place is None:
            return "text", tail, place
        old = [t for t in old if t != "before"]
        got = self.step(place, old + tail)
        base = self.step(place, old)
        if got and base and got[: len(base)] == base:
            return "text", got[len(base) :], place
        return "text", tail, place


def split_tuple(text):
    """The parts of a tuple that a text is, or None."""
    t = text.strip()
    if not (t.startswith("(") and t.endswith(")")):
        return None
    depth, parts, last = 0, [], 1
    for k, ch in enumerate(t):
        if ch in "([{":
            depth += 1
        elif ch in ")]}":
            depth -= 1
            if depth == 0 and k < len(t) - 1:
                return None
        elif ch == "," and depth == 1:
            parts.append(t[last:k])
            last = k + 1
    parts.append(t[last:-1])
    return [p.strip() for p in parts] if len(parts) > 1 else None


def as_record(text, fields):
    """A tuple of clauses, also behind lets, as a record of them by name."""
    cut = 0
    for m in re.finditer(r"\bin\s+(?=\()", text):
        if text[: m.end()].count("(") == text[: m.end()].count(")"):
            cut = m.end()
    parts = split_tuple(text[cut:])
    if not parts:
        return None
    while len(parts) < len(fields):
        more = split_tuple(parts[-1])
        if not more:
            break
        parts = parts[:-1] + more
    if len(parts) != len(fields):
        return None
    return text[:cut] + "record { " + "; ".join(f"{f} = {p}" for f, p in zip(fields, parts)) + " }"


def turn(root, names, crate, folder, function):
    path = os.path.join(folder, "Proof.antt")
    text = open(path).read()
    if ".Tie as tie" not in text:
        return f"{crate}::{function}: walks by hand, left"
    key = f"Rattle-{crate}-proofs.{function}.Lts"
    if key not in names:
        return f"{crate}::{function}: no names for it"
    f = Function(names[key], root, crate, function)
    needs = {}
    for (old, new), at in zip(f.n["needs"], f.n["asked_at"] if len(f.n["asked_at"]) == len(f.n["needs"]) else [None] * len(f.n["needs"])):
        needs[plain(old)] = (new, at)
        needs.setdefault(plain(new), (new, at))
    loops = {plain(l[0][0]): (l[0][1], l[1], ch) for l, ch in zip(f.n["loops"], f.n["changed"])}
    uses, invariants, answers, helpers = [], [], [], []
    for block in re.split(r"\n\s*\n", text):
        lines = [l for l in block.split("\n") if l.strip() and not l.startswith("--")]
        if not lines:
            continue
        while lines and lines[0].startswith("use "):
            l = lines.pop(0)
            if not re.search(r"\.(Statement|Tie|Reads|Lts)(\.\{statement\}| as [\w'-]+)$", l):
                uses.append(l)
        if not lines:
            continue
        m = re.match(r"(abbrev )?(?:pub )?(\S+) : tie\.(\S+)(.*)$", lines[0])
        if not m:
            if not re.search(r"(_|-)spec\b", lines[0]):
                helpers.append("\n".join(lines))
            continue
        what, rest = m.group(3), lines[1:]
        unfolding = []
        while rest and rest[0].startswith("unfolding"):
            unfolding.append(rest.pop(0))
        clause = "\n".join(rest)
        head, _, body = clause.partition(" =")
        body = body.lstrip(" ")
        arguments = head.split()[1:]
        if what.startswith(("invariant-", "decreases-")):
            kind, _, loop = what.partition("-")
            got = loops.get(plain(loop))
            if not got:
                f.said.append(f"no loop {loop}")
                continue
            new, variables, changed = got
            given = {}
            k = 0
            for v, ch in zip(variables, changed):
                if k < len(arguments):
                    given[arguments[k]] = f"l.initial.{v}" if ch else f"l.{v}"
                k += 1
            for v, ch in zip(variables, changed):
                if ch:
                    if k < len(arguments):
                        given[arguments[k]] = f"l.{v}"
                    k += 1
            if k != len(arguments):
                f.said.append(f"{what}: {len(arguments)} arguments, {k} variables: {arguments} {variables}")
            body = re.sub(r"(?<![\w.'-])[A-Za-z_][A-Za-z0-9_'₀-]*", lambda x: given.get(x.group(), x.group()), body)
            sig = f"{kind}-{new}"
            invariants.append(f"abbrev pub {sig} : goal.{sig}\n{sig} l = {body}" if "\n" not in body else f"abbrev pub {sig} : goal.{sig}\n{sig} l =\n{body.lstrip(chr(10))}")
            continue
        old = plain(re.sub(r"^Need-", "", what))
        tries = [old, re.sub(r"^overflow-", "", old)]
        got = next((needs[t] for t in tries if t in needs), None)
        if re.fullmatch(r"search rules", body.strip()) and not unfolding:
            continue
        if not got:
            f.said.append(f"gone: {what}: {body.strip()[:160]}")
            continue
        new, at = got
        place = f.at.get(at[0]) if at else None
        if place is None:
            f.said.append(f"no place for {what}")
            continue
        body = f.body(body, place)
        fields = f.n["asked"].get(new)
        if fields and len(fields) > 1:
            rec = as_record(body, fields)
            if rec:
                body = rec
            elif body.strip() not in ("search rules", "search cases"):
                f.said.append(f"{new}: not a tuple of {fields}: {body.strip()[:120]}")
        mine = [a for a in arguments if not a.startswith("κ")]
        f.named.append((m.group(2), new))
        sep = " " if "\n" not in body else ""
        answers.append(f"pub {new} : goal.{new}\n" + "".join(u + "\n" for u in unfolding) + f"{new} {' '.join(mine)} ={sep if not body.startswith(chr(10)) else ''}{body}")
    module = f"Rattle.{crate}.proofs.{function}"
    named = {old: new for old, new in f.named if old != new}
    answers = [re.sub(r"(?<=[( ])[a-z][\w'-]*(?= c\b)", lambda x: named.get(x.group(), x.group()), a) for a in answers]
    os.remove(path)
    used = lambda parts: [u for u in uses if re.search(r"\{(.*)\}| as (\S+)$|([\w']+)$", u) and any(x and re.search(r"(?<![\w.'-])" + re.escape(x) + r"(?![\w'-])", "\n".join(parts)) for x in names_of(u))]
    if invariants:
        with open(os.path.join(folder, "Invariants.antt"), "w") as o:
            o.write("".join(u + "\n" for u in used(invariants)) + f"use {module}.Given as goal\n\n" + "\n\n".join(invariants) + "\n")
    if answers:
        with open(os.path.join(folder, "Answers.antt"), "w") as o:
            parts = helpers + answers
            o.write("".join(u + "\n" for u in used(parts)) + f"use {module}.Goals as goal\n\n" + "\n\n".join(parts) + "\n")
    elif helpers:
        f.said.append("helpers with no answer: " + helpers[0][:80])
    if not os.listdir(folder):
        os.rmdir(folder)
    return "".join(f"{crate}::{function}: {s}\n" for s in f.said).rstrip("\n")


def names_of(use):
    """The names that a use line brings, operators as the word between their places."""
    m = re.search(r"\{(.*)\}$", use)
    if m:
        found = []
        for it in m.group(1).split(","):
            it = it.strip()
            it = it.split(" as ")[-1]
            found.append(it.strip("◌") if "◌" in it else it)
        return [x for x in found]
    m = re.search(r" as (\S+)$", use)
    if m:
        return [m.group(1)]
    return [use.rsplit(".", 1)[-1]]


def main(argv):
    if len(argv) < 2:
        print(__doc__)
        return 2
    root, crate, only = ".", argv[1], set(argv[2:])
    with open(os.path.join(argv[0], "crates", crate, "names.json")) as f:
        names = json.load(f)
    top = os.path.join(root, "crates", crate, "proofs")
    for folder, dirs, fs in sorted(os.walk(top)):
        if "Proof.antt" in fs:
            function = os.path.relpath(folder, top).replace(os.sep, ".")
            if only and function not in only:
                continue
            said = turn(root, names, crate, folder, function)
            if said:
                print(said)
    return 0


raise SystemExit(main(sys.argv[1:]))
