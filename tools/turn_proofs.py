#!/usr/bin/env python3
"""Turns the proofs of functions (proofs/F/Proof.antt over a Tie) to the names that today's Rattle gives to goals, places and steps.

usage: turn_proofs.py NAMES.json CRATE-FOLDER CRATE [WORD..]

NAMES.json is what `rt check --generated FOLDER --old-names` writes in the crate: for each function its needs, places, steps, loops and arms, by
the old and the new name. The tree of places is the same but for the arms of a `match`, which are one place now. So a path such as
`c.before.before.if1.true` is written `c.if-n-lt0.true`, since every step before a place can be named there, and a path that is passed to
a lemma over an earlier place gets as many `before` as lead there today. WORDs choose the functions whose path has one of them.
What it can't turn it says, and leaves.
"""
import json
import os
import re
import sys

NAME = r"[^\s(){}\[\],;.:«»\"`λ|=]+"


def norm(s):
    return s.replace("-", "_")


class Function:
    def __init__(self, d, said):
        self.said = said
        self.d = d
        self.places = {}
        ps, by = d["places"], d["places_by_name"]
        self.old, self.parent, self.step, self.callee, self.new, self.arm = [], [], [], [], [], []
        for i, p in enumerate(ps):
            self.places[norm(p[0])] = i
            self.places.setdefault(norm(by[i]), i)
            self.old.append(p[0])
            self.parent.append(None if p[1] is None else self.places[norm(p[1])])
            self.step.append((norm(p[2][0]), p[2][1]))
            self.callee.append(p[3])
            self.new.append(by[i])
            self.arm.append(d["arms"][i] if i < len(d["arms"]) else None)
        # the last place of each arm, and what stood before its first
        self.final, self.first = {}, {}
        for i in range(len(ps)):
            a = self.arm[i]
            if a:
                chain = [i]
                while self.parent[chain[-1]] is not None and self.arm[self.parent[chain[-1]]] and self.arm[self.parent[chain[-1]]][0] == a[0] and self.arm[self.parent[chain[-1]]][1] < self.arm[chain[-1]][1]:
                    chain.append(self.parent[chain[-1]])
                for j in chain:
                    if j not in self.final or self.arm[self.final[j]][1] < a[1] or self.new[self.final[j]].endswith("-unread") and not by[i].endswith("-unread") and j != self.final[j]:
                        self.final[j] = i
                self.first[i] = chain[-1]
        self.needs = {}
        for o, n in d["needs"]:
            self.needs[norm("Need-" + o)] = n
            self.needs.setdefault(norm("Need-" + n), n)
            self.needs.setdefault(norm("Need-overflow-" + o), n)
        self.at = {}
        for (o, n), a in zip(d["needs"], d["asked_at"]):
            self.at[n] = self.places.get(norm(a[0]))
        self.loops = {}
        for l in d["loops"]:
            o, n = l[0]
            self.loops[norm("invariant-" + o)] = "invariant-" + n
            self.loops[norm("decreases-" + o)] = "decreases-" + n

        self.shift = {}

    def args(self, text):
        for old, new in self.d["args"]:
            text = re.sub(re.escape(old.replace(" ", "")) + r"(?![\w-])", lambda m: new.replace(" ", ""), text)
        return text

    def numbered(self, text):
        """Where the older names of a step were numbered otherwise: in their order."""
        stems = {}
        for i, (step, _) in enumerate(self.step):
            m = re.fullmatch(r"(.*?)(\d*)", step)
            stems.setdefault(m[1], set()).add(int(m[2] or 1))
        used = {}
        for m in re.finditer(r"(?:tie\.After-|\.)(" + NAME + ")", text):
            w = re.fullmatch(r"(.*?)(\d*)", norm(m[1]))
            if w and w[1] in stems and w[1] not in ("", "if"):
                used.setdefault(w[1], set()).add(int(w[2] or 1))
        for stem, ns in used.items():
            have = sorted(stems[stem])
            if not ns <= set(have):
                if len(ns) == len(have):
                    for o, n in zip(sorted(ns), have):
                        self.shift[stem + (str(o) if o > 1 else "")] = stem + (str(n) if n > 1 else "")
                    self.said.append(f"numbered: {stem} {sorted(ns)} as {have}")
                else:
                    self.said.append(f"numbers of {stem}: {sorted(ns)} in the proof, {have} today")

    def place(self, word):
        k = norm(word)
        m = re.fullmatch(r"After_(.*?)(_unread)?", k)
        if m and m[1] in self.shift:
            k = "After_" + self.shift[m[1]] + (m[2] or "")
        return self.places.get(k)

    def owner(self, place, head):
        head = self.shift.get(head, head)
        old = next((j for j in self.above(place) if self.step[j][0] == head), None)
        return old if old is not None else next((j for j in self.above(place) if norm(self.step[j][1]) == head), None)

    def counted(self, i, n):
        """The place that was n befores up; what is told of an index is a place that there was not."""
        while n and self.parent[i] is not None:
            i = self.parent[i]
            if not self.step[i][0].startswith("way_told"):
                n -= 1
        while self.step[i][0].startswith("way_told") and self.parent[i] is not None:
            i = self.parent[i]
        return i

    def is_final(self, i):
        return self.arm[i] and self.final.get(i) == i

    def up(self, i):
        """The place before, today."""
        if self.is_final(i):
            return self.parent[self.first[i]]
        return self.parent[i]

    def above(self, i):
        while i is not None:
            yield i
            i = self.parent[i]

    def below(self, var, target):
        """How the target is reached from var today: (place, befores)."""
        # the target in the middle of an arm, seen from its end or from below, is the arm
        if self.arm[target] and not self.is_final(target):
            end = self.final[target]
            if end in list(self.above(var)):
                target = end
        n, i = 0, var
        while i is not None and i != target:
            i = self.up(i)
            n += 1
        if i is None:
            self.said.append(f"no way from {self.new[var]} to {self.new[target]}")
            return target, None
        return target, n


class Turn:
    def __init__(self, f, text, path):
        self.f, self.text, self.path = f, text, path
        self.funcs = {}
        self.goals = []

    def place(self, word):
        return self.f.place(word)

    # ---- paths. What is known of a name of a place: the name to write, and its place.
    def fields(self, s, i):
        """The fields after position i: .a.b.c"""
        out = []
        while True:
            m = re.compile(r"\.(" + NAME + r")").match(s, i)
            if not m:
                return out, i
            out.append(m[1])
            i = m.end()

    def turn_fields(self, base, place, fields):
        """The text of a field that is no place, or None where the path leads to a place."""
        f = self.f
        k = 0
        while k < len(fields) and fields[k] == "before":
            k += 1
        rest = fields[k:]
        if not rest:
            return None
        head = norm(rest[0])
        if rest[0] == "pre":
            rest[0] = "requires"
        if rest[0] in ("args", "requires", "ranges") or rest[0].startswith(("told-", "fits-")):
            return base + f.args("".join("." + x for x in rest))
        owner = f.owner(place, head)
        if owner is None and head == "fits":
            return base + "".join("." + x for x in ["ranges", *rest[1:]])
        if owner is None:
            f.said.append(f"{base}.{'.'.join(fields)}: no step {rest[0]} at {f.new[place]}")
            return base + "".join("." + x for x in fields)
        left = rest[1:]
        if f.arm[owner] and f.final[owner] in list(f.above(place)):
            end = f.final[owner]
            name = f.arm[end][0]
            best = None
            for field, old, way in f.arm[end][2]:
                if norm(old) == f.step[owner][0] and left[: len(way)] == way and way:
                    if best is None or len(way) > len(best[1]):
                        best = (field, way)
            if best:
                left = [name, best[0], *left[len(best[1]) :]]
                return base + "".join("." + x for x in left)
            here = {tuple(way): field for field, old, way in f.arm[end][2] if norm(old) == f.step[owner][0]}
            if left and any(w[: len(left)] == tuple(left) for w in here):
                def tree(prefix):
                    if prefix in here:
                        return f"{base}.{name}.{here[prefix]}"
                    if not any(w[: len(prefix)] == prefix for w in here):
                        return "tt"
                    return f"({tree(prefix + ('0',))}, {tree(prefix + ('1',))})"
                return tree(tuple(left))
            if () in here:
                return base + "".join("." + x for x in [name, here[()], *left])
            f.said.append(f"{base}.{'.'.join(fields)}: in arm {name}: {f.arm[end][2]}")
            return base + "." + f.step[owner][1] + "".join("." + x for x in left)
        step = f.step[owner][1]
        callee = f.callee[owner]
        if left:
            if left[0] == "left":
                left[0] = "false"
            elif left[0] == "taken":
                left[0] = "true"
            elif left[0] == "inv":
                left[0] = "invariant"
            elif left[0] == "type-inv":
                left[0] = "type_inv"
            elif left[0] == "kept" and callee:
                left[0] = "auto"
            elif left[0] == "last" and callee:
                left[0] = "new"
            if left[0] in ("new", "auto") and callee in f.d["params"] and len(left) > 1:
                name, more = self.nth(left[1:], f.d["params"][callee])
                if name:
                    left = [left[0], name, *more]
        return base + "." + step + "".join("." + x for x in left)

    def nth(self, fields, names):
        """`.1.1.0` is the third of a list that ends in Unit."""
        k = 0
        while k < len(fields) and fields[k] == "1":
            k += 1
        if k < len(fields) and fields[k] == "0" and k < len(names) and names[k]:
            return names[k], fields[k + 1 :]
        return None, fields

    # ---- terms
    def close(self, s, i):
        depth = 0
        while i < len(s):
            if s[i] == "(":
                depth += 1
            elif s[i] == ")":
                depth -= 1
                if depth == 0:
                    return i
            i += 1
        return None

    def reach(self, base, place, target):
        """The text of the target, from a name of a place."""
        got, n = self.f.below(place, target)
        if n is None:
            return base
        return base + ".before" * n

    def placed(self, s, i, env):
        """A term that is a place: (text of its name, its place, whether befores follow, end), or None."""
        m = re.compile(NAME).match(s, i)
        if m and m[0] in env:
            fs, end = self.fields(s, m.end())
            if any(x != "before" for x in fs):
                return None
            name, place = env[m[0]]
            return name, place, bool(fs), end, self.f.counted(place, len(fs))
        if m and m[0] in self.funcs and self.funcs[m[0]][1] is not None:
            j = m.end()
            if s[j : j + 1] == " ":
                got = self.argument(s, j + 1, env, self.funcs[m[0]][0].get(0))
                if got:
                    return f"{m[0]} {got[0]}", self.funcs[m[0]][1], False, got[1], self.funcs[m[0]][1]
            return None
        if s[i : i + 1] == "(":
            j = self.close(s, i)
            if j is None:
                return None
            got = self.placed(s, i + 1, env)
            if not got or got[3] != j:
                return None
            fs, end = self.fields(s, j + 1)
            if any(x != "before" for x in fs):
                return None
            name, place = f"({got[0]})", got[1]
            return name, place, bool(fs), end, self.f.counted(got[4], len(fs))
        return None

    def argument(self, s, i, env, target):
        """An argument, of which it is known which place is wanted: (text, end)."""
        got = self.placed(s, i, env)
        if got and target is not None:
            return self.reach(got[0], got[1], target), got[3]
        m = re.compile(r"\{[^}]*\}").match(s, i)
        if m:
            return self.term(m[0], env), m.end()
        if s[i : i + 1] == "(":
            j = self.close(s, i)
            if j is None:
                return None
            fs, end = self.fields(s, j + 1)
            return self.term(s[i:end], env), end
        m = re.compile(NAME + r"(?:\." + NAME + ")*").match(s, i)
        if m:
            return self.term(m[0], env), m.end()
        return None

    def term(self, s, env, target=None):
        out, i = [], 0
        start = re.compile(NAME)
        if target is not None:
            at = len(s) - len(s.lstrip())
            got = self.placed(s, at, env)
            if got and not s[got[3] :].strip():
                return s[:at] + self.reach(got[0], got[1], target) + s[got[3] :]
        while i < len(s):
            m = re.compile(r"let (" + NAME + r") = ").match(s, i)
            if m and (i == 0 or s[i - 1] in " \n("):
                got = self.placed(s, m.end(), env)
                m2 = got and re.compile(r"\s+in\b\s*").match(s, got[3])
                if m2:
                    # an earlier place: all that is known there is known by the later name
                    head = re.match(NAME, got[0])
                    if re.fullmatch(NAME, got[0]):
                        env[m[1]] = (got[0], got[1])
                        i = m2.end()
                    else:
                        env[m[1]] = (m[1], got[1])
                        out.append(f"let {m[1]} = {got[0]}" + m2[0])
                        i = m2.end()
                    continue
                env.pop(m[1], None)
                out.append(m[0])
                i = m.end()
                continue
            if s[i] == "(":
                j = self.close(s, i)
                got = self.placed(s, i + 1, env) if j is not None else None
                if got and got[3] == j:
                    fs, end = self.fields(s, j + 1)
                    text = self.turn_fields(f"({got[0]})", got[1], fs) if fs else None
                    if re.fullmatch(NAME, got[0]):
                        text = self.turn_fields(got[0], got[1], fs) if fs else None
                    if text is not None:
                        out.append(text)
                        i = end
                        continue
                out.append("(")
                i += 1
                continue
            m = start.match(s, i)
            if m and (i == 0 or s[i - 1] != "."):
                word = m[0]
                if word in env:
                    fs, end = self.fields(s, m.end())
                    name, place = env[word]
                    text = self.turn_fields(name, place, fs)
                    if text is None:
                        if fs:
                            goal = self.f.counted(place, len(fs))
                            self.f.said.append(f"{word}{'.before' * len(fs)} is taken for {self.f.new[goal]}")
                            text = self.reach(name, place, goal)
                        else:
                            text = name
                    out.append(text)
                    i = end
                    continue
                if word in self.funcs and self.funcs[word][0]:
                    out.append(word)
                    i = m.end()
                    wanted = {k: v for k, v in self.funcs[word][0].items() if isinstance(k, int)}
                    pos = 0
                    while wanted and pos <= max(wanted) and i < len(s):
                        gap = re.compile(r"[ \n]+").match(s, i)
                        if not gap:
                            break
                        got = self.argument(s, gap.end(), env, wanted.get(pos))
                        if not got:
                            break
                        out.append(gap[0] + got[0])
                        i = got[1]
                        pos += 1
                    continue
                if word == "tie":
                    m2 = re.compile(r"tie\.(" + NAME + ")").match(s, i)
                    if m2:
                        out.append("tie." + self.tie(m2[1]))
                        i = m2.end()
                        continue
                out.append(word)
                i = m.end()
                continue
            out.append(s[i])
            i += 1
        return "".join(out)

    def tie(self, word):
        f = self.f
        k = norm(word)
        if k in f.needs:
            return "Need-" + f.needs[k]
        if k in f.loops:
            return f.loops[k]
        i = f.place(word)
        if i is not None:
            return f.new[self.end(i)]
        if word not in ("spec", "close"):
            f.said.append(f"tie.{word} is unknown")
        return word

    # ---- declarations
    def declare(self, block):
        """The name, the places of its arguments by position, and the place of its result."""
        m = re.match(r"(?:abbrev |unfoldable )*(?:pub )?(" + NAME + r") : (.*?)(?=\n(?:unfolding |" + NAME + r" )|\Z)", block, re.S)
        if not m:
            return None
        name, sig = m[1], m[2]
        m2 = re.match(r"tie\.(Need-" + NAME + ")", sig)
        if m2:
            k = norm(m2[1])
            if k in self.f.needs:
                n = self.f.needs[k]
                self.goals.append((n, name))
                return name, sig, {0: self.f.at.get(n)}, None
            return name, sig, {}, None
        args, pos, result = {}, 0, None
        parts = self.arrows(sig)
        for at, part in enumerate(parts):
            part = part.strip()
            if at == len(parts) - 1:
                m3 = re.match(r"tie\.(" + NAME + ")", part)
                if m3 and self.place(m3[1]) is not None:
                    result = self.end(self.place(m3[1]))
                break
            groups = re.findall(r"[({]([^():]+) : ([^()]*(?:\([^()]*\)[^()]*)*)[)}]", part)
            if groups and part[0] in "({":
                for names, t in groups:
                    m3 = re.match(r"tie\.(" + NAME + ")", t.strip())
                    for n in names.split():
                        if m3 and self.place(m3[1]) is not None:
                            args[pos] = self.end(self.place(m3[1]))
                            args[n] = args[pos]
                        pos += 1
            else:
                m3 = re.match(r"tie\.(" + NAME + ")", part)
                if m3 and self.place(m3[1]) is not None:
                    args[pos] = self.end(self.place(m3[1]))
                pos += 1
        return name, sig, args, result

    def end(self, i):
        return self.f.final.get(i, i) if self.f.arm[i] else i

    def arrows(self, sig):
        parts, depth, cur = [], 0, ""
        for ch in sig:
            if ch in "({[":
                depth += 1
            elif ch in ")}]":
                depth -= 1
            if ch == "→" and depth == 0:
                parts.append(cur)
                cur = ""
            else:
                cur += ch
        return parts + [cur]

    def run(self):
        f = self.f
        f.numbered(self.text)
        blocks = re.split(r"(\n\n+)", self.text)
        infos = []
        for b in blocks:
            body = b
            lead = ""
            while re.match(r"--[^\n]*\n", body):
                m = re.match(r"--[^\n]*\n", body)
                lead += m[0]
                body = body[m.end() :]
            info = self.declare(body) if not b.startswith("\n") else None
            infos.append((lead, body, info))
            if info and (info[2] or info[3] is not None):
                self.funcs[info[0]] = (info[2], info[3])
        out = []
        for lead, body, info in infos:
            if not info:
                out.append(lead + self.term(body, {}))
                continue
            name, sig, args, result = info
            env = {k: (k, v) for k, v in args.items() if isinstance(k, str) and v is not None}
            # the head, with the binders' names
            m = re.search(r"^" + re.escape(name) + r" ([^=\n]*?)=", body[body.index(sig) + len(sig) :], re.M)
            cut = body.index(sig) + len(sig)
            head = self.term(body[:cut], dict(env))
            tail = body[cut:]
            pieces = re.split(r"(?m)^(?=" + re.escape(name) + r" )", tail)
            done = [pieces[0]]
            for piece in pieces[1:]:
                m = re.match(re.escape(name) + r" ([^=]*?)=(?= |\n)", piece, re.S)
                e = {}
                if m:
                    for pos, w in enumerate(re.findall(r"\{[^}]*\}|\([^)]*\)|\S+", m[1])):
                        if pos in args and args[pos] is not None:
                            e[w] = (w, args[pos])
                    done.append(piece[: m.end()] + self.term(piece[m.end() :], e, result))
                else:
                    done.append(self.term(piece, e))
            out.append(lead + head + "".join(done))
        new = "".join(out)
        base = self.path
        # the call that closes, with today's list of needs
        named = dict(self.goals)
        wanted = [n for _, n in f.d["needs"]]
        missing = [n for n in wanted if n not in named]
        extra = [n for n, _ in self.goals if n not in wanted]
        loops_now = [f"{n}" for n in re.findall(r"(?m)^abbrev ((?:invariant|decreases)\S*) : tie", new)]
        for n in list(missing):
            if n.startswith("overflow_"):
                name = n.replace("overflow_", "")
                decl = f"{name} : tie.Need-{n}{''.join(' ' + l for l in loops_now)}\n{name} c = omega arith\n\n"
                at = re.search(r"(?m)^pub \S+[-_]spec : ", new)
                if at:
                    new = new[: at.start()] + decl + new[at.start() :]
                    self.goals.append((n, name))
                    missing.remove(n)
        named = dict(self.goals)
        if missing or extra:
            f.said.append(f"missing {missing} extra {extra}")
        m = re.search(r"\(tie\.spec\s*(.*)\)\s*$", new, re.S)
        if m:
            words = m[1].split()
            others = [w for w in words if w not in named.values()]
            loops = [w for w in others if w.startswith(("invariant", "decreases"))]
            seq = loops + [named.get(n, "?" + n) for n in wanted]
            if not seq:
                new = new[: m.start()] + "tie.spec\n"
            else:
                new = new[: m.start()] + "(tie.spec\n    " + "\n    ".join(seq) + ")\n"
        elif not re.search(r"tie\.spec", new):
            f.said.append("no tie.spec")
        # the test of `if !x` says `x ≡ false` today
        new = re.sub(r"not-true _ ((?:\w[\w-]*|\([^()]*(?:\([^()]*\)[^()]*)*\))(?:\.[^\s().,;]+)*\.true)", r"\1", new)
        new = re.sub(r"not-false _ ((?:\w[\w-]*|\([^()]*(?:\([^()]*\)[^()]*)*\))(?:\.[^\s().,;]+)*\.false)", r"\1", new)
        new = new.replace(".type-inv", ".type_inv")
        last = base.split(".")[-1]
        new = re.sub(r"(?<![\w-])" + last.replace("_", "[-_]") + r"[-_]spec(?![\w-])", last + "_spec", new)
        return new


def main():
    names = json.load(open(sys.argv[1]))
    top, crate, only = sys.argv[2], sys.argv[3], sys.argv[4:]
    prefix = f"Rattle-{crate}-proofs."
    for key, d in sorted(names.items()):
        if not key.startswith(prefix) or not key.endswith(".Lts"):
            continue
        fn = key[len(prefix) : -4]
        path = os.path.join(top, "proofs", *fn.split("."), "Proof.antt")
        if not os.path.isfile(path) or only and not any(o in path for o in only):
            continue
        with open(path, encoding="utf-8") as it:
            text = it.read()
        if "Tie as tie" not in text:
            continue
        said = []
        new = Turn(Function(d, said), text, fn).run()
        for s in dict.fromkeys(said):
            print(f"{fn}: {s}")
        with open(path, "w", encoding="utf-8") as it:
            it.write(new)


main()
