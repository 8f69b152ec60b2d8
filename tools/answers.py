#!/usr/bin/env python3
"""Turns a crate's Proof.antt files into Invariants.antt and Answers.antt, by the names that `rt names` lists.

usage: answers.py NAMES.json CRATE [FUNCTION..]     CRATE is the folder above proofs/; FUNCTION as in proofs/, with dots

An answer that only says `search rules` is left out: the check finds it. A path c.before.before.f becomes c.f, with the step's new name.
What it can't turn is said in a line that begins 'look:'.
"""

import json
import os
import re
import sys

W = r"[^\s(){}.;,@\"«»\[\]|`:]+"
SIG = re.compile(r"^((?:abbrev |unfoldable |pub )*)(" + W + r")((?:\s+" + W + r")*)\s*:\s*(.*)$", re.S)


def norm(s):
    return re.sub(r"^(overflow|nonzero)-", "", s.replace("_", "-"))


def plain(s):
    return norm(s).lower()


def norms(s):
    s = norm(s)
    out = [s]
    m = re.match(r"slice-bounds-(.*)-(start|end)(.*)$", s)
    if m:
        out += [f"part-{m[1]}-{m[2]}{m[3]}"]
    if s.startswith("slice-bounds-"):
        out += ["slice-aggregate-" + s[len("slice-bounds-"):], "sub-" + s[len("slice-bounds-"):]]
    if s.startswith("slice-bounds-") and s.endswith("-end"):
        out += ["sub-" + s[len("slice-bounds-"):-4]]
    return out


class Names:
    def __init__(self, of, own=""):
        self.of = of
        self.requires, self.ensures = CLAUSES.get(own, ([], []))
        self.callee = {}
        for _place, _parent, (_old, new), callee, _x in of["places"]:
            if callee and new:
                self.callee.setdefault(new, callee)
        self.needs = {}
        self.views = {}
        for i, (old, new) in enumerate(of["needs"]):
            place = of["asked_at"][i][0] if i < len(of["asked_at"]) else None
            self.needs[norm(old)] = (new, place)
            self.needs.setdefault(norm(new), (new, place))
        self.parent = {}
        self.fields = {}
        self.place_new = {}
        names = of["places_by_name"]
        for i, (place, parent, (old, new), _callee, _x) in enumerate(of["places"]):
            self.parent.setdefault(place, parent)
            self.fields.setdefault(place, (old, new))
            if i < len(names):
                self.place_new.setdefault(place, names[i])
        for old, new in of["asked_at"]:
            self.place_new.setdefault(old, new)
        self.arms = {}
        for (place, *_), arm in zip(of["places"], of["arms"]):
            if arm:
                self.arms.setdefault(place, []).extend((norm(step), tuple(path), arm[0] + "." + new) for new, step, path in arm[2])
        self.flat = {}
        for place, parent, (old, new), _c, _x in of["places"]:
            if old:
                self.flat.setdefault(norm(old), new)

    def need(self, name):
        for n in norms(name):
            if n in self.needs:
                return self.needs[n]
        return None

    def chain(self, place):
        out = {}
        seen = set()
        while place and place not in seen:
            seen.add(place)
            if place in self.fields:
                old, new = self.fields[place]
                if old:
                    out.setdefault(norm(old), new)
            place = self.parent.get(place)
        return out

    def steps(self, place, to):
        """How many steps back from a place another one lies."""
        n = 0
        while place and place != to:
            place = self.parent.get(place)
            n += 1
            if n > 200:
                return None
        return n if place else None

    def arm(self, place, step, tail):
        """The new name of a field of an arm, and what of the tail is left."""
        seen = set()
        places = []
        while place and place not in seen:
            seen.add(place)
            places.append(place)
            place = self.parent.get(place)
        if not places:
            places = list(self.arms)
        best = None
        for p in places:
            for old, path, new in self.arms.get(p, []):
                own = not path and tail and re.match(r"(rest|keys)\d*$", tail[0])
                if old == step and (path or own) and tuple(tail[:len(path)]) == path and (best is None or len(path) > best[0]):
                    best = (len(path), new)
        return best

    def place(self, name):
        if name in self.place_new:
            return name, self.place_new[name]
        for k, v in self.place_new.items():
            if norm(k) == norm(name):
                return k, v
        return None, None


CLAUSE = re.compile(r"(?:^|\n)[ \t]*(requires|ensures)[ \t]+(\w+)[ \t]*\{")
FN = re.compile(r"\bfn (\w+)\b")


def clause_names(root):
    """By the path of each function, the names of its requires and of its ensures, where there are two or more."""
    out = {}
    for folder, _dirs, files in os.walk(os.path.join(root, "crates")):
        if "/src" not in folder:
            continue
        for f in files:
            if not f.endswith(".rt"):
                continue
            text = open(os.path.join(folder, f), encoding="utf-8").read()
            crate, _, rest = os.path.join(folder, f)[len(os.path.join(root, "crates")) + 1:].partition("/src/")
            path = [] if rest in ("lib.rt", "main.rt") else rest[:-3].split("/")
            if path and path[-1] == "mod":
                path.pop()
            starts = [m.start() for m in FN.finditer(text)] + [len(text)]
            for a, b in zip(starts, starts[1:]):
                piece = text[a:b]
                head = piece.split("\n{\n")[0]
                name = FN.match(piece)[1]
                got = CLAUSE.findall(head)
                out["::".join([crate, *path, name])] = ([n for k, n in got if k == "requires"], [n for k, n in got if k == "ensures"])
    return out


CLAUSES = {}
# What respell.py may have made of a step's name: new, and the old names.
BACK = {}


def clause_paths(n):
    """The old paths of n clauses that were a nested pair."""
    return [".1" * i + ".0" if i < n - 1 else ".1" * (n - 1) for i in range(n)]


def named(path, tail, clauses):
    """A path that ends in requires or ensures, and the numbers behind it, with the clause's name."""
    for old, name in sorted(zip(clause_paths(len(clauses)), clauses), key=lambda it: -len(it[0])):
        if tail == old or tail.startswith(old + ".") or (tail.startswith(old) and tail[len(old):len(old) + 1] in ("", ".")):
            return path + "." + name + tail[len(old):]
    return path + tail


def top_tuple(text):
    """The parts of a tuple that is the whole text."""
    t = text.strip()
    if not (t.startswith("(") and t.endswith(")")):
        return None
    depth, parts, cur = 0, [], ""
    for i, ch in enumerate(t):
        if ch in "([{":
            depth += 1
            if depth == 1:
                continue
        if ch in ")]}":
            depth -= 1
            if depth == 0:
                if i != len(t) - 1:
                    return None
                parts.append(cur)
                break
        if ch == "," and depth == 1:
            parts.append(cur)
            cur = ""
            continue
        cur += ch
    parts = [p.strip() for p in parts if p.strip()]
    return parts if len(parts) > 1 else None


def as_record(body, clauses):
    """A body that ends in a tuple, as a record of named clauses."""
    m = re.match(r"(.*\bin\s+|\s*)(\(.*\))\s*$", body, re.S)
    tries = []
    if body.strip().startswith("("):
        tries.append(("", body.strip()))
    for q in re.finditer(r"\bin\s+(?=\()", body):
        tries.append((body[:q.end()], body[q.end():].strip()))
    t = body.rstrip()
    if t.endswith(")") and re.search(r"(?:^|\bin\s+|^\s*)(?:rw|simp|subst)\b", t):
        depth = 0
        for i in range(len(t) - 1, -1, -1):
            depth += (t[i] == ")") - (t[i] == "(")
            if depth == 0:
                tries.append((t[:i], t[i:]))
                break
    for head, tail in tries:
        parts = top_tuple(tail)
        if parts is None:
            continue
        while len(parts) < len(clauses):
            more = top_tuple(parts[-1])
            if more is None:
                break
            parts = parts[:-1] + more
        if len(parts) > len(clauses):
            k = len(clauses)
            parts = parts[:k - 1] + ["(" + ", ".join(parts[k - 1:]) + ")"]
        if len(parts) == len(clauses):
            return head + "record { " + "; ".join(f"{n} = {p}" for n, p in zip(clauses, parts)) + " }"
    return None


KEEP = {"args", "requires", "ranges", "well_formed", "lifetimes", "type_inv", "auto", "utf8"}


def path_pattern(heads):
    return re.compile(r"(?<![\w.-])(" + "|".join(re.escape(h) for h in heads) + r")((?:\.before)*)\.(" + W + r")((?:\." + W + r")*)(?![\w])")


def turn_paths(text, names, place, heads=("c",), goal=False):
    """Paths of c, and of what a let binds to a place, with the new names of steps and no `.before`."""
    chain = names.chain(place) if place else {}
    heads = list(heads)
    for m in re.finditer(r"let (" + W + r") = (" + W + r")((?:\.before)*) in", text):
        if m[2] in heads and m[1] not in heads:
            heads.append(m[1])
    text = re.sub(r"let (" + W + r") = (" + "|".join(re.escape(h) for h in heads) + r")(?:\.before)+ in", r"let \1 = \2 in", text)
    for lemma, at in names.views.items():
        n = names.steps(place, at)
        if n is not None:
            text = re.sub(r"(?<![\w.-])" + re.escape(lemma) + r" (" + "|".join(re.escape(h) for h in heads) + r")((?:\.before)*)(?![\w.-])", lambda m: lemma + " " + m[1] + f" AT<{place}|{names.place_new.get(place, '') if goal else ''}>{at}<", text)

    def sub(m):
        f, rest = m[3], m[4]
        if f == "before":
            return m[0]
        if f == "pre":
            f = "requires"
        if f == "type_size":
            f = "size_of"
        if f in KEEP:
            return m[1] + "." + f + rest
        tail = rest.split(".")[1:]
        for g in [f] + BACK.get(f, []):
            got = names.arm(place, norm(g), tail)
            if got:
                return m[1] + "." + got[1] + "".join("." + t for t in tail[got[0]:])
        for g in [f] + BACK.get(f, []):
            new = chain.get(norm(g)) or names.flat.get(norm(g))
            if new:
                return m[1] + "." + new + rest
        for old, new in list(chain.items()) + list(names.flat.items()):
            if plain(old) == plain(f):
                return m[1] + "." + new + rest
        return m[0]

    text = path_pattern(heads).sub(sub, text)
    return turn_clauses(text, names, heads)


def turn_clauses(text, names, heads):
    """Numbers behind requires and ensures become names of clauses, also behind what a let binds to one."""
    whose = {}
    for m in re.finditer(r"let (" + W + r") = ((?:" + W + r"\.)*(?:requires|ensures)|" + W + r"\." + W + r") in", text):
        parts = m[2].split(".")
        if parts[0] not in heads:
            continue
        if parts[-1] == "requires" and len(names.requires) > 1:
            whose[m[1]] = ("", names.requires)
        elif parts[-1] == "ensures" and len(CLAUSES.get(names.callee.get(parts[-2], ""), ([], []))[1]) > 1:
            whose[m[1]] = ("", CLAUSES[names.callee[parts[-2]]][1])
        elif parts[-1] in names.callee and len(CLAUSES.get(names.callee[parts[-1]], ([], []))[1]) > 1:
            whose[m[1]] = (".ensures", CLAUSES[names.callee[parts[-1]]][1])

    def sub(m):
        head, mid, word, tail = m[1], m[2], m[3], m[4]
        if word == "requires":
            return named(head + mid + "." + word, tail, names.requires) if len(names.requires) > 1 else m[0]
        step = mid.split(".")[-1] if mid else ""
        clauses = CLAUSES.get(names.callee.get(step, ""), ([], []))[1]
        return named(head + mid + "." + word, tail, clauses) if len(clauses) > 1 else m[0]

    text = re.sub(r"(?<![\w.-])(" + W + r")((?:\.(?!requires\b|ensures\b)" + W + r")*)\.(requires|ensures)((?:\.[01])+)(?![\w])", sub, text)
    def kept(m):
        step, what, tail = m[1], m[2], m[3]
        i = tail.count(".1")
        if what == "new" or step in names.callee:
            params = names.of["params"].get(names.callee.get(step, ""), [])
        else:
            params = next((vs for (_o, new), vs in names.of["loops"] if new == step), [])
        if tail == ".1" * i + ".0" and i < len(params):
            return f".{step}.{what}.{params[i]}"
        return m[0]

    text = re.sub(r"\.(" + W + r")\.(new|auto)((?:\.1)*\.0)(?![\w])", kept, text)
    for v, (mid, clauses) in whose.items():
        text = re.sub(r"(?<![\w.-])(" + re.escape(v + mid) + r")((?:\.[01])+)(?![\w])", lambda m: named(m[1], m[2], clauses), text)
    return text


def chunks(text):
    """Top-level pieces of a file: (comment, lines)."""
    out, comment, cur = [], [], []
    for line in text.split("\n"):
        if not line.strip():
            if cur:
                cur.append(line)
            elif comment:
                comment.append(line)
            continue
        if line[0] in " \t}":
            cur.append(line)
            continue
        if line.startswith("--"):
            if cur:
                out.append((comment, cur))
                comment, cur = [], []
            comment.append(line)
            continue
        if cur:
            out.append((comment, cur))
            comment, cur = [], []
        cur = [line]
    if cur or comment:
        out.append((comment, cur))
    return [(c, "\n".join(l).rstrip()) for c, l in out]


def definitions(pieces):
    """Signatures with the pieces that define them."""
    out = []
    for comment, text in pieces:
        first = text.split("\n")[0]
        m = SIG.match(text)
        if first.startswith(("use ", "pub use ")):
            out.append(["use", comment, None, [text]])
        elif first.startswith("unfolding "):
            out[-1][3].append(text)
        elif m and not re.match(r"(module|record|data) ", first) and (re.match(r"^(?:abbrev |unfoldable |pub )*" + W + r"(?:\s+" + W + r")*\s*:", first)):
            out.append(["def", comment, m, [text]])
        elif text == "":
            out.append(["note", comment, None, []])
        elif re.match(r"(pub )?(module|record|data) ", first):
            out.append(["block", comment, None, [text]])
        elif out and out[-1][0] == "def":
            if comment:
                out[-1][3].extend(comment)
            out[-1][3].append(text)
        else:
            out.append(["block", comment, None, [text]])
    return out


def invariants_of(sig, texts, names, kind):
    m = re.match(r"tie\.(?:invariant|decreases)-(\S+)$", sig[4].strip())
    loop = m[1]
    for i, ((old, new), variables) in enumerate(names.of["loops"]):
        if norm(old) == norm(loop) or norm(new) == norm(loop):
            break
    else:
        return None
    changed = names.of["changed"][i]
    body = "\n".join(texts[1:])
    head = re.match(r"^" + re.escape(sig[2]) + r"((?:\s+" + W + r")*?)\s+=\s*", body)
    if not head:
        return None
    params = head[1].split()
    rest = body[head.end():]
    n = len(variables)
    live = [v for v, ch in zip(variables, changed) if ch]
    if len(params) < n + len(live):
        return None
    to = {}
    for p, v, ch in zip(params, variables, changed):
        to[p] = f"l.initial.{v}" if ch else f"l.{v}"
    for p, v in zip(params[len(params) - len(live):] if live else [], live):
        to[p] = f"l.{v}"
    to.pop("_", None)
    if any(re.search(r"(?<![\w.-])" + re.escape(p) + r"(?![\w-])", rest) for p in params[n:len(params) - len(live)]):
        return None
    record = next(v for v in ("l", "v", "s", "at") if not re.search(r"(?<![\w.-])" + v + r"(?![\w-])", re.sub("|".join(re.escape(p) for p in sorted(params, key=len, reverse=True)) if v in params else "\0", " ", rest)))
    to = {p: record + t[1:] for p, t in to.items()}
    rest = substitute(rest, to)
    name = f"{kind}-{new}"
    unfolding = [t for t in texts[1:] if t.startswith("unfolding ")]
    return f"abbrev pub {name} : goal.{name}\n{name} {record} = {rest}"


def substitute(text, to):
    """The text with names replaced, but for those that a λ, a let or a pair of its binds."""
    out = []
    hidden = [set()]
    for m in re.finditer(r"λ ((?:\([^()]*\)|[^.\s()]+)(?: (?:\([^()]*\)|[^.\s()]+))*)\.|[(){}\[\]]|\.|" + W + r"|\s+|.", text, re.S):
        t = m[0]
        if m[1] is not None:
            bound = set()
            for b in re.findall(r"\(([^():]*):|([^\s()]+)", m[1]):
                bound |= set((b[0] or b[1]).split())
            binders = re.sub(r"(?<=:)[^()]*", lambda q: "".join(to.get(w, w) if re.fullmatch(W, w) else w for w in re.split(r"(\s+)", q[0])), m[1])
            hidden[-1] = hidden[-1] | bound
            out.append("λ " + binders + ".")
            continue
        if t in "([{":
            hidden.append(set(hidden[-1]))
        elif t in ")]}" and len(hidden) > 1:
            hidden.pop()
        if t in to and t not in hidden[-1] and not (out and out[-1] == "."):
            out.append(to[t])
            continue
        out.append(t)
    return "".join(out)


def drop_views(text):
    """A lemma from one place to an earlier one goes: a later place has the earlier one's fields."""
    views = re.findall(r"(?m)^(?:abbrev |unfoldable |pub )*(" + W + r") : tie\.[A-Z][^→\n]*→\s*tie\.[A-Z][^→\n]*$", text)
    for v in views:
        text = re.sub(r"(?m)^(?:--[^\n]*\n)*(?:abbrev |unfoldable |pub )*" + re.escape(v) + r" : tie\.[^\n]*\n(?:unfolding[^\n]*\n)*" + re.escape(v) + r" [^\n]*\n(?:[ \t]+[^\n]*\n)*\n?", "", text)
        text = re.sub(r"(?<![\w.-])\(" + re.escape(v) + r" (" + W + r"(?:\." + W + r")*)\)", r"\1", text)
        text = re.sub(r"(?<![\w.-])" + re.escape(v) + r" (?=[\w(])", "", text)
    return text


def turn(path, of, module, own=""):
    names = Names(of, own)
    text = drop_views(open(path, encoding="utf-8").read())
    text = re.sub(r"\.pre(?=\.[01])", ".requires", text)
    for old, new in of["args"]:
        if not old.startswith(".args ."):
            continue
        old, new = old[len(".args ."):], new[len(".args ."):]
        text = re.sub(r"(?<=\.)args\." + re.escape(old) + r"(?![\w-])", "args." + new, text)
        for m in re.findall(r"let (" + W + r") = (?:" + W + r"\.)+args in", text):
            text = re.sub(r"(?<![\w.-])" + re.escape(m) + r"\." + re.escape(old) + r"(?![\w-])", m + "." + new, text)
    defs = definitions(chunks(text))
    uses, answers, invs, said = [], [], [], []
    header = []
    if defs and defs[0][1]:
        header = defs[0][1]
        defs[0][1] = []
    renamed = {}
    for kind, comment, sig, texts in defs:
        if kind == "def":
            m = re.match(r"tie\.Need-([^\s()]+)", sig[4].strip())
            if m and names.need(m[1]):
                renamed[sig[2]] = names.need(m[1])[0]
    for kind, comment, sig, texts in defs:
        if kind == "def" and not sig[4].startswith("tie."):
            q = re.match(r"\((" + W + r") : tie\.(?!Need)([A-Z][^\s()]*)[^()]*\)", sig[4])
            if q and names.place(q[2])[0]:
                names.views[sig[2]] = names.place(q[2])[0]
    for kind, comment, sig, texts in defs:
        if kind == "use":
            t = texts[0]
            if t.endswith(".Statement.{statement}") or t.endswith(".Tie as tie"):
                continue
            uses.append(t)
            continue
        if kind != "def":
            if texts:
                answers.append((comment, turn_paths("\n".join(texts), names, None), None))
            continue
        typ = sig[4].strip()
        if re.match(r"tie\.(invariant|decreases)-", typ):
            which = re.match(r"tie\.(invariant|decreases)-", typ)[1]
            it = invariants_of([None, None, sig[2], None, typ], texts, names, which)
            if it is None:
                said.append(f"look: {path}: {sig[2]} is not turned")
            else:
                invs.append((comment, it))
            continue
        if re.search(r"\{M : Type 1\} → statement", typ) or "tie.close" in "\n".join(texts):
            skip = {d[2][2] for d in defs if d[0] == "def" and re.match(r"tie\.(invariant|decreases)-", d[2][4].strip())}
            more, wrong = unnamed("\n".join(texts), names, renamed, skip)
            if wrong:
                said.append(f"look: {path}: {wrong}")
            for new, eq, place, head in more:
                eq = turn_paths(eq, names, place, (head,), True)
                clauses = CLAUSES.get(names.callee.get(new[:-len("-requires")], ""), ([], []))[0] if new.endswith("-requires") else names.ensures if new.startswith("returns") else []
                if len(clauses) > 1:
                    q = re.match(re.escape(new) + r" " + W + r" =", eq)
                    made = as_record(eq[q.end():], clauses)
                    if made:
                        eq = eq[:q.end()] + " " + made.lstrip()
                answers.append(([], f"pub {new} : goal.{new}\n{eq}", new))
            continue
        m = re.match(r"tie\.Need-([^\s()]+)", typ)
        body = "\n".join(texts[1:])
        if m:
            got = names.need(m[1])
            if not got:
                said.append(f"look: {path}: no goal stands for {m[1]}")
                answers.append((comment, "-- ?? " + sig[0].replace("\n", "\n-- ") + "\n-- " + body.replace("\n", "\n-- "), None))
                continue
            new, place = got
            lines = texts[1:]
            unf = [l for l in lines if l.startswith("unfolding ")]
            eq = "\n".join(l for l in lines if not l.startswith("unfolding "))
            eq = re.sub(r"(?m)^" + re.escape(sig[2]) + r"(?=[\s])", new, eq)
            eq = re.sub(r"(?m)^(" + re.escape(new) + r" (?:c|v|h)) κs(?= |$)", r"\1", eq)
            if re.fullmatch(re.escape(new) + r" c =\s*search (rules|needs)", eq.strip()):
                if unf:
                    answers.append((comment, f"pub {new} : goal.{new}\n" + "\n".join(unf) + f"\n{new} c = search rules", new))
                continue
            head = re.match(re.escape(new) + r" (" + W + r")", eq)
            heads = (head[1],) if head else ("c",)
            eq = turn_paths(eq, names, place, heads, True)
            clauses = None
            asks = re.match(r"(.*)-requires((?:-.*)?)$", new)
            if asks:
                callee = names.callee.get(asks[1] + asks[2]) or names.callee.get(asks[1]) or ""
                clauses = of["asked"].get(new) or CLAUSES.get(callee, ([], []))[0]
            elif new.startswith("returns"):
                clauses = names.ensures
            if clauses and len(clauses) > 1:
                q = re.match(re.escape(new) + r"((?:\s+" + W + r")*?)\s*=", eq)
                made = as_record(eq[q.end():], clauses) if q and "\n" + new not in eq else None
                if made:
                    eq = eq[:q.end()] + " " + made.lstrip()
                elif "search rules" not in eq:
                    said.append(f"look: {path}: {new} wants a record of {', '.join(clauses)}")
            answers.append((comment, f"pub {new} : goal.{new}\n" + "".join(u + "\n" for u in unf) + eq, new))
            continue
        # a lemma of the file, perhaps over a place
        whole = "\n".join(texts)
        pl = None
        heads = ["c"]
        for q in re.finditer(r"tie\.(Need-)?([A-Z][^\s()]*)", whole):
            if q[1]:
                continue
            old, new = names.place(q[2])
            if old:
                pl = pl or old
        def place_sub(q):
            old, new = names.place(q[1])
            return "tie." + (new or q[1])
        heads += [q for q in re.findall(r"\((" + W + r") : tie\.(?!Need)[A-Z]", whole) if q not in heads]
        whole = turn_paths(whole, names, pl, heads)
        whole = re.sub(r"tie\.(?!Need)([A-Z][^\s()]*)", lambda q: "lts." + (names.place(q[1])[0] or q[1]) + " AT", whole)
        whole = re.sub(r"\binvariant-(loop[\w-]*)", lambda q: "goal.the-invariant-" + loop_new(names, q[1]), whole)
        whole = re.sub(r"\bdecreases-(loop[\w-]*)", lambda q: "goal.the-decreases-" + loop_new(names, q[1]), whole)
        answers.append((comment, whole, None))
    # answers that cite one another
    base = os.path.dirname(path)
    made = r"\.(\w+)_(?:lem|holds)\.(ensures|result|new|auto|invariant|true|false)(?![\w-])"
    answers = [(c, re.sub(made, r".\1.\2", it), new) for c, it, new in answers]
    text_a = ""
    for comment, it, new in answers:
        it = re.sub(r"(?<![\w.-])(" + W + r")(?![\w-])", lambda q: renamed.get(q[1], q[1]) if q[1] in renamed and q[1] != new else q[1], it) if renamed else it
        text_a += "\n" + "".join(c + "\n" for c in comment if c.strip()) + it + "\n"
    use_text = "".join(u + "\n" for u in uses)
    if any("lts." in it for _, it, _ in answers):
        use_text_a = use_text + f"use {module}.Tie as tie\nuse {module}.Lts as lts\nuse {module}.Reads as reads\n"
    else:
        use_text_a = use_text
    os.remove(path)
    head = "".join(h + "\n" for h in header if h.strip())
    if answers:
        with open(os.path.join(base, "Answers.antt"), "w", encoding="utf-8") as f:
            f.write(head + use_text_a + f"use {module}.Goals as goal\n" + text_a)
    if invs:
        with open(os.path.join(base, "Invariants.antt"), "w", encoding="utf-8") as f:
            f.write((head if not answers else "-- What the loop keeps, and what falls.\n") + use_text + f"use {module}.Given as goal\n")
            for comment, it in invs:
                f.write("\n" + "".join(c + "\n" for c in comment if c.strip()) + it + "\n")
    for s in said:
        print(s)


def spec_args(text):
    """What tie.spec is given, in order."""
    m = re.search(r"tie\.spec\b", text)
    if not m:
        return []
    out, i = [], m.end()
    while i < len(text):
        ch = text[i]
        if ch.isspace():
            i += 1
        elif ch == "(":
            depth, j = 0, i
            while j < len(text):
                depth += (text[j] == "(") - (text[j] == ")")
                j += 1
                if depth == 0:
                    break
            out.append(text[i:j])
            i = j
        elif ch == ")":
            break
        else:
            q = re.match(W, text[i:])
            if not q:
                break
            out.append(q[0])
            i += len(q[0])
    return out


def unnamed(text, names, renamed, skip):
    """Answers that stood in tie.spec itself: (goal, equation, place)."""
    args = [a for a in spec_args(text) if a not in skip]
    needs = names.of["needs"]
    rich = [a for a in args if a.startswith("(") and not re.fullmatch(r"\(λ c( κs)?\.\s*search (rules|needs)\s*\)", a) or not a.startswith("(") and a not in renamed]
    if not rich:
        return [], None
    if len(args) != len(needs):
        return [], f"{len(args)} answers for {len(needs)} goals, of which these have no name: " + " ".join(" ".join(r.split()) for r in rich)
    out = []
    for a, (old, new), (place, _n) in zip(args, needs, names.of["asked_at"]):
        if a not in rich:
            continue
        q = re.match(r"\(λ (" + W + r")(?: κs)?\.\s*(.*)\)$", a, re.S)
        if a.startswith("(") and q:
            out.append((new, f"{new} {q[1]} = {q[2]}", place, q[1]))
        elif a in names.views:
            out.append((new, f"{new} c = {a} c", place, "c"))
        else:
            out.append((new, f"{new} c = {a} c", place, "c"))
    return out, None


def loop_new(names, old):
    for (o, n), _v in names.of["loops"]:
        if norm(o) == norm(old):
            return n
    return old


def main():
    listed, crate, *only = sys.argv[1:]
    data = json.load(open(listed))
    table = os.path.join(os.path.dirname(os.path.abspath(__file__)), "names.tsv")
    for row in open(table, encoding="utf-8"):
        old, new = row.rstrip("\n").split("\t")
        BACK.setdefault(new, []).append(old)
    CLAUSES.update(clause_names(os.path.dirname(os.path.dirname(os.path.abspath(crate)))))
    name = os.path.basename(os.path.normpath(crate))
    done = 0
    for k, of in data.items():
        if not k.endswith(".Lts"):
            continue
        fn = k.split(".", 1)[1][: -len(".Lts")]
        if only and fn not in only:
            continue
        path = os.path.join(crate, "proofs", *fn.split("."), "Proof.antt")
        if not os.path.exists(path):
            continue
        if "Tie as tie" not in open(path, encoding="utf-8").read():
            print(f"look: {path}: a walk by hand")
            continue
        turn(path, of, f"Rattle.{name}.proofs.{fn}", "::".join([name, *fn.split(".")]))
        done += 1
    print(f"{name}: {done} turned")


main()
