#!/usr/bin/env python3
"""Respells the repository's own definitions and lemmas in snake case, by the rows of names.tsv beside it: old, a tab, new.

usage: respell.py table      in a tree as port.py leaves it: writes names.tsv, and says which names fall together
       respell.py apply      at the top of such a tree: respells crates/ (specs, proofs, src, edits) and the code spans of pages

A name that stands for two things after it is respelled gets `_lem` where it is the lemma, `_holds` where it is a field. Names of src/, what
the checker makes (behind `tie.`, `goal.` and in the paths of `c`), module paths and strings stay.
"""

import collections
import glob
import os
import re
import sys

HERE = os.path.dirname(os.path.realpath(__file__))
TABLE = os.path.join(HERE, "names.tsv")
NAME = r"[^\s(){}.;,@\"«»\[\]|`:]+"
HEAD = re.compile(
    r"^(\s*)((?:abbrev|unfoldable|pub|private|opaque|ruleset|instance|constructor|where|field)\s+)*"
    r"(" + NAME + r"(?:\s+" + NAME + r")*?)\s*((?:\{[^{}]*\}\s*)*):(?=\s|$)"
)
OPENS = re.compile(r"^(\s*)(?:abbrev |unfoldable |pub )*(record|data)\s+(\S+)")
ODD = re.compile(r"[a-z0-9][A-Z]|-")
USE = re.compile(r"^(\s*(?:pub )?(?:unfoldable )?(?:pub )?use )([^{\n]*)(\{[^}]*\})?(.*)$")
# Names that would fall together with a field or a name of src/: chosen by hand.
CHOSEN = {
    "fromStart": "from_start_lem",
    "hasRoom": "has_room_for",
    "isOpen": "is_open_at",
    "noneRead": "none_read_yet",
    "oneMore": "one_more_of",
    "rowRead": "row_read_of",
}
KEYWORDS = {"let", "where", "module", "in", "record", "data", "use", "mod", "elim", "λ", "rw", "simp"}


def antts(kinds=("specs", "proofs")):
    for kind in kinds:
        for path in sorted(glob.glob(f"crates/*/{kind}/**/*.antt", recursive=True)):
            yield path


def snake(name):
    words = re.sub(r"(?<=[a-z0-9])[A-Z]", lambda m: "_" + m[0].lower(), name)
    return words.replace("-", "_")


def declared():
    """The names that the texts declare: each with the kinds of things it names (word, lemma, field, tie)."""
    found = collections.defaultdict(set)
    for path in antts():
        inside = None
        for line in open(path, encoding="utf-8"):
            text = re.split(r"(?:^|\s)--(?=\s|$)", line)[0].rstrip("\n")
            if not text.strip():
                continue
            depth = len(text) - len(text.lstrip())
            if inside is not None and depth <= inside:
                inside = None
            m = OPENS.match(text)
            if m:
                inside = depth
                continue
            m = HEAD.match(text)
            if not m:
                continue
            words = m[3].split()
            if words[0] in KEYWORDS:
                continue
            tie = text[m.end():].strip().startswith("tie.")
            for w in words:
                if "Need-" in w or w.startswith("("):
                    continue
                if inside is not None:
                    found[w].add("field")
                elif tie:
                    found[w].add("tie")
                elif "-" in w or "/proofs/" in path:
                    found[w].add("lemma")
                else:
                    found[w].add("word")
    return found


def rust_names():
    names = set()
    for path in glob.glob("crates/*/src/**/*.rt", recursive=True):
        names |= set(re.findall(r"\bfn (\w+)", open(path, encoding="utf-8").read()))
    return names


def table():
    found = declared()
    old = {w for w, kinds in found.items() if ODD.search(w) and not w[0].isupper() and kinds != {"tie"}}
    old = {w for w in old if re.fullmatch(r"[A-Za-z][\w'-]*", re.sub(r"[^\x00-\x7f]", "x", w)) and not w.endswith("-spec")}
    new = collections.defaultdict(set)
    for w in found:
        if not w[0].isupper() and found[w] != {"tie"}:
            new[snake(w)].add(w)
    rows = dict(CHOSEN)
    for to, olds in sorted(new.items()):
        olds = {w for w in olds if w not in CHOSEN}
        # the definition has the plain name; a lemma of the same name says that it is one
        words = sorted(olds, key=lambda w: ("word" not in found[w], "-" in w, w))
        for i, w in enumerate(words):
            if i == 0:
                if w in old:
                    rows[w] = to
                continue
            end = "_holds" if "field" in found[w] else "_lem"
            extra = "" if i == 1 else str(i)
            rows[w] = to + end + extra
            print(f"falls together: {to}: {words[0]} {sorted(found[words[0]])} and {w} {sorted(found[w])} -> {rows[w]}")
    with open(TABLE, "w", encoding="utf-8") as f:
        for w in sorted(rows):
            f.write(f"{w}\t{rows[w]}\n")
    print(len(rows), "rows")


TOKEN = re.compile(r"(?P<str>\"(?:\\.|[^\"\\\n])*\")|(?P<com>(?:(?<=\s)|^)--(?=\s|$)[^\n]*)|(?P<name>" + NAME + r")|(?P<rest>.)", re.S | re.M)
SPAN = re.compile(r"`[^`\n]*`")


def in_prose(text, rows):
    def span(m):
        return re.sub(NAME, lambda n: rows.get(n[0], n[0]), m[0][1:-1]).join("``")

    text = SPAN.sub(span, text)
    return re.sub(r"(?<![\w`./-])[a-z]\w*[a-z0-9][A-Z]\w*(?![\w/-])", lambda n: rows.get(n[0], n[0]), text)


OWN = set(os.listdir("crates")) if os.path.isdir("crates") else set()
IMPORT = re.compile(r"(?:^|\n)\s*(?:ghost )?(?:pub )?(?:unfoldable )?(?:pub )?use ([^{;\s]+)\{([^}]*)\}")


def foreign(text):
    """The names that a text imports from libraries, and what it calls them."""
    names = set()
    for m in IMPORT.finditer(text):
        parts = m[1].split(".")
        if parts[0] == "Rattle" and len(parts) > 1 and parts[1] in OWN or parts[0] in ("package", "crate"):
            continue
        for it in m[2].split(","):
            names |= set(it.replace(" as ", " ").split())
    return names


def turn_antt(text, rows):
    out_of = foreign(text)
    rows = {o: n for o, n in rows.items() if o not in out_of}
    ties = set()
    for line in text.split("\n"):
        m = HEAD.match(line)
        if m and line[m.end():].strip().startswith("tie."):
            ties |= set(m[3].split())
    out = []
    for line in re.split(r"(?m)^", text):
        m = USE.match(line)
        if m and "Rattle" in line.split("{")[0] or m:
            names = re.sub(NAME, lambda n: rows.get(n[0], n[0]) if n[0] not in ties else n[0], m[3] or "")
            last = m[4]
            head = m[2]
            if not m[3]:
                # 'use PATH as x', 'use PATH.name'
                head = re.sub(r"(?<=\.)(" + NAME + r")(?=\s*$)", lambda n: n[0], head)
            out.append(m[1] + head + names + last + ("\n" if line.endswith("\n") else ""))
            continue
        out.append(line)
    text = "".join(out)
    done, behind_use = [], False
    before = ""
    in_use = False
    for line in re.split(r"(?m)^", text):
        if USE.match(line) or in_use:
            in_use = "{" in line and "}" not in line or in_use and "}" not in line
            if not USE.match(line):
                line = re.sub(NAME, lambda n: rows.get(n[0], n[0]) if n[0] not in ties else n[0], line)
            elif in_use:
                head, names = line.split("{", 1)
                line = head + "{" + re.sub(NAME, lambda n: rows.get(n[0], n[0]), names)
            done.append(line)
            continue
        done.append(turn_line(line, rows, ties))
    return "".join(done)


def turn_line(line, rows, ties):
    out = []
    path = []  # the parts of the dotted name so far
    for m in TOKEN.finditer(line):
        kind, t = m.lastgroup, m[0]
        if kind == "com":
            out.append(in_prose(t, rows))
            continue
        if kind == "name":
            dotted = bool(out) and out[-1] == "." and path
            if not dotted:
                path = []
            if t in rows and t not in ties:
                if not dotted:
                    t2 = rows[t]
                elif not ODD.search(t):
                    t2 = t
                elif path[0] in ("tie", "goal", "statement", "given") or path[0] == "Rattle":
                    t2 = t
                else:
                    t2 = rows[t]
            else:
                t2 = t
            path.append(t)
            out.append(t2)
            continue
        if t != ".":
            if t in ")]}" or kind == "str":
                path = [t]
            else:
                path = []
        out.append(t)
    return "".join(out)


CLAUSE = re.compile(r"(?:requires|ensures|ghost use|ghost)\b[^{};\n]*\{")


def turn_rt(text, rows):
    out_of = foreign(text)
    rows = {o: n for o, n in rows.items() if o not in out_of}
    out = []
    depth, clause = 0, False
    for line in re.split(r"(?m)^", text):
        body, sep, com = line.partition("//") if '"' not in line else (line, "", "")
        if CLAUSE.search(body) or clause or re.match(r"\s*ghost use", body):
            start = CLAUSE.search(body).start() if CLAUSE.search(body) and not clause else 0
            depth += body.count("{") - body.count("}")
            clause = depth > 0
            if not clause:
                depth = 0
            if re.match(r"\s*(?:pub )?ghost use|\s*ghost use", body):
                head, brace, names = body.partition("{")
                body = head + brace + re.sub(NAME, lambda n: rows.get(n[0], n[0]), names)
            elif start == 0 and "::" not in body.split("{")[0] and not body.lstrip().startswith(("requires", "ensures", "ghost")):
                body = turn_line(body, rows, set())
            else:
                body = body[:start] + turn_line(body[start:], rows, set())
        out.append(body + (sep + in_prose(com, rows) if sep else ""))
    return "".join(out)


def apply():
    rows = dict(line.rstrip("\n").split("\t") for line in open(TABLE, encoding="utf-8"))
    n = 0
    jobs = [(p, turn_antt) for p in antts()]
    jobs += [(p, turn_rt) for p in sorted(glob.glob("crates/*/src/**/*.rt", recursive=True))]
    jobs += [(p, turn_antt) for p in sorted(glob.glob("crates/*/must-fail/*.edit"))]
    jobs += [(p, in_prose) for p in sorted(glob.glob("*.md") + glob.glob("docs/*.md"))]
    for path, turn in jobs:
        with open(path, encoding="utf-8") as f:
            text = f.read()
        new = turn(text, rows)
        if new != text:
            n += 1
            with open(path, "w", encoding="utf-8") as f:
                f.write(new)
    print(n, "files respelled")


def tokens(path):
    text = open(path, encoding="utf-8").read()
    return {m[0] for m in TOKEN.finditer(text) if m.lastgroup == "name"}


def meets():
    """Says where a new name meets an old token of its file, that is no row: a variable, a field, a word of the library."""
    rows = dict(line.rstrip("\n").split("\t") for line in open(TABLE, encoding="utf-8"))
    met = collections.defaultdict(list)
    for path in antts():
        has = tokens(path)
        for o in has & rows.keys():
            if rows[o] in has and rows[o] not in rows and rows[o] != o:
                met[(o, rows[o])].append(path)
    for (o, n), paths in sorted(met.items()):
        print(o, n, len(paths), paths[:3])
    words = set(rows.values())
    for path in sorted(glob.glob("crates/*/src/**/*.rt", recursive=True)):
        text = open(path, encoding="utf-8").read()
        for m in re.finditer(r"fn (\w+)(?:<[^>]*>)?\(([^)]*)\)([^{]*(?:(?:requires|ensures)\b[^\n]*\{(?:[^{}]|\{[^{}]*\})*\}\s*)*)", text):
            names = set(re.findall(r"(\w+)\s*:", m[2]))
            used = {rows.get(t[0]) for t in re.finditer(NAME, m[3])}
            if names & used:
                print("parameter", path, m[1], names & used)


if __name__ == "__main__":
    {"table": table, "apply": apply, "meets": meets}[sys.argv[1]]()
