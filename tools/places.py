#!/usr/bin/env python3
"""Counts the places of docs/DESIGN-PASS.md in the crates' src/, point by point, as they stand in a checkout.

A place is found by its form alone; whether it changes or stays is said on the page. --list prints each place of a point.
"""
import argparse
import collections
import pathlib
import re

FUNCTION = re.compile(r"^(\s*)(pub(?:\(crate\))? )?(?:unsafe )?fn (\w+)")
CLAUSE = re.compile(r"^\s*(requires|ensures)\b")
OWN_WORDS = "also either one_if smaller wide".split()
TABLE = "rom_table/src/table"


class Function:
    """A function as it is written: its signature with clauses, and its body."""

    def __init__(self, path, line, public, name, head, body):
        self.path, self.line, self.public, self.name, self.head, self.body = path, line, public, name, head, body

    def place(self):
        return f"{self.path}:{self.line} {self.name}"


def functions_of(path, lines):
    """The functions of a file that rt fmt has formatted: a body begins at a brace that ends a line and is no clause's."""
    found, i = [], 0
    while i < len(lines):
        m = FUNCTION.match(lines[i])
        if not m:
            i += 1
            continue
        indent, start, in_clause = m.group(1), i, False
        while i < len(lines) and not (lines[i].rstrip() == indent + "{" or (lines[i].endswith("{") and not in_clause)):
            if lines[i].rstrip().endswith(";"):
                break
            i += 1
            in_clause = in_clause or (i < len(lines) and bool(CLAUSE.match(lines[i])))
        head, begin = lines[start:i + 1], i + 1
        while i < len(lines) and lines[i].rstrip() != indent + "}":
            i += 1
        found.append(Function(path, start + 1, bool(m.group(2)), m.group(3), head, lines[begin:i]))
    return found


def without_comment(line):
    return re.sub(r"\s*//.*", "", line)


def structs_of(text):
    for m in re.finditer(r"^(?:pub(?:\(crate\))? )?struct (\w+)[^{;(]*\{(.*?)^\}", text, re.S | re.M):
        fields = re.findall(r"^\s*(?:pub )?(\w+): (.+),$", "\n".join(map(without_comment, m.group(2).splitlines())), re.M)
        yield m.group(1), fields, text[:m.start()].count("\n") + 1


def enums_of(text):
    for m in re.finditer(r"^(?:pub(?:\(crate\))? )?enum (\w+)[^{]*\{(.*?)^\}", text, re.S | re.M):
        body = "\n".join(map(without_comment, m.group(2).splitlines()))
        variants = re.findall(r"^    (\w+)(\(.*?\)| \{.*?\})?,$", body, re.S | re.M)
        yield m.group(1), variants, text[:m.start()].count("\n") + 1


def option_or_result(variants):
    """One variant with a value, and at most one more of which nothing but its name is said: or all others bare."""
    bare = [v for v, data in variants if not data]
    return len(variants) - len(bare) == 1 and len(bare) >= 1


def own_forms(files):
    """Point 1."""
    for path, text in files.items():
        for name, variants, line in enums_of(text):
            if option_or_result(variants):
                yield f"{path}:{line} enum {name}"
        for name, fields, line in structs_of(text):
            flags = [f for f, kind in fields if kind == "bool" or (f == "answer" and kind == "u8")]
            if flags and len(fields) > 1:
                yield f"{path}:{line} struct {name} ({', '.join(flags)} beside a value)"


def numbers_for_answers(functions):
    """Point 1, numbers for refusals: what gives back an answer as a number."""
    for f in functions:
        if re.search(r"-> u8$|-> u8 \{$", "\n".join(without_comment(x) for x in f.head), re.M):
            if re.search(r"\b(DONE|[A-Z]+_[A-Z_]+|MALFORMED|UNCHANGED|answer|verdict)\b", "\n".join(f.body)):
                yield f.place()


def shape_of(body, name):
    """A body with its names of types, constants, functions, literals and fields left out."""
    text = "\n".join(without_comment(x) for x in body)
    text = re.sub(r'b?"(?:[^"\\]|\\.)*"|b\'.\'', "#", text)
    text = re.sub(r"\b[A-Z]\w*\b|\b\d[\w.]*\b", "#", text)
    text = re.sub(r"\bu(8|16|32|64)\b|\busize\b", "#", text)
    names = {}
    text = re.sub(r"\b[a-z_]\w*\b", lambda m: m.group(0) if m.group(0) in KEEP else names.setdefault(m.group(0), f"n{len(names)}"), text)
    return re.sub(r"\s+", " ", text)


KEEP = set("let mut if else while for in match return as true false loop break fn".split())


def twins(functions):
    """Point 2: functions of three lines and more whose bodies differ in names, types, sizes and constants alone."""
    shapes = collections.defaultdict(list)
    for f in functions:
        if len([x for x in f.body if without_comment(x).strip()]) >= 3:
            shapes[shape_of(f.body, f.name)].append(f)
    for group in shapes.values():
        if len(group) > 1:
            yield " = ".join(f.place() for f in group)


def counted_loops(functions):
    """Point 3: a while over a variable that the body moves by one."""
    for f in functions:
        text = [without_comment(x) for x in f.body]
        for at, line in enumerate(text):
            m = re.match(r"^(\s*)while (.*)\{$", line) or re.match(r"^(\s*)while (.*)$", line)
            if not m:
                continue
            end = next((j for j in range(at + 1, len(text)) if text[j] == m.group(1) + "}"), len(text))
            inside = "\n".join(text[at:end])
            if any(re.search(rf"\b{v} [+-]= 1;", inside) for v in re.findall(r"\b[a-z_]\w*\b", m.group(2))):
                yield f"{f.path}:{f.line + len(f.head) + at} {f.name}"


def by_hand(functions):
    """Point 4: calls of the project's own words for what the language has, and the loops and tests that copy or compare rows."""
    for f in functions:
        for line in f.body:
            for word in re.findall(rf"\b({'|'.join(OWN_WORDS)})\(", without_comment(line)):
                yield f"{f.path}:{f.line} {f.name}: {word}"
        if f.name in OWN_WORDS or re.match(r"(copy|same|equal|is_same)(_|$)", f.name):
            yield f.place()


def facts(functions):
    """Point 5: a clause that stands in the requires of three functions and more of one crate."""
    clauses = collections.defaultdict(list)
    for f in functions:
        head = " ".join(without_comment(x).strip() for x in f.head)
        for clause in re.findall(r"\brequires(?: \w+)? \{ (.*?) \}(?= requires| ensures| \{|$)", head):
            for part in re.findall(r"\(([^()]*(?:\([^()]*\)[^()]*)*)\)(?= ×|$)", clause) or [clause]:
                clauses[(f.path.split("/")[1], part.strip())].append(f)
    for (crate, part), where in sorted(clauses.items()):
        if len({f.name for f in where}) >= 3:
            yield f"{crate}: {part} ({len(where)}: {', '.join(f.name for f in where)})"


def travelling(functions):
    """Point 5: three parameters and more that stand together, with their types, in three functions and more of one crate."""
    groups = collections.defaultdict(set)
    for f in functions:
        head = " ".join(without_comment(x).strip() for x in f.head)
        inside = re.search(r"\((.*?)\)(?: ->| requires| ensures| \{|$)", head)
        parameters = [p.strip() for p in inside.group(1).split(",") if ":" in p] if inside else []
        for size in range(3, len(parameters) + 1):
            for at in range(len(parameters) - size + 1):
                groups[(f.path.split("/")[1], tuple(parameters[at:at + size]))].add(f.name)
    kept = {k: v for k, v in groups.items() if len(v) >= 3}
    for (crate, group), names in sorted(kept.items()):
        larger = [k for k in kept if k[0] == crate and len(k[1]) > len(group) and set(group) < set(k[1]) and kept[k] >= names]
        if not larger:
            yield f"{crate}: {', '.join(group)} ({', '.join(sorted(names))})"


def buffers(files, functions):
    """Point 6: an array with a length beside it, arrays side by side, and slices that one index goes through."""
    for path, text in files.items():
        for name, fields, line in structs_of(text):
            arrays = [(f, kind) for f, kind in fields if kind.startswith("[")]
            lengths = [f for f, kind in fields if kind in ("usize", "u64") and arrays]
            sizes = collections.Counter(kind.split("; ")[-1] for _, kind in arrays)
            if lengths or any(n > 1 for n in sizes.values()):
                yield f"{path}:{line} struct {name}"
    for f in functions:
        indexed = collections.defaultdict(set)
        for row, at in re.findall(r"\b([a-z_]\w*)\[(\w+)\]", "\n".join(f.body)):
            indexed[at].add(row)
        if any(len(rows) > 1 and at in "i j k lane id at cell".split() for at, rows in indexed.items()):
            yield f.place() + ": rows indexed side by side"


def switches(functions):
    """Point 7: a match or a chain of tests of a number or a kind whose arms each call another function on the same arguments."""
    for f in functions:
        text = "\n".join(without_comment(x) for x in f.body)
        arms = re.findall(r"=> (\w+)\(([^()]*)\),", text)
        if len(arms) >= 3 and len({a for _, a in arms}) == 1 and len({n for n, _ in arms}) > 1:
            yield f.place()


def answers(root):
    """Point 8: the answers of the functions' proofs."""
    for path in sorted(root.glob("crates/*/proofs/**/Answers.antt")):
        for name in re.findall(r"^pub (\S+) : goal\.", path.read_text(), re.M):
            yield f"{path.relative_to(root)}: {name}"


def places_in(root):
    """Each point with its places."""
    files = {str(p.relative_to(root)): p.read_text() for p in sorted(root.glob("crates/*/src/**/*.rt")) if TABLE not in str(p)}
    functions = [f for path, text in files.items() for f in functions_of(path, text.splitlines())]
    return {
        "1 forms": list(own_forms(files)),
        "1 numbers": list(numbers_for_answers(functions)),
        "2": list(twins(functions)),
        "3": list(counted_loops(functions)),
        "4": list(by_hand(functions)),
        "5 facts": list(facts(functions)),
        "5 together": list(travelling(functions)),
        "6": list(buffers(files, functions)),
        "7": list(switches(functions)),
        "8": list(answers(root)),
    }


def main():
    parser = argparse.ArgumentParser(description=__doc__.splitlines()[0])
    parser.add_argument("--list", metavar="POINT", help="print each place of this point")
    parser.add_argument("checkout", nargs="?", default=".", type=pathlib.Path)
    asked = parser.parse_args()
    for point, places in places_in(asked.checkout).items():
        if asked.list is None:
            print(f"{point:12}{len(places):6}")
        elif asked.list in (point, point.split()[0]):
            print("\n".join(places))


if __name__ == "__main__":
    main()
