#!/usr/bin/env python3
"""Finds the places in src/ that today's Rattle has another form for, by the points of docs/DESIGN-PASS.md.

    python3 scripts/count_forms.py [--list] [FOLDER]

FOLDER is the top of a checkout (default: the current folder). Without --list only the counts. It goes by text: a place it finds is a
candidate, which that page then names as changed or kept. Printed tables (finite_field's tables.rt) count once.
"""
import collections
import glob
import os
import re
import sys

arguments = [a for a in sys.argv[1:] if a != "--list"]
LIST = "--list" in sys.argv
TOP = arguments[0] if arguments else "."

# Words that name a size or a constant, and so differ between twins.
SIZE_WORDS = ("tiny", "small", "large", "short", "long", "compact", "full")


def source(path):
    text = open(path, encoding="utf-8").read()
    text = re.sub(r"//[^\n]*", "", text)
    cut = text.find("#[cfg(test)]")
    return text if cut < 0 else text[:cut]


def match_brace(text, at):
    depth = 0
    for i in range(at, len(text)):
        if text[i] == "{":
            depth += 1
        elif text[i] == "}":
            depth -= 1
            if depth == 0:
                return i
    return len(text)


class Function:
    def __init__(self, path, name, params, result, clauses, body):
        self.path, self.name, self.params = path, name, params
        self.result, self.clauses, self.body = result, clauses, body

    def place(self):
        return f"{self.path}: {self.name}"


def functions_of(path, text):
    for m in re.finditer(r"\bfn (\w+)(<[^(]*>)?\(", text):
        depth, i = 1, m.end()
        while depth and i < len(text):
            depth += {"(": 1, ")": -1}.get(text[i], 0)
            i += 1
        params = [p.strip() for p in re.split(r",\s*(?![^<(\[]*[>)\]])", text[m.end():i - 1]) if p.strip()]
        head = re.compile(r"\s*(?:->\s*((?:[^{;]|\{(?=\s*\w*\s*\}\s*\]))+?))?\s*(?=\brequires\b|\bensures\b|\{|;|\bwhere\b)").match(text, i)
        result = (head.group(1) or "").strip() if head else ""
        at = head.end() if head else i
        clauses = []
        while True:
            c = re.compile(r"\s*(requires|ensures)\s*(\w+)?\s*\{").match(text, at)
            if not c:
                break
            end = match_brace(text, c.end() - 1)
            clauses.append((c.group(1), " ".join(text[c.end():end].split())))
            at = end + 1
        open_at = text.find("{", at)
        if open_at < 0:
            continue
        end = match_brace(text, open_at)
        yield Function(path, m.group(1), params, result, clauses, text[open_at + 1:end])


files = sorted(glob.glob(os.path.join(TOP, "crates", "*", "src", "**", "*.rt"), recursive=True))
texts = {os.path.relpath(f, os.path.join(TOP, "crates")): source(f) for f in files}
functions = [f for p, t in texts.items() for f in functions_of(p, t)]
found = collections.OrderedDict()


def report(key, places):
    found[key] = places


# 1
report("1a own enums", [f"{p}: {m.group(1)}" for p, t in texts.items() for m in re.finditer(r"\benum (\w+)", t)])
report("1b structs with a flag, a number or an Option beside a value",
       [f"{p}: {m.group(1)}" for p, t in texts.items() for m in re.finditer(r"\bstruct (\w+)[^{;]*\{([^}]*)\}", t)
        if re.search(r":\s*(bool|Option<)|\bnumber:", m.group(2)) and m.group(2).count(":") > 1])
INTEGER = r"(u8|u16|u32|u64|usize)$"
report("1c functions whose number may be a code: an integer result, and a literal returned",
       [f.place() for f in functions if re.match(INTEGER, f.result)
        and re.search(r"return \d+;|=> \d+,|return NO_\w+;|return \w+::refused|\n\s*\d+\s*$", f.body)])
report("1d functions that answer bool beside what they write",
       [f.place() for f in functions if f.result == "bool" and any("&mut" in p for p in f.params)])


# 2
def shape_of(body):
    text = re.sub(r"\b(" + "|".join(SIZE_WORDS) + r")\b", "SIZE", re.sub(r"_(" + "|".join(SIZE_WORDS) + r")\b", "_SIZE", body))
    text = re.sub(r"\d+", "N", text)
    return " ".join(text.split())


groups = collections.defaultdict(list)
for f in functions:
    if len(f.body.split()) > 4:
        groups[shape_of(f.body)].append(f)
twins = [g for g in groups.values() if len(g) > 1]
names = collections.defaultdict(list)
for f in functions:
    key = re.sub(r"_?\d+$", "", re.sub(r"_?(" + "|".join(SIZE_WORDS) + r")$", "", f.name))
    if key != f.name:
        names[(f.path, key)].append(f)
by_name = [g for g in names.values() if len(g) > 1]
sets = []
for g in twins + by_name:
    for s in sets:
        if any(f in s for f in g):
            s.extend(f for f in g if f not in s)
            break
    else:
        sets.append(list(g))
report("2 groups of twins", [", ".join(f.place() for f in s) for s in sets])

# 3
report("3 loops by hand", [f"{f.place()}: while {m.group(1).strip()}" for f in functions
                           for m in re.finditer(r"\bwhile ([^{]*)\{", f.body)])

# 4
report("4a a conversion as a function: its body is one cast",
       [f.place() for f in functions if re.fullmatch(r"\s*\(?\w+\)? as \w+\s*", f.body)])
report("4b a conversion or a text by a match of constants",
       [f.place() for f in functions if re.search(r"\bmatch\b", f.body)
        and len(re.findall(r"=> (?:\d+|[A-Z]\w*::\w+(?:\([^)]*\))?|\"[^\"]*\"),", f.body)) >= 4])
report("4c words copied, cleared or compared one by one",
       [f.place() for f in functions if re.search(r"while[^{]*\{\s*(?:\w+\[[^\]]*\] = (?:\w+\[[^\]]*\]|\d+);|if \w+\[[^\]]*\] != [^{]*\{\s*return false;\s*\})\s*\w+ [+-]= 1;\s*\}", f.body)])
report("4d structs copied field by field",
       [f.place() for f in functions if len(re.findall(r"(\w+): \w+\.\1\b", f.body)) >= 3])
report("4e lawful kinds told by comparisons in a row", [f.place() for f in functions
                                                         if len(re.findall(r"if \w+ == b'[^']*' \{\s*return [A-Z]\w*::", f.body)) >= 3])

# 5
facts = collections.defaultdict(list)
for f in functions:
    for kind, text in f.clauses:
        if kind == "requires":
            for part in re.split(r" × ", text):
                facts[part.strip().strip("()")].append(f)
report("5a facts that three or more contracts require",
       [f"{len(set(x.place() for x in fs))} times: {t}" for t, fs in sorted(facts.items(), key=lambda x: -len(x[1]))
        if len(set(x.place() for x in fs)) >= 3])
kinds = [(f, frozenset(p for p in f.params if ":" in p)) for f in functions]
together = collections.defaultdict(set)
for i, (f, a) in enumerate(kinds):
    for g, b in kinds[i + 1:]:
        if len(a & b) >= 2:
            together[a & b] |= {f.place(), g.place()}
closed = {s: sum(1 for _, a in kinds if s <= a) for s in together}
largest = [(n, s) for s, n in closed.items() if n >= 5
           and not any(s < t and closed[t] * 3 >= n * 2 for t in closed)]
report("5b parameters that five or more functions take together",
       [f"{n} times: " + "; ".join(sorted(s)) for n, s in sorted(largest, key=lambda x: (-x[0], sorted(x[1])))])

# 6
report("6 a buffer with a place or a length beside it",
       [f.place() for f in functions if any(re.search(r"&mut \[", p) for p in f.params)
        and any(re.match(r"(at|from|count|n|length|into|start|first): usize", p) for p in f.params)])

# 7
report("7 a switch on a number that only runs a step",
       [f.place() for f in functions if re.search(r"match \w+ \{(?:\s*(?:\d+|_) => [\w:]+\([^;{}]*\),?)+\s*(?:_ => \d+,\s*)?\}", f.body)
        or len(re.findall(r"if \w+ == \d+ \{\s*[\w:]+\([^;]*\);\s*return;", f.body)) >= 2])

# 8
proofs = [p for p in glob.glob(os.path.join(TOP, "crates", "*", "proofs", "**", "*.antt"), recursive=True)
          if os.path.basename(p) in ("Answers.antt", "Invariants.antt")]
report("8 answers and invariants in proofs/", [os.path.relpath(p, os.path.join(TOP, "crates")) for p in sorted(proofs)])
lines = sum(open(p, encoding="utf-8").read().count("\n") for p in glob.glob(os.path.join(TOP, "crates", "*", "proofs", "**", "*.antt"), recursive=True))

for key, places in found.items():
    print(f"{len(places):4} {key}")
    if LIST:
        for p in places:
            print("       " + p)
print(f"{lines:4} lines in proofs/")
print(f"{len(functions):4} functions, {sum(t.count(chr(10)) for t in texts.values())} lines without comments")
