#!/usr/bin/env python3
"""Counts the places of docs/DESIGN-PASS.md in crates/*/src: python3 tools/places.py, with -v each place by file and line."""
import collections
import glob
import re
import sys

VERBOSE = "-v" in sys.argv[1:]
FILES = sorted(glob.glob("crates/*/src/**/*.rt", recursive=True))
TEXTS = {f: open(f, encoding="utf-8").read() for f in FILES}
FN = re.compile(r"^( *)(?:#\[[^\n]*\]\n *)*(?:pub )?(?:extern \"C\" )?fn (\w+)", re.M)
ENUM = re.compile(r"^(?:pub )?enum (\w+) \{\n(.*?)^\}", re.M | re.S)
STRUCT = re.compile(r"^(?:pub )?struct (\w+)[^\n{]*\{\n(.*?)^\}", re.M | re.S)
ABSENT = r"Refused|None|Never|Broken|Unkept|Missing|End"


def line_of(file, at):
    return TEXTS[file].count("\n", 0, at) + 1


def functions(file):
    """Each function of a file: its name, its place, its parameters, its contract and its body."""
    text = TEXTS[file]
    for found in FN.finditer(text):
        at = text.find("(", found.end())
        depth, i = 0, at
        while True:
            depth += {"(": 1, ")": -1}.get(text[i], 0)
            if depth == 0:
                break
            i += 1
        body = re.compile(r"^%s\{\n(.*?)^%s\}" % (found[1], found[1]), re.M | re.S).search(text, i)
        same_line = re.compile(r"[^\n]*\{\n(.*?)^%s\}" % found[1], re.M | re.S).match(text, i)
        if same_line and (not body or same_line.start(1) < body.start()):
            body = same_line
        if not body:
            continue
        yield found[2], line_of(file, found.start()), text[at + 1 : i], text[i + 1 : body.start(1)], body[1]


def parameters(text):
    return [re.sub(r"'a ", "", " ".join(p.split())) for p in re.split(r",\s*(?![^<\[(]*[>\])])", text) if p.strip()]


def shape(body):
    """A body with every name and number in the place of which another could stand."""
    body = re.sub(r"//[^\n]*", "", body)
    names = {}
    keep = {"let", "mut", "if", "else", "while", "loop", "for", "in", "match", "return", "break", "continue", "as", "true", "false"}

    def word(found):
        w = found[0]
        return w if w in keep else names.setdefault(w, "n%d" % len(names))

    return " ".join(re.sub(r"\w+", word, body).split())


def own_results():
    for f, text in TEXTS.items():
        for e in ENUM.finditer(text):
            if re.search(r"^    (%s)\b" % ABSENT, e[2], re.M):
                yield f, line_of(f, e.start()), "enum " + e[1]


def flags():
    for f, text in TEXTS.items():
        for s in STRUCT.finditer(text):
            if re.search(r"^    (pub )?(found|ready): bool|^    (pub )?outcome: ", s[2], re.M):
                yield f, line_of(f, s.start()), "struct " + s[1]


def codes():
    limits = re.compile("MOST|LEAST|LAST|SMALL|FRONTS|COLUMNS")
    for f, text in TEXTS.items():
        for c in re.finditer(r"^ *(?:pub )?const ([A-Z_]+): (u8|u32|usize) = (\d+);\n", text, re.M):
            if int(c[3]) <= 24 and not limits.search(c[1]):
                yield f, line_of(f, c.start()), c[1]


def twins():
    groups = collections.defaultdict(list)
    for f in FILES:
        for name, line, _, _, body in functions(f):
            if len([l for l in body.split("\n") if l.strip()]) >= 4:
                groups[shape(body)].append((f, line, "fn " + name))
    for group in groups.values():
        if len(group) > 1:
            yield from group


def counted_loops():
    for f, text in TEXTS.items():
        for l in re.finditer(r"^[^/\n]*\b(while |loop \{)", text, re.M):
            yield f, line_of(f, l.start()), l[0].strip()


def by_hand():
    for f in FILES:
        for name, line, _, _, body in functions(f):
            body = " ".join(body.split())
            if re.fullmatch(r"\(?[\w.*% ]+\)? as \w+", body) or re.fullmatch(r"if (\w+) < (\w+) \{ (\2|\1) \} else \{ (\1|\2) \}", body):
                yield f, line, "fn " + name
        for l in re.finditer(r"^ *(\w+): \1,\n", TEXTS[f], re.M):
            yield f, line_of(f, l.start()), l[0].strip()


def travelling():
    groups = collections.defaultdict(list)
    for f in FILES:
        for name, line, params, _, _ in functions(f):
            ps = parameters(params)
            for i in range(len(ps) - 2):
                groups[tuple(ps[i : i + 3])].append((f, line, "fn " + name))
    seen = set()
    for key, group in groups.items():
        if len(group) >= 3:
            for place in group:
                if place not in seen:
                    seen.add(place)
                    yield place


def facts():
    groups = collections.defaultdict(list)
    for f in FILES:
        for name, line, _, contract, _ in functions(f):
            for c in re.finditer(r"requires[^{]*\{(.*?)\}\n", contract + "\n", re.S):
                for part in " ".join(c[1].split()).split("×"):
                    groups[part.strip(" ()")].append((f, line, "fn " + name))
    for fact, group in groups.items():
        if len({p[:2] for p in group}) >= 3 and fact:
            yield from ((f, line, name + ": " + fact) for f, line, name in group)


def lengths_beside():
    for f in FILES:
        for name, line, params, _, _ in functions(f):
            if re.search(r"\[u\d+; [\w:]+\]|\[usize; [\w:]+\]|&(?:'a )?(?:mut )?\[u\d+\]", params) and re.search(r"\b(n|count|at|have|rows|size|k): usize", params):
                yield f, line, "fn " + name
        for s in STRUCT.finditer(TEXTS[f]):
            if len(re.findall(r": \[\w+; [\w:]+\],", s[2])) > 1 or (re.search(r": \[\w+; ", s[2]) and re.search(r"(count|size|length|entries): usize", s[2])):
                yield f, line_of(f, s.start()), "struct " + s[1]


def switches():
    for f, text in TEXTS.items():
        for l in re.finditer(r"^ *match (letter|command|call|byte) \{", text, re.M):
            yield f, line_of(f, l.start()), l[0].strip()


POINTS = [
    ("1", "own enums of the shape of Option or Result", own_results),
    ("1", "a flag or an outcome with values beside it", flags),
    ("1", "numbers for kinds, steps, refusals and places", codes),
    ("2", "functions of one shape, names and numbers left out", twins),
    ("3", "loops written with while or loop", counted_loops),
    ("4", "conversions and maxima by hand, fields as name: name", by_hand),
    ("5", "functions with three parameters that travel together", travelling),
    ("5", "premises that stand in three contracts or more", facts),
    ("6", "a length beside a buffer, parallel arrays", lengths_beside),
    ("7", "switches on a letter or a byte", switches),
]

for point, what, places in POINTS:
    found = sorted(set(places()))
    print(f"{point}  {len(found):4}  {what}")
    if VERBOSE:
        for f, line, name in found:
            print(f"         {f}:{line}  {name}")

answers = [f for f in glob.glob("crates/*/proofs/**/*.antt", recursive=True)]
lines = sum(open(f, encoding="utf-8").read().count("\n") for f in answers)
print(f"8  {lines:4}  lines of proofs, in {len(answers)} files")
