#!/usr/bin/env python3
"""Brings the repository's own words of specs/, proofs/ and clauses to snake case: functions, lemmas, fields and constructors that were
written with hyphens or in lower camel case. Types, modules, functions of src/ and names of the library keep theirs.

usage: python3 tools/respell.py [--dry]      at the top of the repository, once, after port.py

A word is the repository's own if an .antt file of specs/ or proofs/ declares it. It is turned wherever it stands as a whole word: in .antt
and .rt files, in must-fail edits, and in comments and pages where it stands between backticks.
"""
import os
import re
import sys

DECL = re.compile(
    r"^ *(?:(?:abbrev|unfoldable|pub|data|record|codata|syntax|prim) +)*(?:\| *)?(?P<names>[^\s(){}.,;:]+(?: [^\s(){}.,;:]+)*) :(?: |$)"
)
WORD = re.compile(r"[^\s(){}\[\].,;:`\"|]+")
OWN_PATH = re.compile(r"Rattle\.(\w+)\.")
# Words that would fall together with another, and what they are called instead. A lemma that would have its function's name gets `_lem`.
LEMMAS = (
    "accepted-by all-rows book-at by-arrival by-order by-room can-plan clash-by comes-before day-of end-at end-stands first-at first-beating "
    "first-plans first-within has-passed head-fits is-desk job-at lates-at least-of left-row list-from next-day no-day no-pair open-desk "
    "order-at pages-held pairs-at plan-line plans-from pushed-rows read-on refused-at refused-by refused-line rows-line run-for said-judged "
    "said-no said-place some-meets table-rows tested-by word-of worst-at worst-held "
    "best_of block_one by_count by_end by_tests digits_in ends_by plain_row"
)
INSTEAD = {w: w.replace("-", "_") + "_lem" for w in LEMMAS.split()}
INSTEAD.update({"plan-orders": "orders_of_plans", "in-time": "kept_in_time"})
# Files whose names fall together with a module that Rattle makes.
MOVED = {"crates/row_calls/specs/Contracts.antt": "Cited", "crates/row_reader/specs/Contracts.antt": "Cited"}


def texts(top, endings):
    for folder, dirs, files in os.walk(top):
        dirs[:] = sorted(d for d in dirs if d not in ("out", "target", ".git"))
        for name in sorted(files):
            if name.endswith(endings):
                yield os.path.join(folder, name)


def read(path):
    with open(path, encoding="utf-8") as f:
        return f.read()


def of_function(path):
    """A proof of a function: proofs/F/.."""
    return re.search(r"/proofs/.+/", path) is not None


def snake(word):
    """A word in snake case, or the word itself where a dash joins a type to a name."""
    if word in INSTEAD:
        return INSTEAD[word]
    if word[0].isupper():
        return word
    parts = [re.sub(r"(?<=[a-z0-9ℤ])([A-Z])", lambda m: "_" + m.group(1).lower(), p) for p in word.split("-")]
    return "_".join(parts)


def declared():
    found = set()
    for path in texts("crates", (".antt",)):
        if of_function(path):
            continue
        for line in read(path).split("\n"):
            bare = line.strip()
            if bare.startswith("--") or bare.startswith("use "):
                continue
            m = DECL.match(line)
            if m:
                found.update(m.group("names").split())
    return found


def foreign(text, crates):
    """The words that a file takes from elsewhere than the repository."""
    out = set()
    for m in re.finditer(r"use +([\w.'-]+?)\.\{([^}]*)\}", text, re.S):
        own = OWN_PATH.match(m.group(1) + ".")
        if not (own and own.group(1) in crates):
            out.update(w.strip() for w in m.group(2).split(","))
    return out


def turn_code(line, turn):
    return WORD.sub(lambda m: turn.get(m.group(0), m.group(0)), line)


def turn_ticks(line, turn):
    return re.sub(r"`[^`\n]*`", lambda m: turn_code(m.group(0), turn), line)


def turn_text(text, mark, turn):
    out = []
    for line in text.split("\n"):
        at = line.find(mark)
        code, comment = (line, "") if at < 0 else (line[:at], line[at:])
        if mark == "//" and '"' in code:
            out.append(line)
            continue
        out.append(turn_code(code, turn) + turn_ticks(comment, turn))
    return "\n".join(out)


def main():
    dry = "--dry" in sys.argv
    crates = {c for c in os.listdir("crates") if os.path.isdir(os.path.join("crates", c))}
    names = declared()
    turn = {n: snake(n) for n in names if snake(n) != n}
    kept = {}
    for n in names - set(turn):
        kept[n] = n
    backward = {}
    for n, to in turn.items():
        backward.setdefault(to, []).append(n)
    for to, old in sorted(backward.items()):
        if len(old) > 1 or to in kept:
            print("falls together:", to, old, "and itself" if to in kept else "")
    changed = 0
    if not dry:
        for path, to in MOVED.items():
            if os.path.exists(path):
                os.rename(path, os.path.join(os.path.dirname(path), to + ".antt"))
    for path in texts("crates", (".antt", ".rt", ".edit")):
        text = read(path)
        away = foreign(text, crates)
        own = {n: to for n, to in turn.items() if n not in away}
        if path.endswith("Proof.antt") and of_function(path):
            taken = set()
            for m in re.finditer(r"use +(Rattle\.\w+\.(?:specs|proofs)[\w.'-]*?)\.\{([^}]*)\}", text, re.S):
                taken.update(w.strip() for w in m.group(2).split(","))
            local = set(re.findall(r"^(?:abbrev +)?(?:pub +)?(\S+) :", text, re.M))
            own = {n: to for n, to in own.items() if n in taken or n not in local}
        hits = {w for w in WORD.findall(text)}
        for n, to in own.items():
            if n in hits and (to in away):
                print(f"{path}: {n} becomes {to}, which the file takes from elsewhere")
        mark = "//" if path.endswith(".rt") else "--"
        new = turn_text(text, mark, own)
        new = re.sub(r"(Rattle\.(?:row_calls|row_reader)\.specs\.)Contracts\b", r"\1Cited", new)
        if re.search(r"crates/(row_calls|row_reader)/specs/Lib\.antt$", path):
            new = new.replace("mod Contracts", "mod Cited")
        if new != text:
            changed += 1
            if not dry:
                with open(path, "w", encoding="utf-8") as f:
                    f.write(new)
    for path in [p for p in texts(".", (".md",)) if "/crates/" not in p]:
        text = read(path)
        new = "\n".join(turn_ticks(l, turn) for l in text.split("\n"))
        if new != text:
            changed += 1
            if not dry:
                with open(path, "w", encoding="utf-8") as f:
                    f.write(new)
    print(len(turn), "words,", changed, "files")


if __name__ == "__main__":
    main()
