#!/usr/bin/env python3
"""Turns the proofs of functions that walk the code by hand (proofs/F/Proof.antt) to Invariants.antt and Answers.antt.

usage: python3 tools/answers.py       in a crate's folder, whose crates below are proved

Goals, steps and places get today's names, by what `rt check --generated .. --old-names` says of the crate; answers that are
`search rules` go, since the check tries that itself. `rt check` decides: what it leaves open is answered by hand.
"""
import json
import os
import re
import shutil
import subprocess
import sys
import tempfile

def norm(word):
    return word.replace("-", "_")


def functions(top):
    """The clause names of each function of a source tree: {crate::path: {'requires': [..], 'ensures': [..]}}."""
    out = {}
    for crate in os.listdir(top):
        src = os.path.join(top, crate, "src")
        for folder, _, files in os.walk(src):
            for name in files:
                if not name.endswith(".rt"):
                    continue
                text = open(os.path.join(folder, name), encoding="utf-8").read()
                impl = None
                fn = None
                for line in text.split("\n"):
                    m = re.match(r"impl(?:<[^>]*>)? (\w+)", line)
                    if m:
                        impl = m.group(1)
                    m = re.match(r"( *)(?:pub )?(?:unsafe )?(?:extern \"C\" )?fn (\w+)", line)
                    if m:
                        fn = (impl + "::" if impl and m.group(1) else "") + m.group(2)
                        out.setdefault((crate, fn), {"requires": [], "ensures": []})
                        out[(crate, fn.split("::")[-1])] = out[(crate, fn)]
                    m = re.match(r" +(requires|ensures)(?: (\w+))? \{", line)
                    if m and fn:
                        out[(crate, fn)][m.group(1)].append(m.group(2))
    return out


def clause(names, comps):
    """The path of a clause in nested pairs, by its name."""
    if len(names) < 2:
        return comps
    k, rest = 0, list(comps)
    while k < len(names) - 1 and rest and rest[0] == "1":
        rest = rest[1:]
        k += 1
    if k < len(names) - 1:
        if rest and rest[0] == "0":
            return [names[k]] + rest[1:]
        return None
    return [names[k]] + rest


def split_pair(term):
    """(a, b) as a and b, or None."""
    term = term.strip()
    if not (term.startswith("(") and term.endswith(")")):
        return None
    parts, depth, start = [], 0, 1
    for i, ch in enumerate(term):
        if ch in "([{":
            depth += 1
        elif ch in ")]}":
            depth -= 1
            if depth == 0 and i != len(term) - 1:
                return None
        elif ch == "," and depth == 1:
            parts.append(term[start:i].strip())
            start = i + 1
    last = term[start:-1].strip()
    if last:
        parts.append(last)
    return parts


def by_clause(body, names):
    """An answer of nested pairs as a record of clauses."""
    if len(names) < 2:
        return body
    k = final_term(body)
    head, rest = body[:k], body[k:].strip()
    fields = []
    for n in names[:-1]:
        p = split_pair(rest)
        if not p or len(p) != 2:
            return body
        fields.append((n, p[0]))
        rest = p[1]
    fields.append((names[-1], rest))
    return head + " record { " + "; ".join(f"{n} = {v}" for n, v in fields) + " }"


def final_term(text):
    """The place after the last `in` of the leading lets."""
    at = 0
    while True:
        m = re.compile(r"\s*let\b").match(text, at)
        if not m:
            return at
        depth, i, opened = 0, m.end(), 1
        while i < len(text):
            ch = text[i]
            if ch in "([{":
                depth += 1
            elif ch in ")]}":
                depth -= 1
            elif depth == 0 and re.compile(r"\blet\b").match(text, i) and not text[i - 1].isalnum():
                opened += 1
                i += 3
                continue
            elif depth == 0 and re.compile(r"\bin\b(?=[\s(])").match(text, i) and text[i - 1] in " \n)":
                opened -= 1
                if opened == 0:
                    at = i + 2
                    break
                i += 2
                continue
            i += 1
        else:
            return at


class Function:
    def __init__(self, data, crate, name, all_functions):
        self.data, self.crate, self.name = data, crate, name
        self.functions = all_functions
        self.goals = {norm(old): new for old, new in data["needs"]}
        self.steps, self.callee, self.fields = {}, {}, {}
        for i, (place, _, (old, new), callee, _) in enumerate(data["places"]):
            self.steps.setdefault(norm(old), new)
            if callee:
                self.callee[norm(old)] = callee
        for arm in data["arms"]:
            if arm:
                for field in arm[2]:
                    new, old, path = field
                    self.fields[(norm(old), tuple(path))] = arm[0] + "." + new
        self.places = {norm(p[0]): n for p, n in zip(data["places"], data["places_by_name"])}
        own = all_functions.get((crate, name), {"requires": [], "ensures": []})
        self.requires, self.ensures = own["requires"], own["ensures"]
        self.unknown, self.helpers = set(), {}

    def names_of(self, callee, kind):
        crate, _, fn = callee.partition("::")
        f = self.functions.get((crate, fn)) or self.functions.get((crate, fn.split("::")[-1]))
        return f[kind] if f else []

    def path(self, comps):
        """A path from c, by today's names; None where it goes on from a place."""
        n = 0
        while comps and comps[0] == "before":
            comps = comps[1:]
            n += 1
        if not comps:
            return "c" + ".before" * n
        head = comps[0]
        if head == "requires":
            rest = clause(self.requires, comps[1:])
            return ".".join(["c", "requires"] + (rest if rest is not None else ["ALL"]))
        if comps[:2] == ["args", "result"]:
            comps = ["args", "res"] + comps[2:]
        if head in ("args", "ranges", "lifetimes", "type_inv", "utf8", "well_formed"):
            return ".".join(["c"] + comps)
        step = norm(head)
        for k in range(len(comps), 0, -1):
            new = self.fields.get((step, tuple(comps[1:k])))
            if new and k > 1:
                return ".".join(["c", new] + comps[k:])
        if step not in self.steps and step.endswith("_lem") and step[:-4] in self.steps:
            return self.path([step[:-4]] + comps[1:])
        if step not in self.steps:
            self.unknown.add(head)
            return ".".join(["c"] + comps)
        rest = comps[1:]
        callee = self.callee.get(step)
        if rest and rest[0] == "ensures" and callee:
            r = clause(self.names_of(callee, "ensures"), rest[1:])
            if r is None:
                self.unknown.add(head + ".ensures")
            rest = ["ensures"] + (r if r is not None else rest[1:])
        elif rest and rest[0] == "requires" and callee:
            r = clause(self.names_of(callee, "requires"), rest[1:])
            rest = ["requires"] + (r if r is not None else rest[1:])
        elif len(rest) > 1 and rest[0] in ("auto", "new") and callee and rest[1] in ("0", "1"):
            params = self.data["params"].get(callee, [])
            k, left = 0, rest[1:]
            while left and left[0] == "1":
                left = left[1:]
                k += 1
            if left and left[0] == "0":
                left = left[1:]
            if k < len(params):
                rest = [rest[0], params[k]] + left
        return ".".join(["c", self.steps[step]] + rest)

    def partial(self, comps):
        """A path that must be inlined, since what it stands for is no one field today."""
        while comps and comps[0] == "before":
            comps = comps[1:]
        if not comps:
            return True
        if comps[0] == "requires":
            return clause(self.requires, comps[1:]) is None
        step = norm(comps[0])
        if any(o == step and len(p) > len(comps) - 1 and list(p[: len(comps) - 1]) == comps[1:] for o, p in self.fields):
            return True
        callee = self.callee.get(step)
        if len(comps) > 1 and comps[1] == "ensures" and callee:
            return clause(self.names_of(callee, "ensures"), comps[2:]) is None
        return False

    def of_step(self, comps):
        """The path is a whole step of the code: a call, whose clauses have names today."""
        comps = [c for c in comps if c != "before"]
        return len(comps) == 1 and norm(comps[0]) in self.callee

    def body(self, text):
        """A term with today's names. Names bound to places are inlined."""
        again = True
        while again:
            again = False
            for m in re.finditer(r"let ([\w']+) = (c(?:\.[\w'-]+)*) in\b\s*", text):
                comps = m.group(2).split(".")[1:]
                name = m.group(1)
                used = re.search(r"(?<![\w.])" + re.escape(name) + r"\.(?:auto|new|ensures|requires)\.[01]\b", text[m.end():])
                if not self.partial(comps) and not (used and self.of_step(comps)):
                    continue
                before, after = text[: m.start()], text[m.end():]
                stop = re.search(r"\blet " + re.escape(name) + r" (?:=|:)", after)
                head, tail = (after, "") if not stop else (after[: stop.start()], after[stop.start():])
                head = self.inline(head, name, comps)
                if stop:
                    # the new value may still use the old name
                    k, at = self.let_end(tail), len("let " + name)
                    head, tail = head + tail[:at] + self.inline(tail[at:k], name, comps), tail[k:]
                text = before + head + tail
                again = True
                break
        text = PATH_C.sub(lambda m: self.path(m.group(2).split(".")[1:]) if m.group(2) else m.group(0), text)
        for m in re.finditer(r"let ([\w']+) = c\.args in", text):
            text = re.sub(r"(?<![\w.])" + re.escape(m.group(1)) + r"\.result\b", m.group(1) + ".res", text)
        for m in re.finditer(r"let ([\w']+) = c\.(?!args\b|loop\b)[\w-]+ in", text):
            text = re.sub(r"(?<![\w.])" + re.escape(m.group(1)) + r"\.res(?!\.now)\b", m.group(1) + ".result", text)
        for name, term in self.helpers.items():
            text = re.sub(r"(\(?)(?<![\w.'-])" + re.escape(name) + r" c(?:\.before)*(?![\w.'-])(\)?)",
                lambda m: "(" + term + ")" if m.group(1) and m.group(2) else m.group(1) + "(" + term + ")" + m.group(2), text)
        text = re.sub(r"omega \(arith, \(omega \(arith, ([^\n]*?)\)\)\)", r"omega (arith, \1)", text)
        # a test on `!x` says today what x is
        text = re.sub(r"c\.if-not-[\w-]+\.(?:true|false)", lambda m: "(ap not " + m.group(0) + ")", text)
        return re.sub(r"\bnot-(?:true|false) _ \(ap not (c(?:\.[\w-]+)+)\)", r"\1", text)

    @staticmethod
    def let_end(text):
        depth = 0
        for i, ch in enumerate(text):
            if ch in "([{":
                depth += 1
            elif ch in ")]}":
                depth -= 1
            elif depth == 0 and text.startswith(" in", i) and i > 3 and (i + 3 >= len(text) or text[i + 3] in " \n("):
                return i
        return len(text)

    @staticmethod
    def inline(text, name, comps):
        p = re.compile(r"(?<![\w.'₀-])" + re.escape(name) + r"((?:\.[\w'-]+)*)(?![\w'₀-])")
        place = all(c == "before" for c in comps)
        return p.sub(lambda m: ".".join(["c"] + comps) + m.group(1) if m.group(1) or place else m.group(0), text)

    def signature(self, text):
        def place(m):
            new = self.places.get(norm(m.group(1)))
            if not new:
                self.unknown.add("place " + m.group(1))
            return "goal." + (new or m.group(1))

        text = re.sub(r"tie\.([\w-]+)(?: (?:invariant|decreases)-[\w-]+)*", place, text)
        return self.body(text)


PATH_C = re.compile(r"(?<![\w.'₀-])(c)((?:\.[\w'ℕℤ-]+)*)(?![\w'₀-])")


def blocks(text):
    """Top-level pieces: (comments, lines)."""
    out, comments, cur = [], [], []
    for line in text.split("\n"):
        starts = line and not line[0].isspace()
        if line.startswith("--"):
            if cur:
                out.append((comments, cur))
                comments, cur = [], []
            comments.append(line)
        elif not line.strip():
            if cur:
                out.append((comments, cur))
                comments, cur = [], []
            elif comments and not out:
                out.append((comments, []))
                comments = []
        else:
            cur.append(line)
    if cur or comments:
        out.append((comments, cur))
    return out


def substitute(term, names):
    p = re.compile(r"(?<![\w.'₀-])([\w'ℕ-]+₀?)(?![\w'₀-])")

    def one(m):
        if re.search(r"[{;] $", term[: m.start()]) and term[m.end():].startswith(" = "):
            return m.group(0)
        return names.get(m.group(1), m.group(0))

    return p.sub(one, term)


def turn(folder, data, crate, fn, all_functions):
    f = Function(data, crate, fn, all_functions)
    text = open(os.path.join(folder, "Proof.antt"), encoding="utf-8").read()
    if "tie.spec" not in text:
        return f"{fn}: walks the code by hand"
    header, uses, invariants, answers = [], [], [], []
    loops = {norm(l[0][0]): (l[0][1], l[1], c) for l, c in zip(data["loops"], data["changed"])}
    dropped, unmatched = 0, []
    first = True
    for comments, lines in blocks(text):
        if lines and lines[0].startswith("use ") or (first and not lines):
            if first:
                header = comments
            uses += [l for l in lines]
            first = False
            continue
        first = False
        if not lines:
            continue
        joined = "\n".join(lines)
        m = re.match(r"(?:abbrev )?(?:pub )?([^\s:]+) :", joined)
        if not m:
            answers.append("\n".join(comments + lines))
            continue
        name = m.group(1)
        if "tie.spec" in joined or "tie.close" in joined:
            continue
        n = re.search(r": tie\.(invariant|decreases)-([\w-]+)\s*\n", joined + "\n")
        if n:
            kind, loop = n.group(1), norm(n.group(2))
            new, variables, changed = loops.get(loop, ("loop-" + n.group(2), [], []))
            clause_line = re.search(r"^(?:invariant|decreases)-\S+ ([^=]*?) =(.*)$", joined, re.S | re.M)
            params = [w for w in clause_line.group(1).split() if not re.fullmatch(r"t\d+₀?", w)]
            body = clause_line.group(2)
            want = []
            for v, ch in zip(variables, changed):
                want.append("l.initial." + v if ch else "l." + v)
            for v, ch in zip(variables, changed):
                if ch:
                    want.append("l." + v)
            if len(want) != len(params):
                unmatched.append(f"{kind} {new}: {params} for {want}")
            names = dict(zip(params, want))
            unfold = [l for l in lines if l.startswith("unfolding")]
            entry = comments + [f"abbrev pub {kind}-{new} : goal.{kind}-{new}"] + unfold + [f"{kind}-{new} l =" + substitute(body, names)]
            invariants.append("\n".join(entry))
            continue
        if re.search(r":\s+tie\.Need-", joined):
            # the old goal's name is the local name, as it was before the port
            new = None
            for cand in (name, re.search(r":\s+tie\.Need-([\w-]+)", joined).group(1)):
                new = f.goals.get(norm(cand)) or new
            b = re.search(r"^" + re.escape(name) + r" ((?!:)[^=\n]*?) =(.*)$", joined, re.S | re.M)
            if not b:
                unmatched.append("no clause " + name)
                answers.append("\n".join(comments + lines))
                continue
            term = b.group(2).strip()
            if term == "search rules":
                dropped += 1
                continue
            if new is None:
                unmatched.append(name)
                continue
            unfold = [l for l in lines if l.startswith("unfolding")]
            told = f.body(b.group(2))
            if new and (new == "returns" or new.startswith("returns-")):
                told = by_clause(told, f.ensures)
            elif new and "requires" in new:
                step = re.sub(r"-?requires(-\d+)?$", "", new)
                callee = next((f.callee[o] for o, s in f.steps.items() if o in f.callee and (s == step or s == re.sub(r"requires", "", new).strip("-"))), None)
                if callee is None:
                    base = norm(re.sub(r"-requires(-\d+)?$", "", name))
                    callee = next((c for o, c in f.callee.items() if re.sub(r"\d+$", "", o) == base), None)
                if callee is None:
                    base = re.sub(r"-requires.*$", "", new).split("-")[0]
                    hit = [k for k in all_functions if k[1].split("::")[-1] == base]
                    callee = hit[0][0] + "::" + hit[0][1] if len(hit) == 1 else None
                if callee:
                    told = by_clause(told, f.names_of(callee, "requires"))
            shown = new or name
            # `let in` of one line stays as it was written
            given = " ".join(w for w in b.group(1).split() if w != "κs")
            answers.append("\n".join(comments + [f"pub {shown} : goal.{shown}"] + unfold + [f"{shown} {given} =" + (told if told[:1] in " \n" else " " + told)]))
            continue
        # a helper over a place of the code: it stands where it was cited
        h = re.search(r"^" + re.escape(name) + r" c =(.*)$", joined, re.S | re.M)
        if h and re.search(r":\s*\(c : tie\.", joined) and len(data["places"]) > 1:
            f.helpers[name] = f.body(h.group(1)).strip()
            continue
        sig_end = next((i for i, l in enumerate(lines) if re.match(re.escape(name) + r"(?: |$)", l) and i > 0), len(lines))
        sig = f.signature("\n".join(lines[:sig_end]))
        rest = f.body("\n".join(lines[sig_end:]))
        answers.append("\n".join(comments + [sig + "\n" + rest]))
    path = "Rattle." + crate + ".proofs." + fn.replace("::", ".")
    uses = [u for u in uses if ".Tie as tie" not in u and ".Statement.{statement}" not in u]
    said = []
    for file, goals, parts in (("Invariants.antt", "Given", invariants), ("Answers.antt", "Goals", answers)):
        if not parts:
            continue
        all_text = "\n\n".join(parts)
        keep = []
        for u in uses:
            g = re.match(r"use ([\w.'-]+)\.\{(.*)\}", u)
            if g:
                words = [w.strip() for w in g.group(2).split(",")]
                toks = set(re.findall(r"[^\s(){}\[\].,;:]+", all_text))
                used = [w for w in words if w in toks or not re.search(r"\w", w) or ("◌" in w and w.strip("◌") in toks)]
                if used:
                    keep.append(f"use {g.group(1)}.{{{', '.join(used)}}}")
            else:
                alias = u.split(" as ")[-1].strip().split(".")[-1]
                if re.search(r"(?<![\w])" + re.escape(alias) + r"\.", all_text):
                    keep.append(u)
        with open(os.path.join(folder, file), "w", encoding="utf-8") as out:
            out.write("\n".join(header + keep + [f"use {path}.{goals} as goal"]) + "\n\n" + all_text + "\n")
        said.append(file)
    os.remove(os.path.join(folder, "Proof.antt"))
    if not said:
        shutil.rmtree(folder)
    note = f"{fn}: {dropped} left to the check, {len(answers)} answers"
    if unmatched or f.unknown:
        note += "; look: " + ", ".join(map(str, unmatched)) + " " + " ".join(sorted(f.unknown))
    return note


def main():
    crate = os.path.basename(os.getcwd())
    with tempfile.TemporaryDirectory() as d:
        out = os.path.join(d, "names")
        said = subprocess.run(["rt", "check", "--generated", out, "--old-names"], stdout=subprocess.PIPE, stderr=subprocess.STDOUT, text=True).stdout
        if not os.path.exists(os.path.join(out, "names.json")):
            sys.exit("no names: " + said[-1500:])
        names = json.load(open(os.path.join(out, "names.json")))
    all_functions = functions(os.path.join("..", "..", "crates"))
    for folder, _, files in sorted(os.walk("proofs")):
        if "Proof.antt" not in files:
            continue
        fn = os.path.relpath(folder, "proofs").replace("/", "::")
        key = f"Rattle-{crate}-proofs.{fn.replace('::', '.')}.Lts"
        if key not in names:
            print(f"{fn}: no names ({key})")
            continue
        print(turn(folder, names[key], crate, fn, all_functions))


if __name__ == "__main__":
    main()
