#!/usr/bin/env python3
"""Turns a proof that walks the code, proofs/F/Proof.antt of an older Rattle, into Invariants.antt and Answers.antt.

usage: answers.py CRATE NAMES.json      at the top, after `rt check --generated DIR --old-names` in the crate

An answer that only searches is left out: the check searches by itself. What it could not name is marked with TODO and printed.
"""
import difflib
import json
import os
import re
import sys

GENERATED = re.compile(r"^use \S+\.(Statement|Tie|Reads|Lts)(\.\{[^}]*\})?( as \S+)?$")


def flat(name):
    name = re.sub(r"^overflow-", "", name)
    return re.sub(r"[-_]", "", name).lower()


def kind(name):
    return re.sub(r"(t?\d+|-[a-z]\w*)$", "", flat(name)) if False else re.sub(r"[\d]+$", "", re.sub(r"t\d+$", "", flat(name)))


def blocks_of(text):
    """The `use` lines, and the declarations, each with the lines above it."""
    uses, decls, now, open_use = [], [], [], False
    for line in text.split("\n"):
        if line.startswith("use ") or open_use:
            uses.append(line)
            open_use = line.rstrip().endswith("{") or (open_use and "}" not in line)
            continue
        if not line.strip():
            if now:
                decls.append(now)
                now = []
            continue
        now.append(line)
    if now:
        decls.append(now)
    return uses, decls


class Function:
    def __init__(self, said):
        self.said = said
        places = said["places"]
        self.parent = {p[0]: p[1] for p in places}
        self.arms = {p[0]: a for p, a in zip(places, said["arms"] or [None] * len(places)) if a}
        self.step = {p[0]: tuple(p[2]) for p in places}
        self.needs = [tuple(n) for n in said["needs"]]
        self.at = [a[0] for a in said["asked_at"]]
        self.args = {}
        for pair in said["args"] or []:
            if pair[0].startswith(".args .") or pair[0].startswith(".ranges ."):
                self.args[pair[0].split(" .")[1]] = pair[1].split(" .")[1]
        self.loops = {}
        for (old, new), names in said["loops"] or []:
            self.loops[flat(old)] = (new, names)

    def align(self, olds):
        """For each old need, the number of the need that stands for it now."""
        found = {}
        by_flat = {}
        for k, (old, new) in enumerate(self.needs):
            by_flat.setdefault(flat(old), k)
        mine = [re.sub(r"(?<=[a-z])-?t\d+$", "-t", o) for o in olds]
        theirs = [re.sub(r"(?<=[a-z])-?t\d+$", "-t", n[0]) for n in self.needs]
        is_temp = lambda o: re.search(r"-t\d+$", o)
        for k, o in enumerate(olds):
            if not is_temp(o) and flat(o) in by_flat:
                found[k] = by_flat[flat(o)]
        if len(found) < len(olds):
            def sort(o):
                o = re.sub(r"^overflow-", "", o)
                o = re.sub(r"-\d+$", "", o)
                w = o.replace("_", "-").split("-")
                if w[-1] == "requires" or w[0] in ("loop",):
                    return "-".join(w)
                return "-".join(w[:-1]) if len(w) > 1 else o
            a, b = [sort(o) for o in olds], [sort(n[0]) for n in self.needs]
            for m in difflib.SequenceMatcher(None, a, b, autojunk=False).get_matching_blocks():
                for i in range(m.size):
                    if m.a + i not in found and m.b + i not in found.values():
                        found[m.a + i] = m.b + i
        return found

    def resolve(self, need, name, rest=""):
        """c.before.before.STEP.REST as c.STEP.REST of today: the step, and how many words of REST it takes; None where it is not found."""
        name = name.replace("well-formed", "well_formed")
        if name in ("args", "requires", "ranges", "well_formed"):
            return name, 0
        words = [w for w in rest.split(".") if w]
        place = self.at[need] if need is not None and need < len(self.at) else None
        seen = 0
        while place is not None and seen < 1000:
            arm = self.arms.get(place)
            if arm:
                best = None
                for new, old, path in arm[2]:
                    fits = flat(old) == flat(name) and words[: len(path)] == path
                    if fits and (path or not words) and (best is None or len(path) > best[1]):
                        best = (f"{arm[0]}.{new}", len(path))
                if best:
                    return best
            old, new = self.step.get(place, ("", ""))
            if flat(old) == flat(name) and old:
                return new, 0
            place = self.parent.get(place)
            seen += 1
        return None


def turned(body, f, need, lost):
    def one(m):
        name, rest = m.group(2), m.group(3) or ""
        to = f.resolve(need, name, rest)
        if to is None:
            lost.append("c" + m.group(1) + "." + name)
            return m.group(0)
        to, taken = to
        words = rest.split(".")[1:]
        rest = "".join("." + w for w in words[taken:])
        if to in ("args", "ranges"):
            field = re.match(r"\.([^\s.(){}\[\],;]+)", rest)
            if field and field.group(1) in f.args:
                rest = "." + f.args[field.group(1)] + rest[field.end():]
        return "c." + to + rest

    # of `!x` a branch now says what it says of x
    body = re.sub(r"\bnot-(?:true|false) (?:_|[^\s()]+|\([^()]*\)) (c(?:\.[^\s(){}\[\],;.]+)+\.(?:true|false))(?![\w.'-])", r"\1", body)
    return re.sub(r"(?<![\w'.-])c((?:\.before)*)\.([A-Za-z_][^\s.(){}\[\],;]*)((?:\.[^\s.(){}\[\],;]+)*)", one, body)


def main():
    crate, names = sys.argv[1:3]
    only = sys.argv[3:] 
    said = json.load(open(names))
    root = f"crates/{crate}/proofs"
    for folder, dirs, files in os.walk(root):
        dirs.sort()
        if "Proof.antt" not in files:
            continue
        path = os.path.relpath(folder, root).replace("/", ".")
        if only and path not in only:
            continue
        key = f"Rattle-{crate}-proofs.{path}.Lts"
        if key not in said:
            print(f"{crate}: {path}: no names")
            continue
        f = Function(said[key])
        text = open(f"{folder}/Proof.antt", encoding="utf-8").read()
        uses, decls = blocks_of(text)
        uses = [u for u in uses if not GENERATED.match(u) and u != "use borrow.Author.Rules.{rules}"]
        code = "\n".join("\n".join(d) for d in decls)
        spec = re.search(r"tie\.spec\b([^)]*)\)", code)
        order = spec.group(1).split() if spec else []
        types = dict(re.findall(r"(?m)^(\S+) : tie\.Need-(\S+)", code))
        order = [o for o in order if o in types]
        order += [o for o in types if o not in order]
        olds = [types[o] for o in order]
        found = f.align(olds)
        need_of = {o: found.get(k) for k, o in enumerate(order)}
        invariants, answers, notes = [], [], []
        for d in decls:
            comment = [l for l in d if l.startswith("-- ")]
            comment = [l for l in comment if not re.match(r"-- src/\S+:\d+:\d+$", l)]
            d = [l for l in d if not l.startswith("-- ")]
            if not d:
                if comment:
                    answers.append(comment)
                continue
            head = d[0]
            if re.match(r"pub \S+[-_]spec :", head):
                continue
            m = re.match(r"abbrev (\S+) : tie\.(invariant|decreases)-(\S+)$", head)
            if m:
                mine, sort, loop = m.groups()
                to = f.loops.get(flat(loop))
                if not to:
                    notes.append(f"no loop {loop}")
                    invariants.append(["-- TODO"] + d)
                    continue
                new, names_now = to
                params = re.match(rf"{re.escape(mine)}\s+([^=]*?)\s*=\s?", d[1] if len(d) > 1 else "")
                rest = "\n".join(d[1:])
                mm = re.match(rf"{re.escape(mine)}((?:\s+[^\s=]+)*)\s*=", rest)
                if not mm:
                    notes.append(f"the parameters of {mine}")
                    invariants.append(["-- TODO"] + d)
                    continue
                words = mm.group(1).split()
                body = rest[mm.end():]
                shown, k = {}, 0
                for w in words:
                    if w == "_":
                        k += 1
                        continue
                    if w.endswith("₀"):
                        shown[w] = "l.initial." + w[:-1]
                        continue
                    shown[w] = "l." + w
                plain = [w for w in words if not w.endswith("₀")]
                theirs = [n for n in names_now if n not in plain]
                mine_only = [w for w in plain if w != "_" and w not in names_now]
                if len(theirs) < len(mine_only):
                    notes.append(f"{mine} has {plain}, now {names_now}")
                for w, n in zip(mine_only, theirs):
                    shown[w] = "l." + n
                def put(mm):
                    return shown.get(mm.group(0), mm.group(0))
                body = re.sub(r"(?<![\w'.·-])(?<!λ )[^\s(){}\[\],;.:]+(?! = )(?![^\s(){}\[\],;.:])", put, body)
                for w in shown:
                    if re.search(r"λ [^.]*(?<![\w'-])" + re.escape(w) + r"(?![\w'-])[^.]*\.", body):
                        notes.append(f"{sort}-{new}: a binder is called {w}")
                out = [f"abbrev pub {sort}-{new} : goal.{sort}-{new}", f"{sort}-{new} l ={body}"]
                invariants.append(comment + out)
                continue
            m = re.match(r"(\S+) : tie\.Need-(\S+)", head)
            if m:
                mine = m.group(1)
                need = need_of.get(mine)
                rest = "\n".join(d[1:])
                tail = re.search(r"(?m)^" + re.escape(mine) + r"((?:\s+[^\s=]+)*)\s*=", rest)
                if not tail:
                    notes.append(f"{mine} has a form that was not read")
                    answers.append(["-- TODO"] + d)
                    continue
                body = rest[tail.end():]
                between = rest[: tail.start()]
                if re.fullmatch(r"\s*search rules\s*", body) and not between.strip():
                    continue
                lost = []
                if need is None:
                    notes.append(f"no goal stands for {types[mine]}: {body.strip()[:80]}")
                    answers.append([f"-- TODO no goal stands for {types[mine]} : {l}" for l in [body.strip().replace("\n", " ")]])
                    continue
                new = f.needs[need][1]
                words = [w for w in tail.group(1).split() if w != "κs"]
                body = turned(body, f, need, lost)
                if lost:
                    notes.append(f"{new}: " + " ".join(sorted(set(lost))))
                out = [f"pub {new} : goal.{new}"]
                if between.strip():
                    out.append(between.rstrip("\n"))
                out.append(f"{new} {' '.join(words)} ={body}")
                answers.append(comment + out)
                continue
            lost = []
            body = turned("\n".join(d), f, 0, lost)
            if lost or "tie." in body or "lts." in body:
                notes.append(f"a helper: {head[:80]} {' '.join(sorted(set(lost)))}")
            answers.append(comment + [body])
        module = f"Rattle.{crate}.proofs.{path}"

        def uses_for(parts, given):
            body = "\n".join("\n".join(p) for p in parts)
            kept = []
            for u in uses:
                m = re.match(r"use (\S+?)\.\{(.*)\}$", u)
                if m:
                    words = [w.strip() for w in m.group(2).split(",")]
                    kept_words = []
                    for w in words:
                        name = w.split(" as ")[-1]
                        bits = [b for b in name.split("◌") if b]
                        if all(re.search(r"(?<![\w'-])" + re.escape(b) + r"(?![\w'-])" if re.match(r"\w", b) else re.escape(b), body) for b in bits):
                            kept_words.append(w)
                    if kept_words:
                        kept.append(f"use {m.group(1)}.{{{', '.join(kept_words)}}}")
                    continue
                m = re.match(r"use \S+ as (\S+)$", u)
                if m and not re.search(r"(?<![\w'-])" + re.escape(m.group(1)) + r"\.", body):
                    continue
                kept.append(u)
            if re.search(r"\b(search|grind)\b.*\brules\b|\brules\b", body):
                kept.append("use borrow.Author.Rules.{rules}")
            kept.append(f"use {module}.{given} as goal")
            return kept

        if invariants:
            with open(f"{folder}/Invariants.antt", "w", encoding="utf-8") as out:
                out.write("\n".join(uses_for(invariants, "Given")) + "\n\n" + "\n\n".join("\n".join(p) for p in invariants) + "\n")
        if answers:
            with open(f"{folder}/Answers.antt", "w", encoding="utf-8") as out:
                out.write("\n".join(uses_for(answers, "Goals")) + "\n\n" + "\n\n".join("\n".join(p) for p in answers) + "\n")
        os.remove(f"{folder}/Proof.antt")
        for n in notes:
            print(f"{crate}: {path}: {n}")


if __name__ == "__main__":
    sys.exit(main())
