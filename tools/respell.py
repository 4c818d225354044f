#!/usr/bin/env python3
"""Brings the repository's own names in specs/, proofs/ and clauses to snake case, types to camel case. Run once, at the top, after port.py.

Names of the code (src/), exported C names, text, and names that Rattle or its libraries give keep their spelling. Where two names would
fall together in a file, the table APART gives one of them another. It prints what fell together, and what it left.
"""
import os
import re
import sys

TOKEN = re.compile(r"[^\s(){}\[\],;.:\"@⟨⟩«»]+")
GENERATED = re.compile(r"\.(Statement|Tie|Reads|Lts|Goals|Given|Met|Code)\b")
# Names that would fall together with another of their file.
APART = {"heardIn": "voters_heard_in"}


def snake(piece):
    piece = piece.replace("getD", "get_or")
    if re.search(r"[a-z][A-Z]", piece) and not piece[0].isupper():
        piece = re.sub(r"(?<=[a-z])([A-Z])(?=[a-z])", lambda m: "_" + m.group(1).lower(), piece)
        piece = re.sub(r"(?<=[a-z])([A-Z])$", r"_\1", piece)
    return piece


def spelled(name, types):
    if name in APART:
        return APART[name]
    parts = name.split("-")
    if name in types and name[0].isupper():
        return "".join(p[:1].upper() + p[1:] for p in parts)
    return "_".join(snake(p) for p in parts)


def files(root):
    for crate in sorted(os.listdir(root)):
        for folder, dirs, names in os.walk(os.path.join(root, crate)):
            dirs[:] = sorted(d for d in dirs if d not in ("out", "data", "must-fail"))
            for name in sorted(names):
                if name.endswith((".antt", ".rt")):
                    yield os.path.join(folder, name)


def code_of(line, rust):
    """A line's code and its comment."""
    mark = "//" if rust else "--"
    at = -1
    quoted = False
    for k in range(len(line) - 1):
        if line[k] == '"':
            quoted = not quoted
        if not quoted and line.startswith(mark, k) and (k == 0 or line[k - 1] in " \t"):
            at = k
            break
    return (line, "") if at < 0 else (line[:at], line[at:])


def whole(text, rust):
    return "\n".join(code_of(l, rust)[0] for l in text.split("\n"))


def odd(name):
    return ("-" in name.strip("-") and re.search(r"[A-Za-z]", name) and "→" not in name) or bool(re.match(r"[a-z]\w*[a-z][A-Z]", name))


def imports(text, crates):
    """The names that a file has from elsewhere, with those of modules, and the file's aliases of modules of the repository."""
    others, ours = set(), set()
    for m in re.finditer(r"(?:^|\n)\s*(?:pub |ghost )?use\s+([^\s;{]+?)(?:\.\{([^}]*)\})?(?:\s+as\s+(\S+?))?;?(?=\n|$)", text):
        path, names, alias = m.groups()
        own = path.startswith("Rattle.") and path.split(".")[1] in crates and not GENERATED.search(path)
        names = [n.strip() for n in (names or "").split(",") if n.strip()]
        if not own:
            for n in names:
                others |= set(re.split(r"\s+as\s+", n))
            if alias:
                others.add(alias)
        elif alias:
            ours.add(alias)
    return others, ours


def main():
    root = "crates"
    crates = set(os.listdir(root))
    texts = {p: open(p, encoding="utf-8").read() for p in files(root)}
    declared, fields, types, needs = set(), set(), set(), {}
    for path, text in texts.items():
        if path.endswith(".rt"):
            continue
        code = whole(text, False)
        by_hand = path.endswith("/Proof.antt")
        mine = set(re.findall(r"(?m)^(\S+) : tie\.Need", code)) | set(re.findall(r"(?m)^pub (\S+-spec) :", code)) if by_hand else set()
        needs[path] = mine
        for m in re.finditer(r"(?m)^(\s*)((?:abbrev |unfoldable |pub )*)([^\s(){}\[\],;.:\"]+) :(?=\s)(.*)", code):
            name, rest = m.group(3), m.group(4)
            if name in mine:
                continue
            declared.add(name)
            if m.group(1):
                fields.add(name)
            if re.search(r"Type \d\s*$", rest):
                types.add(name)
        for m in re.finditer(r"(?m)^\s*(?:pub )?(record|data) ([^\s(){}:]+)", code):
            declared.add(m.group(2))
            types.add(m.group(2))
        # a signature that goes over several lines
        for m in re.finditer(r"(?m)^(?:abbrev |unfoldable |pub )*([^\s(){}\[\],;.:\"]+) :[^\n]*\n((?:\s+→[^\n]*\n)+)", code):
            if re.search(r"Type \d\s*$", m.group(2).rstrip()):
                types.add(m.group(1))
    fell, left = {}, {}
    for path, text in texts.items():
        rust = path.endswith(".rt")
        code = whole(text, rust)
        others, aliases = imports(code, crates)
        by_hand = path.endswith("/Proof.antt")
        made = needs.get(path, set())
        new, seen = {}, set()

        def turn(piece):
            def one(m):
                name = m.group()
                before = piece[: m.start()]
                seen.add(name)
                if not odd(name) or name in others or name in made:
                    return name
                head = re.search(r"([^\s(){}\[\],;:\"]*)\.$", before)
                if head:
                    path_head = head.group(1)
                    if re.match(r"(tie|lts|reads|goal)\b", path_head):
                        return name
                    first = path_head.split(".")[0]
                    is_path = first in aliases or first in ("Rattle",)
                    if not is_path and name not in fields:
                        left.setdefault(path, set()).add("." + name)
                        return name
                if name not in declared and (rust or by_hand):
                    left.setdefault(path, set()).add(name)
                    return name
                if rust and name not in declared:
                    return name
                to = spelled(name, types)
                new[name] = to
                return to

            return TOKEN.sub(one, piece)

        lines = []
        for line in text.split("\n"):
            body, note = code_of(line, rust)
            if rust and not re.search(r"ghost|[≡×→λ≤]|requires|ensures|^\s+\(|^\s+\w+ \{", body):
                lines.append(line)
                continue
            lines.append(turn(body) + note)
        back = {}
        for a, b in new.items():
            back.setdefault(b, set()).add(a)
        for b, names in back.items():
            if len(names) > 1 or b in seen:
                fell.setdefault((b, tuple(sorted(names | ({b} if b in seen else set())))), []).append(path)
        with open(path, "w", encoding="utf-8") as f:
            f.write("\n".join(lines))
    for (b, names), paths in sorted(fell.items()):
        print("together:", b, "<-", " ".join(names), "in", " ".join(paths[:6]))
    for path, names in sorted(left.items()):
        print("left:", path, " ".join(sorted(names)[:20]))


if __name__ == "__main__":
    sys.exit(main())
