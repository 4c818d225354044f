#!/usr/bin/env python3
"""Counts the places in src/ that older forms take, point by point. docs/DESIGN-PASS.md has the points.

    tools/places.py [FOLDER [POINT]]     prints the counts of FOLDER/crates; with a POINT also each place
"""
import glob
import os
import re
import sys

FOLDER = sys.argv[1] if len(sys.argv) > 1 else '.'
SHOWN = sys.argv[2] if len(sys.argv) > 2 else None


def code(text):
    """The text without comments, and with no empty line where one stood."""
    return re.sub(r"//[^\n]*", "", text)


FILES = {p: code(open(p).read()) for p in sorted(glob.glob(FOLDER + '/crates/*/src/*.rt'))}


def short(path):
    return path.split('/crates/')[1]


def functions(text):
    """Each function as (name, head, body): the head ends before its clauses' block, the body is what stands between the braces."""
    for m in re.finditer(r'^( *)(?:pub )?(?:const )?fn (\w+)', text, re.M):
        end = re.search(r'^%s\}' % m.group(1), text[m.start():], re.M)
        if not end:
            continue
        whole = text[m.start():m.start() + end.end()]
        start = re.search(r'^%s\{' % m.group(1), whole, re.M)
        if not start:
            continue
        yield m.group(2), whole[:start.start()], whole[start.end():]


def types(text, kind):
    for m in re.finditer(r'^(?:pub )?%s (\w+)[^{;]*\{(.*?)^\}' % kind, text, re.M | re.S):
        yield m.group(1), [x.strip() for x in re.split(r',\s*\n', m.group(2)) if x.strip()]


def point_1():
    """Enums of the shape of Option or Result (at most one more variant without a value), with a refusal as a number; a truth value
    beside a value; numbers for refusals, and for kinds."""
    for p, t in FILES.items():
        for name, variants in types(t, 'enum'):
            bare = [v for v in variants if '(' not in v]
            held = [v for v in variants if '(' in v]
            if any(re.search(r'\bu8\)', v) and v.startswith('Refused') for v in variants):
                yield p, 'enum %s: a refusal is a number' % name
            elif len(held) == 1 and len(bare) == 1:
                yield p, 'enum %s: the shape of Option' % name
            elif len(held) == 2 and not bare and any('Refused' in v for v in held):
                yield p, 'enum %s: the shape of Result' % name
        for name, fields in types(t, 'struct'):
            if any(re.search(r': bool$', f) for f in fields) and len(fields) <= 3:
                yield p, 'struct %s: a truth value beside a value' % name
        for m in re.finditer(r'\b(?:Refused|refused|refusal)\((\d+)\)', t):
            yield p, 'refusal %s as a number' % m.group(1)
        for name, head, body in functions(t):
            if re.search(r'\b(phase: usize|pair: usize|list: u8|kind: u\d+)', head):
                yield p, 'fn %s: a kind is a number' % name
        for name, fields in types(t, 'enum'):
            if set(fields) == {'Less', 'Equal', 'Greater'}:
                yield p, 'enum %s: std has it' % name


def normal(text):
    """A function's text without what twins differ in: names of its own, number types, sizes."""
    text = re.sub(r'\b(?:u8|u16|u32|u64|usize)\b', 'N', text)
    text = re.sub(r'\b[A-Z][A-Z_]+\b|\b\d[\d_]*(?:u8|u16|u32|u64|usize)?\b', 'C', text)
    seen = {}

    def name(m):
        w = m.group(0)
        if w in KEYWORDS or w in ('N', 'C'):
            return w
        return seen.setdefault(w, 'v%d' % len(seen))

    return re.sub(r'\s+', ' ', re.sub(r"'?[A-Za-z_]\w*", name, text)).strip()


KEYWORDS = set('fn pub let mut for in if else match return while loop break continue true false as self Self struct impl const'.split())


def point_2():
    """Functions that are equal but for names, number types and sizes, of four lines or more; structs with equal fields but for one type."""
    seen = {}
    for p, t in FILES.items():
        for name, head, body in functions(t):
            if body.count(';') + body.count('{') < 3:
                continue
            seen.setdefault(normal(re.sub(r'requires.*|ensures.*', '', head) + body), []).append((p, name))
    for places in seen.values():
        if len(places) > 1:
            for p, name in places:
                yield p, 'fn %s: a twin of %s' % (name, ', '.join('%s::%s' % (short(q).split('/')[0], n) for q, n in places if (q, n) != (p, name)))
    pairs = {}
    for p, t in FILES.items():
        for name, fields in types(t, 'struct'):
            names = [re.sub(r'^pub ', '', f) for f in fields]
            if len(names) == 2 and names[0].startswith('answer:'):
                pairs.setdefault('answer', []).append((p, name))
    for places in pairs.values():
        if len(places) > 1:
            for p, name in places:
                yield p, 'struct %s: an answer and what it is beside' % name


def point_3():
    """Loops whose index is counted by hand, and loops over a range whose index does nothing but index."""
    for p, t in FILES.items():
        for m in re.finditer(r'^( *)(?:\'\w+: )?while ([^\n]*) \{\n(.*?)^\1\}', t, re.M | re.S):
            step = re.search(r'^ *(\w+) = \1 [-+] \d+;', m.group(3), re.M) or re.search(r'^ *(\w+) [-+]= \d+;', m.group(3), re.M)
            if step:
                yield p, 'while %s: %s is counted by hand' % (m.group(2), step.group(1))
        for m in re.finditer(r'^( *)(?:\'\w+: )?for (\w+) in ([^\n]*?) \{\n(.*?)^\1\}', t, re.M | re.S):
            k, body = m.group(2), m.group(4)
            if '..' not in m.group(3):
                continue
            uses = re.findall(r'\b%s\b' % k, body)
            plain = re.findall(r'\w+\[%s\]' % k, body)
            if uses and len(uses) == len(plain):
                yield p, 'for %s in %s: only an index' % (k, m.group(3))
            elif re.search(r'^ *(\w+) = \1 \+ \d+;', body, re.M) and k == '_':
                yield p, 'for %s in %s' % (k, m.group(3))


def point_4():
    """Equality, order, copying, conversion and printing by hand."""
    for p, t in FILES.items():
        for name, head, body in functions(t):
            if re.match(r'(same|eq|cmp|is_same)(_|$)', name):
                yield p, 'fn %s: equality or order' % name
            elif re.fullmatch(r'(wide|wider|least|saturating_add|saturating_sub)', name):
                yield p, 'fn %s: the library has it' % name
            elif len(re.findall(r'/ 256', body)) >= 3:
                yield p, 'fn %s: bytes of a number' % name
            elif re.search(r'^\s*match \w+ \{\s*(?:\w+::\w+(?:\([\w, ]*\))? => \w+::\w+(?:\([\w, ]*\))?,\s*)+\}\s*\}?\s*$', body):
                yield p, 'fn %s: a conversion, case by case' % name
        for m in re.finditer(r'^const MOST: u\w+ = 18446744073709551615;', t, re.M):
            yield p, 'the largest number, written out'


def clauses():
    for p, t in FILES.items():
        for name, head, body in functions(t):
            for m in re.finditer(r'requires(?: \w+)? \{(.*)\}', head):
                yield p, name, m.group(1)


def conjuncts(text):
    depth, part = 0, ''
    for ch in text + '×':
        if ch in '([{':
            depth += 1
        if ch in ')]}':
            depth -= 1
        if ch == '×' and depth == 0:
            yield part.strip().strip('()').strip()
            part = ''
        else:
            part += ch


def point_5():
    """A fact that the clauses of three or more functions ask, and three or more parameters that stand together in three or more."""
    facts = {}
    for p, name, text in clauses():
        for fact in conjuncts(text):
            facts.setdefault(fact, []).append((p, name))
    for fact, places in sorted(facts.items()):
        if len(places) > 2:
            for p, name in places:
                yield p, 'fn %s: %s' % (name, fact[:90])
    lists = {}
    for p, t in FILES.items():
        for name, head, body in functions(t):
            params = re.findall(r"(\w+): (&?(?:'a )?(?:mut )?\[[^\]]*\](?:; \w+\])?|usize|u8|u64)", head)
            names = tuple(n for n, _ in params)
            if len(names) >= 5:
                lists.setdefault(names[:5], []).append((p, name))
    for names, places in lists.items():
        if len(places) > 2:
            for p, name in places:
                yield p, 'fn %s: %s .. together' % (name, ', '.join(names))


def point_6():
    """A buffer with a length beside it, and columns side by side."""
    for p, t in FILES.items():
        for name, fields in types(t, 'struct'):
            arrays = [f for f in fields if re.search(r': \[', f)]
            if arrays and any(re.search(r'\b(count|size|length|listed|tips): usize', f) for f in fields):
                yield p, 'struct %s: a buffer with a length' % name
            if len(arrays) > 1:
                yield p, 'struct %s: columns side by side' % name
        for name, head, body in functions(t):
            if re.search(r'\[\w+; \w+\],\s*count: usize|&(?:\'a )?\[\w+\], count: usize', head):
                yield p, 'fn %s: a buffer with a length' % name


def point_7():
    """A switch on which step to run."""
    for p, t in FILES.items():
        for name, variants in types(t, 'enum'):
            if name in ('Condition', 'Wanted', 'Kind'):
                yield p, 'enum %s' % name
        for m in re.finditer(r'match (\w+) \{\s*0 => .*?\n', t):
            yield p, 'match %s' % m.group(1)


def point_8():
    """Answers that say no more than the check tries by itself, in all crates; one under an `unfolding` line says more."""
    for p in sorted(glob.glob(FOLDER + '/crates/*/proofs/**/Answers.antt', recursive=True)):
        for m in re.finditer(r'^(?:pub )?(\S+) : goal\.\1\n\1 c = search rules$', open(p).read(), re.M):
            yield p, m.group(1)


for number, point in enumerate((point_1, point_2, point_3, point_4, point_5, point_6, point_7, point_8), 1):
    places = list(point())
    print('%d: %4d   %s' % (number, len(places), re.sub(r'\s+', ' ', point.__doc__)))
    if SHOWN in (str(number), 'all'):
        for p, what in places:
            print('      %s: %s' % (short(p), what))
