#!/usr/bin/env python3
"""Lists the places in crates/*/src where an older way of writing may stand, a section each.

    tools/places.py            prints the counts
    tools/places.py --list     prints every place

It finds candidates by their text; docs/DESIGN-PASS.md says what each section is about, and what came of it.
"""
import difflib
import glob
import itertools
import re
import sys
from collections import defaultdict

FILES = sorted(glob.glob('crates/*/src/**/*.rt', recursive=True))
TEXT = {f: open(f, encoding='utf-8').read() for f in FILES}


def lines(pattern):
    """Every line that the pattern finds, comments and contracts left out."""
    found = []
    for f in FILES:
        for n, line in enumerate(TEXT[f].split('\n'), 1):
            bare = line.strip()
            if bare.startswith(('//', 'ghost ', 'ensures', 'requires')):
                continue
            if re.search(pattern, line):
                found.append(f'{f}:{n}: {bare}')
    return found


FN = re.compile(r'^( *)((?:pub(?:\(crate\))? )?(?:const )?fn (\w+)[^{;]*?)(?=\n? *(?:requires|ensures|\{)|;)', re.M)


def clauses_of(part):
    """The facts of the contract at the head of a function, each from brace to brace, on one line."""
    out = []
    for m in re.finditer(r'^ *(?:ensures|requires)(?: \w+)? *\{', part, re.M):
        depth, end = 1, m.end()
        while end < len(part) and depth:
            depth += {'{': 1, '}': -1}.get(part[end], 0)
            end += 1
        out.append(' '.join(part[m.end():end - 1].split()))
    return out


def functions():
    """(file, line, name, signature, clauses, body) of every function."""
    out = []
    for f in FILES:
        text = TEXT[f]
        for m in FN.finditer(text):
            indent = m.group(1)
            rest = text[m.end():]
            end = re.search(r'^' + indent + r'\{?\}', rest, re.M)
            stop = re.search(r'^' + indent + r'(?:pub|fn|\}|ghost)', rest[1:], re.M)
            part = rest[:end.end()] if end else rest[:stop.start() if stop else None]
            clauses = clauses_of(part)
            body = re.split(r'^' + indent + r'\{', part, maxsplit=1, flags=re.M)
            body = body[1] if len(body) > 1 else ''
            line = text.count('\n', 0, m.start()) + 1
            out.append((f, line, m.group(3), m.group(2), clauses, body))
    return out


def words(text):
    text = re.sub(r'//[^\n]*', '', text)
    return re.findall(r'\w+|[^\w\s]', text)


def twins():
    """Pairs of functions, and pairs of files, that are alike in most of their words."""
    found = []
    fns = [(f, n, name, words(sig + body)) for f, n, name, sig, _, body in functions()
           if len(words(body)) >= 18 and '_cases' not in f and '/host/' not in f]
    for (f, n, a, x), (g, m, b, y) in itertools.combinations(fns, 2):
        s = difflib.SequenceMatcher(None, x, y, autojunk=False)
        if s.real_quick_ratio() > 0.8 and s.quick_ratio() > 0.8 and s.ratio() > 0.8:
            found.append(f'{f}:{n} {a} ~ {g}:{m} {b} ({s.ratio():.2f})')
    return found


def file_twins():
    found = []
    code = {f: words(re.sub(r'(?m)^ *(ghost use|use|ensures|requires)[^\n]*', '', t)) for f, t in TEXT.items()}
    big = [f for f in FILES if len(code[f]) >= 60 and '_cases' not in f]
    for f, g in itertools.combinations(big, 2):
        s = difflib.SequenceMatcher(None, code[f], code[g], autojunk=False)
        if s.real_quick_ratio() > 0.7 and s.quick_ratio() > 0.7 and s.ratio() > 0.7:
            found.append(f'{f} ~ {g} ({s.ratio():.2f})')
    return found


def clauses():
    """Facts that stand in the contracts of three or more functions."""
    by = defaultdict(list)
    for f, n, name, _, cl, _ in functions():
        for fact in cl:
            by[fact].append(f'{f}:{n} {name}')
    return [f'{len(v)} times: {k}' for k, v in sorted(by.items(), key=lambda x: -len(x[1])) if len(v) >= 3]


def parameters(sig):
    """The parameters of a signature: what stands in its first round brackets, cut at the outer commas."""
    parts, depth = [''], 0
    for c in sig[sig.index('('):]:
        depth += {'(': 1, '[': 1, '<': 1, ')': -1, ']': -1, '>': -1}.get(c, 0)
        if depth == 0:
            break
        if depth == 1 and c == ',':
            parts.append('')
        elif not (depth == 1 and c == '('):
            parts[-1] += c
    return [' '.join(p.split()) for p in parts]


def together():
    """Parameters that stand together, name and type, in the signatures of three or more functions."""
    by = defaultdict(list)
    for f, n, name, sig, _, _ in functions():
        ps = sorted(p for p in parameters(sig) if ':' in p)
        for pair in itertools.combinations(ps, 2):
            by[pair].append(f'{f}:{n} {name}')
    return [f'{len(v)} times: {", ".join(k)}' for k, v in sorted(by.items(), key=lambda x: -len(x[1])) if len(v) >= 3]


def counted():
    """Structs with a number and an array or slice beside it."""
    found = []
    for f in FILES:
        for m in re.finditer(r'struct (\w+)[^{;]*\{(.*?)^\}', TEXT[f], re.M | re.S):
            if re.search(r': usize', m.group(2)) and re.search(r'\[', m.group(2)):
                line = TEXT[f].count('\n', 0, m.start()) + 1
                found.append(f'{f}:{line}: struct {m.group(1)}')
    return found


POINTS = [
    ('1a own enums', lambda: lines(r'^\s*(pub )?(\(crate\) )?enum ')),
    ('1b a flag in a struct or a variant', lambda: lines(r'^\s*(pub(\(crate\))? )?\w+: bool,|\{ \w+: bool \}')),
    ('1c a match or let that spells out is_some, map_or, ?', lambda: lines(
        r'=> (true|false|None|0),|=> return Err|=> Err\(|^\s*let (Some|Ok|Err)\(.*= .* else \{|is_some\(\)$')),
    ('1d numbers for kinds or refusals', lambda: lines(r'fn .*-> (Option<)?u(8|16|32)\b')),
    ('2a twin functions', twins),
    ('2b twin files', file_twins),
    ('3 loops that count an index or a place', lambda: lines(r'^\s*while (?!let)|^\s*for \w+ in .*\.\.|^\s*(count|k|at|next|left) [+-]= 1')),
    ('4a equality and order by hand', lambda: lines(r'fn (equal|same\w*|precedes|above|before\w*|has_key\w*)\b')),
    ('4b conversions by hand', lambda: lines(r' as (u8|u16|u32|u64|usize)\b')),
    ('4c impls of From, TryFrom, Display by hand', lambda: lines(r'^impl.* (From|TryFrom|Display)\b')),
    ('5a facts in three contracts or more', clauses),
    ('5b parameters that stand together in three signatures or more', together),
    ('6a a number beside an array or slice', counted),
    ('6b fixed arrays', lambda: lines(r'\[[^\[\]]+; *\w+\]')),
    ('6c searches of sorted lists by hand', lambda: lines(r'\blow\b.*\bhigh\b.*\{')),
    ('7 switches on a step, tables of functions', lambda: lines(r'\bfn\(|Box<dyn|&dyn|&mut dyn|match step|enum (Step|Change|Op)\b')),
]


def main():
    show = '--list' in sys.argv
    for name, find in POINTS:
        places = find()
        print(f'{name}: {len(places)}')
        if show:
            for p in places:
                print('    ' + p)
    answers = sum(len(re.findall(r'^pub [\w-]+ :', open(f, encoding='utf-8').read(), re.M))
                  for f in glob.glob('crates/*/proofs/**/Answers.antt', recursive=True))
    lemmas = sum(len(open(f, encoding='utf-8').read().splitlines())
                 for f in glob.glob('crates/*/proofs/*.antt'))
    print(f'8 answers: {answers}; lines of lemma files: {lemmas}')


main()
