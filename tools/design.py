#!/usr/bin/env python3
"""Counts the places in crates/*/src that the pass over the design asks about (docs/DESIGN-PASS.md), a list for each point.
usage: tools/design.py [--places] [FOLDER]      FOLDER: another checkout; --places prints each place, not only how many."""
import glob, os, re, sys

args = [a for a in sys.argv[1:] if a != '--places']
top = args[0] if args else os.path.join(os.path.dirname(os.path.abspath(__file__)), '..')
files = sorted(glob.glob(os.path.join(top, 'crates/*/src/**/*.rt'), recursive=True))
text = {os.path.relpath(f, top): open(f).read() for f in files}
code = {f: re.sub(r'//[^\n]*', '', s) for f, s in text.items()}
FN = re.compile(r'^[ ]*(?:pub(?:\(crate\))? )?(?:extern "C" )?fn (\w+).*?^[ ]*\}$', re.M | re.S)


def lines(pattern):
    return ['%s:%d: %s' % (f, i + 1, l.strip()) for f, s in code.items() for i, l in enumerate(s.split('\n')) if re.search(pattern, l)]


def functions():
    for f, s in code.items():
        for m in re.finditer(r'^(pub(?:\(crate\))? )?(?:extern "C" )?fn (\w+).*?^\}', s, re.M | re.S):
            yield f, m.group(2), m.group(0)


def result_like():
    """enums of two cases of which one is empty or a refusal: the shape of Option or Result"""
    out = []
    for f, s in code.items():
        for m in re.finditer(r'enum (\w+) \{(.*?)^\}', s, re.M | re.S):
            cases = re.findall(r'^    (\w+)(.*?)(?=^    \w|\Z)', m.group(2), re.M | re.S)
            full = [c for c in cases if re.search(r'[({]', c[1])]
            if len(cases) == 2 and full:
                out.append('%s: %s' % (f, m.group(1)))
    return out


def flags():
    """structs with a bool beside another field, private to their crate: a flag with a value"""
    return ['%s: %s' % (f, m.group(1)) for f, s in code.items() for m in re.finditer(r'pub\(crate\) struct (\w+) \{(.*?)\}', s, re.S) if ': bool' in m.group(2)]


def alike(t):
    t = re.sub(r'\b(decode|chain|kept|slice|predict|buffer|rows|magicyuv_decode|entry)(8|16)\b', r'\1N', t)
    t = re.sub(r'_u(8|16)\b', '_uN', t)
    t = re.sub(r'\bu(8|16)\b', 'uN', t)
    t = re.sub(r'2 \^ (8|16)\b', '2 ^ N', t)
    t = re.sub(r'\(?(8 < )?(g\.)?depth( ≡ 8| ≤ 16)?\)?( × \((g\.)?depth ≤ 16\))?(?= \})', 'D', t)
    t = re.sub(r'requires \w+ \{ D', 'requires { D', t)
    t = re.sub(r'\b(Eight|Deep)\b', 'E', t)
    t = re.sub(r'\(\(g\.depth ≡ 8\)|\(8 < g\.depth\)[^}]*', 'D', t)
    return re.sub(r'\s+', ' ', t)


def twins():
    seen = {}
    for f, n, t in functions():
        seen.setdefault(alike(t), []).append('%s: %s' % (f, n))
    return [' = '.join(v) for v in seen.values() if len(v) > 1]


def facts():
    """predicates that stand in the requires clauses of three functions or more"""
    where = {}
    for f, n, t in functions():
        for p in set(re.findall(r'\b([A-Z]\w+) (?=[\w(])', ' '.join(re.findall(r'requires (?:\w+ )?\{(.*?)\}$', t, re.M)))):
            where.setdefault(p, []).append('%s: %s' % (f, n))
    return ['%s: %d functions' % (p, len(v)) for p, v in sorted(where.items()) if len(v) >= 3]


POINTS = [
    ('1 enums of the shape of Option or Result', result_like()),
    ('1 a flag with a value beside it', flags() + lines(r'^\s+(pub )?answer: ')),
    ('1 refusals handed on by hand', lines(r'Refused\(n, \w+\)|Err\(why\) => (return )?(\w+\()?Err\(why')),
    ('1 numbers for kinds, families or refusals', lines(r'\b(kind|family|number|predictor|entry|interlaced): (u8|u32)')),
    ('2 functions whose text is another\'s', twins()),
    ('3 loops that count by hand', lines(r'^\s*while ')),
    ('4 order, copying, conversion by hand', lines(r'fn (min|max|min_u8|max_u8|min_u16|max_u16|least|wide|family|reply_of|clear_u32)\(')),
    ('5 facts in the requires of three functions or more', facts()),
    ('6 parallel arrays', lines(r'^    pub \w+: \[usize; 4\],')),
    ('7 a number says which step to run', lines(r'if kind == ')),
]
for name, found in POINTS:
    print('%4d  %s' % (len(found), name))
    if '--places' in sys.argv:
        for x in found:
            print('        ' + x)
