#!/usr/bin/env python3
"""Lists the places that docs/DESIGN-PASS.md counts, point by point, in the sources of a checkout.

    python3 tools/places.py [FOLDER] [POINT]

It goes by text, so that what it lists is to be read: a line of it is a place where a reader decides."""
import collections
import glob
import os
import re
import sys

root = sys.argv[1] if len(sys.argv) > 1 else '.'
only = int(sys.argv[2]) if len(sys.argv) > 2 else 0
files = sorted(glob.glob(os.path.join(root, 'crates/*/src/**/*.rt'), recursive=True))
lines = [(os.path.relpath(f, root), i + 1, line.rstrip('\n')) for f in files for i, line in enumerate(open(f))]

BY_LINE = {
    1: [
        r'^\s*(pub |pub\(crate\) )?enum ',
        r'^\s*(pub )?[a-z_]+: bool\b',
        r'\b[a-z_]+: bool[,)]',
        r'const [A-Z_]+: u8\b|\bkind: u8\b|=> [0-9]+,$',
        r'\blet (Ok|Err)\(.*\) = .*|^\s*(Err|Ok)\([A-Za-z_:]+\) => |^\s*None => (Err|return Err)',
    ],
    3: [
        r'\bfor [a-z_]+ in \(?[0-9a-z_.()]+\.\.',
        r'\bwhile [a-z_]+ <',
        r'\+= 1;|= [a-z_]+ \+ 1;',
    ],
    4: [
        r'\bfn (eq|cmp|partial_cmp|clone|fmt|from|try_from|number|kind_byte|describe\w*|same|alike|of_word|call)\b',
    ],
    6: [
        r'\[[A-Za-z0-9_]+; [A-Z0-9_a-z]+\]',
        r'\[2 \* i|\[place \+|\bcount: (usize|u8)|\bnext: usize|\bplace: usize',
    ],
    7: [
        r'\btrait |\bdyn |impl Fn|: Fn|\|[a-z_(), ]*\| ',
    ],
}


def code(text):
    return not re.match(r'\s*(//|ghost |requires|ensures)', text)


for point, patterns in BY_LINE.items():
    if only in (0, point):
        found = [(f, n, t.strip()) for f, n, t in lines if code(t) and any(re.search(p, t) for p in patterns)]
        print(f'point {point}: {len(found)} lines')
        for f, n, t in found:
            print(f'  {f}:{n}: {t}')

functions = []
for f in files:
    text = open(f).read()
    for m in re.finditer(r'\bfn (\w+)(?:<[^>]*>)?\(([^)]*)\)([^{;]*?(?:\{[^{}]*\}[^{};]*?)*?)(?:\n\s*\{|;)', text):
        functions.append((os.path.relpath(f, root).split('/')[1] + '::' + m.group(1), m.group(2), m.group(0)))

if only in (0, 2):
    shapes = collections.defaultdict(set)
    for f in files:
        text = open(f).read()
        for m in re.finditer(r'\n((?:    )?)(?:pub |pub\(crate\) )?fn (\w+).*?\n\1\}', text, re.S):
            body = re.sub(r'ensures [^\n]*|requires [^\n]*', '', m.group(0))
            tokens = re.sub(r'\b(u8|u16|u32|u64|usize|i32|i64|[0-9_]+|[a-z_]+|[A-Z]\w*)\b', 'x', body)
            if body.count('\n') > 3:
                shapes[re.sub(r'\s+', '', tokens)].add(os.path.relpath(f, root).split('/')[1] + '::' + m.group(2))
    twins = [sorted(v) for v in shapes.values() if len(v) > 1]
    print(f'point 2: {len(twins)} groups of functions that differ in words alone')
    for group in twins:
        print('  ' + ', '.join(group))

if only in (0, 5):
    facts = collections.defaultdict(set)
    params = collections.defaultdict(set)
    for name, args, head in functions:
        for r in re.finditer(r'(?:requires|ensures) (?:\w+ )?\{ (.*) \}', head):
            for part in r.group(1).split(' × '):
                facts[re.sub(r'\.(now|old|list)\b', '', part.strip('() '))].add(name)
        for a in args.split(','):
            if ':' in a:
                params[re.sub(r"'\w+ ?", '', a.strip())].add(name)
    many = {k: v for k, v in facts.items() if len(v) > 2}
    print(f'point 5: {len(many)} facts in three contracts or more')
    for k, v in sorted(many.items(), key=lambda kv: -len(kv[1])):
        print(f'  {len(v)} {k}: ' + ', '.join(sorted(v)))
    groups = collections.defaultdict(set)
    for name, args, _ in functions:
        own = sorted({re.sub(r"'\w+ ?", '', a.strip()) for a in args.split(',') if ':' in a} - {'heap: Global', 'rt: &impl Abort'})
        for i in range(len(own)):
            for j in range(i + 1, len(own)):
                for k in range(j + 1, len(own)):
                    groups[(own[i], own[j], own[k])].add(name)
    often = {k: v for k, v in groups.items() if len(v) > 2}
    print(f'         {len(often)} groups of three parameters in three functions or more')
    for k, v in sorted(often.items(), key=lambda kv: -len(kv[1])):
        print(f'  {len(v)} {"; ".join(k)}: ' + ', '.join(sorted(v)))

if only in (0, 8):
    proofs = glob.glob(os.path.join(root, 'crates/*/proofs/**/*.antt'), recursive=True)
    answers = [p for p in proofs if os.path.basename(p) in ('Answers.antt', 'Invariants.antt', 'Proof.antt')]
    count = lambda ps: sum(len(open(p).read().split('\n')) - 1 for p in ps)
    rest = [p for p in proofs if p not in answers]
    print(f'point 8: {len(answers)} files of answers and invariants, {count(answers)} lines; {len(rest)} files of lemmas, {count(rest)} lines')
