#!/usr/bin/env python3
# Lists the places of src/ that docs/DESIGN-PASS.md counts: python3 tools/places.py [POINT]
import collections
import glob
import re
import sys

FILES = sorted(glob.glob('crates/*/src/*.rt'))
TYPE = r'\s*(?:pub(?:\(crate\))? )?'
LINES = {
    '1a own enums': TYPE + r'enum ',
    '1b a flag in a struct': TYPE + r'(?:passes|mark): ',
    '1c numbers for sides, ports, winners and kinds':
        r'.*(?:\b(?:side|port|wants|winner|kind|number|same_[a-z]+): (?:u8|usize|u32)\b|return 5;|const (?:EAST|WEST|SOUTH|NORTH|LOCAL|NO_SIDE)\b)',
    '3 loops over a range, and while': r'\s*(?:for [^;]* in [^;]*\.\.|while |loop )',
    '4 conversions and words by hand':
        r'.*\bfn (?:number|from_number|to_bytes|from_bytes|[a-z]+_word|(?:word|collection)_(?:bytes|from))\b',
    '6 arrays of a fixed length': r'.*: (?:&mut |&)?\[[A-Za-z0-9<>]+; (?:[0-9]{2,}|N)\]',
    '7 a choice of what to run': r'.*\bmatch (?:self\.|plan\.|sizes\.|choices\.)*(?:arbiter|route|payload|depth) \{',
}


def functions():
    for name in FILES:
        text = open(name).read()
        for m in re.finditer(r'\bfn (\w+)(?:<[^(]*>)?\(([^)]*)\)([^{]*?(?:\{[^{}]*\}[^{]*?)*)\n\s*\{', text):
            yield name.split('/')[1] + '::' + m.group(1), m.group(2), m.group(3)


def facts():
    found = collections.defaultdict(set)
    for name, _, clauses in functions():
        for fact in re.findall(r'requires (?:\w+ )?\{([^}]*)\}', clauses):
            found[' '.join(re.sub(r'\bself\.(?:now\.|old\.|new\.)?|\.(?:old|now|new)\b', '', fact).split())].add(name)
    return [(f, n) for f, n in found.items() if len(n) >= 3]


def together():
    found = collections.defaultdict(set)
    for name, parameters, _ in functions():
        names = [p.split(':')[0].strip() for p in parameters.split(',') if ':' in p]
        for i, a in enumerate(names):
            for b in names[i + 1:]:
                found[a + ', ' + b].add(name)
    return [(p, n) for p, n in found.items() if len(n) >= 4]


def show(title, places):
    print(f'{title}: {len(places)}')
    for place in places:
        print('    ' + place)


for title, pattern in LINES.items():
    if len(sys.argv) < 2 or title.startswith(sys.argv[1]):
        show(title, [f'{f}:{n}: {line.strip()}' for f in FILES for n, line in enumerate(open(f), 1) if re.match(pattern, line)])
for title, places in (('5a facts required by three functions or more', facts()), ('5b pairs of parameters of four functions or more', together())):
    if len(sys.argv) < 2 or title.startswith(sys.argv[1]):
        show(title, [f'{len(n)}: {p}' for p, n in sorted(places, key=lambda x: -len(x[1]))])
