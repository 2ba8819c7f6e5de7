#!/usr/bin/env python3
"""Counts the places in crates/*/src that look like the older language: `python3 tools/count-forms.py [-v]`, in the repository.

A place is a line, or for twins a function. The searches go by text: docs/DESIGN-PASS.md says what reading added and left."""
import collections
import glob
import re
import sys

VERBOSE = '-v' in sys.argv
SOURCES = sorted(glob.glob('crates/*/src/*.rt'))
TEXT = {f: open(f).read() for f in SOURCES}


def lines(pattern):
    """Each line that has the pattern, comments left out."""
    found = []
    for f in SOURCES:
        for k, line in enumerate(TEXT[f].split('\n')):
            if re.search(pattern, line.split('//')[0]):
                found.append(f'{f}:{k + 1}: {line.strip()}')
    return found


def pairs(first, second):
    """Each line that has the first pattern where the next one has the second."""
    found = []
    for f in SOURCES:
        rows = TEXT[f].split('\n')
        for k in range(len(rows) - 1):
            if re.search(first, rows[k]) and re.search(second, rows[k + 1]):
                found.append(f'{f}:{k + 1}: {rows[k].strip()} {rows[k + 1].strip()}')
    return found


def bodies():
    """Each function with its body."""
    for f in SOURCES:
        rows = TEXT[f].split('\n')
        for k, row in enumerate(rows):
            m = re.match(r'( *)(?:pub(?:\(crate\))? )?(?:final )?fn (\w+)', row)
            if not m:
                continue
            start = k
            while start < len(rows) and not (rows[start].endswith('{') and (start == k or rows[start].startswith((m.group(1) + '{', m.group(1) + ') ')))):
                if rows[start].endswith(';'):
                    break
                start += 1
            if start == len(rows) or rows[start].endswith(';'):
                continue
            end = start + 1
            while rows[end] != m.group(1) + '}':
                end += 1
            yield f, m.group(2), '\n'.join(rows[start + 1:end])


def twins():
    """Functions of four or more words whose bodies differ in names and numbers alone."""
    shapes = collections.defaultdict(list)
    for f, name, body in bodies():
        body = re.sub(r'//[^\n]*', '', body)
        shape = re.sub(r'\s+', ' ', re.sub(r'\b\w+\b', 'x', body)).strip()
        if shape.count('x') >= 4:
            shapes[shape].append(f'{f}: {name}')
    return [' = '.join(group) for group in shapes.values() if len(group) > 1]


def indexed():
    """Loops that count, in whose body what they count is an index."""
    found = []
    for f in SOURCES:
        for m in re.finditer(r'^( *)for (\w+) in [^\n]*\.\.[^\n]*\{\n(.*?)^\1\}$', TEXT[f], re.S | re.M):
            if re.search(r'\[[^\]]*\b' + m.group(2) + r'\b[^\]]*\]', m.group(3)):
                found.append(f'{f}: for {m.group(2)}')
    return found


def repeated():
    """Facts that three or more functions of a crate ask for."""
    counts = collections.Counter()
    for f in SOURCES:
        for m in re.finditer(r'requires(?: \w+)? \{ (.*) \}', TEXT[f]):
            counts[f.split('/')[1], m.group(1)] += 1
    return [f'{n} x {crate}: {fact}' for (crate, fact), n in counts.most_common() if n >= 3]


POINTS = [
    ('1 a failure as Some: -> Option<Refusal>', lines(r'-> Option<Refusal>')),
    ('1 a failure handed on by hand', lines(r'if let Some\((cause|refusal)\) =|(Some|Err)\((cause|e|refusal)\) => (Some|Err|Answer::Refused)\(')),
    ('1 let .. else { return None }', pairs(r'else \{$', r'^ *return None;')),
    ('1 let .. else { return Err or Some(..) }', pairs(r'else \{$', r'^ *return (Some|Err)\(')),
    ('1 None => None and the like', lines(r'^ *(None => None|Some\((\w+)\) => Some\(\2\)|Err\((\w+)\) => Err\(\3\)|Ok\(_\) => None),')),
    ('1 a result that means nothing', pairs(r'^\{$', r'^    0$')),
    ('1 own enums, to be read', lines(r'^ *(pub(\(crate\))? )?enum ')),
    ('2 twins: groups of equal bodies', twins()),
    ('3 while loops that count', lines(r'^ *while .*[<>]')),
    ('3 for loops over a range', lines(r'^ *for \w+ in .*\.\.')),
    ('3 of these, with an index', indexed()),
    ('4 impls by hand', lines(r'^ *impl.* (PartialEq|Eq|PartialOrd|Ord|Clone|Copy|Debug|Default)\b.* for ')),
    ('5 requires that three or more functions have', repeated()),
    ('5 requires joined by x', lines(r'requires.*×')),
    ('6 arrays in structs, to be read', lines(r'^    (pub(\(crate\))? )?\w+: \[')),
]

for name, places in POINTS:
    print(f'{len(places):4}  {name}')
    if VERBOSE:
        for place in places:
            print(f'        {place}')
