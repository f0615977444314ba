#!/usr/bin/env python3
"""Counts, in the sources of all crates, the places that docs/DESIGN-PASS.md speaks of. Run at the top of the repository."""
import collections
import itertools
import pathlib
import re
import sys

FUNCTION = re.compile(r'^( *)(?:pub )?(?:const )?(?:extern "C" )?fn ([a-z_0-9]+)', re.M)


def sources():
    for path in sorted(pathlib.Path('crates').glob('*/src/**/*.rt')):
        yield path, path.read_text()


def functions():
    """Each function: its file, name, parameters, facts that it requires, and body without comments."""
    for path, text in sources():
        for start in FUNCTION.finditer(text):
            end = re.search(r'^%s\}$' % start[1], text[start.start():], re.M)
            if not end:
                continue
            item = text[start.start():start.start() + end.end()]
            head, mark, body = item.partition('\n%s{' % start[1])
            if not mark:
                head, _, body = item.partition(' {\n')
            params = parameters(head)
            facts = [f for r in re.findall(r'requires(?: \w+)? \{(.*?)\}\s*(?=requires|ensures|$)', head, re.S) for f in split(r)]
            yield path, start[2], params, facts, re.sub(r'//.*', '', body)


def parameters(head):
    inside = re.search(r'\((.*?)\)\s*(?:->|\n|$)', head, re.S)
    return [' '.join(p.split()) for p in split(inside[1], ',')] if inside else []


def split(text, mark='×'):
    parts, depth, last = [], 0, ''
    for c in text:
        depth += (c in '([{<') - (c in ')]}>')
        if c == mark and depth == 0:
            parts.append(last)
            last = ''
        else:
            last += c
    parts.append(last)
    out = []
    for part in parts:
        part = ' '.join(part.split())
        while mark == '×' and part.startswith('(') and part.endswith(')') and balanced(part[1:-1]):
            inner = part[1:-1]
            if '×' in inner:
                return out + [p for p in split(inner)]
            part = inner
        if part:
            out.append(part)
    return out


def balanced(text):
    depth = 0
    for c in text:
        depth += (c == '(') - (c == ')')
        if depth < 0:
            return False
    return depth == 0


def show(title, places):
    places = list(places)
    print('%s: %d' % (title, len(places)))
    if '-v' in sys.argv:
        for place in places:
            print('    ' + place)


def lines(pattern):
    for path, text in sources():
        for number, line in enumerate(text.splitlines(), 1):
            code = line.split('//')[0]
            if re.search(pattern, code):
                yield '%s:%d: %s' % (path, number, line.strip())


def enums():
    """Enums of the shape of Option or Result: a case that says nothing, or a case that says that all is well."""
    empty = r'\b(Nothing|None|Pass|Fine|Bad|Full|Spent|Over|Going|End|Failed\(Error\)|Refused\(u32, usize\)),'
    for path, text in sources():
        for name, body in re.findall(r'^(?:pub )?enum (\w+) \{\n(.*?)^\}', text, re.M | re.S):
            if re.search(empty, body):
                yield '%s: %s' % (path, name)


def twins():
    seen = collections.defaultdict(list)
    for path, name, _, _, body in functions():
        shape = re.sub(r'[A-Za-z_][A-Za-z_0-9]*|[0-9]+', '_', re.sub(r'\s+', ' ', body))
        if shape.count('_') > 8:
            seen[shape].append('%s: %s' % (path, name))
    for group in seen.values():
        if len(group) > 1:
            yield ', '.join(group)


def facts():
    seen = collections.Counter()
    for _, _, _, needs, _ in functions():
        for fact in set(re.sub(r'\.(old|now)\b', '', f) for f in needs):
            seen[fact] += 1
    return ['%d times: %s' % (n, f) for f, n in seen.most_common() if n >= 3]


def together():
    """Groups of three or more parameters that stand in three or more functions, each the largest that those functions share."""
    sets = [frozenset(p for p in params if ':' in p) for _, _, params, _, _ in functions()]
    groups = {a & b for a, b in itertools.combinations(sets, 2) if len(a & b) >= 3}
    often = {g: sum(g <= s for s in sets) for g in groups}
    often = {g: n for g, n in often.items() if n >= 3}
    return ['%d times: %s' % (n, ', '.join(sorted(g))) for g, n in sorted(often.items(), key=lambda x: (-x[1], sorted(x[0])))
            if not any(g < h and often[h] == n for h in often)]


show('1a enums of the shape of Option or Result', enums())
show('1b a flag with values beside it, in a struct', lines(r'^\s*(pub )?(spent|over|made|live): bool,'))
show('1c a number for a kind, a rule or a refusal', itertools.chain(
    lines(r'(kind(_of)?\(?[^=]*|word\(log, p\)|tag) [!=]= [0-9]+'), lines(r'Refused\([0-9]+,'), lines(r'\b(kind|merge|rule|op|tag|g|from|to): u32\b'),
    lines(r'^\s*match (kind|g|tag|op|f|rule|func) \{')))
show('2 functions whose bodies differ only in names and numbers', twins())
show('3 loops with `while`', lines(r'^\s*while '))
show('3 of them counted by hand', lines(r'^\s*while [a-z_.0-9]+ < '))
show('4 casts, and casts in functions', lines(r' as (u8|u32|u64|usize)\b|words::size\(|\bwide(_word)?\('))
show('4 least, equality and order by hand', lines(r'fn (least|min|max|later|is_refusal|going|flag|before)\b'))
show('5 facts in three or more contracts', facts())
show('5 groups of three or more parameters in three or more functions', together())
show('5 functions of more than six parameters', ('%s: %s' % (path, name) for path, name, params, _, _ in functions() if len(params) > 6))
show('6 a buffer with a length or a place beside it, as parameters', lines(r'key: &\[u32; 16\]|row: &\[u32; 16\]|vals: \[u32; 16\]|out: &mut \[u8\], at: usize'))
show('7 switches on which step to run', lines(r'^\s*match (ask|test|change|family|what)\b'))
