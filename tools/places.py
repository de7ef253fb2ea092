#!/usr/bin/env python3
"""Counts, for docs/DESIGN-PASS.md, the places in crates/*/src where an older form may stand.

    tools/places.py            of the files as they are
    tools/places.py COMMIT     of a commit
    tools/places.py -l [..]    lists each place

It goes by text: what it lists is read by a person, and a place that it cannot see (a flag in a struct, say) is
added by hand on the page.
"""
import collections
import re
import subprocess
import sys
import pathlib

args = [a for a in sys.argv[1:] if a != '-l']
listing = '-l' in sys.argv
top = pathlib.Path(__file__).resolve().parent.parent


def files():
    """Each source file's path and text."""
    if args:
        names = subprocess.run(['git', '-C', top, 'ls-tree', '-r', '--name-only', args[0], 'crates'],
                               capture_output=True, text=True, check=True).stdout.split('\n')
        for name in names:
            if re.fullmatch(r'crates/\w+/src/.*\.rt', name):
                yield name, subprocess.run(['git', '-C', top, 'show', f'{args[0]}:{name}'],
                                           capture_output=True, text=True, check=True).stdout
    else:
        for path in sorted(top.glob('crates/*/src/**/*.rt')):
            yield str(path.relative_to(top)), path.read_text()


def code(text):
    """The text without comments, byte strings and strings."""
    text = re.sub(r'//.*', '', text)
    return re.sub(r'b?"(\\.|[^"\\])*"', '""', text)


TEXTS = [(name, code(text)) for name, text in files()]


def functions():
    """Of each function: its file, name, parameters, clauses and body."""
    for name, text in TEXTS:
        for m in re.finditer(r'\bfn (\w+)(?:<[^({]*>)?\(', text):
            depth, i = 1, m.end()
            while depth:
                depth += {'(': 1, ')': -1}.get(text[i], 0)
                i += 1
            params = text[m.end():i - 1]
            j = i
            # clauses are braces after the words requires and ensures; the body is the first brace after none of these
            clauses = []
            while True:
                b = text.find('{', j)
                s = text.find(';', j)
                if b < 0 or (0 <= s < b):
                    body = ''
                    break
                depth, k = 1, b + 1
                while depth:
                    depth += {'{': 1, '}': -1}.get(text[k], 0)
                    k += 1
                if re.search(r'\b(requires|ensures)\b[^{]*$', text[j:b]):
                    clauses.append((re.search(r'\b(requires|ensures)\b[^{]*$', text[j:b]).group(1), text[b + 1:k - 1]))
                    j = k
                else:
                    body = text[b:k]
                    break
            yield name, m.group(1), params, clauses, body


def show(title, places):
    print(f'{len(places):5}  {title}')
    if listing:
        for place in places:
            print(f'         {place}')


def matches(pattern):
    return [f'{name}:{text.count(chr(10), 0, m.start()) + 1}: {m.group(0).strip()}'
            for name, text in TEXTS for m in re.finditer(pattern, text, re.M)]


FUNCTIONS = list(functions())

show('1. enums', matches(r'^\s*(pub )?enum \w+'))
show('1. matches whose one arm passes a refusal on', matches(r'::(Failed|Refused)\(\w+\)\s*=>\s*\w+::(Failed|Refused)'))
show('1. structs of a value and the position after it', matches(r'^pub struct \w+(?:<\w+>)? \{[^}]*\bat: usize,\s*\}'))

shapes = collections.defaultdict(list)
for file, name, params, clauses, body in FUNCTIONS:
    tokens = re.findall(r'[A-Za-z_]\w*|\d[\d_.a-fxA-F]*|[^\s\w]', params + body)
    seen = {}
    shape = tuple(t if not re.match(r'\w', t) or t in ('if', 'else', 'while', 'for', 'let', 'mut', 'match', 'return')
                  else ('0' if t[0].isdigit() else seen.setdefault(t, f'v{len(seen)}')) for t in tokens)
    if len(tokens) >= 20 and body:
        shapes[shape].append(f'{file}: {name}')
show('2. functions of one shape with another', [' = '.join(v) for v in shapes.values() if len(v) > 1])

show('3. while and loop', matches(r"^\s*('\w+: )?(while\b.*|loop) \{"))
show('3. for over a range', matches(r'^\s*for \w+ in [^{]*\.\.[^{]*\{'))

show('4. functions that make one value of another', [
    f'{file}: {name}' for file, name, params, clauses, body in FUNCTIONS
    if re.search(r'(_of|_number)$', name) and params.count(':') <= 2 and 'crossing' in file])
show('4. equality by hand', [f'{file}: {name}' for file, name, params, clauses, body in FUNCTIONS
                             if re.search(r'\b(same|equal|alike)', name)])

facts = collections.defaultdict(set)
for file, name, params, clauses, body in FUNCTIONS:
    for kind, clause in clauses:
        if kind == 'requires':
            for fact in re.split(r'[()]?\s*×\s*[()]?', clause):
                fact = re.sub(r'\s+', ' ', fact).strip(' ()')
                facts[fact.replace('.old', '.now')].add(f'{file}: {name}')
show('5. facts in the requires of three or more functions',
     [f'{len(v):3}  {fact}' for fact, v in sorted(facts.items(), key=lambda x: -len(x[1])) if len(v) >= 3])
pairs = collections.defaultdict(set)
for file, name, params, clauses, body in FUNCTIONS:
    ps = [re.sub(r'&mut ', '&', p.strip()) for p in params.split(',') if ':' in p]
    for a, b in zip(ps, ps[1:]):
        pairs[f'{a}, {b}'].add(f'{file}: {name}')
show('5. pairs of parameters of eight or more functions',
     [f'{len(v):3}  {pair}' for pair, v in sorted(pairs.items(), key=lambda x: -len(x[1])) if len(v) >= 8])

show('6. lengths of slices that a clause fixes', matches(r'length \w+\.(now|old) ≡ \d+'))
show('6. functions with a slice and how much of it is used', [
    f'{file}: {name}' for file, name, params, clauses, body in FUNCTIONS
    if re.search(r'\b(n|m|count): usize', params) and re.search(r'&(mut )?\[', params)])

show('7. tables of functions and numbers of steps', matches(r'\[(fn|&dyn|Box<dyn)|\bstep: u\d+'))
