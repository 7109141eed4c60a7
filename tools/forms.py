#!/usr/bin/env python3
"""forms.py [COMMIT]: the places of src/ that the design pass looks at (docs/DESIGN-PASS.md), by point, with file and line.

Without COMMIT those of the working tree. A place is found by its text alone: whether it is one is for a reader to say.
  1a own enums with two or more variants, and what they are shaped like   1b a refusal, kind or verdict as a number
  1c a flag beside a value in a struct                                    2  functions that differ only in a type, a size or a constant
  3  loops that count by hand                                             4  comparing, copying, converting by hand
  5a a fact in the contracts of three functions or more                   5b three parameters that travel together
  6  parallel slices, and a length beside a buffer                        7  a switch whose arms each call a step
"""
import collections
import re
import subprocess
import sys

commit = sys.argv[1] if len(sys.argv) > 1 else None


def run(*args):
    return subprocess.run(args, capture_output=True, text=True, check=True).stdout


def files():
    pattern = r'^crates/[^/]+/src/.*\.rt$'
    names = run('git', 'ls-tree', '-r', '--name-only', commit) if commit else run('git', 'ls-files', '-co', '--exclude-standard')
    for name in names.split('\n'):
        if re.match(pattern, name):
            try:
                yield name, (run('git', 'show', f'{commit}:{name}') if commit else open(name).read())
            except FileNotFoundError:
                continue


sources = dict(files())
found = collections.defaultdict(list)


def place(point, name, text, at, what):
    found[point].append(f'{name}:{text.count(chr(10), 0, at) + 1}: {what}')


FUNCTION = re.compile(r'^(?:    )?(?:pub(?:\(crate\))? )?(?:extern "C" )?fn (\w+)(.*?)^(?:    )?\}$', re.M | re.S)
functions = []
for name, text in sources.items():
    code = re.sub(r'//[^\n]*', lambda m: ' ' * len(m.group(0)), text)
    sources[name] = code
    for m in FUNCTION.finditer(code):
        functions.append((name, m.group(1), m.group(2), m.start()))

for name, text in sources.items():
    for m in re.finditer(r'^(?:pub(?:\(crate\))? )?enum (\w+) \{(.*?)^\}', text, re.M | re.S):
        body = ' '.join(m.group(2).split())
        shaped = re.search(r'\b(Refused|Refuse|Nothing|Is|Done|None|Some|Err)\b', body)
        if shaped:
            place('1a', name, text, m.start(), f'enum {m.group(1)} {{ {body} }}')
    for m in re.finditer(r'^(?:pub(?:\(crate\))? )?const (\w+): u(?:32|64) = (\d+|b\'.\' as u64);', text, re.M):
        if re.search(r'WRONG|TOO_|NO_|OVERFLOW|UNEQUAL|ZERO_DIVISOR|NOT_|MISPLACED|INVALID|EXP_|REFUSED|COMMENT|PLAIN|LITERAL|LOGARITHM', m.group(1)):
            place('1b', name, text, m.start(), m.group(0))
    for m in re.finditer(r'^(?:pub(?:\(crate\))? )?struct (\w+) \{(.*?)^\}', text, re.M | re.S):
        fields = re.findall(r'(\w+): ([^,\n]+)', m.group(2))
        if len(fields) == 2 and (any(t == 'bool' for _, t in fields) or 'answer' in dict(fields)):
            place('1c', name, text, m.start(), f'struct {m.group(1)} {fields}')
    for m in re.finditer(r'^ *while .*$', text, re.M):
        place('3', name, text, m.start(), m.group(0).strip())
    for m in re.finditer(r'^ *match \w+ \{((?:\s*[\w:]+(?:\([\w, ]*\))? => \w[\w:]*\([^;{}]*\),)+)\s*\}', text, re.M):
        place('7', name, text, m.start(), ' '.join(m.group(0).split())[:100])

for name, fn, rest, at in functions:
    text = sources[name]
    head = rest.split('{\n')[0]
    if re.search(r'-> u32\b', head) and re.search(r'fault|refus|number', fn + head + name):
        place('1b', name, text, at, f'fn {fn} answers a number')
    body = rest[rest.rfind('\n{\n'):] if '\n{\n' in rest else rest[rest.find('{\n'):]
    if len(re.findall(r'\n', body)) <= 4 and re.search(r'^\s*\{\s*\(?\(?\w+(\.\w+)? (as \w+|[<>] \w+)\)?\)?[^;]*\}?\s*$', body.strip(), re.S) and ' as ' in body:
        place('4', name, text, at, f'fn {fn}: a cast')
    if fn in ('less', 'compare', 'smaller', 'least', 'at_most_one', 'past', 'bit', 'hold', 'is_zero'):
        place('4', name, text, at, f'fn {fn}')
    slices = re.findall(r'(\w+): &(?:mut )?\[(\w+)(?:; \w+)?\]', head)
    if len([s for s in slices if s[0] not in ('text', 'file', 'line')]) >= 3 or (slices and re.search(r'\b(n|len|count|values): (usize|u32)', head)):
        place('6', name, text, at, f'fn {fn}({", ".join(s[0] for s in slices)})')

# 2: the same text once types, signs and numbers are taken out
shapes = collections.defaultdict(list)
for name, fn, rest, at in functions:
    head = re.split(r'\n *(?:ensures|requires)|\{\n', rest)[0]
    body = re.split(r'^ *\{\n|\) (?:-> [^\n]*)?\{\n', rest, maxsplit=1, flags=re.M)[-1]
    shape = re.sub(r'(?:Un|un|S|s)?[sS]igned|\b[iu](?:8|16|32|64|size)\b|_[su]\b|\d+|\b[A-Z]+_(?:#|32|64)\b|f(?:32|64)', '#', head + body)
    shape = ' '.join(shape.split())
    if len(shape) > 60:
        shapes[(name.split('/')[1], re.sub(r'_?(?:un)?signed|_?f?(?:32|64)$', '', fn), shape)].append((name, fn, at))
for (crate, fn, shape), places in sorted(shapes.items()):
    if len(places) > 1:
        for name, fn, at in places[1:]:
            place('2', name, sources[name], at, f'fn {fn} as {places[0][0]} fn {places[0][1]}')

# 5a: the facts of contracts; 5b: parameters
facts = collections.defaultdict(list)
groups = collections.defaultdict(list)
for name, fn, rest, at in functions:
    for clause in re.findall(r'requires(?: \w+)? \{ (.*?) \}\n', rest, re.S):
        for fact in re.split(r' × ', ' '.join(clause.split())):
            facts[(name.split('/')[1], fact.strip('() '))].append((name, fn, at))
    head = rest.split(')')[0]
    names = [p for p in re.findall(r'(?:^\(|, |\n)\s*(?:mut )?(\w+): ', head)]
    for i in range(len(names) - 2):
        groups[tuple(names[i:i + 3])].append((name, fn, at))
for (crate, fact), places in sorted(facts.items()):
    if len(places) >= 3:
        name, fn, at = places[0]
        place('5a', name, sources[name], at, f'{fact}: {len(places)} functions')
for group, places in sorted(groups.items()):
    if len(places) >= 5 and not any('/capi/' in n for n, _, _ in places[:1]):
        name, fn, at = places[0]
        place('5b', name, sources[name], at, f'({", ".join(group)}): {len(places)} functions')

for point in sorted(found):
    print(f'point {point}: {len(found[point])}')
    for line in found[point]:
        print(f'  {line}')
print('all: ' + ', '.join(f'{point} {len(found[point])}' for point in sorted(found)))
