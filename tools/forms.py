#!/usr/bin/env python3
"""Counts older forms in crates/*/src, point by point of docs/DESIGN-PASS.md.

usage: tools/forms.py [POINT ..]     from the repository's top; no POINT: all
"""
import collections
import pathlib
import re
import sys

FN = re.compile(r'^(\s*)(?:pub )?(?:extern "C" )?fn (\w+)')
TYPES = r'\b(?:f64|u8|u16|u32|u64|usize|bool)\b'


def files():
    for path in sorted(pathlib.Path('crates').glob('*/src/**/*.rt')):
        yield path, path.read_text().split('\n')


def functions():
    """Each function: path, line, name, parameters by name, body."""
    for path, lines in files():
        i = 0
        while i < len(lines):
            m = FN.match(lines[i])
            if not m:
                i += 1
                continue
            start, indent = i, m.group(1)
            while i < len(lines) and lines[i] != indent + '}' and not (i == start and lines[i].endswith('}')):
                i += 1
            text = '\n'.join(lines[start:i + 1])
            head = text[text.index('('):]
            depth = end = 0
            for k, ch in enumerate(head):
                depth += (ch == '(') - (ch == ')')
                if depth == 0:
                    end = k
                    break
            names = re.findall(r'(?:^|[,(])\s*(?:mut )?(\w+): ', head[:end])
            rest = head[end:]
            body = rest[rest.index('\n' + indent + '{') + 1:] if '\n' + indent + '{' in rest else rest
            yield path, start + 1, m.group(2), names, body
            i += 1


def point1():
    """Own enums of two cases of which one or both have a part, and a flag beside a value among the parameters."""
    for path, lines in files():
        for i, line in enumerate(lines):
            if re.match(r'\s*(?:pub )?enum ', line):
                cases = []
                depth = 0
                for j in range(i + 1, len(lines)):
                    if lines[j].strip() == '}' and depth == 0:
                        break
                    if depth == 0 and re.match(r'\s*[A-Z]\w*', lines[j]):
                        cases.append(lines[j].strip())
                    depth += lines[j].count('{') - lines[j].count('}')
                if len(cases) == 2 and any('(' in c or '{' in c for c in cases):
                    yield f'{path}:{i + 1}: {line.strip()} {" ".join(cases)}'
    for path, at, name, names, body in functions():
        for flag, value in (('stratified', 'strata'), ('stratified', 'given'), ('weighted', 'weights'), ('strata_given', 'strata'), ('weights_given', 'weights')):
            if flag in names and value in names:
                yield f'{path}:{at}: {name}: {flag}, {value}'


def point2():
    """Functions whose bodies are one but for names, types and numbers."""
    seen = collections.defaultdict(list)
    for path, at, name, names, body in functions():
        code = re.sub(r'//.*', '', body)
        code = re.sub(TYPES, 'T', code)
        code = re.sub(r'-?\b\d[\w.]*', '0', code)
        order = {}
        code = re.sub(r'\b[a-z_]\w*\b', lambda m: order.setdefault(m.group(0), f'v{len(order)}') if m.group(0) not in
                      ('for', 'in', 'if', 'else', 'let', 'mut', 'return', 'while', 'match', 'as', 'true', 'false') else m.group(0), code)
        code = re.sub(r'\s+', ' ', code)
        if len(code) > 40:
            seen[code].append(f'{path}:{at}: {name}')
    for group in seen.values():
        if len(group) > 1:
            yield '; '.join(group)


def point3():
    """`while` and `loop`; and a `for` over an index of which only the entries at that index are read."""
    for path, lines in files():
        for i, line in enumerate(lines):
            if re.match(r'\s*(?:while|loop)\b', line):
                yield f'{path}:{i + 1}: {line.strip()}'
            m = re.match(r'(\s*)for (\w+) in (\w+)\.\.(\w+(?:\.len\(\))?) \{', line)
            if m:
                v = m.group(2)
                body = []
                for j in range(i + 1, len(lines)):
                    if lines[j] == m.group(1) + '}':
                        break
                    body.append(lines[j])
                text = '\n'.join(body)
                uses = len(re.findall(rf'\b{v}\b', text))
                reads = len(re.findall(rf'\w+\[{v}\](?! (?:\+|-)?= )', text))
                if uses and uses == reads:
                    yield f'{path}:{i + 1}: {line.strip()}'


def point4():
    """Conversions, order and arithmetic that have a name in the library."""
    names = ('number_of code_of state_of value_of is_given p_of right_of given_of is_assigned one_if counted larger_of smaller_of at_least_one excess only_if '
             'wrapping_mul abs max is_finite signum place_of entry entry_of digit_of nibble_of components_used axes_of columns_used').split()
    for path, at, name, params, body in functions():
        if name in names:
            yield f'{path}:{at}: {name}'
    for path, lines in files():
        for i, line in enumerate(lines):
            if re.search(r'\b(\w+(?:\[\w+\])?) != \1(?=\W)', line):
                yield f'{path}:{i + 1}: {line.strip()}'


GROUPS = (
    ('next', 'mem'), ('labels', 'strata', 'distances'), ('labels', 'given'), ('distances', 'weights'), ('t', 'w', 'p'), ('t', 'w'), ('w', 'm', 'v'), ('rotated', 'vectors'), ('m', 'v', 'x', 'y'),
    ('counts', 'way', 'ss'), ('groups', 'columns'), ('hashes', 'offsets'), ('chosen', 'means'), ('words', 'sums'), ('group_labels', 'counts', 'means'), ('pair_terms', 'weighted_squares'),
    ('q', 'aq'), ('seed', 'n_perm'), ('pairs', 'values'))


def point5():
    """Parameters that travel together through three functions and more, by groups named in this file."""
    having = collections.defaultdict(list)
    for path, at, name, names, body in functions():
        for group in GROUPS:
            if set(group) <= set(names):
                having[group].append(f'{path}:{at}: {name}')
                break
    for group in GROUPS:
        if len(having[group]) >= 3:
            for place in having[group]:
                yield f'{", ".join(group)}: {place}'


def point6():
    """Arrays in a struct whose used length stands beside them, slices with the length of their front as a parameter, and searches by halves."""
    for path, lines in files():
        struct = None
        for i, line in enumerate(lines):
            if re.match(r'\s*(?:pub )?struct ', line):
                struct = line.strip()
            elif line.strip() == '}':
                struct = None
            if struct and re.match(r'\s*(?:pub )?\w+: \[.*; .*\],', line):
                yield f'{path}:{i + 1}: {struct} {line.strip()}'
            if re.search(r'/ 2;', line) and 'left' in line:
                yield f'{path}:{i + 1}: {line.strip()}'
    for path, at, name, names, body in functions():
        for m in re.finditer(r'(\w+)\[\.\.(\w+)\]', body):
            if m.group(1) in names and m.group(2) in names:
                yield f'{path}:{at}: {name}: {m.group(0)}'
                break


def point7():
    """A flag among the parameters that chooses the step: `if FLAG {` with a call in both arms."""
    for path, at, name, names, body in functions():
        for m in re.finditer(r'(?:^|\n)\s*if (\w+) \{\n([^{}]*)\} else \{\n([^{}]*)\}', body):
            if m.group(1) in names and '(' in m.group(2) and '(' in m.group(3):
                yield f'{path}:{at}: {name}: {m.group(1)}'
        if 'dyn ' in body or 'fn(' in body:
            yield f'{path}:{at}: {name}: a table or a pointer'


POINTS = {'1': point1, '2': point2, '3': point3, '4': point4, '5': point5, '6': point6, '7': point7}

for point in sys.argv[1:] or POINTS:
    found = list(POINTS[point]())
    print(f'point {point}: {len(found)} places. {POINTS[point].__doc__}')
    for place in found:
        print('   ', place)
