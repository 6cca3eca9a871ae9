#!/usr/bin/env python3
"""Lists places of src/ that an older form of the language could stand in, point by point.

    python3 tools/places.py          the number of places of each point
    python3 tools/places.py 3        the places of point 3, each with its file and line
    python3 tools/places.py 3 DIR    those of another checkout

A place that is listed is to be read: not every one is an older form. Tests are left out of
points 1 to 7.
"""
import collections
import pathlib
import re
import sys

HEAD = re.compile(r'^\s*(?:pub(?:\(crate\))? )?(?:final )?(?:const )?fn (\w+)')


def sources(top):
    for path in sorted(top.glob('crates/*/src/**/*.rt')):
        crate = path.relative_to(top).parts[1]
        if crate == 'cases' or path.name == 'tests.rt':
            continue
        yield path, path.read_text().split('\n')


def matching(top, *patterns):
    for path, lines in sources(top):
        for n, line in enumerate(lines, 1):
            code = line.split('//')[0]
            if any(re.search(p, code) for p in patterns):
                yield f'{path.relative_to(top)}:{n}', line.strip()


def functions(top):
    """Each function: where it is, its name, its head up to the body, and its body."""
    for path, lines in sources(top):
        n = 0
        while n < len(lines):
            found = HEAD.match(lines[n])
            if not found:
                n += 1
                continue
            start, indent = n, len(lines[n]) - len(lines[n].lstrip())
            head, body = [], []
            while n < len(lines):
                line = lines[n]
                if line.startswith(' ' * indent + '{') or line.rstrip().endswith('{'):
                    break
                if line.rstrip().endswith(';'):
                    break
                head.append(line)
                n += 1
            if n < len(lines) and lines[n].rstrip().endswith('{'):
                head.append(lines[n])
                n += 1
                while n < len(lines) and not lines[n].startswith(' ' * indent + '}'):
                    body.append(lines[n])
                    n += 1
            n += 1
            yield f'{path.relative_to(top)}:{start + 1}', found.group(1), head, body


def shape(body):
    """The body with its names and numbers taken out."""
    text = re.sub(r'//.*', '', '\n'.join(body))
    text = re.sub(r'[A-Za-z_]\w*', lambda w: w.group(0) if w.group(0) in KEPT else 'x', text)
    return re.sub(r'\s+', '', re.sub(r'\d[\d_]*', '0', text))


KEPT = {'if', 'else', 'match', 'for', 'in', 'while', 'loop', 'return', 'let', 'mut', 'Some', 'None', 'Ok', 'Err'}


def point1(top):
    """Own enums, flags with a value, numbers for kinds or refusals."""
    yield from matching(top, r'\benum \w', r'fn .*&mut self.*-> bool', r'-> Option<(Fault|Clause)>',
                        r'fn number\(', r'component: 0\b')


def point2(top):
    """Functions of one crate whose bodies have one shape, with three tokens of code or more."""
    groups = collections.defaultdict(list)
    for where, name, _, body in functions(top):
        form = shape(body)
        if len(form) > 24:
            groups[where.split('/')[1], form].append((where, name))
    for form in sorted(groups):
        if len(groups[form]) > 1:
            for where, name in groups[form]:
                yield where, 'fn ' + name


def point3(top):
    """Loops over numbers, and loops that keep their own place."""
    yield from matching(top, r'\bfor \w+ in [^{]*\.\.', r'\bfor \([^)]*\) in .*enumerate\(\)', r'\bwhile\b', r'\bloop \{')


def point4(top):
    """Equality, order, copies, conversions and printing by hand."""
    yield from matching(top, r'fn (eq|ne|cmp|partial_cmp|clone|fmt|from|try_from|is_before|is_same|number|spelling|one_if)\b',
                        r'fn \w*_text\b', r'fn text\b')


def point5(top):
    """Facts that stand in the contracts of three functions or more, and pairs of parameters that do."""
    facts, pairs = collections.defaultdict(list), collections.defaultdict(list)
    for where, name, head, _ in functions(top):
        text = ' '.join(line.strip() for line in head)
        crate = where.split('/')[1]
        for clause in re.findall(r'requires (?:\w+ )?\{ (.*?) \}(?= requires| ensures|$| \{)', text):
            facts[crate, re.sub(r'\b\w+\.(now|old)\b', 'x', clause)].append((where, name))
        params = re.search(r'\((.*?)\)(?: ->| requires| ensures| \{|$)', text)
        names = re.findall(r'(\w+): ([^,]+)', params.group(1)) if params else []
        for i, a in enumerate(names):
            for b in names[i + 1:]:
                pairs[crate, a, b].append((where, name))
    for (crate, clause), found in sorted(facts.items()):
        if len({name for _, name in found}) >= 3:
            yield crate, f'fact {{ {clause} }} in ' + ', '.join(name for _, name in found)
    for (crate, a, b), found in sorted(pairs.items()):
        if len({name for _, name in found}) >= 3:
            yield crate, f'pair {a[0]}: {a[1]}, {b[0]}: {b[1]} in ' + ', '.join(name for _, name in found)


def point6(top):
    """Fixed buffers, lengths beside them, searches by hand, indices kept as values."""
    yield from matching(top, r'\[[^\[\]]+; *(\d+|[A-Z]\w*)\]', r'^\s*(pub )?(len|count|start|end|at): usize',
                        r'fn (place_of|spelled_among)\b')


def point7(top):
    """Enums of steps that are passed down, and tables."""
    yield from matching(top, r'\b(pick: Pick|Pick::\w+|Kind::(Level|User)\.|Run::\w+,|which: Standing|Standing::\w+\))', r'\bconst [A-Z]+: \[')


def point8(top):
    """Answers and lemma files of proofs/."""
    for path in sorted(top.glob('crates/*/proofs/**/*.antt')):
        if path.name != 'Lib.antt':
            yield str(path.relative_to(top)), f'{len(path.read_text().splitlines())} lines'


POINTS = [point1, point2, point3, point4, point5, point6, point7, point8]


def main(args):
    top = pathlib.Path(args[1] if len(args) > 1 else '.')
    if args:
        for where, what in POINTS[int(args[0]) - 1](top):
            print(f'{where}: {what}')
        return
    for n, point in enumerate(POINTS, 1):
        places = list(point(top))
        print(f'{n}  {len(places):4}  {point.__doc__}')


main(sys.argv[1:])
