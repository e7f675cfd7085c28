#!/usr/bin/env python3
"""Counts what docs/DESIGN-PASS.md counts in src/ and proofs/: python3 tools/places.py [POINT] lists the places of each point, and ends with their numbers."""
import collections
import glob
import os
import re
import sys

os.chdir(os.path.join(os.path.dirname(os.path.abspath(__file__)), '..'))
FILES = sorted(glob.glob('crates/*/src/**/*.rt', recursive=True))


def code(path):
    """The file without its comments and without the clauses, which aren't code."""
    out = []
    for line in open(path, encoding='utf-8'):
        bare = line.split('//')[0] if line.lstrip().startswith('//') or ' // ' in line else line
        out.append(bare.rstrip('\n'))
    return out


def functions(path):
    """Each function as (its line's number, name, parameters, clauses, body)."""
    text = '\n'.join(code(path))
    for m in re.finditer(r'^(?:    )?(?:pub(?:\(crate\))? )?(?:extern "C" )?fn (\w+)', text, re.M):
        rest = text[m.end():]
        opening = rest.find('\n{') if '\n{' in rest else len(rest)
        brace = re.search(r'(?:^|\n)(?:    )?\{\n|\) (?:-> [^\n{]+ )?\{\n', rest)
        end = brace.end() if brace else opening
        head = rest[:end]
        depth, i = 1, end
        while i < len(rest) and depth:
            depth += {'{': 1, '}': -1}.get(rest[i], 0)
            i += 1
        params = re.search(r'\((.*?)\)\s*(?:->|\n|\{)', head, re.S)
        names = re.findall(r'(\w+): ((?:&(?:mut )?)?[\w\[\]; <>]+)', params.group(1)) if params else []
        clauses = re.findall(r'(requires|ensures)(?: \w+)? \{(.*)\}', head)
        yield text[:m.start()].count('\n') + 1, m.group(1), names, clauses, rest[end:i]


def enums():
    """Enums and structs that may stand for Option, Result, bool or a flag with a value: all enums with a variant that says no, and structs with a flag or a nought for it."""
    for path in FILES:
        text = '\n'.join(code(path))
        for m in re.finditer(r'^(?:pub(?:\(crate\))? )?enum (\w+)[^{]*\{(.*?)^\}', text, re.M | re.S):
            variants = re.findall(r'^    (\w+)', m.group(2), re.M)
            if re.search(r'\b(Not|Nothing|Never|Wrong|Refused|Usage|Stops|NoState|NoKeyword|Unended|Unlisted|Accepted)\b', ' '.join(variants)):
                yield f'{path}:{text[:m.start()].count(chr(10)) + 1}: enum {m.group(1)} {{{", ".join(variants)}}}'
        for m in re.finditer(r'^(?:pub(?:\(crate\))? )?struct (\w+)[^{(;]*\{(.*?)^\}', text, re.M | re.S):
            fields = re.findall(r'^    (?:pub(?:\(crate\))? )?(\w+): ([^,]+),', m.group(2), re.M)
            kinds = [t for _, t in fields]
            flags = [n for n, t in fields if (t == 'bool' and n in ('on', 'accepted', 'right', 'read', 'loads', 'missing'))
                     or n in ('came', 'answer') or (n == 'n' and len(fields) == 2 and not kinds[0].startswith('['))]
            if flags and len(fields) > 1:
                yield f'{path}:{text[:m.start()].count(chr(10)) + 1}: struct {m.group(1)} by {", ".join(flags)}'


def twins():
    """Functions whose bodies differ only in names, numbers and texts (25 tokens at least)."""
    seen = collections.defaultdict(list)
    for path in FILES:
        for line, name, params, _, body in functions(path):
            tokens = re.findall(r'b?"(?:[^"\\]|\\.)*"|b?\'(?:[^\'\\]|\\.)+\'|\w+|[^\w\s]', body)
            kept = {'if', 'else', 'match', 'return', 'while', 'for', 'in', 'let', 'mut', 'true', 'false', 'Ok', 'Err', 'Some', 'None'}
            shape = tuple(t if t in kept or not re.match(r'\w|b?["\']', t) else '_' for t in tokens)
            if len(shape) > 24:
                seen[(len(params), shape)].append(f'{path}:{line}: {name}')
    for places in seen.values():
        if len(places) > 1:
            yield ' ~ '.join(places)


def loops():
    for path in FILES:
        for n, line in enumerate(code(path), 1):
            if re.search(r'\bwhile\b|^\s*loop \{', line):
                yield f'{path}:{n}: {line.strip()}'


def by_hand():
    """Conversions through a function of our own, fields written twice, and functions that compare or copy."""
    for path in FILES:
        lines = code(path)
        for n, line in enumerate(lines, 1):
            if re.search(r'\b(wide|place_of|figure|wide_index|wide_count|small|byte|column)\((?!\w+: )', line) and ' fn ' not in ' ' + line and '_(' not in line:
                yield f'{path}:{n}: {line.strip()}'
            elif re.match(r'\s+(\w+): \1,$', line):
                yield f'{path}:{n}: {line.strip()}'
        for line, name, params, _, body in functions(path):
            if re.fullmatch(r'same\w*|starts|lay|fill|blank|is_accepted|is_put', name):
                yield f'{path}:{line}: fn {name}'


def together():
    """A fact that stands in the requires of three or more functions, and pairs of parameters that twelve or more functions have."""
    clauses, pairs = collections.defaultdict(list), collections.defaultdict(list)
    for path in FILES:
        for line, name, params, cl, _ in functions(path):
            for kind, text in cl:
                for fact in re.split(r' × ', text.strip()):
                    fact = fact.strip().strip('()').strip()
                    if kind == 'requires' and len(fact) > 8:
                        clauses[fact].append(f'{path}:{line}: {name}')
            for i, a in enumerate(params):
                for b in params[i + 1:]:
                    pairs[(a, b)].append(f'{path}:{line}: {name}')
    for fact, places in sorted(clauses.items()):
        if len(places) > 2:
            yield f'requires {fact}: {len(places)} functions ({places[0]} ..)'
    for (a, b), places in sorted(pairs.items()):
        if len(places) > 11:
            yield f'{a[0]}: {a[1]}, {b[0]}: {b[1]}: {len(places)} functions ({places[0]} ..)'


def buffers():
    """Structs with an array and a count of what stands in it."""
    for path in FILES:
        text = '\n'.join(code(path))
        for m in re.finditer(r'^(?:pub(?:\(crate\))? )?struct (\w+)[^{(;]*\{(.*?)^\}', text, re.M | re.S):
            if re.search(r': \[', m.group(2)) and re.search(r'\b(n|count|kept|walked)\b', m.group(2)):
                yield f'{path}:{text[:m.start()].count(chr(10)) + 1}: struct {m.group(1)}'


def steps():
    for path in FILES:
        for n, line in enumerate(code(path), 1):
            if re.search(r'\bfn\(|\bdyn\b|\bFn(Mut|Once)?\(', line):
                yield f'{path}:{n}: {line.strip()}'


def proofs():
    for kind in ('Proof', 'Invariants', 'Answers'):
        found = glob.glob(f'crates/*/proofs/**/{kind}.antt', recursive=True)
        lines = sum(1 for p in found for _ in open(p, encoding='utf-8'))
        yield f'{kind}.antt: {len(found)} files, {lines} lines'
    every = glob.glob('crates/*/proofs/**/*.antt', recursive=True)
    yield f'proofs/: {len(every)} files, {sum(1 for p in every for _ in open(p, encoding="utf-8"))} lines'


POINTS = {'1': enums, '2': twins, '3': loops, '4': by_hand, '5': together, '6': buffers, '7': steps, '8': proofs}

wanted = sys.argv[1:] or sorted(POINTS)
totals = []
for point in wanted:
    places = list(POINTS[point]())
    print(f'-- point {point}: {POINTS[point].__doc__ or POINTS[point].__name__}')
    for place in places:
        print(place)
    totals.append(f'{point}: {len(places)}')
print('places by point: ' + ', '.join(totals))
