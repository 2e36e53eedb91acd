#!/usr/bin/env python3
"""Counts what docs/DESIGN-PASS.md speaks of: design_count.py [POINT], at the top of the repository.

Each point prints the places that a pattern finds in crates/*/src, one a line; the page says which of them are places of the point. Point 2 groups
functions and structs that are the same once names, numbers, texts and types are blanked; point 5 groups clauses and parameters by their text.
"""
import collections
import glob
import re
import sys

SOURCES = sorted(glob.glob('crates/*/src/**/*.rt', recursive=True))
WORDS = {
    'fn', 'pub', 'let', 'mut', 'if', 'else', 'while', 'loop', 'for', 'in', 'match', 'return', 'break', 'continue', 'as', 'struct', 'enum', 'impl',
    'true', 'false', 'const', 'where', 'Some', 'None', 'Ok', 'Err', 'self', 'Self',
}


def code(path):
    """The lines of a file without comments, clauses and imports of specs."""
    kept, clause = [], False
    for line in open(path):
        text = line.split('//')[0].rstrip('\n')
        if re.match(r' *(requires|ensures|ghost)\b', text):
            continue
        kept.append(text)
    return kept


def lines(pattern):
    for path in SOURCES:
        for number, text in enumerate(code(path), 1):
            if re.search(pattern, text):
                yield f'{path[7:]}: {text.strip()}'


def items(path):
    """The functions and structs of a file, each with its text."""
    text = '\n'.join(code(path))
    for found in re.finditer(r'^ *(?:pub )?(fn|struct) +(\w+)', text, re.M):
        at, depth = found.start(), 0
        for end in range(at, len(text)):
            if text[end] == '{':
                depth += 1
            if text[end] == '}':
                depth -= 1
                if depth == 0:
                    break
            if text[end] == ';' and depth == 0:
                break
        yield found[1], found[2], text[at:end + 1]


def shape(text):
    """The text with names numbered in their order, numbers and texts blanked."""
    seen, out = {}, []
    for token in re.findall(r'b?"(?:[^"\\]|\\.)*"|b\'[^\']*\'|\w+|[^\s\w]', text):
        if re.match(r'b?["\']', token):
            out.append('S')
        elif re.match(r'\d', token):
            out.append('N')
        elif re.match(r'\w', token) and token not in WORDS:
            out.append('I%d' % seen.setdefault(token, len(seen)))
        else:
            out.append(token)
    return ' '.join(out)


def twins():
    groups = collections.defaultdict(list)
    for path in SOURCES:
        for kind, name, text in items(path):
            form = shape(text)
            if len(form.split()) > 24:
                groups[kind, form].append(f'{path.split("/")[1]}::{name}')
    for (kind, _), names in sorted(groups.items(), key=lambda g: (-len(g[1]), g[1])):
        if len(names) > 1:
            yield f'{kind} ' + ', '.join(names)


def clauses():
    facts, pairs = collections.Counter(), collections.Counter()
    for path in SOURCES:
        text = open(path).read()
        for fact in re.findall(r'^ *(?:requires|ensures) *\w* *\{ (.*) \}$', text, re.M):
            facts[fact] += 1
        for parameters in re.findall(r'fn \w+[^(]*\(([^)]*)\)', text):
            names = [' '.join(p.split()) for p in parameters.split(',') if ':' in p]
            for first, second in zip(names, names[1:]):
                pairs[first + ', ' + second] += 1
    for kind, counted in (('clause', facts), ('parameters', pairs)):
        for text, count in counted.most_common():
            if count > 2:
                yield f'{kind} {count} times: {text}'


POINTS = {
    '1': lambda: [
        *lines(r'^(pub )?enum '), *lines(r'\b\w+: bool,'), *lines(r'\bgiven: bool'), *lines(r'^(pub )?const [A-Z0-9_]+: u(8|16) = '),
    ],
    '2': twins,
    '3': lambda: lines(r'^ *(while|loop)\b'),
    '4': lambda: [
        *lines(r'\* 256\b|\* 0x100\b|256 \* |\* 0x1_0000|/ 256\b|/ 0x100\b|65535 - |!x\)|0x1_0000'), *lines(r'fn (same|is_\w+|as_\w+|\w*fields_of|values)\('),
        *lines(r'std::num::wrapping|MAX - |LIMIT - '),
    ],
    '5': clauses,
    '6': lambda: [*lines(r'_AT: \['), *lines(r'\bend: usize'), *lines(r'\bkept: usize'), *lines(r'table: &\[u16\]')],
    '7': lambda: [*lines(r'fn\(|dyn |Fn\(|FnMut\('), *lines(r'match (kind|field|which|k) ')],
    '8': lambda: (
        f'{path.split("/")[1]}: {sum(1 for _ in open(path))} lines in {path}'
        for path in sorted(glob.glob('crates/*/proofs/**/Answers.antt', recursive=True))
    ),
}

for point in sys.argv[1:] or POINTS:
    found = list(POINTS[point]())
    print(f'point {point}: {len(found)} found')
    for line in found:
        print('  ' + line)
