#!/usr/bin/env python3
"""Counts, in crates/*/src/*.rt, the places of the points of docs/DESIGN-PASS.md; with the number of a point it lists them."""

import collections
import pathlib
import re
import sys

TOP = pathlib.Path(__file__).resolve().parent.parent / 'crates'


def sources():
    for path in sorted(TOP.glob('*/src/**/*.rt')):
        text = '\n'.join(line.split('//')[0] if '//' in line else line for line in path.read_text().split('\n'))
        yield str(path.relative_to(TOP)), text


def find(pattern, skip=None):
    for name, text in sources():
        for number, line in enumerate(text.split('\n'), 1):
            if re.search(pattern, line) and not (skip and re.search(skip, line)):
                yield f'{name}:{number}: {line.strip()}'


def enums():
    """Own enums of the shape of Option or Result: a case with a value beside one that says that there is none."""
    for name, text in sources():
        for found in re.finditer(r'\benum (\w+) \{(.*?)\n\}', text, re.S):
            cases = re.findall(r'^    (\w+)(\(| \{|,)', found.group(2), re.M)
            words = {case for case, _ in cases}
            if words & {'Refused', 'Bad', 'Nothing', 'Other', 'Unreadable', 'Unread'}:
                yield f'{name}: enum {found.group(1)}: {", ".join(case for case, _ in cases)}'


def flags():
    """Structs that have a verdict, an answer or a flag beside a value that counts for something with one of its cases alone."""
    for name, text in sources():
        for found in re.finditer(r'\bstruct (\w+)(?:<[^>]*>)? \{(.*?)\n\}', text, re.S):
            fields = re.findall(r'(\w+): ([^\n]*),', found.group(2))
            if any(field in ('verdict', 'answer', 'good', 'end') for field, _ in fields):
                yield f'{name}: struct {found.group(1)}: {", ".join(field for field, _ in fields)}'


def functions():
    for name, text in sources():
        for found in re.finditer(r'^(?:pub(?:\(crate\))? )?fn (\w+).*?^\}', text, re.S | re.M):
            yield name, found.group(1), found.group(0)


def shape(body):
    code = body[body.index('\n{') if '\n{' in body else body.index('{'):]
    code = re.sub(r'\b\d[\d_]*\b', '0', re.sub(r'\b(u8|u16|u32|u64|usize)\b', 'N', code))
    code = re.sub(r'\b(?!if|else|while|for|in|let|mut|return|match|as|true|false|N\b)[A-Za-z_]\w*', 'x', code)
    return re.sub(r'\s+', '', code)


def twins():
    """Functions that are the same but for names, types and numbers; of a body with at least one test, loop or call of weight."""
    same = collections.defaultdict(list)
    for name, function, body in functions():
        code = shape(body)
        if len(code) > 24:
            same[code].append(f'{name}::{function}')
    for group in same.values():
        if len(group) > 1:
            yield ', '.join(group)


def lengths():
    """Functions that choose by a row's length, each time the same call for 5, 4, 3 and 2."""
    for name, function, body in functions():
        if re.search(r'\b(?:if \w+ == 5|5 =>)', body) and re.search(r'\b(?:if \w+ == 4|4 =>)', body):
            yield f'{name}::{function}'


def parameters():
    """Groups of three or more parameters that three or more functions have alike."""
    seen = collections.defaultdict(set)
    for name, function, body in functions():
        head = body[:body.index('\n{')] if '\n{' in body else body
        listed = re.search(r'\((.*?)\)(?: ->|\n|$)', head, re.S)
        names = re.findall(r'(\w+): (&?(?:mut )?[\w\[\]; ]+)', listed.group(1)) if listed else []
        for at in range(len(names) - 2):
            seen[tuple(names[at:at + 3])].add(f'{name}::{function}')
    for group, where in seen.items():
        if len(where) > 2:
            yield ', '.join(f'{a}: {b}' for a, b in group) + f'  in {len(where)} functions'


def clauses():
    """Conditions of a `requires` that stand alike in three or more functions of one crate."""
    seen = collections.defaultdict(set)
    for name, function, body in functions():
        head = body[:body.index('\n{')] if '\n{' in body else ''
        for clause in re.findall(r'requires(?: \w+)? \{ (.*?) \}\n', head + '\n', re.S):
            seen[name.split('/')[0], re.sub(r'\s+', ' ', clause)].add(function)
    for (crate, clause), where in seen.items():
        if len(where) > 2:
            yield f'{crate}: {clause}  in {len(where)} functions'


def buffers():
    """Structs that have an array with a count of its entries beside it."""
    for name, text in sources():
        for found in re.finditer(r'\bstruct (\w+) \{(.*?)\n\}', text, re.S):
            if re.search(r'\b(count|number|chosen)\b', found.group(2)) and '[' in found.group(2):
                yield f'{name}: struct {found.group(1)}'


POINTS = {
    '1': [('own enums of the shape of Option or Result', enums), ('a verdict or a flag with a value beside it', flags),
          ('numbers for kinds and refusals', lambda: find(r'\b(kind|number): usize,'))],
    '2': [('functions alike but for names, types and numbers', twins), ('the same call for each length of a row', lengths),
          ('calls of minmax', lambda: find(r'\b(smaller|larger)\(', r'\bfn '))],
    '3': [('loops by hand', lambda: find(r'\bwhile\b|\bloop \{'))],
    '4': [('conversions by as', lambda: find(r'\bas (u8|u16|u32|u64|usize)\b')),
          ('derives of Clone and Copy alone', lambda: find(r'#\[derive\(Clone, Copy\)\]')),
          ('cases by if after if', lambda: find(r'^\s*if \w+(\.\w+)* == \w+ \{$'))],
    '5': [('three parameters that travel together', parameters), ('a condition in three contracts of a crate', clauses)],
    '6': [('an array with its count', buffers)],
    '7': [('boxed or listed functions', lambda: find(r'\bdyn\b|\bfn\('))],
}


def main():
    for point, kinds in POINTS.items():
        for title, places in kinds:
            found = list(places())
            if point in sys.argv[1:]:
                print('\n'.join(found))
            print(f'{point}. {title}: {len(found)}')


main()
