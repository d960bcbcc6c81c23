#!/usr/bin/env python3
"""Brings the repository's own definitions and lemmas to snake case, after the kit's port.py: run once, at the top.

Names of functions in src/, exported C names, strings, inputs and outputs keep their spelling. Where two names would fall together, the lemma
gets `_lem`, or the name that OVERRIDES has for it. With --list it prints the table and changes nothing.
"""
import collections
import glob
import re
import sys

CRATES = [line.split(':')[0] for line in open('crates.txt') if re.match(r'[a-z_]+:', line)]
OWN = re.compile(r'Rattle\.(' + '|'.join(CRATES) + r')\b')
DECLARED = re.compile(r"\s*(?:(?:abbrev|pub|unfoldable|record|data|private)\s+)*([^\s(){};.,]+)(?:\s+\([^)]*\)|\s+\{[^}]*\})*\s+:\s(.*)$")
TOKEN = re.compile(r"[^\s(){};.,\"`/]+")

# Names that would otherwise fall together with another of the repository's own, or that were aliases of the kit's.
OVERRIDES = {
    'most-rows': 'at_most_rows', 'most-processors': 'at_most_processors', 'most-separation': 'at_most_separation',
    'most-threads': 'at_most_threads', 'most-deadline': 'at_most_deadline', 'most-budget': 'at_most_budget',
    'most-span': 'at_most_span', 'most-length': 'at_most_length',
    'sheet-long': 'long_sheet', 'results-long': 'long_results',
    'refused-by': 'refused_margin', 'over-budget': 'over_the_budget', 'no-such-row': 'missing_row', 'not-legal': 'illegal_sheet',
    'cutOff': 'list_cut_off', 'byTests': 'code_by_tests',
    'List·getD-append': 'get_or-append', 'List·getD-eq-default': 'get_or-eq_default', 'List·getD-map': 'get_or-map',
}


def proofs_and_specs():
    return sorted(f for part in ('specs', 'proofs') for f in glob.glob(f'crates/*/{part}/**/*.antt', recursive=True))


def snake(name):
    if re.match(r'[a-z]', name):
        name = re.sub(r'(?<=[a-z0-9])([A-Z])', lambda m: '_' + m.group(1).lower(), name)
    return name.replace('-', '_')


def table():
    declared, foreign = collections.Counter(), set()
    for path in proofs_and_specs():
        for line in open(path):
            found = DECLARED.match(line)
            if found and not line.strip().startswith(('--', 'let')):
                declared[found.group(1)] += 1
            found = re.match(r'\s*(?:unfoldable )?(?:pub )?use ([^{]*)\.\{(.*)\}', line)
            if found and not OWN.match(found.group(1)):
                foreign.update(name.split(' as ')[0].strip() for name in found.group(2).split(','))
    own = [n for n in declared if n not in foreign and (re.search(r'\w-\w', n) or re.match(r'[a-z][a-z0-9]*[A-Z]', n))]
    by_new = collections.defaultdict(list)
    for name in declared:
        by_new[snake(name)].append(name)
    names = {}
    for name in own:
        if name in OVERRIDES or name.startswith(('Inv-', 'μ-')):
            continue
        new = snake(name)
        names[name] = new + '_lem' if '-' in name and len(by_new[new]) > 1 else new
    names.update(OVERRIDES)
    return names, foreign


def main():
    names, foreign = table()
    listing = '--list' in sys.argv
    if listing:
        for old, new in sorted(names.items()):
            print(old, new)
    paths = proofs_and_specs() + sorted(glob.glob('crates/*/src/**/*.rt', recursive=True)) + sorted(glob.glob('crates/*/must-fail/*.edit'))
    pages = ['README.md'] + sorted(glob.glob('docs/*.md')) + sorted(glob.glob('docs/landings/*.md'))
    clashes = 0
    for path in paths + pages:
        text = open(path).read()
        tokens = set(TOKEN.findall(text))
        met = collections.defaultdict(set)
        for token in tokens:
            met[names.get(token, token)].add(token)
        if path in paths:
            for new, olds in met.items():
                if len(olds) > 1 and path.endswith('.antt') and not (olds & set(OVERRIDES) and new in foreign):
                    clashes += 1
                    print('falls together:', path, sorted(olds), new, file=sys.stderr)
        if path in pages:
            # in a page only what stands between backquotes is a name
            new_text = re.sub(r'`[^`\n]*`', lambda m: TOKEN.sub(lambda t: names.get(t.group(0), t.group(0)), m.group(0)), text)
        else:
            new_text = TOKEN.sub(lambda m: names.get(m.group(0), m.group(0)), text)
            new_text = re.sub(r'\b(get_or-[a-z_]+) as \1(?=[,}])', r'\1', new_text)
        if new_text != text and not listing:
            open(path, 'w').write(new_text)
    print(f'respell: {len(names)} names, {clashes} places where two fall together', file=sys.stderr)


if __name__ == '__main__':
    main()
