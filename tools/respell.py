#!/usr/bin/env python3
"""Brings the repository's own definitions and lemmas to the spelling of today's Rattle: words in snake case.

It is run once, at the top, right after /opt/rattle/port/port.py, which respells only some of these names. A name is
renamed where it is declared in specs/ or proofs/ of a crate here; a name that a library has too keeps its spelling in
a file that imports it from that library. Functions of src/, exported names, strings and generated names stay.
A lemma that would then have its definition's name gets `_lem`.
"""
import collections
import glob
import re

SEPARATORS = r"""[^\s(){}.,;:\[\]"`|↦λ]+"""
MODIFIERS = r'(?:pub |abbrev |unfoldable )*'
# lemmas and helpers whose name in snake case is that of a definition
LEMMAS = {
    'body-in', 'body-part', 'bytes-in', 'found-tests', 'gcnf-word', 'goal-level', 'heading-of', 'is-group', 'is-minus', 'literals-for',
    'most-groups', 'none-text', 'p-word', 'record-line', 'refusal-text', 'top-words', 'up-to',
}
# the same, where port.py gave the lemma that name already: file, old, new
BEFORE = [
    ('crates/text/proofs/Gathering.antt', 'head_in', 'head_in_lem'),
    ('crates/clause_line/proofs/Steps.antt', 'by_number', 'by_number_lem'),
]


def own_files():
    return sorted(glob.glob('crates/*/specs/**/*.antt', recursive=True) + glob.glob('crates/*/proofs/*.antt'))


def is_old(name):
    if name[0].isupper():
        return False
    return bool(re.search(r'[A-Za-z0-9]-[A-Za-z0-9]', name) or re.search(r'[a-z0-9][A-Z]', name))


def snake(name):
    lemma = '_lem' if name in LEMMAS else ''
    name = re.sub(r'([a-z0-9])([A-Z])', lambda m: m.group(1) + '_' + m.group(2).lower(), name)
    return name.replace('-', '_') + lemma


def declared(text):
    found = set()
    for line in text.split('\n'):
        if line.strip().startswith('--'):
            continue
        m = re.match(r'^\s*' + MODIFIERS + r'([^\s:(){}.,;\[\]λ=]+(?:\s+[^\s:(){}.,;\[\]λ=]+)*?)\s+:\s', line)
        if m:
            found.update(m.group(1).split())
    return found


def foreign(text, crates):
    """The names that a file imports from a library."""
    found = set()
    for m in re.finditer(r'^\s*(?:ghost )?use ([^\s{]+)\.\{([^}]*)\}', text, re.M):
        path = m.group(1).split('.')
        if not (path[0] == 'Rattle' and path[1] in crates):
            found.update(n.strip() for n in m.group(2).split(','))
    return found


def main():
    crates = {p.split('/')[1] for p in glob.glob('crates/*/src')}
    names = set()
    for path in own_files():
        names |= declared(open(path).read())
    renamed = {n: snake(n) for n in sorted(names) if is_old(n)}
    renamed['orElse'] = 'or_else'
    together = collections.Counter(renamed.values())
    for old, new in renamed.items():
        if together[new] > 1:
            print('fall together:', old, new)
        elif new in names and old != '◌orElse◌':
            print('there already:', old, new)
    files = own_files()
    for pattern in ('crates/*/proofs/*/**/*.antt', 'crates/*/src/**/*.rt', 'crates/*/must-fail/*.edit'):
        files += sorted(glob.glob(pattern, recursive=True))
    for path in files:
        text = open(path).read()
        kept = foreign(text, crates)

        def turn(m):
            word = m.group(0)
            for where, old, new in BEFORE:
                if path == where and word == old:
                    return new
            return word if word in kept else renamed.get(word, word)

        turned = re.sub(SEPARATORS, turn, text)
        turned = re.sub(r'\b([A-Z][A-Za-z]*)·v\b', r'\1V', turned) # a module by another name
        if turned != text:
            open(path, 'w').write(turned)
    for path in ['README.md'] + sorted(glob.glob('docs/**/*.md', recursive=True)):
        text = open(path).read()
        turned = re.sub(r'`([^`\s]+)`', lambda m: '`' + renamed.get(m.group(1), m.group(1)) + '`', text)
        if turned != text:
            open(path, 'w').write(turned)


if __name__ == '__main__':
    main()
