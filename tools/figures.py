#!/usr/bin/env python3
"""Figures of the proofs, for the tree that it is run in: python3 tools/figures.py

- names unfolded across a crate's border: names of `unfolding` lines of .antt files that the file has from another crate of this
  repository (`use Rattle.OTHER.specs..` or `.proofs..`), counted with repetitions, and the pairs of crates that have most;
- the longest line of a function's proof (Invariants.antt, Answers.antt, Proof.antt) and of any .antt file, and the lines over 160 characters;
- how many functions have each of these files, and their bytes; of Proof.antt, the form of older kits, also the share that is the word `.before`;
- for each line of crates.txt how many crates it names.

The figures of older versions in docs/DECISIONS.md and docs/CHANGES.md are of Proof.antt alone, and are not to be compared with those of today.
"""
import collections
import glob
import os
import re

LIMIT = 160
PROOFS = ('Invariants.antt', 'Answers.antt', 'Proof.antt')


def root():
    d = os.getcwd()
    while not os.path.exists(os.path.join(d, 'crates.txt')):
        if d == '/':
            raise SystemExit('figures: no crates.txt here or above')
        d = os.path.dirname(d)
    return d


def imports(text):
    """name, or alias of a module, → the crate of this repository that it comes from."""
    found = {}
    for m in re.finditer(r'^ *(?:pub )?use Rattle\.(\w+)\.((?:specs|proofs)\S*?)(?:\.\{([^}]*)\}| as (\S+)|)$', text, re.M):
        crate, path, names, alias = m.groups()
        if not os.path.isdir(os.path.join(root(), 'crates', crate)):
            continue
        for name in re.split(r',\s*', names.strip().strip(',')) if names else [alias or path.split('.')[-1]]:
            found[name.strip().split(' as ')[-1]] = crate
    return found


def unfolded(text):
    """The names of every `unfolding` line, those of lines that go on too."""
    for m in re.finditer(r'^( *)unfolding ((?:[^\n]*)(?:\n\1 {4}[^\n:=]*(?=\n))*)', re.sub(r'--[^\n]*', '', text), re.M):
        yield from m.group(2).split()


def main():
    files = sorted(f for kind in ('specs', 'proofs') for f in glob.glob(os.path.join(root(), 'crates', '*', kind, '**', '*.antt'), recursive=True))
    over, pairs, opens, here = collections.Counter(), collections.Counter(), collections.Counter(), 0
    counts, sizes, before_bytes = collections.Counter(), collections.Counter(), 0
    longest = {'proofs of functions': (0, ''), '*.antt': (0, '')}
    long = {kind: 0 for kind in longest}
    for f in files:
        text, name = open(f, encoding='utf-8').read(), os.path.relpath(f, root())
        crate, known = name.split(os.sep)[1], imports(text)
        for word in unfolded(text):
            source = known.get(word) or known.get(word.split('.')[0] if '.' in word else '')
            if source and source != crate:
                over[word.split('.')[-1]] += 1
                pairs[crate + ' opens ' + source] += 1
                opens[crate] += 1
            else:
                here += 1
        last = os.path.basename(f)
        kinds = ['*.antt'] + (['proofs of functions'] if last in PROOFS else [])
        for i, line in enumerate(text.split('\n'), 1):
            for k in kinds:
                longest[k] = max(longest[k], (len(line), '%s:%d' % (name, i)))
                long[k] += len(line) > LIMIT
        if last in PROOFS:
            counts[last] += 1
            sizes[last] += len(text.encode())
            before_bytes += len('.before') * text.count('.before') * (last == 'Proof.antt')
    print('names unfolded across a crate\'s border: %d (%d different); within a crate or of the toolchain: %d' % (sum(over.values()), len(over), here))
    print('  most: ' + ', '.join('%s %d' % x for x in over.most_common(12)))
    print('  by crate: ' + ', '.join('%s %d' % x for x in opens.most_common()))
    print('  ' + ', '.join('%s %d' % x for x in pairs.most_common(12)))
    for k in longest:
        print('%s: longest line %d (%s); lines over %d: %d' % ((k,) + longest[k] + (LIMIT, long[k])))
    print('; '.join('%s: %d files, %d bytes' % (name, counts[name], sizes[name]) for name in PROOFS) + ', `.before` is %.1f %% of them' % (
        100 * before_bytes / max(1, sizes['Proof.antt'])))
    print('crates named by each line of crates.txt:')
    rows = [l.split(':') for l in open(os.path.join(root(), 'crates.txt')) if ':' in l and not l.startswith('#')]
    print('  ' + ', '.join('%s %d' % (r[0], len(r[1].split())) for r in rows))
    print('  %d crates, %d names in all' % (len(rows), sum(len(r[1].split()) for r in rows)))


if __name__ == '__main__':
    main()
