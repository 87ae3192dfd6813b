#!/usr/bin/env python3
"""Lists the places of the points of docs/DESIGN-PASS.md in crates/*/src, and of its last one in crates/*/proofs.

    tools/design_places.py          the number of places for each pattern
    tools/design_places.py WORD     the places of the patterns whose name has this word

A pattern finds candidates: what is found is read, and is a place or says why it stays.
"""
import collections
import glob
import os
import re
import sys

TOP = os.path.join(os.path.dirname(os.path.abspath(__file__)), '..')
WIDTHS = r'\b(?:u8|u16|u32|u64|usize)\b'


def read(path):
    with open(path, encoding='utf-8') as f:
        return f.read()


def without_comments(text):
    return re.sub(r'//[^\n]*', lambda m: ' ' * len(m.group()), text)


def sources():
    for path in sorted(glob.glob(os.path.join(TOP, 'crates', '*', 'src', '*.rt'))):
        yield os.path.relpath(path, TOP), without_comments(read(path))


def line_of(text, at):
    return text.count('\n', 0, at) + 1


def functions(text):
    """Name, parameters, clauses and body of each function."""
    for m in re.finditer(r'\bfn (\w+)(?:<[^(]*?>)?\(', text):
        at, depth = m.end(), 1
        while depth:
            depth += {'(': 1, ')': -1}.get(text[at], 0)
            at += 1
        params = text[m.end():at - 1]
        end, depth = at, 0
        while end < len(text) and not (text[end] in '{;' and re.search(r'(?:^|\n|[>\])\w]) *$', text[at:end]) and not clause(text, end)):
            if text[end] == '{':
                end = closing(text, end)
            end += 1
        if end >= len(text) or text[end] == ';':
            continue
        stop = closing(text, end)
        yield m, params, text[at:end], text[end:stop + 1]


def clause(text, at):
    """Whether the brace at this place opens a clause."""
    before = text[:at].rstrip()
    return re.search(r'\b(?:requires|ensures)(?:\s+\w+)?$', before) is not None


def closing(text, at):
    depth = 0
    for i in range(at, len(text)):
        depth += {'{': 1, '}': -1}.get(text[i], 0)
        if depth == 0:
            return i
    return len(text) - 1


def by_line(pattern):
    def places(path, text):
        for m in re.finditer(pattern, text, re.M):
            yield line_of(text, m.start()), m.group().strip().split('\n')[0]
    return places


def counting_loops(path, text):
    for m in re.finditer(r'\bwhile ([^{]*)\{', text):
        body = text[m.end():closing(text, m.end() - 1)]
        for name in re.findall(r'\b([a-z_]\w*)\b', m.group(1)):
            if re.search(r'^\s*%s [+-]= 1;' % name, body, re.M):
                yield line_of(text, m.start()), m.group().strip()
                break


def other_loops(path, text):
    counting = {line for line, _ in counting_loops(path, text)}
    for m in re.finditer(r'\b(?:while [^{]*|loop )\{', text):
        if line_of(text, m.start()) not in counting:
            yield line_of(text, m.start()), m.group().strip()


def long_lists(path, text):
    for m, params, _, _ in functions(text):
        n = len([p for p in re.sub(r'<[^<>]*>|\([^()]*\)', '', params).split(',') if p.strip()])
        if n >= 8:
            yield line_of(text, m.start()), '%s: %d parameters' % (m.group(1), n)


def repeated_facts():
    found = collections.defaultdict(list)
    for path, text in sources():
        for m, _, clauses, _ in functions(text):
            for c in re.finditer(r'requires(?: \w+)? \{', clauses):
                fact = ' '.join(clauses[c.end():closing(clauses, c.end() - 1)].split())
                fact = re.sub(r'\.(?:now|old|new)\b', '', fact)
                found[fact].append((path, line_of(text, m.start()), m.group(1)))
    for fact, where in sorted(found.items()):
        if len(where) >= 3:
            yield '%d functions, the first %s:%d %s' % (len(where), *where[0]), fact


def twins():
    groups = collections.defaultdict(list)
    for path, text in sources():
        for m, params, _, body in functions(text):
            shape = params + body
            shape = re.sub(WIDTHS, 'N', shape)
            shape = re.sub(r'\b[A-Z][A-Z0-9_]+\b|\b\d+\b', 'C', shape)
            shape = re.sub(r'b"[^"]*"|b\'.\'', 'C', shape)
            names = {}
            shape = re.sub(r'\b[a-z_]\w*\b', lambda w: names.setdefault(w.group(), 'v%d' % len(names)), shape)
            shape = re.sub(r'\s+', '', shape)
            groups[shape].append('%s:%d %s' % (path, line_of(text, m.start()), m.group(1)))
    for shape, where in sorted(groups.items(), key=lambda g: g[1]):
        if len(where) > 1:
            yield where[0], ', '.join(where[1:])


def answers():
    for path in sorted(glob.glob(os.path.join(TOP, 'crates', '*', 'proofs', '*', 'Answers.antt'))):
        text = read(path)
        for m in re.finditer(r'^pub (\S+) : goal\.', text, re.M):
            yield '%s:%d' % (os.path.relpath(path, TOP), line_of(text, m.start())), m.group(1)


PER_FILE = [
    ('1 enums', by_line(r'^ *(?:pub(?:\(crate\))? )?enum \w+')),
    ('1 flags beside a value', by_line(r'^ *(?:pub )?\w+: bool,')),
    ('1 refusals handed on', by_line(r'if let [\w:]*(?:Refused|Err)\(\w*\) = .*\{\n *return')),
    ('1 numbers for kinds', by_line(r'\b(?:number|side|row|kind|mark): (?:u8|usize)\b')),
    ('1 numbers that stand for none', by_line(r'\breturn (?:0|WRONG|NOTHING|parts::\w+|\w+\.len\(\));')),
    ('3 counting loops', counting_loops),
    ('3 other loops that stay', other_loops),
    ('4 types without Clone', by_line(r'^ *#\[derive\(Drop\)\]')),
    ('4 helpers that a derive or a method has',
     by_line(r'\bfn (?:same\w*|larger|smaller|greater|below|narrow_\w+|differs|less|one|one_of|wide16|added|none|code_of\w*|tell_\w+|copy|clear|zero)\b')),
    ('5 bases and mates as two parameters', by_line(r'\bfn \w+[^{]*?\w+: &(?:\'a )?\[u8\],\s*\w+: &(?:\'a )?\[u16\]')),
    ('5 functions of eight parameters and more', long_lists),
    ('6 places that are computed', by_line(r'^ *let (?:e|f|end|g) = \w+ \+ .*;')),
    ('6 a buffer and a place in it', by_line(r'out: &mut \[u8\], at: usize')),
    ('6 buffers of many things', by_line(r'\b(?:bytes|words): &(?:mut )?\[u(?:8|16)\]')),
    ('7 a letter that says the step', by_line(r'\b(?:kind|shape|form|row) == |match (?:kind|shape|form|number\()')),
]
WHOLE = [('2 functions alike but for types and constants', twins), ('5 facts of three functions and more', repeated_facts),
         ('8 answers', answers)]


def all_places():
    for name, find in PER_FILE:
        yield name, [('%s:%d' % (path, line), what) for path, text in sources() for line, what in find(path, text)]
    for name, find in WHOLE:
        yield name, list(find())


def main():
    word = sys.argv[1] if len(sys.argv) > 1 else None
    for name, found in sorted(all_places()):
        if word is None:
            print('%4d  %s' % (len(found), name))
        elif word in name:
            print('%s: %d' % (name, len(found)))
            for where, what in found:
                print('  %s  %s' % (where, what))


main()
